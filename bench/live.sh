#!/usr/bin/env bash
# What `hmr dev` costs over real JavaScript, beside esbuild's server: each figure in a line, and whether it keeps its
# limit.
#
#     bench/live.sh [PROGRAM [PART]] [--quick]
#     bench/live.sh PROGRAM soak [MINUTES]
#
# PROGRAM is the program of `./hmr dev`, which `./hmr --which dev` names where none is given. Without a PART all but
# `soak` are measured, in some six minutes. The status is 1 where a limit is missed. With --quick all is small and
# few, to try the script; its figures mean nothing. A page is a tree of modules in which each imports up to four more
# and accepts itself.
#
# - ready: from the start of the process to the first answer, of 1,000 and 4,096 files, 9 starts each, of `hmr dev` and
#   of `esbuild --bundle --servedir` in turn. Ours is the line `ready in ..` and a module that is answered behind it;
#   each file was read and scanned then. esbuild's is its bundle: it names its address before it has built anything,
#   and builds at the first request. At most half of esbuild's.
# - save: from the write of the tree's last module to the moment at which its new value is in the document of a page in
#   headless Chromium, which the page tells a small HTTP server here; 400 and 4,096 files, 20 saves each. Ours is a hot
#   update; esbuild's is its live reload, as its documentation has it. No later than esbuild's, and at 4,096 files at
#   most 1.5 times as long as at 400.
# - updates: 200 saves in a row on one page of 400 files. The last 50 take at most 1.25 times as long as the first 50.
# - client: the script that each page gets, gzipped: at most 12,000 bytes.
# - idle: the processor time of a minute with 10 pages of 4,096 files in which nothing changes: at most 1.2 s, 2 %.
# - memory: after 1,000 saves with one page of 400 files, and what each adds beyond its entries of the transcript,
#   which have 64 bytes each and their names and texts.
# - soak: 32 pages and a save a second, for ten minutes where no other time is given: the memory each minute, and at
#   the end whether each page is up and has the modules of a fresh load. Each tenth save is of a module that nothing
#   accepts.
#
# Pages of `idle`, `memory` and `soak` are clients of the protocol, as in tests/live. Where esbuild or Chromium isn't
# installed, what needs it is skipped, and said.
set -eu
top=$(cd "$(dirname "${BASH_SOURCE[0]}")/.." && pwd)
case ${1-} in
  -h | --help) exec sed -n '2,/^set /{/^set /d; s/^# \{0,1\}//; p}' "${BASH_SOURCE[0]}" ;;
  '' | --quick) program=$("$top/hmr" --which dev) || exit 1 ;;
  *)
    program=$1
    shift
    [ -x "$program" ] || { echo "no program at $program: ./hmr --prove dev --help builds it" >&2; exit 1; }
    ;;
esac
exec python3 "$top/bench/live" "$program" "$@"
