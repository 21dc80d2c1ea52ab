# Proves and builds the program, and shows how far that is: ./hmr --prove
#
# Sourced by ./hmr, with `top`, `say` and the functions of programs.sh. The toolchain's command `rt run` proves the
# crates below the program one after another, and keeps each in its out/ once it is done, so a run that was cut off
# goes on there. Its log is .hmr/prove.log; how far it is comes from the last crate that the log names.

# crates_below CRATE: the crates that it stands on and itself, one a line, in the order in which they are proved.
crates_below() {
  awk -F ':' -v last="$1" '
    !/^#/ && NF > 1 { below[$1] = $2; known[$1] = 1 }
    function visit(crate, parts, count, i) {
      if (!(crate in known) || (crate in seen)) return
      seen[crate] = 1
      count = split(below[crate], parts, " ")
      for (i = 1; i <= count; i++) visit(parts[i])
      print crate
    }
    END { visit(last) }' "$top/crates.txt"
}

# under_way LOG: the crate that the log names last, if it names one.
under_way() { sed -n 's/^rt: chose --jobs [0-9]* for \([a-z0-9_]*\)$/\1/p' "$1" | tail -n 1; }

# how_far CRATE ORDER LOG BEGUN: the line of progress, where that crate is under way.
how_far() {
  local all done=0
  all=$(wc -l <<< "$2")
  [ -z "$1" ] || done=$(($(grep -nxF -- "$1" <<< "$2" | cut -d : -f 1) - 1))
  echo "$done of $all crates proved, ${1:-the sources} under way," \
    "$((($(date +%s) - $4) / 60)) minutes so far; log: ${3#"$top"/}"
}

# show_progress PID ORDER LOG: the line of progress until the process ends: on a terminal always the same line, else
# one for each crate.
show_progress() {
  local begun crate last=none
  begun=$(date +%s)
  while kill -0 "$1" 2> /dev/null; do
    crate=$(under_way "$3")
    if [ -t 2 ]; then
      printf '\r\033[Khmr: %s' "$(how_far "$crate" "$2" "$3" "$begun")" >&2
    elif [ "$crate" != "$last" ]; then
      say "$(how_far "$crate" "$2" "$3" "$begun")"
    fi
    last=$crate
    # (it doesn't hold the lock on when this script is stopped)
    sleep 1 9>&-
  done
  [ ! -t 2 ] || printf '\r\033[K' >&2
}

# stop PID: ends the toolchain, and this script.
stop() {
  kill "$1" 2> /dev/null
  wait "$1"
  [ ! -t 2 ] || echo >&2
  say "stopped; ./hmr --prove goes on from here"
  exit 130
}

# prove NAME: proves and builds the program where it isn't built here; ends this script where it can't be.
prove() {
  local crate order log prover
  if is_built_here "$1"; then
    say "the program is proved and built here already"
    return
  fi
  need_toolchain
  crate=$(crate_of "$1")
  order=$(crates_below "$crate")
  log="$top/.hmr/prove.log"
  mkdir -p "$top/.hmr" || exit 1
  exec 9> "$top/.hmr/prove.lock"
  flock -n 9 || { say "another ./hmr --prove is under way here; its log: ${log#"$top"/}"; exit 1; }
  say "proving and building the program; Ctrl-C stops it, and a later ./hmr --prove goes on from there"
  (cd "$top/crates/$crate" && exec rt run > "$log" 2>&1 < /dev/null 9>&-) &
  prover=$!
  # the toolchain ends all that it has started when it ends
  trap 'stop "$prover"' INT TERM HUP
  show_progress "$prover" "$order" "$log"
  wait "$prover"
  trap - INT TERM HUP
  exec 9>&-
  if ! is_built_here "$1"; then
    say "the program wasn't built; the end of the log, ${log#"$top"/}:"
    tail -n 20 "$log" >&2
    exit 1
  fi
  say "the program is proved and built"
}
