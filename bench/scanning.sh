#!/usr/bin/env bash
# Bytes per second of the scan of JavaScript, and of scan and skeleton together, beside es-module-lexer.
#
#     bench/scanning.sh FOLDER [PROGRAM]
#
# The texts are the .js and .mjs files below FOLDER of at most 100,000 bytes, up to 2,000 of them. A small program over
# es_scan and skeletons, which is proved before it is built, in a copy of the crates, reads them once and scans each 20
# times; es-module-lexer does the same, where Node finds it (NODE_PATH says where to look). What is told is processor time
# in user mode, the best of five runs, less that of a run that scans none. Then one text of 1, 2 and 5 MB, made of these
# files, for how the time grows, one of 40 MB for the peak of memory, and instructions per byte, where valgrind is
# installed. PROGRAM, where one is given, is that small program, built before.
set -eu
source "$(dirname "${BASH_SOURCE[0]}")/small_program.sh"

folder=${1:?bench/scanning.sh FOLDER [PROGRAM]}
program=${2-}
if [ -z "$program" ]; then
  begin scan_bench hmr_types es_scan skeletons
  cat > "$own/src/main.rt" << 'END_OF_MAIN'
//! Scans the files of its words so many times over, and tells how many module specifiers the last run found.
#![tactic(auto)]

mod runs;

use runs::{scanned, skeletons_of};
use std::io;
use std::{env, fs};

fn main(rt: HostRuntime) -> io::Result<()> {
    let alloc = rt.alloc();
    let out = rt.stdout();
    let mut words = env::args(&rt)?.skip(1);
    let (Some(what), Some(runs)) = (words.next(), words.next()) else {
        return Ok(());
    };
    let Ok(runs) = runs.parse::<u32>() else {
        return Ok(());
    };
    let mut count: u64 = 0;
    for name in words {
        let text = fs::read(&rt, name.as_str())?;
        if text.len() >= 4_000_000_000 {
            return Ok(());
        }
        let found = if what.as_str() == "scan" {
            scanned(alloc, &text, runs)
        } else {
            skeletons_of(alloc, &text, runs)
        };
        count = found.saturating_add(count);
    }
    println!(out; "{count}")?;
    Ok(())
}
END_OF_MAIN
  cat > "$own/src/runs.rt" << 'END_OF_RUNS'
// Runs of the scan over one text.
ghost use Rattle.std.specs.Prelude.{◌≤◌, length};

use es_scan::scan;
use hmr_types::ModName;
use skeletons::skeleton;
use std::alloc::Global;

/// How many specifiers the last run found; at most a thousand count.
pub fn scanned(alloc: Global, text: &[u8], runs: u32) -> u64
    requires { length text.now ≤ 4000000000 }
{
    let mut count = 0;
    for _ in 0..runs {
        if let Ok(found) = scan(alloc, text) {
            count = found.specifiers.len().min(1000) as u64;
        }
    }
    count
}

/// How many bytes the skeleton of the last run has; at most a thousand count.
pub fn skeletons_of(alloc: Global, text: &[u8], runs: u32) -> u64
    requires { length text.now ≤ 4000000000 }
{
    let mut count = 0;
    let Ok(name) = ModName::read(alloc, b"/main.js") else {
        return 0;
    };
    for _ in 0..runs {
        let found = scan(alloc, text);
        if let Ok(made) = skeleton(alloc, &name, 1, text, &found) {
            count = made.len().min(1000) as u64;
        }
    }
    count
}
END_OF_RUNS
  build scan 1
fi

# user WORDS..: the least user seconds of five runs of a command.
user() {
  local TIMEFORMAT=%U at
  for at in 1 2 3 4 5; do
    { time "$@" > /dev/null 2>&1; } 2>&1
  done | sort -n | head -n 1
}

mapfile -t files < <(find "$folder" -type f \( -name '*.js' -o -name '*.mjs' \) -size +0 -size -98k | sort | head -n 2000)
bytes=$(cat "${files[@]}" | wc -c)
runs=20
echo "${#files[@]} files, $bytes bytes, $runs runs"

# rate SECONDS NONE: megabytes per second of the runs.
rate() { awk -v s="$1" -v n="$2" -v b="$bytes" -v r="$runs" 'BEGIN { printf "%.1f MB/s", b * r / (s - n) / 1e6 }'; }

none=$(user "$program" scan 0 "${files[@]}")
for what in scan skeleton; do
  echo "$what $(rate "$(user "$program" $what $runs "${files[@]}")" "$none")"
done

cat > "$work/lex.mjs" << 'END_OF_LEX'
import fs from 'node:fs';
import { createRequire } from 'node:module';
const { init, parse } = await import(createRequire(process.cwd() + '/').resolve('es-module-lexer'));
await init;
const [runs, ...files] = process.argv.slice(2);
for (const file of files) {
  const text = fs.readFileSync(file, 'utf8');
  for (let run = 0; run < runs; run++) {
    try { parse(text); } catch {}
  }
}
END_OF_LEX
if node "$work/lex.mjs" 0 2> /dev/null; then
  echo "es-module-lexer $(rate "$(user node "$work/lex.mjs" $runs "${files[@]}")" "$(user node "$work/lex.mjs" 0 "${files[@]}")")"
else
  echo 'es-module-lexer is not installed'
fi

for megabytes in 1 2 5; do
  for file in "${files[@]}"; do
    echo '{'; cat "$file"; echo '}'
  done 2> /dev/null | head -c "${megabytes}000000" > "$work/long.js"
  seconds=$(user "$program" scan 200 "$work/long.js")
  awk -v m="$megabytes" -v s="$seconds" 'BEGIN { printf "%d MB: %.2f ms a scan\n", m, s * 1000 / 200 }'
done

# The peak of memory, which is at least that of the Python that begins the program, so of a long text.
for at in 1 2 3 4 5 6 7 8; do cat "$work/long.js"; done > "$work/longer.js"
python3 -c 'import resource, subprocess, sys
subprocess.run(sys.argv[1:], stdout=subprocess.DEVNULL)
print("40 MB: peak %.2f times the text" % (resource.getrusage(resource.RUSAGE_CHILDREN).ru_maxrss * 1024 / 40e6))' \
  "$program" scan 1 "$work/longer.js"

if command -v valgrind > /dev/null; then
  for what in scan skeleton; do
    counted=()
    for times in 1 2; do
      valgrind --tool=callgrind --callgrind-out-file="$work/calls" "$program" $what $times "$work/long.js" > /dev/null 2> "$work/told"
      counted+=("$(awk '/Collected/ { print $NF }' "$work/told")")
    done
    awk -v a="${counted[0]}" -v b="${counted[1]}" -v w="$what" 'BEGIN { printf "%s: %.1f instructions a byte\n", w, (b - a) / 5e6 }'
  done
fi
