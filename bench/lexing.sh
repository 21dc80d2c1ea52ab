#!/usr/bin/env bash
# Bytes per second of the lexer and of the parser on five texts, beside es-module-lexer and a plain loop in C.
#
#     bench/lexing.sh [PROGRAM]
#
# The texts have 60 kB each: one long comment, spaces, declarations with long names, a usual module, and dense
# punctuation. Each is lexed 4,000 times and parsed 400 times by a small program over hot_lexer and hot_parser, which
# is proved before it is built, in a copy of the crates. es-module-lexer reads the same texts 400 times, where
# Node finds it (NODE_PATH says where to look): it tells imports and exports and makes no tokens. The loop in
# C goes byte by byte, counts the tokens and keeps nothing; clang compiles it at -O2. What is told is
# processor time in user mode, so that other work on the machine counts less. PROGRAM, where one is given, is
# that small program, built before.
set -eu
source "$(dirname "${BASH_SOURCE[0]}")/small_program.sh"

program=${1-}
if [ -z "$program" ]; then
  begin lex_bench hmr_types hot_lexer hot_parser
  cat > "$own/src/main.rt" << 'END'
//! Lexes or parses the text of the input so many times over, and tells how much the last run gave.
#![tactic(auto)]

mod runs;

use runs::{lexed, parsed};
use std::env;
use std::io::{self, Read};

fn main(rt: HostRuntime) -> io::Result<()> {
    let alloc = rt.alloc();
    let out = rt.stdout();
    let mut words = env::args(&rt)?.skip(1);
    let (Some(what), Some(runs)) = (words.next(), words.next()) else {
        return Ok(());
    };
    let Ok(runs) = runs.parse::<u32>() else {
        return Ok(());
    };
    let mut bytes = Vec::new(alloc);
    rt.stdin().read_to_end(&mut bytes)?;
    let Ok(text) = std::str::from_utf8(&bytes) else {
        return Ok(());
    };
    if text.len() > 131_072 {
        return Ok(());
    }
    let count = if what.as_str() == "lex" {
        lexed(alloc, text, runs)
    } else {
        parsed(alloc, text.as_bytes(), runs)
    };
    println!(out; "{count}")?;
    Ok(())
}
END
  cat > "$own/src/runs.rt" << 'END'
// Runs of the lexer and of the parser over one text.
ghost use Rattle.std.specs.Prelude.{◌≤◌, length};

use hot_lexer::lex;
use hot_parser::parse;
use std::alloc::Global;

/// The text's tokens, counted in the last run.
pub fn lexed(alloc: Global, text: &str, runs: u32) -> usize
    requires { length text.now ≤ 131072 }
{
    let mut count = 0;
    for _ in 0..runs {
        if let Ok(tokens) = lex(alloc, text) {
            count = tokens.len();
        }
    }
    count
}

/// 1 where the text is a module.
pub fn parsed(alloc: Global, text: &[u8], runs: u32) -> usize
    requires { length text.now ≤ 131072 }
{
    let mut count = 0;
    for _ in 0..runs {
        if parse(alloc, text).is_ok() {
            count = 1;
        }
    }
    count
}
END
  build
fi

mkdir "$work/texts"
python3 - "$work/texts" << 'END'
"""The texts: each of 60 kB, of lines that differ in their numbers."""
import pathlib, sys

SIZE = 60_000


def filled(line):
    lines, size = [], 0
    while size + len(more := line(len(lines))) <= SIZE:
        lines.append(more)
        size += len(more)
    return "".join(lines)


texts = {
    "comment": "/* " + "All work and no play makes Jack a dull boy. " * (SIZE // 45) + "*/\nexport const v = 1;\n",
    "spaces": " " * SIZE + "\nexport const v = 1;\n",
    "names": filled(lambda n: f"export const the_number_of_things_that_were_counted_on_page_{n} = "
                              f"another_number_of_things_of_a_page_{n};\n"),
    "usual": filled(lambda n: f"""// The part {n} of the page: its total, and what its label says.
import {{ value as value{n}, label as label{n} }} from "./parts/value{n % 200}.js";

export const total{n} = 1 + (2 * value{n});
export let title{n} = "Total of part {n}";
const limit{n} = total{n} - 10;   // a part has ten at least

"""),
    "dense": filled(lambda n: f"const p{n}=((((1)+(2))*((3)+(4)))-(-((5)*(6))));\n"),
}
for name, text in texts.items():
    pathlib.Path(sys.argv[1], name).write_text(text)
END
cat > "$work/loop.c" << 'END'
/* Counts the tokens of the text of the input 400 times over, byte by byte, and keeps nothing. */
#include <stdio.h>

static int starts(unsigned char b) {
  return (b >= 'a' && b <= 'z') || (b >= 'A' && b <= 'Z') || b == '_' || b == '$';
}
static int digit(unsigned char b) { return b >= '0' && b <= '9'; }

static size_t tokens(const unsigned char *t, size_t n) {
  size_t count = 0;
  for (size_t i = 0; i < n;) {
    unsigned char b = t[i];
    if (b == ' ' || b == '\t' || b == '\r' || b == '\n') { i++; continue; }
    if (b == '/' && i + 1 < n && t[i + 1] == '/') {
      while (i < n && t[i] != '\n') i++;
      continue;
    }
    if (b == '/' && i + 1 < n && t[i + 1] == '*') {
      for (i += 2; i + 1 < n && !(t[i] == '*' && t[i + 1] == '/'); i++) {}
      i += 2;
      continue;
    }
    count++;
    if (starts(b)) { do i++; while (i < n && (starts(t[i]) || digit(t[i]))); continue; }
    if (digit(b)) { do i++; while (i < n && digit(t[i])); continue; }
    if (b == '"' || b == '\'') {
      for (i++; i < n && t[i] != b; i++) if (t[i] == '\\') i++;
      i++;
      continue;
    }
    i += (b == '=' && i + 1 < n && t[i + 1] == '>') ? 2 : 1;
  }
  return count;
}

int main(void) {
  static unsigned char text[131073];
  size_t n = fread(text, 1, sizeof text, stdin), count = 0;
  for (int run = 0; run < 400; run++) {
    __asm__ volatile("" : : "r"(text) : "memory");
    count = tokens(text, n);
    __asm__ volatile("" : : "r"(count));
  }
  printf("%zu\n", count);
}
END
clang -O2 -o "$work/loop" "$work/loop.c"
cat > "$work/peer.js" << 'END'
const { init, parse } = require("es-module-lexer");
const text = require("fs").readFileSync(process.argv[2], "utf8");
init.then(() => {
  for (let run = 0; run < 400; run++) parse(text);
  const before = process.cpuUsage();
  for (let run = 0; run < 400; run++) parse(text);
  console.log(process.cpuUsage(before).user / 1e6);
});
END

# The seconds that a command takes in user mode; what it writes goes to $work/said.
seconds() { local TIMEFORMAT=%U; { time "$@" > "$work/said" 2>&1; } 2>&1; }
rate() { awk -v bytes="$1" -v runs="$2" -v seconds="$3" 'BEGIN { if (seconds > 0) printf "%.0f", bytes * runs / seconds / 1e6; else printf "-" }'; }

echo "MB/s         tokens     lex   parse  plain loop  es-module-lexer"
for name in comment spaces names usual dense; do
  text="$work/texts/$name"
  bytes=$(wc -c < "$text")
  lexed=$(seconds "$program" lex 4000 < "$text")
  count=$(cat "$work/said")
  parsed=$(seconds "$program" parse 400 < "$text")
  [ "$(cat "$work/said")" = 1 ] || { echo "bench: $name is no module" >&2; exit 1; }
  looped=$(seconds "$work/loop" < "$text")
  [ "$(cat "$work/said")" = "$count" ] || { echo "bench: the loop counts other tokens of $name" >&2; exit 1; }
  peer=$(cd "$work" && "${NODE:-node}" peer.js "$text" 2> /dev/null || echo 0)
  printf '%-10s %8d %7s %7s %11s %16s\n' "$name" "$count" "$(rate "$bytes" 4000 "$lexed")" \
    "$(rate "$bytes" 400 "$parsed")" "$(rate "$bytes" 400 "$looped")" "$(rate "$bytes" 400 "$peer")"
done
