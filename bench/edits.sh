#!/usr/bin/env bash
# What an edit costs on an open page: instructions, counted by valgrind's callgrind, of one edit of a leaf.
#
#     bench/edits.sh [PROGRAM]
#
# PROGRAM is the built program (crates/dev_program/out/dev_program where none is given; ./hmr --prove builds it).
# A script loads a page of n modules, of which module i imports the modules 4i + 1 to 4i + 4, and edits its last
# module; the edit is settled and the client has it. What is told is the difference between a script with two such
# edits and one with one, so that the page and the first edit count for nothing, and it is the same however busy
# the machine is. The lines of both scripts are left out (`quiet`).
#
# - keeps: each module accepts itself, and the edit keeps the imports of the module.
# - imports: the same, but the second edit imports one more module of the page.
# - rises: only the root accepts itself, so that the edit replaces each module from the last up to the root.
set -eu
top=$(cd "$(dirname "${BASH_SOURCE[0]}")/.." && pwd)
program=${1:-$top/crates/dev_program/out/dev_program}
[ -x "$program" ] || { echo "no program at $program: ./hmr --prove builds it" >&2; exit 1; }
command -v valgrind > /dev/null || { echo 'bench: valgrind is not installed' >&2; exit 1; }
exec python3 - "$program" << 'END'
import re, subprocess, sys, tempfile

program = sys.argv[1]
SIZES = (400, 1024, 4096, 8192)


def name(number):
    return f"/m{number}.js"


def module(count, number, value, accepts, more=()):
    """The lines of an edit of a module."""
    lines = [f"edit {name(number)}\n"]
    lines += [f'|import ".{name(j)}";\n' for j in range(4 * number + 1, min(4 * number + 5, count))]
    lines += [f'|import ".{name(j)}";\n' for j in more]
    lines.append(f"|export const n = {value};\n")
    if accepts:
        lines.append("|import.meta.hot.accept();\n")
    return "".join(lines)


def script(count, edits, rises, more):
    """A page, and so many edits of its last module; the second imports one module more, where that is wanted."""
    lines = [f"root {name(0)}\nquiet\n"]
    lines += [module(count, i, i, i == 0 or not rises) for i in range(count)]
    lines.append(f"settle\nopen\nturns 1 {count + 9}\n")
    for turn in range(edits):
        added = (count - 2,) if more and turn == 1 else ()
        lines.append(module(count, count - 1, count + turn, not rises, added))
        lines.append("settle\nturns 1 30\n")
    return "".join(lines)


def counted(count, edits, rises, more):
    """The instructions of the script, and the last line that it writes."""
    with tempfile.NamedTemporaryFile() as calls, tempfile.TemporaryFile() as given:
        given.write(script(count, edits, rises, more).encode())
        given.seek(0)
        words = ["valgrind", "--tool=callgrind", f"--callgrind-out-file={calls.name}", program, "play"]
        ran = subprocess.run(words, stdin=given, capture_output=True, text=True)
    if ran.returncode:
        sys.exit(f"{' '.join(words[3:])}: status {ran.returncode}\n{ran.stderr}")
    return int(re.search(r"Collected : (\d+)", ran.stderr)[1]), ran.stdout.rstrip("\n").split("\n")[-1]


for label, rises, more in (("keeps", False, False), ("imports", False, True), ("rises", True, False)):
    for count in SIZES:
        first, _ = counted(count, 1, rises, more)
        second, last = counted(count, 2, rises, more)
        cost = second - first
        print(f"{label:7} {count:>5} modules {cost:>13,} instructions, {cost / count:>9,.1f} for each module; {last}", flush=True)
END
