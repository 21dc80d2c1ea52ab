#!/usr/bin/env bash
# What scripts cost: time and peak memory of `hmr play` as scripts grow.
#
#     bench/play.sh [PROGRAM]
#
# PROGRAM is the built program (crates/dev_program/out/dev_program where none is given; ./hmr --prove builds it).
# Each script is played three times and the median of the processor time is told, start of the program included:
#
# - settle: n modules are edited, and the results of their n jobs come;
# - turns: a page of n modules is loaded, by n + 3 turns of its client (each module imports up to four more);
# - leaf: the same page, and one edit of a module that accepts itself;
# - big: a script of 16 MiB, edits of one module by texts of 131,000 bytes, each settled.
#
# The growth from 1,000 to 8,000 names is told beside the growth of the work. The peak memory of the big script
# is told as a multiple of its size.
set -eu
top=$(cd "$(dirname "${BASH_SOURCE[0]}")/.." && pwd)
program=${1:-$top/crates/dev_program/out/dev_program}
[ -x "$program" ] || { echo "no program at $program: ./hmr --prove builds it" >&2; exit 1; }
exec python3 - "$program" << 'END'
import os, statistics, subprocess, sys, tempfile

program = sys.argv[1]


def name(number):
    return f"/m{number}.js"


def settle_script(count):
    edits = "".join(f"edit {name(i)}\n|export const n = {i};\n" for i in range(count))
    return f"root {name(0)}\nquiet\n{edits}settle\nfresh\n"


def page(count):
    lines = [f"root {name(0)}\nquiet\n"]
    for i in range(count):
        lines.append(f"edit {name(i)}\n")
        lines += [f'|import ".{name(j)}";\n' for j in range(4 * i + 1, min(4 * i + 5, count))]
        lines.append(f"|export const n = {i};\n|import.meta.hot.accept();\n")
    lines.append("settle\nopen\n")
    lines.append(f"turns 1 {count + 9}\n")
    return "".join(lines)


def leaf_script(count):
    last = count - 1
    return page(count) + f"edit {name(last)}\n|export const n = 0;\n|import.meta.hot.accept();\nsettle\nturns 1 9\n"


def big_script():
    parts, size, turn = [f"root {name(0)}\nquiet\n"], 0, 0
    while size + 131_100 < 16_777_216:
        text = f"//{turn:07d}" + "x" * 60_000
        part = f"edit {name(0)}\n|{text}\n|//{'y' * 60_000}\n|export const n = {turn};\nsettle\n"
        parts.append(part)
        size += len(part)
        turn += 1
    return "".join(parts)


def play(script, times=3):
    """The median seconds of processor time, the peak memory in bytes, and the last line written."""
    with tempfile.NamedTemporaryFile("w", suffix=".play") as file:
        file.write(script)
        file.flush()
        seconds = []
        for _ in range(times):
            with open(file.name) as given, tempfile.TemporaryFile() as out:
                process = subprocess.Popen([program, "play"], stdin=given, stdout=out)
                _, status, used = os.wait4(process.pid, 0)
                seconds.append(used.ru_utime + used.ru_stime)
                process.returncode = os.waitstatus_to_exitcode(status)
                if process.returncode:
                    sys.exit(f"status {process.returncode}")
                out.seek(0)
                last = out.read().decode().rstrip("\n").split("\n")[-1]
    return statistics.median(seconds), used.ru_maxrss * 1024, last


small, large = 1000, 8000
for label, make in (("settle", settle_script), ("turns", page), ("leaf", leaf_script)):
    first, _, last = play(make(small))
    second, memory, last = play(make(large))
    print(
        f"{label}: {small} names {first * 1000:.0f} ms, {large} names {second * 1000:.0f} ms, "
        f"{second / first:.1f} times for {large // small} times the names; {memory / 2**20:.0f} MiB; last line: {last}"
    )
script = big_script()
seconds, memory, last = play(script)
print(f"big: {len(script)} bytes {seconds * 1000:.0f} ms, peak {memory / len(script):.2f} times the script")
END
