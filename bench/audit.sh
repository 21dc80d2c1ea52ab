#!/usr/bin/env bash
# What the check of a record costs: time and peak memory of `hmr audit`.
#
#     bench/audit.sh [PROGRAM [BYTES]]
#
# PROGRAM is the built program (crates/dev_program/out/dev_program where none is given; ./hmr --prove builds it), and
# BYTES how long the long records are (268,435,456, the most that it reads, where none is given). All records are sound:
#
# - asks: a page at rest whose client asks again and again; told for 100,000 asks and for 999,000;
# - fetches: one module of 131,072 bytes is fetched again and again, so a reply is a long line; BYTES long;
# - edits: 64 modules get new texts of some 31,000 bytes in turn, half of them of empty lines, and their results; BYTES
#   long.
#
# What is told is processor time, the start of the program included, and the peak memory as a multiple of the record.
set -eu
top=$(cd "$(dirname "${BASH_SOURCE[0]}")/.." && pwd)
program=${1:-$top/crates/dev_program/out/dev_program}
[ -x "$program" ] || { echo "no program at $program: ./hmr --prove builds it" >&2; exit 1; }
exec python3 - "$program" "${2:-268435456}" << 'END'
import os, re, subprocess, sys, tempfile

program, most = sys.argv[1], int(sys.argv[2])
ROOT = "/m.js"
IDLE = b'ask 1\n= {"type":"idle"}\n'


def edited(name, text, version):
    """The lines of an edit and of its result."""
    lines = b"".join(b"|" + line + b"\n" for line in text.split(b"\n")[:-1])
    head = f"edit {name}\n".encode() + lines + f"= job {version}\n".encode()
    return head + f"settle {name} {version}\n".encode() + lines + b"= served\n"


def page(text):
    """A page of one module whose client is at rest."""
    told = f"root {ROOT}\n".encode() + edited(ROOT, text, 1)
    told += b'connect\n= {"client":1,"roots":["/m.js"],"type":"connected"}\n' + fetch(text)
    return told + b'applied 1 /m.js 1\n= {"type":"done"}\nrest 1 /m.js 1\n'


def fetch(text):
    said = text.decode().replace("\n", "\\n")
    return f'fetch 1 {ROOT}\n= {{"path":"{ROOT}","text":"{said}","type":"text","version":1}}\n'.encode()


def asks(count):
    yield page(b"export const n = 1;\n")
    for _ in range(count // 1000):
        yield IDLE * 1000


def fetches(size):
    text = b"//" + b"x" * 131_069 + b"\n"
    first = f"root {ROOT}\n".encode() + edited(ROOT, text, 1)
    first += b'connect\n= {"client":1,"roots":["/m.js"],"type":"connected"}\n'
    yield first
    more = fetch(text)
    for _ in range((size - len(first)) // len(more)):
        yield more


def edits(size):
    left, version = size, 0
    yield f"root {ROOT}\n".encode()
    while True:
        version += 1
        lines = b"\n" * 32_000 if version % 2 else b"// forty bytes of a line that is a comment\n" * 700
        part = edited(f"/m{version % 64}.js", lines + f"export const n = {version};\n".encode(), version)
        left -= len(part)
        if left < 100:
            return
        yield part


def audited(parts):
    """The size of a record, the milliseconds of processor time, the peak memory in bytes, and the answer."""
    with tempfile.NamedTemporaryFile() as file:
        for part in parts:
            file.write(part)
        file.flush()
        size = os.path.getsize(file.name)
        with open(file.name, "rb") as given, tempfile.TemporaryFile() as out:
            process = subprocess.Popen([program, "audit"], stdin=given, stdout=out)
            _, status, used = os.wait4(process.pid, 0)
            process.returncode = os.waitstatus_to_exitcode(status)
            out.seek(0)
            said = out.read().decode().strip()
    if process.returncode or not re.fullmatch(r"yes steps \d+ rests \d+", said):
        sys.exit(f"status {process.returncode}: {said}")
    return size, (used.ru_utime + used.ru_stime) * 1000, used.ru_maxrss * 1024, said


few, many = (audited(asks(count)) for count in (100_000, 999_000))
print(f"asks: {few[3]} in {few[1]:.0f} ms, {many[3]} in {many[1]:.0f} ms, {many[1] / few[1]:.1f} times; "
      f"peak {many[2] / many[0]:.2f} times the record")
for label, parts in (("fetches", fetches(most)), ("edits", edits(most))):
    size, ms, memory, said = audited(parts)
    rate = f"{ms:.0f} ms, {size / 1e3 / ms:.0f} MB/s"
    print(f"{label}: {size} bytes, {said}, {rate}, peak {memory / size:.2f} times the record")
END
