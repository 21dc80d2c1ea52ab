#!/usr/bin/env bash
# What a served folder costs: how soon the server listens, how soon a save is seen, and the memory of a transcript.
#
#     bench/serve.sh [PROGRAM]
#
# PROGRAM is the built program (crates/dev_program/out/dev_program where none is given; ./hmr --prove builds it).
#
# - start: from the start of `hmr serve` on a folder of n modules to its line `listening`, by the clock;
# - save: from the save of a module that accepts itself, among 400, to the line `1 updated` of `hmr join`, by the
#   clock; 20 saves, 0.1 to 0.3 seconds apart;
# - asks: three clients ask until the transcript has its 1,000,000 entries; the peak memory of the process beyond
#   that of a server without clients, by entry;
# - texts: 100 texts of 131,072 bytes are saved until the transcript has its 268,435,456 bytes; the peak memory of
#   the process as a multiple of these bytes.
set -eu
top=$(cd "$(dirname "${BASH_SOURCE[0]}")/.." && pwd)
program=${1:-$top/crates/dev_program/out/dev_program}
[ -x "$program" ] || { echo "no program at $program: ./hmr --prove builds it" >&2; exit 1; }
exec python3 - "$program" << 'END'
import os, pathlib, statistics, subprocess, sys, tempfile, time

program = sys.argv[1]


def write_page(folder, count):
    """A tree of modules, each of which imports up to four more and accepts itself."""
    folder.mkdir()
    for i in range(count):
        lines = [f'import "./m{j}.js";' for j in range(4 * i + 1, min(4 * i + 5, count))]
        lines += [f"export const n = {i};", "import.meta.hot.accept();"]
        (folder / f"m{i}.js").write_text("\n".join(lines) + "\n")


def start(words):
    return subprocess.Popen([program, *words], stdin=subprocess.DEVNULL, stdout=subprocess.PIPE, text=True, bufsize=1)


def finish(process, status):
    """What it wrote from here on, and the resources that it used."""
    written = process.stdout.read()
    _, ended, used = os.wait4(process.pid, 0)
    process.returncode = os.waitstatus_to_exitcode(ended)
    if process.returncode != status:
        sys.exit(f"status {process.returncode}: {written[-300:]}")
    return written, used


def measure_start(work):
    for count in (400, 4000):
        folder = work / f"start{count}"
        write_page(folder, count)
        took = []
        for _ in range(5):
            before = time.perf_counter()
            server = start(["serve", str(folder), "/m0.js"])
            line = server.stdout.readline()
            took.append(1000 * (time.perf_counter() - before))
            if not line.startswith("listening "):
                sys.exit(f"start: {line}")
            finish(server, 0)
        print(f"start: {count} modules, listening after {statistics.median(took):.0f} ms", flush=True)


def measure_save(work):
    folder = work / "save"
    write_page(folder, 400)
    server = start(["serve", str(folder), "/m0.js", "--outside", "1", "--rounds", "25"])
    port = server.stdout.readline().split()[1]
    client = start(["join", port, "--turns", "400000"])
    while client.stdout.readline() != "1 loaded\n":
        pass
    took = []
    for turn in range(20):
        time.sleep(0.1 + 0.01 * turn)
        before = time.perf_counter()
        (folder / "m399.js").write_text(f"export const n = {1000 + turn};\nimport.meta.hot.accept();\n")
        while client.stdout.readline() not in ("1 updated\n", ""):
            pass
        took.append(1000 * (time.perf_counter() - before))
    client.kill()
    server.kill()
    client.wait()
    server.wait()
    print(f"save: seen after {statistics.median(took):.0f} ms, at most {max(took):.0f} ms", flush=True)


def peak_of(words, status, last=""):
    server = start(words)
    written, used = finish(server, status)
    if not written.endswith(last):
        sys.exit(f"the last line isn't {last}: {written[-300:]}")
    return used.ru_maxrss * 1024


def measure_asks(work):
    folder = work / "asks"
    write_page(folder, 1)
    idle = peak_of(["serve", str(folder), "/m0.js"], 0)
    words = ["serve", str(folder), "/m0.js", "--clients", "3", "--turns", "400000"]
    peak = peak_of(words, 8, "limit transcript 1000000\n")
    print(f"asks: {(peak - idle) / 1_000_000:.0f} bytes an entry, with a peak of {peak / 2**20:.0f} MiB", flush=True)


def measure_texts(work):
    folder = work / "texts"
    folder.mkdir()

    def save(turn):
        for number in range(100):
            text = f"export const n = {turn};\n//".ljust(131_071, "x") + "\n"
            (folder / f"m{number}.js").write_text(text)

    save(0)
    server = start(["serve", str(folder), "/m0.js", "--rounds", "1000"])
    turn = 0
    server.stdout.readline()
    while os.waitid(os.P_PID, server.pid, os.WEXITED | os.WNOHANG | os.WNOWAIT) is None and turn < 60:
        turn += 1
        save(turn)
        time.sleep(0.3)
    written, used = finish(server, 8)
    if not written.endswith("limit transcript 1000000\n"):
        sys.exit(written[-300:])
    print(f"texts: a peak of {used.ru_maxrss * 1024 / 268_435_456:.2f} times the bytes of the transcript", flush=True)


with tempfile.TemporaryDirectory() as name:
    work = pathlib.Path(name)
    measure_start(work)
    measure_save(work)
    measure_asks(work)
    measure_texts(work)
END
