#!/usr/bin/env bash
# What an answer over HTTP costs, over one connection that is kept.
#
#     bench/http.sh [PROGRAM]
#
# PROGRAM is the built program (crates/dev_program/out/dev_program where none is given; ./hmr --prove builds it).
#
# - answers: requests a second for a module of 4 kB over one connection, of `hmr page` behind a socket, and beside it of
#   Python's http.server and, where it is installed, of esbuild's serve;
# - folder: the same of `hmr page` for a module among 400 and among 4,096, which is to be within 1.3;
# - instructions: of one request for that module, without the scan of the folder, counted by valgrind's callgrind where it
#   is installed.
set -eu
top=$(cd "$(dirname "${BASH_SOURCE[0]}")/.." && pwd)
program=${1:-$top/crates/dev_program/out/dev_program}
[ -x "$program" ] || { echo "no program at $program: ./hmr --prove builds it" >&2; exit 1; }
exec python3 - "$program" << 'END'
import http.client, http.server, os, pathlib, re, shutil, socket, statistics, subprocess, sys, tempfile, threading, time

program = sys.argv[1]
REQUESTS = 10_000


def write_site(folder, count):
    """So many modules, of which the first has 4 kB."""
    folder.mkdir()
    lines = [f"export const n{i} = {i};" for i in range(180)]
    (folder / "m0.js").write_text("\n".join(lines) + "\n")
    for i in range(1, count):
        (folder / f"m{i}.js").write_text(f"export const n = {i};\n")


def rate(connection):
    """Requests a second over a connection that is kept."""
    def ask(count):
        for _ in range(count):
            connection.request("GET", "/m0.js")
            answer = connection.getresponse()
            body = answer.read()
            if answer.status != 200 or not body:
                sys.exit(f"status {answer.status}")
    ask(500)
    took = []
    for _ in range(5):
        before = time.perf_counter()
        ask(REQUESTS // 5)
        took.append(REQUESTS / 5 / (time.perf_counter() - before))
    return statistics.median(took)


def page(folder):
    ours, theirs = socket.socketpair()
    server = subprocess.Popen([program, "page", str(folder)], stdin=theirs, stdout=theirs)
    theirs.close()
    connection = http.client.HTTPConnection("localhost")
    connection.sock = ours
    found = rate(connection)
    connection.close()
    if server.wait() != 0:
        sys.exit(f"page: status {server.returncode}")
    return found


def python(folder):
    class Handler(http.server.SimpleHTTPRequestHandler):
        protocol_version = "HTTP/1.1"
        # (head and body in one packet: else each answer waits 40 ms for the client's acknowledgement)
        disable_nagle_algorithm = True
        wbufsize = 65_536

        def __init__(self, *args):
            super().__init__(*args, directory=str(folder))

        def log_message(self, *args):
            pass

    server = http.server.ThreadingHTTPServer(("127.0.0.1", 0), Handler)
    threading.Thread(target=server.serve_forever, daemon=True).start()
    found = rate(http.client.HTTPConnection("127.0.0.1", server.server_port))
    server.shutdown()
    return found


def esbuild(folder):
    with socket.create_server(("127.0.0.1", 0)) as free:
        port = free.getsockname()[1]
    words = ["esbuild", f"--servedir={folder}", f"--serve=127.0.0.1:{port}"]
    server = subprocess.Popen(words, stdin=subprocess.PIPE, stdout=subprocess.DEVNULL, stderr=subprocess.DEVNULL)
    for _ in range(100):
        try:
            socket.create_connection(("127.0.0.1", port)).close()
            break
        except OSError:
            time.sleep(0.05)
    found = rate(http.client.HTTPConnection("127.0.0.1", port))
    server.kill()
    server.wait()
    return found


def instructions(folder, work, count):
    """The instructions of a run that answers so many requests."""
    words = ["valgrind", "--tool=callgrind", f"--callgrind-out-file={work}/calls", program, "page", str(folder)]
    asked = b"GET /m0.js HTTP/1.1\r\nHost: localhost\r\n\r\n" * count
    ran = subprocess.run(words, input=asked, stdout=subprocess.PIPE, stderr=subprocess.PIPE)
    if ran.returncode or ran.stdout.count(b"HTTP/1.1 200 OK") != count:
        sys.exit(f"page: status {ran.returncode}")
    return int(re.search(rb"Collected : (\d+)", ran.stderr)[1])


with tempfile.TemporaryDirectory() as work:
    small, large = pathlib.Path(work) / "small", pathlib.Path(work) / "large"
    write_site(small, 400)
    write_site(large, 4096)
    found = page(small)
    print(f"answers: hmr page {found:.0f} a second", flush=True)
    print(f"answers: Python's http.server {python(small):.0f} a second", flush=True)
    if shutil.which("esbuild"):
        print(f"answers: esbuild {esbuild(small):.0f} a second", flush=True)
    else:
        print("skipped: esbuild isn't installed")
    among = page(large)
    print(f"folder: among 4,096 modules {among:.0f} a second, {found / among:.2f} times the cost of 400", flush=True)
    if shutil.which("valgrind"):
        for folder, count in ((small, 400), (large, 4096)):
            each = (instructions(folder, work, 210) - instructions(folder, work, 10)) / 200
            print(f"instructions: a request for a module of 4 kB among {count} {each:,.0f}", flush=True)
    else:
        print("skipped: valgrind isn't installed")
END
