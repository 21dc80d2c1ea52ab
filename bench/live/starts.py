"""How soon a server is ready, and the size of the client."""
import gzip
import re
import shutil
import subprocess
import time

from figures import median, spread
from servers import Esbuild, answer, folder_of, live
from trees import small_tree, tree

HALF = 0.5
CLIENT_BYTES = 12_000


def start_of_hmr(program, folder):
    """Milliseconds from the start of `hmr dev` to the line `ready in ..` and a module that is answered behind it."""
    before = time.perf_counter()
    words = [program, folder, "--port", "0"]
    running = subprocess.Popen(words, stdin=subprocess.PIPE, stdout=subprocess.PIPE, text=True)
    try:
        line = running.stdout.readline()
        found = re.match(r"ready in \d+ ms  http://127\.0\.0\.1:(\d+)/$", line)
        if found is None or answer(int(found[1]), "/m0.js") is None:
            raise OSError(f"hmr dev wasn't ready: {line!r}")
        took = time.perf_counter() - before
        running.communicate("q\n", timeout=60)
        return 1000 * took
    finally:
        running.kill()
        running.wait()


def start_of_esbuild(folder):
    """Milliseconds from the start of esbuild to its bundle, which the first request for it builds."""
    before = time.perf_counter()
    with Esbuild(folder) as server:
        server.bundle()
        return 1000 * (time.perf_counter() - before)


def starts_of(program, folder, runs, has_peer):
    """So many starts of each, in turn."""
    ours, peers = [], []
    for _ in range(runs):
        ours.append(start_of_hmr(program, folder))
        if has_peer:
            peers.append(start_of_esbuild(folder))
    return ours, peers


def measure_ready(program, figures, sizes):
    """Starts over usual modules and over small ones: what esbuild has to do grows with the texts more than ours."""
    has_peer = shutil.which("esbuild") is not None
    for count in sizes.starts:
        for made in (tree, small_tree):
            site = made(count)
            with folder_of(site) as folder:
                ours, peers = starts_of(program, folder, sizes.runs, has_peer)
            size = sum(map(len, site.values())) // count
            what = f"ready, {count:,} files of some {size} bytes, {sizes.runs} starts: hmr {spread(ours)}"
            if has_peer:
                ratio = median(ours) / median(peers)
                figures.judge(f"{what}, esbuild's first bundle {spread(peers)}: {ratio:.2f} of that", ratio, HALF)
            else:
                figures.say(what)


def measure_client(program, figures, sizes):
    with live.serving(program, site=tree(4)) as server:
        text = answer(server.port, "/@hmr/client.js")
    size = len(gzip.compress(text, 9))
    figures.judge(f"client: {len(text):,} bytes, gzipped {size:,}", size, CLIENT_BYTES)
