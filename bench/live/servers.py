"""The servers that are measured, each over a folder of its own with the same tree of modules."""
import contextlib
import http.client
import importlib.machinery
import importlib.util
import pathlib
import socket
import subprocess
import tempfile
import time

import trees

TOP = pathlib.Path(__file__).resolve().parent.parent.parent
WAIT = 120  # seconds
ESBUILD_SCRIPT = """const source = new EventSource("/esbuild");
source.addEventListener("change", () => location.reload());
source.addEventListener("open", () => tell("listens"));
"""


def tests_of_live():
    """tests/live, as a module."""
    loader = importlib.machinery.SourceFileLoader("live", str(TOP / "tests" / "live"))
    module = importlib.util.module_from_spec(importlib.util.spec_from_loader("live", loader))
    loader.exec_module(module)
    return module


live = tests_of_live()


def answer(port, path):
    """The body of an answer with status 200; None where no such answer comes."""
    connection = http.client.HTTPConnection("127.0.0.1", port, timeout=WAIT)
    try:
        connection.request("GET", path)
        found = connection.getresponse()
        body = found.read()
        return body if found.status == 200 else None
    except (OSError, http.client.HTTPException):
        return None
    finally:
        connection.close()


def free_port():
    with socket.create_server(("127.0.0.1", 0)) as free:
        return free.getsockname()[1]


@contextlib.contextmanager
def folder_of(site):
    """A folder with these files."""
    with tempfile.TemporaryDirectory() as folder:
        for name, text in site.items():
            pathlib.Path(folder, name).write_text(text)
        yield folder


class Esbuild:
    """`esbuild --bundle --servedir` over a folder; with `watch` it looks for saves and tells its pages of them."""

    def __init__(self, folder, watch=False):
        self.port = free_port()
        self.folder = folder
        words = ["esbuild", "m0.js", "--bundle", "--format=esm", "--outdir=out", "--servedir=.",
                 f"--serve=127.0.0.1:{self.port}", "--log-level=error", *(["--watch"] * watch)]
        quiet = {"stdout": subprocess.DEVNULL, "stderr": subprocess.DEVNULL}
        self.running = subprocess.Popen(words, cwd=folder, stdin=subprocess.PIPE, **quiet)

    def bundle(self):
        """The bundle, once it is answered."""
        over = time.monotonic() + WAIT
        while time.monotonic() < over and self.running.poll() is None:
            body = answer(self.port, "/out/m0.js")
            if body is not None:
                return body
            time.sleep(0.001)
        raise OSError("esbuild answered no bundle")

    def __enter__(self):
        return self

    def __exit__(self, *_):
        self.running.kill()
        self.running.wait()
        self.running.stdin.close()


class HmrPage:
    """A folder with a page that `hmr dev` serves."""

    name = "hmr"

    def __init__(self, program, count, told):
        self.program, self.count, self.told = program, count, told

    @contextlib.contextmanager
    def served(self):
        with live.serving(self.program, site=trees.tree(self.count, self.told.port)) as self.server:
            yield f"http://127.0.0.1:{self.server.port}/"

    @property
    def folder(self):
        return self.server.folder

    def settle(self, is_first):
        """Waits until the page has told the server that it has what it shows."""
        self.server.told("loaded" if is_first else "hot")


class EsbuildPage:
    """The same for esbuild, whose page is loaded again at each change, as esbuild's documentation says."""

    name = "esbuild"

    def __init__(self, count, told):
        self.count, self.told = count, told

    @contextlib.contextmanager
    def served(self):
        site = trees.tree(self.count, self.told.port, "/out/m0.js", ESBUILD_SCRIPT)
        with folder_of(site) as self.folder, Esbuild(self.folder, watch=True) as server:
            server.bundle()
            yield f"http://127.0.0.1:{server.port}/"

    def settle(self, is_first):
        """Waits until the page that was loaded listens for the next change."""
        self.told.next("listens")
