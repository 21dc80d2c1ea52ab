"""A page in headless Chromium, and what it tells of itself, by one clock for every server."""
import http.server
import os
import queue
import shutil
import signal
import subprocess
import tempfile
import threading
import time

NAMES = ["chromium", "chromium-browser", "google-chrome", "google-chrome-stable", "chrome"]
WAIT = 120  # seconds


def chromium():
    """The command of an installed Chromium, or None."""
    return next(filter(None, map(shutil.which, NAMES)), None)


class Told:
    """A small HTTP server that pages tell words to, each with the time at which it came."""

    def __init__(self):
        self.words = queue.Queue()
        self.kept = []

        class Handler(http.server.BaseHTTPRequestHandler):
            protocol_version = "HTTP/1.1"

            def do_GET(handler):
                self.words.put((time.perf_counter(), handler.path[1:].split("/")))
                handler.send_response(204)
                handler.end_headers()

            def log_message(self, *_):
                pass

        self.server = http.server.ThreadingHTTPServer(("127.0.0.1", 0), Handler)
        self.server.daemon_threads = True
        self.server.handle_error = lambda *_: None  # a browser that is ended cuts its connections
        self.port = self.server.server_port
        threading.Thread(target=self.server.serve_forever, daemon=True).start()

    def next(self, word):
        """When this word came or comes, and what came with it; other words stay for later."""
        over = time.monotonic() + WAIT
        while True:
            found = next((each for each in self.kept if each[1][0] == word), None)
            if found is not None:
                self.kept.remove(found)
                return found[0], found[1][1:]
            try:
                self.kept.append(self.words.get(timeout=max(0.1, over - time.monotonic())))
            except queue.Empty:
                raise OSError(f"no page told {word!r}; what was told: {self.kept[-5:]}") from None

    def __enter__(self):
        return self

    def __exit__(self, *_):
        self.server.shutdown()
        self.server.server_close()


class Browser:
    """Chromium with one page, until it is left."""

    def __init__(self, address):
        folder = tempfile.mkdtemp()
        words = [chromium(), "--headless", "--no-sandbox", "--disable-gpu", "--no-first-run", "--disable-extensions",
                 "--disable-background-networking", "--disable-component-update", "--remote-debugging-port=0",
                 f"--user-data-dir={folder}", address]
        quiet = {"stdin": subprocess.DEVNULL, "stdout": subprocess.DEVNULL, "stderr": subprocess.DEVNULL}
        place = {**os.environ, "TMPDIR": folder}
        self.running = subprocess.Popen(words, start_new_session=True, env=place, **quiet)

    def __enter__(self):
        return self

    def __exit__(self, *_):
        """Ends all processes of its session, and waits for a second at most until they are gone."""
        for _ in range(50):
            try:
                os.killpg(self.running.pid, signal.SIGKILL)
            except ProcessLookupError:
                break
            self.running.poll()
            time.sleep(0.02)
        self.running.wait()
