"""The places of clients that were cut within a frame: they are free again."""
import pathlib
import subprocess
import tempfile
import time

from . import wire
from .core import MOST_CLIENTS

HELLO = b'{"format":1,"type":"hello"}'
FULL = b'{"code":2,"kept":null,"path":null,"told":null,"type":"refused"}'
PATIENCE = 300
PAUSE = 0.05


def answer(session, data):
    session.send(data)
    return session.receive()


def speak(port):
    """All places are taken, by the server's own client and by sessions from outside, and the next hello is refused;
    then these sessions are cut, and it is taken."""
    cut = [wire.Connection(port) for _ in range(MOST_CLIENTS - 1)]
    for session in cut:
        if b'"connected"' not in answer(session, HELLO):
            return "a hello wasn't answered by connected"
    last = wire.Connection(port)
    heard = answer(last, HELLO)
    if heard != FULL:
        return f"the hello after {MOST_CLIENTS} others was answered by {heard}"
    for session in cut:
        session.put(wire.frame(wire.TEXT, b"x" * 100)[:20])
        session.cut()
    end = time.monotonic() + PATIENCE
    while heard == FULL and time.monotonic() < end:
        time.sleep(PAUSE)  # the server may not have seen a cut yet
        heard = answer(last, HELLO)
    if heard != b'{"client":%d,"roots":["/m.js"],"type":"connected"}' % (MOST_CLIENTS + 1):
        return f"the last hello was answered by {heard}"
    answer(last, b'{"type":"bye"}')
    return None


def places_are_free(program):
    """What is wrong, or None."""
    with tempfile.TemporaryDirectory() as folder:
        pathlib.Path(folder, "m.js").write_text("export const v = 1;\n")
        words = [program, "serve", folder, "/m.js", "--clients", "1", "--turns", "300", "--outside", str(MOST_CLIENTS)]
        server = subprocess.Popen(words, stdin=subprocess.DEVNULL, stdout=subprocess.PIPE)
        try:
            wrong = speak(int(server.stdout.readline().split()[1]))
            if not wrong:
                server.communicate(timeout=PATIENCE)
                wrong = None if server.returncode == 7 else f"the status is {server.returncode}"
            return wrong
        except (OSError, AssertionError, wire.Ended, subprocess.TimeoutExpired) as fault:
            return f"{type(fault).__name__}: {fault}"
        finally:
            server.kill()
            server.communicate()
