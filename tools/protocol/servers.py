"""Servers that lie to `hmr join`: what the client says to each of their answers, what it writes, and its status."""
import base64
import hashlib
import socket
import subprocess
from typing import NamedTuple

from . import wire

PATIENCE = 60
TURNS = 3
HELLO = '{"format":2,"type":"hello"}'
FETCH = '{"path":"/m.js","type":"fetch"}'
APPLIED = '{"table":[["/m.js",1]],"type":"applied"}'
ABORTED = '{"cause":"%s","from":null,"name":null,"path":"/m.js","type":"aborted"}'
ASK = '{"type":"ask"}'
BYE = '{"type":"bye"}'
CONNECTED = '{"client":1,"roots":["/m.js"],"type":"connected"}'
TEXT = '{"path":"/m.js","text":"export let n = 1;\\n","type":"text","version":1}'
FAULTY = '{"path":"/m.js","text":"export let = 1;\\n","type":"text","version":1}'
OTHER = '{"path":"/x.js","text":"export let n = 1;\\n","type":"text","version":1}'
MISSING = '{"path":"/m.js","type":"missing"}'
REFUSED = '{"code":%d,"kept":null,"path":null,"told":null,"type":"refused"}'
DONE = '{"type":"done"}'
IDLE = '{"type":"idle"}'
CLOSED = "closed"  # in place of an answer: the server closes as the protocol has it
CUT = "cut"  # in place of an answer: the stream ends within a frame
MASKED = "masked"  # in place of an answer: a frame with a mask, which no server sends


class Trial(NamedTuple):
    """What a server answers to each request in turn, and what the client has to say, to write and to end with."""

    name: str
    answers: list
    said: list
    lines: str
    status: int


LOADED = [CONNECTED, TEXT, DONE]
LOADING = [HELLO, FETCH, APPLIED, ASK]
TRIALS = [
    Trial("a server that doesn't lie", [*LOADED, IDLE, DONE], [*LOADING, BYE], "1 loaded\n", 0),
    Trial("done to an ask", [*LOADED, DONE], LOADING, "1 loaded\n", 10),
    Trial("no JSON to a bye", [*LOADED, IDLE, "{"], [*LOADING, BYE], "1 loaded\n", 10),
    Trial("a text of another module", [CONNECTED, OTHER], [HELLO, FETCH], "", 10),
    Trial("a refusal out of place", [CONNECTED, REFUSED % 4], [HELLO, FETCH], "", 10),
    Trial("a text before any hello is answered", [TEXT], [HELLO], "", 10),
    Trial("what is no message", [CONNECTED, '{"type":"news"}'], [HELLO, FETCH], "", 10),
    Trial("a key too many", [CONNECTED, '{"type":"done","x":1}'], [HELLO, FETCH], "", 10),
    Trial("what is no JSON", [*LOADED, "{"], LOADING, "1 loaded\n", 10),
    Trial("a text that doesn't parse", [CONNECTED, FAULTY, DONE, IDLE, DONE],
          [HELLO, FETCH, ABORTED % "broken", ASK, BYE], "1 aborted broken /m.js\n", 0),
    Trial("a module that is missing", [CONNECTED, MISSING, DONE, IDLE, DONE],
          [HELLO, FETCH, ABORTED % "missing", ASK, BYE], "1 aborted missing /m.js\n", 0),
    Trial("a close in place of an answer", [*LOADED, CLOSED], LOADING, "1 loaded\n", 0),
    Trial("a cut within a frame", [*LOADED, CUT], LOADING, "1 loaded\n", 7),
    Trial("a frame with a mask", [CONNECTED, MASKED], [HELLO, FETCH], "", 7),
]


class Peer:
    """The server's end of a connection, from its handshake on."""

    def __init__(self, stream):
        self.stream = stream
        self.stream.settimeout(PATIENCE)
        head = b""
        while not head.endswith(b"\r\n\r\n"):
            head += self.take(1)
        fields = dict(line.split(": ", 1) for line in head.decode().split("\r\n")[1:] if ": " in line)
        key = next(value for name, value in fields.items() if name.lower() == "sec-websocket-key")
        accepted = hashlib.sha1(key.encode() + b"258EAFA5-E914-47DA-95CA-C5AB0DC85B11").digest()
        self.stream.sendall(b"HTTP/1.1 101 Switching Protocols\r\nUpgrade: websocket\r\nConnection: Upgrade\r\n"
                            b"Sec-WebSocket-Accept: " + base64.b64encode(accepted) + b"\r\n\r\n")

    def take(self, count):
        data = b""
        while len(data) < count:
            try:
                piece = self.stream.recv(count - len(data))
            except ConnectionError as fault:
                raise wire.Ended from fault
            if not piece:
                raise wire.Ended
            data += piece
        return data

    def hear(self):
        """The next message of the client, which comes in one masked frame; None where it closes or is gone."""
        try:
            first, size = self.take(2)
            size &= 0x7F
            if size == 126:
                size = int.from_bytes(self.take(2), "big")
            key = self.take(4)
            data = bytes(byte ^ key[at % 4] for at, byte in enumerate(self.take(size)))
        except wire.Ended:
            return None
        return data.decode() if first == wire.FINAL | wire.TEXT else None

    def answer(self, what):
        """Sends an answer, or what stands in its place."""
        if what == CLOSED:
            self.stream.sendall(wire.frame(wire.CLOSE, (1000).to_bytes(2, "big"), is_masked=False))
        elif what == CUT:
            self.stream.sendall(wire.frame(wire.TEXT, IDLE.encode(), is_masked=False)[:5])
            self.stream.shutdown(socket.SHUT_WR)
        else:
            self.stream.sendall(wire.frame(wire.TEXT, (IDLE if what == MASKED else what).encode(), is_masked=what == MASKED))


def heard_by(stream, answers):
    """What a client says to a server that answers so, up to its end."""
    peer = Peer(stream)
    heard = []
    left = list(answers)
    while (message := peer.hear()) is not None:
        heard.append(message)
        if left:
            peer.answer(left.pop(0))
    return heard


def wrong_of(program, trial):
    """What is wrong with a client of this server, or None."""
    with socket.create_server(("127.0.0.1", 0)) as door:
        door.settimeout(PATIENCE)
        words = [program, "join", str(door.getsockname()[1]), "--turns", str(TURNS)]
        client = subprocess.Popen(words, stdin=subprocess.DEVNULL, stdout=subprocess.PIPE)
        try:
            stream, _ = door.accept()
            with stream:
                heard = heard_by(stream, trial.answers)
            lines, _ = client.communicate(timeout=PATIENCE)
        except (OSError, wire.Ended, subprocess.TimeoutExpired) as fault:
            return f"{type(fault).__name__}: {fault}"
        finally:
            client.kill()
            client.communicate()
    if heard != trial.said:
        return f"the client said {heard}, and not {trial.said}"
    if (lines.decode(), client.returncode) != (trial.lines, trial.status):
        return f"it wrote {lines!r} with status {client.returncode}, and not {trial.lines!r} with {trial.status}"
    return None
