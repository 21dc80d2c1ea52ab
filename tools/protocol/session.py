"""One session with a server: its connection, and beside it the desk of the core that says what has to come back."""
from . import messages, wire
from .core import Desk

CUT = 7  # the status of a server of which a connection was cut, or broke the protocol of WebSockets


class Session:
    """A session that is open until something ends it. What it says and hears goes into `log`."""

    def __init__(self, label, port, core, rng, log):
        self.label = label
        self.rng = rng
        self.log = log
        self.desk = Desk(core)
        self.is_open = True
        self.connection = wire.Connection(port)

    def note(self, what, data=b""):
        self.log.append(f"{self.label} {what} {data!r}" if data else f"{self.label} {what}")

    def client(self):
        """What the core keeps of the session's client."""
        return self.desk.core.clients.get(self.desk.number)

    def put(self, data, kind=None):
        """Sends a message in one frame or in several with pings between."""
        cuts, pings = [], []
        if self.rng.random() < 0.25:
            cuts = sorted(self.rng.randrange(len(data) + 1) for _ in range(self.rng.randrange(1, 5)))
            pings = [bytes(self.rng.randrange(256) for _ in range(self.rng.choice([0, 1, 7, 125])))] * self.rng.randrange(2)
        if not kind:
            kind = wire.BINARY if self.rng.random() < 0.1 else wire.TEXT
        self.note("sends" + " in frames" * bool(cuts), data)
        self.connection.send(data, cuts, pings, kind)

    def heard(self):
        """What the server answers."""
        try:
            answer = self.connection.receive()
        except wire.Ended as fault:
            raise AssertionError(f"{self.label}: the server ended the session in place of an answer") from fault
        self.note("hears", answer)
        return answer

    def expect(self, answer, heard):
        wanted = messages.encode(answer, self.desk.format)
        if heard != wanted:
            raise AssertionError(f"{self.label} heard {heard!r}, and not {wanted!r}")

    def say(self, message, spelled):
        """Sends a message, in these bytes, and compares the answer; it is the core's."""
        self.put(spelled)
        answer = self.desk.deal(messages.decode(spelled))
        self.expect(answer, self.heard())
        if message["type"] == "bye":
            self.end("has said bye")
        return answer

    def end(self, what):
        """The server has to end the session now, with no further message."""
        self.note(what)
        more = self.connection.has_ended()
        if more is not None:
            raise AssertionError(f"{self.label} {what}, and heard {more!r}")
        self.leave()

    def leave(self):
        self.is_open = False
        self.desk.leave()

    # How a session ends. Each gives the status that the server then has.

    def send_no_message(self, data, kind=None):
        try:
            messages.decode(data)
        except messages.NoMessage:
            self.put(data, kind)
            self.end("has sent what is no message")
            return 0
        raise ValueError(f"a message: {data!r}")

    def close(self, begun):
        """Closes as the protocol has it, maybe within a message."""
        if begun:
            self.connection.put(wire.frame(wire.TEXT, begun, is_last=False))
        self.note("closes", begun)
        self.connection.put(wire.frame(wire.CLOSE, (1000).to_bytes(2, "big")))
        self.end("has closed")
        return 0

    def cut(self, data):
        """Cuts the stream: within a frame, between the frames of a message, or between messages."""
        whole = wire.frame(wire.TEXT, data, is_last=self.rng.random() < 0.5)
        begun = whole[: self.rng.choice([0, 1, 2, 5, len(whole) - 1, self.rng.randrange(len(whole))])]
        self.note("is cut within", begun)
        self.connection.put(begun)
        self.connection.cut()
        self.leave()
        return CUT

    def break_protocol(self, data):
        """A frame that the protocol of WebSockets doesn't allow."""
        unmasked = wire.frame(wire.TEXT, data, is_masked=False)
        reserved = wire.frame(wire.TEXT | 0x40, data)
        unknown = wire.frame(3, data)
        alone = wire.frame(0, data)
        long_ping = wire.frame(wire.PING, b"p" * 126)
        broken = self.rng.choice([unmasked, reserved, unknown, alone, long_ping])
        self.note("breaks the protocol by", broken)
        self.connection.put(broken)
        self.end("has broken the protocol")
        return CUT
