"""A client of WebSockets (RFC 6455) over a socket, which can send a message in frames with pings between, and frames that
the protocol doesn't allow; and which can go at any byte."""
import os
import socket

TEXT, BINARY, CLOSE, PING, PONG = 1, 2, 8, 9, 10
FINAL, MASKED = 0x80, 0x80
PATIENCE = 60
HANDSHAKE = (b"GET / HTTP/1.1\r\nHost: 127.0.0.1\r\nUpgrade: websocket\r\nConnection: Upgrade\r\n"
             b"Sec-WebSocket-Key: dGhlIHNhbXBsZSBub25jZQ==\r\nSec-WebSocket-Version: 13\r\n\r\n")
ACCEPTED = b"s3pPLMBiTxaQ9kYGzzhZRbK+xOo="


class Ended(Exception):
    """The server has ended the connection."""


def frame(kind, data, is_last=True, is_masked=True):
    """A frame of a client."""
    size = len(data)
    head = bytes([kind | (FINAL if is_last else 0)])
    mask = MASKED if is_masked else 0
    if size < 126:
        head += bytes([mask | size])
    elif size < 1 << 16:
        head += bytes([mask | 126]) + size.to_bytes(2, "big")
    else:
        head += bytes([mask | 127]) + size.to_bytes(8, "big")
    if not is_masked:
        return head + data
    key = os.urandom(4)
    return head + key + bytes(byte ^ key[at % 4] for at, byte in enumerate(data))


class Connection:
    """A connection to a server on this machine, from its handshake on."""

    def __init__(self, port):
        self.stream = socket.create_connection(("127.0.0.1", port), timeout=PATIENCE)
        self.stream.setsockopt(socket.IPPROTO_TCP, socket.TCP_NODELAY, 1)
        self.kept = b""
        self.pings = []
        self.stream.sendall(HANDSHAKE)
        head = b""
        while not head.endswith(b"\r\n\r\n"):
            head += self.take(1)
        if not head.startswith(b"HTTP/1.1 101 ") or ACCEPTED not in head:
            raise AssertionError(f"the handshake was answered by {head}")

    def take(self, count):
        """So many bytes of the stream."""
        while len(self.kept) < count:
            try:
                piece = self.stream.recv(65536)
            except ConnectionError as fault:
                raise Ended from fault
            if not piece:
                raise Ended
            self.kept += piece
        taken, self.kept = self.kept[:count], self.kept[count:]
        return taken

    def put(self, data):
        """Sends bytes of the stream; a server that has ended the connection shows when it is read."""
        try:
            self.stream.sendall(data)
        except ConnectionError:
            pass

    def send(self, data, cuts=(), pings=(), kind=TEXT):
        """Sends a message in frames that are cut at these places, with a ping before each frame but the first."""
        places = [0, *cuts, len(data)]
        for turn, (at, end) in enumerate(zip(places, places[1:])):
            if turn > 0 and pings:
                self.ping(pings[turn % len(pings)])
            self.put(frame(0 if turn else kind, data[at:end], end == len(data) and turn == len(places) - 2))

    def ping(self, data):
        self.pings.append(data)
        self.put(frame(PING, data))

    def receive(self):
        """The next message. Each ping that was sent before has to be answered, in order or by the last one's pong."""
        while True:
            first, size = self.take(2)
            size &= 0x7F
            if size > 125:
                size = int.from_bytes(self.take(2 if size == 126 else 8), "big")
            data = self.take(size)
            kind = first & 0x0F
            if kind == PONG:
                if data not in self.pings:
                    raise AssertionError(f"a pong {data} that answers no ping")
                del self.pings[: self.pings.index(data) + 1]
            elif kind == CLOSE:
                self.put(frame(CLOSE, data[:2]))
                raise Ended
            elif first == FINAL | TEXT:
                if self.pings:
                    raise AssertionError(f"the pings {self.pings} weren't answered")
                return data
            else:
                raise AssertionError(f"a frame that begins with {first}")

    def has_ended(self):
        """Whether the server sends no message more and ends the connection; what comes in place of the end else."""
        try:
            return self.receive()
        except Ended:
            self.stream.close()
            return None

    def close(self):
        """Closes as the protocol has it, and waits for the server to do so too."""
        self.put(frame(CLOSE, (1000).to_bytes(2, "big")))
        return self.has_ended()

    def cut(self):
        """Ends the stream where it is."""
        self.stream.close()
