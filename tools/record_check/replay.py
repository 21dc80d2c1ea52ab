"""The core of docs/PROTOCOL.md as a record tells it: its answer to each event, as the text of a reply."""
from protocol.core import Core, refused
from protocol.messages import encode

from .modules import ANY_BYTES, analyse

DONE = encode({"type": "done"})


class Replay:
    """A core that is told events."""

    def __init__(self, roots):
        self.core = Core(roots, analyse)

    def answer(self, event):
        """The reply to an event, which happens."""
        text = event.text.decode("utf-8", ANY_BYTES)
        if event.word == "edit":
            return self.core.edit(event.name, text).encode()
        if event.word == "remove":
            return self.core.edit(event.name, None).encode()
        if event.word == "settle":
            return self.core.settle(event.name, text, event.version).encode()
        if event.word == "connect":
            return encode(self.core.connect(event.names))
        if event.word == "disconnect":
            is_known = event.client in self.core.clients
            self.core.disconnect(event.client)
            return b"gone" if is_known else encode(refused(1))
        request = {"type": event.word, "path": event.name, "version": event.version, "table": event.table}
        return encode(self.core.request(event.client, request))

    def rests_with(self, client, table):
        """Whether a client is at rest, and its page is this table."""
        return not self.core.rest_faults(client) and self.core.table(client) == table
