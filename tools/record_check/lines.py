"""What one line of a record says by itself, whatever stands before it: docs/RECORDS.md, *Lines*."""
from dataclasses import dataclass, field
from typing import NamedTuple

from protocol.language import MOST_NAME, is_name
from protocol.messages import MOST

from .replies import MOST_CLIENT, MOST_COUNT, count_of, reply_fault

# What may stand behind the first word of a line.
ARGUMENTS = {
    "root": "NAME",
    "edit": "NAME",
    "remove": "NAME",
    "settle": "NAME V",
    "connect": "NAME..",
    "ask": "C",
    "fetch": "C NAME",
    "applied": "C NAME V ..",
    "aborted": "C",
    "invalidate": "C NAME V",
    "disconnect": "C",
    "rest": "C NAME V ..",
}
TEXT_EVENTS = ("edit", "settle")


@dataclass
class Event:
    """An event of a core: its word, what stands behind that, and the pieces of its text."""

    word: str
    client: int | None = None
    name: str | None = None
    version: int | None = None
    names: list = field(default_factory=list)
    table: list = field(default_factory=list)
    text: bytearray = field(default_factory=bytearray)

    def size(self):
        """The bytes that it counts in a transcript."""
        names = [self.name or "", *self.names, *(name for name, _ in self.table)]
        return 64 + sum(map(len, names)) + len(self.text)


class Line(NamedTuple):
    """What a line says: `root`, `event`, `piece` or `last` of a text, `reply`, or `rest`; and what of it."""

    kind: str
    said: object


class BadLine(Exception):
    """A line has no form of a record, for this reason."""


def name_of(word):
    name = word.decode("latin-1")
    if not is_name(name):
        raise BadLine(f"`{shown(word)}` is no name of a module: a slash and segments of `A-Z a-z 0-9 _ . -` with a slash "
                      f"between each two, at most {MOST_NAME} bytes")
    return name


def number_of(word, most, what):
    number = count_of(word, most)
    if number is None:
        raise BadLine(f"`{shown(word)}` is no {what}: a decimal number without sign and leading zeros, at most {most}")
    return number


def table_of(words):
    """The rows of a table: names that rise, each with a version from 1 on."""
    if len(words) % 2:
        raise BadLine("a name stands without its version")
    rows = []
    for name, version in zip(words[::2], words[1::2]):
        row = (name_of(name), number_of(version, MOST, "version of a table"))
        if row[1] == 0:
            raise BadLine("a version of a table is 1 or more")
        if rows and not rows[-1][0] < row[0]:
            raise BadLine(f"{row[0]} stands behind {rows[-1][0]}, and the names of a table rise by bytes, each once")
        rows.append(row)
    return rows


def shown(data, most=60):
    """Bytes for a message, cut where they are long."""
    text = data.decode("utf-8", "backslashreplace")
    return text if len(text) <= most else f"{text[:most]}.."


def event_of(word, words):
    """The event of a line, by its first word and the words behind it."""
    event = Event(word)
    wanted = ARGUMENTS[word].split()
    if word == "connect":
        event.names = [name_of(name) for name in words]
        return event
    if word in ("applied", "rest"):
        if not words:
            raise BadLine("the number of a client is missing")
        event.client = number_of(words[0], MOST_CLIENT, "number of a client")
        event.table = table_of(words[1:])
        return event
    if len(words) != len(wanted):
        raise BadLine(f"behind `{word}` stands {ARGUMENTS[word]}, each a space apart")
    for kind, value in zip(wanted, words):
        if kind == "NAME":
            event.name = name_of(value)
        elif kind == "C":
            event.client = number_of(value, MOST_CLIENT, "number of a client")
        else:
            event.version = number_of(value, MOST_COUNT, "version")
    return event


def line_of(line):
    """What a line without its LF says."""
    if line.startswith(b"|"):
        return Line("piece", line[1:] + b"\n")
    if line.startswith(b"~"):
        if line == b"~":
            raise BadLine("behind `~` stands one byte at least")
        return Line("last", line[1:])
    if line.startswith(b"="):
        if not line.startswith(b"= "):
            raise BadLine("a reply stands behind `= `")
        if fault := reply_fault(line[2:]):
            raise BadLine(f"this is no reply: {fault}")
        return Line("reply", line[2:])
    first, *words = line.split(b" ")
    word = first.decode("latin-1")
    if word not in ARGUMENTS:
        raise BadLine(f"`{shown(first)}` is no word that a line begins with" if line else "the line is empty")
    said = event_of(word, words)
    return Line(word, said) if word in ("root", "rest") else Line("event", said)
