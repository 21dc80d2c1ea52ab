"""What is wrong with a record that is refused, in words: its line, what would have been right, what stands around it."""
import json

from .audit import MOST_BYTES, MOST_ENTRIES, WITHIN, Course, Wrong, checked
from .lines import ARGUMENTS

WIDTH = 150
BEFORE, BEHIND = 2, 1  # entries that are shown before and behind that of the line
MOST_TEXT_LINES = 8

# What each reason means.
MEANINGS = {
    "bad-line": "no record has such a line there",
    "roots": "no server has these roots",
    "limit": "the record has more events, or more bytes in them, than one may have",
    "reply": "the server answers otherwise: this reply doesn't follow from the events before it",
    "rest": "this isn't true of the page at this place",
}
EVENTS = {
    "edit": "{name} gets a text",
    "remove": "{name} is taken away",
    "settle": "the result comes of transforming version {version} of {name}",
    "connect": "a client connects",
    "ask": "client {client} asks what there is to do",
    "fetch": "client {client} fetches {name}",
    "applied": "client {client} says which modules it has now",
    "aborted": "client {client} gives its plan up",
    "invalidate": "{name} invalidated itself on client {client}, at version {version}",
    "disconnect": "client {client} goes",
}


def shown(line, most=WIDTH):
    """A line of bytes for a terminal."""
    text = line.decode("utf-8", "backslashreplace").replace("\r", "\\r").replace("\0", "\\0")
    return text if len(text) <= most else f"{text[:most]} .. ({len(line)} bytes)"


def event_words(event):
    return EVENTS[event.word].format(name=event.name, version=event.version, client=event.client)


def keys_that_differ(told, answer):
    """The keys at which two messages differ, each with both values."""
    try:
        told, answer = json.loads(told), json.loads(answer)
    except ValueError:
        return []
    if not isinstance(told, dict) or told.get("type") != answer.get("type"):
        return []
    lacks = "nothing"
    value = lambda message, key: shown(json.dumps(message[key]).encode(), 60) if key in message else lacks
    keys = sorted({*told, *answer})
    return [f"`{key}` is {value(told, key)}, and has to be {value(answer, key)}"
            for key in keys if told.get(key) != answer.get(key)]


def rows_that_differ(told, page):
    """The modules at which two tables differ."""
    told, page = dict(told), dict(page)
    version = lambda table, name: f"version {table[name]}" if name in table else "not there"
    return [f"{name}: the line says {version(told, name)}, and the page has it at {version(page, name)}" if name in page
            else f"{name}: the line says {version(told, name)}, and the page doesn't have it"
            for name in sorted({*told, *page}) if told.get(name) != page.get(name)]


def is_event(line):
    word = line.split(b" ")[0].decode("latin-1")
    return word in ARGUMENTS and word not in ("root", "rest")


def around(lines, number):
    """The lines of the entries around the line of this number, each with its number; long texts are cut."""
    starts = [at for at, line in enumerate(lines) if is_event(line)]
    first = [at for at in starts if at < number][-BEFORE - 1 :][:1] or [0]
    ends = [at for at in starts if at >= number][: BEHIND + 1]
    end = ends[-1] if len(ends) > BEHIND else len(lines)
    told, texts = [], 0
    for at in range(first[0], min(end, len(lines))):
        texts = texts + 1 if lines[at][:1] in (b"|", b"~") else 0
        if texts > MOST_TEXT_LINES and at + 1 != number:
            told += ["         .."] if texts == MOST_TEXT_LINES + 1 else []
            continue
        mark = ">" if at + 1 == number else " "
        told.append(f"{mark} {at + 1:>6}  {shown(lines[at])}")
    if number > len(lines):
        told.append(f"> {number:>6}  (the end)")
    return told


class Explained:
    """What is to be said of the first line that is wrong."""

    def __init__(self, data, course, wrong):
        self.lines = data.split(b"\n")
        if self.lines[-1] == b"":
            self.lines.pop()
        self.course = course
        self.wrong = wrong

    def line(self):
        at = self.wrong.number - 1
        return self.lines[at] if at < len(self.lines) else None

    def told(self):
        """The lines of the explanation."""
        wrong, line = self.wrong, self.line()
        says = "the end of the record" if line is None else shown(line)
        return [f"Line {wrong.number} is wrong ({wrong.word}): {MEANINGS[wrong.word]}.", "",
                f"  it says:  {says}", *getattr(self, f"told_{wrong.word.replace('-', '_')}")(), "",
                *around(self.lines, wrong.number)]

    def told_bad_line(self):
        told = [f"  but:      {self.wrong.why}"]
        word = (self.line() or b"").split(b" ")[0].decode("latin-1")
        if word in ARGUMENTS:
            told.append(f"  its form: {word} {ARGUMENTS[word]}")
        if self.course.state == WITHIN and self.course.event:
            told.append(f"  where:    line {self.course.event_line} is an event whose reply is to come: "
                        f"{event_words(self.course.event)}")
        return [*told, f"  may come: {self.course.due()} (docs/RECORDS.md has the form of each)"]

    def told_roots(self):
        return [f"  but:      {self.wrong.why}"]

    def told_limit(self):
        return [f"  but:      {self.wrong.why}",
                f"  at most:  {MOST_ENTRIES} events; {MOST_BYTES} bytes, where each event counts 64, its names and its text"]

    def told_reply(self):
        answer = self.wrong.why.encode()
        told = [f"  right is: {shown(b'= ' + answer)}"]
        told += [f"  so:       {said}" for said in keys_that_differ(self.line()[2:], answer)]
        return [*told, f"  to what:  line {self.course.event_line}: {event_words(self.course.event)}"]

    def told_rest(self):
        core = self.course.replay.core
        client = self.course.last_rest.client
        faults = core.rest_faults(client)
        table = core.table(client)
        row = " ".join(["rest", str(client), *(f"{name} {version}" for name, version in table)])
        if faults:
            why = [f"  but:      client {client} isn't at rest: {fault}" for fault in faults]
            return [*why, "  right is: no `rest` line here"]
        return [*(f"  but:      {said}" for said in rows_that_differ(self.course.last_rest.table, table)),
                f"  right is: {shown(row.encode())}"]


def explained(data):
    """Whether a record is sound, and the lines that are to be said of it."""
    course = Course()
    try:
        checked(data, course)
    except Wrong as wrong:
        return False, Explained(data, course, wrong).told()
    times = "once" if course.rests == 1 else f"{course.rests} times"
    events = "one event" if course.steps == 1 else f"{course.steps} events"
    return True, [f"The record is sound: {events}, and {times} a client at rest.",
                  "Each reply is the one that the server has to give by its rules, and each client at rest had just what",
                  "its page would have loaded anew at that place."]
