"""The check of a record, apart from the program: docs/RECORDS.md, *Whether a record is true*.

The lines are taken in order. A core is told the events again, and what a line says of it is compared.
"""
from .lines import TEXT_EVENTS, BadLine, line_of
from .replay import Replay

MOST_ROOTS = 16
MOST_ENTRIES = 1_000_000
MOST_BYTES = 268_435_456
IN_ROOTS, BETWEEN, WITHIN = "in roots", "between", "within"
# What a line of each kind can be where it comes behind others, in words.
CALLED = {"root": "a root", "event": "an event", "piece": "a line of a text", "last": "a line of a text",
          "reply": "a reply", "rest": "a `rest` line"}


class Wrong(Exception):
    """The first line that is wrong: its number, the word of the reason, and what is wrong with it."""

    def __init__(self, number, word, why):
        super().__init__(why)
        self.number = number
        self.word = word
        self.why = why


def roots_fault(roots):
    """Why no core has these roots, or None."""
    if len(roots) > MOST_ROOTS:
        return f"there are {len(roots)} roots, and a core has {MOST_ROOTS} at most"
    twice = sorted({name for name in roots if roots.count(name) > 1})
    return f"{twice[0]} stands twice among the roots" if twice else None


class Course:
    """What was read so far: roots; or whole entries; or these and an event whose reply is to come."""

    def __init__(self):
        self.state = IN_ROOTS
        self.roots = []
        self.replay = None
        self.steps = self.bytes = self.rests = 0
        self.may_rest = False
        self.event = None
        self.event_line = 0
        self.may_text = False
        self.last_rest = None

    def take(self, number, line):
        """Takes the line of this number, without its LF."""
        try:
            said = line_of(line)
        except BadLine as fault:
            raise Wrong(number, "bad-line", str(fault)) from fault
        if not self.may_stand(said.kind):
            raise Wrong(number, "bad-line", f"{CALLED[said.kind]} can't stand here: {self.due()} is to come")
        getattr(self, f"take_{said.kind}")(number, said.said)

    def may_stand(self, kind):
        if self.state == IN_ROOTS:
            return kind == "root" or (kind == "event" and bool(self.roots))
        if self.state == BETWEEN:
            return kind == "event" or (kind == "rest" and self.may_rest)
        return kind == "reply" or (kind in ("piece", "last") and self.may_text)

    def due(self):
        """What may come next, in words."""
        if self.state == IN_ROOTS:
            return "a root or the first event" if self.roots else "a root"
        if self.state == BETWEEN:
            return "an event, or a `rest` line" if self.may_rest else "an event"
        return "a line of the event's text, or its reply" if self.may_text else "the reply to the event"

    def take_root(self, _number, event):
        self.roots.append(event.name)

    def take_event(self, number, event):
        if self.state == IN_ROOTS:
            if fault := roots_fault(self.roots):
                raise Wrong(number, "roots", fault)
            self.replay = Replay(self.roots)
        self.state, self.event, self.event_line = WITHIN, event, number
        self.may_text = event.word in TEXT_EVENTS
        self.check_place()

    def check_place(self):
        """The event, as far as it was read, has a place in a transcript."""
        if self.steps >= MOST_ENTRIES:
            raise Wrong(self.event_line, "limit", f"{MOST_ENTRIES} events stand before it, the most that a record has")
        if self.bytes + self.event.size() > MOST_BYTES:
            raise Wrong(self.event_line, "limit", f"the events up to this one count more than {MOST_BYTES} bytes")

    def take_piece(self, _number, piece):
        self.event.text += piece
        self.check_place()

    def take_last(self, _number, piece):
        self.event.text += piece
        self.may_text = False
        self.check_place()

    def take_reply(self, number, reply):
        answer = self.replay.answer(self.event)
        self.steps += 1
        self.bytes += self.event.size()
        self.state, self.may_rest = BETWEEN, True
        if reply != answer:
            raise Wrong(number, "reply", answer.decode())

    def take_rest(self, number, event):
        self.may_rest = False
        self.rests += 1
        self.last_rest = event
        if not self.replay.rests_with(event.client, event.table):
            raise Wrong(number, "rest", f"client {event.client} isn't at rest with this table")

    def at_end(self, number):
        """No line is left; this is the number of the next."""
        if self.state == WITHIN or not (self.roots or self.state != IN_ROOTS):
            raise Wrong(number, "bad-line", f"the record ends here, and {self.due()} is to come")
        if self.state == IN_ROOTS and (fault := roots_fault(self.roots)):
            raise Wrong(number, "roots", fault)


def checked(data, course=None, number=1):
    """The course of a sound record; the first line that is wrong is raised. The bytes are those of the record from the
    line of this number on, behind the course of the lines before."""
    course = course or Course()
    *lines, rest = data.split(b"\n")
    for at, line in enumerate(lines, number):
        course.take(at, line)
    end = number + len(lines)
    if rest:
        raise Wrong(end, "bad-line", "the last line isn't ended by LF: the record was cut")
    course.at_end(end)
    return course


def verdict(data, course=None, number=1):
    """What is said of bytes: `yes steps N rests K`, or `no line L WORD`."""
    try:
        course = checked(data, course, number)
    except Wrong as wrong:
        return f"no line {wrong.number} {wrong.word}"
    return f"yes steps {course.steps} rests {course.rests}"
