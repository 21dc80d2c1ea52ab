"""The record of events that a core was told: what the program's `record` writes."""
from .lines import ARGUMENTS, TEXT_EVENTS
from .replay import DONE, Replay

REQUESTS = ("fetch", "applied", "aborted", "invalidate", "ask")


def text_lines(text):
    """The lines of an event's text: behind `|` where an LF ends one, and behind `~` where none does."""
    *lines, last = text.split(b"\n")
    return [b"|" + line for line in lines] + ([b"~" + last] if last else [])


def rows(table):
    return [word for name, version in table for word in (name, str(version))]


def event_lines(event):
    """The line of an event, and those of its text."""
    words = [event.word]
    for kind in ARGUMENTS[event.word].split():
        if kind == "C":
            words.append(str(event.client))
        elif kind == "NAME" and event.name is not None:
            words.append(event.name)
        elif kind == "V" and event.version is not None:
            words.append(str(event.version))
    words += [*event.names, *rows(event.table)]
    return [" ".join(words).encode(), *(text_lines(event.text) if event.word in TEXT_EVENTS else [])]


def record_of(roots, events):
    """The record of these events, in their order."""
    lines = [f"root {name}".encode() for name in roots]
    replay = Replay(roots)
    for event in events:
        reply = replay.answer(event)
        lines += [*event_lines(event), b"= " + reply]
        if event.word in REQUESTS and reply == DONE and not replay.core.rest_faults(event.client):
            lines.append(" ".join(["rest", str(event.client), *rows(replay.core.table(event.client))]).encode())
    return b"".join(line + b"\n" for line in lines)
