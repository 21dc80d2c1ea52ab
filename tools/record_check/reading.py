"""The roots and the events that the lines of a record tell, whether or not what it says is true."""
from .lines import line_of


def events_in(data):
    """The roots and the events of a record whose lines have their forms."""
    roots, events = [], []
    for line in data.split(b"\n")[:-1]:
        kind, said = line_of(line)
        if kind == "root":
            roots.append(said.name)
        elif kind == "event":
            events.append(said)
        elif kind in ("piece", "last"):
            events[-1].text += said
    return roots, events
