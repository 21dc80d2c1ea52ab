"""What the sessions of a run say: most of the time what a client would say next, else any other message, and sometimes
what ends the session."""
from . import pages, spelling
from .core import entry_in, imports_in, met_of, new_view
from .wire import BINARY

LARGE = 9007199254740991


def hello(rng):
    """A hello: without roots, with some, or with such as are refused."""
    message = {"type": "hello", "format": rng.choice([1, 2, 2])}
    kind = rng.random()
    if kind < 0.3:
        message["roots"] = rng.sample(pages.NAMES, rng.randrange(1, 4))
    elif kind < 0.37:
        message["roots"] = rng.choice([["/a.js", "/a.js"], [f"/r{at}.js" for at in range(17)]])
    elif kind < 0.4:
        message["roots"] = [f"/r{at}.js" for at in range(15)] + ["/m.js"]
    return message


def any_name(rng):
    return rng.choice(pages.NAMES + pages.ABSENT + ["/other.js", "/" + "n" * 254])


def any_table(rng):
    names = sorted({any_name(rng) for _ in range(rng.randrange(4))})
    return [[name, rng.choice([1, 2, 3, rng.randrange(1, 20), LARGE])] for name in names]


def aborted(rng, cause, path):
    is_link = cause == "link"
    return {"type": "aborted", "cause": cause, "path": path, "from": any_name(rng) if is_link else None,
            "name": rng.choice(["x", "", "\u00e9"]) if is_link else None}


def any_message(rng):
    """Any message but a bye, in turn or not."""
    kind = rng.choice(["hello", "ask", "fetch", "applied", "aborted", "invalidate"])
    if kind == "hello":
        return hello(rng)
    if kind == "fetch":
        return {"type": kind, "path": any_name(rng)}
    if kind == "applied":
        return {"type": kind, "table": any_table(rng)}
    if kind == "aborted":
        return aborted(rng, rng.choice(["missing", "broken", "link"]), any_name(rng))
    if kind == "invalidate":
        version = rng.choice([1, 2, 3, 4, 5, LARGE])
        return {"type": kind, "path": any_name(rng), "version": version, "message": rng.choice(["", "late", "\u00e9\"\\\n"])}
    return {"type": kind}


def next_needed(client):
    """The first module that the plan needs and that wasn't fetched, depth first, imports in the order of the text."""
    met, left = set(), list(reversed(client.roots))
    while left:
        name = left.pop()
        if name in met:
            continue
        met.add(name)
        if entry_in(client, name) is None:
            return name
        left += reversed(imports_in(client, name))
    return None


def table_of(client):
    """The table that the plan of a client makes."""
    view = new_view(client, met_of(client))
    return [[name, view[name].version] for name in sorted(view)]


def wrong_table(rng, table):
    """A table that differs from this one at some name."""
    table = [list(row) for row in table]
    at = rng.randrange(len(table))
    kind = rng.randrange(3)
    if kind == 0:
        table[at][1] = rng.choice([table[at][1] + 1, LARGE])
    elif kind == 1:
        del table[at]
    else:
        table = sorted([*table, ["/other.js", 1]])
    return table


def usual(rng, core, client):
    """What a client would say next."""
    if client is None:
        return hello(rng)
    if client.plan is None:
        accepting = [name for name, entry in client.view.items() if entry.analysis.self_accepts]
        if accepting and rng.random() < 0.2:
            name = rng.choice(sorted(accepting))
            return {"type": "invalidate", "path": name, "version": client.view[name].version, "message": "again"}
        return {"type": "ask"}
    needed = next_needed(client)
    if needed is None:
        table = table_of(client)
        return {"type": "applied", "table": wrong_table(rng, table) if rng.random() < 0.15 else table}
    if needed in core.served or rng.random() < 0.5:
        return {"type": "fetch", "path": needed}
    return aborted(rng, "missing", needed)


def ending(rng, session):
    """Ends a session in one of the ways; the status that the server then has."""
    data = spelling.spelled(rng, any_message(rng))
    kind = rng.choice(["bye", "bye", "no message", "no message", "no text", "close", "close within", "cut", "broken"])
    if kind == "bye":
        session.say({"type": "bye"}, spelling.spelled(rng, {"type": "bye"}))
        return 0
    if kind == "no message":
        return session.send_no_message(rng.choice(spelling.NO_MESSAGES))
    if kind == "no text":
        return session.send_no_message(rng.choice(spelling.NO_TEXTS), BINARY)
    if kind.startswith("close"):
        return session.close(data[: rng.randrange(1, len(data))] if kind == "close within" else b"")
    return session.cut(data) if kind == "cut" else session.break_protocol(data)


def usual_turns(rng, core, session, most):
    """What a client would say, with the answers, until there is nothing to do, and at most so often."""
    for _ in range(most):
        message = usual(rng, core, session.client())
        if session.say(message, spelling.spelled(rng, message)) == {"type": "idle"}:
            return


def turns(rng, core, session):
    """One request of an open session, or a few of the usual ones, with their answers."""
    if rng.random() < 0.3:
        message = any_message(rng)
        session.say(message, spelling.spelled(rng, message))
    else:
        usual_turns(rng, core, session, rng.choice([1, 4, 16]))
