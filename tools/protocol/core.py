"""The server of docs/PROTOCOL.md as one object: what it keeps of sources and clients, and what it answers.

An answer is a dictionary of the keys of its message, those of the second format among them. Names are texts of ASCII,
so their order as texts is their order by bytes.
"""
from dataclasses import dataclass, field

from .language import Fault

MOST_CLIENTS = 32
MOST_ROOTS = 16
MOST_TEXT = 131_072
MOST_NAMES = 8_192
MOST_SOURCES = 33_554_432
LARGEST = 9_007_199_254_740_991
OUTSTANDING = "outstanding"
GOOD = "good"


@dataclass
class Source:
    """The current text of a name, and what came of its job."""

    version: int
    text: str
    verdict: object = OUTSTANDING


@dataclass
class Entry:
    """A module that is served, or that a page has."""

    version: int
    text: str
    analysis: object


@dataclass
class Plan:
    """A load, a reload or an update that is being fetched."""

    kind: str
    replaced: list = field(default_factory=list)
    staged: dict = field(default_factory=dict)


@dataclass
class Client:
    """What the server keeps of one client."""

    roots: list
    plan_at: int
    plan: Plan | None
    held_at: int | None = None
    batches: int = 0
    loaded: bool = False
    view: dict = field(default_factory=dict)
    forced: set = field(default_factory=set)
    notices: dict = field(default_factory=dict)


def refused(code, path=None, told=None, kept=None):
    return {"type": "refused", "code": code, "path": path, "told": told, "kept": kept}


def size_of(text):
    """The bytes of a text, which may have bytes that are no UTF-8 in the form of `surrogateescape`."""
    return len(text.encode("utf-8", "surrogateescape"))


def reached(roots, imports_of):
    """The names that imports lead to from the roots, those among them."""
    known, left = set(), list(roots)
    while left:
        name = left.pop()
        if name not in known:
            known.add(name)
            left += imports_of(name)
    return known


def listed(names):
    return ", ".join(sorted(names))


def in_view(view, name):
    return view[name].analysis.imports if name in view else []


class Spread:
    """How the changes of a page spread: from a module to those that import it, until one accepts it."""

    def __init__(self, view, roots, changed, forced):
        self.view, self.roots, self.changed, self.forced = view, roots, changed, forced
        self.importers = {}
        for name, entry in view.items():
            for imported in entry.analysis.imports:
                self.importers.setdefault(imported, []).append(name)

    def goes_on(self, name):
        """Whether a change of this module is passed to those that import it."""
        accepts = name in self.view and self.view[name].analysis.self_accepts
        return not accepts or name in self.forced

    def next_of(self, name):
        """The modules that a change is passed to."""
        if not self.goes_on(name):
            return []
        return [m for m in self.importers.get(name, []) if name not in self.view[m].analysis.accepted]

    def ends_badly(self, name):
        declines = name in self.view and self.view[name].analysis.declined
        return declines or (name in self.roots and self.goes_on(name))

    def reason(self):
        """The least path that ends badly: the fewest modules, and then the first by name."""
        paths = {name: [name] for name in [*self.changed, *self.forced]}
        layer = dict(paths)
        while layer:
            bad = [path for name, path in layer.items() if self.ends_badly(name)]
            if bad:
                return min(bad)
            after = {}
            for name, path in layer.items():
                for m in self.next_of(name):
                    if m not in paths:
                        after[m] = min(after.get(m, [*path, m]), [*path, m])
            paths |= after
            layer = after
        return None

    def replaced(self):
        met = reached([*self.changed, *self.forced], self.next_of)
        return sorted({*self.changed, *(m for name in met for m in self.next_of(name))})

    def pairs(self, replaced):
        """Each boundary with each module that it is told of."""
        found, replaced = [], set(replaced)
        for m in sorted(self.view):
            analysis = self.view[m].analysis
            for n in sorted(name for name in {m, *analysis.accepted} if name in self.view):
                own = m == n and n in replaced and analysis.self_accepts
                named = n in analysis.accepted and m not in replaced and (n in replaced or n in self.forced)
                if own or named:
                    found.append((m, n))
        return found


class Core:
    """A server with these roots. `analyse(name, text)` is what a module text means: an analysis or a fault."""

    def __init__(self, roots, analyse):
        self.roots = roots
        self.analyse = analyse
        self.counted = 0
        self.source_bytes = 0
        self.current = {}
        self.served = {}
        self.served_no = 0
        self.clients = {}
        self.pages = {}
        self.given = 0
        self.steps = 0

    # Sources.

    def edit_answer(self, name, text):
        """What an edit is answered, as `job 3`, a removal where the text is None."""
        old = self.current.get(name)
        if text is None:
            answer = "removed" if old else "same"
        elif size_of(text) > MOST_TEXT:
            answer = "text-too-long"
        elif old and old.text == text:
            answer = "same"
        elif not old and len(self.current) >= MOST_NAMES:
            answer = "too-many-names"
        elif self.source_bytes - (size_of(old.text) if old else 0) + size_of(text) > MOST_SOURCES:
            answer = "source-total"
        else:
            answer = "job"
        if answer not in ("job", "removed"):
            return answer
        return f"{answer} {self.counted + 1}" if self.counted < LARGEST else "numbers-spent"

    def edit(self, name, text):
        """An edit, a removal where the text is None; what it is answered."""
        self.steps += 1
        answer = self.edit_answer(name, text)
        if answer.startswith(("job ", "removed ")):
            self.counted += 1
            old = self.current.pop(name, None)
            self.source_bytes -= size_of(old.text) if old else 0
            if text is None:
                self.served_no += 1
                self.served.pop(name, None)
                self.drop_notices(name)
            else:
                self.source_bytes += size_of(text)
                self.current[name] = Source(self.counted, text)
        return answer

    def settle(self, name, text, version):
        """The result of a job; what it is answered."""
        self.steps += 1
        source = self.current.get(name)
        if not source or (source.version, source.text, source.verdict) != (version, text, OUTSTANDING):
            return "late"
        result = self.analyse(name, text)
        if isinstance(result, Fault):
            source.verdict = result
            for client in self.clients.values():
                client.notices[name] = result
            return f"refused {result.line}:{result.column} {result.kind}"
        source.verdict = GOOD
        self.served[name] = Entry(version, text, result)
        self.served_no += 1
        self.drop_notices(name)
        return "served"

    def drop_notices(self, name):
        for client in self.clients.values():
            client.notices.pop(name, None)

    # Clients.

    def connect(self, roots):
        """A hello, which names these roots or none."""
        self.steps += 1
        if len(roots) > MOST_ROOTS or len(set(roots)) < len(roots):
            return refused(7)
        if len(self.clients) >= MOST_CLIENTS:
            return refused(2)
        self.given += 1
        self.clients[self.given] = Client(roots or self.roots, self.served_no, Plan("load"))
        self.pages[self.given] = []
        return {"type": "connected", "client": self.given, "roots": roots or self.roots}

    def disconnect(self, number):
        """A client that goes."""
        self.steps += 1
        return {"type": "done"} if self.clients.pop(number, None) else refused(1)

    def request(self, number, message):
        """A request of the client with this number, 0 for none."""
        self.steps += 1
        client = self.clients.get(number)
        if not client:
            return refused(1)
        answer = getattr(self, message["type"])(number, client, message)
        if message["type"] in ("ask", "applied"):
            self.pages[number] = self.table(number)
        return answer

    def changed(self, client):
        """The modules of a page that aren't as they are served."""
        is_served = lambda name, entry: name in self.served and self.served[name].version == entry.version
        return [name for name, entry in client.view.items() if not is_served(name, entry)]

    def dropped(self, client):
        """The modules of a page that no imports from a root reach."""
        return sorted(set(client.view) - reached(client.roots, lambda name: in_view(client.view, name)))

    def table(self, number):
        """The modules of a client's page with their versions, none for a client that isn't connected."""
        client = self.clients.get(number)
        return sorted((name, entry.version) for name, entry in client.view.items()) if client else []

    def rest_faults(self, number):
        """Why a client isn't at rest, in words; nothing where it is."""
        client = self.clients.get(number)
        if not client:
            return ["it isn't connected"]
        told = [
            (not client.loaded, "its page isn't loaded yet"),
            (client.loaded and client.plan, "an update or a reload is under way"),
            (self.changed(client), f"{listed(self.changed(client))} of its page isn't as it is served"),
            (client.forced, f"{listed(client.forced)} was invalidated"),
            (self.dropped(client), f"{listed(self.dropped(client))} is to be pruned"),
            (client.notices, f"a fault of {listed(client.notices)} waits to be told"),
        ]
        return [fault for holds, fault in told if holds]

    def ask(self, number, client, _):
        if client.plan:
            return refused(3)
        if client.notices:
            name = min(client.notices)
            fault = client.notices.pop(name)
            return {"type": "error", "path": name, "line": fault.line, "column": fault.column, "kind": fault.kind}
        is_held = client.held_at == self.served_no
        if not client.loaded:
            return {"type": "idle"} if is_held else self.begin_load(number, client)
        dropped = self.dropped(client)
        if dropped:
            for name in dropped:
                del client.view[name]
            client.forced -= set(dropped)
            return {"type": "prune", "paths": dropped}
        return {"type": "idle"} if is_held else self.spread(client)

    def begin(self, client, kind, replaced=()):
        client.plan = Plan(kind, list(replaced))
        client.plan_at = self.served_no

    def begin_load(self, number, client):
        self.begin(client, "load")
        return {"type": "connected", "client": number, "roots": client.roots}

    def spread(self, client):
        """The answer to an ask of a loaded page from which nothing is dropped."""
        changed = self.changed(client)
        spread = Spread(client.view, client.roots, changed, client.forced)
        triggered = sorted({*changed, *client.forced})
        reason = spread.reason()
        if reason:
            client.batches += 1
            self.begin(client, "reload")
            cause = "declined" if client.view[reason[-1]].analysis.declined else "root"
            return {"type": "full-reload", "cause": cause, "path": reason, "batch": client.batches, "triggeredBy": triggered}
        replaced = spread.replaced()
        pairs = spread.pairs(replaced)
        if not replaced and not pairs:
            return {"type": "idle"}
        client.batches += 1
        self.begin(client, "update", replaced)
        updates = [{"type": "js-update", "path": m, "acceptedPath": n, "timestamp": self.version(n)} for m, n in pairs]
        return {"type": "update", "replaced": replaced, "updates": updates, "batch": client.batches, "triggeredBy": triggered}

    def version(self, name):
        return self.served[name].version if name in self.served else 0

    def fetch(self, _number, client, message):
        if not client.plan:
            return refused(3)
        name = message["path"]
        if name in self.served:
            entry = client.plan.staged[name] = self.served[name]
            return {"type": "text", "path": name, "version": entry.version, "text": entry.text}
        verdict = self.current[name].verdict if name in self.current else None
        if isinstance(verdict, Fault):
            return {"type": "broken", "path": name, "line": verdict.line, "column": verdict.column, "kind": verdict.kind}
        return {"type": "not-yet" if verdict == OUTSTANDING else "missing", "path": name}

    def applied(self, _number, client, message):
        if not client.plan:
            return refused(3)
        met = met_of(client)
        lacking = [name for name in met if entry_in(client, name) is None]
        if lacking:
            return refused(5, min(lacking))
        view = new_view(client, met)
        told = dict(map(tuple, message["table"]))
        for name in sorted({*told, *view}):
            kept = view[name].version if name in view else 0
            if told.get(name, 0) != kept:
                return refused(4, name, told.get(name, 0), kept)
        client.view, client.loaded, client.forced = view, True, set()
        client.plan = client.held_at = None
        return {"type": "done"}

    def aborted(self, _number, client, _message):
        if not client.plan:
            return refused(3)
        client.plan = None
        client.held_at = client.plan_at
        return {"type": "done"}

    def invalidate(self, _number, client, message):
        if client.plan:
            return refused(3)
        entry = client.view.get(message["path"])
        if not entry or entry.version != message["version"] or not entry.analysis.self_accepts:
            return refused(6)
        client.forced.add(message["path"])
        client.held_at = None
        return {"type": "done"}


def entry_in(client, name):
    """The module that a name has in the plan of a client: kept, or fetched for it."""
    plan = client.plan
    if plan.kind == "update" and name not in plan.replaced and name in client.view:
        return client.view[name]
    return plan.staged.get(name)


def imports_in(client, name):
    entry = entry_in(client, name)
    return entry.analysis.imports if entry else []


def met_of(client):
    """The names that the walk of a client's plan meets."""
    return reached(client.roots, lambda name: imports_in(client, name))


def new_view(client, met):
    """The page that a plan makes: in an update the old modules that the walk doesn't meet stay until they are pruned."""
    view = {name: entry_in(client, name) for name in met}
    if client.plan.kind == "update":
        view |= {name: entry for name, entry in client.view.items() if name not in met}
    return view


class Desk:
    """What a server keeps of one session: the number of its client, 0 for none, and the format of the last hello."""

    def __init__(self, core):
        self.core = core
        self.number = 0
        self.format = 1

    def deal(self, message):
        """The answer to a message."""
        kind = message["type"]
        if kind == "hello":
            self.format = message["format"]
            if self.number:
                return refused(3)
            answer = self.core.connect(message.get("roots", []))
            self.number = answer.get("client", 0)
            return answer
        if kind == "bye":
            number, self.number = self.number, 0
            return self.core.disconnect(number)
        return self.core.request(self.number, message)

    def leave(self):
        """The session has ended without an answered bye."""
        if self.number:
            self.core.disconnect(self.number)
            self.number = 0


def fresh_lines(core):
    """The lines of what a page of the server's roots would load anew."""
    met = sorted(reached(core.roots, lambda name: in_view(core.served, name)))
    lines = ["fresh", *(f"{name} {core.served[name].version}" for name in met if name in core.served)]
    lines += [f"missing {name}" for name in met if name not in core.served]
    for name in met:
        links = core.served[name].analysis.links if name in core.served else []
        lacking = {(m, x) for m, x in links if m in core.served and x not in core.served[m].analysis.exports}
        lines += [f"unlinked {name} {m} {x}" for m, x in sorted(lacking)]
    return lines


def report(core):
    """The report of a server at its end, without the port and without clients of its own."""
    lines = [f"steps {core.steps}", *fresh_lines(core)]
    for number, page in core.pages.items():
        lines += [f"client {number}", *(f"{name} {version}" for name, version in page)]
    return "".join(f"{line}\n" for line in lines).encode()
