"""One run: a random folder is served, a few sessions take turns in one order, and the folder or the input of the server
brings edits between."""
import json
import os
import subprocess
import time

from . import messages, pages, talk
from .core import Core, report
from .language import analyse
from .session import Session

PATIENCE = 60
PAUSE = 0.02
ASK = json.dumps({"type": "ask"}).encode()
LAST = "/zz_last.js"  # the module that the last edit of an input brings


class Run:
    """A run, whose choices are those of `rng`. `log` has what was said, in its order."""

    def __init__(self, program, work, rng):
        self.program = program
        self.rng = rng
        self.log = []
        self.status = 0
        self.sessions = []
        self.saved = 0
        self.server = None
        self.folder = work / "site"
        self.spare = work / "spare"
        self.spare.mkdir()
        self.kind = rng.choice(["still", "saves", "saves", "saves", "input"])
        self.saves = rng.randrange(1, 9) if self.kind == "saves" else 0
        self.count = rng.randrange(2 if self.kind == "input" else 1, 5)
        self.roots = [pages.ROOT] if rng.random() < 0.7 else [pages.ROOT, "/b.js"]
        self.core = Core(self.roots, analyse)

    def make_folder(self):
        """The folder, whose modules are edited in order of their names and have their results at once."""
        texts = {name: pages.text_of(self.rng, name) for name in pages.NAMES if self.rng.random() < 0.9}
        (self.folder / "sub").mkdir(parents=True)
        for name, text in sorted(texts.items()):
            (self.folder / name[1:]).write_bytes(text.encode())
            self.log.append(f"file {name} {text!r}")
            self.change(name, text)

    def change(self, name, text):
        """An edit and its result."""
        if self.core.edit(name, text).startswith("job "):
            self.core.settle(name, text, self.core.counted)

    def start(self):
        words = [self.program, "serve", str(self.folder), *self.roots, "--outside", str(self.count), "--port", "0"]
        # The results of an input's edits come in the order of the edits where one worker makes them.
        words += ["--workers", "1" if self.kind == "input" else str(self.rng.randrange(1, 4))]
        words += ["--rounds", str(self.saves)] + ["--edits"] * (self.kind == "input")
        self.edits = self.input_edits() if self.kind == "input" else []
        self.log.append(" ".join(words[1:2] + words[3:]))
        edits = self.spare / "edits"
        edits.write_bytes("".join(map(edit_lines, self.edits)).encode())
        with edits.open("rb") as source:
            self.server = subprocess.Popen(words, stdin=source, stdout=subprocess.PIPE)
        line = self.server.stdout.readline().decode()
        if not line.startswith("listening "):
            raise AssertionError(f"the server wrote {line!r}")
        self.port = int(line.split()[1])

    def input_edits(self):
        """Edits of which the sources at the end don't hang on when results come: a text of each name at most."""
        names = self.rng.sample(pages.NAMES + pages.ABSENT, self.rng.randrange(1, 5))
        edits = []
        for name in names:
            if self.rng.random() < 0.3:
                edits.append((name, None))
            if self.rng.random() < 0.8:
                # The lines of an edit end in LF each.
                text = pages.text_of(self.rng, name).rstrip("\n") + "\n"
                edits += [(name, text)] * self.rng.choice([1, 1, 2])
        return [*edits, (LAST, "export const v = 1;\n")]

    def connect(self):
        self.sessions.append(Session(f"s{len(self.sessions)}", self.port, self.core, self.rng, self.log))
        self.log.append(f"s{len(self.sessions) - 1} connects")
        if len(self.sessions) == self.count and self.kind == "input":
            self.wait_for_input()

    def open_sessions(self):
        return [session for session in self.sessions if session.is_open]

    def play(self):
        """The whole run; the server's report is compared at its end."""
        self.make_folder()
        self.start()
        self.connect()
        self.begin_watching()
        for _ in range(self.rng.randrange(10, 60)):
            self.go_on()
        while len(self.sessions) < self.count:
            self.connect()
        while self.saved < self.saves:
            self.save()
        for session in self.open_sessions():
            self.status = max(self.status, talk.ending(self.rng, session))
        self.finish()

    def go_on(self):
        """A turn of a session, an end of one, a further session, or a save."""
        chance = self.rng.random()
        if chance < 0.1 and len(self.sessions) < self.count:
            self.connect()
        elif chance < 0.25 and len(self.sessions) == self.count and self.saved < self.saves:
            self.save()
        elif chance < 0.28 and len(self.talking()) > 1:
            self.status = max(self.status, talk.ending(self.rng, self.rng.choice(self.talking())))
        elif self.talking():
            talk.turns(self.rng, self.core, self.rng.choice(self.talking()))

    # The first session watches, where there are edits: by it the others are told when an edit has its result.

    def talking(self):
        """The sessions that take turns."""
        return [session for session in self.open_sessions() if self.kind == "still" or session is not self.sessions[0]]

    def watch(self, message):
        return self.sessions[0].say(message, json.dumps(message).encode())

    def begin_watching(self):
        if self.kind != "still":
            self.watch({"type": "hello", "format": 2, "roots": [LAST]})

    def settle_down(self):
        """The watching client gives up each load, and asks until it is idle: so it stays until something is served or
        removed, or a text has a fault."""
        answer = None
        while answer != {"type": "idle"}:
            if self.sessions[0].client().plan:
                self.watch({"type": "aborted", "cause": "missing", "path": LAST, "from": None, "name": None})
            answer = self.watch({"type": "ask"})

    def save(self):
        """A module of the folder gets a new text, or is removed; the watching client asks until it hears of it."""
        self.settle_down()
        loaded = sorted({name for client in self.core.clients.values() for name in client.view})
        name = self.rng.choice(self.rng.choice([loaded or pages.NAMES, pages.NAMES, [pages.ROOT]]))
        path = self.folder / name[1:]
        text = None
        if name in self.core.current and self.rng.random() < 0.15:
            path.unlink()
        else:
            while text is None or (name in self.core.current and self.core.current[name].text == text):
                text = pages.text_of(self.rng, name)
            spare = self.spare / "text"
            spare.write_bytes(text.encode())
            os.replace(spare, path)
        self.log.append(f"save {name} {text!r}")
        self.saved += 1
        self.poll(ASK, {"idle"}, lambda: self.change(name, text))
        for session in self.talking():
            if self.rng.random() < 0.7:
                talk.usual_turns(self.rng, self.core, session, 20)

    def wait_for_input(self):
        fetch = {"type": "fetch", "path": LAST}
        self.log += [f"edit {name} {text!r}" for name, text in self.edits]
        self.poll(json.dumps(fetch).encode(), {"missing", "not-yet"}, lambda: [self.change(*edit) for edit in self.edits])

    def poll(self, data, before, change):
        """The watching client sends this request until its answer is none of those before the change; then it is the
        core's after it."""
        session = self.sessions[0]
        end = time.monotonic() + PATIENCE
        while True:
            session.connection.send(data)
            heard = session.heard()
            if json.loads(heard)["type"] not in before:
                break
            self.core.steps += 1
            if time.monotonic() > end:
                raise AssertionError("the server doesn't see a change")
            time.sleep(PAUSE)
        change()
        session.expect(session.desk.deal(messages.decode(data)), heard)

    def finish(self):
        output, _ = self.server.communicate(timeout=PATIENCE)
        wanted = report(self.core)
        if output != wanted:
            raise AssertionError(f"the report is {output!r}, and not {wanted!r}")
        if self.server.returncode != self.status:
            raise AssertionError(f"the status is {self.server.returncode}, and not {self.status}")

    def stop(self):
        """Ends a server that has to end, where something was wrong."""
        if self.server:
            self.server.kill()
            self.server.communicate()


def edit_lines(edit):
    """The lines of an edit of the server's input."""
    name, text = edit
    if text is None:
        return f"remove {name}\n"
    return f"edit {name}\n" + "".join(f"|{line}\n" for line in text.removesuffix("\n").split("\n"))
