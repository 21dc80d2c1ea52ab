#!/usr/bin/env python3
"""`serve` and `join` with each allocation failing in turn: serving.py PROGRAM LIBRARY MOST

A folder of one module is served to a client of the server's own, and to one from outside that goes without a bye; and a
client joins a server, there with at most MOST runs. LIBRARY is that of calls.c. Where an allocation fails, status and
output are one of those that are listed here. Threads make their allocations in any order, so a number stands for an
allocation of the one or the other from run to run, and each trial lists what the refusal of any of them may bring:

- the command's own, where the refusal was made good;
- status 9, with nothing, or with what was written before; a server leaves its report away;
- status 7, where memory is lacking for the start of a thread, or for a head of HTTP within a WebSocket's handshake: the
  one is a refused start, and of the other the WebSocket doesn't tell that memory was lacking. A client of the server's
  own then finds its connection ended before its hello was answered, or it was never begun.
"""
import os
import pathlib
import re
import subprocess
import sys
import tempfile
from typing import NamedTuple

sys.dont_write_bytecode = True
sys.path.insert(0, str(pathlib.Path(__file__).parent.parent))

from protocol import wire

PATIENCE = 60
FAULT = 7
NO_MEMORY = 9
LISTENED = "listening P\n"
HELLO = b'{"format":1,"type":"hello"}'
ASK = b'{"type":"ask"}'


class Trial(NamedTuple):
    """A command: its runs by the number of the allocation that fails, 0 for none, and what it comes to: its own output at
    status 0, and each further status with the outputs that it may have."""

    name: str
    run: object
    own: str
    outcomes: dict


class Command:
    """The runs of the program over a folder of one module."""

    def __init__(self, program, library, work):
        self.program = program
        self.library = library
        self.count = work / "count"
        self.site = work / "site"
        self.site.mkdir()
        (self.site / "m.js").write_text("export const n = 1;\n")

    def start(self, words, at=None):
        """A run in which this allocation fails; in which none is counted, without a number."""
        env = dict(os.environ)
        if at is not None:
            env |= {"LD_PRELOAD": self.library, "FAIL": "alloc", "FAIL_AT": str(at), "COUNT_TO": str(self.count)}
        return subprocess.Popen([self.program, *words], stdin=subprocess.DEVNULL, stdout=subprocess.PIPE, text=True, env=env)

    def ended(self, process, before=""):
        """The status and the output of a run, of which this was read before."""
        try:
            output, _ = process.communicate(timeout=PATIENCE)
            return process.returncode, before + output
        finally:
            process.kill()
            process.communicate()

    def served(self, at):
        return self.ended(self.start(["serve", str(self.site), "/m.js", "--clients", "1", "--turns", "4"], at))

    def visited(self, at):
        """A server with a client from outside that says hello, asks, and closes without a bye."""
        server = self.start(["serve", str(self.site), "/m.js", "--outside", "1"], at)
        line = server.stdout.readline()
        if line:
            visit(int(line.split()[1]))
        return self.ended(server, line)

    def joined(self, at):
        """A run of `join`, with a server of its own in which nothing fails."""
        server = self.start(["serve", str(self.site), "/m.js", "--outside", "1"])
        try:
            port = server.stdout.readline().split()[1]
            ended = self.ended(self.start(["join", port, "--turns", "4"], at))
            if ended[0] == NO_MEMORY and server.poll() is None:
                # A client that ended before it connected leaves the server waiting.
                self.ended(self.start(["join", port, "--turns", "0"]))
            return ended
        finally:
            self.ended(server)


def visit(port):
    """A client that goes without a bye, or that the server leaves before."""
    try:
        client = wire.Connection(port)
        for message in [HELLO, ASK]:
            client.send(message)
            client.receive()
        client.close()
    except (OSError, AssertionError, wire.Ended):
        pass


def report(steps, lines=""):
    """What a server writes that made so many steps, and at its end these lines."""
    return f"{LISTENED}steps {steps}\nfresh\n/m.js 1\n{lines}"


def trials(command):
    served = report(8, "client 1\n/m.js 1\n1 loaded\n")
    # The fifth step is that the client is gone; the transcript grows for it.
    visited = report(5, "client 1\n")
    lacking = {"", LISTENED}
    return [
        # A worker, the client or its session wasn't begun, or there was no handshake.
        Trial("serve", command.served, served, {
            NO_MEMORY: lacking,
            FAULT: {served, report(2), report(2, "0 ended link\n")},
        }),
        Trial("serve to a client that goes", command.visited, visited, {
            NO_MEMORY: lacking,
            FAULT: {visited, report(2)},
        }),
        Trial("join", command.joined, "1 loaded\n", {NO_MEMORY: {"", "1 loaded\n"}, FAULT: {""}}),
    ]


def wrong_of(trial, at):
    """The status of a run, and what is wrong with it, or None."""
    try:
        status, output = trial.run(at)
    except subprocess.TimeoutExpired:
        return "none", f"it didn't end within {PATIENCE} seconds"
    output = re.sub(r"^listening \d+", "listening P", output)
    if output in ({trial.own} if status == 0 else trial.outcomes.get(status, ())):
        return status, None
    return status, f"status {status} with {output!r}"


def play(trial, command, most):
    """The runs of a command: how many there were, and how many were wrong."""
    command.count.unlink(missing_ok=True)
    status, wrong = wrong_of(trial, 0)
    if status != 0 or wrong or not command.count.exists():
        print(f"{trial.name}: {wrong or f'status {status}, or its allocations were not counted'}")
        return 1, 1
    count = int(command.count.read_text())
    numbers = range(1, count + 1, max(1, -(-count // most)))
    statuses, failed = {}, 0
    for at in numbers:
        status, wrong = wrong_of(trial, at)
        statuses[status] = statuses.get(status, 0) + 1
        if wrong:
            failed += 1
            print(f"{trial.name}: allocation {at} of {count}: {wrong}", flush=True)
    ends = ", ".join(f"{times} with status {status}" for status, times in sorted(statuses.items(), key=str))
    print(f"{trial.name}: {len(numbers)} of {count} allocations failed in turn: {ends}", flush=True)
    return len(numbers), failed


def main():
    program, library, most = str(pathlib.Path(sys.argv[1]).resolve()), sys.argv[2], int(sys.argv[3])
    with tempfile.TemporaryDirectory() as work:
        command = Command(program, library, pathlib.Path(work))
        runs = [play(trial, command, most if trial.name == "join" else sys.maxsize) for trial in trials(command)]
    print(f"{sum(tried for tried, _ in runs)} runs, {sum(wrong for _, wrong in runs)} wrong")
    return 1 if any(wrong for _, wrong in runs) else 0


sys.exit(main())
