"""What a server costs that is up: processor time while nothing changes, and memory."""
import contextlib
import os
import pathlib
import tempfile
import threading
import time

from records import bytes_of, entries_of
from servers import live
from trees import leaf, leaf_name, tree

TICK = os.sysconf("SC_CLK_TCK")
PAGES = 10
IDLE_SECONDS = 1.2  # of a minute: 2 % of a processor
COUNT = 400


def used(process):
    """The processor time of a process so far, in seconds."""
    fields = pathlib.Path(f"/proc/{process.pid}/stat").read_text().rsplit(")", 1)[1].split()
    return (int(fields[11]) + int(fields[12])) / TICK


def resident(process):
    """Its resident memory in KiB."""
    text = pathlib.Path(f"/proc/{process.pid}/status").read_text()
    return int(next(line for line in text.splitlines() if line.startswith("VmRSS")).split()[1])


def ask_until(page, over):
    """A page that asks for something to do, again and again."""
    page.socket.stream.settimeout(60)  # an ask waits for 25 seconds
    with contextlib.suppress(*live.FAULTS):
        while time.monotonic() < over:
            page.ask({"type": "ask"})


def measure_idle(program, figures, sizes):
    with live.serving(program, site=tree(sizes.idle)) as server:
        pages = [live.Page(server.port).load() for _ in range(PAGES)]
        over = time.monotonic() + sizes.minute + 2
        for page in pages:
            threading.Thread(target=ask_until, args=(page, over), daemon=True).start()
        time.sleep(1)
        before = used(server.running)
        time.sleep(sizes.minute)
        spent = used(server.running) - before
    figures.judge(f"idle, {sizes.idle:,} files, {PAGES} pages: {spent:.2f} s of processor time in {sizes.minute} s",
                  spent * 60 / sizes.minute, IDLE_SECONDS)


def memory_of_saves(program, saves, record):
    """The resident memory before the first of so many saves on one page and after each, in KiB."""
    with live.serving(program, "--record", str(record), site=tree(COUNT)) as server:
        page = live.Page(server.port).load()
        sizes = [resident(server.running)]
        for number in range(saves):
            server.save(leaf_name(COUNT), f"// {number}\n{leaf(number)}")
            page.update()
            sizes.append(resident(server.running))
        live.equal(server.end(), 0)
    return sizes


def measure_memory(program, figures, sizes):
    """What a save costs is what the last four fifths of them add."""
    settled = sizes.memory // 5
    saves = sizes.memory - settled
    with tempfile.TemporaryDirectory() as folder:
        record = pathlib.Path(folder, "record")
        found = memory_of_saves(program, sizes.memory, record)
        entries = entries_of(record)
    edits = [at for at, (kind, _) in enumerate(entries) if kind == "edit"]
    entries = entries[edits[-saves]:]
    told, grown = bytes_of(entries) / saves, 1024 * (found[-1] - found[settled]) / saves
    figures.say(f"memory: {found[-1] / 1024:.1f} MiB after {sizes.memory:,} saves, {found[0] / 1024:.1f} before them")
    figures.say(f"memory: it grew by {grown:,.0f} bytes a save from the {settled}th on; a save has "
                f"{len(entries) / saves:.1f} entries of the transcript, of {told:,.0f} bytes with names and texts: "
                f"{grown - told:,.0f} bytes more than that")
