"""32 pages and a save each second: whether every page is up at the end, and what the server grew to."""
import contextlib
import pathlib
import tempfile
import threading
import time

from records import bytes_of, entries_of, verdict
from rests import resident, used
from servers import live
from trees import PLAIN_INDEX, module, tree

PAGES = 32
COUNT = 400


def site():
    """A tree of modules that accept themselves, beside one that nothing accepts."""
    main = 'import "./m0.js";\nimport { bare } from "./bare.js";\nexport const shown = `${bare}`;\n'
    index = PLAIN_INDEX.format(module="./main.js")
    return {**tree(COUNT), "bare.js": "export const bare = 0;\n", "main.js": main, "index.html": index}


def lives(page, over, told):
    """A page that goes on asking until it is over and nothing is left to take; the last word says whether it did."""
    page.socket.stream.settimeout(60)  # an ask waits for 25 seconds
    with contextlib.suppress(*live.FAULTS):
        while True:
            answer = page.ask({"type": "ask"})
            if answer["type"] == "update":
                page.fetch(answer["replaced"])
            elif answer["type"] == "full-reload":
                page.load()
            elif answer["type"] == "idle" and over.is_set():
                told.append("up")
                return
            told.append(answer["type"])


def save_each_second(server, minutes, figures):
    """A save each second, each tenth one of the module that nothing accepts."""
    begun = time.monotonic()
    for second in range(60 * minutes):
        if second % 10 == 9:
            server.save("bare.js", f"export const bare = {second};\n")
        else:
            at = second * 7 % (COUNT - 1)
            server.save(f"m{at}.js", f"// {second}\n{module(at, COUNT)}")
        if second % 60 == 0:
            memory, spent = resident(server.running) / 1024, used(server.running)
            figures.say(f"minute {second // 60}: {memory:.1f} MiB, {spent:.1f} s of processor time")
        time.sleep(max(0, begun + second + 1 - time.monotonic()))


def live_through(server, minutes, figures):
    """32 pages live through the saves: how many are up at the end, how many have what a fresh load has, and how many
    updates and loads each had."""
    pages = [live.Page(server.port).load() for _ in range(PAGES)]
    over, told = threading.Event(), [[] for _ in pages]
    threads = [threading.Thread(target=lives, args=(page, over, each), daemon=True) for page, each in zip(pages, told)]
    for thread in threads:
        thread.start()
    save_each_second(server, minutes, figures)
    over.set()
    for thread in threads:
        thread.join(90)
    up = sum("up" in each for each in told)
    pages[0].bye()
    fresh = live.Page(server.port).load()
    same = sum(page.table == fresh.table for page in pages[1:])
    return up, same, [sum(kind in ("update", "full-reload") for kind in each) for each in told]


def measure_soak(program, figures, minutes):
    with tempfile.TemporaryDirectory() as folder:
        record = pathlib.Path(folder, "record")
        with live.serving(program, "--record", str(record), site=site()) as server:
            first = resident(server.running)
            up, same, counts = live_through(server, minutes, figures)
            last = resident(server.running)
        entries, said = entries_of(record), verdict(record)
    what = f"soak, {minutes} minutes, {PAGES} pages, a save a second"
    figures.judge(f"{what}: {PAGES - up} pages aren't up at the end", PAGES - up, 0)
    figures.judge(f"{what}: {PAGES - 1 - same} of {PAGES - 1} tables aren't that of a fresh load", PAGES - 1 - same, 0)
    figures.say(f"{what}: {min(counts)} to {max(counts)} updates and loads of a page")
    figures.say(f"{what}: {first / 1024:.1f} MiB before, {last / 1024:.1f} after; the transcript has {len(entries):,} "
                f"entries, which count {bytes_of(entries) / 2**20:.1f} MiB with their names and texts")
    figures.say(f"{what}: audit says of the record: {said}")
