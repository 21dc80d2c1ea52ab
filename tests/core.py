"""What the server's core replies to events: edits, results, and the requests of clients that lie and of those that don't.

Each table says, worked out by hand from docs/PROTOCOL.md, what the core replies to events in turn; a text stands behind
`|`. The record of the events is written by a second program (`tools/record_check`): its replies have to be those of the
table, and `audit` has to say yes to it, which replays each event in the core. What a fresh load of the sources is, `play`
shows.
"""
import json

from records import audited, events_in, record_of
from rows import play

REFUSALS = [
    "unknown client", "too many clients", "out of turn", "mismatch", "unfetched", "ignored", "bad roots",
]

# A client that tells tables of modules it didn't fetch, or at other versions; and one
# that invalidates the page's root.
LYING = """\
job 1 < edit /m.js|import './a.js'; import.meta.hot.accept();
job 2 < edit /a.js|export const a = 1;
served < settle /m.js 1|import './a.js'; import.meta.hot.accept();
served < settle /a.js 2|export const a = 1;
connected 1 /m.js < connect
text /m.js 1 < fetch 1 /m.js
refused: unfetched < applied 1 /m.js 1
text /a.js 2 < fetch 1 /a.js
refused: mismatch < applied 1 /a.js 1 /m.js 1
refused: mismatch < applied 1 /m.js 1
refused: mismatch < applied 1 /a.js 2 /b.js 3 /m.js 1
done < applied 1 /a.js 2 /m.js 1
refused: out of turn < applied 1 /a.js 2 /m.js 1
refused: out of turn < fetch 1 /a.js
idle < ask 1
refused: ignored < invalidate 1 /a.js 2
refused: ignored < invalidate 1 /m.js 2
done < invalidate 1 /m.js 1
reload 1 /m.js < ask 1
"""

# A chain that nothing accepts: a reload by its path, and its batch.
CHAIN = """\
job 1 < edit /m.js|import './b.js';
job 2 < edit /b.js|import './a.js';
job 3 < edit /a.js|export const a = 1;
served < settle /m.js 1|import './b.js';
served < settle /b.js 2|import './a.js';
served < settle /a.js 3|export const a = 1;
connected 1 /m.js < connect
text /m.js 1 < fetch 1 /m.js
text /b.js 2 < fetch 1 /b.js
text /a.js 3 < fetch 1 /a.js
done < applied 1 /a.js 3 /b.js 2 /m.js 1
job 4 < edit /a.js|export const a = 2;
served < settle /a.js 4|export const a = 2;
reload 1 /a.js /b.js /m.js < ask 1
text /m.js 1 < fetch 1 /m.js
text /b.js 2 < fetch 1 /b.js
text /a.js 4 < fetch 1 /a.js
done < applied 1 /a.js 4 /b.js 2 /m.js 1
idle < ask 1
job 5 < edit /m.js|import './b.js'; export const m = 1;
served < settle /m.js 5|import './b.js'; export const m = 1;
reload 2 /m.js < ask 1
"""

# A diamond below a root that accepts itself, and a decliner in it.
DIAMOND = """\
job 1 < edit /m.js|import './a.js'; import './b.js'; import.meta.hot.accept();
job 2 < edit /a.js|import './x.js';
job 3 < edit /b.js|import './x.js'; import.meta.hot.decline();
job 4 < edit /x.js|export const x = 1;
served < settle /m.js 1|import './a.js'; import './b.js'; import.meta.hot.accept();
served < settle /a.js 2|import './x.js';
served < settle /b.js 3|import './x.js'; import.meta.hot.decline();
served < settle /x.js 4|export const x = 1;
connected 1 /m.js < connect
text /m.js 1 < fetch 1 /m.js
text /a.js 2 < fetch 1 /a.js
text /x.js 4 < fetch 1 /x.js
text /b.js 3 < fetch 1 /b.js
done < applied 1 /a.js 2 /b.js 3 /m.js 1 /x.js 4
job 5 < edit /a.js|import './x.js'; export const a = 1;
served < settle /a.js 5|import './x.js'; export const a = 1;
update 1 /a.js /m.js < ask 1
done < aborted 1
idle < ask 1
job 6 < edit /x.js|export const x = 2;
served < settle /x.js 6|export const x = 2;
reload 2 /x.js /b.js < ask 1
"""

# A cycle whose one end accepts the other, and an import that goes.
CYCLE = """\
job 1 < edit /m.js|import './a.js'; import.meta.hot.accept('./a.js');
job 2 < edit /a.js|import './b.js';
job 3 < edit /b.js|import './a.js';
served < settle /m.js 1|import './a.js'; import.meta.hot.accept('./a.js');
served < settle /a.js 2|import './b.js';
served < settle /b.js 3|import './a.js';
connected 1 /m.js < connect
text /m.js 1 < fetch 1 /m.js
text /a.js 2 < fetch 1 /a.js
text /b.js 3 < fetch 1 /b.js
done < applied 1 /a.js 2 /b.js 3 /m.js 1
job 4 < edit /b.js|import './a.js'; export const b = 1;
served < settle /b.js 4|import './a.js'; export const b = 1;
update 1 /a.js /b.js < ask 1
text /a.js 2 < fetch 1 /a.js
text /b.js 4 < fetch 1 /b.js
done < applied 1 /a.js 2 /b.js 4 /m.js 1
job 5 < edit /a.js|export const a = 1;
served < settle /a.js 5|export const a = 1;
update 2 /a.js /b.js < ask 1
text /a.js 5 < fetch 1 /a.js
done < applied 1 /a.js 5 /b.js 4 /m.js 1
prune /b.js < ask 1
idle < ask 1
"""

# Two clients, of which the first invalidates: the second has nothing to do, and its batches stay.
INVALIDATION = """\
job 1 < edit /m.js|import './a.js'; import.meta.hot.accept();
job 2 < edit /a.js|import.meta.hot.accept();
served < settle /m.js 1|import './a.js'; import.meta.hot.accept();
served < settle /a.js 2|import.meta.hot.accept();
connected 1 /m.js < connect
text /m.js 1 < fetch 1 /m.js
text /a.js 2 < fetch 1 /a.js
done < applied 1 /a.js 2 /m.js 1
connected 2 /m.js < connect
text /m.js 1 < fetch 2 /m.js
text /a.js 2 < fetch 2 /a.js
done < applied 2 /a.js 2 /m.js 1
done < invalidate 1 /a.js 2
idle < ask 2
update 1 /m.js < ask 1
text /m.js 1 < fetch 1 /m.js
done < applied 1 /a.js 2 /m.js 1
idle < ask 1
job 3 < edit /a.js|import.meta.hot.accept(); export const a = 1;
served < settle /a.js 3|import.meta.hot.accept(); export const a = 1;
update 2 /a.js < ask 1
update 1 /a.js < ask 2
"""

# Requests of two clients: the first has the server's roots, the second its own.
REQUESTS = """\
job 1 < edit /m.js|import './a.js'; import.meta.hot.accept();
job 2 < edit /a.js|export const a = 1;
served < settle /m.js 1|import './a.js'; import.meta.hot.accept();
refused: unknown client < ask 1
connected 1 /m.js < connect
connected 2 /a.js /b.js < connect /a.js /b.js
refused: out of turn < ask 1
text /m.js 1 < fetch 1 /m.js
not-yet < fetch 1 /a.js
missing < fetch 2 /b.js
done < aborted 1
idle < ask 1
refused: ignored < invalidate 1 /m.js 1
refused: out of turn < applied 1 /m.js 1
served < settle /a.js 2|export const a = 1;
connected 1 /m.js < ask 1
text /a.js 2 < fetch 1 /a.js
gone < disconnect 1
refused: unknown client < ask 1
"""

# Three clients, of which the first alone asks before the text is good again.
FAULTS = """\
job 1 < edit /m.js|export const = 1;
connected 1 /m.js < connect
connected 2 /m.js < connect
connected 3 /m.js < connect
refused 1:14 unexpected < settle /m.js 1|export const = 1;
broken < fetch 3 /m.js
done < aborted 1
error /m.js 1:14 < ask 1
idle < ask 1
done < aborted 2
job 2 < edit /m.js|export const m = 1;
served < settle /m.js 2|export const m = 1;
connected 1 /m.js < ask 1
connected 2 /m.js < ask 2
done < aborted 3
connected 3 /m.js < ask 3
"""

# Roots of a client: 16, 17, two equal ones, and none.
ROOTS = """\
connected 1 /a /b /c /d /e /f /g /h /i /j /k /l /m /n /o /p < connect /a /b /c /d /e /f /g /h /i /j /k /l /m /n /o /p
refused: bad roots < connect /a /b /c /d /e /f /g /h /i /j /k /l /m /n /o /p /q
refused: bad roots < connect /a /b /a
connected 2 /m.js < connect
"""

# Edits and results of transforms, of which some come late or are of another text.
SOURCES = """\
job 1 < edit /m.js|export const n = 1;
job 2 < edit /m.js|export const n = 2;
late < settle /m.js 1|export const n = 1;
late < settle /m.js 2|export const n = 3;
served < settle /m.js 2|export const n = 2;
late < settle /m.js 1|export const n = 1;
late < settle /m.js 2|export const n = 2;
same < edit /m.js|export const n = 2;
job 3 < edit /m.js|export const = 2;
refused 1:14 unexpected < settle /m.js 3|export const = 2;
job 4 < edit /m.js|import { a } from './a.js'; import './gone.js';
job 5 < edit /a.js|import './m.js'; import { x, y } from './b.js'; export const a = 1;
job 6 < edit /b.js|import './a.js'; export const x = 1;
job 7 < edit /alone.js|export const z = 1;
served < settle /m.js 4|import { a } from './a.js'; import './gone.js';
served < settle /a.js 5|import './m.js'; import { x, y } from './b.js'; export const a = 1;
served < settle /b.js 6|import './a.js'; export const x = 1;
served < settle /alone.js 7|export const z = 1;
removed 8 < remove /b.js
same < remove /b.js
"""

# The fresh load of the sources behind each edit and result.
FRESH = """\
root /m.js
fresh
edit /m.js
|export const n = 1;
edit /m.js
|export const n = 2;
settle /m.js 1
fresh
settle /m.js 2
settle /m.js 2
edit /m.js
|export const n = 2;
fresh
edit /m.js
|export const = 2;
settle /m.js 3
fresh
edit /m.js
|import { a } from './a.js'; import './gone.js';
edit /a.js
|import './m.js'; import { x, y } from './b.js'; export const a = 1;
edit /b.js
|import './a.js'; export const x = 1;
edit /alone.js
|export const z = 1;
settle /m.js 4
fresh
settle
fresh
remove /b.js
remove /b.js
fresh
"""
LOADED = """\
fresh
missing /m.js
edit /m.js job 1
edit /m.js job 2
settle /m.js 1 late
fresh
missing /m.js
settle /m.js 2 served
settle /m.js 2 none
edit /m.js same
fresh
/m.js 2
edit /m.js job 3
settle /m.js 3 refused 1:14 unexpected
fresh
/m.js 2
edit /m.js job 4
edit /a.js job 5
edit /b.js job 6
edit /alone.js job 7
settle /m.js 4 served
fresh
/m.js 4
missing /a.js
missing /gone.js
settle /a.js 5 served
settle /b.js 6 served
settle /alone.js 7 served
fresh
/a.js 5
/b.js 6
/m.js 4
missing /gone.js
unlinked /a.js /b.js y
remove /b.js 8
remove /b.js same
fresh
/a.js 5
/m.js 4
missing /b.js
missing /gone.js
"""

# The fresh loads of clients by their own roots, and clients that are behind until their first load.
CLIENTS = """\
root /m.js
edit /m.js
|import "./a.js"; import.meta.hot.accept();
edit /a.js
|export const a = 1;
settle /m.js 1
fresh 1
open
open /a.js /b.js
fresh 1
fresh 2
show 1
show 2
show 3
"""
BEHIND = """\
edit /m.js job 1
edit /a.js job 2
settle /m.js 1 served
unknown 1
open 1
open 2
fresh 1
/m.js 1
missing /a.js
fresh 2
missing /a.js
missing /b.js
client 1 behind
client 2 behind
unknown 3
"""


def told(reply):
    """A reply of a record in a few words."""
    if not reply.startswith(b"{"):
        return reply.decode()
    message = json.loads(reply)
    kind = message["type"]
    words = {
        "connected": lambda: [message["client"], *message["roots"]],
        "update": lambda: [message["batch"], *message["replaced"]],
        "full-reload": lambda: [message["batch"], *message["path"]],
        "prune": lambda: message["paths"],
        "error": lambda: [message["path"], f"{message['line']}:{message['column']}"],
        "text": lambda: [message["path"], message["version"]],
        "refused": lambda: [REFUSALS[message["code"] - 1]],
    }.get(kind, lambda: [])()
    word = {"full-reload": "reload", "refused": "refused:"}.get(kind, kind)
    return " ".join([word, *map(str, words)])


def event_lines(event):
    """The lines of an event in a record."""
    line, bar, text = event.partition("|")
    return f"{line}\n~{text}\n" if bar else f"{line}\n"


def replied(table):
    """The audit of the record of a table's events."""
    rows = [row.split(" < ") for row in table.splitlines()]
    events = "root /m.js\n" + "".join(event_lines(event) for _, event in rows)
    record = record_of(*events_in(events.encode()))
    replies = [told(line[2:]) for line in record.split(b"\n") if line.startswith(b"= ")]
    for (want, event), reply in zip(rows, replies, strict=True):
        assert reply == want, f"the second program replies {reply!r} to {event!r}, and not {want!r}"
    rests = sum(line.startswith(b"rest ") for line in record.split(b"\n"))
    return audited(record, f"yes steps {len(rows)} rests {rests}")


def runs():
    for table in [LYING, CHAIN, DIAMOND, CYCLE, INVALIDATION, REQUESTS, FAULTS, ROOTS, SOURCES]:
        yield replied(table)
    yield play(FRESH, LOADED)
    yield play(CLIENTS, BEHIND)
