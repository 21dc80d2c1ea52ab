"""What `record` writes, and what `audit` says of records: docs/RECORDS.md.

The verdicts of the tables were worked out by hand. All verdicts are also those of a second check
(`tools/record_check`), which was written from the pages of docs/; of records in which one byte was changed there is no
other. It has to say yes where the program does, and to name the same line with the same word where it doesn't.
"""
import pathlib
import pickle
import re
import subprocess
import sys
import tempfile

from rows import Run, edit, encoded

TOP = pathlib.Path(__file__).parent.parent
sys.path.insert(0, str(TOP / "tools"))

from record_check.audit import Course, verdict  # noqa: E402
from record_check.lines import BadLine  # noqa: E402
from record_check.reading import events_in  # noqa: E402
from record_check.writing import record_of  # noqa: E402

EXAMPLES = TOP / "examples"
PATIENCE = 60
TEXT = "export const n = 1;"
CONNECTED = '{"client":1,"roots":["/m.js"],"type":"connected"}'
LOADED = '{"path":"/m.js","text":"export const n = 1;\\n","type":"text","version":1}'
DONE = '{"type":"done"}'
REFUSED = '{"code":%d,"kept":null,"path":null,"told":null,"type":"refused"}'

# A module of one page, from its edit to the page at rest, and the script of it.
PAGE = f"""\
root /m.js
edit /m.js
|{TEXT}
= job 1
settle /m.js 1
|{TEXT}
= served
connect
= {CONNECTED}
fetch 1 /m.js
= {LOADED}
applied 1 /m.js 1
= {DONE}
rest 1 /m.js 1
"""
SCRIPT = f"root /m.js\n{edit('/m.js', TEXT)}settle\nopen\nturns 1 9\nshow 1\n"

# Events without their replies, of which much could be otherwise and the record would still be true: texts that have no
# result, results that come late, requests of no client or out of turn, and plans that are given up.
LIES = """\
root /m.js
edit /m.js
|import "./a.js";
|import.meta.hot.accept("./a.js", (m) => { console.log("a", m?.n); });
edit /a.js
|export const n = 1;
|import.meta.hot.accept();
edit /later.js
|nobody asks for this text
~nor for its end
settle /m.js 1
|import "./a.js";
|import.meta.hot.accept("./a.js", (m) => { console.log("a", m?.n); });
settle /m.js 1
|a result that comes late
settle /a.js 2
|export const n = 1;
|import.meta.hot.accept();
connect /a.js /m.js /a.js
connect /m.js /a.js
ask 1
invalidate 1 /a.js 2
fetch 1 /missing.js
fetch 1 /later.js
fetch 1 /m.js
applied 1 /m.js 1
fetch 1 /a.js
applied 1 /a.js 2 /late.js 7
applied 1 /a.js 2 /m.js 1
invalidate 1 /a.js 1
invalidate 1 /m.js 1
invalidate 1 /a.js 2
ask 1
ask 1
applied 1 /a.js 2 /m.js 1
edit /a.js
|export const n = 2;
settle /a.js 4
|export const n = 2;
edit /m.js
~import "
settle /m.js 5
~import "
ask 1
ask 1
aborted 1
ask 1
remove /a.js
ask 1
fetch 1 /a.js
aborted 1
disconnect 2
disconnect 1
disconnect 1
"""

# The first 4, 7, 11 and 13 lines of it.
EDITED, SERVED, FETCHED, AT_REST = ("".join(PAGE.splitlines(True)[:count]) for count in (4, 7, 11, 13))

SIXTEEN = "".join(f"root /m{number}.js\n" for number in range(16))
SEVENTEEN = SIXTEEN + "root /m16.js\n"
ASKED = f"ask 1\n= {REFUSED % 1}\n"

# The answer to a record, and the record: which lines there may be, in which order, and where it may end.
ORDER = [
    ("no line 1 bad-line", ""),
    ("no line 1 bad-line", "\n"),
    ("no line 1 bad-line", "root /m.js"),
    ("yes steps 0 rests 0", "root /m.js\n"),
    ("no line 2 bad-line", "root /m.js\nroot /n.js"),
    ("yes steps 5 rests 1", PAGE),
    ("no line 14 bad-line", PAGE[:-1]),
    ("no line 15 bad-line", PAGE + "ask 1"),
    ("no line 16 bad-line", PAGE + "ask 1\n"),
    ("no line 16 bad-line", PAGE + "edit /m.js\n"),
    ("no line 17 bad-line", PAGE + "edit /m.js\n|x\n"),
    ("yes steps 5 rests 0", AT_REST),
    ("yes steps 4 rests 0", FETCHED),
    ("no line 1 bad-line", "edit /m.js\n= job 1\n"),
    ("no line 1 bad-line", "rest 1\n"),
    ("no line 1 bad-line", "= late\n"),
    ("no line 2 bad-line", "root /m.js\nrest 1\n"),
    ("no line 2 bad-line", "root /m.js\n|x\n"),
    ("no line 2 bad-line", "root /m.js\n= late\n"),
    ("no line 5 bad-line", EDITED + "root /n.js\n"),
    ("no line 3 bad-line", "root /m.js\nedit /m.js\nroot /n.js\n"),
    ("no line 3 bad-line", "root /m.js\nedit /m.js\nask 1\n"),
    ("no line 3 bad-line", "root /m.js\nedit /m.js\nrest 1\n"),
    ("no line 5 bad-line", EDITED + "= job 1\n"),
    ("no line 5 bad-line", EDITED + "|x\n"),
    ("no line 15 bad-line", PAGE + "rest 1 /m.js 1\n"),
    ("yes steps 6 rests 2", PAGE + 'ask 1\n= {"type":"idle"}\nrest 1 /m.js 1\n'),
    ("yes steps 6 rests 2", PAGE + "remove /n.js\n= same\nrest 1 /m.js 1\n"),
    ("yes steps 0 rests 0", SIXTEEN),
    ("yes steps 1 rests 0", SIXTEEN + ASKED),
    ("no line 18 roots", SEVENTEEN),
    ("no line 18 roots", SEVENTEEN + ASKED),
    ("no line 18 bad-line", SEVENTEEN + "ask 01\n"),
    ("no line 18 bad-line", SEVENTEEN + "= late\n"),
    ("no line 18 bad-line", SEVENTEEN + "root m.js\n"),
    ("no line 18 bad-line", SEVENTEEN + "ask 1"),
    ("no line 3 roots", "root /m.js\nroot /m.js\n"),
    ("no line 4 roots", "root /m.js\nroot /n.js\nroot /m.js\n" + ASKED),
    ("no line 1 bad-line", PAGE.replace("\n", "\r\n")),
    ("no line 4 bad-line", PAGE.replace("job 1", "job 1\r")),
    ("no line 7 reply", PAGE.replace(TEXT, TEXT + "\r", 1)),
]

# The same of the forms of one line, which stands behind the first root.
FORMS = [
    ("no line 2 bad-line", "\n"),
    ("no line 2 bad-line", "# a comment\n"),
    ("no line 2 bad-line", " ask 1\n"),
    ("no line 2 bad-line", "ask  1\n"),
    ("no line 2 bad-line", "ask 1 \n"),
    ("no line 2 bad-line", "ask\t1\n"),
    ("no line 2 bad-line", "Ask 1\n"),
    ("no line 2 bad-line", "turn 1\n"),
    ("no line 2 bad-line", "ask\n"),
    ("no line 2 bad-line", "ask 1 2\n"),
    ("no line 2 bad-line", "ask 01\n"),
    ("no line 2 bad-line", "ask +1\n"),
    ("no line 2 bad-line", "ask -0\n"),
    ("no line 2 bad-line", "ask 1.0\n"),
    ("no line 2 bad-line", "ask x\n"),
    ("yes steps 1 rests 0", f"ask 0\n= {REFUSED % 1}\n"),
    ("yes steps 1 rests 0", f"ask 4294967295\n= {REFUSED % 1}\n"),
    ("no line 2 bad-line", f"ask 4294967296\n= {REFUSED % 1}\n"),
    ("yes steps 1 rests 0", "settle /m.js 0\n= late\n"),
    ("yes steps 1 rests 0", "settle /m.js 18446744073709551615\n= late\n"),
    ("no line 2 bad-line", "settle /m.js 18446744073709551616\n= late\n"),
    ("no line 2 bad-line", "settle /m.js 01\n= late\n"),
    ("no line 2 bad-line", "settle /m.js\n= late\n"),
    ("no line 2 bad-line", "settle\n= late\n"),
    ("no line 2 bad-line", "settle m.js 1\n= late\n"),
    ("yes steps 1 rests 0", f"invalidate 7 /m.js 18446744073709551615\n= {REFUSED % 1}\n"),
    ("no line 2 bad-line", f"invalidate 7 /m.js 18446744073709551616\n= {REFUSED % 1}\n"),
    ("no line 2 bad-line", f"invalidate 7 /m.js 1 1\n= {REFUSED % 1}\n"),
    ("yes steps 1 rests 0", f"fetch 1 /m.js\n= {REFUSED % 1}\n"),
    ("no line 2 bad-line", f"fetch /m.js 1\n= {REFUSED % 1}\n"),
    ("no line 2 bad-line", f"fetch 1 /m.js/\n= {REFUSED % 1}\n"),
    ("no line 2 bad-line", f"fetch 1 /../m.js\n= {REFUSED % 1}\n"),
    ("yes steps 1 rests 0", f"fetch 1 /{'m' * 254}\n= {REFUSED % 1}\n"),
    ("no line 2 bad-line", f"fetch 1 /{'m' * 255}\n= {REFUSED % 1}\n"),
    ("yes steps 1 rests 0", f"aborted 1\n= {REFUSED % 1}\n"),
    ("yes steps 1 rests 0", f"disconnect 1\n= {REFUSED % 1}\n"),
    ("yes steps 1 rests 0", f"applied 1\n= {REFUSED % 1}\n"),
    ("no line 2 bad-line", f"applied\n= {REFUSED % 1}\n"),
    ("no line 2 bad-line", f"applied 1 /m.js\n= {REFUSED % 1}\n"),
    ("no line 2 bad-line", f"applied 1 /m.js 0\n= {REFUSED % 1}\n"),
    ("yes steps 1 rests 0", f"applied 1 /m.js 9007199254740991\n= {REFUSED % 1}\n"),
    ("no line 2 bad-line", f"applied 1 /m.js 9007199254740992\n= {REFUSED % 1}\n"),
    ("yes steps 1 rests 0", f"applied 1 /a.js 2 /b.js 1\n= {REFUSED % 1}\n"),
    ("no line 2 bad-line", f"applied 1 /b.js 1 /a.js 2\n= {REFUSED % 1}\n"),
    ("no line 2 bad-line", f"applied 1 /a.js 1 /a.js 1\n= {REFUSED % 1}\n"),
    ("yes steps 1 rests 0", f"connect /a.js /a.js\n= {REFUSED % 7}\n"),
    ("no line 2 bad-line", f"connect \n= {REFUSED % 7}\n"),
    ("no line 2 bad-line", f"connect a.js\n= {REFUSED % 7}\n"),
    ("yes steps 2 rests 0", f"connect\n= {CONNECTED}\ndisconnect 1\n= gone\n"),
    ("no line 5 reply", f"{ASKED}disconnect 1\n= gone\n"),
    ("no line 5 reply", f"{ASKED}ask 1\n= gone\n"),
    ("no line 3 reply", "remove /m.js\n= removed 1\n"),
    ("yes steps 1 rests 0", "remove /m.js\n= same\n"),
    ("no line 3 bad-line", "remove /m.js\n|x\n= same\n"),
    ("no line 3 bad-line", "ask 1\n~x\n= same\n"),
]

# A line in the place of the reply to the first edit (line 4), and what is said of that.
REPLIES = [
    ("reply", "= job 0"), ("reply", "= job 2"), ("reply", "= job 18446744073709551615"), ("reply", "= removed 1"),
    ("bad-line", "= job 18446744073709551616"), ("bad-line", "= job 01"), ("bad-line", "= job"),
    ("bad-line", "= job 1 "), ("bad-line", "=job 1"), ("bad-line", "=  job 1"), ("bad-line", "="), ("bad-line", "= "),
    ("bad-line", "= Job 1"),
    ("reply", "= same"), ("reply", "= served"), ("reply", "= late"), ("reply", "= gone"), ("reply", "= text-too-long"),
    ("reply", "= too-many-names"), ("reply", "= source-total"), ("reply", "= numbers-spent"), ("bad-line", "= none"),
    ("reply", "= refused 1:1 unexpected"), ("reply", "= refused 0:4294967295 too-many-imports"),
    ("bad-line", "= refused"), ("bad-line", "= refused 1:1"), ("bad-line", "= refused 1:1 spoilt"),
    ("bad-line", "= refused 1 unexpected"), ("bad-line", "= refused 1:1:1 unexpected"),
    ("bad-line", "= refused 01:1 unexpected"), ("bad-line", "= refused 4294967296:1 unexpected"),
    ("reply", f"= {DONE}"), ("reply", f"= {CONNECTED}"), ("reply", f"= {LOADED}"), ("reply", f"= {REFUSED % 7}"),
    ("bad-line", '= {"type": "done"}'), ("bad-line", '= {"type":"done"} '),
    ("bad-line", '= {"type":"done","type":"done"}'), ("bad-line", '= {"type":"done","x":1}'),
    ("bad-line", '= {"\\u0074ype":"done"}'), ("bad-line", '= {"type":"ask"}'), ("bad-line", '= {"type":"hello"}'),
    ("bad-line", "= {}"), ("bad-line", "= {"), ("bad-line", "= []"),
    ("bad-line", '= {"type":"connected","client":1,"roots":["/m.js"]}'),
    ("bad-line", '= {"client":0,"roots":["/m.js"],"type":"connected"}'),
    ("bad-line", '= {"client":1.0,"roots":["/m.js"],"type":"connected"}'),
    ("bad-line", '= {"client":01,"roots":["/m.js"],"type":"connected"}'),
    ("bad-line", '= {"client":4294967296,"roots":["/m.js"],"type":"connected"}'),
    ("reply", '= {"client":4294967295,"roots":[],"type":"connected"}'),
    ("bad-line", '= {"client":1,"roots":["m.js"],"type":"connected"}'),
    ("bad-line", '= {"replaced":[],"type":"update","updates":[]}'),
    ("reply", '= {"batch":1,"replaced":[],"triggeredBy":[],"type":"update","updates":[]}'),
    ("bad-line", '= {"batch":0,"replaced":[],"triggeredBy":[],"type":"update","updates":[]}'),
    ("bad-line", '= {"batch":1,"replaced":[],"triggeredBy":["/b","/a"],"type":"update","updates":[]}'),
    ("reply", '= {"batch":1,"replaced":["/b","/a"],"triggeredBy":["/a","/b"],"type":"update","updates":'
     '[{"acceptedPath":"/a","path":"/b","timestamp":0,"type":"js-update"}]}'),
    ("bad-line", '= {"batch":1,"replaced":[],"triggeredBy":[],"type":"update","updates":'
     '[{"path":"/b","acceptedPath":"/a","timestamp":0,"type":"js-update"}]}'),
    ("reply", '= {"batch":9007199254740991,"cause":"root","path":["/m"],"triggeredBy":[],"type":"full-reload"}'),
    ("bad-line", '= {"batch":9007199254740992,"cause":"root","path":["/m"],"triggeredBy":[],"type":"full-reload"}'),
    ("bad-line", '= {"batch":1,"cause":"root","path":[],"triggeredBy":[],"type":"full-reload"}'),
    ("bad-line", '= {"batch":1,"cause":"late","path":["/m"],"triggeredBy":[],"type":"full-reload"}'),
    ("reply", '= {"paths":[],"type":"prune"}'), ("bad-line", '= {"paths":"/m","type":"prune"}'),
    ("reply", '= {"column":0,"kind":"unexpected","line":0,"path":"/m","type":"error"}'),
    ("bad-line", '= {"column":0,"kind":"Unexpected","line":0,"path":"/m","type":"error"}'),
    ("bad-line", '= {"column":-1,"kind":"unexpected","line":0,"path":"/m","type":"broken"}'),
    ("bad-line", '= {"path":"/m","text":"\\u0041","type":"text","version":1}'),
    ("reply", '= {"path":"/m","text":"\\u0001\\t\\"\\\\ \u00e9\u2028","type":"text","version":1}'),
    ("bad-line", '= {"path":"/m","text":"\t","type":"text","version":1}'),
    ("bad-line", '= {"path":"/m","text":"\\/","type":"text","version":1}'),
    ("bad-line", '= {"path":"/m","text":"","type":"text","version":0}'),
    ("reply", '= {"path":"/m","type":"missing"}'), ("reply", '= {"path":"/m","type":"not-yet"}'),
    ("bad-line", '= {"path":null,"type":"missing"}'),
    ("reply", '= {"code":4,"kept":0,"path":"/m","told":9007199254740991,"type":"refused"}'),
    ("bad-line", '= {"code":4,"kept":null,"path":"/m","told":1,"type":"refused"}'),
    ("reply", '= {"code":5,"kept":null,"path":"/m","told":null,"type":"refused"}'),
    ("bad-line", '= {"code":5,"kept":null,"path":null,"told":null,"type":"refused"}'),
    ("bad-line", '= {"code":1,"kept":null,"path":"/m","told":null,"type":"refused"}'),
    ("bad-line", f"= {REFUSED % 8}"),
]

# A line in the place of the last one (line 14), which says that the client is at rest.
RESTS = [
    ("rest", "rest 1 /m.js 2"), ("rest", "rest 1"), ("rest", "rest 2 /m.js 1"), ("rest", "rest 0 /m.js 1"), ("rest", "rest 2"),
    ("rest", "rest 1 /m.js 1 /n.js 1"), ("rest", "rest 1 /n.js 1"), ("rest", "rest 4294967295 /m.js 9007199254740991"),
    ("bad-line", "rest 4294967296 /m.js 1"), ("bad-line", "rest 1 /m.js 9007199254740992"), ("bad-line", "rest 1 /m.js 0"),
    ("bad-line", "rest 1 /m.js 01"), ("bad-line", "rest 1 /m.js 1 /m.js 1"), ("bad-line", "rest 1 /n.js 1 /m.js 1"),
    ("bad-line", "rest 1 /m.js"), ("bad-line", "rest"), ("bad-line", "rest /m.js 1"),
]

# What goes on behind a part of the page, or in its place: other tables and replies, and texts in each form.
COURSES = [
    ("no line 10 rest", SERVED + f"connect\n= {CONNECTED}\nrest 1\n"),
    ("no line 12 rest", FETCHED + "rest 1 /m.js 1\n"),
    ("yes steps 6 rests 1", AT_REST + f"ask 2\n= {REFUSED % 1}\nrest 1 /m.js 1\n"),
    ("yes steps 6 rests 0", AT_REST + "edit /m.js\n= job 2\n"),
    ("yes steps 6 rests 1", AT_REST + "edit /m.js\n= job 2\nrest 1 /m.js 1\n"),
    ("no line 18 rest", AT_REST + "edit /m.js\n= job 2\nsettle /m.js 2\n= served\nrest 1 /m.js 1\n"),
    ("no line 18 rest", AT_REST + "edit /m.js\n= job 2\nsettle /m.js 2\n= served\nrest 1 /m.js 2\n"),
    ("no line 20 rest", AT_REST + "edit /m.js\n|(\n= job 2\nsettle /m.js 2\n|(\n= refused 1:1 unexpected\nrest 1 /m.js 1\n"),
    ("yes steps 8 rests 1", AT_REST + "edit /m.js\n|(\n= job 2\nsettle /m.js 2\n|(\n= refused 1:1 unexpected\nask 1\n"
     '= {"column":1,"kind":"unexpected","line":1,"path":"/m.js","type":"error"}\nrest 1 /m.js 1\n'),
    ("no line 16 rest", AT_REST + "remove /m.js\n= removed 2\nrest 1 /m.js 1\n"),
    ("no line 16 rest", AT_REST + "disconnect 1\n= gone\nrest 1 /m.js 1\n"),
    ("yes steps 6 rests 0", FETCHED + 'applied 1 /m.js 2\n= {"code":4,"kept":1,"path":"/m.js","told":2,"type":"refused"}\n'
     f"aborted 1\n= {DONE}\n"),
    ("no line 14 rest", FETCHED + f"aborted 1\n= {DONE}\nrest 1\n"),
    ("no line 13 reply", FETCHED + f"applied 1 /m.js 2\n= {DONE}\n"),
    ("no line 13 reply", SERVED + f"connect\n= {CONNECTED}\nfetch 1 /m.js\n= {LOADED}\napplied 1\n= {DONE}\n"),
    ("no line 11 reply", SERVED + f"connect\n= {CONNECTED}\napplied 1 /m.js 1\n= {DONE}\n"),
    ("yes steps 3 rests 0", "root /m.js\nedit /m.js\n~\u00e9\n= job 1\nedit /m.js\n|\u00e9\n= job 2\nedit /m.js\n|\u00e9\n= same\n"),
    ("no line 7 reply", EDITED + f"settle /m.js 1\n~{TEXT}\n= served\n"),
    ("yes steps 2 rests 0", EDITED + f"settle /m.js 1\n~{TEXT}\n= late\n"),
    ("yes steps 2 rests 0", EDITED + f"settle /m.js 2\n|{TEXT}\n= late\n"),
    ("yes steps 2 rests 0", "root /m.js\nedit /m.js\n|\n|~\n~|\n= job 1\nsettle /m.js 1\n|\n|~\n~|\n= refused 2:1 bad-byte\n"),
    ("no line 3 bad-line", "root /m.js\nedit /m.js\n~\n= job 1\n"),
    ("no line 4 bad-line", "root /m.js\nedit /m.js\n~x\n|y\n= job 1\n"),
    ("no line 4 bad-line", "root /m.js\nedit /m.js\n~x\n~y\n= job 1\n"),
    ("yes steps 1 rests 0", "root /m.js\nedit /m.js\n= job 1\n"),
]

# A line of the page, what stands in its place, and what is said of that.
OTHERS = [
    ("= served", "= late", "7 reply"),
    ("= job 1", "= job 2", "4 reply"),
    ("= job 1", "= jobs 1", "4 bad-line"),
    ("rest 1 /m.js 1", "rest 1 /m.js 2", "14 rest"),
    ("rest 1 /m.js 1", "rest 2 /m.js 1", "14 rest"),
    ("rest 1 /m.js 1", "rest 1", "14 rest"),
    (f"= {DONE}", '= {"type":"idle"}', "13 reply"),
    ("root /m.js", "root /m.js /m.js", "1 bad-line"),
    ("settle /m.js 1", "settle /m.js 2", "7 reply"),
]


def audited(record, line):
    """The audit of a record, of which this has to be said; the second check has to say it too."""
    record = encoded(record)
    said = verdict(record)
    assert said == line, f"the second check says {said}, and not {line}, of {record!r}"
    return Run(["audit"], record, 0, encoded(line + "\n"))


def tables():
    """The records of the tables."""
    for line, record in ORDER + COURSES:
        yield audited(record, line)
    for line, lines in FORMS:
        yield audited("root /m.js\n" + lines, line)
    for old, new, said in OTHERS:
        assert f"{old}\n" in PAGE, f"the page has no line {old!r}"
        yield audited(PAGE.replace(f"{old}\n", f"{new}\n"), f"no line {said}")
    whole = PAGE.splitlines(True)
    for word, reply in REPLIES:
        yield audited("".join([*whole[:3], reply + "\n", *whole[4:]]), f"no line 4 {word}")
    for word, rest in RESTS:
        yield audited("".join([*whole[:13], rest + "\n"]), f"no line 14 {word}")
    # Bytes that are no text: the core keeps them, and no module has them.
    odd = b"root /m.js\nedit /m.js\n|a\x00\xff\n= job 1\nsettle /m.js 1\n|a\x00\xff\n= refused 1:3 not-utf8\n"
    yield audited(odd, "yes steps 2 rests 0")
    yield audited(odd.replace(b"\xff", b"\xfe", 1), "no line 7 reply")
    no_text = b'{"path":"/m","text":"\xff","type":"text","version":1}'
    yield audited(EDITED.encode().replace(b"job 1", no_text), "no line 4 bad-line")


def limits():
    """A record of the most events, and of one more: line 2,000,002 is that of its event."""
    most = b"root /m\n" + b"edit /m\n= job 1\n" + b"edit /m\n= same\n" * 999_999
    yield Run(["audit"], most, 0, b"yes steps 1000000 rests 0\n")
    yield Run(["audit"], most + b"edit /m\n", 0, b"no line 2000002 limit\n")
    yield Run(["audit"], most + b"edit m\n", 0, b"no line 2000002 bad-line\n")
    yield Run(["record"], b"root /m\n" + b"edit /m\n" * 1_000_001, 8, b"limit transcript 1000000\n")
    # Each reload makes 251 instances, and 20,000 are the most.
    imports = "".join(f'import "/m{number}.js";\n' for number in range(250))
    modules = "".join(f"edit /m{number}.js\n" for number in range(250))
    rounds = "".join(edit("/m.js", f"{imports}let a = {turn};") + "settle\nturns 1 999\n" for turn in range(80))
    yield Run(["record"], encoded(f"root /m.js\nquiet\n{modules}open\n{rounds}"), 8, b"limit instances 20000\n")


# Records with a changed byte.


def changed(byte, place):
    """The other value of a byte: its neighbour, or at some places the LF or the space that cuts a line or a word."""
    other = {0: 10, 1: 32}.get(place % 7, byte ^ 1)
    return other if other != byte else byte ^ 1


def changes(record, name, step=1):
    """The audits of the record with one byte changed, for each so many-th byte.

    What stands before the line of the byte is checked once for all of these.
    """
    course, at = Course(), 0
    for number, line in enumerate(record.split(b"\n")[:-1], 1):
        before = pickle.dumps(course)
        for place in range(at, at + len(line) + 1):
            if place % step == 0:
                other = bytes([changed(record[place], place)])
                said = verdict(record[at:place] + other + record[place + 1 :], pickle.loads(before), number)
                about = f"{name} with {other!r} as byte {place - at} of line {number}"
                text = record[:place] + other + record[place + 1 :]
                yield Run(["audit"], text, 0, encoded(said + "\n"), about=about)
        course.take(number, line)
        at += len(line) + 1


def written(program, words, text):
    """What a command writes, or nothing where it fails."""
    done = subprocess.run([program, *words], input=text, stdout=subprocess.PIPE, timeout=PATIENCE)
    return done.stdout if done.returncode == 0 else b""


def record_from(program, example):
    """The record of an example."""
    return written(program, ["record"], (EXAMPLES / f"{example}.play").read_bytes())


# Of these scripts the records are changed: a module that is pruned and comes back, and an invalidation with two clients.
CHANGED = ["prune_and_return", "other_page_untouched"]


def changed_records(program, step):
    """Records of a page each with a changed byte: two that the program writes, of which each so many-th byte is changed,
    and two that stand here."""
    for name in CHANGED:
        yield from changes(record_from(program, name), f"the record of examples/{name}.play", step)
    yield from changes(PAGE.encode(), "the page")
    yield from changes(record_of(*events_in(LIES.encode())), "the record of the lies", step)


# Records that the program writes.


def rewritten(record):
    """The record of the events of a record, and how many these are."""
    try:
        roots, events = events_in(record)
    except BadLine as fault:
        raise AssertionError(f"the program has written a line of no record: {fault}") from fault
    return record_of(roots, events), len(events)


def examples(program):
    """The record of each example is the one of its own events, and it is sound; with the last version of its last table
    one higher it isn't."""
    for script in sorted(EXAMPLES.glob("*.play")):
        text = script.read_bytes()
        record = written(program, ["record"], text)
        assert record, f"there is no record of {script.name}"
        wanted, steps = rewritten(record)
        yield Run(["record"], text, 0, wanted, about=script.name)
        rests = sum(line.startswith(b"rest ") for line in wanted.split(b"\n"))
        yield audited(wanted, f"yes steps {steps} rests {rests}")
        if rests:
            yield with_other_rest(wanted)


def with_other_rest(record):
    """The audit of a record whose last `rest` line has another version at its end."""
    lines = record.split(b"\n")
    number = max(at for at, line in enumerate(lines) if line.startswith(b"rest "))
    *words, version = lines[number].split(b" ")
    lines[number] = b" ".join([*words, b"%d" % (int(version) + 1)])
    return audited(b"\n".join(lines), f"no line {number + 1} rest")


def scripts():
    """What `record` writes of scripts."""
    yield Run(["record"], encoded(SCRIPT), 0, encoded(PAGE))
    yield Run(["record"], encoded(SCRIPT.replace("open", "quiet\nfresh\nshow 1\nopen")), 0, encoded(PAGE))
    for script, record in [
        ("", ""),
        ("# nothing\n\n", ""),
        ("root /m.js\n", "root /m.js\n"),
        ("root /m.js\nroot /n.js\n# no more\n", "root /m.js\nroot /n.js\n"),
        ("root /m.js\nquiet\nturn 9\nshow 1\nclose 2\nfresh\nsettle\nsettle /m.js 1\n", "root /m.js\n"),
        ("root /m.js\nopen\nclose 1\n", f"root /m.js\nconnect\n= {CONNECTED}\ndisconnect 1\n= gone\n"),
        ("root /m.js\nremove /m.js\nedit /m.js\nremove /m.js\n",
         "root /m.js\nremove /m.js\n= same\nedit /m.js\n= job 1\nremove /m.js\n= removed 2\n"),
    ]:
        yield Run(["record"], encoded(script), 0, encoded(record))
    faults = [("1: cut-line", "open"), ("1: root-place", "open\n"), ("2: unknown-word", "root /m.js\n= late\n")]
    for at, script in faults:
        yield Run(["record"], encoded(script), 3, encoded(f"script fault at line {at}\n"))
    yield Run(["record"], b"#" * 16_777_217, 8, b"limit input 16777216\n")


def served(program):
    """The record of a folder of one module that is served to a client of the program's own."""
    with tempfile.TemporaryDirectory() as folder:
        pathlib.Path(folder, "m.js").write_text(TEXT + "\n")
        report = written(program, ["serve", folder, "/m.js", "--clients", "1", "--turns", "4", "--record"], b"")
    told, _, record = report.partition(b"record\n")
    wanted = b"steps 8\nfresh\n/m.js 1\nclient 1\n/m.js 1\n1 loaded\n"
    assert told.partition(b"\n")[2] == wanted, f"serve wrote {told!r}"
    assert record == rewritten(record)[0], f"the record of serve is {record!r}"
    yield audited(record, "yes steps 8 rests 1")
    report = rb"listening \d+\nsteps 0\nfresh\nmissing /m\.js\nmissing /n\.js\n"
    nothing = re.compile(report + rb"record\nroot /m\.js\nroot /n\.js\n")
    yield Run(["serve", str(pathlib.Path(__file__).parent), "/m.js", "/n.js", "--record"], b"", 0, nothing)


def lacks(program):
    """Why the program has no records, or None."""
    done = subprocess.run([program, "audit"], stdin=subprocess.DEVNULL, stdout=subprocess.PIPE, timeout=PATIENCE)
    return "the program has no command `audit`" if done.stdout.startswith(b"usage:") else None


def runs_of(program):
    yield from tables()
    yield from limits()
    yield from scripts()
    yield from examples(program)
    yield from served(program)
    yield audited(record_of(*events_in(LIES.encode())), "yes steps 38 rests 1")
    yield from changed_records(program, step=3)
