"""What `play` tells of bytes that are no script, and what scripts of each command bring.

In the tables `~` stands for LF. Faults and lines are those of docs/SCRIPT.md.
"""
from rows import Run, edit, play, rows_of

# The line and the word of the first fault, and the script.
FAULTS = """
1 cut-line=open
1 cut-line=# no end
1 cut-line=|x
2 cut-line=root /m.js~open
1 text-without-edit=|x~
2 text-without-edit=root /m.js~|x~
4 text-without-edit=root /m.js~edit /m.js~~|x~
4 text-without-edit=root /m.js~edit /m.js~# a~|x~
4 text-without-edit=root /m.js~edit /m.js~quiet~|x~
1 unknown-word= quiet~
1 unknown-word=opens m.js 0~
1 unknown-word=Open~
1 unknown-word=open1~
1 word-count=root~
1 word-count=quiet ~
1 word-count=edit  /m.js~
1 word-count=settle m.js~
1 word-count=turns 1~
1 word-count=fates x y~
1 word-count=fresh 0 0~
1 bad-name=root m.js~
1 bad-name=edit ~
1 bad-name=settle m.js 0~
1 bad-name=open /m.js 1~
1 bad-name=open ~
1 bad-name=open2 1~
1 bad-number=show ~
1 bad-number=turn 0~
1 bad-number=turn 01~
1 bad-number=turn +1~
1 bad-number=close 4294967296~
1 bad-number=turns 1 4294967296~
1 bad-number=settle /m.js 9007199254740992~
1 bad-number=fresh /m.js~
1 word-count=emit a~
1 word-count=emit a b c~
1 bad-name=emit a: b~
1 bad-name=emit  b~
1 bad-name=emit a/b c~
1 bad-number=hear 0~
1 word-count=hear~
1 root-place=emit a b~
1 root-place=hear 1~
1 root-place=open~
1 root-place=open2 /m.js~
1 root-place=edit /m.js~
2 root-place=root /m.js~root /m.js~
3 root-place=root /m.js~quiet~root /n.js~
17 root-place=root /a~root /b~root /c~root /d~root /e~root /f~root /g~root /h~root /i~root /j~root /k~root /l~root /m~root /n~root /o~root /p~root /q~
2 bad-number=root /m.js~turn 0~|x~
"""

# What a script writes, and the script.
OUTPUTS = """
=
=root /m.js~
=root /m.js~root /n.js~
=~# nothing is said here~
=root /m.js~quiet~
edit /m.js job 1~=root /m.js~edit /m.js~|let a;~|~
edit /m.js job 1~=root /m.js~edit /m.js~|# a~||~|~quiet~
edit /m.js job 1~edit /n.js job 2~open 1~=root /m.js~# a~edit /m.js~|x~~edit /n.js~open~
remove /n/a.js same~=root /m.js~remove /n/a.js~
edit /m.js job 1~remove /m.js 2~=root /m.js~edit /m.js~|~remove /m.js~
edit /m.js job 1~settle /m.js 1 served~=root /m.js~edit /m.js~settle~
settle /n.js 9007199254740991 none~=root /m.js~settle /n.js 9007199254740991~
open bad-roots~=root /m.js~open /n.js /m.js /n.js~
open 1~open 2~=root /m.js~open2~open2 /n.js~
unknown 4294967295~=root /m.js~close 4294967295~
unknown 9~=root /m.js~turn 9~
unknown 4294967295~=root /m.js~turns 4294967295 1~
unknown 1~unknown 2~unknown 3~=root /m.js~show 1~values 2~fates 3~
=root /m.js~emit a b~
unknown 9~=root /m.js~hear 9~
open 1~1 quiet~=root /m.js~open~hear 1~
open 1~1 busy~1 busy~=root /m.js~open~emit a b~hear 1~hear 1~
open 1~close 1~unknown 1~=root /m.js~open~emit a b~close 1~hear 1~
open 1~open 2~2 quiet~1 busy~=root /m.js~open~emit a b~open~hear 2~hear 1~
fresh~missing /m.js~unknown 4294967295~=root /m.js~fresh~fresh 4294967295~
"""


def fault(script, line, word):
    """A script that is none."""
    return play(script, f"script fault at line {line}: {word}\n", status=3)


def events():
    """What waits for a client, and what it hears."""
    listens = edit("/m.js", 'import.meta.hot.on("a", (e) => { console.log("a", e.data); });\n'
                   'import.meta.hot.on("b", (e) => { console.log("b", e.data); });')
    page = f"root /m.js\nquiet\n{listens}settle\nopen\nturns 1 9\n"
    # The events come in their order, each once, and each to the callbacks that listen to it alone.
    yield play(page + "emit a one\nemit b two\nemit c three\nemit a \n" + "hear 1\n" * 5,
               "1 loaded\n1 event a\n1 log /m.js a one\n1 event b\n1 log /m.js b two\n1 event c\n"
               "1 event a\n1 log /m.js a \n1 quiet\n")
    # At most 1,024 wait for a client. It takes none that came while it had so many, and all that came later.
    full = "emit a x\n" * 1_024
    yield play("root /m.js\nquiet\nopen\n" + full, "")
    yield play("root /m.js\nquiet\nopen\n" + full + "emit a x\n", "1 full a\n")
    yield play(page + full + "emit b lost\nhear 1\nemit b late\nemit b lost\n" + "hear 1\n" * 1_025,
               "1 loaded\n1 full b\n1 event a\n1 log /m.js a x\n1 full b\n"
               + "1 event a\n1 log /m.js a x\n" * 1_023 + "1 event b\n1 log /m.js b late\n1 quiet\n")
    # The clients for which as many wait as may are told by number; the others get the event.
    yield play(page + "open\nturns 2 9\nopen\n" + full + "hear 2\nemit b y\nemit b z\n",
               "1 loaded\n2 loaded\n2 event a\n2 log /m.js a x\n1 full b\n3 full b\n1 full b\n2 full b\n3 full b\n")
    # A client that comes as another went gets none of the other's events.
    yield play(page + "emit a x\nclose 1\nopen\nturns 2 9\nhear 2\nhear 1\n",
               "1 loaded\nclose 1\n2 loaded\n2 quiet\nunknown 1\n")
    # A client that takes an update is busy, and its event goes on waiting; then only the new instance hears it.
    pings = edit("/m.js", 'import.meta.hot.on("my:ping", (e) => { console.log("got", e.data); });\n'
                 "import.meta.hot.accept();")
    silent = edit("/m.js", "import.meta.hot.accept();")
    yield play(f"root /m.js\nquiet\n{pings}settle\nopen\nturns 1 9\nemit my:ping one\nhear 1\nhear 1\n"
               f"{silent}settle\nemit my:ping two\nturn 1\nhear 1\nturns 1 9\nhear 1\n",
               "1 loaded\n1 event my:ping\n1 log /m.js got one\n1 quiet\n1 update /m.js\n1 accept /m.js /m.js\n"
               "1 busy\n1 updated\n1 event my:ping\n")
    # The value has at most 4,096 bytes.
    yield play(page + f"emit a {'x' * 4_096}\nhear 1\n", f"1 loaded\n1 event a\n1 log /m.js a {'x' * 4_096}\n")
    yield fault(f"root /m.js\nemit a {'x' * 4_097}\n", 2, "bad-name")
    yield fault(f"root /m.js\nemit {'a' * 65} x\n", 2, "bad-name")


def runs():
    for at, script in rows_of(FAULTS, "="):
        line, word = at.split(" ")
        yield fault(script, line, word)
    for output, script in rows_of(OUTPUTS, "="):
        yield play(script, output)
    # A line has at most 65,535 bytes, and bytes that are no text are told before a line that is too long.
    yield play("#" * 65_535 + "\n", "")
    yield fault("#" * 65_536 + "\n", 1, "line-too-long")
    yield fault("x" * 65_536, 1, "line-too-long")
    yield fault(b"\xff" * 65_536, 1, "not-utf8")
    yield fault(b"\xff\n", 1, "not-utf8")
    yield play("\n" * 1_000, "")
    # A 33rd client is refused; a text has at most 131,072 bytes, and there are at most 8,192 names.
    yield play("root /m.js\nquiet\n" + "open\n" * 33, "open refused\n")
    for length, line in [(131_072, "edit /m.js job 1\n"), (131_073, "edit /m.js refused text-too-long\n")]:
        lines = "|" + "x" * 65_000 + "\n|" + "x" * 65_000 + "\n|" + "x" * (length - 130_003) + "\n"
        yield play(f"root /m.js\nedit /m.js\n{lines}", line)
    edits = "".join(f"edit /m{number}.js\n" for number in range(8_193))
    yield play(f"root /m.js\nquiet\n{edits}", "edit /m8192.js refused too-many-names\n")
    yield from events()
    # An input has at most 16,777,216 bytes.
    yield Run(["play"], b"#" * 16_777_217, 8, b"limit input 16777216\n")
    yield Run(["play"], b"#" * 16_777_216, 3, b"script fault at line 1: line-too-long\n")
    yield fault("#" * 16_777_216, 1, "line-too-long")
