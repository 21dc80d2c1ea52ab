"""Which words of the command line are commands, and what is told of edits that are none.

Words stand a space apart. What commands take is said in docs/COMMANDS.md.
"""
import pathlib
import re

from rows import Run

USAGE = (b"usage: hmr play | check NAME | make N SEED | serve FOLDER ROOT.. | join PORT [ROOT..] | page FOLDER"
         b" | record | audit\n")
SIXTEEN = "/a /b /c /d /e /f /g /h /i /j /k /l /m /n /o /p"

# Words that are no command.
OTHERS = f"""
Play
play now
play play
play --help
help
check
check m.js
check /m.js /n.js
check --help
make
make 1
make 0 1
make 4097 1
make 1 2147483648
make 1 -1
make 1 x
make 1 1 1
serves . /m.js
serve
serve .
serve . m.js
serve . /m.js /m.js
serve . /m.js /n.js /m.js
serve . {SIXTEEN} /q
serve . /m.js --help
serve . /m.js --quiet
serve . /m.js --port 65536
serve . /m.js --clients 33
serve . /m.js --outside 33
serve . /m.js --turns 400001
serve . /m.js --workers 0
serve . /m.js --workers 17
serve . /m.js --rounds 1001
serve . /m.js --port
serve . /m.js --port x
serve . /m.js --port -1
serve . /m.js --turns 5 --turns 5
serve . /m.js --edits --edits
serve . /m.js --edits=true
serve . /m.js --clients 1 --clients 2
join
join 0
join 65536
join x
join 80 m.js
join 80 /m.js /m.js
join 80 {SIXTEEN} /q
join 80 --turns 400001
join 80 --turns 1 --turns 1
join 80 --edits
page
page . /m.js
page . --port 80
page --help
Record
record /m.js
record record
record --help
audit /m.js
audit audit
audit --help
play --record
serve --record
serve . --record
serve . /m.js --record --record
serve . /m.js --record=true
serve . /m.js --records
join 80 --record
page . --record
"""

# The first fault of what `serve --edits` reads: its line and its word, and the input, where `~` stands for LF. Edits are
# the lines `edit`, `|` and `remove` of a script, so every other command is an unknown word.
EDITS = """
1 unknown-word=root /m.js~
1 unknown-word=quiet~
1 unknown-word=settle~
1 unknown-word=settle /m.js~
1 unknown-word=open~
1 unknown-word=open2 m.js~
1 unknown-word=close 1~
1 unknown-word=turn 0~
1 unknown-word=turns 1~
1 unknown-word=show 1~
1 unknown-word=values 1~
1 unknown-word=fates 1~
1 unknown-word=fresh~
1 unknown-word=edits~
2 cut-line=edit /m.js~remove /m.js
2 text-without-edit=remove /m.js~|text~
3 text-without-edit=edit /m.js~~|text~
1 word-count=edit~
1 word-count=remove /m.js /n.js~
1 bad-name=edit m.js~turn 0~
"""


def no_command(line):
    return Run(line.split(" ") if line else [], b"", 2, USAGE)


def faults():
    """The inputs of `serve --edits` that have a fault: nothing is served."""
    for row in EDITS.strip("\n").split("\n"):
        at, _, text = row.partition("=")
        yield at, text.replace("~", "\n").encode()
    yield "2 not-utf8", b"edit /m.js\nroot \xff\n"
    yield "2 line-too-long", b"edit /m.js\n|" + b"x" * 65_535 + b"\n"


def commands():
    """Words that are commands, in their other forms."""
    made = b"modules 1 updates 4 reloads 4 instances 9 equal yes\n"
    yield Run(["make", "1", "1"], b"", 0, made)
    yield Run(["make", "+1", "001"], b"", 0, made)
    yield Run(["check", "--", "/m.js"], b"let a = 1", 0, b"let a = 1;\n")
    folder = str(pathlib.Path(__file__).parent)
    report = re.compile(rb"listening \d+\nsteps 0\nfresh\nmissing /m\.js\nmissing /n\.js\n")
    for words in [
        "serve FOLDER /m.js /n.js",
        "serve --port=0 FOLDER --clients 0 /m.js --outside 0 --turns 0 --workers 1 --rounds 0 /n.js",
        "serve --turns=400000 --workers=16 --edits -- FOLDER /m.js /n.js",
    ]:
        yield Run([folder if word == "FOLDER" else word for word in words.split(" ")], b"# nothing\n\n", 0, report)


def edits():
    """Edits are made in their order, each under the next version; a removal of what isn't there counts for nothing."""
    folder = str(pathlib.Path(__file__).parent)
    text = b"edit /m.js\n|let a = 1;\n|\nremove /n.js\n# so far\n\nedit /n.js\n|import './m.js'\nedit /m.js\n"
    report = re.compile(rb"listening \d+\nsteps \d+\nfresh\n/m\.js 3\n/n\.js 2\n")
    yield Run(["serve", folder, "/n.js", "--edits"], text, 0, report)
    removed = text + b"remove /m.js\n"
    report = re.compile(rb"listening \d+\nsteps \d+\nfresh\n/n\.js 2\nmissing /m\.js\n")
    yield Run(["serve", folder, "/n.js", "--edits"], removed, 0, report)


def runs():
    yield no_command("")
    for line in OTHERS.strip("\n").split("\n"):
        yield no_command(line)
    for at, text in faults():
        line, word = at.split(" ")
        yield Run(["serve", ".", "/m.js", "--edits"], text, 3, f"script fault at line {line}: {word}\n".encode())
    yield from commands()
    yield from edits()
