"""What `play` tells of evaluations and of handlers: values, lines, faults, `hot.data`, closures of the embedding program.

What each text does was worked out by hand from docs/LANGUAGE.md, and the lines from docs/SCRIPT.md.
"""
from rows import edit, play, rows_of

# The value of an expression, or the fault of its evaluation, where `a` is 1 and `b` is the variable that it is to be.
EXPRESSIONS = r"""
2 - 3 * 4 => -10
(2 - 3) * 4 => -4
1 - 2 - 3 => -4
-(-5) => 5
'a' + 1 => "a1"
1 + 2 + 'a' + 1 + 2 => "3a12"
'a' + undefined => "aundefined"
'a' - 1 => not-number
1 * 'a' => not-number
1 + undefined => not-number
-undefined => not-number
-'1' => not-number
-9007199254740991 - 1 => range
9007199254740991 + 1 => range
9007199254740991 * 2 => range
undefined ?? 5 => 5
0 ?? 5 => 0
'' ?? 5 => ""
'' ? 1 : 2 => 2
0 ? 1 : 2 => 2
undefined ? 1 : 2 => 2
-1 ? 1 : 2 => 1
a => 1
b => uninitialised b
gone => uninitialised gone
1 ?? gone => 1
undefined => undefined
-9007199254740991 => -9007199254740991
a ? 3 : gone => 3
"""

# A module, and what comes of it: its lines, the word of its fault, and what its exports hold. The import `i` is 7, and
# `j` is of a module on a cycle that isn't evaluated yet.
MODULES = r"""
export let a = 1; a = a + 1; export let b = a * 3; console.log(a, b) => log 2 6; a 2; b 6
export let a = 1 + b; export let b = 2 => fault uninitialised b; a -; b -
b = 1; export let b = 2 => fault uninitialised b; b -
export let a = 1; a = b; export let b = 2 => fault uninitialised b; a 1; b -
export const a = i + 1 => a 8
console.log(i, j) => fault uninitialised j
export let z = 1; export const j2 = j ?? 3 => fault uninitialised j; z 1; j2 -
export let a = gone => fault uninitialised gone; a -
export let a = 1; throw a; export let b = 2 => fault thrown 1; a 1; b -
export let c = 3; export let b = 2; export let a = 1; console.log(a + b * c) => log 7; c 3; b 2; a 1
export let a = 'x'; a = a + a; a = a + a; console.log(a) => log xxxx; a "xxxx"
console.log('a', undefined, -0); throw new Error('no ' + 1); console.log('b') => log a undefined 0; fault thrown no 1
console.log('a'); console.log(-undefined); console.log('b') => log a; fault not-number
console.log(); console.log('a\\b\nc') => log; log a\\b\nc
import.meta.hot.data.k = i; console.log(import.meta.hot.data.k, import.meta.hot.data.gone) => log 7 undefined
"""

# What a callback of a dependency does, whose parameter `m` is a module that exports `n` as 5. In its module `a` is 1,
# `t` is the text `x` and `b` is 0, and what they hold behind it is told where it isn't that.
BODIES = r"""
a = a + 1; console.log(a); a = t + a => log 2; a "x2"
b = gone; a = 2 => fault uninitialised gone
console.log(1); a = 2; console.log(1 + gone); a = 3 => log 1; fault uninitialised gone; a 2
if (0) { a = 2 } else if (t) { a = 3 } else { a = 4 } => a 3
if (gone) { a = 2 } else { a = 3 } => fault uninitialised gone
if (m) { console.log('in') } else { console.log('out') } => log in
console.log(m.n, m.gone, m?.n, m?.gone) => log 5 undefined 5 undefined
a = m.n * 2 => a 10
import.meta.hot.invalidate() => ignored
import.meta.hot.invalidate('why ' + a); import.meta.hot.invalidate(undefined) => ignored; ignored
import.meta.hot.invalidate(1 - t) => fault not-number
import.meta.hot.invalidate(t); throw 'no' => fault thrown no; ignored
import.meta.hot.data.k = a; console.log(import.meta.hot.data.k, import.meta.hot.data.j) => log 1 undefined
console.log(a+a+a+a+a+a+a+a+a+a+a+a+a+a+a+a+a+a+a+a) => log 20
a = 2; console.log(a+a+a+a+a+a+a+a+a+a+a+a+a+a+a+a+a+a+a+a) => log 40; a 2
console.log(a+a+a+a+a+a+a+a+a+a+a+a+a+a+a+a+a+a+a+gone) => fault uninitialised gone
console.log(a+a+a+a+a+a+a+a+a+a+a+a+a+a+a+a+a+a+a+t); b = 3 => log 19x; b 3
console.log('a', undefined, -0); console.log(9007199254740991 + 1); console.log('b') => log a undefined 0; fault range
"""

# The same where `m` is undefined, since the new text of the module throws.
UNDEFINED = r"""
if (m) { console.log('in') } else { console.log('out') } => log out
if (m) { a = 2 } =>
console.log(m?.n, m?.gone) => log undefined undefined
console.log('a'); console.log(m.n); console.log('b') => log a; fault undefined-read
console.log(m?.n ?? m.n) => fault undefined-read
"""

FAULTS = ("uninitialised", "not-number", "range", "undefined-read", "thrown", "bag-full")

# The lines of a script that load a page, and those that bring what was saved to it.
LOAD = "settle\nopen\nturns 1 9\n"
SAVE = "settle\nturns 1 9\n"

# The lines of an update of `/m.js`, which accepts itself, before those of its handlers.
UPDATE = "1 update /m.js\n1 accept /m.js /m.js\n"


def script(*parts):
    """A script whose page has the root `/m.js`."""
    return "root /m.js\nquiet\n" + "".join(parts)


def expression(text, want):
    """A module that evaluates an expression."""
    is_fault = want.startswith(FAULTS)
    fault = f"1 fault /m.js module {want}\n" if is_fault else ""
    shown = "-" if is_fault else want
    saved = edit("/m.js", f"export let a = 1; export let b = {text}")
    told = f"{fault}1 loaded\nvalues 1\nvalue /m.js a 1\nvalue /m.js b {shown}\n"
    return play(script(saved, LOAD, "values 1\n"), told)


def parts(want):
    """The lines, the fault and the other parts of what is expected."""
    found = [part for part in want.split("; ") if part]
    logs = [part[len("log"):] for part in found if part == "log" or part.startswith("log ")]
    faults = [part.removeprefix("fault ") for part in found if part.startswith("fault ")]
    return logs, faults, [part for part in found if not part.startswith(("log", "fault "))]


def module(text, want):
    """A page whose root is on a cycle with the module, which is evaluated first."""
    logs, faults, exports = parts(want)
    texts = [
        edit("/i.js", "export const i = 7;"),
        edit("/m.js", 'import "./x.js";\nexport const j = 1;'),
        edit("/x.js", f'import {{ i }} from "./i.js"; import {{ j }} from "./m.js";\n{text}'),
    ]
    told = "".join(f"1 log /x.js{line}\n" for line in logs)
    told += "".join(f"1 fault /x.js module {fault}\n1 unrun /m.js\n" for fault in faults)
    told += f"1 loaded\nvalues 1\nvalue /i.js i 7\nvalue /m.js j {'-' if faults else 1}\n"
    told += "".join(f"value /x.js {export}\n" for export in exports)
    return play(script(*texts, LOAD, "values 1\n"), told)


def body(text, want, is_given=True):
    """A callback of a module whose dependency is saved."""
    logs, faults, rest = parts(want)
    held = {"a": "1", "t": '"x"', "b": "0"} | dict(part.split(" ", 1) for part in rest if part != "ignored")
    variables = "import './d.js'; export let a = 1; export let t = 'x'; export let b = 0;"
    texts = [
        edit("/d.js", "export const n = 0;"),
        edit("/m.js", f"{variables}\nimport.meta.hot.accept('./d.js', (m) => {{ {text} }})"),
    ]
    saved = edit("/d.js", "export const n = 5;" + ("" if is_given else " throw 'oh';"))
    told = "1 loaded\n1 update /d.js\n1 accept /m.js /d.js\n"
    told += "" if is_given else "1 fault /d.js module thrown oh\n"
    told += "".join(f"1 log /m.js{line}\n" for line in logs)
    told += "".join(f"1 fault /m.js dep {fault}\n" for fault in faults)
    told += "1 updated\n" + "1 ignored /m.js\n" * rest.count("ignored") + "values 1\nvalue /d.js n 5\n"
    told += "".join(f"value /m.js {name} {value}\n" for name, value in held.items())
    return play(script(*texts, LOAD, saved, SAVE, "values 1\n"), told)


def bags():
    """`hot.data` has 64 keys at most, and a known one may be written again; it goes to the successor."""
    bag = "import.meta.hot.data"
    keys = "".join(f"{bag}.key{number} = {number};\n" for number in range(64))
    again = f"{bag}.key3 = -3; console.log({bag}.key0, {bag}.key3, {bag}.key63);\n"
    text = f"{keys}{again}{bag}.key64 = 64; console.log('after');"
    told = "1 log /m.js 0 -3 63\n1 fault /m.js module bag-full\n1 loaded\n"
    yield play(script(edit("/m.js", text), LOAD), told)
    handler = f"(d) => {{\n{keys}d.key3 = -3; console.log('kept'); d.key64 = 64; console.log('after') }}"
    text = f"import.meta.hot.dispose({handler});\nimport.meta.hot.accept();"
    saved = f"console.log({bag}.key0, {bag}.key3, {bag}.key63, {bag}.key64);"
    told = f"1 loaded\n{UPDATE}1 log /m.js kept\n1 fault /m.js dispose bag-full\n1 log /m.js 0 -3 63 undefined\n"
    yield play(script(edit("/m.js", text), LOAD, edit("/m.js", saved), SAVE), told + "1 updated\n")


def handlers():
    """Closures go by label in their order; a second disposer or prune handler displaces the first, which doesn't run;
    callbacks on the module itself run in their order; what is left is dropped with its instance."""
    text = """import "./d.js";
import.meta.hot.dispose(host("H")); import.meta.hot.dispose(host("H"));
import.meta.hot.prune(() => { console.log("pruned") }); import.meta.hot.prune(host("H"));
import.meta.hot.accept(host("H")); import.meta.hot.accept(host("H")); import.meta.hot.accept(host("G"));
import.meta.hot.accept("./d.js", () => { console.log("dep") });"""
    registered = """dispose host H 1 dropped
dispose host H 2 {0}
prune code dropped
prune host H 3 {1}
own host H 4 {0}
own host H 5 {0}
dep code {1}
"""
    told = "1 nohost /m.js G\n1 loaded\nfates 1\ninstance 1 /d.js 2 done live\ninstance 2 /m.js 1 done live\n"
    told += registered.format("held", "held") + UPDATE
    told += "1 log /m.js host H 2\n1 log /m.js 2\n1 log /m.js host H 4\n1 log /m.js host H 5\n1 updated\n"
    told += "fates 1\ninstance 1 /d.js 2 done live\ninstance 2 /m.js 1 done replaced 3\n"
    told += registered.format("spent", "dropped") + "instance 3 /m.js 3 done live\n"
    saved = edit("/m.js", 'import "./d.js"; console.log(import.meta.hot.data.host);')
    loaded = script(edit("/m.js", text), edit("/d.js", "export const n = 0;"), LOAD, "fates 1\n")
    yield play(loaded + saved + SAVE + "fates 1\n", told)


def failing():
    """A callback on the module itself, and a prune handler, that fail; the message of an empty text keeps its space."""
    text = "import './a.js'; import.meta.hot.accept(() => { console.log('own'); throw '' }); throw ''"
    pruned = edit("/a.js", "import.meta.hot.prune(() => { console.log('prune'); console.log(1 - 'a') })")
    told = "1 fault /m.js module thrown \n1 loaded\n" + UPDATE
    told += "1 log /m.js own\n1 fault /m.js own thrown \n1 updated\n"
    told += "1 log /a.js prune\n1 fault /a.js prune not-number\n1 pruned /a.js\n"
    yield play(script(edit("/m.js", text), pruned, LOAD, edit("/m.js", ""), SAVE), told)


def unset():
    """A handler of an instance whose evaluation failed finds its later variables unset; a parameter past the last module
    that a list names is undefined."""
    handler = "() => { console.log(1); console.log(1 + b) }"
    text = f"import.meta.hot.accept(); import.meta.hot.dispose({handler}); throw 'no'; let b = 2"
    told = f"1 fault /m.js module thrown no\n1 loaded\n{UPDATE}1 log /m.js 1\n"
    told += "1 fault /m.js dispose uninitialised b\n1 updated\n"
    yield play(script(edit("/m.js", text), LOAD, edit("/m.js", ""), SAVE), told)
    text = """import './d.js'; import.meta.hot.accept(['./d.js'], ([m, k]) => {
if (k) { console.log('in') } else { console.log('out') }
console.log(m.n, k?.n); console.log(k.n); })"""
    told = "1 loaded\n1 update /d.js\n1 accept /m.js /d.js\n1 log /m.js out\n1 log /m.js 5 undefined\n"
    told += "1 fault /m.js dep undefined-read\n1 updated\n"
    texts = [edit("/d.js", "export const n = 0"), edit("/m.js", text)]
    yield play(script(*texts, LOAD, edit("/d.js", "export const n = 5"), SAVE), told)


def long_rows():
    """An expression as long as a text allows costs no stack, in a module and in a handler."""
    row = "1" + "+1" * 16_383
    yield play(script(edit("/m.js", f"console.log({row})"), LOAD), "1 log /m.js 16384\n1 loaded\n")
    text = f"import.meta.hot.dispose(() => {{ console.log({row}) }});\nimport.meta.hot.accept();"
    told = f"1 loaded\n{UPDATE}1 log /m.js 16384\n1 updated\n"
    yield play(script(edit("/m.js", text), LOAD, edit("/m.js", ""), SAVE), told)


def assignments():
    """The last of many assignments of a handler stays: few are made one by one, more by an index of their names."""
    for number in (15, 16, 17, 5_000):
        held = f"a {1 + number}; b {2 + number}"
        yield body("a = a + 1; " * (number - 1) + "b = a + 2; a = a + 1", held)


def escapes():
    """In a message, a console line, a thrown text and a label a backslash, LF and CR are escaped; in quotes a tab and a
    quote are too."""
    literal = r"'a\\b\nc\rd\te\"f'"
    line = r"a\\b\nc\rd" + '\te"f'
    quoted = r'"a\\b\nc\rd\te\"f"'
    text = f"""export const s = {literal};
console.log(s);
import.meta.hot.dispose(host({literal}));
import.meta.hot.accept(() => {{ import.meta.hot.invalidate(s) }});
throw s;"""
    told = f"1 log /m.js {line}\n1 fault /m.js module thrown {line}\n1 nohost /m.js {line}\n1 loaded\n"
    told += f"values 1\nvalue /m.js s {quoted}\n{UPDATE}1 updated\n1 invalidated /m.js {line}\n"
    loaded = script(edit("/m.js", text), LOAD, "values 1\n")
    yield play(loaded + edit("/m.js", "import.meta.hot.accept();") + "settle\nturns 1 4\n", told)


def texts():
    """A string has at most 4,096 bytes."""
    for length, fault in [(2_048, ""), (2_049, "1 fault /m.js module range\n")]:
        saved = edit("/m.js", f"const a = '{'x' * length}'; const b = a + a;")
        yield play(script(saved, LOAD), f"{fault}1 loaded\n")


def runs():
    for text, want in rows_of(EXPRESSIONS, " => "):
        yield expression(text, want)
    for text, want in rows_of(MODULES, " => "):
        yield module(text, want)
    for text, want in rows_of(BODIES, " => "):
        yield body(text, want)
    for text, want in rows_of(UNDEFINED, " =>"):
        yield body(text, want.strip(), is_given=False)
    yield from bags()
    yield from handlers()
    yield from failing()
    yield from unset()
    yield from long_rows()
    yield from assignments()
    yield from escapes()
    yield from texts()
