"""What `check` tells of module texts: tokens, the grammar and its faults, canonical texts, analyses, and limits.

In the tables `~` stands for LF. The places of faults, the canonical texts and the analyses were worked out by hand
from docs/LANGUAGE.md.
"""
import re

from rows import Run, check, encoded, rows_of

# The first fault of a text, as its line, its column and its word, and the text behind the first `=`.
FAULTS = r"""
1:7 unexpected=import
1:8 unexpected=import a from 's'
1:12 unexpected=import { a b } from 's'
1:13 unexpected=import { a, , b } from 's'
1:14 unexpected=import { a } form 's'
1:13 unexpected=import { if } from 's'
1:16 unexpected=import { if as else } from 's'
1:19 unexpected=import { a } from 5
1:12 unexpected=import 's' 't'
1:8 unexpected=import.x = 1
1:14 unexpected=export const = 2;
1:8 unexpected=export a = 1
1:7 unexpected=const if = 1
1:7 unexpected=const = 1
1:9 unexpected=const a 1
1:9 unexpected=let a = 
1:11 unexpected=let a = 1 2
2:11 unexpected=let a = 1~let b = 2 let c
1:13 unexpected=let a = 1 + * 2
1:11 unexpected=let a = - - 1
1:11 unexpected=let a = (1
1:14 unexpected=let a = 1 ? 2
1:15 unexpected=let a = 1 ? 2 , 3
1:14 unexpected=let a = 1 ?? 
1:11 unexpected=let a = b.5
1:9 unexpected=let a = null
1:25 unexpected=let a = import.meta.hot.date.x
1:9 unexpected=console.warn('x')
1:15 unexpected=console.log(1,)
1:13 unexpected=console.log 1
1:3 unexpected=a + 1
1:4 unexpected=a.b
1:1 unexpected=undefined = 1
1:1 unexpected=}
1:6 unexpected=throw
1:17 unexpected=throw new Error 1
1:17 unexpected=throw new Error()
1:5 unexpected=if (m) {}
1:24 unexpected=if (import.meta.hot) { const a = 1 }
1:23 unexpected=if (import.meta.hot) {
1:16 unexpected=import.meta.hot
1:17 unexpected=import.meta.hot.acept()
1:17 unexpected=import.meta.hot.invalidate()
1:22 unexpected=import.meta.hot.data = 1
1:24 unexpected=import.meta.hot.accept(5)
1:33 unexpected=import.meta.hot.accept('./a.js' './b.js')
1:37 unexpected=import.meta.hot.accept(['./a.js'], (m) => {})
1:35 unexpected=import.meta.hot.accept('./a.js', ([m]) => {})
1:25 unexpected=import.meta.hot.dispose()
1:30 unexpected=import.meta.hot.dispose(host(5))
1:27 unexpected=import.meta.hot.prune((d) = {})
1:25 unexpected=import.meta.hot.decline(1)
1:31 unexpected=import.meta.hot.accept((m) => throw 1)
1:49 unexpected=import.meta.hot.accept((m) => { if (m) { } else 1 })
1:33 unexpected=import.meta.hot.accept((m) => { const a = 1 })
1:9 unexpected=let a = m.x
1:1 unexpected=a.b = 1
1:34 unexpected=import.meta.hot.dispose((d) => { import.meta.hot.invalidate() })
1:45 unexpected=import.meta.hot.accept((m) => { console.log(m) })
1:20 unexpected=import.meta.hot.on('', () => {})
1:20 unexpected=import.meta.hot.on('my:', () => {})
1:20 unexpected=import.meta.hot.on('my:..', () => {})
1:20 unexpected=import.meta.hot.on('my/ping', () => {})
1:20 unexpected=import.meta.hot.on('my ping', () => {})
1:20 unexpected=import.meta.hot.on(['a'], () => {})
1:23 unexpected=import.meta.hot.on('a')
1:24 unexpected=import.meta.hot.on('a',)
1:20 unexpected=import.meta.hot.on(() => {})
1:29 unexpected=import.meta.hot.on('a', host('L'))
1:26 unexpected=import.meta.hot.on('a', ([m]) => {})
1:46 unexpected=import.meta.hot.on('a', (m) => { console.log(m) })
1:34 unexpected=import.meta.hot.on('a', (m) => { m.x = 1 })
1:20 duplicate-name=const a = 1; const a = 2; import.meta.hot.on('', () => {})
1:20 unexpected=import.meta.hot.on('', (m) => { b = m }); b = 1
1:1 not-assignable=a = 1
1:14 not-assignable=const a = 1; a = 2
1:51 duplicate-name=import.meta.hot.accept(['./a.js', './b.js'], ([m, m]) => {})
1:18 duplicate-name=import { a, b as a } from 's'
1:32 duplicate-name=export let a = 1; export const a = 2
2:7 duplicate-name=const a = 1~const a = 2
1:11 open-string=const a = 'x
1:16 bad-byte=console.log(1 ++ 2)
1:10 bad-byte=let a = 01
2:1 open-comment=// x~/* y
1:10 bad-escape=let a = '\q'
1:18 number-too-large=export const n = 9007199254740992;
1:11 open-string=const a = "x
1:1 open-string='a~b'
1:2 open-string= 'a"
1:6 bad-byte=a - --b
1:2 bad-byte=01
1:3 bad-byte=12a
1:3 bad-byte=a / b
1:3 bad-byte=a é
1:2 open-comment= /*/
1:6 open-comment=/**/ /* *
1:4 bad-escape= 'a\xb'
1:2 bad-escape='\
1:2 bad-escape='\~'
1:2 number-too-large= 9007199254740992a
1:11 unexpected=let a = 1 let b = 2
1:13 unexpected=import { if } from './b.js'
1:36 unexpected=import.meta.hot.accept(['./a.js'], m => { })
1:20 unexpected=import.meta.hot.on(['a'], () => { })
1:9 unexpected=a = (1 -
1:15 unexpected=console.log(1,)~a
"""

# A text, and behind `|` the whole report: the canonical text, and then what it imports, exports and accepts, whether it
# accepts itself, and whether it declines.
REPORTS = r"""
|
let a = 1~a = 1 + 2 * 3|let a = 1;~a = 1 + 2 * 3;~
import { a, if as b, } from './b.js'|import { a, if as b } from "./b.js";~imports /a/b.js~
let a = 0; let b = 0; if (import.meta.hot) { a = 1; b = 2 }|let a = 0;~let b = 0;~a = 1;~b = 2;~
import.meta.hot.accept(['./a.js'], ([m]) => { })|import.meta.hot.accept(["./a.js"], ([m]) => {~});~
let on = 0; import.meta.hot.on('my:ping', e => on = e.x); export let p = 2|let on = 0;~import.meta.hot.on("my:ping", (e) => {~  on = e.x;~});~export let p = 2;~exports p~
throw new Error('x')|throw new Error("x");~
throw 2|throw new Error(2);~
export const a = 1;~const b = a + 1~let c = b|export const a = 1;~const b = a + 1;~let c = b;~exports a~
if (import.meta.hot) { import.meta.hot.accept(); import.meta.hot.decline() }|import.meta.hot.accept();~import.meta.hot.decline();~self~declines~
import.meta.hot.accept((m) => { if (m) { console.log(m.x) } else if (1) { } else { throw 2 } })|import.meta.hot.accept((m) => {~  if (m) {~    console.log(m.x);~  } else {~    if (1) {~    } else {~      throw new Error(2);~    }~  }~});~self~
import.meta.hot.dispose(d => { d.n = d.m + d?.k })|import.meta.hot.dispose(() => {~  import.meta.hot.data.n = import.meta.hot.data.m + import.meta.hot.data.k;~});~
import { if as a, from, as as b } from './s.js'; const host = 1; const console = host|import { if as a, from, as as b } from "./s.js";~const host = 1;~const console = host;~imports /a/s.js~
import.meta.hot.on('ping', (e) => { console.log('got', e.data) })|import.meta.hot.on("ping", (e) => {~  console.log("got", e.data);~});~
import.meta.hot.on("my:ping-2.x:A_b", e => { if (e) { import.meta.hot.invalidate() } })|import.meta.hot.on("my:ping-2.x:A_b", (e) => {~  if (e) {~    import.meta.hot.invalidate();~  }~});~
if (import.meta.hot) { import.meta.hot.on('a', () => {}) } export const on = 1; const c = on|import.meta.hot.on("a", () => {~});~export const on = 1;~const c = on;~exports on~
import './s.js'; const a = 7; console.log(((a ?? 1) - (2 - 3)) * -(-a) ? undefined : "it's\\\"\n\t\r", import.meta.hot.data.k); throw a|import "./s.js";~const a = 7;~console.log(((a ?? 1) - (2 - 3)) * -(-a) ? undefined : "it's\\\"\n\t\r", import.meta.hot.data.k);~throw new Error(a);~imports /a/s.js~
import.meta.hot.accept(host('L')); import.meta.hot.accept([]); import.meta.hot.prune(host("P"))|import.meta.hot.accept(host("L"));~import.meta.hot.accept([]);~import.meta.hot.prune(host("P"));~self~
const a = 1; import.meta.hot.accept(['./x.js', './y.js'], ([m, k]) => { if (m) { if (a) { import.meta.hot.invalidate() } } else { import.meta.hot.invalidate(k.x) } })|const a = 1;~import.meta.hot.accept(["./x.js", "./y.js"], ([m, k]) => {~  if (m) {~    if (a) {~      import.meta.hot.invalidate();~    }~  } else {~    import.meta.hot.invalidate(k.x);~  }~});~
import.meta.hot.decline(); import.meta.hot.accept(); import './x.js'|import.meta.hot.decline();~import.meta.hot.accept();~import "./x.js";~imports /a/x.js~self~declines~
import { a } from './x.js'; export let n = a; import.meta.hot.accept(); import.meta.hot.accept('./x.js'); import.meta.hot.decline()|import { a } from "./x.js";~export let n = a;~import.meta.hot.accept();~import.meta.hot.accept("./x.js");~import.meta.hot.decline();~imports /a/x.js~exports n~self~accepts /a/x.js~declines~
import.meta.hot.dispose((d) => { d.k = 1 }); import.meta.hot.decline()|import.meta.hot.dispose(() => {~  import.meta.hot.data.k = 1;~});~import.meta.hot.decline();~declines~
let /* ' **/$_9Z//"' y~= 0|let $_9Z = 0;~
let a = 9007199254740991/**/-12|let a = 9007199254740991 - 12;~
let a = 'a\'é"' + '' + "\n\t\r\\\""|let a = "a'é\"" + "" + "\n\t\r\\\"";~
let a = 1 + (2 + 3) - (4 - 5) * (6)|let a = 1 + (2 + 3) - (4 - 5) * 6;~
import { n as m, o } from './c.js'; import '/x.js'; export let k = 1; const p = 2; if (import.meta.hot) { import.meta.hot.accept(['./c.js', './d.js']); }|import { n as m, o } from "./c.js";~import "/x.js";~export let k = 1;~const p = 2;~import.meta.hot.accept(["./c.js", "./d.js"]);~imports /a/c.js /x.js~exports k~accepts /a/c.js~
import.meta.hot.on('my:ping', e => { })|import.meta.hot.on("my:ping", (e) => {~});~
import.meta.hot.accept('/event/my/ping', (e) => { })|import.meta.hot.on("my:ping", (e) => {~});~
import.meta.hot.accept('/event/a', () => { })|import.meta.hot.on("a", () => {~});~
import.meta.hot.accept('/event/my:ping', () => { })|fault 0:0 specifier-bad-segment~
import.meta.hot.accept('./event/a', () => { })|import.meta.hot.accept("./event/a", () => {~});~
import.meta.hot.accept(['/event/a'], () => { })|import.meta.hot.accept(["/event/a"], () => {~});~
import.meta.hot.accept('/event/a')|import.meta.hot.accept("/event/a");~
"""

# A module in ten spellings, of which the first is canonical, and what the report has behind the text.
SPELLINGS = r"""
import { b as c, a } from "./x.js";~export let n = 1 + 2 * c;~import.meta.hot.accept("./x.js", (m) => {~  n = m?.b;~});~
import { b as c, a } from './x.js'~export let n = 1 + 2 * c~import.meta.hot.accept('./x.js', (m) => { n = m?.b })
import {b as c,a} from './x.js'~export let n = 1+(2*c)~import.meta.hot.accept('./x.js', m => { n = m?.b })
import { b as c, a, } from "./x.js"; export let n = (1) + 2 * (c); import.meta.hot.accept("./x.js", (m) => { n = m?.b; });
import { b as c, a } from './x.js'~export let n = 1 + 2 * c~import.meta.hot.accept('./x.js', m => n = m?.b)
import { b as c, a } from './x.js'~export let n = 1 + 2 * c~if (import.meta.hot) { import.meta.hot.accept('./x.js', (m) => { n = m?.b }) }
/* x */ import{b as c,a}from'./x.js'// y~export let n=1+2*c~import . meta . hot . accept ( './x.js' , ( m ) => { n = m ?. b } )
import{b as c,a}from'./x.js';export let n=1+2*c;import.meta.hot.accept('./x.js',m=>{n=m?.b;});
import { b as c, a } from './x.js'~export let n = ((1 + (2 * c)));~import.meta.hot~.accept(~'./x.js',~m~=>~{~n~=~m~?.~b~;~}~)
import { b as c, a } from './x.js'; export let n = 1 + 2 * c;~if (import.meta.hot) {~}~if (import.meta.hot) { import.meta.hot.accept('./x.js', m => { n = m?.b; }); }
"""
SPELT = "imports /a/x.js\nexports n\naccepts /a/x.js\n"

# The texts of `/a/b.js` of which nothing but specifiers is told: the module that each means, or the fault.
SPECIFIERS = r"""
import './c.js'|imports /a/c.js~
import '../c.js'|imports /c.js~
import '/x/./y.js'|imports /x/y.js~
import '../../c.js'|fault 0:0 specifier-climbs~
import 'react'|fault 0:0 specifier-bare~
import ''|fault 0:0 specifier-empty~
import './c.js?v1'|fault 0:0 specifier-bad-segment~
import '..'|fault 0:0 specifier-bare~
import '/x.js'; import.meta.hot.accept(['/y.js', '../../b.js']); import 'react'|fault 0:0 specifier-climbs~
import '/x.js'; import 'react'; import.meta.hot.accept('../../b.js')|fault 0:0 specifier-bare~
"""


def reports():
    """What is told of the tables' texts."""
    for fault, text in rows_of(FAULTS, "="):
        yield check(text, f"fault {fault}\n")
    for text, report in rows_of(REPORTS, "|"):
        yield check(text, report)
    spellings = [row.replace("~", "\n") for row in SPELLINGS.strip("\n").split("\n")]
    for text in spellings:
        yield check(text, spellings[0] + SPELT)
    for text, report in rows_of(SPECIFIERS, "|"):
        text = text.replace("'", '"')
        canonical = "" if report.startswith("fault") else f"{text};\n"
        yield check(text, canonical + report)
    yield check(
        "import './d.js'; let o = 0; import './c.js'; export let n = 0; export let k = 0; "
        "import.meta.hot.accept(['./d.js', './x.js']); import.meta.hot.accept('./c.js'); import.meta.hot.accept('./d.js')",
        'import "./d.js";\nlet o = 0;\nimport "./c.js";\nexport let n = 0;\nexport let k = 0;\n'
        'import.meta.hot.accept(["./d.js", "./x.js"]);\nimport.meta.hot.accept("./c.js");\nimport.meta.hot.accept("./d.js");\n'
        "imports /a/d.js /a/c.js\nexports n k\naccepts /a/d.js /a/c.js\n",
    )


def tokens():
    """What can't stand in a table: bytes that are no text, and the other ends of lines."""
    yield check(b'a = "\xff', "fault 1:6 not-utf8\n")
    yield check(" 'a\rb'", "fault 1:2 open-string\n")
    yield check("\tlet a = 1\r// x\r y\n", "let a = 1;\n")


def limits():
    """Texts at a limit, and one past it."""
    yield check(" " * 131_072, "")
    yield Run(["check", "/a/b.js"], b" " * 131_073, 8, b"limit text 131072\n")
    # `let a=1` has four tokens, and each `-1` two more.
    most = "let a=1" + "-1" * 32_766
    yield check(most + "// x", most.replace("-", " - ").replace("=", " = ") + ";\n")
    for last, word in [(";", "too-many-tokens"), ("1a", "too-many-tokens"), ("#", "bad-byte")]:
        yield check(f"{most} {last}", f"fault 1:{len(most) + 2} {word}\n")
    yield check("let a = " + "(" * 63 + "1" + ")" * 63, "let a = 1;\n")
    yield check("let a = " + "(" * 64 + "1", "fault 1:73 too-deep\n")
    yield check("let a = " + "(" * 32_000, "fault 1:73 too-deep\n")
    # The expression in 63 pairs of parentheses is at depth 64; in one pair more it is its first token that is too deep.
    yield check("export const a = " + "(" * 63 + "1" + ")" * 63 + ";", "export const a = 1;\nexports a\n")
    yield check("export const a = " + "(" * 64 + "1" + ")" * 64 + ";", "fault 1:82 too-deep\n")
    yield check("(" * 65_536, "fault 1:1 unexpected\n")
    yield check("(" * 131_072, "fault 1:65537 too-many-tokens\n")
    # The last token begins before the end, and one more doesn't.
    yield check(";" * 65_536, "fault 1:1 unexpected\n")
    yield check(";" * 65_537, "fault 1:65537 too-many-tokens\n")
    for front, operator in [("let a = 1", " - 1"), ("throw new Error(1", " + 1")]:
        text = front + operator * 16_000 + (");\n" if "(" in front else ";\n")
        yield check(text, text)
    names = [f"a_front_of_many_names_{number}" for number in range(1_500)]
    text = "".join(f"let {name} = 1;\n{name} = 2;\n" for name in names)
    yield check(text, text)
    yield check(text + "a_front_of_many_names_1500 = 1", "fault 3001:1 not-assignable\n")
    params, members = (", ".join(f"m{number}{end}" for number in range(5_000)) for end in ("", ".a"))
    yield check(
        f"import.meta.hot.accept(['./a.js'], ([{params}]) => {{ console.log({members}) }})",
        f'import.meta.hot.accept(["./a.js"], ([{params}]) => {{\n  console.log({members});\n}});\n',
    )
    for length, report in [(64, 'import.meta.hot.on("{}", () => {{\n}});\n'), (65, "fault 1:20 unexpected\n")]:
        name = "a" * length
        yield check(f"import.meta.hot.on('{name}', () => {{ }})", report.format(name))
    # 256 modules may be imported, each any number of times; a specifier that is none is told before one too many.
    twice = "".join(f'import "/m{number}.js";\n' * 2 for number in range(256))
    imported = "imports" + "".join(f" /m{number}.js" for number in range(256)) + "\n"
    yield check(twice + 'import "/m0.js";\n', twice + 'import "/m0.js";\n' + imported)
    yield check(twice + 'import "./c.js";\n', "fault 0:0 too-many-imports\n")
    yield check(twice + 'import "./c.js";\nimport "react";\n', "fault 0:0 specifier-bare\n")
    # The name of a module has at most 255 bytes.
    for length, report in [(253, True), (254, False)]:
        text = f'import "./{"a" * (length - 1)}";\n'
        name = f"/a/{'a' * (length - 1)}"
        assert (len(name) <= 255) == report
        yield check(text, text + f"imports {name}\n" if report else "fault 0:0 specifier-too-long\n")


# What specifiers mean in `/a/b.js`: a name, or the word of their fault.
MEANINGS = """
./c.js /a/c.js
../c.js /c.js
/x/./y.js /x/y.js
./. /a
./x/../y /a/y
/x/y/../../z /z
../../c.js climbs
/.. climbs
react bare
.. bare
. bare
.x/y bare
 empty
../. empty
/. empty
./c.js?v=1 bad-segment
./c/ bad-segment
./ bad-segment
/ bad-segment
/x//y bad-segment
/x?/../.. bad-segment
"""

# Texts that are no names of modules, and names.
NO_NAMES = ["/", "m.js", "/a/", "//a", "/a//b", "/.", "/a/..", "/a b", "/a?", "a/b", "", "/" + "a" * 255]
NAMES = ["/m.js", "/a/b.js", "/-_.Z09", "/...", "/.a/a.b", "/" + "a" * 254]


def names():
    """Which texts are names, and what specifiers mean."""
    for line in MEANINGS.strip("\n").split("\n"):
        spec, _, meant = line.rpartition(" ")
        text = f'import "{spec}";\n'
        told = text + f"imports {meant}\n" if meant.startswith("/") else f"fault 0:0 specifier-{meant}\n"
        yield check(text, told)
    for name in NAMES:
        yield check("", "", name)
    usage = re.compile(rb"usage: .*\n")
    for name in NO_NAMES:
        yield Run(["check", name], b"", 2, usage)


def runs():
    yield from reports()
    yield from names()
    yield from tokens()
    yield from limits()
