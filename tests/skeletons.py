"""What the skeletons of files are: `tests/run SCAN_PROGRAM skeletons`.

Each case was worked out by hand: by what browsers read of a specifier as a URL, by what `import.meta.hot` means, and by
the rules of names in docs/JAVASCRIPT.md. A case of TAKEN has a text and what its skeleton says behind the stamp, as the
file `/app/main.js`: modules that are imported, then `| self`, `| accept ..` and `| decline`, each in the order of a
skeleton. A case of OTHERS has the path of a page, a stylesheet or data with its text and what its skeleton says, and
one of REFUSED a text and its whole skeleton. A case of NAMES has the path of a file, and what `import "./a b.js"` of
it imports.
"""
from rows import Run, encoded

TAKEN = [
    # where specifiers lead
    ("import './a.js'", "/app/a.js"),
    ("import a from '../lib/a.js'; export * from '/b.js'", "/lib/a.js /b.js"),
    ("import './x/../a.js'; import './././b.js'", "/app/a.js /app/b.js"),
    ("import '../../../a.js'", "/a.js"),
    ("import './a.js'; import \"./a.js\"; export { b } from '/app/a.js'", "/app/a.js"),
    ("import React from 'react'; import 'https://a.b/c.js'; import '//a.b/c.js'; import 'data:text/javascript,1'", ""),
    ("import './a.js?raw'; import './b.js#x'; import './c.js'", "/app/c.js"),
    ("import './'; import '..'; import './lib/'; import './lib/.'; import './lib/..'", ""),
    ("import './a//b.js'; import './a//../b.js'", "/app/a/b.js"),
    ("import './a%20b.js'; import './a b.js'; import './%61.js'", "/app/a.-20b.js /app/a.js"),
    ("import '/lib/@scope/x.js'; import './\u00e9.js'; import './.-x.js'", "/lib/.-40scope/x.js /app/.-C3.-A9.js /app/.-2E-x.js"),
    ("import './%2e%2e/a.js'; import './a%2Fb.js'", "/a.js /app/a/b.js"),
    ("import '.\\\\a.js'; import './b.js '", ""),
    # which of them are imported
    ("const a = () => import('./a.js'); import './b.js'; import(c)", "/app/b.js /app/a.js"),
    ("import data from './data.json' with { type: 'json' }", "/app/data.json"),
    ("// import './a.js'\n`import './b.js'`; /import '.c.js'/", ""),
    # accepts and declines
    ("import.meta.hot.accept()", "| self"),
    ("import.meta.hot?.accept((m) => {})", "| self"),
    ("import './a.js'; import './b.js'; import.meta.hot.accept(['./b.js', './a.js'], f)", "/app/a.js /app/b.js | accept /app/a.js /app/b.js"),
    ("import './a.js'; import.meta.hot.accept('./a.js', f); import.meta.hot.accept('./b.js', f)", "/app/a.js | accept /app/a.js"),
    ("import './a.js'; import.meta.hot.accept('/app/a.js')", "/app/a.js | accept /app/a.js"),
    ("import './a.js'; import.meta.hot.accept(deps, f)", "/app/a.js"),
    ("import.meta.hot.decline()", "| decline"),
    ("import './a.js'; import.meta.hot.accept('./a.js'); import.meta.hot.accept(); import.meta.hot.decline()", "/app/a.js | self | accept /app/a.js | decline"),
    ("export const a = 1; export default function f() {}", ""),
]

# the path of a file that isn't JavaScript, its text, and what its skeleton says
OTHERS = [
    ("/index.html", "<script type=module src=main.js></script>", "/main.js"),
    ("/a/b.html", "<link rel=stylesheet href='../c.css'><script type=module src=./d.js></script>", "/c.css /a/d.js | accept /c.css"),
    ("/index.html", "<script src=old.js></script><script type=module>import './a.js'; import('b'); import(\"/b.js\")</script>", "/old.js /a.js /b.js"),
    ("/index.html", "<script type=module>import './a.js'; import.meta.hot.accept('./a.js', f)</script>", "/a.js | accept /a.js"),
    ("/index.html", "<script type=importmap>{\"imports\": {\"x\": \"./vendor/x.js\", \"y/\": \"/y/\", \"z\": \"https://a.b/z.js\"}}</script>", "/vendor/x.js"),
    ("/index.html", "<script type=importmap>{\"imports\": [}</script><script type=module src=a.js></script>", "/a.js"),
    ("/index.html", "<!-- <script src=a.js></script> --><script type=text/plain src=b.js></script><script src='https://a.b/c.js'></script>", ""),
    ("/index.html", "<script type=module>import 'x</script><link rel=stylesheet href=' a.css '>", "/a.css | accept /a.css"),
    ("/index.html", "<link rel=stylesheet href=a.css><link rel=stylesheet href=/a.css><link rel=icon href=i.png>", "/a.css | accept /a.css"),
    ("/css/a.css", "@import 'b.css'; @import url(../c.css) print; @import \"https://a.b/d.css\"; p { } @import 'e.css';", "/css/b.css /c.css"),
    ("/a.css", "/* @import 'b.css'; */ @import '\\62.css'; @import url(\"c.css?x\");", ""),
    ("/data.json", "{\"a\": 1}", ""),
]

REFUSED = [
    ("'abc", '"1'),
    ("a\n  `abc", "\n  `1"),
    ("\n\nx = /ab", "\n\n    `1"),
    ("x\n/* y", "\n/*1"),
    ("f(\n", " )//1"),
    ("a\n}", "\n)//1"),
    (" " * 70000 + "}", " " * 64999 + ")//1"),
]

NAMES = [
    ("/a.js", "/a.-20b.js"),
    ("/lib/@scope/my file.js", "/lib/.-40scope/a.-20b.js"),
    ("/\u00fc/x", "/.-C3.-BC/a.-20b.js"),
]


def skeleton(said):
    """The text of a skeleton that says this."""
    modules, *calls = [part.split() for part in said.split("|")]
    lines = ["const $$stamp = 1;"] + [f'import "{name}";' for name in modules]
    for word, *names in calls:
        listed = ", ".join(f'"{name}"' for name in names)
        lines.append({"self": "import.meta.hot.accept();", "decline": "import.meta.hot.decline();"}.get(word, f"import.meta.hot.accept([{listed}]);"))
    return "".join(line + "\n" for line in lines)


def runs():
    for text, said in TAKEN:
        yield Run(["--skeleton=/app/main.js"], encoded(text), 0, encoded(skeleton(said)))
    for text, made in REFUSED:
        yield Run(["--skeleton=/app/main.js"], encoded(text), 0, encoded(made))
    for path, text, said in OTHERS:
        yield Run([f"--skeleton={path}"], encoded(text), 0, encoded(skeleton(said)))
    for path, name in NAMES:
        yield Run([f"--skeleton={path}"], b"import './a b.js'", 0, encoded(skeleton(name)))
    yield Run(["--skeleton=a.js"], b"", 0, b"no file of a folder has this path\n")
