"""What a scan tells of stylesheets: `tests/run SCAN_PROGRAM stylesheets`.

Each case was worked out by hand from CSS Syntax and CSS Cascade. A case of FOUND has a text and the addresses that it
imports, as they are written, with ` / ` between them, or None. A case of PLACES has a text and all of its lines.
"""
import re

from rows import Run, encoded

FOUND = [
    # forms of an address
    ("@import 'a.css';", "a.css"),
    ("@import \"a.css\";", "a.css"),
    ("@import url(a.css);", "a.css"),
    ("@import url('a.css');", "a.css"),
    ("@import url( \"a.css\" );", "a.css"),
    ("@import url(\n a.css\t);", "a.css"),
    ("@import url();", ""),
    ("@import '';", ""),
    ("@import'a.css'", "a.css"),
    ("@import'a.css'screen;@import url(b.css)screen;", "a.css / b.css"),
    ("@IMPORT 'a.css'; @Import URL(b.css);", "a.css / b.css"),
    ("@import /* x */ 'a.css' /* ; */ ; @import/**/url(b.css);", "a.css / b.css"),
    ("@import 'a.css' layer(x) supports(display: grid) screen and (min-width: 1px);", "a.css"),
    ("@import 'a.css' layer;\n@import 'b.css';", "a.css / b.css"),
    ("@import 'a.css'", "a.css"),
    ("@import 'a.css", "a.css"),
    ("@import url(a.css", "a.css"),
    ("@import url('a.css'", "a.css"),
    ("@import url('a.css", "a.css"),
    ("@import 'a;b.css'; @import url(c;d.css);", "a;b.css / c;d.css"),
    ("@import 'a\"b'; @import \"c'd\";", "a\"b / c'd"),
    ("@import url(data:text/css,a{}b);@import 'c';", "data:text/css,a{}b / c"),
    ("@import url('a.css' b(c));", "a.css"),
    ("@import \u00e9.css; @import '\u00e9.css';", "\u00e9.css"),
    # what is no address
    ("@import a.css; @import 'b.css';", "b.css"),
    ("@import; @import 'b.css';", "b.css"),
    ("@import url(a b.css); @import 'c.css';", "c.css"),
    ("@import url(a'b.css); @import 'c.css';", "c.css"),
    ("@import url(a(b.css); @import 'c.css';", "c.css"),
    ("@import url(a b;c); @import 'd.css';", "d.css"),
    ("@import url(/**/'a.css'); @import 'b.css';", "b.css"),
    ("@import url (a.css); @import 'b.css';", "b.css"),
    ("@import urls(a.css); @import 'b.css';", "b.css"),
    ("@import (url(a.css)); @import 'b.css';", "b.css"),
    ("@import 'a\n.css'; @import 'b.css';", None),
    ("@import 'a\n; @import 'b.css';", "b.css"),
    ("@import 'a.css' {}; @import 'b.css';", None),
    ("@import 'a.css' {} @import 'b.css';", "b.css"),
    ("@import 'a.css' { ; } @import 'b.css';", "b.css"),
    ("@imports 'a.css'; @-import 'b.css'; @import2 'c.css'; @import 'd.css';", "d.css"),
    ("@ import 'a.css';", None),
    ("import 'a.css';", None),
    # escapes
    ("@import 'a\\'b.css';", "a\\'b.css, with escapes"),
    ("@import 'a\\\\'; @import 'b.css';", "a\\\\, with escapes / b.css"),
    ("@import 'a\\\nb';", "a\\\nb, with escapes"),
    ("@import 'a\\\r\nb';", "a\\\r\nb, with escapes"),
    ("@import 'a\\41\nb';", "a\\41\nb, with escapes"),
    ("@import 'a\\0000411\nb'; @import 'c.css';", None),
    ("@import 'a\\0000411\n; @import 'c.css';", "c.css"),
    ("@import 'a\\000041\r\nb';", "a\\000041\r\nb, with escapes"),
    ("@import url(a\\)b.css);", "a\\)b.css, with escapes"),
    ("@import url(a\\ b.css);", "a\\ b.css, with escapes"),
    ("@import url(a\\28 b.css);", "a\\28 b.css, with escapes"),
    ("@import url(a\\\nb); @import 'c.css';", "c.css"),
    ("@import url(a b\\); @import 'c.css';); @import 'd.css';", "d.css"),
    ("@\\69mport 'a.css'; @im\\50 ort 'b.css'; @\\49 mport 'c.css';", "a.css / b.css / c.css"),
    ("@\\69 mport u\\72l(a.css); @import \\55RL('b.css');", "a.css / b.css"),
    ("@\\i\\mport 'a.css';", "a.css"),
    ("@import 'a\\", "a\\, with escapes"),
    # what may stand before
    ("/* @import 'a.css'; */ @import 'b.css';", "b.css"),
    ("/* @import 'a.css';", None),
    ("/*/ @import 'a.css'; */", None),
    ("/**/@import 'a.css';/***/@import 'b.css';/*\\*/@import 'c.css';", "a.css / b.css / c.css"),
    ("// @import 'a.css';\n@import 'b.css';", None),
    ("@charset \"utf-8\"; @import 'a.css';", "a.css"),
    ("@charset '@import \"a.css\";'; @import 'b.css';", "b.css"),
    ("@layer a, b; @import 'c.css'; @import 'd.css';", "c.css / d.css"),
    ("@layer a; @layer b; @import 'c.css';", "c.css"),
    ("@import 'a.css'; @layer b; @import 'c.css';", "a.css"),
    ("@layer a {} @import 'b.css';", None),
    ("@LAYER a { @import 'b.css'; }", None),
    ("@namespace url(a); @import 'b.css';", None),
    ("@namespace {} @import 'b.css';", "b.css"),
    ("a {} @import 'b.css';", None),
    ("@import 'a.css'; b {} @import 'c.css';", "a.css"),
    ("@media print { @import 'a.css'; } @import 'b.css';", None),
    ("@media print; @import 'a.css';", "a.css"),
    ("@font-face {} @import 'a.css';", None),
    ("@-webkit-keyframes a {} @import 'b.css';", None),
    ("@unknown a { @import 'b.css'; } @import 'c.css';", "c.css"),
    ("@unknown 'a;b' [;] (;) {;} @import 'c.css';", "c.css"),
    ("@unknown ({) } ; @import 'a.css';); @import 'b.css';", "b.css"),
    ("@unknown ({)});} @import 'a.css'; @import 'b.css';", None),
    ("@unknown { ( } ) } @import 'a.css';", "a.css"),
    ("@unknown { url(}) } @import 'a.css';", "a.css"),
    ("@unknown { #url(}) @import 'a.css';", None),
    ("@unknown { '}' \"}\" /*}*/ \\} } @import 'a.css';", "a.css"),
    ("@unknown { 'a\n } @import 'b.css';", "b.css"),
    ("@unknown url('a;b') url(c;d) u\\72 l(e;f); @import 'g.css';", "g.css"),
    ("@unknown 1url(;) 2url('); @import 'a.css';", None),
    ("@unknown { <!--url(}) --> } @import 'a.css';", "a.css"),
    ("@unknown } ; @import 'a.css';", "a.css"),
    ("} @import 'a.css';", None),
    ("; @import 'a.css';", None),
    ("<!-- @import 'a.css'; --> @import 'b.css'; <!---->@import 'c.css';", "a.css / b.css / c.css"),
    ("<! @import 'a.css';", None),
    ("'a' @import 'b.css';", None),
    ("\ufeff@import 'a.css';", "a.css"),
    (" \ufeff@import 'a.css';", None),
    ("\r\n\f\t@import\r\n'a.css'\f;\r\n", "a.css"),
    (b"\xff @import 'a.css';", None),
    (b"@import 'a\xff.css';", b"a\xff.css"),
    (b"@\xff; @import 'a.css';", b"a.css"),
    ("", None),
    ("@", None),
    ("@import", None),
    ("@import ", None),
    ("@import url(", ""),
    ("@import u", None),
    ("\\", None),
    ("/", None),
    ("@a{", None),
]

PLACES = [
    ("@import 'a.css';\n\n /* */ @import url(b.css) screen;\n", ["1:1 import a.css", "3:8 import b.css"]),
    ("\ufeff@import '\u00e9';@import 'b'", ["1:4 import \u00e9", "1:17 import b"]),
]


def pattern(told):
    """The pattern of an output that has these lines, without their places."""
    lines = [] if told is None else encoded(told).split(b" / ")
    return re.compile(b"".join(rb"\d+:\d+ import " + re.escape(line) + b"\n" for line in lines))


def runs():
    for text, told in FOUND:
        yield Run(["--style"], encoded(text), 0, pattern(told))
    for text, told in PLACES:
        yield Run(["--style"], encoded(text), 0, encoded("".join(line + "\n" for line in told)))
