"""How changes and invalidations spread over the modules of a page, what is pruned, and what a client is told.

A module is written as its name's letter, what it imports, what it accepts by name, and `s` where it accepts itself or
`d` where it declines, with colons between; the root is `m`. So in `m:a:a a:b::s b:a` the module `m` imports and accepts
`a`, `a` imports `b` and accepts itself, and `b` imports `a`.
"""
from rows import edit, ending, play, rows_of

# A page, the modules that are saved, and what a client is told: a reload with its cause and the path, or the replaced
# modules and, with a bar between, each boundary with what it accepts.
CHANGES = """
m:a a:b b,b=root bam
m:ab a:c:c b:c c,c=root cbm
m:a:a a:bx b:a::s x,x=abx|bbma
m:a:a a:d d:e::d e,e=declined ed
m:a:a a:d d:e::d e,a=a|ma
m:ab:a a b,b=root bm
m:ab:a a b,a=a|ma
m:a a:b b:m,a=root am
m:a::s a:m,a=am|mm
m:ab a b,ba=root am
m:a:a a:a:a:s,a=a|aama
"""

# A page, and what a client is told where `a`, which accepts itself, is invalidated after an update of `a`: it goes on to
# those that import `a`, and `a` is replaced only where a path comes back to it.
INVALIDATIONS = """
m:a a:::s=root am
m:a:a a:b::s b:a=ab|aama
m:a:a a:a:a:s=|aama
m:a:a a:::s=|ma
m:a::s a:::s=m|mm
"""

# Steps between which the client takes its turns, and the modules of its page behind them. A step saves modules in new
# forms. What no path of imports from the root reaches is pruned, a cycle too.
STEPS = """
m:a::s a:b b; m:::s=m
m:ab::s a:b b:a; m:b::s=abm
m:ab::s a:b b:a; m:::s=m
m:a::s a:b b:a; a:a=am
m:abc::s a:c:c b:c c; a b=abcm
m:a::s a:b:b b c; a:c:c=acm
m:a::s a:bc b:c c; m:::s a; m:a::s a=am
m:ab::s a:c b:c c; m:a::s; m:::s; m:b::s=bcm
"""


def name_of(letter):
    return f"/{letter}.js"


def text_of(form, lines):
    """The letter of a module, and a text of this form with these lines behind it."""
    letter, imports, accepted, flags = (form.split(":") + [""] * 3)[:4]
    text = [f'import "{name_of(it)}";' for it in imports]
    text += [f'import.meta.hot.accept("{name_of(it)}");' for it in accepted]
    text += {"s": ["import.meta.hot.accept();"], "d": ["import.meta.hot.decline();"]}.get(flags, [])
    return letter, "\n".join(text + lines)


def saved(forms, version):
    """The lines of a script that save modules of these forms, each in a text of its own for the version."""
    edits = (text_of(form, [f"export const version = {version};"]) for form in forms)
    return "".join(edit(name_of(letter), text) for letter, text in edits) + "settle\nturns 1 99\n"


def opened(page):
    """The lines of a script up to where a client has loaded a page."""
    return "root /m.js\nquiet\nopen\n" + saved(page.split(" "), 1)


def names(letters):
    return "".join(f" {name_of(letter)}" for letter in letters)


def spread(want):
    """The lines of an update or a reload."""
    if want.startswith(("root", "declined")):
        cause, path = want.split(" ")
        return f"1 reload {cause}{names(path)}\n1 reloaded\n"
    replaced, pairs = want.split("|")
    told = f"1 update{names(replaced)}\n"
    told += "".join(f"1 accept{names(pairs[at:at + 2])}\n" for at in range(0, len(pairs), 2))
    return told + "1 updated\n"


def change(page, changed):
    """The script that loads a page, and saves modules of it."""
    forms = {form[0]: form for form in page.split(" ")}
    return opened(page) + saved([forms[letter] for letter in changed], 2)


def invalidation(page, want):
    """The update of `a`, whose old instance invalidates it, and what that brings."""
    forms = {form[0]: form for form in page.split(" ")}
    calls = ["import.meta.hot.accept(() => { import.meta.hot.invalidate() });"]
    texts = [text_of(form, calls if letter == "a" else []) for letter, form in forms.items()]
    script = "root /m.js\nquiet\n" + "".join(edit(name_of(letter), text) for letter, text in texts)
    script += "settle\nopen\nturns 1 99\n" + saved([forms["a"]], 2)
    accepts = forms["m"].split(":")[2:3] == ["a"]
    first = "1 update /a.js\n1 accept /a.js /a.js\n" + ("1 accept /m.js /a.js\n" if accepts else "") + "1 updated\n"
    return play(script, "1 loaded\n" + first + "1 invalidated /a.js\n" + spread(want))


def steps(row, want):
    """Saves, and the modules of the page behind them, each with the version of its last text."""
    page, *later = row.split("; ")
    script = opened(page) + "".join(saved(forms.split(" "), at + 2) for at, forms in enumerate(later)) + "show 1\n"
    versions = {form[0]: at + 1 for at, form in enumerate(row.replace(";", "").split(" "))}
    table = "".join(f"{name_of(letter)} {versions[letter]}\n" for letter in want)
    return ending(play(script, f"client 1 up\n{table}"))


def both():
    """A module is saved before its client tells that it invalidated its importer: one reload is for both."""
    text = "import \"/a.js\";\nimport.meta.hot.accept(() => { import.meta.hot.invalidate('old') });"
    script = "root /m.js\nquiet\n" + edit("/m.js", text) + edit("/a.js", "") + "settle\nopen\nturns 1 99\n"
    script += edit("/m.js", 'import "/a.js"; import.meta.hot.accept();') + "settle\nturns 1 4\n"
    script += edit("/a.js", "let a = 1") + "settle\nturns 1 99\n"
    told = "1 loaded\n1 update /m.js\n1 accept /m.js /m.js\n1 updated\n1 invalidated /m.js old\n"
    yield play(script, told + "1 reload root /m.js\n1 reloaded\n")


def two():
    """Two modules invalidate themselves in one update: both are sent, in that order, before the client asks again."""
    gives_up = ["import.meta.hot.accept(() => { import.meta.hot.invalidate() });"]
    texts = [text_of("m:ab:ab", []), text_of("a", gives_up), text_of("b", gives_up)]
    script = "root /m.js\nquiet\n" + "".join(edit(name_of(letter), text) for letter, text in texts)
    script += "settle\nopen\nturns 1 99\n" + saved(["a:::s", "b:::s"], 2)
    told = "1 loaded\n" + spread("ab|aabbmamb") + "1 invalidated /a.js\n1 invalidated /b.js\n" + spread("|mamb")
    yield play(script, told)


def errors():
    """Of two faults of one module a client is told the last, and of those of several each, the first to come first."""
    script = opened("m")
    told = "1 loaded\n"
    for version, (name, text, fault) in enumerate(
        [("/b.js", "let b = ;", "1:9"), ("/a.js", "let = 1", "1:5"), ("/b.js", "\nlet b", "3:1")], start=2
    ):
        script += edit(name, text) + "settle\n"
        told += f"settle {name} {version} refused {fault} unexpected\n"
    told += "1 error /a.js 1:5 unexpected\n1 error /b.js 3:1 unexpected\n"
    yield play(script + "turns 1 9\nturns 1 9\n", told)


def runs():
    for row, want in rows_of(CHANGES, "="):
        page, changed = row.split(",")
        yield play(change(page, changed), "1 loaded\n" + spread(want))
    for page, want in rows_of(INVALIDATIONS, "="):
        yield invalidation(page, want)
    for row, want in rows_of(STEPS, "="):
        yield steps(row, want)
    yield from both()
    yield from two()
    yield from errors()
