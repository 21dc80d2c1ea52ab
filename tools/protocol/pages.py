"""Random modules: a few names that import each other, with the lines that protocol/language.py reads."""
from .language import FAULTS

ROOT = "/m.js"
NAMES = [ROOT, "/a.js", "/b.js", "/c.js", "/sub/d.js", "/sub/e.js"]
# Names that are imported and aren't there at first.
ABSENT = ["/gone.js", "/sub/gone.js"]
BAD_SPECIFIERS = ["react", "../../up.js", "./c.js?v=1", "/", "./" + "s" * 255]


def specifier(rng, base, name):
    """One of the texts by which a module imports another."""
    forms = [name]
    if base.count("/") == 1:
        forms.append("." + name)
    elif name.startswith("/sub/"):
        forms.append("./" + name.removeprefix("/sub/"))
    else:
        forms.append(".." + name)
    return rng.choice(forms)


def imported(rng, base, name, turn):
    spec = specifier(rng, base, name)
    if rng.random() < 0.4:
        return f'import "{spec}";'
    names = [f"v as v{turn}"] + [f"w as w{turn}"] * (rng.random() < 0.2)
    return f'import {{ {", ".join(names)} }} from "{spec}";'


def text_of(rng, base):
    """A random text of the module `base`."""
    lines = []
    if rng.random() < 0.3:
        lines.append(f'// "quoted" \\ \t caf\u00e9 \u2028 \U0001f600 {rng.randrange(1000)}')
    others = rng.sample(NAMES + ABSENT * (rng.random() < 0.06), rng.choice([1, 2, 2, 3] if base == ROOT else [0, 0, 1, 2]))
    lines += [imported(rng, base, name, turn) for turn, name in enumerate(others)]
    if rng.random() < 0.9:
        lines.append(f"export const v = {rng.randrange(1000)};")
    if rng.random() < 0.15:
        lines.append("export const w = 1;")
    if rng.random() < (0.7 if base == ROOT else 0.4):
        lines.append("import.meta.hot.accept();")
    for name in others:
        if rng.random() < 0.5:
            lines.append(f'import.meta.hot.accept("{specifier(rng, base, name)}");')
    if rng.random() < 0.1:
        listed = ", ".join(f'"{specifier(rng, base, name)}"' for name in rng.sample(NAMES, 2))
        lines.append(f"import.meta.hot.accept([{listed}]);")
    if rng.random() < 0.06:
        lines.append("import.meta.hot.decline();")
    if rng.random() < 0.05:
        lines.append(rng.choice(list(FAULTS)))
    if rng.random() < 0.02:
        lines.append(f'import "{rng.choice(BAD_SPECIFIERS)}";')
    return "\n".join(lines) + "\n" * (rng.random() < 0.9)
