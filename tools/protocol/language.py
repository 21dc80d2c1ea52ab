"""What a module text imports, exports and accepts, for the texts that are made of the lines below; and the first fault
of a text that has one of the faulty lines. docs/LANGUAGE.md has the language; this reads a part of it.

    // any comment
    export const NAME = INTEGER;
    import "SPECIFIER";
    import { NAME as NAME, .. } from "SPECIFIER";
    import.meta.hot.accept();
    import.meta.hot.accept("SPECIFIER");
    import.meta.hot.accept(["SPECIFIER", ..]);
    import.meta.hot.decline();
"""
import re
from typing import NamedTuple

MOST_NAME = 255
MOST_IMPORTS = 256
NAME = r"[A-Za-z_$][A-Za-z0-9_$]*"
EXPORT = re.compile(rf"export const ({NAME}) = (0|[1-9][0-9]*);")
BARE_IMPORT = re.compile(r'import "([^"\\]*)";')
IMPORT = re.compile(rf'import \{{ ({NAME} as {NAME}(?:, {NAME} as {NAME})*) \}} from "([^"\\]*)";')
ACCEPT_OWN = "import.meta.hot.accept();"
ACCEPT = re.compile(r'import\.meta\.hot\.accept\("([^"\\]*)"\);')
ACCEPT_LIST = re.compile(r'import\.meta\.hot\.accept\(\[("[^"\\]*"(?:, "[^"\\]*")*)\]\);')
DECLINE = "import.meta.hot.decline();"

# Lines at which a text stops being a module: the fault's word, and its column.
FAULTS = {
    "export const v = ;": ("unexpected", 18),
    "export const v = 1.5;": ("unexpected", 19),
    "let n = 1 & 2;": ("bad-byte", 11),
    "let n = 01;": ("bad-byte", 10),
    'import "./open.js': ("open-string", 8),
    'import "./\\q.js";': ("bad-escape", 11),
    "const n = 9007199254740992;": ("number-too-large", 11),
    "/* and no end": ("open-comment", 1),
}
# A fault of a token is told before one of the grammar, wherever the two stand.
GRAMMAR = "unexpected"


class Analysis(NamedTuple):
    """What the server learns of a module, and which names it imports from which dependency."""

    imports: list
    exports: list
    self_accepts: bool
    accepted: list
    declined: bool
    links: list


class Fault(NamedTuple):
    """The first fault of a text."""

    line: int
    column: int
    kind: str


def is_segment(part):
    return re.fullmatch(r"[A-Za-z0-9_.-]+", part) is not None and part not in (".", "..")


def is_name(name):
    """Whether a text is the name of a module."""
    if not isinstance(name, str) or not name.startswith("/") or len(name.encode()) > MOST_NAME:
        return False
    return all(map(is_segment, name[1:].split("/")))


def resolve(base, specifier):
    """The module that a specifier means in the module `base`, or the word of the fault where it means none."""
    if specifier == "":
        return None, "specifier-empty"
    if specifier.startswith("/"):
        parts = []
    elif specifier.startswith(("./", "../")):
        parts = base[1:].split("/")[:-1]
    else:
        return None, "specifier-bare"
    for part in specifier.removeprefix("/").split("/"):
        if part == "..":
            if not parts:
                return None, "specifier-climbs"
            parts.pop()
        elif part != "." and not is_segment(part):
            return None, "specifier-bad-segment"
        elif part != ".":
            parts.append(part)
    name = "/" + "/".join(parts)
    if not parts:
        return None, "specifier-empty"
    return (None, "specifier-too-long") if len(name) > MOST_NAME else (name, None)


def firsts(items):
    """Each item once, where it comes first."""
    return list(dict.fromkeys(items))


class Reading:
    """What the lines of a text say so far."""

    def __init__(self, base):
        self.base = base
        self.specifiers = []
        self.imports = []
        self.accepted = []
        self.exports = []
        self.links = []
        self.self_accepts = self.declined = False

    def meant(self, specifier):
        name, fault = resolve(self.base, specifier)
        self.specifiers.append(fault)
        return name

    def read_line(self, line):
        """Takes a line; an unknown one isn't of the part of the language that is read here."""
        if line == "" or line.startswith("//"):
            return
        if line == ACCEPT_OWN:
            self.self_accepts = True
        elif line == DECLINE:
            self.declined = True
        elif found := EXPORT.fullmatch(line):
            self.exports.append(found[1])
        elif found := BARE_IMPORT.fullmatch(line):
            self.imports.append(self.meant(found[1]))
        elif found := IMPORT.fullmatch(line):
            name = self.meant(found[2])
            self.imports.append(name)
            self.links += [(name, pair.split(" as ")[0]) for pair in found[1].split(", ")]
        elif found := ACCEPT.fullmatch(line):
            self.accepted.append(self.meant(found[1]))
        elif found := ACCEPT_LIST.fullmatch(line):
            self.accepted += [self.meant(piece.strip('"')) for piece in found[1].split(", ")]
        else:
            raise ValueError(f"a line that isn't read here: {line}")


def first_fault(lines):
    """The first fault of the lines, where one of them is faulty: a token's before the grammar's."""
    found = [Fault(number, FAULTS[line][1], FAULTS[line][0]) for number, line in enumerate(lines, 1) if line in FAULTS]
    return min(found, key=lambda fault: (fault.kind == GRAMMAR, fault.line), default=None)


def analyse(base, text):
    """The analysis of the module `base` with this text, or its first fault."""
    lines = text.split("\n")
    if fault := first_fault(lines):
        return fault
    reading = Reading(base)
    for line in lines:
        reading.read_line(line)
    refused = next((fault for fault in reading.specifiers if fault), None)
    imports = firsts(reading.imports)
    if refused or len(imports) > MOST_IMPORTS:
        return Fault(0, 0, refused or "too-many-imports")
    accepted = [name for name in firsts(reading.accepted) if name in imports]
    return Analysis(imports, reading.exports, reading.self_accepts, accepted, reading.declined, reading.links)
