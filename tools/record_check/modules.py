"""What transforming a module text gives: docs/LANGUAGE.md, *Analysis* and *The fault of a text that is no module*."""
import functools

from protocol.language import MOST_IMPORTS, Analysis, Fault, firsts, resolve

from .grammar import Reader
from .tokens import Stopped

# A text of a record is any bytes; where it isn't UTF-8, its bytes stand for themselves.
ANY_BYTES = "surrogateescape"


def place_of(data, at):
    """The line and the column of a place, from 1."""
    before = data[:at]
    return before.count(b"\n") + 1, at - (before.rfind(b"\n") + 1) + 1


def meant_by(base, specifier):
    return resolve(base, specifier.decode("utf-8"))


def analysis_of(base, module):
    """The analysis of a module that was read, or the fault of a specifier or of too many imports."""
    meant = [(*meant_by(base, specifier), imports) for specifier, imports in module.specifiers]
    refused = next((fault for _, fault, _ in meant if fault), None)
    imports = firsts(name for name, _, is_import in meant if is_import)
    if refused or len(imports) > MOST_IMPORTS:
        return Fault(0, 0, refused or "too-many-imports")
    accepted = [name for name in firsts(name for name, _, is_import in meant if not is_import) if name in imports]
    links = [(meant_by(base, specifier)[0], name) for specifier, name in module.links]
    return Analysis(imports, module.exports, module.self_accepts, accepted, module.declined, links)


@functools.lru_cache(maxsize=4096)
def analyse(base, text):
    """The analysis of the module `base` with this text, or its first fault."""
    data = text.encode("utf-8", ANY_BYTES)
    try:
        return analysis_of(base, Reader(data).module())
    except Stopped as stopped:
        return Fault(*place_of(data, stopped.at), stopped.kind)
