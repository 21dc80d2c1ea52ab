"""The tokens of a module text, or the first fault of its bytes or tokens: docs/LANGUAGE.md, *What a text is made of*."""
import re
from typing import NamedTuple

MOST_TOKENS = 65_536
LARGEST = 9_007_199_254_740_991
LARGEST_DIGITS = 16

# The words that the grammar tells from other names; those of RESERVED are never names.
RESERVED = frozenset("import export const let if else throw undefined null true false".split())
WORDS = RESERVED | frozenset(
    "console log host new Error from as meta hot data accept dispose prune decline invalidate on".split()
)
# The kinds of tokens that are no word of the grammar and no punctuation.
NAME, NUMBER, TEXT = "NAME", "NUMBER", "TEXT"

BLANK = re.compile(rb"[ \t\r\n]+")
WORD = re.compile(rb"[A-Za-z_$][A-Za-z0-9_$]*")
DIGITS = re.compile(rb"0|[1-9][0-9]*")
LINE_COMMENT = re.compile(rb"//[^\n]*")
BLOCK_COMMENT = re.compile(rb"/\*.*?\*/", re.DOTALL)
PLAIN = {quote: re.compile(rb"[^\\\r\n" + bytes([quote]) + rb"]*") for quote in b"\"'"}
PUNCTUATION = re.compile(rb"=>|\?\.|\?\?|[{}()\[\],;.=+\-*?:]")
NAME_BYTE = re.compile(rb"[A-Za-z0-9_$]")
ESCAPES = {ord("n"): b"\n", ord("t"): b"\t", ord("r"): b"\r", ord("\\"): b"\\", ord("'"): b"'", ord('"'): b'"'}


class Token(NamedTuple):
    """A token: its kind, what it says, its place, and whether it begins on a later line than the one before it ends."""

    kind: str
    value: bytes
    at: int
    is_later: bool


class Stopped(Exception):
    """The place in a text at which it stops being a module, and the word of the fault."""

    def __init__(self, at, kind):
        super().__init__(kind)
        self.at = at
        self.kind = kind


def string_from(data, quote_at):
    """What the string at a place says, and where it ends."""
    quote = data[quote_at]
    said, at = b"", quote_at + 1
    while True:
        part = PLAIN[quote].match(data, at)
        said, at = said + part[0], part.end()
        if at == len(data) or data[at] in b"\r\n":
            raise Stopped(quote_at, "open-string")
        if data[at] == quote:
            return said, at + 1
        if at + 1 == len(data) or data[at + 1] not in ESCAPES:
            raise Stopped(at, "bad-escape")
        said, at = said + ESCAPES[data[at + 1]], at + 2


def number_from(data, at):
    """The digits of a number, and where it ends."""
    digits = DIGITS.match(data, at)[0]
    if len(digits) > LARGEST_DIGITS or int(digits) > LARGEST:
        raise Stopped(at, "number-too-large")
    return digits, at + len(digits)


def piece_from(data, at):
    """The piece that begins at a place: the kind and the value of a token, None and nothing for a blank or a comment;
    and where it ends."""
    byte = data[at : at + 1]
    if found := BLANK.match(data, at) or LINE_COMMENT.match(data, at) or BLOCK_COMMENT.match(data, at):
        return None, b"", found.end()
    if found := WORD.match(data, at):
        word = found[0].decode()
        return word if word in WORDS else NAME, found[0], found.end()
    if byte.isdigit():
        digits, end = number_from(data, at)
        return NUMBER, digits, end
    if byte in (b'"', b"'"):
        said, end = string_from(data, at)
        return TEXT, said, end
    if data[at : at + 2] == b"/*":
        raise Stopped(at, "open-comment")
    if found := PUNCTUATION.match(data, at):
        return found[0].decode(), found[0], found.end()
    raise Stopped(at, "bad-byte")


def is_barred(last, byte):
    """Whether a byte may not stand directly behind a token of this kind."""
    return (last == NUMBER and NAME_BYTE.match(byte) is not None) or (last in ("+", "-") and byte == last.encode())


def tokens_of(data):
    """The tokens of the bytes of a text."""
    try:
        data.decode("utf-8")
    except UnicodeDecodeError as fault:
        raise Stopped(fault.start, "not-utf8") from fault
    found, at, last, last_end = [], 0, None, 0
    while at < len(data):
        if is_barred(last, data[at : at + 1]):
            raise Stopped(at, "bad-byte")
        kind, value, end = piece_from(data, at)
        if kind is not None:
            if len(found) == MOST_TOKENS:
                raise Stopped(at, "too-many-tokens")
            found.append(Token(kind, value, at, b"\n" in data[last_end:at]))
            last_end = end
        last, at = kind, end
    return found
