"""The messages of docs/PROTOCOL.md: which bytes are a message of a client, and how a server's answer is written."""
import json
import re

from .language import is_name

MOST = 9007199254740991
MOST_DEPTH = 127
CAUSES = ("missing", "broken", "link")
# The keys that an answer has in the second format alone.
SECOND_FORMAT = ("batch", "triggeredBy")


class NoMessage(Exception):
    """The bytes are no message."""


class Inexact:
    """A number that isn't written as a whole number: it is the value of no key."""


def whole(digits):
    return Inexact() if digits == "-0" else int(digits)


def refuse(_):
    raise NoMessage("no JSON")


def depth_of(text):
    """How deep objects and lists are nested in a text of JSON."""
    deepest = depth = 0
    for token in re.findall(r'"(?:[^"\\]|\\.)*"|[\[\]{}]', text):
        depth += token in "[{"
        depth -= token in "]}"
        deepest = max(deepest, depth)
    return deepest


def has_surrogate(value):
    """Whether a string of a value has half of a pair of surrogates, which is no character."""
    if isinstance(value, str):
        return any("\ud800" <= char <= "\udfff" for char in value)
    if isinstance(value, list):
        return any(has_surrogate(item) for item in value)
    if isinstance(value, dict):
        return any(has_surrogate(item) for pair in value.items() for item in pair)
    return False


def read_json(data):
    """The value that the bytes are as JSON, where the last of equal keys counts."""
    try:
        text = data.decode("utf-8")
        if text.startswith("\ufeff"):
            raise NoMessage("no JSON")
        value = json.loads(text, parse_int=whole, parse_float=lambda _: Inexact(), parse_constant=refuse)
    except (ValueError, RecursionError) as fault:
        raise NoMessage("no JSON") from fault
    if depth_of(text) > MOST_DEPTH or has_surrogate(value):
        raise NoMessage("no JSON")
    return value


def is_number(value, least, most):
    return isinstance(value, int) and not isinstance(value, bool) and least <= value <= most


def is_roots(value):
    return isinstance(value, list) and len(value) > 0 and all(is_name(name) for name in value)


def is_table(value):
    if not isinstance(value, list):
        return False
    if not all(isinstance(row, list) and len(row) == 2 and is_name(row[0]) and is_number(row[1], 1, MOST) for row in value):
        return False
    return all(row[0] < after[0] for row, after in zip(value, value[1:]))


def is_text(value):
    return isinstance(value, str)


# The keys of each message of a client beside `type`, with what their values have to be.
KEYS = {
    "hello": {"format": lambda value: is_number(value, 1, 2), "roots": is_roots},
    "ask": {},
    "fetch": {"path": is_name},
    "applied": {"table": is_table},
    "aborted": {"cause": lambda value: value in CAUSES, "path": is_name, "from": None, "name": None},
    "invalidate": {"path": is_name, "version": lambda value: is_number(value, 1, MOST), "message": is_text},
    "bye": {},
}
MAY_LACK = {"hello": {"roots"}}


def fits(message, key, test):
    """Whether the value of a key is as the table has it; those of an aborted link hang on its cause."""
    value = message[key]
    if test:
        return isinstance(value, (str, list, int)) and test(value)
    if message["cause"] != "link":
        return value is None
    return is_name(value) if key == "from" else is_text(value)


def decode(data):
    """The message of a client that the bytes are, as a dictionary."""
    message = read_json(data)
    kind = message.get("type") if isinstance(message, dict) else None
    if not isinstance(kind, str) or kind not in KEYS:
        raise NoMessage("no type")
    for key, test in KEYS[kind].items():
        if key not in message:
            if key in MAY_LACK.get(kind, ()):
                continue
            raise NoMessage(key)
        if not fits(message, key, test):
            raise NoMessage(key)
    if set(message) - {"type", *KEYS[kind]}:
        raise NoMessage("a further key")
    return message


def encode(answer, format=2):
    """The bytes of an answer in a format: compact, with the keys in the order of their bytes."""
    told = {key: value for key, value in answer.items() if format == 2 or key not in SECOND_FORMAT}
    return json.dumps(told, sort_keys=True, separators=(",", ":"), ensure_ascii=False).encode()
