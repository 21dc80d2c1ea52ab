"""Which bytes have the form of a reply: docs/RECORDS.md, *Replies*, and the messages of a server in docs/PROTOCOL.md."""
import re

from protocol.language import is_name
from protocol.messages import MOST, NoMessage, encode, is_number, is_text, read_json

MOST_CLIENT = 4_294_967_295
MOST_COUNT = 18_446_744_073_709_551_615
MOST_MESSAGE_TEXT = 4_294_967_294
NUMBER = re.compile(rb"0|[1-9][0-9]{0,19}")
LONE_WORDS = frozenset(
    b"same served late gone text-too-long too-many-names source-total numbers-spent".split()
)
FAULT_WORDS = frozenset(
    "bad-byte open-string open-comment bad-escape number-too-large too-many-tokens unexpected too-deep duplicate-name "
    "not-utf8 not-assignable specifier-bare specifier-climbs specifier-empty specifier-too-long specifier-bad-segment "
    "too-many-imports".split()
)


def count_of(word, most):
    """The number that a word of bytes is, from 0 on, or None."""
    found = NUMBER.fullmatch(word)
    return int(word) if found and int(word) <= most else None


def is_names(value):
    return isinstance(value, list) and all(map(is_name, value))


def is_path(value):
    return is_names(value) and len(value) > 0


def is_rising(value):
    return is_names(value) and all(name < after for name, after in zip(value, value[1:]))


def is_batch(value):
    return is_number(value, 1, MOST)


def is_from_zero(value):
    return is_number(value, 0, MOST)


def is_update(value):
    keys = {"type", "path", "acceptedPath", "timestamp"}
    if not isinstance(value, dict) or set(value) != keys or value["type"] != "js-update":
        return False
    return is_name(value["path"]) and is_name(value["acceptedPath"]) and is_from_zero(value["timestamp"])


def is_updates(value):
    return isinstance(value, list) and all(map(is_update, value))


def is_served_text(value):
    return is_text(value) and len(value.encode()) <= MOST_MESSAGE_TEXT


FAULT_KEYS = {
    "path": is_name, "line": is_from_zero, "column": is_from_zero,
    "kind": lambda value: isinstance(value, str) and value in FAULT_WORDS,
}
BATCH_KEYS = {"batch": is_batch, "triggeredBy": is_rising}
# The keys of each message of a server in format 2 beside `type`, with what their values have to be.
KEYS = {
    "connected": {"client": lambda value: is_number(value, 1, MOST_CLIENT), "roots": is_names},
    "update": {"replaced": is_names, "updates": is_updates, **BATCH_KEYS},
    "prune": {"paths": is_names},
    "full-reload": {"cause": lambda value: value in ("root", "declined"), "path": is_path, **BATCH_KEYS},
    "error": FAULT_KEYS,
    "broken": FAULT_KEYS,
    "idle": {},
    "done": {},
    "text": {"path": is_name, "version": is_batch, "text": is_served_text},
    "missing": {"path": is_name},
    "not-yet": {"path": is_name},
}


def refusal_keys(code):
    """The keys of a refusal with this code."""
    is_none = lambda value: value is None
    return {
        "code": lambda value: is_number(value, 1, 7),
        "path": is_name if code in (4, 5) else is_none,
        "told": is_from_zero if code == 4 else is_none,
        "kept": is_from_zero if code == 4 else is_none,
    }


def message_fault(data):
    """Why the bytes aren't just what is written of a server's message, or None."""
    try:
        message = read_json(data)
    except NoMessage:
        return "it isn't JSON"
    kind = message.get("type") if isinstance(message, dict) else None
    if not isinstance(kind, str) or kind not in {"refused", *KEYS}:
        return "its `type` is none of a server's messages"
    keys = refusal_keys(message.get("code")) if kind == "refused" else KEYS[kind]
    for key, test in keys.items():
        if key not in message:
            return f"the key `{key}` is missing"
        if not test(message[key]):
            return f"the value of `{key}` is none that a `{kind}` can have"
    if further := sorted(set(message) - {"type", *keys}):
        return f"a `{kind}` has no key `{further[0]}`"
    wanted = encode(message)
    return None if wanted == data else f"the same message is written as {wanted.decode()}"


def word_fault(words):
    """Why words aren't a reply to an edit, a result or a client that goes, or None."""
    first = words[0]
    if len(words) == 1 and first in LONE_WORDS:
        return None
    if first in (b"job", b"removed"):
        if len(words) == 2 and count_of(words[1], MOST_COUNT) is not None:
            return None
        return f"behind `{first.decode()}` stands one version, and nothing else"
    if first == b"refused":
        place = words[1].split(b":") if len(words) == 3 else []
        if len(place) != 2 or None in [count_of(word, MOST_CLIENT) for word in place]:
            return "behind `refused` stand LINE:COLUMN and the word of a fault"
        is_fault = words[2].decode("latin-1") in FAULT_WORDS
        return None if is_fault else "the last word is none of the words of faults (docs/LANGUAGE.md)"
    return "it is none of the words of replies, and no message as JSON"


def reply_fault(data):
    """Why the bytes of a reply haven't the form of one, or None."""
    if data.startswith(b"{"):
        return message_fault(data)
    return word_fault(data.split(b" ")) if data else "nothing stands behind `= `"
