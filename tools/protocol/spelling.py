"""Messages of a client as random bytes: in each spelling that JSON allows, and bytes that are no message."""
import json

# What is no message, each in its own way.
NO_MESSAGES = [
    b"", b"{", b"null", b"[]", b'"ask"', b"{}", b'{"type":"asks"}', b'{"type":["ask"]}', b'{"type":"idle"}',
    b"{'type':'ask'}", b'{"type":"ask",}', b'{"type":"ask"} {', b'{"type":"ask","x":1}', b'{"type":"bye","type ":1}',
    b'{"type":"hello"}', b'{"format":3,"type":"hello"}', b'{"format":0,"type":"hello"}', b'{"format":1.0,"type":"hello"}',
    b'{"format":1e0,"type":"hello"}', b'{"format":true,"type":"hello"}', b'{"format":"1","type":"hello"}',
    b'{"format":2,"roots":[],"type":"hello"}', b'{"format":2,"roots":["m.js"],"type":"hello"}',
    b'{"format":2,"roots":["/m.js",1],"type":"hello"}', b'{"format":2,"roots":null,"type":"hello"}',
    b'{"path":"/a/","type":"fetch"}', b'{"path":"/a/../b.js","type":"fetch"}', b'{"path":"/\\u00e9.js","type":"fetch"}',
    b'{"path":"/' + b"a" * 255 + b'","type":"fetch"}', b'{"path":null,"type":"fetch"}', b'{"Path":"/a.js","type":"fetch"}',
    b'{"table":[["/b.js",1],["/a.js",1]],"type":"applied"}', b'{"table":[["/a.js",1],["/a.js",1]],"type":"applied"}',
    b'{"table":[["/a.js",0]],"type":"applied"}', b'{"table":[["/a.js",9007199254740992]],"type":"applied"}',
    b'{"table":[["/a.js",-1]],"type":"applied"}', b'{"table":[["/a.js"]],"type":"applied"}',
    b'{"table":[["/a.js",1,1]],"type":"applied"}', b'{"table":{"/a.js":1},"type":"applied"}',
    b'{"cause":"broken","from":"/a.js","name":null,"path":"/a.js","type":"aborted"}',
    b'{"cause":"link","from":null,"name":"x","path":"/a.js","type":"aborted"}',
    b'{"cause":"late","from":null,"name":null,"path":"/a.js","type":"aborted"}',
    b'{"cause":"missing","path":"/a.js","type":"aborted"}',
    b'{"message":"late","path":"/a.js","type":"invalidate","version":0}',
    b'{"message":null,"path":"/a.js","type":"invalidate","version":1}',
    b'{"message":"\\ud800","path":"/a.js","type":"invalidate","version":1}',
    b'{"message":"\n","path":"/a.js","type":"invalidate","version":1}',
    b'{"message":"\\x","path":"/a.js","type":"invalidate","version":1}',
    b'{"message":"","path":"/a.js","type":"invalidate","version":01}', b'{"type":"ask"}\x00', b'\xef\xbb\xbf{"type":"ask"}',
    b'{"type":NaN}', b'{"type":"ask","x":' + b"[" * 127 + b"]" * 127 + b"}",
]
# The same, of bytes that no message of text may have.
NO_TEXTS = [b'{"type":"\xff"}', b'\xc3{"type":"ask"}', b'{"type":"ask"}\xed\xa0\x80']


def escaped(rng, text):
    """A text as JSON, with some characters as escapes."""
    chance = rng.choice([0, 0, 0.2])
    return '"' + "".join(character(rng, char, chance) for char in text) + '"'


def character(rng, char, chance):
    """A character in a text of JSON."""
    if ord(char) < 0x10000 and rng.random() < chance:
        return f"\\u{ord(char):04x}"
    return json.dumps(char, ensure_ascii=rng.random() < 0.5)[1:-1]


def blank(rng):
    return "".join(rng.choice(" \t\r\n") for _ in range(rng.randrange(3)))


def value_of(rng, value, is_plain):
    if isinstance(value, str):
        return json.dumps(value, ensure_ascii=False) if is_plain else escaped(rng, value)
    if isinstance(value, list):
        gap = "" if is_plain else blank(rng)
        return "[" + gap + f"{gap},{gap}".join(value_of(rng, item, is_plain) for item in value) + gap + "]"
    return json.dumps(value)


def spelled(rng, message):
    """The bytes of a message: in the plain form half of the time."""
    if rng.random() < 0.5:
        return json.dumps(message, sort_keys=True, separators=(",", ":"), ensure_ascii=False).encode()
    keys = list(message)
    rng.shuffle(keys)
    pairs = [(escaped(rng, key), value_of(rng, message[key], False)) for key in keys]
    if rng.random() < 0.2:
        # Of equal keys the last one counts.
        pairs.insert(0, (pairs[-1][0], rng.choice(["null", "1", '"bye"', "[]", "{}"])))
    inside = ",".join(f"{blank(rng)}{key}{blank(rng)}:{blank(rng)}{value}" for key, value in pairs)
    return f"{blank(rng)}{{{inside}{blank(rng)}}}{blank(rng)}".encode()
