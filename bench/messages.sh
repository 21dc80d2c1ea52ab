#!/usr/bin/env bash
# Messages as JSON beside Python's json module: whether both agree, and how the time of a read grows.
#
#     bench/messages.sh [MESSAGES]
#
# 10,000 random messages (or MESSAGES) of a client, spelled as JSON allows, and bytes made of them by a change of
# one byte, are read by a small program over message_json and by Python, which has the table of messages
# written down a second time. Both tell the message's compact text or the fault; the script fails where they
# differ. Then one `invalidate` of 1 MiB and one of 16 MiB is read and written again: the second may take
# at most 20 times what the first does. The program is proved before it is built, in a copy of the crates.
set -eu
source "$(dirname "${BASH_SOURCE[0]}")/small_program.sh"
count=${1:-10000}

begin message_bench hmr_base hmr_types update_msgs message_json
cat > "$own/src/main.rt" << 'END'
//! Reads a client's message from each line of its input, and writes each again, or why it is none.
#![tactic(auto)]

mod again;

use again::all_again;
use hmr_base::{StdSink, StdSource, read_all, write_all};
use std::process::ExitCode;

fn main(rt: HostRuntime) -> ExitCode {
    let alloc = rt.alloc();
    let mut input = StdSource::new(rt.stdin());
    let mut out = StdSink::new(rt.stdout());
    let Ok(bytes) = read_all(alloc, &mut input, 67_108_864) else {
        return ExitCode::from(4);
    };
    let Ok(text) = all_again(alloc, &bytes) else {
        return ExitCode::from(9);
    };
    match write_all(&mut out, &text) {
        Ok(()) => ExitCode::from(0),
        Err(_) => ExitCode::from(5),
    }
}
END
cat > "$own/src/again.rt" << 'END'
// What each line is written as again.
ghost use Rattle.update_msgs.specs.Writable.{IsSayable};

use message_json::{MsgFault, decode_client, encode_client};
use std::alloc::{AllocError, Global};
use update_msgs::ClientMsg;

fn written(alloc: Global, msg: &ClientMsg) -> Result<Vec<u8>, MsgFault>
    requires { IsSayable msg.now }
{
    Ok(encode_client(alloc, msg)?)
}

fn again(alloc: Global, bytes: &[u8]) -> Result<Vec<u8>, MsgFault> {
    match decode_client(alloc, bytes) {
        Ok(msg) => written(alloc, &msg),
        Err(fault) => Err(fault),
    }
}

fn told(alloc: Global, fault: &MsgFault) -> Result<String, AllocError> {
    match fault {
        MsgFault::NotJson => String::from_str(alloc, "not json"),
        MsgFault::NoType => String::from_str(alloc, "no type"),
        MsgFault::BadField(key) => format!(in alloc; "bad {}", key.as_str()),
        MsgFault::ExtraField(key) => format!(in alloc; "extra {}", key.as_str()),
        MsgFault::NoMemory => Err(AllocError),
    }
}

fn line_again(alloc: Global, line: &[u8]) -> Result<Vec<u8>, AllocError> {
    match again(alloc, line) {
        Ok(text) => Ok(text),
        Err(fault) => Ok(told(alloc, &fault)?.into_bytes()),
    }
}

pub fn all_again(alloc: Global, bytes: &[u8]) -> Result<Vec<u8>, AllocError> {
    let mut out = Vec::new(alloc);
    for line in bytes.split(|byte| *byte == b'\n') {
        let mut text = line_again(alloc, line)?;
        out.append(&mut text)?;
        out.push(b'\n')?;
    }
    Ok(out)
}
END
build

cat > "$work/messages.py" << 'END'
"""Random messages of a client, and what is to be told of each line."""
import json, random, re, sys

LARGEST = 9007199254740991


def is_name(name):
    if not isinstance(name, str) or not 2 <= len(name.encode()) <= 255 or name[0] != '/':
        return False
    parts = name[1:].split('/')
    return all(re.fullmatch(r'[A-Za-z0-9._-]+', part) and part not in ('.', '..') for part in parts)


def is_number(low, high):
    return lambda n: type(n) is int and low <= n <= high


def is_table(rows):
    return (isinstance(rows, list)
            and all(isinstance(r, list) and len(r) == 2 and is_name(r[0]) and is_number(1, LARGEST)(r[1]) for r in rows)
            and all(a[0].encode() < b[0].encode() for a, b in zip(rows, rows[1:])))


def is_roots(names):
    return isinstance(names, list) and names and all(map(is_name, names))


def is_text(text):
    return isinstance(text, str)


def fields(kind, value):
    link = value.get('cause') == 'link'
    null = lambda x: x is None
    return {
        'hello': [('format', is_number(1, 2))] + ([('roots', is_roots)] if 'roots' in value else []),
        'ask': [], 'bye': [],
        'fetch': [('path', is_name)],
        'applied': [('table', is_table)],
        'aborted': [('cause', lambda c: c in ('missing', 'broken', 'link')), ('path', is_name),
                    ('from', is_name if link else null), ('name', is_text if link else null)],
        'invalidate': [('path', is_name), ('version', is_number(1, LARGEST)), ('message', is_text)],
    }.get(kind)


def has_surrogate(value):
    if isinstance(value, str):
        return any(0xD800 <= ord(c) <= 0xDFFF for c in value)
    if isinstance(value, list):
        return any(map(has_surrogate, value))
    if isinstance(value, dict):
        return any(has_surrogate(k) or has_surrogate(v) for k, v in value.items())
    return False


def finite(word):
    # A number past the largest float has no reading here; Python reads it as infinity.
    value = float(word)
    if value in (float('inf'), float('-inf')):
        raise ValueError(word)
    return value


def refuse(word):
    raise ValueError(word)


def told(line):
    try:
        value = json.loads(line.decode('utf-8'), parse_constant=refuse, parse_float=finite)
    except (ValueError, UnicodeDecodeError, RecursionError):
        return b'not json'
    if has_surrogate(value):
        return b'not json'
    kind = value.get('type') if isinstance(value, dict) else None
    wanted = fields(kind, value) if isinstance(kind, str) else None
    if wanted is None:
        return b'no type'
    for key, test in wanted:
        if key not in value or not test(value[key]):
            return b'bad ' + key.encode()
    known = {key for key, _ in wanted} | {'type'}
    further = sorted(key.encode() for key in value if key not in known)
    if further:
        return b'extra ' + further[0]
    return json.dumps(value, sort_keys=True, separators=(',', ':'), ensure_ascii=False).encode()


def name(r):
    return '/' + '/'.join(''.join(r.choice('ab.js-_') for _ in range(r.randint(1, 4))) for _ in range(r.randint(1, 3)))


def text(r):
    return ''.join(r.choice(['a', '"', '\\', '/', '\n', '\t', '\u0001', '\u007f', 'é', '😀', '\u2028', ' ']) for _ in range(r.randint(0, 6)))


def message(r):
    kind = r.choice(['hello', 'ask', 'fetch', 'applied', 'aborted', 'invalidate', 'bye'])
    number = lambda: r.choice([0, 1, 2, 3, LARGEST, LARGEST + 1, 1.0, -1, r.randint(1, 99)])
    value = {'type': kind}
    if kind == 'hello':
        value['format'] = number()
        if r.random() < .5:
            value['roots'] = [name(r) for _ in range(r.randint(0, 3))]
    elif kind == 'fetch':
        value['path'] = name(r)
    elif kind == 'applied':
        rows = [[name(r), number()] for _ in range(r.randint(0, 4))]
        value['table'] = sorted(rows) if r.random() < .8 else rows
    elif kind == 'aborted':
        value['cause'] = r.choice(['missing', 'broken', 'link', 'late'])
        value['path'] = name(r)
        value['from'] = r.choice([None, name(r)])
        value['name'] = r.choice([None, text(r)])
    elif kind == 'invalidate':
        value.update(path=name(r), version=number(), message=text(r))
    if r.random() < .1:
        value[r.choice(['b', 'a', 'é', 'path', 'type2'])] = r.choice([1, None, [], {}])
    if r.random() < .1:
        value.pop(r.choice(list(value)))
    return value


def spelled(r, value):
    keys = list(value.items())
    r.shuffle(keys)
    spaces = r.choice([(',', ':'), (', ', ': '), (' ,\t', '  :')])
    return json.dumps(dict(keys), separators=spaces, ensure_ascii=r.random() < .5).encode()


def main():
    r = random.Random(int(sys.argv[2]))
    lines = []
    for _ in range(int(sys.argv[1])):
        line = bytearray(spelled(r, message(r)))
        if r.random() < .2 and line:
            line[r.randrange(len(line))] = r.choice(b'{}[],:"\\ue01a \xff\xc3')
        lines.append(bytes(line).replace(b'\n', b' '))
    open(sys.argv[3], 'wb').write(b'\n'.join(lines))
    open(sys.argv[4], 'wb').write(b'\n'.join(map(told, lines)) + b'\n')


main()
END
python3 "$work/messages.py" "$count" 7 "$work/lines" "$work/want"
"$program" < "$work/lines" > "$work/got"
if ! cmp -s "$work/want" "$work/got"; then
  echo 'bench: the program and Python differ; the first lines that do:' >&2
  paste -d '\n' "$work/lines" "$work/want" "$work/got" 2> /dev/null | awk 'NR % 3 == 1 { l = $0 } NR % 3 == 2 { w = $0 } NR % 3 == 0 && w != $0 { print l; print "  python:  " w; print "  program: " $0 }' | head -15 >&2
  exit 1
fi
echo "$count lines: the program and Python agree ($(grep -c '^{' "$work/want") messages, $(grep -vc '^{' "$work/want") faults)"

# Prints the best time of three in milliseconds. The message has no LF behind it, what is written of it has.
took() {
  local best=0 begin end time
  for _ in 1 2 3; do
    begin=$(date +%s%N)
    "$program" < "$1" > "$work/got"
    end=$(date +%s%N)
    time=$(((end - begin) / 1000000 + 1))
    if [ "$best" = 0 ] || [ "$time" -lt "$best" ]; then best=$time; fi
  done
  cmp -s <(cat "$1"; echo) "$work/got" || { echo "bench: $1 isn't written as it was read" >&2; exit 1; }
  printf '%s' "$best"
}
for mib in 1 16; do
  python3 -c "
import json, sys
text = 'let a = 1;\\n' * (int(sys.argv[1]) * 1048576 // 12)
sys.stdout.write(json.dumps({'message': text, 'path': '/a.js', 'type': 'invalidate', 'version': 1}, sort_keys=True, separators=(',', ':')))" "$mib" > "$work/$mib"
done
one=$(took "$work/1")
sixteen=$(took "$work/16")
echo "1 MiB read and written in $one ms, 16 MiB in $sixteen ms"
[ "$sixteen" -le $((20 * one)) ] || { echo 'bench: 16 MiB take more than 20 times what 1 MiB takes' >&2; exit 1; }
