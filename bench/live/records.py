"""What a record tells of a server's transcript (docs/RECORDS.md)."""
import subprocess

from servers import TOP

ENTRY_BYTES = 64


def entries_of(record):
    """The kind of each entry, as `edit`, and the bytes of its names and texts."""
    entries = []
    for line in record.read_bytes().split(b"\n"):
        first, _, rest = line.partition(b" ")
        if first[:1] in (b"|", b"~"):
            kind, size = entries[-1]
            entries[-1] = (kind, size + len(line))
        elif first not in (b"", b"=", b"root", b"rest"):
            names = [word for word in rest.split(b" ") if word.startswith(b"/")]
            entries.append((first.decode(), sum(map(len, names))))
    return entries


def bytes_of(entries):
    """What entries count in the transcript's limit."""
    return sum(ENTRY_BYTES + size for _, size in entries)


def verdict(record):
    """What `./hmr audit` says of a record, or why it says nothing."""
    with open(record, "rb") as data:
        words = [TOP / "hmr", "audit"]
        ran = subprocess.run(words, stdin=data, stdout=subprocess.PIPE, stderr=subprocess.PIPE, text=True)
    return (ran.stdout or ran.stderr).strip()
