"""What `audit` says of the records of `records.py`, each byte of which is changed in turn."""
from records import changed_records, lacks  # noqa: F401


def runs_of(program):
    yield from changed_records(program, step=1)
