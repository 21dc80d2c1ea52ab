"""What the tests of this folder share: a run of the program, and what is expected of it."""
import re
from typing import NamedTuple


class Run(NamedTuple):
    """A run: the words behind the program's name, its whole input, and the status and the output that it has to have:
    all of it, or only its end; or the pattern of all of it; and perhaps what a message says of it."""

    words: list
    text: bytes
    status: int
    output: bytes | re.Pattern
    is_end: bool = False
    about: str = ""

    def is_as_told(self, output):
        """Whether an output is the one that is expected."""
        if isinstance(self.output, re.Pattern):
            return self.output.fullmatch(output) is not None
        return output.endswith(self.output) if self.is_end else output == self.output

    def wanted(self):
        """What is expected, for a message."""
        return self.output.pattern if isinstance(self.output, re.Pattern) else self.output


def check(text, output, name="/a/b.js"):
    """The check of a module text, which ends with status 0."""
    return Run(["check", name], encoded(text), 0, encoded(output))


def play(script, output, status=0):
    """The run of a script."""
    return Run(["play"], encoded(script), status, encoded(output))


def encoded(text):
    return text if isinstance(text, bytes) else text.encode()


def rows_of(table, mark):
    """The two sides of each line of a table, where `~` stands for LF."""
    for line in table.strip("\n").split("\n"):
        left, found, right = line.partition(mark)
        assert found, f"a row without {mark!r}: {line}"
        yield left.replace("~", "\n"), right.replace("~", "\n")


def edit(name, text):
    """The lines of a script that give a module a text."""
    return f"edit {name}\n" + "".join(f"|{line}\n" for line in text.split("\n") if text)


def ending(run):
    """The same run, of which only the end of the output is looked at."""
    return run._replace(is_end=True)
