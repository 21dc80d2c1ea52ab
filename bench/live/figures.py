"""Figures as lines, and which of them missed its limit."""
import statistics


class Figures:
    """Says each figure in a line, and keeps whether one missed its limit."""

    def __init__(self):
        self.missed = 0

    def say(self, text):
        print(text, flush=True)

    def judge(self, text, found, most):
        """A figure with the most that it may be."""
        is_over = found > most
        self.missed += is_over
        self.say(f"{text}; at most {shown(most)}: {'over' if is_over else 'ok'}")

    def fail(self, part, fault):
        """A part that couldn't be measured to its end."""
        self.missed += 1
        self.say(f"FAILED {part}: {type(fault).__name__}: {fault}")


def shown(number):
    return f"{number:,}" if isinstance(number, int) else f"{number:.2f}"


def median(times):
    return statistics.median(times)


def spread(times):
    """A median of milliseconds, and between which ones it is."""
    return f"{median(times):.1f} ms ({min(times):.1f} to {max(times):.1f})"
