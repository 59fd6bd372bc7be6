"""Counts checks. Each file prints those that fail, and at its end how many passed and failed."""

import sys


class Checks:
    def __init__(self):
        self.passed = 0
        self.failed = 0

    def check(self, name, fault=None):
        """Counts a check, with what is wrong, if anything is."""
        if fault:
            self.failed += 1
            print(f"{name}: {fault}")
        else:
            self.passed += 1

    def equal(self, name, found, wanted):
        """A check that two texts or numbers are the same."""
        self.check(name, None if found == wanted else difference(found, wanted))

    def make(self, check, *arguments):
        """Makes the checks of a function. If it raises an exception, that counts as a failed check, and the next function runs."""
        try:
            check(self, *arguments)
        except Exception as fault:
            told = f"it broke off: {type(fault).__name__}: {fault}"
            self.check(" ".join([check.__name__, *map(str, arguments)]), told)

    def skip(self, name, why):
        """Reports a check that cannot be made here; tests/run shows it."""
        print(f"skipped: {name}: {why}")

    def end(self):
        print(f"{self.passed} passed, {self.failed} failed")
        sys.exit(1 if self.failed else 0)


def short(value):
    """A value as it is shown: cut if it is long."""
    text = repr(value)
    return text if len(text) <= 300 else f"{text[:300]}.. ({len(value)} long)"


def difference(found, wanted):
    """The first difference between two values, line by line if both are octets."""
    if isinstance(found, bytes) and isinstance(wanted, bytes):
        pairs = zip(found.split(b"\n"), wanted.split(b"\n"))
        for number, (line, want) in enumerate(pairs, 1):
            if line != want:
                return f"line {number} is {short(line)}, wanted {short(want)}"
        return f"{found.count(10)} lines, wanted {wanted.count(10)}"
    return f"{short(found)}, wanted {short(wanted)}"
