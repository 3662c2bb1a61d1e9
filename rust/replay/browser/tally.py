"""Counts what passed and what failed."""


class Tally:
    """The checks so far."""

    def __init__(self):
        self.passed, self.failed = 0, 0

    def check(self, name, good, more=""):
        """Notes a check; a failed one is printed."""
        if good:
            self.passed += 1
        else:
            self.failed += 1
            print(f"FAILED {name} {more}".rstrip())

    def equal(self, name, found, wanted):
        """Notes a check that two values are equal."""
        self.check(name, found == wanted, f"found {found!r}, wanted {wanted!r}")
