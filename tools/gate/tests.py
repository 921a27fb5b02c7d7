"""What the checks of the gate share: a count of what was seen, and of how much of it is as wanted."""


class Tests:
    """How much passed, and how much failed; what failed is printed."""

    def __init__(self):
        self.passed = self.failed = 0

    def look(self, holds, what):
        """Counts whether something holds; `what` says that it doesn't."""
        if holds:
            self.passed += 1
        else:
            self.failed += 1
            print(what)

    def see(self, title, found, wanted):
        """Counts whether what was found is what was wanted."""
        self.look(found == wanted, f"{title}: saw {found!r} and wanted {wanted!r}")

    def has(self, title, found, part):
        """Counts whether a part stands in what was found."""
        self.look(part in found, f"{title}: saw {found!r} and wanted {part!r} in it")

    def end(self, name=""):
        """Prints the count, behind the name of what was looked at; the status with which a check ends."""
        print(f"{name}{': ' if name else ''}{self.passed} passed, {self.failed} failed")
        return 1 if self.failed else 0
