"""How a check counts what it tries, prints what failed, and ends."""
import sys

FAILED = "FAILED: "  # how the line of a failure begins


def is_asked(name):
    """Whether the words of the command line choose a case: one of them is in its name, or there are none."""
    return len(sys.argv) < 2 or any(word in name for word in sys.argv[1:])


class Results:
    """Counts the cases of a check, and prints a line for each failure, or for the first of them."""

    def __init__(self, name, most=sys.maxsize):
        self.name = name  # of the check, in its last line
        self.most = most  # failures that are printed
        self.passed = self.failed = self.skipped = 0

    def note(self, good, failure):
        """Counts a case, and prints its failure if it failed."""
        self.passed += bool(good)
        self.failed += not good
        if not good and self.failed <= self.most:
            print(f"{FAILED}{failure}", flush=True)

    def skip(self, name, lacking, number=1):
        """Counts cases that cannot be tried here, and says what they lack."""
        self.skipped += number
        print(f"{name}: skipped, without {' and '.join(sorted(lacking))}", flush=True)

    def report(self):
        """Prints the last line of the check, and gives the status of its script. A check that tried nothing fails."""
        if self.passed + self.failed + self.skipped == 0:
            self.note(False, f"{self.name}: nothing was tried")
        skipped = f", {self.skipped} skipped" if self.skipped else ""
        print(f"{self.name}: {self.passed} passed, {self.failed} failed{skipped}", flush=True)
        return 1 if self.failed else 0
