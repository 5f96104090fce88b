"""What the parts have in common: how checks are counted and told."""

import sys


class Part:
    """Counts checks. The last line is 'N passed, M failed, K skipped'."""

    def __init__(self):
        self.passed = self.failed = self.skipped = 0

    def check(self, name, found, wanted):
        if found == wanted:
            self.passed += 1
        else:
            self.failed += 1
            print(f"failed: {name}\n  is     {found!r}\n  not    {wanted!r}")

    def skip(self, name, why):
        self.skipped += 1
        print(f"skipped: {name}: {why}")

    def end(self):
        print(f"{self.passed} passed, {self.failed} failed, {self.skipped} skipped")
        sys.exit(1 if self.failed else 0)
