"""Counts what is as it is wanted, and tells what is not."""


class Checks:
    """Called with a name, with what was got and with what is wanted."""

    def __init__(self):
        self.passed = self.failed = 0

    def __call__(self, name, got, wanted=True):
        if got == wanted:
            self.passed += 1
        else:
            self.failed += 1
            print(f"FAILED {name}: {str(got)[:400]!r}, wanted {str(wanted)[:400]!r}")

    def end(self):
        """Tells both counts; the status, 1 where one failed or nothing was looked at."""
        print(f"{self.passed} passed, {self.failed} failed")
        return 1 if self.failed or not self.passed else 0
