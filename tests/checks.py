"""Counts what a script checks, and prints what doesn't hold."""


class Checks:
    """How many checks passed and failed so far."""

    def __init__(self):
        self.passed = self.failed = 0

    def check(self, holds, fault):
        """Counts a check, and prints the fault where it doesn't hold."""
        if holds:
            self.passed += 1
        else:
            self.failed += 1
            print(fault, flush=True)

    def report(self):
        """Prints the script's last line, and answers its exit status, which is 1 too where nothing was checked."""
        print(f"{self.passed} passed, {self.failed} failed")
        return 0 if self.passed and not self.failed else 1


def report(faults):
    """The same of names, each with what is wrong with it, or none."""
    checks = Checks()
    for name, fault in faults:
        checks.check(not fault, f"{name}: {fault}")
    return checks.report()
