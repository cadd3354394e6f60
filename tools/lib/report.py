"""What a check says of what passed and what failed."""

import sys
import time


class Report:
    """What passed and what failed."""

    def __init__(self):
        self.passed, self.failed = 0, 0

    def check(self, name, seconds, test):
        """Asks a test until it says nothing is wrong; the last thing that was wrong is told."""
        end, wrong = time.monotonic() + seconds, "never asked"
        while time.monotonic() < end and wrong:
            try:
                wrong = test()
            except (OSError, KeyError, ValueError) as fault:
                wrong = f"{type(fault).__name__}: {fault}"
            if wrong:
                time.sleep(0.05)
        self.tell(name, wrong)

    def tell(self, name, wrong):
        """Says that something passed, or what was wrong with it."""
        self.passed, self.failed = self.passed + (not wrong), self.failed + bool(wrong)
        print(f"passed  {name}" if not wrong else f"FAILED  {name}: {wrong}", flush=True)

    def end(self):
        """Says how many passed and failed, and ends the program by that."""
        print(f"{self.passed} passed, {self.failed} failed")
        sys.exit(1 if self.failed else 0)
