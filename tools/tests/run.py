"""Runs the tests of this folder, or those that are named, and says which weren't run and why. The last line is
'N passed, M failed'.

Standard error tells which test is running, and how many are left: on a terminal in one line, else in a line for each.

usage: python3 tools/tests/run.py [MODULE[.CLASS[.TEST]] ..]
"""

import os
import shutil
import sys
import unittest

HERE = os.path.dirname(os.path.abspath(__file__))


class Result(unittest.TextTestResult):
    """What the tests came to, with the number of those that passed; and how far they are."""

    passed = 0
    left = 0

    def startTest(self, test):
        super().startTest(test)
        self.left -= 1
        self.tell(f"{test.id()}, {self.left} left")

    def stopTestRun(self):
        super().stopTestRun()
        if sys.stderr.isatty():
            self.tell("")

    def tell(self, text):
        if sys.stderr.isatty():
            width = shutil.get_terminal_size().columns
            text = f"\r{text[: width - 1]}\033[K"
        else:
            text += "\n"
        sys.stderr.write(text)
        sys.stderr.flush()

    def addSuccess(self, test):
        super().addSuccess(test)
        self.passed += 1


def main():
    loader, names = unittest.TestLoader(), sys.argv[1:]
    tests = loader.loadTestsFromNames(names) if names else loader.discover(HERE)
    Result.left = tests.countTestCases()
    result = unittest.TextTestRunner(stream=sys.stdout, verbosity=0, resultclass=Result).run(tests)
    for test, why in result.skipped:
        print(f"not run: {test.id()}: {why}")
    # (a test with parts may have failed in several)
    failed = len({it.id().partition(" ")[0] for it, _ in (*result.failures, *result.errors)})
    print(f"{result.passed} passed, {failed} failed")
    return 1 if failed else 0


if __name__ == "__main__":
    sys.exit(main())
