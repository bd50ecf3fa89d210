"""Tests the end-to-end tests of the program: a right stand-in passes them all, and each wrong one fails the test that it is for."""

import os
import sys
import unittest

import stand_in
import test_program

STAND_IN = os.path.join(os.path.dirname(os.path.abspath(__file__)), "stand_in.py")


def result_of(wrong, names):
    """What these tests come to over a stand-in."""
    program = (sys.executable, STAND_IN, wrong)
    tests = type("StandInTest", (test_program.ProgramTest,), {"program": program, "is_script": True})
    result = unittest.TestResult()
    unittest.TestSuite(tests(it) for it in names).run(result)
    return result


class WrongShellsTest(unittest.TestCase):
    """Stand-ins for the program."""

    def test_the_right_one_passes(self):
        result = result_of("right", unittest.TestLoader().getTestCaseNames(test_program.ProgramTest))
        self.assertEqual([str(it[1]) for it in (*result.failures, *result.errors)], [])

    def test_each_wrong_one_fails(self):
        for wrong, test in stand_in.WRONG.items():
            with self.subTest(wrong):
                result = result_of(wrong, [test])
                self.assertTrue(result.failures, f"{test} passed over a stand-in that {wrong}")


if __name__ == "__main__":
    unittest.main()
