"""Tests how run_rt.py has rt order checks and read crates: what begins, with how many jobs and at which priority; and what else is run."""

import os
import subprocess
import sys
import tempfile
import threading
import unittest

ROOT = os.path.dirname(os.path.dirname(os.path.dirname(os.path.abspath(__file__))))
sys.path.insert(0, f"{ROOT}/tools")

import run_rt  # noqa: E402

ANOTHER = """import sys


def main(words):
    return 3


if __name__ == "__main__":
    print("rt", *sys.argv[1:])
    sys.exit(7)
"""
ORDERED = """import sys


class rtlib:
    class Crate:
        def stamp(self):
            pass


def processors():
    return 2


def free():
    return 1000


def in_lanes(tasks):
    raise AssertionError


def main(words):
    def call(given, jobs):
        print(words, jobs, sorted(given))
        return True

    return 0 if in_lanes({"low": ([], 5, 1, call), "high": (["low"], 5, 1, call)}) == {"low": True, "high": True} else 1
"""


class Tasks:
    """Tasks that note what they were begun with."""

    def __init__(self):
        self.begun, self.tasks = [], {}

    def add(self, key, waits=(), lines=1, needs=1):
        def call(given, jobs):
            nice = os.getpriority(os.PRIO_PROCESS, threading.get_native_id()) - os.getpriority(os.PRIO_PROCESS, os.getpid())
            self.begun.append((key, jobs, nice, sorted(given)))
            return key.upper()

        self.tasks[key] = ([*waits], lines, needs, call)

    def run(self, lanes=4, memory=100):
        return run_rt.in_lanes(run_rt.Plan(self.tasks, lanes, memory))


class OrderTest(unittest.TestCase):
    def test_the_longest_chain_has_all_jobs(self):
        tasks = Tasks()
        tasks.add("low", lines=10)
        tasks.add("aside", lines=2)
        tasks.add("high", ["low"], lines=10)
        self.assertEqual(tasks.run(), {"low": "LOW", "aside": "ASIDE", "high": "HIGH"})
        told = {key: (jobs, nice) for key, jobs, nice, _ in tasks.begun}
        self.assertEqual(told, {"low": (4, 0), "aside": (1, run_rt.NICER), "high": (4, 0)})
        self.assertIn("low", next(given for key, _, _, given in tasks.begun if key == "high"))

    def test_chains(self):
        tasks = Tasks()
        tasks.add("low", lines=1)
        tasks.add("left", ["low"], lines=5)
        tasks.add("right", ["low"], lines=2)
        tasks.add("top", ["low", "right"], lines=4)
        self.assertEqual(run_rt.chains(tasks.tasks), {"low": 7, "left": 5, "right": 6, "top": 4})

    def test_beside_the_chain_stands_one_fewer_than_processors(self):
        tasks = Tasks()
        for key in "abcde":
            tasks.add(key, lines=5 if key == "a" else 1)
        plan = run_rt.Plan(tasks.tasks, 3, 100)
        nicer = run_rt.NICER
        begun = [("a", 3, 0), ("b", 1, nicer), ("c", 1, nicer), None]
        self.assertEqual([plan.next({}), plan.next({}), plan.next({}), plan.next({})], begun)
        plan.end("b")
        self.assertEqual(plan.next({}), ("d", 1, nicer))
        plan.end("a")
        self.assertEqual(plan.next({}), ("e", 3, 0))

    def test_a_chain_that_is_nearly_as_long(self):
        tasks = Tasks()
        for key, lines in (("a", 100), ("b", 80), ("c", 10)):
            tasks.add(key, lines=lines)
        plan = run_rt.Plan(tasks.tasks, 4, 100)
        self.assertEqual([plan.next({}), plan.next({}), plan.next({})], [("a", 4, 0), ("b", 2, 0), ("c", 1, run_rt.NICER)])

    def test_memory(self):
        tasks = Tasks()
        tasks.add("first", lines=9, needs=60)
        tasks.add("second", lines=1, needs=60)
        tasks.add("small", lines=1, needs=10)
        plan = run_rt.Plan(tasks.tasks, 4, 100)
        # One more job is 36 more.
        self.assertEqual(plan.next({}), ("first", 2, 0))
        self.assertIsNone(plan.next({}))
        plan.end("first")
        self.assertEqual(plan.next({}), ("second", 2, 0))
        plan.end("second")
        self.assertEqual(plan.next({}), ("small", 4, 0))

    def test_the_chain_is_not_passed_by(self):
        tasks = Tasks()
        tasks.add("low", lines=1, needs=40)
        tasks.add("high", ["low"], lines=9, needs=80)
        tasks.add("aside", lines=1, needs=50)
        tasks.add("small", lines=1, needs=1)
        plan = run_rt.Plan(tasks.tasks, 2, 100)
        self.assertEqual(plan.next({}), ("low", 2, 0))
        plan.end("low")
        plan.running["aside"] = 50
        plan.left.remove("aside")
        # What is higher has no room, and what is small waits behind it.
        self.assertIsNone(plan.next({"low": True}))
        plan.end("aside")
        self.assertEqual(plan.next({"low": True, "aside": True}), ("high", 1, 0))

    def test_what_needs_more_than_there_is_runs_alone(self):
        tasks = Tasks()
        tasks.add("large", needs=1000)
        tasks.add("other", lines=0)
        self.assertEqual(tasks.run(), {"large": "LARGE", "other": "OTHER"})

    def test_an_error_is_passed_on(self):
        tasks = Tasks()
        tasks.tasks["bad"] = ([], 1, 1, lambda given, jobs: sys.exit(5))
        with self.assertRaises(SystemExit) as raised:
            tasks.run()
        self.assertEqual(raised.exception.code, 5)


class Crate:
    """A crate as rt has it, which counts how often it is read."""

    read = 0

    def __init__(self, folder, deps):
        self.folder, self.deps = folder, deps

    def stamp(self):
        Crate.read += 1
        return f"{self.folder}({','.join(it.stamp() for it in self.deps)})"


class SumTest(unittest.TestCase):
    def test_each_crate_is_read_once_a_question(self):
        class Remembered(Crate):
            pass

        run_rt.remember(Remembered)
        for kind, times in ((Crate, 8), (Remembered, 4)):
            low = kind("low", [])
            left, right = kind("left", [low]), kind("right", [low])
            top = kind("top", [left, right, low, left])
            for _ in range(2):
                Crate.read = 0
                self.assertEqual(top.stamp(), "top(left(low()),right(low()),low(),left(low()))")
                self.assertEqual(Crate.read, times)


class CommandTest(unittest.TestCase):
    def ran(self, text, *words):
        with tempfile.TemporaryDirectory(prefix="run-rt-") as room:
            if text:
                with open(f"{room}/rt", "w", encoding="utf-8") as it:
                    it.write(f"#!{sys.executable}\n{text}")
                os.chmod(f"{room}/rt", 0o755)
            command = [sys.executable, f"{ROOT}/tools/run_rt.py", *words]
            return subprocess.run(command, env={"PATH": room}, capture_output=True, encoding="utf-8", check=False)

    def test_rt_with_another_order(self):
        ended = self.ran(ORDERED)
        self.assertEqual((ended.returncode, ended.stdout), (0, "['ci'] 2 []\n['ci'] 2 ['low']\n"), ended.stderr)
        ended = self.ran(ORDERED, "check", "--only", "it")
        self.assertEqual(ended.stdout.splitlines()[0], "['check', '--only', 'it'] 2 []", ended.stderr)

    def test_another_rt_is_run_as_it_is(self):
        for text in (ANOTHER, ANOTHER.replace("def main", "def other"), "import sys\nprint('rt', *sys.argv[1:])\nsys.exit(7)\n"):
            ended = self.ran(text)
            self.assertEqual((ended.returncode, ended.stdout.splitlines()[-1]), (7, "rt ci"), ended.stderr)
            self.assertEqual(self.ran(text, "check", "--test").stdout.splitlines()[-1], "rt check --test")

    def test_no_rt(self):
        ended = self.ran("")
        self.assertEqual(ended.returncode, 1)
        self.assertIn("isn't on the PATH", ended.stderr)


if __name__ == "__main__":
    unittest.main()
