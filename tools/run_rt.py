#!/usr/bin/env python3
"""Runs the toolchain's command rt, with two of its functions in another form, so that it takes less time.

usage: tools/run_rt.py [COMMAND ..]   'ci', or as in 'check --only PATH' in a crate's folder

rt ci gives each check one processor while others wait for one, so the longest chain of crates, one above the other, takes longer
than all other work. Here the check that has most of that chain behind it gets as many jobs as there are processors, and one of a
chain that is nearly as long half as many. The others are nicer. Beside the first run one fewer than there are processors, or than
RT_JOBS says.

rt also computes the checksum of all that a library is made of, and that of a crate by those of each crate that it lists, which
list others: for the crates at the top that is many thousand crates, in one thread. Here a crate is read once a question.

What is checked, and how, is rt's own. Where a toolchain's rt has no such functions, it is run as it is.
"""

import importlib.machinery
import importlib.util
import inspect
import os
import queue
import shutil
import sys
import threading

# By how much the checks beside the longest chains are nicer than theirs.
NICER = 6
# Of the longest chain, what lies at least behind a check that is on it, and behind one on a chain that is nearly as long.
LONGEST, LONG = 0.9, 0.75
# The part of the free memory that checks may take: the rest is for what the gate runs beside them.
SHARE = 0.7
# What a further job of a check takes of the memory of the first (as rt has it).
FURTHER_JOB = 0.6


class Plan:
    """Tasks of rt: which of them may begin, and with how many jobs. A task is what it waits for, its size in lines, the memory that it
    needs, and a call."""

    def __init__(self, tasks, lanes, memory):
        self.tasks, self.lanes, self.memory = tasks, lanes, memory
        self.behind = chains(tasks)
        self.left = sorted(tasks, key=lambda it: -self.behind[it])
        # The memory that each running task takes, and the one of the longest chain that runs.
        self.running, self.first = {}, None

    def longest(self):
        return max(self.behind[it] for it in [*self.left, *self.running])

    def next(self, given):
        """A task that may begin now, its jobs, and by how much it is nicer; or None."""
        longest = self.longest() if self.left else 0
        room = self.memory - sum(self.running.values())
        for key in [it for it in self.left if all(below in given for below in self.tasks[it][0])]:
            is_first = self.first is None and self.behind[key] >= LONGEST * longest > 0
            if not is_first and len(self.running) - (self.first is not None) >= max(1, self.lanes - 1):
                return None
            is_long = self.behind[key] >= LONG * longest > 0
            most = self.lanes if is_first else max(1, self.lanes // 2) if is_long else 1
            needs = self.tasks[key][2]
            if not self.running or needs <= room:
                jobs = 1 + int(min(most - 1, max(0, room / needs - 1) / FURTHER_JOB))
                self.left.remove(key)
                self.running[key] = needs * (1 + FURTHER_JOB * (jobs - 1))
                self.first = key if is_first else self.first
                return key, jobs, 0 if is_long else NICER
            if is_first:
                # (what ends next leaves its memory to this one)
                return None
        return None

    def end(self, key):
        del self.running[key]
        self.first = None if self.first == key else self.first


def chains(tasks):
    """Of each task the lines of the longest chain that begins with it. (A task stands behind those that it waits for.)"""
    behind = dict.fromkeys(tasks, 0)
    for key in reversed([*tasks]):
        behind[key] += tasks[key][1]
        for it in tasks[key][0]:
            behind[it] = max(behind[it], behind[key])
    return behind


def in_lanes(plan):
    """Runs the tasks of a plan, and returns what each gave."""
    given, ended = {}, queue.Queue()

    def run(key, jobs, nicer):
        if nicer:
            # (of this thread, and of what it starts)
            os.setpriority(os.PRIO_PROCESS, threading.get_native_id(), os.getpriority(os.PRIO_PROCESS, 0) + nicer)
        try:
            ended.put((key, plan.tasks[key][3](given, jobs)))
        except BaseException as error:  # (raised again where it is waited for)
            ended.put((key, error))

    while plan.left or plan.running:
        while found := plan.next(given):
            threading.Thread(target=run, args=found, daemon=True).start()
        key, result = ended.get()
        plan.end(key)
        if isinstance(result, BaseException):
            raise result
        given[key] = result
    return given


def takes(owner, name, parameters):
    """Whether an owner has a function with these parameters."""
    function = getattr(owner, name, None)
    return callable(function) and [*inspect.signature(function).parameters] == parameters


def is_known(rt):
    """Whether rt has the functions that are meant here."""
    wanted = {"in_lanes": ["tasks"], "processors": [], "free": [], "main": ["words"]}
    return all(takes(rt, name, parameters) for name, parameters in wanted.items()) and takes(rt.rtlib.Crate, "stamp", ["self"])


def load(path):
    """The toolchain's command rt, as a module."""
    loader = importlib.machinery.SourceFileLoader("rt", path)
    made = importlib.util.module_from_spec(importlib.util.spec_from_loader("rt", loader))
    sys.modules["rt"] = made
    loader.exec_module(made)
    return made


def order(rt):
    """Has rt order its checks as here, where they are of the form that is meant."""
    by_rt = rt.in_lanes

    def by_chain(tasks):
        if not all(isinstance(it, tuple) and len(it) == 4 for it in tasks.values()):
            return by_rt(tasks)
        number = os.environ.get("RT_JOBS", "")
        lanes = int(number) if number.isdigit() and int(number) else rt.processors()
        return in_lanes(Plan(tasks, lanes, SHARE * rt.free()))

    rt.in_lanes = by_chain


def remember(crates):
    """Has the checksum of what a crate is made of asked once of each crate below it."""
    by_rt, asked = crates.stamp, threading.local()

    def stamp(crate):
        if getattr(asked, "sums", None) is None:
            asked.sums = {}
            try:
                return stamp(crate)
            finally:
                asked.sums = None
        if crate.folder not in asked.sums:
            asked.sums[crate.folder] = by_rt(crate)
        return asked.sums[crate.folder]

    crates.stamp = stamp


def main(words):
    path = shutil.which("rt")
    if not path:
        sys.exit("the toolchain's command rt isn't on the PATH: README says what is needed")
    try:
        rt = load(os.path.realpath(path))
        if not is_known(rt):
            raise ValueError
    except (Exception, SystemExit):  # (whatever another rt may be)
        os.execv(path, [path, *words])
    order(rt)
    remember(rt.rtlib.Crate)
    return rt.main(words)


if __name__ == "__main__":
    sys.exit(main(sys.argv[1:] or ["ci"]))
