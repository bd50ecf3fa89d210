#!/usr/bin/env python3
"""Tries edits that plant a fault, several in one check: the prover must refuse each.

usage: tools/plant.py CRATE [FOLDER] [--only WORD] [--one] [--log FILE]
       tools/plant.py --gate [--stood SUMS [--beside FILE]]
       tools/plant.py --before-ci

FOLDER is crates/CRATE/planted where it is left out. --only takes the edits whose name contains WORD, --one tries each edit by
itself, and --log appends what each check prints to a file. --gate tries the edits in planted/ of every crate, of as many crates at
a time as there are processors, or as RT_JOBS says, and those that were refused on this machine over the same files only once. With
SUMS, what --before-ci printed before a run of rt ci, it takes the libraries that are new since then as they are. --before-ci removes
libraries that an earlier run of rt ci left, which would else come back in the place of new ones. With --beside it runs beside rt ci,
which prints into FILE, and after it the line 'rt ci ended with STATUS': the edits of a crate are tried once rt ci has proved it and all
below it, on half the processors until rt ci has ended. Where SUMS names libraries, which rt ci puts back, it waits for that end.

It works on a copy of the crate. Edits of different functions' bodies are planted together, and one check of the functions that they
name (--only) tells of each whether it is refused for itself: a check goes by what the contracts of other functions say, and not by
their bodies. An edit is refused where each of its functions is, by a goal that isn't proved: not for a name that a proof has and
the edit took away, not for want of a verdict, and not for another function, without whose edit it is tried again. An edit that
changes more than bodies, and one that isn't refused with others, is tried alone, and its functions must be proved without it.

It prints 'refused', 'NOT REFUSED' or 'BAD EDIT' for each edit; with --gate the last line is 'N passed, M failed'. Exit status 1
where any isn't refused.
"""

import argparse
import contextlib
import functools
import hashlib
import os
import re
import subprocess
import sys
import tempfile
import time
from concurrent.futures import FIRST_COMPLETED, ThreadPoolExecutor, wait

from edits import ROOT, BadEdit, Edit, edits_in
from libraries import build, closure, library_sum, lists, made_since, sum_of, sums_before_ci
from trial import LOST, NO_VERDICT, PARTS, PROVED, REFUSED, UNKNOWN, WAITING, Copy, kit

# Where the gate keeps what it printed of edits that were all refused, by the checksum of what they were tried over.
KEPT = f"{os.environ.get('XDG_CACHE_HOME') or os.path.expanduser('~/.cache')}/x509-planted"
# Seconds between two looks at how far rt ci is.
PAUSE = 5
TOOLS = ("plant.py", "trial.py", "libraries.py", "edits.py", "functions.py")


def batch_of(edits):
    """As many of the edits as change the bodies of different functions, or one that changes more, and the texts with all of them.
    Those that change more come last, since much of what was kept must then be checked again."""
    taken, changed, texts = [], set(), {}
    for edit in sorted(edits, key=lambda it: not it.is_local()):
        own = edit.functions | edit.bodies
        if taken and (own & changed or not edit.is_local()):
            continue
        try:
            texts, _ = edit.applied(texts)
        except BadEdit:
            continue
        taken.append(edit)
        changed |= own
        if not edit.is_local():
            break
    return taken, texts


def say(edit, word, why=""):
    print(f"{edit.name}: {word}{': ' + why[:150] if why else ''}", flush=True)


def fate_of(edit, said):
    """What an edit comes to: refused where each of its functions is, and else what the first other one is."""
    fates = [said.fate_of(it) for it in sorted(edit.functions)]
    for kind in (PROVED, UNKNOWN, LOST, NO_VERDICT, WAITING):
        found = next((why for it, why in fates if it == kind), None)
        if found is not None:
            return kind, found
    return fates[0]


def tell_batch(copy, batch, texts):
    """Which of the planted edits are refused for themselves, and which may wait for another's function. The rest is unclear."""
    said = copy.check(texts, {it for edit in batch for it in edit.functions})
    if not said.is_whole() or said.unread(texts):
        return [], []
    look_at_others(copy, said, {it for edit in batch for it in edit.functions})
    fates = [(edit, *fate_of(edit, said)) for edit in batch]
    refused = [(edit, why) for edit, kind, why in fates if kind == REFUSED]
    return refused, [edit for edit, kind, _ in fates if kind == WAITING]


def look_at_others(copy, said, named):
    """Sees that functions which no edit changes are proved, but for those that call one that isn't."""
    for it in said.told.keys() - named:
        kind, why = said.fate_of(it)
        if kind in (REFUSED, LOST):
            sys.exit(f"{copy.name}: {it} isn't proved, though no edit changes it: {why}")
        copy.is_sound = copy.is_sound or kind == PROVED


def try_batches(copy, edits):
    """Tries edits of bodies together, and answers those that are left to be tried alone."""
    left, alone = edits, []
    while left:
        batch, texts = batch_of(left)
        if not batch:
            break
        left = [it for it in left if it not in batch]
        refused, waiting = tell_batch(copy, batch, texts)
        for edit, why in refused:
            say(edit, "refused", why)
        done = [edit for edit, _ in refused]
        unclear = [it for it in batch if it not in done and it not in waiting]
        if done:
            # What an edit waited for has its own body again.
            alone += unclear + try_batches(copy, waiting)
        elif waiting or len(batch) == 1:
            # An edit that waits for none of the others has a fault that its caller shows.
            alone += batch
        else:
            half = len(batch) // 2
            alone += try_batches(copy, batch[:half]) + try_batches(copy, batch[half:])
    return alone + left


def try_alone(copy, edit):
    """Whether a check refuses the edit, where nothing else is planted."""
    texts, _ = edit.applied({})
    said = copy.check(texts, edit.functions)
    unread = said.unread(texts)
    if unread or not (said.is_whole() or edit.functions & said.told.keys()):
        errors = [it for it in said.text.split("\n") if "error" in it]
        say(edit, "BAD EDIT", unread or (errors or ["it did not reach the prover"])[0])
        return False
    kind, why = fate_of(edit, said) if edit.functions else whole_fate(said)
    words = {
        PROVED: ("NOT REFUSED", "it is still proved"),
        LOST: ("BAD EDIT", f"it takes away a name that the proof has: {why}"),
        NO_VERDICT: ("NOT REFUSED", f"the prover reached a limit: {why}"),
        WAITING: ("NOT REFUSED", f"for itself: {why}"),
        UNKNOWN: ("BAD EDIT", f"{min(edit.functions, default='')}: {why}"),
    }
    say(edit, *words.get(kind, ("refused", why)))
    return kind == REFUSED


def whole_fate(said):
    """What the check of a whole crate comes to, for an edit that names no function."""
    if re.search(r"(?m)^logic=proved", said.text):
        return PROVED, ""
    fates = [said.fate_of(it) for it in said.told]
    others = [it for it in fates if it[0] != PROVED]
    return next((it for it in others if it[0] == REFUSED), next(iter(others), (UNKNOWN, "no function is told")))


def read_edits(folder, word, crate):
    """The edits of a folder whose name contains a word, and how many can't be applied."""
    edits, bad = [], 0
    for path in edits_in(folder):
        if word in os.path.basename(path):
            try:
                edits.append(Edit(path, crate))
            except BadEdit as why:
                print(f"{os.path.basename(path)}: BAD EDIT: {why}")
                bad += 1
    return edits, bad


def try_folder(crate, folder, word="", one=False, log=""):
    """Tries the edits of a folder, and answers how many aren't refused."""
    with tempfile.TemporaryDirectory(prefix="plant-") as room:
        copy = Copy(crate, room, log)
        edits, bad = read_edits(folder, word, copy.source)
        number = len(edits) + bad
        together = [] if one else [it for it in edits if it.functions and it.is_local()]
        alone = [it for it in edits if it not in together] + try_batches(copy, together)
        left = [edit for edit in alone if not try_alone(copy, edit)]
        bad += len(left)
        # What is refused alone has its control, and so has what was planted where no function without an edit was proved.
        shown = [it for it in (alone if copy.is_sound else edits) if it.functions and it not in left]
        if shown:
            copy.control({it for edit in shown for it in edit.functions})
    print(f"{crate}: {number} edits planted, {bad} not refused", flush=True)
    return bad


@functools.cache
def toolchain_sum():
    """The checksum of the toolchain's line and of its prover."""
    line = subprocess.run(["rt", "version"], stdout=subprocess.PIPE, check=True).stdout
    return f"{line.decode().strip()} {sum_of(f'{kit()}/bin/rattle')}"


def stamp_of(crate, folder):
    """The checksum of all that a try of a crate's edits goes by: their texts, the crate's, its libraries, these scripts and the
    toolchain."""
    roots = [folder, *[f"{ROOT}/crates/{crate}/{part}" for part in PARTS]]
    files = [f"{at}/{name}" for root in roots for at, _, names in os.walk(root) for name in names]
    files += [f"{ROOT}/tools/{it}" for it in TOOLS]
    parts = [toolchain_sum(), repr(lists()[crate]), *[f"{it} {library_sum(it)}" for it in closure(crate, lists())]]
    parts += [f"{os.path.relpath(it, ROOT)} {sum_of(it)}" for it in sorted(files)]
    return hashlib.sha256("\n".join(parts).encode()).hexdigest()


def head_of(stamp, text):
    """The first line of what is kept: what it was tried over, and the checksum of what was printed."""
    return f"{stamp} {hashlib.sha256(text.encode()).hexdigest()}\n"


def kept_of(stamp):
    """What was printed of edits that were all refused over the same files, or nothing."""
    with contextlib.suppress(OSError, UnicodeDecodeError), open(f"{KEPT}/{stamp}", encoding="utf-8") as it:
        head, text = it.readline(), it.read()
        if head == head_of(stamp, text):
            return text
    return ""


def keep(stamp, text):
    with contextlib.suppress(OSError):
        os.makedirs(KEPT, exist_ok=True)
        with open(f"{KEPT}/{stamp}.{os.getpid()}", "w", encoding="utf-8") as it:
            it.write(head_of(stamp, text) + text)
        os.replace(it.name, f"{KEPT}/{stamp}")


def try_kept(crate, folder):
    """How many edits of a folder aren't refused, now or in an earlier run on this machine over the same files."""
    stamp = stamp_of(crate, folder)
    kept = kept_of(stamp)
    if kept:
        print(f"{kept}{crate}: tried by an earlier run on this machine", flush=True)
        return 0
    words = [sys.executable, __file__, crate, folder, "--built"]
    ran = subprocess.run(words, stdout=subprocess.PIPE, encoding="utf-8", check=False)
    print(ran.stdout, end="", flush=True)
    if ran.returncode == 0 and stamp_of(crate, folder) == stamp:
        keep(stamp, ran.stdout)
    bad = re.search(r"(\d+) not refused\n$", ran.stdout)
    return 0 if ran.returncode == 0 else int(bad[1]) if bad else len(edits_in(folder))


class Run:
    """A run of rt ci, by what it has printed into a file so far."""

    def __init__(self, path):
        self.path = path

    def said(self):
        with contextlib.suppress(OSError), open(self.path, encoding="utf-8", errors="replace") as it:
            return it.read()
        return ""

    def proved(self):
        """The crates whose libraries stand: those that it proved, or took as an earlier run on this machine proved them."""
        return set(re.findall(r"(?m)^rt: (\w+) (?:proved$|is kept: )", self.said()))

    def has_ended(self):
        return bool(re.search(r"(?m)^rt ci ended with \d+$", self.said()))

    def wait(self):
        while not self.has_ended():
            time.sleep(PAUSE)


def try_beside(run, folders, counts, lanes):
    """Tries the edits of each crate as soon as rt ci has proved what they are tried over, and answers how many aren't refused."""
    uses, left, running, bad = lists(), sorted(counts, key=lambda it: -counts[it]), set(), 0
    with ThreadPoolExecutor(lanes) as pool:
        while left or running:
            has_ended, proved = run.has_ended(), run.proved()
            ready = [it for it in left if proved.issuperset({it, *closure(it, uses)})]
            if has_ended and not ready and not running:
                print(f"not tried, since rt ci didn't prove what they stand on: {' '.join(left)}", flush=True)
                return bad + sum(counts[it] for it in left)
            taken = ready[: max(0, (lanes if has_ended else max(1, lanes // 2)) - len(running))]
            left = [it for it in left if it not in taken]
            running |= {pool.submit(try_kept, it, folders[it]) for it in taken}
            done, running = wait(running, PAUSE, FIRST_COMPLETED)
            bad += sum(it.result() for it in done)
            if not done and not running:
                time.sleep(PAUSE)
    return bad


def try_planted(stood, beside):
    """Tries what every crate has in planted/, and answers how many edits aren't refused."""
    uses = lists()
    folders = {it: f"{ROOT}/crates/{it}/planted" for it in uses}
    counts = {crate: len(edits_in(folder)) for crate, folder in folders.items() if edits_in(folder)}
    number = os.environ.get("RT_JOBS", "")
    lanes = int(number) if number.isdigit() and int(number) else len(os.sched_getaffinity(0))
    if beside and not stood:
        bad = try_beside(Run(beside), folders, counts, lanes)
    else:
        if beside:
            Run(beside).wait()
        build(below_all(counts, uses), set() if stood is None else made_since(stood))
        with ThreadPoolExecutor(lanes) as pool:
            bad = sum(pool.map(lambda it: try_kept(it, folders[it]), sorted(counts, key=lambda it: -counts[it])))
    print(f"{sum(counts.values()) - bad} passed, {bad} failed", flush=True)
    return bad


def below_all(crates, uses):
    """The crates below any of these, the lowest first."""
    found = []
    for crate in crates:
        found += [it for it in closure(crate, uses) if it not in found]
    return found


def words():
    given = argparse.ArgumentParser(description=__doc__, formatter_class=argparse.RawDescriptionHelpFormatter)
    given.add_argument("crate", nargs="?")
    given.add_argument("folder", nargs="?")
    given.add_argument("--gate", action="store_true")
    given.add_argument("--stood")
    given.add_argument("--beside", default="")
    given.add_argument("--before-ci", action="store_true")
    given.add_argument("--only", default="")
    given.add_argument("--one", action="store_true")
    given.add_argument("--log", default="")
    # (of the gate: the libraries are built)
    given.add_argument("--built", action="store_true", help=argparse.SUPPRESS)
    return given.parse_args()


def main():
    given = words()
    if given.before_ci:
        print(sums_before_ci())
        return 0
    if given.gate:
        return 1 if try_planted(given.stood, given.beside) else 0
    if not given.crate:
        print("a crate or --gate: see --help", file=sys.stderr)
        return 2
    folder = os.path.abspath(given.folder or f"{ROOT}/crates/{given.crate}/planted")
    if not os.path.isdir(folder):
        print(f"there is no folder {folder}", file=sys.stderr)
        return 2
    if not given.built:
        build(closure(given.crate, lists()), set())
    return 1 if try_folder(given.crate, folder, given.only, given.one, given.log) else 0


if __name__ == "__main__":
    sys.exit(main())
