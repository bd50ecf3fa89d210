#!/usr/bin/env python3
"""Tells which functions of a crate a first check spent its time on.

usage: tools/where_time_goes.py FOLDER [COUNT]

FOLDER is the folder of kept work of a check from nothing at one job, as crates/NAME/out/incremental after
'rt check --jobs 1'. The check writes a file for each module as it ends with it, so the time between two files is that of
the later one. Printed are the seconds of each kind of module, and then the COUNT functions, structures and impls that took
the most (40 where it is left out): seconds, the share of all so far, megabytes, and the kinds of module that took the most
of them. Seconds are of the clock, so nothing else should run beside the check.

The kinds: Lts is the walk through a function's code with its exits and drops, Tie its join with what it calls, Proof its
goals, Reads and Layout its places, TheImpl the ghost members of an impl.
"""

import collections
import os
import re
import sys

KINDS = (
    "Lts|Proof|Tie|Reads|Answers|Invariants|Goals|Given|Layout|Mir|Code|Statement|Met|Kinds|Named|Symbol|Key|View|TheImpl"
    "|TheLink|TheLaws|Laws"
)
MODULE = re.compile(r"Rattle-\w+-(proofs|specs)\.(.*)\.oantt")


def modules_in(folder):
    """Each module's time of writing, size and file name, in order."""
    found = []
    for at, _, names in os.walk(folder):
        for name in names:
            if name.endswith(".oantt"):
                stat = os.stat(f"{at}/{name}")
                found.append((stat.st_mtime_ns / 1e9, stat.st_size, name))
    return sorted(found)


def owner_of(name):
    """The function, structure or impl that a module belongs to, and its kind."""
    found = MODULE.fullmatch(name)
    if not found:
        return "what is passed on", "facade"
    parts = re.split(rf"\.({KINDS})(?=[.-]|$)", found[2], maxsplit=1)
    if len(parts) > 1:
        return parts[0], parts[1]
    return found[2].removesuffix(".decls"), found[1]


def main():
    if len(sys.argv) not in (2, 3):
        print(__doc__.split("\n\n", maxsplit=2)[1])
        return 2
    count = int(sys.argv[2]) if len(sys.argv) == 3 else 40
    kinds, owners, sizes = collections.Counter(), collections.defaultdict(collections.Counter), collections.Counter()
    before = None
    for time, size, name in modules_in(sys.argv[1]):
        owner, kind = owner_of(name)
        took = 0 if before is None else time - before
        before = time
        kinds[kind] += took
        owners[owner][kind] += took
        sizes[owner] += size
    total = sum(kinds.values())
    print(f"{total:.0f} s in all")
    for kind, took in kinds.most_common(10):
        print(f"{took:8.1f} {kind}")
    so_far = 0
    for owner, took in sorted(((it, sum(of.values())) for it, of in owners.items()), key=lambda it: -it[1])[:count]:
        so_far += took
        most = "  ".join(f"{kind} {it:.1f}" for kind, it in owners[owner].most_common(3))
        print(f"{took:8.1f} {so_far / max(total, 1e-9):4.0%} {sizes[owner] / 1e6:6.1f} MB  {owner}  {most}")
    return 0


if __name__ == "__main__":
    sys.exit(main())
