#!/usr/bin/env python3
"""Checks every certificate in a folder of PEM and DER files, and totals deviations and refusals by kind.

usage: count_deviations.py FOLDER [WORKERS]

It needs dask and distributed (Debian: python3-dask and python3-distributed). The work is done by two processes of this machine
where no other number is given; a cluster of several machines takes the place of LocalCluster.
"""

from __future__ import annotations

import collections
import logging
import os
import sys

from dask.bag import from_sequence  # type: ignore[attr-defined]
from dask.distributed import Client, LocalCluster

import cimaroly

# How many files one task takes, and the largest file that is read.
FILES = 200
MOST_BYTES = 10_000_000


def found_in(path: str) -> collections.Counter[str]:
    """What is found in a file, each with its number."""
    found: collections.Counter[str] = collections.Counter()
    try:
        with open(path, "rb") as file:
            data = file.read(MOST_BYTES + 1)
        if len(data) > MOST_BYTES:
            return collections.Counter({"files passed over as too large": 1})
        for it in cimaroly.read_each(data, "certificate"):
            found["certificates"] += 1
            if it.structure is not None:
                for deviation, count in it.structure.verdict.counts.items():
                    found[f"deviation: {deviation.text}"] += count
            elif isinstance(it.refused, cimaroly.Refused):
                found[f"refused: {it.refused.name}"] += 1
            else:
                found["blocks that could not be decoded"] += 1
    except OSError as error:
        found[f"files that could not be read: {type(error).__name__}"] += 1
    return found


def files_of(folder: str) -> list[str]:
    """The files in a folder and below it."""
    return sorted(os.path.join(where, name) for where, _, names in os.walk(folder) for name in names)


def total(folder: str) -> collections.Counter[str]:
    """What is found in all files of a folder, by the workers of the client that there is."""
    files = files_of(folder)
    if not files:
        return collections.Counter()
    bag = from_sequence(files, partition_size=FILES).map(found_in)
    whole: collections.Counter[str] = bag.fold(lambda one, other: one + other, initial=collections.Counter()).compute()
    return whole


def main() -> int:
    if len(sys.argv) not in (2, 3) or not os.path.isdir(sys.argv[1]):
        print(__doc__.split("\n\n")[1], file=sys.stderr)
        return 2
    workers = int(sys.argv[2]) if len(sys.argv) == 3 else 2
    limits = {"threads_per_worker": 1, "memory_limit": "512MB", "dashboard_address": None}
    with LocalCluster(n_workers=workers, silence_logs=logging.ERROR, **limits) as cluster, Client(cluster):
        for what, count in sorted(total(sys.argv[1]).items()):
            print(f"{count:8} {what}")
    return 0


if __name__ == "__main__":
    sys.exit(main())
