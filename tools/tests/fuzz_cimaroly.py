#!/usr/bin/env python3
"""Checks a folder of damaged files with cimaroly, 10,000 where no COUNT is given: it must end by itself, with a line for each file,
and never by a signal.

usage: tools/tests/fuzz_cimaroly.py [SEED [COUNT]]

The damage is the same for the same seed, which is 43 where none is given. The program is $CIMAROLY, or that of dist/.
"""

import base64
import json
import os
import platform
import random
import re
import subprocess
import sys
import tempfile

HERE = os.path.dirname(os.path.abspath(__file__))
DATA = f"{HERE}/data"
ROOT = os.path.dirname(os.path.dirname(HERE))
PROGRAM = os.environ.get("CIMAROLY") or f"{ROOT}/dist/{platform.machine()}-linux/cimaroly"
COUNT = int(sys.argv[2]) if len(sys.argv) > 2 else 10000


def damaged(random_source, data):
    """The bytes with one to four changes: bytes changed, cut out, doubled, put in, or the end cut off."""
    data = bytearray(data)
    for _ in range(random_source.randint(1, 4)):
        at = random_source.randrange(len(data) + 1)
        kind = random_source.randrange(6)
        size = random_source.choice((1, 1, 1, 2, 8, 64))
        if kind == 0 and at < len(data):
            data[at] = random_source.randrange(256)
        elif kind == 1 and at < len(data):
            data[at] ^= 1 << random_source.randrange(8)
        elif kind == 2:
            del data[at : at + size]
        elif kind == 3:
            data[at:at] = data[at : at + size]
        elif kind == 4:
            data[at:at] = random_source.randbytes(size)
        else:
            del data[at:]
        data = data or bytearray(b"\x30")
    return bytes(data)


def originals():
    """The files of data/, each as it is, and what its PEM or its digits stand for."""
    found = []
    for it in sorted(os.listdir(DATA)):
        with open(f"{DATA}/{it}", "rb") as file:
            text = file.read()
        if it.endswith(".hex"):
            found += [text, bytes.fromhex(text.decode())]
        elif it.endswith(".pem"):
            block = re.search(rb"-----BEGIN [^-]*-----\n([^-:]*)-----END", text)
            found += [text] + ([base64.b64decode(block[1])] if block else [])
    return found


def main():
    seed = int(sys.argv[1]) if len(sys.argv) > 1 else 43
    random_source = random.Random(seed)
    files = originals()
    with tempfile.TemporaryDirectory() as room:
        for number in range(COUNT):
            with open(f"{room}/{number:05}", "wb") as file:
                file.write(damaged(random_source, random_source.choice(files)))
        results = {}
        for words in (["check", "--json"], ["show", "--json"], ["show"], ["tree"]):
            ended = subprocess.run([PROGRAM, *words, room], capture_output=True, check=False)
            if ended.returncode not in (0, 1, 2, 3):
                print(f"{' '.join(words)} ended with {ended.returncode}: {ended.stderr[-500:]}")
                return 1
            if "--json" in words:
                told = [json.loads(line) for line in ended.stdout.splitlines()]
                if {it["file"] for it in told} != {f"{room}/{number:05}" for number in range(COUNT)}:
                    print(f"{' '.join(words)} tells nothing of some files")
                    return 1
                for it in told:
                    results[it["result"]] = results.get(it["result"], 0) + 1
            if re.search(rb"[\x00-\x09\x0b-\x1f\x7f]", ended.stdout):
                print(f"{' '.join(words)} prints a control character")
                return 1
    print(f"{COUNT} damaged files of seed {seed}, each checked, shown as text and JSON, and as a tree: {results}")
    return 0


if __name__ == "__main__":
    sys.exit(main())
