#!/usr/bin/env python3
"""Measures how fast cimaroly goes through many certificates in one PEM file, beside OpenSSL, both in one run.

usage: tools/measure/cimaroly_speed.py [COUNT]

The file has COUNT times the certificate of 1,560 bytes in tools/tests/data, 100,000 where none is given. For each program it prints
seconds of the clock and of the processor, the least of three runs in turns, and the most memory; at last how many times as fast
cimaroly is, by seconds of the processor. The program is $CIMAROLY, or that of dist/.
"""

import os
import platform
import sys
import tempfile
import time

ROOT = os.path.dirname(os.path.dirname(os.path.dirname(os.path.abspath(__file__))))
PROGRAM = os.environ.get("CIMAROLY") or f"{ROOT}/dist/{platform.machine()}-linux/cimaroly"
CERTIFICATE = f"{ROOT}/tools/tests/data/certificate_rsa.pem"
RUNS = 3


def measured(words):
    """Seconds of the clock, seconds of the processor, and megabytes, of a run whose output goes nowhere."""
    start = time.monotonic()
    child = os.posix_spawnp(
        words[0], words, os.environ, file_actions=[(os.POSIX_SPAWN_OPEN, it, os.devnull, os.O_WRONLY, 0) for it in (1, 2)]
    )
    _, status, usage = os.wait4(child, 0)
    if status != 0:
        sys.exit(f"{words[0]} ended with {os.waitstatus_to_exitcode(status)}")
    return time.monotonic() - start, usage.ru_utime + usage.ru_stime, usage.ru_maxrss / 1024


def main():
    count = int(sys.argv[1]) if len(sys.argv) > 1 else 100000
    with open(CERTIFICATE, "rb") as file:
        certificate = file.read()
    with tempfile.TemporaryDirectory() as room:
        path = f"{room}/certificates.pem"
        with open(path, "wb") as file:
            for _ in range(count):
                file.write(certificate)
        commands = {
            "cimaroly check --quiet": [PROGRAM, "check", "--quiet", path],
            "cimaroly check": [PROGRAM, "check", path],
            "cimaroly check --json": [PROGRAM, "check", "--json", path],
            "cimaroly show": [PROGRAM, "show", path],
            "cimaroly show --json": [PROGRAM, "show", "--json", path],
            "openssl storeutl -noout -certs": ["openssl", "storeutl", "-noout", "-certs", path],
            "openssl storeutl -text -certs": ["openssl", "storeutl", "-text", "-certs", path],
        }
        results = {}
        for _ in range(RUNS):
            for name, words in commands.items():
                results.setdefault(name, []).append(measured(words))
    least = {name: [min(it[at] for it in runs) for at in range(2)] + [max(it[2] for it in runs)] for name, runs in results.items()}
    for name, (clock, processor, memory) in least.items():
        print(f"{name:34} {clock:8.2f} s {processor:8.2f} s of a processor {memory:8.1f} MB")
    print(f"{count} certificates, by seconds of the processor:")
    for mine, other in (
        ("cimaroly check", "openssl storeutl -noout -certs"),
        ("cimaroly show", "openssl storeutl -text -certs"),
        ("cimaroly show --json", "openssl storeutl -text -certs"),
    ):
        print(f"{mine} is {least[other][1] / least[mine][1]:.1f} times as fast as {other}")


if __name__ == "__main__":
    main()
