#!/usr/bin/env python3
"""Stands in for the program where its tests are tested: the answers of their own rows, behind a shell that is right or wrong.

usage: stand_in.py right|WRONG [ARGUMENT..]
"""

import contextlib
import os
import re
import signal
import sys

import program_rows as rows

LINES = {1: "refused", 2: "usage: x509_tool TYPE", 5: "input or output failed"}
TYPES = {it[0] for it in rows.ACCEPTED}

# What is wrong with the shell, and the test that must see it.
WRONG = {
    "always ends with 0": "test_refused",
    "prints its line where there is none": "test_accepted",
    "prints no line": "test_refused",
    "prints its line on standard output": "test_usage",
    "ends with another status": "test_usage",
    "takes a failed print for done": "test_output_to_a_full_device",
    "is killed by a closed pipe": "test_output_to_a_closed_pipe",
    "cuts its output at 4096 bytes": "test_lengths_around_a_read",
    "prints the second line alone": "test_accepted",
    "never fetches a second argument": "test_usage",
    "reads without an argument": "test_no_argument_reads_nothing",
    "takes any bytes for an argument": "test_usage",
    "gives up after 16 reads": "test_long_inputs",
    "gives up above 64 KB": "test_long_inputs",
    "reads once": "test_pauses",
    "loses the last read": "test_lengths_around_a_read",
    "takes a failed read for the end": "test_input_closed",
}


def text_of_input(wrong):
    """Standard input, or None where a read failed."""
    text, number = bytearray(), 0
    while True:
        try:
            part = os.read(0, 4096)
        except OSError:
            return text if wrong == "takes a failed read for the end" else None
        number += 1
        if not part or wrong == "loses the last read" and len(part) < 4096 and len(text) >= 4096:
            return text
        text += part
        if wrong == "reads once":
            return text
        if wrong == "gives up after 16 reads" and number == 16 or wrong == "gives up above 64 KB" and len(text) > 65536:
            return None


def answer(name, text):
    """The status, and what is printed: of the rows, and of long lists."""
    digits = text.removesuffix(b"\n").decode("latin-1").lower()
    if not re.fullmatch(r"[0-9a-f]*", digits) or len(digits) % 2:
        return 2, ""
    for it, row, encoding, counts in rows.ACCEPTED:
        if it == name and row.removesuffix("\n").lower() == digits:
            return 0, f"{encoding}\n{counts}\n"
    if name == "extensions" and len(digits) > 1000:
        for size in (500_000, 8_000_000):
            long, lines = rows.long_row(size)
            if digits == long:
                return 0, lines
        with contextlib.suppress(IndexError):
            if digits == rows.list_of_length(len(digits)):
                return 0, f"{digits}\n{rows.NONE}\n"
    return 1, ""


def outcome(wrong, arguments):
    """The status, and what is printed."""
    try:
        errors = "ignore" if wrong == "takes any bytes for an argument" else "strict"
        names = [os.fsencode(it).decode(errors=errors) for it in arguments]
    except UnicodeDecodeError:
        return 2, ""
    if wrong == "never fetches a second argument":
        names = names[:1]
    if wrong == "reads without an argument":
        text_of_input(wrong)
    if len(names) != 1 or names[0] not in TYPES:
        return 2, ""
    text = text_of_input(wrong)
    return (5, "") if text is None else answer(names[0], text)


def printed(text, wrong):
    """Whether standard output took the text."""
    if wrong == "cuts its output at 4096 bytes":
        text = text[:4096]
    if wrong == "prints the second line alone":
        text = text.partition("\n")[2]
    left = text.encode()
    try:
        while left:
            left = left[os.write(1, left) :]
    except OSError:
        return wrong == "takes a failed print for done"
    return True


def main():
    wrong, arguments = sys.argv[1], sys.argv[2:]
    if wrong == "is killed by a closed pipe":
        signal.signal(signal.SIGPIPE, signal.SIG_DFL)
    status, text = outcome(wrong, arguments)
    if status == 0 and not printed(text, wrong):
        status = 5
    has_line = status == 0 if wrong == "prints its line where there is none" else status != 0
    if has_line and wrong != "prints no line":
        line = f"{LINES.get(status, 'done')}\n".encode()
        with contextlib.suppress(OSError):
            os.write(1 if wrong == "prints its line on standard output" else 2, line)
    if wrong == "always ends with 0":
        return 0
    return 1 if wrong == "ends with another status" and status else status


if __name__ == "__main__":
    sys.exit(main())
