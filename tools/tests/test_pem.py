"""PEM in the program cimaroly, by the table that Python and JavaScript are tested with too."""

import json
import re
import unittest

from cimaroly_program import DATA, NEEDS_PROGRAM, ROOT, run

FAULTS = {"another label": "label", "invalid base64": "base64", "no END line": "end", "headers": "headers"}


def rows():
    """The name of each text, the text, and what it has."""
    with open(f"{ROOT}/bindings/tests/pem.tsv", encoding="ascii") as table:
        for line in table.read().split("\n"):
            if line and not line.startswith("#"):
                name, text, answer = line.split("\t")
                yield name, text.encode().decode("unicode_escape").encode("latin-1"), answer


def told(block):
    """A block as the table has it, without what the program doesn't tell: bytes that are passed over, and of what is refused
    the label."""
    if block["result"] == "passed over":
        return f"{block['label']}@{block['line']}"
    return f"!{next(name for words, name in FAULTS.items() if words in block['reason'])}"


@NEEDS_PROGRAM
class Table(unittest.TestCase):
    def test_blocks(self):
        for name, text, answer in rows():
            with self.subTest(name):
                lines = run("check", "--json", data=text)[0].splitlines()
                blocks = [json.loads(line) for line in lines]
                found = [told(it) for it in blocks if "label" in it]
                self.assertEqual(" ".join(found), re.sub(r"=[0-9a-f]*|\w+(?=!)", "", answer))


@NEEDS_PROGRAM
class Bare(unittest.TestCase):
    def test_bare_base64(self):
        with open(f"{DATA}/certificate_ec.pem", "rb") as file:
            text = b"".join(file.read().splitlines(True)[1:-1])
        for data in (text, text.replace(b"\n", b"\r\n "), b"\n \t" + text):
            (line,) = run("check", "--json", data=data)[0].splitlines()[:1]
            self.assertEqual(json.loads(line)["result"], "ok")
        for data in (text[:-2], b"MAMA\n"):
            self.assertNotEqual(run("check", data=data)[2], 0)


if __name__ == "__main__":
    unittest.main()
