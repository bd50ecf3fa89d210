#!/usr/bin/env python3
"""Writes packaging/share/: manual pages and completions, from commands.tsv, man/, VERSION, README.md and the C header.

usage: packaging/make_manual.py [--check]   --check writes nothing, and names the files that aren't up to date
"""

import csv
import os
import re
import sys

import completions

HERE = os.path.dirname(os.path.abspath(__file__))
ROOT = os.path.dirname(HERE)
# The statuses and examples that `cimaroly --help` ends with.
STATUS = {
    0: "Everything is in DER.",
    1: "Something was refused.",
    2: "Wrong usage.",
    3: "Something has deviations or findings.",
    4: "Input or output failed.",
    5: "Out of memory.",
}
EXAMPLES = (
    "cimaroly show cert.pem",
    "cimaroly check --progress /etc/ssl/certs",
    "cimaroly check --json certs.pem | jq -c 'select(.result != \"ok\")'",
    "cimaroly show --fields subject,notAfter,sha256 certs.pem",
    "cimaroly check --at 2026-12-31T23:59:59Z certs.pem",
    "cimaroly match cert.pem key.pem",
    "cimaroly lint --ignore modulus-short certs.pem",
    "cimaroly der --pem cert.pem > strict.pem",
    "cimaroly request --subject CN=example.org --dns example.org --key key.pub -o request.tbs",
    "cimaroly assemble request.tbs request.sig --algorithm ecdsa-with-SHA256 --pem > request.pem",
)


def text_of(path):
    with open(f"{ROOT}/{path}", encoding="utf-8") as file:
        return file.read()


def rows_of(path):
    """The rows of a table, in which a hyphen alone is nothing."""
    with open(f"{ROOT}/{path}", encoding="utf-8", newline="") as file:
        rows = csv.DictReader(file, delimiter="\t", quoting=csv.QUOTE_NONE)
        return [{key: "" if it == "-" else it for key, it in row.items()} for row in rows]


def table():
    """The rows of commands.tsv, with the names of the kinds in the place of the word."""
    kinds = rows_of("tools/tables/kinds.tsv")
    names = {
        "kinds": ",".join(it["name"] for it in kinds),
        "kinds of x509_tool": ",".join(sorted(it["name"] for it in kinds if it["tool"])),
    }
    return [{**row, "values": names.get(row["values"], row["values"])} for row in rows_of("packaging/commands.tsv")]


def roff(text):
    """Plain text, as roff prints it unchanged."""
    text = text.replace("\\", "\\e").replace("-", "\\-").replace("'", "\\(aq")
    return re.sub(r"^\.", r"\\&.", text, flags=re.MULTILINE)


def bold(*words):
    return ", ".join(f"\\fB{roff(it)}\\fR" for it in words if it)


def item(head, text):
    return f".TP\n{head}\n{text}"


def commands(rows):
    """The rows of commands, and of the options that several of them have, with these."""
    named = [it for it in rows if it["command"] and not it["long"]]
    options = {}
    for it in rows:
        if it["long"]:
            options.setdefault((it["short"], it["long"], it["value"], it["text"]), []).append(it["command"])
    return named, options


def usage(rows, command):
    """What stands behind the program's name, as the help of a command shows it."""
    (row,) = (it for it in rows if it["command"] == command and not it["long"])
    has_options = any(it["command"] == command and it["long"] not in ("", "--help") for it in rows)
    return " ".join([command, *["[OPTIONS]"] * has_options, row["value"]])


def synopsis(rows, named):
    lines = []
    for it in named:
        command, _, rest = usage(rows, it["command"]).partition(" ")
        command = roff(command) if command != completions.UNNAMED else f"\\fR[\\fB{command}\\fR]"
        lines.append(f".B cimaroly {command}\n{roff(rest)}")
    return "\n.br\n".join([*lines, ".B cimaroly\n\\-\\-version"])


def options_text(options):
    items = []
    for (short, long, value, text), users in options.items():
        users = [it for it in users if it]
        head = bold(short, long) + (f" \\fI{value}\\fR" if value else "")
        where = f" ({bold(*users)})" if users and long != "--help" else ""
        items.append(item(head, f"{roff(text)}{where}."))
    return "\n".join(items)


def types(rows):
    return bold(*completions.types(rows).split())


def page_of_program(rows):
    named, options = commands(rows)
    return {
        "SYNOPSIS": synopsis(rows, named),
        "COMMANDS": "\n".join(item(f"{bold(it['command'])} {roff(it['value'])}", f"{roff(it['text'])}.") for it in named),
        "OPTIONS": options_text(options),
        "TYPES": types(rows),
        "STATUS": "\n".join(item(f".B {number}", text) for number, text in STATUS.items()),
        "EXAMPLES": "\n".join([".nf", *map(roff, EXAMPLES), ".fi"]),
    }


def page_of_tool(rows):
    deviations = re.findall(r"^\| (\d+) \| (.*?) \| `", text_of("README.md"), re.MULTILINE)
    return {
        "SYNOPSIS": f".B x509_tool\n.I {rows[0]['value']}",
        "TYPES": types(rows),
        "DEVIATIONS": "\n".join(item(number, roff(text)) for number, text in deviations),
    }


def prototype(text):
    """A declaration over several lines, with its name in bold."""
    text = re.sub(r" *\n +", "\n    ", roff(text.strip()))
    return re.sub(r"(cimaroly_\w+)\(", r"\\fB\1\\fR(", text, count=1)


def comment(text):
    """The paragraphs of a comment, where each line that begins with a status is one too."""
    text = re.sub(r"^ \* ?", "", text.strip("\n"), flags=re.MULTILINE)
    lines = [f".br\n{roff(it)}" if it.startswith("CIMAROLY_") else roff(it) for it in text.strip().splitlines()]
    text = "\n".join(it or ".PP" for it in lines).replace(".PP\n.br\n", ".PP\n")
    return re.sub(r"`(\w+)`", r"\\fI\1\\fR", text)


def page_of_library():
    header = text_of("bindings/c/cimaroly.h")
    calls = re.findall(r"^/\*\n((?: \*.*\n)+?) \*/\n((?:uint32_t cimaroly_[^;]*;\n)+)", header, re.MULTILINE)
    inline = re.findall(r"^static inline ([^{;]*?)\n\{", header, re.MULTILINE)
    sections = []
    for text, declared in calls:
        names = bold(*(f"{it}()" for it in re.findall(r"(cimaroly_\w+)\(", declared)))
        sections.append(f".SS {names}\n{comment(text)}")
    declared = [it for _, group in calls for it in group.strip().split(";\n")]
    return {
        "SYNOPSIS": "\n.PP\n".join(prototype(it.rstrip(";") + ";") for it in declared),
        "CALLS": "\n".join(sections),
        "INLINE": "\n.PP\n".join(prototype(f"{it};") for it in inline),
    }


def page(name, parts):
    head = '.\\" Written by packaging/make_manual.py. SPDX-License-Identifier: MIT OR Apache-2.0\n'
    parts = {**parts, "VERSION": text_of("VERSION").strip()}
    return head + re.sub(r"@([A-Z]+)@", lambda it: parts[it.group(1)], text_of(f"packaging/man/{name}.in"))


def files():
    """What packaging/share/ holds, by path."""
    rows = table()
    cimaroly, tool = ([it for it in rows if it["program"] == name] for name in ("cimaroly", "x509_tool"))
    return {
        "man/man1/cimaroly.1": page("cimaroly.1", page_of_program(cimaroly)),
        "man/man1/x509_tool.1": page("x509_tool.1", page_of_tool(tool)),
        "man/man3/cimaroly.3": page("cimaroly.3", page_of_library()),
        **completions.files({"cimaroly": cimaroly, "x509_tool": tool}),
    }


def main():
    if sys.argv[1:] not in ([], ["--check"]):
        sys.exit(__doc__.splitlines()[-1])
    stale = []
    for path, text in files().items():
        path = f"packaging/share/{path}"
        if not os.path.isfile(f"{ROOT}/{path}") or text_of(path) != text:
            stale.append(path)
            if len(sys.argv) == 1:
                os.makedirs(os.path.dirname(f"{ROOT}/{path}"), exist_ok=True)
                with open(f"{ROOT}/{path}", "w", encoding="utf-8") as file:
                    file.write(text)
    if len(sys.argv) > 1 and stale:
        sys.exit(f"not up to date: {', '.join(stale)}: packaging/make_manual.py writes them")


if __name__ == "__main__":
    main()
