"""Edits that plant a fault in a crate: how they are written, read and applied.

An edit is a file with a line 'file: src/..' and then pairs of lines 'old: TEXT' and 'new: TEXT'. Each old text must stand exactly
once in its file, as the pairs before it left it. Lines 'function: PATH' name the functions that the prover must refuse with the
edit, each by its whole path below the crate, as a check prints it; rt must-fail, which tries the whole crate, doesn't read them.

An edit changes code alone: no contract, definition or proof. One that changes only bodies of functions names just these, and one
that changes more (a type, a constant) names at least these.
"""

import os
import re

from functions import Source, contracts_of, homes_of

ROOT = os.path.dirname(os.path.dirname(os.path.abspath(__file__)))

# Edits that rt ci tries, those that tools/plant.py tries in the gate, and those that are to be tried before they are planted.
FOLDERS = ("must-fail", "planted", "more-edits")

# Words of what is stated, and of what code has proved.
STATES = re.compile(r"\b(?:ghost|requires|ensures|tactic|prove!?|assert\w*!|unreachable!)")


class BadEdit(Exception):
    """Why an edit can't be applied, or shows nothing."""


class Edit:
    """An edit of a crate, which stands in this folder: its changes, and the functions that must be refused."""

    def __init__(self, path, crate):
        self.path, self.name, self.crate = path, os.path.basename(path), crate
        self.named, self.changes = read_edit(path)
        stray = next((it for it, _, _ in self.changes if not re.fullmatch(r"src/[\w/]+\.rt", it)), None)
        if stray:
            raise BadEdit(f"{stray} is no source file, and an edit of a definition or a proof shows nothing")
        adds = next((new for _, old, new in self.changes if STATES.findall(old) != STATES.findall(new)), None)
        if adds is not None:
            raise BadEdit(f"it states more or less than the code does: {adds.strip()[:60]}")
        texts, places = self.applied({})
        # The functions whose bodies it changes, by their paths; None where a change stands outside of bodies.
        self.bodies = self.bodies_at(places)
        self.keeps_contracts(texts)
        changed = self.bodies - {None}
        left_out = changed - self.named if self.named else set()
        if left_out:
            raise BadEdit(f"it changes the function {min(left_out)}, which it doesn't name")
        others = self.named - changed
        if others and self.is_local():
            raise BadEdit(f"it doesn't change the function {min(others)}")
        # Those that must be refused.
        self.functions = self.named or changed

    def is_local(self):
        """Whether it changes bodies of functions alone."""
        return None not in self.bodies

    def bodies_at(self, places):
        """The path of the function around each of these places, each a file and a line."""
        homes = homes_of(texts_of(self.crate))
        files = {it for it, _ in places}
        sources = {it: Source(it, text_of(self.crate, it, {}), homes) for it in files}
        return {sources[file].path_at(line) for file, line in places}

    def keeps_contracts(self, texts):
        for file, text in texts.items():
            was, now = contracts_of(text_of(self.crate, file, {})), contracts_of(text)
            if was != now:
                raise BadEdit(f"it changes a contract, a definition or a proof in {file}: {first_difference(was, now)}")

    def applied(self, texts):
        """The texts after the edit, and for each change its file and its line."""
        texts, places = dict(texts), []
        for file, old, new in self.changes:
            text = text_of(self.crate, file, texts)
            found = text.count(old)
            if found != 1:
                raise BadEdit(f"{file} has {found} times, and not once: {old.strip()}")
            places.append((file, text.count("\n", 0, text.index(old))))
            texts[file] = text.replace(old, new)
        return texts, places


def first_difference(was, now):
    """The first of two lists' items that stands in one of them alone."""
    return next((one or other for one, other in zip([*was, ""], [*now, ""]) if one != other), "").split("\n")[0].strip()[:80]


def read_edit(path):
    """The functions that an edit names, and its changes, each a file, the old text and the new one."""
    file, old, functions, changes = None, None, set(), []
    with open(path, encoding="utf-8") as it:
        lines = it.read().split("\n")
    for line in lines:
        if line.startswith("file: "):
            file = line[6:].strip()
        elif line.startswith("function: "):
            functions.add(line[10:].strip())
        elif line.startswith("old: "):
            old = line[5:]
        elif line.startswith("new:"):
            if not file or not old:
                raise BadEdit("a 'new:' line stands before any 'file:' or 'old:' line")
            changes.append((file, old, line[4:].removeprefix(" ")))
            old = None
        elif line.strip():
            raise BadEdit(f"a line is none of file:, function:, old: and new:, but {line[:40]}")
    if not changes:
        raise BadEdit("it has no 'old:' and 'new:' pair")
    return functions, changes


def text_of(crate, file, texts):
    """The text of a file of the crate, as the changes so far left it."""
    if file not in texts:
        try:
            with open(f"{crate}/{file}", encoding="utf-8") as it:
                texts[file] = it.read()
        except OSError:
            raise BadEdit(f"there is no file {file}") from None
    return texts[file]


def texts_of(crate):
    """The source files of a crate, by their paths below it."""
    paths = [f"{at}/{name}" for at, _, names in os.walk(f"{crate}/src") for name in sorted(names) if name.endswith(".rt")]
    return {os.path.relpath(it, crate): text_of(crate, os.path.relpath(it, crate), {}) for it in paths}


def edits_in(folder):
    """The edits of a folder, by name; none where there is no such folder."""
    return sorted(f"{folder}/{it}" for it in os.listdir(folder) if it.endswith(".edit")) if os.path.isdir(folder) else []
