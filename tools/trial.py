"""Checks of a copy of a crate in which edits are planted, and what a check says of each function."""

import os
import re
import shutil
import signal
import subprocess
import sys

from edits import ROOT
from libraries import closure, library, lists

PARTS = ("src", "specs", "proofs")
# A function that may be refused for another's sake.
WAITS = re.compile(r"it (calls|passes|waits) ")
# The libraries were not built over each other.
STALE = re.compile(r"module .Rattle-\w+-.*Run the lower steps again|was built over another build of")
# An error that says that a text can't be read, and not that it isn't proved.
ERROR = re.compile(r"(?m)^(?:\./)?(\S+?):\d+:\d+: error: (?:(`[^`]*`): )?(.*)")
READING = re.compile(
    r"is not in scope(?! here, so what is shown)|has no field|is no name|operand is missing|expected the end|cannot continue"
)
# An error about a name that a proof has and the code doesn't have any more. (Where two types differ, a line below may say of a
# variable that is printed that it "is not in scope here, so what is shown does not paste back".)
NAMES = re.compile(r"has no field|is not in scope(?! here, so what is shown)|has no `|was not admitted|\(nearest: ")
# The prover ended without a verdict.
LIMIT = re.compile(r"could not tell|ran out of (stack|the (steps|memory))|outgrew the memory limit|stopped at the step limit \(")
# A search for a proof ended at a bound of its own.
GAVE_UP = re.compile(r"gave up at one of its limits|stopped at its own limit")
# A line that begins what is said next. Any other one goes on with the message in front of it.
BEGINS = re.compile(
    r"\S+:\d+(?::\d+)?: |(?:only|logic)=|(?:by-macro|error|help|note|rattle|rt|so far|warning): "
    r"|(?:checked|closure|const|crate|enum|fn|impl|library|logic|mod|statements|static|struct|trait|type|union) \S+[:,] "
)
# What is said of a function or a place, which may go over several lines.
GOES_ON = re.compile(r"\S+:\d+(?::\d+)?: |note: |fn ")


class Copy:
    """A copy of a crate's files, in which edits are planted, with what its checks keep."""

    def __init__(self, name, room, log=""):
        self.name, self.log = name, log
        self.source, self.folder, self.kept = f"{room}/source", f"{room}/planted", f"{room}/kept"
        # Whether a function was proved that no edit had changed.
        self.is_sound = False
        os.mkdir(self.kept)
        copy_parts(f"{ROOT}/crates/{name}", self.source)

    def write(self, texts):
        """Puts the crate's own files in place, as they were when the run began, and these texts over them."""
        shutil.rmtree(self.folder, ignore_errors=True)
        copy_parts(self.source, self.folder)
        for file, text in texts.items():
            with open(f"{self.folder}/{file}", "w", encoding="utf-8") as it:
                it.write(text)

    def check(self, texts, functions=()):
        """What a check says over these texts: of these functions, or of the whole crate."""
        self.write(texts)
        only = [it for function in sorted(functions) for it in ("--only", function)]
        words = [*check_of(self.name, self.folder), "--incremental", self.kept, *only]
        ran = run(words, self.folder)
        if ran.returncode == -signal.SIGKILL:
            # most likely for memory
            ran = run(words, self.folder)
        if self.log:
            with open(self.log, "a", encoding="utf-8") as it:
                it.write(ran.stdout)
        if STALE.search(ran.stdout):
            sys.exit(f"{self.name}: the libraries below it don't fit each other: build them again")
        return Said(self.name, ran.stdout)

    def control(self, functions):
        """Ends the run where these functions aren't proved without an edit."""
        said = self.check({}, functions)
        bad = sorted(it for it in functions if said.fate_of(it)[0] != PROVED)
        if bad:
            sys.exit(f"{self.name}: {bad[0]} isn't proved without an edit: {said.text[-1000:]}")


def run(words, folder):
    """Runs a command in a folder, and gathers what it prints."""
    return subprocess.run(
        words,
        cwd=folder,
        stdin=subprocess.DEVNULL,
        stdout=subprocess.PIPE,
        stderr=subprocess.STDOUT,
        encoding="utf-8",
        errors="replace",
        check=False,
    )


def copy_parts(source, folder):
    for part in PARTS:
        if os.path.isdir(f"{source}/{part}"):
            shutil.copytree(f"{source}/{part}", f"{folder}/{part}")


def kit():
    """The folder of the toolchain."""
    command = shutil.which("rt")
    if not command:
        sys.exit("the toolchain's command rt isn't on the PATH: README says what is needed")
    return os.path.dirname(os.path.dirname(os.path.realpath(command)))


def root_of(folder):
    """The root file of a crate whose files stand in a folder."""
    return "src/main.rt" if os.path.isfile(f"{folder}/src/main.rt") else "src/lib.rt"


def check_of(name, folder):
    """The check of a crate, whose files stand in a folder, over the built libraries of those that it lists, by one job."""
    uses = lists()
    words = [f"{kit()}/bin/rattle", "check", "--crate-name", name, root_of(folder), "--jobs", "1"]
    words += ["--antt-project", f"{kit()}/rattle/logic/antt-project.json", "--logic-built", f"{kit()}/logic_built"]
    for it in ["std", *uses[name]]:
        words += ["--extern", f"{it}={library(it) if it in uses else f'{kit()}/rlibs/{it}.rlib'}"]
    words += ["-L", f"dependency={kit()}/rlibs"]
    for it in closure(name, uses):
        words += ["-L", f"dependency={os.path.dirname(library(it))}"]
    return words


def joined(text):
    """What a check printed, with each message on a line of its own."""
    lines = []
    for line in text.split("\n"):
        if lines and GOES_ON.match(lines[-1]) and not BEGINS.match(line):
            lines[-1] = f"{lines[-1]} {line.strip()}".rstrip()
        else:
            lines.append(line)
    return "\n".join(lines)


# What a check came to for a function.
PROVED, REFUSED, WAITING, LOST, NO_VERDICT, UNKNOWN = "proved", "refused", "waiting", "lost", "no verdict", "unknown"


class Said:
    """What a check of a crate printed."""

    def __init__(self, crate, text):
        self.crate, self.text = crate, joined(text)
        told = re.findall(r"(?m)^fn (\w+)::(\S+?): (.*)", self.text)
        self.told = {path: why for name, path, why in told if name == crate}

    def is_whole(self):
        """Whether the prover came to an end."""
        return bool(re.search(r"(?m)^(only|logic)=", self.text))

    def unread(self, texts):
        """An error that says that a text of src/, of specs/ or of an edited file can't be read, or none."""
        for file, goal, what in ERROR.findall(self.text):
            is_ours = file in texts or file.startswith(("src/", "specs/"))
            if is_ours and (not goal or READING.search(re.sub(r"`[^`]*`", "", what))):
                return f"{file}: {what}"
        return ""

    def fate_of(self, path):
        """What a function's check came to, and why: it is refused only for itself, and by a goal that isn't proved."""
        why = self.told.get(path)
        if why is None:
            return UNKNOWN, "the check says nothing of it"
        if why.startswith("proved"):
            return PROVED, ""
        folder = re.escape(path.replace("::", "/"))
        errors = re.findall(rf"(?m)^(?:\./)?proofs/{folder}/\w+\.antt:\S+ error: .*", self.text)
        limit = next((it for it in [why, *errors] if LIMIT.search(it)), "")
        if limit:
            return NO_VERDICT, limit
        # An answer that is there and doesn't hold is a refusal. A goal that has no answer may lack it for a name that is gone.
        whole = [it for it in errors if not NAMES.search(it)]
        if errors and not whole:
            return LOST, errors[0]
        if WAITS.search(why):
            return WAITING, why
        if not re.match("no proof|not proved", why):
            return UNKNOWN, why
        # (first what surely doesn't hold)
        return REFUSED, next(iter(sorted([*self.goals_of(path), *whole], key=lambda it: bool(GAVE_UP.search(it)))), why)

    def goals_of(self, path):
        """What isn't proved of a function, from the lines between its own and that of the function in front of it."""
        front = self.text.partition(f"\nfn {self.crate}::{path}: ")[0].rpartition("\nfn ")[2]
        return re.findall(r"(?m)^note: (src/\S+ it is not proved.*)", front)
