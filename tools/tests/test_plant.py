"""Tests how edits are read and tried: each way in which an edit can look refused that isn't."""

import contextlib
import io
import os
import shutil
import subprocess
import sys
import tempfile
import time
import unittest
import unittest.mock
from concurrent.futures import ThreadPoolExecutor

ROOT = os.path.dirname(os.path.dirname(os.path.dirname(os.path.abspath(__file__))))
sys.path.insert(0, f"{ROOT}/tools")

import functions  # noqa: E402
import plant  # noqa: E402
import trial  # noqa: E402
from edits import BadEdit, Edit  # noqa: E402

FRONT = """//! The first.

ghost use Rattle.std.specs.Prelude.{◌≡◌, ◌≤◌, length};

/// A number.
const SEVEN: u8 = 7;

/// Seven.
pub fn seven() -> u8
    ensures { result ≡ 7 }
{
    SEVEN
}

/// The number itself.
pub fn of(number: u8) -> u8
    ensures { result ≡ number }
{
    number
}

/// The number itself, by way of the one above.
pub fn twice(number: u8) -> u8
    ensures { result ≡ number }
{
    let first = of(number);
    of(first)
}

/// How many bytes are zero, or fewer.
pub fn zeros(bytes: &[u8]) -> usize
    ensures { result ≤ length bytes.now }
{
    let mut count = 0;
    for byte in bytes {
        if *byte == 0 {
            count += 1;
        }
    }
    count
}
"""
BACK = """//! The second.

ghost use Rattle.std.specs.Prelude.{◌≡◌};

/// The number itself.
pub fn of(number: u8) -> u8
    ensures { result ≡ number }
{
    let answer = number;
    answer
}

/// The number itself.
pub fn same(number: u8) -> u8
    ensures { result ≡ number }
{
    number
}
"""
INVARIANTS = """use Rattle.std.proofs.Common.{◌≤◌}
use Rattle.tiny.proofs.front.zeros.Given as goal

abbrev pub invariant-loop-byte : goal.invariant-loop-byte
invariant-loop-byte l = l.count ≤ l.byte-index
"""
MAIN = """//! A program.
#![tactic(auto)]

ghost use Rattle.std.specs.Prelude.{◌≡◌};

use std::process::ExitCode;

/// No failure.
fn status() -> u8
    ensures { result ≡ 0 }
{
    0
}

fn main(_rt: HostRuntime) -> ExitCode {
    ExitCode::from(status())
}
"""
FILES = {
    "crates.txt": "tiny:\nmain:\n",
    "crates/tiny/src/lib.rt": "//! Two of one name.\n#![tactic(auto)]\n\npub mod back;\npub mod front;\n",
    "crates/tiny/src/front.rt": FRONT,
    "crates/tiny/src/back.rt": BACK,
    "crates/tiny/proofs/front/zeros/Invariants.antt": INVARIANTS,
    "crates/main/src/main.rt": MAIN,
}
# Wrong bodies, each with the function that must be refused.
WRONG = {
    "zeros_counts_twice": "file: src/front.rt\nfunction: front::zeros\nold: count += 1;\nnew: count += 2;\n",
    "of_is_less": "file: src/front.rt\nfunction: front::of\nold:     number\nnew:     number / 2\n",
    "seven_is_eight": "file: src/front.rt\nfunction: front::seven\nold: const SEVEN: u8 = 7;\nnew: const SEVEN: u8 = 8;\n",
}
# What changes nothing that is promised, and what is said of it.
RIGHT = {
    # another function of that name is broken by another edit
    "same_as_before": (
        "file: src/back.rt\nfunction: back::of\n"
        "old: let answer = number;\nnew: let answer = number % 255 + number / 255 * 255;\n",
        "NOT REFUSED",
    ),
    "names_another_of": (
        "file: src/back.rt\nfunction: front::of\nold: let answer = number;\nnew: let answer = number | 0;\n",
        "BAD EDIT",
    ),
    # it calls one that another edit breaks
    "only_calls": (
        "file: src/front.rt\nfunction: front::twice\nold: let first = of(number);\nnew: let first = of(of(number));\n",
        "NOT REFUSED",
    ),
    # the constant breaks another function than the one that it names
    "untouched": (
        "file: src/front.rt\nfunction: front::of\nold: const SEVEN: u8 = 7;\nnew: const SEVEN: u8 = 9;\n",
        "NOT REFUSED",
    ),
    # the proof names the local
    "renamed": (
        "file: src/front.rt\nfunction: front::zeros\nold: let mut count = 0;\nnew: let mut total = 0;\n"
        "old: count += 1;\nnew: total += 1;\nold:     count\nnew:     total\n",
        "BAD EDIT",
    ),
    "one_of_two": (
        "file: src/back.rt\nfunction: back::of\nfunction: back::same\nold:     answer\nnew:     answer / 2\n"
        "old:     number\nnew:     let itself = number; itself\n",
        "NOT REFUSED",
    ),
    "unreadable": ("file: src/back.rt\nfunction: back::same\nold:     number\nnew:     numbers\n", "BAD EDIT"),
    "no_such_function": (
        "file: src/front.rt\nfunction: front::eight\nold: const SEVEN: u8 = 7;\nnew: const SEVEN: u8 = 6;\n",
        "BAD EDIT",
    ),
}


def lay_out(root, files):
    for path, text in files.items():
        os.makedirs(os.path.dirname(f"{root}/{path}") or root, exist_ok=True)
        with open(f"{root}/{path}", "w", encoding="utf-8") as it:
            it.write(text)


class RepositoryCase(unittest.TestCase):
    """Tests over a repository of two small crates."""

    def setUp(self):
        room = tempfile.TemporaryDirectory(prefix="plant-test-")
        self.addCleanup(room.cleanup)
        self.root = room.name
        lay_out(self.root, FILES)

    def edit(self, text, crate="tiny"):
        lay_out(self.root, {"one.edit": text})
        return Edit(f"{self.root}/one.edit", f"{self.root}/crates/{crate}")


class EditTest(RepositoryCase):
    """What an edit may change, and which functions it names."""

    def is_bad(self, text, why):
        with self.assertRaisesRegex(BadEdit, why):
            self.edit(text)

    def test_paths_are_whole(self):
        edit = self.edit("file: src/back.rt\nold: let answer = number;\nnew: let answer = 0;\n")
        self.assertEqual(edit.functions, {"back::of"})
        text = "file: src/back.rt\nfunction: {}\nold: let answer = number;\nnew: let answer = 0;\n"
        self.assertEqual(self.edit(text.format("back::of")).functions, {"back::of"})
        for other in ("front::of", "of", "back", "tiny::back::of"):
            self.is_bad(text.format(other), "changes the function back::of, which it doesn't name")

    def test_each_changed_body_is_named(self):
        both = "old: let answer = number;\nnew: let answer = 0;\nold:     number\nnew:     0\n"
        self.is_bad(f"file: src/back.rt\nfunction: back::of\n{both}", "back::same")
        self.is_bad(f"file: src/back.rt\nfunction: back::same\n{both}", "back::of")
        edit = self.edit(f"file: src/back.rt\nfunction: back::same\nfunction: back::of\n{both}")
        self.assertEqual(edit.functions, {"back::of", "back::same"})
        text = "file: src/back.rt\nfunction: back::of\nfunction: front::of\nold: = number;\nnew: = 0;\n"
        self.is_bad(text, "doesn't change the function front::of")

    def test_code_alone_is_changed(self):
        named = "function: front::zeros\n"
        self.is_bad(f"file: proofs/front/zeros/Invariants.antt\n{named}old: l.count ≤\nnew: 1 ≤\n", "no source file")
        self.is_bad(f"file: specs/Lib.antt\n{named}old: a\nnew: b\n", "no source file")
        self.is_bad("file: src/back.rt\nold: /// The number itself.\npub fn same\nnew: pub fn same\n", "a line is none")
        for old, new in (
            ("ensures { result ≡ 7 }", "ensures { result ≡ 8 }"),
            ("ensures { result ≤ length bytes.now }", "ensures { result ≡ 0 }"),
            ("ghost use Rattle.std.specs.Prelude.{◌≡◌, ◌≤◌, length};", "ghost use Rattle.std.specs.Prelude.{◌≡◌, ◌≤◌};"),
            ("{ result ≤", "{ result ≤ 0 + "),
            ("    SEVEN", "    prove!(SEVEN == 8); SEVEN"),
            ("/// Seven.", "#[tactic(auto)]"),
            ("/// A number.", "fn more() -> u8 ensures { result ≡ 8 } { 7 }"),
        ):
            with self.subTest(old):
                self.is_bad(f"file: src/front.rt\n{named}old: {old}\nnew: {new}\n", "states more or less|changes a contract")

    def test_the_program_itself(self):
        edit = self.edit("file: src/main.rt\nfunction: status\nold:     0\nnew:     1\n", "main")
        self.assertEqual(edit.functions, {"status"})
        self.assertEqual(trial.root_of(f"{self.root}/crates/main"), "src/main.rt")
        self.assertEqual(trial.root_of(f"{self.root}/crates/tiny"), "src/lib.rt")


class NameTest(unittest.TestCase):
    """The path of a function, as a check prints it."""

    def test_paths(self):
        text = """impl<A: Allocator> Kind<A> {
    fn a(&self) {
        b
    }
}

impl<'a, A: Allocator + Copy> AnyDefinedBy<Key<A>, A> for Values<A> {
    fn starts(byte: u8) -> bool
        ensures { result ≡ true }
    {
        true
    }
}

impl From<io::Error> for Stop {
    fn from(error: io::Error) -> Stop {
        Stop
    }
}

impl<A: Allocator> From<Vec<u8, A>> for &Octets<A> {
    fn from(bytes: Vec<u8, A>) -> Self {
        Octets(bytes)
    }
}

impl ToDer for () {
    fn len(&self) -> usize {
        0
    }
}

impl<'a, N, T> Optional<Tagged<N, &'a T>> {
    fn lent(value: &'a T) -> Self {
        value
    }
}

pub trait Tags: Drop {
    fn keeps(tag: u8) -> bool;

    fn all() -> bool {
        true
    }
}

fn alone() {
    nothing
}
"""
        source = functions.Source("src/a/b.rt", text, {"Kind": "kinds::", "Optional": "optional::", "Tags": "a::b::"})
        places = {it.strip(): at for at, it in enumerate(source.lines)}
        for word, path in (
            ("b", "kinds::Kind::a"),
            ("Stop", "a::b::StopFromError::from"),
            ("Octets(bytes)", "a::b::RefOctetsFromVecU8::from"),
            ("0", "a::b::UnitToDer::len"),
            ("value", "a::b::Optional+Tagged+N+ref+T::lent"),
            ("nothing", "a::b::alone"),
            ("ensures { result ≡ true }", None),
            ("fn keeps(tag: u8) -> bool;", None),
        ):
            with self.subTest(word):
                self.assertEqual(source.path_at(places[word]), path)
        first, last = [at for at, it in enumerate(source.lines) if it.strip() == "true"]
        self.assertEqual(source.path_at(first), "a::b::ValuesAnyDefinedByKey::starts")
        self.assertEqual(source.path_at(last), "a::b::Tags::all")


class SaidTest(unittest.TestCase):
    """What a check says of a function, from the lines that it prints."""

    TEXT = """./proofs/a/lost/Invariants.antt:5:26: error: `invariant`: record `Given.Live` has no field `count`
./proofs/a/goal/Answers.antt:5:13: error: `returns`: `search`: no proof of `x ≡ y`
./proofs/a/deep/Answers.antt:5:13: error: `returns`: antt ran out of the steps that the check of one declaration may take
fn tiny::a::good: proved
note: src/a.rt:25:5: it is not proved that the invariant of the loop holds (`loop`); the facts known there allow more
fn tiny::a::wrong: no proof: expected answers in ./proofs/a/wrong/Answers.antt; `search` did not prove `loop`
fn tiny::a::lost: not proved
fn tiny::a::goal: not proved
fn tiny::a::deep: not proved
fn tiny::a::calls: no proof: it calls `tiny::a::wrong`, which is not proved
fn tiny::a::both: not proved; it calls `tiny::a::wrong`, which is not proved
fn tiny::a::slow: could not tell
fn tiny::a::limit: not proved: outgrew the memory limit (4 GB)
fn other::a::wrong2: not proved
only=9 proved=1
"""

    def test_fates(self):
        said = trial.Said("tiny", self.TEXT)
        for path, fate in (
            ("a::good", trial.PROVED),
            ("a::wrong", trial.REFUSED),
            ("a::goal", trial.REFUSED),
            ("a::lost", trial.LOST),
            ("a::deep", trial.NO_VERDICT),
            ("a::slow", trial.NO_VERDICT),
            ("a::limit", trial.NO_VERDICT),
            ("a::calls", trial.WAITING),
            ("a::both", trial.WAITING),
            ("a::wrong2", trial.UNKNOWN),
            ("wrong", trial.UNKNOWN),
        ):
            with self.subTest(path):
                self.assertEqual(said.fate_of(path)[0], fate)
        self.assertIn("loop", said.fate_of("a::wrong")[1])
        self.assertTrue(said.is_whole())
        self.assertFalse(trial.Said("tiny", "fn tiny::a::good: proved\nrattle: no verdict").is_whole())

    # The same, of messages that go over two lines or more.
    LONG = """./proofs/a/lost/Answers.antt:5:26: error: `returns`: record `Rattle.tiny.proofs.a.lost.Given.Live`
has no field `count` — the fields that can be named here are `byte-index`
./proofs/a/far/Answers.antt:7:3: error: `returns`: `octets (header content) (length content) (b ::
  bytes)` names what it can't:

  `octets` is not in scope: not a local variable, nor a definition admitted earlier
./proofs/a/goal/Answers.antt:5:13: error: `returns`: `search`: no proof of
  `x ≡ y`
fn tiny::a::goal: not proved
./proofs/a/differs/Answers.antt:5:13: error: `returns`: as printed, the two types differ only where one has `a` (expected)
  and the other has `b` (found)
  `A` is not in scope here, so what is shown does not paste back as it stands
fn tiny::a::differs: not proved
./proofs/a/deep/Answers.antt:5:13: error: `returns`: antt
ran out of the steps that the check of one declaration may take
fn tiny::a::lost: not proved
fn tiny::a::far: not proved
fn tiny::a::deep: not proved
note: src/a.rt:25:5: it is not proved that the invariant of
the loop holds (`loop`)
fn tiny::a::wrong: no proof: expected answers in ./proofs/a/wrong/Answers.antt;
`search` did not prove `loop`
fn tiny::a::calls: no proof:
it calls `tiny::a::wrong`, which is not proved
only=7 proved=0
"""

    def test_messages_over_several_lines(self):
        said = trial.Said("tiny", self.LONG)
        for path, fate, why in (
            ("a::lost", trial.LOST, "has no field `count`"),
            ("a::far", trial.LOST, "`octets` is not in scope"),
            ("a::goal", trial.REFUSED, "no proof of `x ≡ y`"),
            ("a::differs", trial.REFUSED, "the two types differ"),
            ("a::deep", trial.NO_VERDICT, "ran out of the steps"),
            ("a::wrong", trial.REFUSED, "the invariant of the loop holds (`loop`)"),
            ("a::calls", trial.WAITING, "it calls `tiny::a::wrong`"),
        ):
            with self.subTest(path):
                self.assertEqual(said.fate_of(path)[0], fate)
                self.assertIn(why, said.fate_of(path)[1])
        self.assertTrue(said.is_whole())
        for line in (
            "./src/a.rt:3:4: error: `a::b`: `x` here\nis not in scope\n",
            "./src/a.rt:3:4: error: `a::b`: `x is not in scope` is no\nproof\n./src/a.rt:4:1: error: `a::c`: is not in scope\n",
        ):
            self.assertIn("is not in scope", trial.Said("tiny", line).unread({}))
        self.assertFalse(trial.Said("tiny", "./src/a.rt:3:4: error: `a::b`: no proof of `x\nis not in scope`\n").unread({}))

    def test_an_unreadable_text(self):
        line = "./src/a.rt:3:4: error: expected `;`\n"
        self.assertTrue(trial.Said("tiny", line).unread({}))
        self.assertFalse(trial.Said("tiny", self.TEXT).unread({"src/a.rt": ""}))


class KeptTest(unittest.TestCase):
    """What the gate keeps of an earlier run."""

    def test_a_name_alone_is_not_believed(self):
        with tempfile.TemporaryDirectory() as room, unittest.mock.patch.object(plant, "KEPT", room):
            plant.keep("stamp", "a.edit: refused\n")
            self.assertEqual(plant.kept_of("stamp"), "a.edit: refused\n")
            self.assertEqual(plant.kept_of("other"), "")
            shutil.copy(f"{room}/stamp", f"{room}/other")
            self.assertEqual(plant.kept_of("other"), "")
            with open(f"{room}/stamp", "a", encoding="utf-8") as it:
                it.write("b.edit: refused\n")
            self.assertEqual(plant.kept_of("stamp"), "")


class BesideTest(unittest.TestCase):
    """Edits that are tried while rt ci goes on."""

    def tried(self, first, then):
        """Which crates' edits were tried when rt ci had printed the first text, which then, and how many edits weren't refused."""
        tried = []

        def try_kept(crate, _):
            tried.append(crate)
            return 1 if crate == "above" else 0

        uses = {"low": [], "above": ["low", "std"], "apart": []}
        with tempfile.TemporaryDirectory() as room, contextlib.ExitStack() as patches:
            lay_out(room, {"ci": first})
            for name, it in (("PAUSE", 0.01), ("try_kept", try_kept), ("lists", lambda: uses)):
                patches.enter_context(unittest.mock.patch.object(plant, name, it))
            said = io.StringIO()
            with contextlib.redirect_stdout(said), ThreadPoolExecutor(1) as pool:
                words = plant.Run(f"{room}/ci"), dict.fromkeys(uses, ""), {"low": 2, "above": 3, "apart": 4}, 2
                going = pool.submit(plant.try_beside, *words)
                time.sleep(0.3)
                so_far = [*tried]
                lay_out(room, {"ci": first + then})
                bad = going.result(60)
            return so_far, tried[len(so_far) :], bad, said.getvalue()

    def test_as_soon_as_proved(self):
        first = "fn low::a: proved\nrt: above proved\nrt: apart: its tests are proved\n"
        so_far, later, bad, _ = self.tried(first, "rt: low proved\nrt: apart proved\nrt ci ended with 0\n")
        self.assertEqual((so_far, sorted(later), bad), ([], ["above", "apart", "low"], 1))
        so_far, later, bad, _ = self.tried("rt: low proved\n", "rt: above proved\nrt: apart proved\nrt ci ended with 0\n")
        self.assertEqual((so_far, sorted(later), bad), (["low"], ["above", "apart"], 1))

    def test_what_an_earlier_run_proved(self):
        kept = "rt: low is kept: an earlier run on this machine proved the same files over the same libraries\n"
        so_far, later, bad, _ = self.tried(kept, "rt: above proved\nrt: apart proved\nrt ci ended with 0\n")
        self.assertEqual((so_far, sorted(later), bad), (["low"], ["above", "apart"], 1))

    def test_not_proved(self):
        *_, bad, said = self.tried("rt: low proved\n", "rt: apart proved\nrt ci ended with 1\n")
        self.assertEqual((bad, said), (3, "not tried, since rt ci didn't prove what they stand on: above\n"))


@unittest.skipUnless(shutil.which("rt"), "the toolchain isn't on the PATH")
class ProverTest(RepositoryCase):
    """Edits that are tried by the prover."""

    def tried(self, crate, edits, *words):
        """What is said of each of these edits, and the exit status."""
        os.makedirs(f"{self.root}/tools")
        for it in plant.TOOLS:
            shutil.copy(f"{ROOT}/tools/{it}", f"{self.root}/tools/{it}")
        lay_out(self.root, {f"crates/{crate}/planted/{name}.edit": text for name, text in edits.items()})
        words = [sys.executable, f"{self.root}/tools/plant.py", crate, f"{self.root}/crates/{crate}/planted", *words]
        ran = subprocess.run(words, stdout=subprocess.PIPE, stderr=subprocess.STDOUT, encoding="utf-8", check=False)
        lines = dict(it.split(".edit: ", 1) for it in ran.stdout.split("\n") if ".edit: " in it)
        return {it: why.partition(":")[0] for it, why in lines.items()}, ran

    def test_edits_of_a_library(self):
        found, ran = self.tried("tiny", {**WRONG, **{it: text for it, (text, _) in RIGHT.items()}})
        wanted = {**dict.fromkeys(WRONG, "refused"), **{it: word for it, (_, word) in RIGHT.items()}}
        self.assertEqual(found, wanted, ran.stdout)
        self.assertEqual(ran.returncode, 1)
        self.assertIn(f"tiny: {len(wanted)} edits planted, {len(RIGHT)} not refused", ran.stdout)

    def test_edits_of_a_program(self):
        text = "file: src/main.rt\nfunction: status\nold:     0\nnew:     1\n"
        found, ran = self.tried("main", {"status_is_one": text})
        self.assertEqual((found, ran.returncode), ({"status_is_one": "refused"}, 0), ran.stdout)

    def test_a_control(self):
        """Where a function isn't proved without an edit, the run ends."""
        lay_out(self.root, {"crates/tiny/src/back.rt": BACK.replace("    answer\n", "    answer / 2\n")})
        found, ran = self.tried("tiny", {"of": "file: src/back.rt\nfunction: back::of\nold: answer / 2\nnew: answer / 4\n"}, "--one")
        self.assertIn("isn't proved without an edit", ran.stdout, found)
        self.assertEqual(ran.returncode, 1)


if __name__ == "__main__":
    unittest.main()
