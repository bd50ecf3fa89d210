"""Tests that the plain structures of the crates are what tools/structures.py writes from their declarations, how declarations are
read, and which are refused."""

import contextlib
import glob
import io
import os
import sys
import tempfile
import unittest

ROOT = os.path.dirname(os.path.dirname(os.path.dirname(os.path.abspath(__file__))))
sys.path.insert(0, f"{ROOT}/tools")

import structures  # noqa: E402
from asn1_declarations import BadDeclaration, Reader, types_in  # noqa: E402

KNOWN = types_in(f"{ROOT}/tools/structure_types.tsv")
MODULE = "Test DEFINITIONS {} TAGS ::= BEGIN\n\n{}\nEND\n"
ONE = """-- One (X.680, 1)
-- One thing.
One ::= SEQUENCE {{
    {}
}}
"""
EITHER = """-- Either (X.680, 1)
-- One of two things.
Either ::= CHOICE {{
    {} -- Left: u8. The left one.
    right [1] IA5String -- Right: Ia5StringAsn1<A>. The right one.
}}
"""
# The grammar of one structure, as far as the script looks at it.
GRAMMAR = "".join(f"abbrev pub {it} : Type 0\n" for it in ("Fields", "one_parts", "one_inner", "one_content", "one"))


def read(body, tags="IMPLICIT"):
    """The declarations of a module whose grammar stands in one file."""
    return Reader("test", KNOWN, lambda name: "test.specs.Grammar").read(MODULE.format(tags, body))


def component(line, tags="IMPLICIT"):
    return read(ONE.format(line), tags)[0].components[0]


class WrittenTest(unittest.TestCase):
    folders = [os.path.dirname(it) for it in glob.glob(f"{ROOT}/crates/*/{structures.NAME}")]

    def test_what_is_checked_in(self):
        for folder in self.folders:
            with self.subTest(folder):
                self.assertEqual(list(structures.differences(folder)), [])

    def test_first_lines(self):
        for folder in self.folders:
            for path, text in structures.files_of(folder).items():
                with self.subTest(path):
                    self.assertRegex(text.partition("\n")[0], structures.WRITTEN)


class FolderTest(unittest.TestCase):
    """What is done in a crate's folder."""

    def setUp(self):
        folder = tempfile.TemporaryDirectory()
        self.addCleanup(folder.cleanup)
        self.folder = folder.name
        self.put("specs/Grammar.antt", GRAMMAR)
        self.put(structures.NAME, MODULE.format("IMPLICIT", ONE.format("number INTEGER -- number: u8. A number.")))

    def put(self, path, text):
        os.makedirs(os.path.dirname(f"{self.folder}/{path}"), exist_ok=True)
        with open(f"{self.folder}/{path}", "w", encoding="utf-8") as file:
            file.write(text)

    def write(self):
        with contextlib.redirect_stdout(io.StringIO()):
            structures.write(self.folder)

    def test_what_is_written_is_no_difference(self):
        missing = list(structures.differences(self.folder))
        self.assertEqual(len(missing), len(structures.files_of(self.folder)))
        self.write()
        self.assertEqual(list(structures.differences(self.folder)), [])

    def test_layout_is_none(self):
        self.write()
        path = "src/structures/one.rt"
        self.put(path, structures.read(f"{self.folder}/{path}").replace("Join<", "Join<\n    ").replace("/// ", "///   "))
        self.assertEqual(list(structures.differences(self.folder)), [])

    def test_another_word_is_one(self):
        self.write()
        path = "src/structures/one.rt"
        self.put(path, structures.read(f"{self.folder}/{path}").replace("one_same", "other_same", 1))
        self.assertEqual(list(structures.differences(self.folder)), [f"{self.folder}/{path}: not what is written"])

    def test_what_is_not_declared_any_more(self):
        self.write()
        self.put("src/structures/two.rt", "//! Two, written by `tools/structures.py` from `declarations.asn1`.\n")
        self.put("src/structures/by_hand.rt", "//! By hand.\n")
        gone = f"{self.folder}/src/structures/two.rt"
        self.assertEqual(list(structures.differences(self.folder)), [f"{gone}: no declaration is left of it"])
        self.write()
        self.assertFalse(os.path.exists(gone))
        self.assertTrue(os.path.exists(f"{self.folder}/src/structures/by_hand.rt"))

    def test_no_grammar(self):
        self.put("specs/Grammar.antt", "abbrev pub other : Type 0\n")
        with self.assertRaisesRegex(BadDeclaration, r"asn1:5: specs/ defines no one: the grammar of One comes first"):
            structures.files_of(self.folder)


class ReadTest(unittest.TestCase):
    """What a component's tag, part and grammar are."""

    def assert_component(self, line, part, shape, tags="IMPLICIT"):
        found = component(line, tags)
        self.assertEqual((found.part(found.type.rust), found.shape), (part, shape))

    def test_no_tag(self):
        self.assert_component("number INTEGER -- number: u8. A number.", "u8", "tagged 2 small_integers")

    def test_implicit_tags(self):
        line = "number [1] INTEGER OPTIONAL, -- number: IntegerAsn1<A>. A number."
        self.assert_component(line, "Optional<Tagged<ContextPrimitive<1>, IntegerAsn1<A>>>", "tagged 129 integers")
        line = "names [2] GeneralNames -- names: GeneralNames<A>. Names."
        self.assert_component(line, "Tagged<ContextConstructed<2>, GeneralNames<A>>", "tagged 162 (items general_name)")

    def test_explicit_tags(self):
        for line, tags in (("[0] EXPLICIT INTEGER", "IMPLICIT"), ("[0] INTEGER", "EXPLICIT")):
            line = f"number {line} -- number: u8. A number."
            self.assert_component(line, "Tagged<ContextConstructed<0>, One<u8>>", "tagged 160 (tagged 2 small_integers)", tags)

    def test_a_tag_of_a_choice_is_explicit(self):
        line = "text [3] DirectoryString -- text: DirectoryString<A>. A text."
        self.assert_component(line, "Tagged<ContextConstructed<3>, One<DirectoryString<A>>>", "tagged 163 directory_string")

    def test_lists(self):
        line = "numbers [0] SEQUENCE SIZE (1..MAX) OF INTEGER -- numbers: Asn1SequenceOf<IntegerAsn1<A>, A>. Numbers."
        part = "Tagged<ContextConstructed<0>, Asn1SequenceOf<IntegerAsn1<A>, A>>"
        self.assert_component(line, part, "tagged 160 (items (tagged 2 integers))")

    def test_default_is_optional(self):
        self.assertTrue(component("flag BOOLEAN DEFAULT FALSE -- flag: bool. A flag.").optional)

    def test_a_comment_goes_on(self):
        found = component("flag BOOLEAN -- flag: bool. A flag,\n    -- of two lines.")
        self.assertEqual((found.name, found.doc), ("flag", "A flag, of two lines."))

    def test_second_names(self):
        names = "Flags ::= BIT STRING {\n    one (0), two (1)\n}\n\nOften ::= Flags\n\n"
        found = read(names + ONE.format("flags Often -- flags: BitStringAsn1<A>. Flags."))
        self.assertEqual(found[0].components[0].shape, "tagged 3 bit_strings")

    def test_a_choice(self):
        made = read(EITHER.format("left [0] INTEGER,"))[0]
        shapes = ["tagged 128 small_integers", "tagged 129 (texts (Passes are_ascii))"]
        self.assertEqual([it.shape for it in made.components], shapes)


class RefusedTest(unittest.TestCase):
    def assert_refused(self, body, why, tags="IMPLICIT"):
        with self.assertRaises(BadDeclaration) as told:
            read(body, tags)
        self.assertIn(why, str(told.exception))

    def assert_component_refused(self, line, why):
        self.assert_refused(ONE.format(line), why)

    def test_another_type(self):
        self.assert_component_refused("number INTEGER -- number: bool. A number.", "test:6: bool is no INTEGER, but BOOLEAN")
        self.assert_component_refused("names GeneralName -- names: GeneralNames<A>. Names.", "GeneralNames<A> is no GeneralName")

    def test_unknown_types(self):
        self.assert_component_refused("number REAL -- number: f64. A number.", "no type is known by the name f64")

    def test_comments(self):
        self.assert_component_refused("number INTEGER", "number wants a comment")
        self.assert_component_refused("number INTEGER -- a number", "number wants a comment")
        bare = "One ::= SEQUENCE {\n    number INTEGER -- number: u8. A number.\n}\n"
        self.assert_refused(bare, "One wants a comment above it")

    def test_an_implicit_tag_over_a_choice(self):
        line = "text [0] IMPLICIT DirectoryString -- text: DirectoryString<A>. A text."
        self.assert_component_refused(line, "no implicit tag stands over a CHOICE")

    def test_an_alternative_that_may_be_absent(self):
        self.assert_refused(EITHER.format("left [0] INTEGER OPTIONAL,"), "an alternative can't be absent")

    def test_twice(self):
        line = "a INTEGER, -- number: u8. A number.\n    b INTEGER -- number: u8. A number."
        self.assert_component_refused(line, "two components have the name number")
        once = ONE.format("number INTEGER -- number: u8. A number.")
        self.assert_refused(f"{once}\n{once}", "One is declared already")

    def test_other_lines(self):
        self.assert_refused("One := 1", "neither a comment nor an assignment")
        self.assert_refused("One ::= SEQUENCE {", "an assignment without an end")
        self.assert_component_refused("Number INTEGER -- number: u8. A number.", "not a component")


if __name__ == "__main__":
    unittest.main()
