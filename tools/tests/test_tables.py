"""Tests tools/tables/: what is written of them is what stands here, and what is written by hand has the same names."""

import glob
import os
import re
import subprocess
import sys
import tempfile
import unittest

ROOT = os.path.dirname(os.path.dirname(os.path.dirname(os.path.abspath(__file__))))

sys.path.insert(0, f"{ROOT}/tools")
import make_object_identifiers  # noqa: E402
import make_tables  # noqa: E402
from generate import regions, tables  # noqa: E402

KINDS, DEVIATIONS, ERRORS = tables.kinds(), tables.rows_of("deviations"), tables.named("errors")


def text_of(path):
    with open(f"{ROOT}/{path}", encoding="utf-8") as file:
        return file.read()


class Written(unittest.TestCase):
    """What tools/make_tables.py writes."""

    def test_it_is_up_to_date(self):
        with tempfile.TemporaryDirectory(prefix="tables-") as room:
            subprocess.run([sys.executable, "-B", f"{ROOT}/tools/make_tables.py", room], check=True)
            written = [it for it in glob.glob(f"{room}/**", recursive=True) if os.path.isfile(it)]
            self.assertGreater(len(written), 30)
            for path in written:
                name = os.path.relpath(path, room)
                with open(path, encoding="utf-8") as file:
                    self.assertEqual(file.read(), text_of(name), f"{name}: run tools/make_tables.py")

    def test_each_region_is_written(self):
        for part in make_tables.PARTS:
            for region in part.regions():
                with self.subTest(region.path, behind=region.behind):
                    text = text_of(region.path)
                    empty = regions.filled(text, region._replace(lines=[]))
                    self.assertEqual(regions.filled(empty, region), text)
                    self.assertLess(len(empty), len(text))

    def test_a_region_stands_once(self):
        region = regions.Region("file", "first", "last", ["between"])
        self.assertEqual(regions.filled("first\nlast\nlast\n", region), "first\nbetween\nlast\nlast\n")
        for text in ("", "last\n", "first\nother\n", "a first\nlast\n", "first\nlast\nfirst\nlast\n"):
            with self.assertRaises(regions.Misplaced):
                regions.filled(text, region)


class Tables(unittest.TestCase):
    def test_numbers(self):
        for name, first in (("kinds", 1), ("deviations", 1), ("errors", 1), ("statuses", 0)):
            rows = tables.rows_of(name)
            self.assertEqual([int(it.number) for it in rows], list(range(first, first + len(rows))), name)

    def test_nothing_stands_twice(self):
        columns = {"kinds": "name", "deviations": "name rattle text", "errors": "name text", "statuses": "name rattle"}
        for name, listed in {**columns, "attributes": "id short", "keys": "id", "unread": "name", "rules": "name text"}.items():
            for column in listed.split():
                found = [getattr(it, column) for it in tables.rows_of(name)]
                self.assertEqual(len(set(found)), len(found), (name, column))
        labels = [label for it in [*KINDS, *tables.rows_of("unread")] for label in it.labels.split(",") if label]
        self.assertEqual(len(set(labels)), len(labels))

    def test_names_of_identifiers(self):
        rows = [row for it in ("object_identifiers", "further_names") for row in make_object_identifiers.rows_of(f"{it}.tsv")]
        named = {it["arcs"]: it["name"] for it in rows}
        for it in [*tables.rows_of("attributes"), *tables.rows_of("keys")]:
            self.assertEqual(named.get(it.id, it.name), it.name)


def stated(path, function):
    """What a definition says of each variant: its lines `function Variant = answer`."""
    lines = re.findall(rf"^{function} (?:\w+\.)?(\w+) = (.*)$", text_of(path), re.MULTILINE)
    return {name: re.sub(r'^(?:Some \()?codes "(.*?)"\)?$', r"\1", answer) for name, answer in lines}


def sizes():
    """The sizes of keys by the content of their identifiers, as the report has them."""
    code = text_of("crates/x509_report_fields/src/key.rt")
    found = {}
    for patterns, bits in re.findall(r"^ +(\[0x.*\]) => Some\((\d+)\),$", code, re.MULTILINE):
        found |= {tuple(int(it, 16) for it in re.findall(r"0x(\w\w)", one)): bits for one in patterns.split(" | ")}
    body = re.search(r"^fn secg_bits.*?^}$", code, re.DOTALL | re.MULTILINE).group(0)
    for patterns, bits in re.findall(r"^ +([\d |]+) => Some\((\d+)\),$", body, re.MULTILINE):
        found |= {(0x2B, 0x81, 0x04, 0x00, int(one)): bits for one in patterns.split(" | ")}
    return found


class ByHand(unittest.TestCase):
    """What is written by hand, since it judges what is written, or has more than a table's cells."""

    def test_definitions(self):
        inspected, flat = "crates/x509_inspect_parts/specs", "crates/x509_flat/specs/Numbers.antt"
        parts = "crates/x509_der_parts/specs"
        names = {it.variant: it.name for it in KINDS}
        self.assertEqual(stated(f"{inspected}/Kinds.antt", "kind_name"), names)
        self.assertEqual(stated(flat, "kind_number"), {it.variant: it.number for it in tables.served()})
        outlines = {make_tables.rattle.outline(it): it.name for it in tables.with_names("outlines")}
        self.assertEqual(stated("crates/x509_outline_kinds/specs/Kinds.antt", "outline_name"), outlines)
        self.assertEqual(stated(flat, "status_number"), {it.rattle: it.number for it in tables.rows_of("statuses")})
        first = {it.variant: it.label_list[0] if it.label_list else "None" for it in KINDS}
        self.assertEqual(stated(f"{inspected}/Kinds.antt", "label_of"), first)
        second = {it.variant: it.label_list[1] for it in KINDS if len(it.label_list) > 1}
        self.assertEqual(stated(f"{inspected}/Kinds.antt", "other_label_of"), {**second, "_": "None"})
        unread = {it.name: it.labels.split(",")[0] or "None" for it in tables.rows_of("unread")}
        self.assertEqual(stated(f"{inspected}/UnreadLabels.antt", "unread_label"), unread)
        self.assertEqual(stated(f"{parts}/ReadErrors.antt", "error_name"), {it.variant: it.text for it in ERRORS})
        self.assertEqual(stated(f"{parts}/ReadErrors.antt", "error_number"), {it.variant: it.number for it in ERRORS})
        self.assertEqual(stated(f"{parts}/Deviations.antt", "kind_name"), {it.rattle: it.text for it in DEVIATIONS})
        numbers = {it.rattle: str(int(it.number) - 1) for it in DEVIATIONS}
        self.assertEqual(stated(f"{parts}/Deviations.antt", "kind_index"), numbers)

    def test_rules(self):
        path, rows = "crates/x509_rules/specs/Rules.antt", tables.named("rules")
        self.assertEqual(stated(path, "rule_name"), {it.variant: it.name for it in rows})
        members = {it.name: tables.variant(it.member) for it in tables.fields("certificate")}
        parts = {rule: part.partition(".")[2] for rule, part in stated(path, "part_of").items()}
        self.assertEqual(parts, {it.variant: members[it.where] for it in rows})
        places = [it.name for it in tables.fields("certificate")]
        at = [places.index(it.where) for it in rows]
        self.assertEqual(at, sorted(at))
        listed = re.search(r"^all_rules =\n(.*?)$\n*\Z", text_of(path), re.S | re.M).group(1)
        self.assertEqual(re.findall(r"rule\.(\w+)", listed), [it.variant for it in rows])
        self.assertEqual({it.severity for it in rows}, {"error", "warning"})
        numbers = stated("crates/x509_flat_findings/specs/Findings.antt", "rule_number")
        self.assertEqual(numbers, {it.variant: it.number for it in rows})

    def test_deviations(self):
        body = re.search(r"^pub enum Deviation \{\n(.*?)^}", text_of("crates/x509_der_parts/src/deviation.rt"), re.S | re.M)
        self.assertEqual(re.findall(r"^    (\w+),$", body.group(1), re.M), [it.rattle for it in DEVIATIONS])

    def test_titles(self):
        code = "".join(text_of(it) for it in glob.glob("crates/x509_report/src/*.rt", root_dir=ROOT))
        titles = re.findall(r'Reported for (\w+)<A> \{\n    const TITLE: &\'static str = "(.*)";', code)
        self.assertEqual(dict(titles), {it.rattle: it.title for it in KINDS})

    def test_sizes_of_keys(self):
        contents = {it.id: re.findall(r"0x(\w\w)", make_tables.rattle.content(it.id)) for it in tables.rows_of("keys") if it.bits}
        listed = {tuple(int(it, 16) for it in contents[row.id]): row.bits for row in tables.rows_of("keys") if row.bits}
        self.assertEqual(sizes(), listed)

    def test_fields(self):
        """The structs of the C calls have them in this order, and refusals name them."""
        named = text_of("crates/x509_inspect_parts/src/field_path.rt")
        for kind in tables.with_fields():
            rows = tables.fields(kind)
            name = "list" if kind == "crl" else kind
            path = "extensions" if kind == "extension" else f"{name.replace('-', '_')}_fields"
            code = text_of(f"crates/x509_flat/src/{path}.rt")
            body = re.search(rf"^pub struct Flat{tables.variant(name)} \{{\n(.*?)^}}", code, re.S | re.M).group(1)
            self.assertEqual(re.findall(r"^    pub (\w+): FlatSpan,$", body, re.M), [it.member for it in rows])
            for it in rows:
                # (a refused revocation list tells no field)
                if kind != "crl" and it.name not in ("whole", "skipped"):
                    self.assertIn(f'"{it.name}"', named)

    def test_formats_on_the_page(self):
        # (a CRL is read)
        code = text_of("web/page/formats.mjs")
        rows = [it for it in tables.rows_of("unread") if it.name != "RevocationList"]
        names = dict(re.findall(r'^const (\w+) = \{ name: "(.*?)"', code, re.M))
        self.assertEqual([*names.values()], [it.reason for it in rows])
        labels = re.findall(r'^  \["(.*)", (\w+)\],$', code, re.M)
        listed = [(label, it.reason) for it in rows for label in it.labels.split(",") if label]
        self.assertEqual([(label, names[it]) for label, it in labels], listed)

    def test_pages(self):
        page = " ".join(text_of("docs/JSON.md").split())
        listed = re.search(r"`type`, if it is read as one: (.*?); and with it", page).group(1)
        self.assertEqual(re.findall(r"`([\w-]+)`", listed), [it.name for it in KINDS])
        listed = re.search(r"named as the standard names the type: (.*?)\.", page).group(1)
        self.assertEqual(re.findall(r"`(\w+)`", listed), [*dict.fromkeys(it.type for it in KINDS)])
        doc = re.search(r'^\]\n"""[\w ]+: (.*?)"""', text_of("bindings/python/cimaroly/_kinds.py"), re.S | re.M).group(1)
        self.assertEqual(re.findall(r"`(\w+)`", doc), [*dict.fromkeys(it.type for it in KINDS)])


if __name__ == "__main__":
    unittest.main()
