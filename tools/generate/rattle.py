"""What code of the crates has of the tables: plain lists, and functions from names and numbers.

Only code is written, in src/: what it must answer stands in specs/, by hand. A contract that doesn't hold of what is written is
refused by the prover.
"""

import re

from . import tables
from .regions import Region, comment


def enum(path, name, rows):
    """An enum of variants, each with what it means."""
    lines = []
    for variant, text in rows:
        lines += [*comment(text, "    /// "), f"    {variant},"]
    return Region(path, f"pub enum {name} {{", "}", lines)


def list_of(path, behind, constant, items, indent):
    """A constant with a list; the line that says how many there are is written too."""
    lines = [f"{indent}{constant.format(len(items))} = [", *[f"{indent}    {it}," for it in items]]
    return Region(path, behind, f"{indent}];", lines)


def arms(path, ensures, pairs, value="self"):
    """The arms of a match of a value, which is the whole body of a method: its head ends in the line of what it ensures."""
    behind = f"        {ensures}\n    {{\n        match {value} {{"
    return Region(path, behind, "        }", [line for pattern, answer in pairs for line in arm(pattern, answer)])


def arm(pattern, answer):
    """The lines of an arm of a match, of which one may have 100 columns."""
    line = f"            {pattern} => {answer},"
    return [line] if len(line) <= 100 else line.replace(" | ", "\n            | ").split("\n")


def kind_enum(path, rows):
    return enum(path, "Kind", [(it.variant, f"{tables.meaning(it, ', also called')}.") for it in rows])


INSPECTED = "crates/x509_inspect_parts/src/kind.rt"


def kinds():
    rows = tables.kinds()
    yield kind_enum(INSPECTED, rows)
    variants = [f"Kind::{it.variant}" for it in rows]
    all_kinds = "    /// All types, those that are met the most first."
    yield list_of(INSPECTED, all_kinds, "pub const ALL: [Kind; {}]", variants, "    ")
    names = [(f"Kind::{it.variant}", f'"{it.name}"') for it in rows]
    yield arms(INSPECTED, "ensures { result.now ≡ kind_name self }", names)
    found = [(f'"{it.name}"', f"Some(Kind::{it.variant})") for it in rows] + [("_", "None")]
    none = "ensures none { IfNone result ((kind : Kind) → name.now ≡ kind_name kind → ⊥) }"
    yield arms(INSPECTED, none, found, value="name")
    none = "ensures none { IfNone result ((kind : Kind) → IsLabelled kind label.now → ⊥) }"
    yield by_label(INSPECTED, none, "Kind", [(it.variant, it.label_list) for it in rows if it.label_list])
    none = "ensures none { IfNone result (label_of self ≡ None) }"
    labelled = [(f"Kind::{it.variant}", f'Some("{it.label_list[0]}")') for it in rows if it.label_list]
    others = " | ".join(f"Kind::{it.variant}" for it in rows if not it.label_list)
    yield arms(INSPECTED, none, [*labelled, (others, "None")])


def by_label(path, ensures, name, rows):
    """Which variant a label is that of: a chain of conditions."""
    lines, word = [], "        if"
    for variant, listed in rows:
        condition = " || ".join(f'is(label, "{it}")' for it in listed)
        lines += [f"{word} {condition} {{", f"            Some({name}::{variant})"]
        word = "        } else if"
    return Region(path, f"        {ensures}\n    {{", "        } else {", lines)


def unread():
    path, rows = "crates/x509_inspect_parts/src/unread.rt", tables.rows_of("unread")
    yield enum(path, "Unread", [(it.name, tables.sentence(it.meaning)) for it in rows])
    reasons = [(f"Unread::{it.name}", f'"{it.reason}, which isn\'t read"') for it in rows]
    behind = "    pub fn reason(self) -> &'static str {\n        match self {"
    yield Region(path, behind, "        }", [f"            {name} => {text}," for name, text in reasons])
    none = "ensures none { IfNone result ((unread : Unread) → HasUnreadLabel unread label.now → ⊥) }"
    yield by_label(path, none, "Unread", [(it.name, it.labels.split(",")) for it in rows if it.labels])


def in_the_program():
    yield list_of(
        "crates/cimaroly_parts/src/cli.rt",
        "/// The names of the types, as `--type` takes them.",
        "const KINDS: [&'static str; {}]",
        [f'"{it.name}"' for it in tables.kinds()],
        "",
    )


def outline(kind):
    """The variant of an outline among outlines."""
    return "RevocationList" if kind.name == "crl" else kind.variant.removesuffix("Outline")


def run_by_kind():
    """Where one call is made for each kind, at its type."""
    rows, flat = tables.kinds(), "crates/x509_flat/src"
    behind = "    ensures { K.says task (Value A kind) (shape_of A kind) result }\n{\n    match kind {"
    lines = [f"        Kind::{it.variant} => task.run::<{it.rattle}<A>>()," for it in rows]
    yield Region("crates/x509_inspect/src/task.rt", behind, "    }", lines)
    for file, call, further in (("check", "check_as", ""), ("encode", "encode_as", ", out"), ("places", "places_as", ", out")):
        lines = [f"        Kind::{it.variant} => {call}::<{it.rattle}<A>, A>(alloc, bytes{further})," for it in tables.served()]
        yield Region(f"{flat}/{file}.rt", "    match kind {", "    }", lines)
    lines = [f"        Kind::{it.variant} => Reading::Whole(Inspected::{it.variant})," for it in rows]
    lines += [f"        Kind::{it.variant} => Reading::Outline(OutlineKind::{outline(it)})," for it in tables.with_names("outlines")]
    yield Region("crates/x509_flat_report/src/reading.rt", "    match kind {", "    }", lines)


def outcomes():
    """What reading bytes as each kind comes to."""
    path, rows = "crates/x509_inspect/src/kinds.rt", tables.kinds()
    fields = [(it, it.name.replace("-", "_")) for it in rows]
    lines = []
    for it, name in fields:
        lines += [*comment(f"As {tables.meaning(it, ', also called')}.", "    /// "), f"    pub {name}: Option<Refused>,"]
    yield Region(path, "pub struct Outcomes {", "}", lines)
    yield arms(path, "ensures { result ≡ outcome_of self.now kind }", [(f"Kind::{it.variant}", f"self.{name}") for it, name in fields], value="kind")
    lines = [f"        {name}: accepts(alloc, Kind::{it.variant}, bytes)," for it, name in fields]
    yield Region(path, "    ensures { Tried A bytes.now result }\n{\n    Outcomes {", "    }", lines)


def by_number():
    """The kinds and statuses of the C calls."""
    path = "crates/x509_flat/src/kind.rt"
    yield kind_enum(path, tables.served())
    found = [(it.number, f"Some(Kind::{it.variant})") for it in tables.served()] + [("_", "None")]
    none = "ensures none { IfNone result ((kind : Kind) → number ≡ kind_number kind → ⊥) }"
    yield arms(path, none, found, value="number")
    numbers = [(f"Status::{it.rattle}", it.number) for it in tables.rows_of("statuses")]
    yield arms("crates/x509_flat/src/status.rt", "ensures { result ≡ status_number self }", numbers)


def served():
    """The kinds that x509_tool serves, by name."""
    path = "crates/x509_tool_parts/src/served.rt"
    rows = sorted((it for it in tables.kinds() if it.tool), key=lambda it: it.name)
    yield enum(path, "Served", [(it.variant, f"`{it.name}`.") for it in rows])
    found = [(f'"{it.name}"', f"Some(Served::{it.variant})") for it in rows] + [("_", "None")]
    none = "ensures none { IfNone result ((s : Served) → type_name.now ≡ served_name s → ⊥) }"
    yield arms(path, none, found, value="type_name")
    answers = [(f"Served::{it.variant}", f"answer::<{it.rattle}<A>, A>(alloc, bytes)") for it in rows]
    yield arms(path, "ensures { AnswersAs A self bytes.now (listed_answer (λ v. v.items) result) }", answers)


def deviations():
    path, rows = "crates/x509_der_parts/src/deviation.rt", tables.rows_of("deviations")
    variants = [f"Deviation::{it.rattle}" for it in rows]
    all_kinds = "    /// The ten kinds, in the order of their numbers."
    yield list_of(path, all_kinds, "pub const ALL: [Deviation; {}]", variants, "    ")
    names = [(f"Deviation::{it.rattle}", f'"{it.text}"') for it in rows]
    yield arms(path, "ensures { result.now ≡ kind_name self }", names)
    yield arms(path, "ensures ten { result < 10 }", [(it, at) for at, it in enumerate(variants)])


def errors():
    path, rows = "crates/x509_der_parts/src/errors.rt", tables.named("errors")
    yield enum(path, "ReadError", [(it.variant, it.meaning) for it in rows])
    yield arms(path, "ensures { result ≡ error_number self }", [(f"ReadError::{it.variant}", it.number) for it in rows])
    names = [(f"ReadError::{it.variant}", f'"{it.text}"') for it in rows]
    yield arms(path, "ensures { result.now ≡ error_name self }", names)


def rules():
    """What may be wrong with certificates."""
    path, said, rows = "crates/x509_rules/src/rule.rt", "crates/x509_rules/src/said.rt", tables.named("rules")
    yield enum(path, "Rule", [(it.variant, tables.sentence(f"{it.clause}: {it.text}")) for it in rows])
    variants = [f"Rule::{it.variant}" for it in rows]
    yield list_of(path, "    /// All rules, in the order of the places that they name.", "pub const ALL: [Rule; {}]", variants, "    ")
    names = [(f"Rule::{it.variant}", f'"{it.name}"') for it in rows]
    yield arms(path, "ensures { result.now ≡ rule_name self }", names)
    found = [(f'"{it.name}"', f"Some(Rule::{it.variant})") for it in rows] + [("_", "None")]
    none = "ensures none { IfNone result ((rule : Rule) → name.now ≡ rule_name rule → ⊥) }"
    yield arms(path, none, found, value="name")
    parts = {it.name: tables.variant(it.member) for it in tables.fields("certificate")}
    yield arms(path, "ensures { result ≡ part_of self }", [(f"Rule::{it.variant}", f"Part::{parts[it.where]}") for it in rows])
    for method, answer in (
        ("severity(self) -> Severity", lambda it: f"Severity::{it.severity.capitalize()}"),
        ("clause(self) -> &'static str", lambda it: f'"{it.clause}"'),
        ("text(self) -> &'static str", lambda it: f"texts::{constant(it)}"),
        ("reason(self) -> &'static str", lambda it: f"reasons::{constant(it)}"),
    ):
        behind = f"    pub fn {method} {{\n        match self {{"
        lines = [f"            Rule::{it.variant} => {answer(it)}," for it in rows]
        yield Region(said, behind, "        }", lines)
    lines = [line for it in rows for line in laid_out_arm(f"Rule::{it.variant}", condition(it.condition))]
    yield Region("crates/x509_findings/src/condition.rt", "    // From tools/tables/rules.tsv.\n    match rule {", "    }", lines)
    path, behind = "crates/x509_flat_findings/src/number.rt", "    match rule {"
    yield Region(path, behind, "    }", [f"        Rule::{it.variant} => {it.number}," for it in rows])
    yield constants("texts", rows, lambda it: it.text)
    yield constants("reasons", rows, lambda it: tables.sentence(it.reason))


def condition(text):
    """What a rule asks, in Rattle: 'Has FaultyName(EmptyName)', say."""
    kind, *features = text.split()
    owner = {"Field": "FieldFault", "Issuer": "TextFault", "Subject": "TextFault", "Order": "OrderFault"}.get(kind, "Feature")
    written = [re.sub(r"\((\w+)\)", lambda it: f"({inner_type(feature)}::{it[1]})", f"{owner}::{feature}") for feature in features]
    return f"Condition::{kind}({', '.join(written)})"


def inner_type(feature):
    """The type of what a feature is about."""
    return "NameFault" if feature.startswith("FaultyName") else "Known"


def laid_out_arm(pattern, answer, width=100):
    """An arm of a match, with its answer in a block where it is too long."""
    line = f"        {pattern} => {answer},"
    return [line] if len(line) <= width else [f"        {pattern} => {{", f"            {answer}", "        }"]


def constant(rule):
    """The name of a rule's text or reason."""
    return rule.name.upper().replace("-", "_")


def constants(module, rows, text):
    """A module of texts, one for each rule."""
    front = "pub(crate) const {}: &str ="
    lines = [line for it in rows for line in (*laid_out(front.format(constant(it)), f'"{text(it)}";'), "")]
    return Region(f"crates/x509_rules/src/{module}.rt", "// From tools/tables/rules.tsv.", "// Until here.", lines)


def laid_out(front, text, width=100):
    """A constant, with its text on a line of its own where it is too long."""
    line = f"{front} {text}"
    return [line] if len(line) <= width else [front, f"    {text}"]


def content(identifier):
    """The content of an object identifier with dots, as a list of bytes (X.690, 8.19)."""
    first, second, *rest = map(int, identifier.split("."))
    found = []
    for arc in (40 * first + second, *rest):
        digits = [arc & 127]
        while arc := arc >> 7:
            digits.insert(0, 128 | arc & 127)
        found += digits
    return f"[{', '.join(f'0x{it:02x}' for it in found)}]"


def words_by_identifier(path, function, rows):
    """What a function answers for the contents of object identifiers."""
    lines = []
    for identifier, word in rows:
        lines += [f"        // {identifier}", f'        {content(identifier)} => Some("{word}"),']
    behind = f"fn {function}(content: &[u8]) -> Option<&'static str> {{\n    match content {{"
    return Region(path, behind, "        _ => None,", lines)


def in_reports():
    short = [(it.id, it.short) for it in tables.rows_of("attributes")]
    yield words_by_identifier("crates/x509_report_fields/src/name.rt", "short_name", short)
    words = [(it.id, it.word) for it in tables.rows_of("keys") if it.word]
    yield words_by_identifier("crates/x509_report_fields/src/key.rt", "common_word", words)


def regions():
    yield from kinds()
    yield from unread()
    yield from in_the_program()
    yield from run_by_kind()
    yield from outcomes()
    yield from by_number()
    yield from served()
    yield from deviations()
    yield from errors()
    yield from rules()
    yield from in_reports()
