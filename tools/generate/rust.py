"""What bindings/rust/ has of the tables: kinds, deviations, reasons, rules, statuses, and the fields of structures."""

import re

from . import tables
from .regions import Region, comment

SOURCE = "bindings/rust/src"
# Which statuses the crate tells apart: another means that the call isn't for the kind.
TOLD = ("OK", "REFUSED", "OUT_OF_MEMORY", "BUFFER_TOO_SHORT", "TOO_LONG")
FILES = {"Kind": "kind.rs", "Deviation": "kind.rs", "Reason": "error.rs", "Rule": "findings.rs"}
WIDTH = 100


def doc(text):
    return comment(text, "    /// ", width=WIDTH)


def enum(name, rows):
    """An enum of rows, each a number, a variant and what it means."""
    lines = []
    for number, variant, text in rows:
        lines += [*doc(text), f"    {variant} = {number},"]
    return Region(f"{SOURCE}/{FILES[name]}", f"pub enum {name} {{", "}", lines)


def all_of(name, what, rows):
    """The constant with every variant, and the line that says how many there are."""
    behind = f"    /// Every {what}, in the order of their numbers."
    lines = [f"    pub const ALL: [{name}; {len(rows)}] = ["]
    lines += [f"        {name}::{variant}," for _, variant, _ in rows]
    return Region(f"{SOURCE}/{FILES[name]}", behind, "    ];", lines)


def texts(name, what, texts_of):
    """What `name` answers."""
    return answers(name, f"    /// The name, {what}.", "name", texts_of)


def answers(name, said, function, texts_of):
    """What a function answers behind its doc comment, as rustfmt lays it out."""
    behind = f"{said}\n    #[must_use]\n    pub const fn {function}(self) -> &'static str {{\n        match self {{"
    lines = []
    for variant, text in texts_of:
        arm, text = f"            {name}::{variant} =>", f'"{text}"'
        line = f"{arm} {text},"
        lines += [line] if len(line) <= WIDTH else [f"{arm} {{", f"                {text}", "            }"]
    return Region(f"{SOURCE}/{FILES[name]}", behind, "        }", lines)


def kinds():
    rows = [(it.number, it.variant, f"{tables.meaning(it, ', or')}.") for it in tables.served()]
    yield enum("Kind", rows)
    yield all_of("Kind", "kind", rows)
    yield texts("Kind", "as reports have it", [(it.variant, it.name) for it in tables.served()])
    yield labels()


def labels():
    """Which kind the label of a PEM block names."""
    behind = "    pub fn from_label(label: &[u8]) -> Option<Kind> {\n        match label {"
    lines = []
    for it in tables.served():
        arms = " | ".join(f'b"{label}"' for label in it.label_list)
        lines += [f"            {arms} => Some(Kind::{it.variant}),"] if arms else []
    return Region(f"{SOURCE}/kind.rs", behind, "            _ => None,", lines)


def numbered(name, what, table, meaning):
    rows = [(it.number, it.variant, tables.sentence(getattr(it, meaning))) for it in tables.named(table)]
    yield enum(name, rows)
    yield all_of(name, what, rows)
    yield texts(name, "in plain words", [(it.variant, it.text) for it in tables.named(table)])


def marked(text):
    """A text with its identifiers between backticks, as clippy asks for."""
    return re.sub(r"\b\w*[a-z]\w*[A-Z]\w*", r"`\g<0>`", text)


def rules():
    rows = tables.named("rules")
    numbers = [(it.number, it.variant, tables.sentence(marked(it.text))) for it in rows]
    yield enum("Rule", numbers)
    yield all_of("Rule", "rule", numbers)
    yield texts("Rule", "as `cimaroly lint` has it: `serial-not-positive`", [(it.variant, it.name) for it in rows])
    said = "    /// What is wrong where it is broken, in plain words."
    yield answers("Rule", said, "text", [(it.variant, it.text) for it in rows])
    said = "    /// The clause that it is from: `RFC 5280, 4.1.2.2`."
    said += "\n    #[allow(clippy::match_same_arms)] // (they stand in the order of the rules)"
    yield answers("Rule", said, "clause", [(it.variant, it.clause) for it in rows])
    first, *others = [f"Rule::{it.variant}" for it in rows if it.severity == "warning"]
    lines = [" " * 12 + first, *[" " * 16 + f"| {it}" for it in others]]
    behind = "    pub const fn is_warning(self) -> bool {"
    yield Region(f"{SOURCE}/{FILES['Rule']}", behind, "    }", ["        matches!(", " " * 12 + "self,", *lines, "        )"])


def field_doc(field):
    if field.name == "whole":
        return "The whole of it."
    if field.name == "skipped":
        return tables.sentence(field.note)
    note = field.note or ("unless it is left out" if field.kind == "extension" and field.optional else "")
    return f"`{field.name}`{', ' if note else ''}{note}."


def places(kind):
    """A kind's struct in the library, which is that of its outline too."""
    name = "pub struct ExtensionPlaces" if kind == "extension" else f"pub(crate) struct {tables.variant(kind)}"
    lines = [f"    pub(crate) {it.member}: Span," for it in tables.fields(kind)]
    file = "library.rs" if kind == "extension" else "library/fields.rs"
    return Region(f"{SOURCE}/{file}", f"{name} {{", "}", lines)


def struct(kind):
    """The struct of a kind's fields."""
    lines = []
    for it in tables.fields(kind):
        kept = "Option<Field<'a>>" if it.optional else "Field<'a>"
        lines += [*doc(field_doc(it)), f"    pub {it.member}: {kept},"]
    if kind in ("certificate", "request"):
        lines += ["    pub(crate) whole: Field<'a>,"]
    return Region(f"{SOURCE}/fields.rs", f"pub struct {tables.variant(kind)}<'a> {{", "}", lines)


def made(kind):
    """How a kind's fields are made of their places."""
    answer, der, found = ("Some", "self.der", "places") if kind == "extension" else ("Ok", "der", "told")
    call = {it.member: "optional" if it.optional else "field" for it in tables.fields(kind)}
    lines = [f"            {member}: {make}({der}, {found}.{member})," for member, make in call.items()]
    if kind in ("certificate", "request"):
        lines += ["            whole: field(der, Span { start: 0, end: der.len() }),"]
    return Region(f"{SOURCE}/reader.rs", f"        {answer}({tables.variant(kind)} {{", "        })", lines)


def regions():
    yield from kinds()
    yield from numbered("Deviation", "deviation", "deviations", "stands")
    yield from numbered("Reason", "reason", "errors", "meaning")
    yield from rules()
    told = [it for it in tables.rows_of("statuses") if it.name in TOLD]
    lines = [f"    pub(crate) const {it.name}: u32 = {it.number};" for it in told]
    yield Region(f"{SOURCE}/library.rs", "pub(crate) mod status {", "}", lines)
    for kind in tables.with_fields():
        yield from (places(kind), struct(kind), made(kind))
    for kind in tables.outlines_with_fields():
        yield from (struct(kind), made(kind))
