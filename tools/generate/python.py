"""What bindings/python/ has of the tables: kinds, deviations, reasons, rules, labels of PEM blocks, and fields."""

from . import tables
from .regions import Region

FINDINGS = "bindings/python/cimaroly/_findings.py"
KINDS = "bindings/python/cimaroly/_kinds.py"
LIBRARY = "bindings/python/cimaroly/_library.py"
PEM = "bindings/python/cimaroly/_pem.py"


def enum(name, doc, table):
    lines = [f"    {it.name} = {it.number}" for it in tables.rows_of(table)]
    return Region(KINDS, f'class {name}(enum.IntEnum):\n    """{doc}"""\n', "", lines)


def texts(name, table):
    return Region(KINDS, f"{name} = (", ")", [f'    "{it.text}",' for it in tables.rows_of(table)])


def rules():
    lines = []
    for it in tables.rows_of("rules"):
        cells = (it.name, it.severity, it.text, it.clause, tables.sentence(it.reason))
        lines += ["    (", *[f'        "{cell}",' for cell in cells], "    ),"]
    return Region(FINDINGS, "_RULES: tuple[tuple[str, Severity, str, str, str], ...] = (", ")", lines)


def names_of(kind):
    """The names of a kind's fields, in the order of its structure in the header."""
    listed = [f'"{it.member}"' for it in tables.fields(kind)]
    line = f'    "{kind}": ({", ".join(listed)}),'
    return [line] if len(line) <= 120 else [f'    "{kind}": (', *[f"        {it}," for it in listed], "    ),"]


def regions():
    yield Region(KINDS, "Kind = Literal[", "]", [f'    "{it.name}",' for it in tables.served()])
    yield enum("Deviation", "How bytes that are read deviate from the one form that is written.", "deviations")
    yield enum("Reason", "Why bytes are refused.", "errors")
    yield texts("_DEVIATIONS", "deviations")
    yield texts("_REASONS", "errors")
    yield rules()
    labels = [f'    "{label}": "{it.name}",' for it in tables.served() for label in it.label_list]
    yield Region(PEM, "_LABELS: dict[str, Kind] = {", "}", labels)
    statuses = tables.rows_of("statuses")
    line = f"{', '.join(it.name for it in statuses)} = range({len(statuses)})"
    yield Region(LIBRARY, "# What a call answers.", "", [line])
    lines = [line for it in tables.kinds_with_fields() for line in names_of(it)]
    yield Region(LIBRARY, "FIELDS: dict[Kind, tuple[str, ...]] = {", "}", lines)
