"""What README and docs/ have of the tables."""

import itertools
import textwrap

from . import tables
from .regions import Region


def regions():
    rows = [f"| {it.number} | {it.text} | `{it.rattle}` | {it.stands} |" for it in tables.rows_of("deviations")]
    yield Region("README.md", "| | Deviation | In code | What stands in the input |\n|--:|---|---|---|", "", rows)
    yield Region("docs/FINDINGS.md", "## The rules\n", "", [*rules()])
    yield Region("docs/BINDINGS.md", "| Status | Meaning |\n|---|---|", "", list(map(status, tables.rows_of("statuses"))))


def status(row):
    advice = f". {row.advice}" if row.advice else ""
    return f"| `CIMAROLY_{row.name}` | {row.meaning}{advice} |"


def rules():
    """A list of fields, with the rules about each."""
    reasons = {}
    for where, rows in itertools.groupby(tables.rows_of("rules"), lambda it: it.where):
        yield f"- `{where}`:"
        for it in rows:
            yield from rule(it, reasons.setdefault(it.reason, it.name))


def rule(row, first):
    """An item of a list: what is wrong and by which clause, and why it matters, or which rule matters for the same reason."""
    clause = row.clause.removeprefix("RFC 5280, ")
    reason = tables.sentence(row.reason) if first == row.name else f"See `{first}`."
    said = f"`{row.name}`, {row.severity} ({clause}): {row.text}. {reason}"
    return textwrap.wrap(said, 120, initial_indent="  - ", subsequent_indent="    ", break_long_words=False, break_on_hyphens=False)
