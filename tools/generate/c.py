"""What bindings/c/cimaroly.h has of the tables: enums, names, and where fields stand."""

import itertools

from . import tables
from .regions import Region

PATH = "bindings/c/cimaroly.h"


def lines_of(rows):
    """Lines of code and comments; where lines with comments follow one another, these are below one another."""
    lines = []
    for _, run in itertools.groupby(rows, key=lambda row: row[1] != ""):
        run = list(run)
        width = max(len(code) for code, _ in run)
        lines += [f"    {code.ljust(width)} /* {comment} */" if comment else f"    {code}" for code, comment in run]
    return lines


def enum(name, rows):
    rows = [(f"{code},", comment) for code, comment in rows]
    rows[-1] = (rows[-1][0][:-1], rows[-1][1])
    return Region(PATH, f"enum cimaroly_{name} {{", "};", lines_of(rows))


def enums():
    kinds = [(f"CIMAROLY_{it.constant} = {it.number}", plain(tables.meaning(it, ", or"))) for it in tables.served()]
    yield enum("kind", kinds)
    yield enum("status", [(f"CIMAROLY_{it.name} = {it.number}", plain(it.meaning)) for it in tables.rows_of("statuses")])
    yield enum("error", [(f"CIMAROLY_ERROR_{it.name} = {it.number}", "") for it in tables.rows_of("errors")])
    yield enum("deviation", [(f"CIMAROLY_{it.name} = {it.number}", "") for it in tables.rows_of("deviations")])
    yield enum("rule", [(f"CIMAROLY_RULE_{tables.constant(it.name)} = {it.number}", "") for it in tables.rows_of("rules")])


def plain(text):
    return text.replace("`", "")


def comment_of(field):
    """What is said of a field that isn't named in its standard, or may be left out."""
    if field.kind == "extension":
        return "or none, where it is left out" if field.optional else ""
    words = [plain(field.note)] if field.name == "skipped" else []
    return ", ".join(words + ["or none"] * bool(field.optional))


def struct(kind):
    rows = [(f"struct cimaroly_span {it.member};", comment_of(it)) for it in tables.fields(kind)]
    return Region(PATH, f"struct cimaroly_{'_'.join(tables.words_of(kind))} {{", "};", lines_of(rows))


def names(function, table, what="name", member="text"):
    """A function from a number to a text."""
    behind = f"static inline const char *cimaroly_{function}_{what}(size_t {function})\n{{"
    behind += f"\n    static const char *const {what}s[] = {{"
    return Region(PATH, behind, "    };", ['        "",', *[f'        "{getattr(it, member)}",' for it in tables.rows_of(table)]])


def regions():
    yield from enums()
    yield from map(struct, tables.with_fields())
    yield names("error", "errors")
    yield names("deviation", "deviations")
    for what, member in (("name", "name"), ("text", "text"), ("clause", "clause")):
        yield names("rule", "rules", what, member)
    warnings = [f"        CIMAROLY_RULE_{tables.constant(it.name)}," for it in tables.rows_of("rules") if it.severity == "warning"]
    yield Region(PATH, "    static const uint32_t warnings[] = {", "    };", warnings)
