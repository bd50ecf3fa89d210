"""What web/ has of the tables: the module's names, rules, statuses, fields, types and keys, and the page's texts."""

from . import tables
from .regions import Region

WIDTH = 120


def quoted(text):
    return f'"{text}"'


def key(name):
    return quoted(name) if "-" in name else name


def array(indent, front, items, end):
    """An array on one line, or on a line for each item where that is too long."""
    line = f"{indent}{front}[{', '.join(items)}]{end}"
    if len(line) <= WIDTH:
        return [line]
    return [f"{indent}{front}[", *[f"{indent}  {it}," for it in items], f"{indent}]{end}"]


def constant(path, name, lines, end="]);"):
    """What stands in an array or a map that is a constant of a module."""
    return Region(f"web/{path}", name, end, lines)


def names():
    errors = ['  "",', *[f'  "{it.text}",' for it in tables.rows_of("errors")]]
    yield constant("names.mjs", "export const ERRORS = Object.freeze([", errors)
    deviations = [f'  "{it.text}",' for it in tables.rows_of("deviations")]
    yield constant("names.mjs", "export const DEVIATIONS = Object.freeze([", deviations)
    yield constant("pem.mjs", "export const KINDS = Object.freeze([", [f'  "{it.name}",' for it in tables.served()])
    labels = [f'  ["{label}", "{it.name}"],' for it in tables.served() for label in it.label_list]
    yield constant("pem.mjs", "const LABELS = new Map([", labels)


def rules():
    lines = [line for it in tables.rows_of("rules") for line in ("  {", *members_of(it), "  },")]
    yield constant("rules.mjs", "export const RULES = Object.freeze([", lines)


def members_of(rule):
    texts = {"rule": rule.name, "severity": rule.severity, "text": rule.text, "clause": rule.clause}
    for name, text in {**texts, "reason": tables.sentence(rule.reason)}.items():
        line = f'    {name}: "{text}",'
        yield from [line] if len(line) <= WIDTH else [f"    {name}:", f'      "{text}",']


def core():
    statuses = [f"{tables.member(it.name)}: {it.number}" for it in tables.rows_of("statuses")]
    yield constant("making.mjs", "/** What a call answers. */", [f"export const STATUS = {{ {', '.join(statuses)} }};"], "")
    lines = []
    for kind in tables.kinds_with_fields():
        lines += [f"  {key(kind)}: {{", f'    call: "{tables.call_of(kind)}",']
        lines += [*array("    ", "names: ", [quoted(it.name) for it in tables.fields(kind)], ","), "  },"]
    yield constant("names.mjs", "export const FIELDS = {", lines, "};")


def types():
    path, kinds = "web/fields.d.ts", tables.served()
    union = [f'  | "{it.name}"' for it in kinds]
    yield Region(path, "export type Kind =", "", [*union[:-1], f"{union[-1]};"])
    for kind in tables.kinds_with_fields():
        yield Region(path, f"export interface {tables.variant(kind)}Fields {{", "}", members(kind))
    lines = [f"  {key(it)}: {tables.variant(it)}Fields;" for it in tables.kinds_with_fields()]
    lines += [f"  {key(it)}: {tables.variant(it.removesuffix(tables.OUTLINE))}Fields;" for it in tables.outlines_with_fields()]
    yield Region(path, "export interface FieldsByKind {", "}", lines)
    roots = dict.fromkeys(it.type for it in kinds)
    yield Region("web/cimaroly.d.ts", "  field?: string;", "}", [f"  {it}?: ReportNode;" for it in roots])


def members(kind):
    lines = []
    for it in tables.fields(kind):
        lines += [f"  /** {tables.sentence(it.note)} */"] if it.name == "skipped" else []
        lines.append(f"  {it.name}{'?' if it.optional else ''}: Span;")
    return lines


def in_page():
    path = "page/summary.mjs"
    yield constant(path, "const TITLES = new Map([", [f'  ["{it.name}", "{it.title}"],' for it in tables.served()])
    yield constant(path, "const SHORT = new Map([", [f'  ["{it.id}", "{it.short}"],' for it in tables.rows_of("attributes")])
    keys = tables.rows_of("keys")
    path = "keys.mjs"
    yield constant(path, "export const ALGORITHMS = new Map([", [f'  ["{it.id}", "{it.word}"],' for it in keys if it.word])
    yield constant(path, "export const SIZES = new Map([", [f'  ["{it.id}", {it.bits}],' for it in keys if it.bits])
    sentences = [line for it in tables.rows_of("deviations") for line in pair(it.text, it.sentence)]
    yield constant("page/deviations.mjs", "const SENTENCES = new Map([", sentences)


def pair(name, text):
    """A pair of a map on one line; or on four, and the text in two parts, where it is too long."""
    line = f'  ["{name}", "{text}"],'
    if len(line) <= WIDTH:
        return [line]
    lines = [f'    "{text}",']
    if len(lines[0]) > WIDTH:
        at = text.rindex(" ", 0, WIDTH - len('    "" +') + 1) + 1
        lines = [f'    "{text[:at]}" +', f'      "{text[at:]}",']
    return ["  [", f'    "{name}",', *lines, "  ],"]


def regions():
    yield from names()
    yield from rules()
    yield from core()
    yield from types()
    yield from in_page()
