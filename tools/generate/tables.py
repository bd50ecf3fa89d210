"""The tables of tools/tables/, in which a hyphen alone is nothing, and the names that are made of theirs."""

import csv
import functools
import os
from types import SimpleNamespace

ROOT = os.path.dirname(os.path.dirname(os.path.dirname(os.path.abspath(__file__))))
# What the kinds of outlines end with, behind the kind that they are outlines of.
OUTLINE = "-outline"


@functools.cache
def rows_of(name):
    """The rows of a table, with a member for each column."""
    with open(f"{ROOT}/tools/tables/{name}.tsv", encoding="utf-8", newline="") as file:
        rows = csv.DictReader(file, delimiter="\t", quoting=csv.QUOTE_NONE)
        return [SimpleNamespace(**{key: "" if it == "-" else it for key, it in row.items()}) for row in rows]


def kinds():
    """The rows of kinds that are read whole, with the names that languages have for them, and their labels as a list."""
    return with_names("kinds")


def served():
    """The rows of all kinds that languages have: those that are read whole, and outlines."""
    return with_names("kinds") + with_names("outlines")


def with_names(table):
    rows = rows_of(table)
    for it in rows:
        it.constant, it.variant = constant(it.name), variant(it.name)
        it.label_list = it.labels.split(",") if it.labels else []
    return rows


def named(table):
    """The rows of a table whose names are constants, with those of their variants."""
    rows = rows_of(table)
    for it in rows:
        it.variant = variant(it.name)
    return rows


def fields(kind):
    """The rows of the fields of a kind or of its outline, in the order of the standard."""
    return [it for it in rows_of("fields") if it.kind == kind.removesuffix(OUTLINE)]


def with_fields():
    """The kinds whose fields are told, and an extension, whose fields are too."""
    return list(dict.fromkeys(it.kind for it in rows_of("fields")))


def kinds_with_fields():
    return [it for it in with_fields() if it != "extension"]


def outlines_with_fields():
    """The outlines of these kinds, which have their fields."""
    return [f"{it}{OUTLINE}" for it in kinds_with_fields() if f"{it}{OUTLINE}" in {row.name for row in rows_of("outlines")}]


def call_of(kind):
    """The call of C that tells a kind's fields."""
    return f"cimaroly_{'_'.join(words_of(kind))}_fields"


def words_of(name):
    return name.lower().replace("_", "-").split("-")


def constant(name):
    """As in RSA_PRIVATE_KEY."""
    return "_".join(words_of(name)).upper()


def variant(name):
    """As in RsaPrivateKey."""
    return "".join(it.capitalize() for it in words_of(name))


def member(name):
    """As in rsaPrivateKey."""
    first, *rest = words_of(name)
    return first + "".join(it.capitalize() for it in rest)


def meaning(kind, also):
    """What a kind is, in the words of its standard, with some words before another name of its type."""
    text = f"`{kind.type}`"
    text += f"{also} `{kind.also}`" if kind.also else ""
    text += f" ({kind.source})" if kind.source else ""
    if kind.remark:
        text += f"{',' if kind.source else ''} {kind.remark}"
    return text


def sentence(text):
    """A text as a sentence, with a full stop unless it has one."""
    text = text[0].upper() + text[1:]
    return text if text.endswith(".") else f"{text}."
