"""Which function a line of a source file stands in, by the path under which a check prints it; and what contracts a file has.

The files are in rt fmt's layout.
"""

import os
import re

FUNCTION = re.compile(r'( *)(?:pub(?:\([a-z]+\))? )?(?:const )?(?:unsafe )?(?:extern "C" )?fn (\w+)')
# What opens a block at the top that has functions in it, up to its brace.
OPENS = re.compile(r"(?:pub(?:\([a-z]+\))? )?(?:unsafe )?(impl|trait)\b")
DECLARES = re.compile(r"(?m)^(?:pub(?:\([a-z]+\))? )?(?:struct|enum|trait|type|union) (\w+)")
CLAUSE = re.compile(r" *(?:requires|ensures|ghost)\b")


def module_of(file):
    """The path of the module that a file below src/ is, with '::' behind it; empty for the root."""
    path = file.removeprefix("src/").removesuffix(".rt").removesuffix("/mod")
    return "" if path in ("lib", "main") else path.replace("/", "::") + "::"


def split_at(text, mark):
    """The parts of a text between marks that stand in no brackets."""
    parts, depth, first = [], 0, 0
    for at, it in enumerate(text):
        depth += (it in "<([") - (it in ")]" or it == ">" and text[at - 1] not in "-=")
        if not depth and text.startswith(mark, at):
            parts.append(text[first:at])
            first = at + len(mark)
    return [*parts, text[first:]]


def bracketed(text):
    """What stands in the angle brackets that a text begins with, and what follows them."""
    if not text.startswith("<"):
        return "", text
    depth = 0
    for at, it in enumerate(text):
        depth += (it == "<") - (it == ">" and text[at - 1] not in "-=")
        if not depth:
            return text[1:at], text[at + 1 :]
    return text[1:], ""


def word_of(written, parameters):
    """The word for a type in the name of an impl, and none for a parameter of it."""
    written = written.strip()
    lent = re.match(r"&(?:'\w+ )?(?:mut )?", written)
    if lent:
        return "Ref" + word_of(written[lent.end() :], parameters)
    if written == "()":
        return "Unit"
    path, angle, rest = written.partition("<")
    name = path.rpartition("::")[2].strip()
    if not re.fullmatch(r"\w+", name) or name in parameters:
        return ""
    arguments = split_at(bracketed(angle + rest)[0], ",")
    return name[0].upper() + name[1:] + "".join(word_of(it, parameters) for it in arguments)


def flat_words(written):
    """The names in a type, in order, with a word for each reference."""
    return ["ref" if it == "&" else it for it in re.findall(r"&|\w+", re.sub(r"'\w+|\bmut\b", "", written))]


def impl_name(header):
    """The name of an impl or a trait, from its lines up to the brace; and whether it stands at its file, and not at its type."""
    rest = header[header.index("impl") + 4 :] if re.match(r"(unsafe )?impl", header) else None
    if rest is None:
        return re.search(r"\btrait (\w+)", header)[1], False
    given, rest = bracketed(rest)
    parameters = {it.strip().removeprefix("const ").partition(":")[0].strip() for it in split_at(given, ",")}
    words = split_at(split_at(rest, " where")[0], " for ")
    if len(words) > 1:
        # An impl for every type of a bound has a word for them all.
        return (word_of(words[-1], parameters) or "Any") + word_of(words[0], parameters), True
    path, angle, rest = words[0].strip().partition("<")
    arguments = [it.strip() for it in split_at(bracketed(angle + rest)[0], ",") if it.strip() and not it.strip().startswith("'")]
    if all(it in parameters for it in arguments):
        return path, False
    # An impl for some of a type's arguments has all of them in its name.
    return "+".join([path, *flat_words(",".join(arguments))]), True


class Source:
    """A file of a crate: its functions, by their lines, and its contracts."""

    def __init__(self, file, text, homes):
        self.file, self.lines, self.homes = file, text.split("\n"), homes

    def path_at(self, line):
        """The path of the function that has a line in its body, if any."""
        for first in range(line, -1, -1):
            found = FUNCTION.match(self.lines[first])
            if found:
                return self.prefix_at(first, found[1]) + found[2] if line in self.body_at(first, found[1]) else None
        return None

    def prefix_at(self, first, indent):
        """What stands in front of the name of a function that begins in this line."""
        if not indent:
            return module_of(self.file)
        top = next(it for it in range(first, -1, -1) if OPENS.match(self.lines[it]))
        header = []
        for it in range(top, first):
            header.append(self.lines[it].strip())
            if header[-1].endswith("{"):
                break
        name, is_here = impl_name(" ".join(header).removesuffix("{").strip())
        home = module_of(self.file) if is_here else self.homes.get(name, module_of(self.file))
        return f"{home}{name}::"

    def body_at(self, first, indent):
        """The lines of the body of a function that begins in this line with this indent. Its clauses aren't among them."""
        if self.lines[first].endswith("}"):
            return range(first, first + 1)
        for at in range(first, len(self.lines) - 1):
            # A method of a trait may have no body.
            if self.lines[at].endswith(";") and self.lines[at + 1].strip() in ("", "}"):
                break
            if self.lines[at].endswith("{") and len(self.lines[at]) - len(self.lines[at].lstrip()) == len(indent):
                last = next((it for it in range(at, len(self.lines)) if self.lines[it] == indent + "}"), at)
                return range(at + 1, last)
        return range(0)


def homes_of(texts):
    """The module of each type and trait that these files declare, by its name."""
    return {name: module_of(file) for file, text in texts.items() for name in DECLARES.findall(text)}


def contracts_of(text):
    """What a file states and proves, in order: clauses, ghost items, the hints of its proofs, and what its code has proved."""
    found, part = [], []
    for line in text.split("\n"):
        word = line.strip()
        if part or re.match(r"(requires|ensures|ghost)\b|#!?\[(tactic|cycle)\b", word):
            part.append(word)
            whole = " ".join(part)
            is_item = part[0].startswith("ghost ") and not re.match(r"ghost \w+: ", part[0])
            if whole.startswith("#") and whole.endswith("]") or is_item and whole.endswith(";") or is_clause_end(whole, is_item):
                found.append(whole)
                part = []
        elif re.search(r"\b(prove|unreachable|assert|invariant|decreases)\w*!|\bprove\b", word):
            found.append(word)
    return found + part


def is_clause_end(whole, is_item):
    """Whether a clause is whole: its braces are closed."""
    return not is_item and not whole.startswith("#") and "{" in whole and whole.count("{") == whole.count("}")
