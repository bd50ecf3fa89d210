"""Reads declarations: ASN.1 (X.680), with Rust names and types in its comments. tools/structures.py writes code from them.

A file of declarations is a module in ASN.1's own notation, as a standard has it. Of these assignments code is written:

    -- AccessDescription (RFC 5280, 4.2.2.1)
    -- Where a service of an authority is found.
    AccessDescription ::= SEQUENCE {
        accessMethod   OBJECT IDENTIFIER, -- access_method: ObjectIdentifierAsn1<A>. Which service it is.
        accessLocation GeneralName        -- access_location: GeneralName<A>. Where it is found.
    }

A comment above an assignment names the Rust type and the source, and then says what it is. A component stands in a line of
its own, and its comment, which may go on in further lines, names its Rust field and type, and then says what it is. So it is
with CHOICE, whose alternatives have the names of variants. Behind SEQUENCE OF and SET OF the comment gives the items' type.
Any other assignment gives a type a second name, for which no code is written.

The module says whether its tags are implicit; a tag of a CHOICE is an explicit one all the same (X.680, 31.2.7). DEFAULT is
as OPTIONAL: that a component is absent, and that its default is encoded, are two values. SIZE, ranges and named bits are
asked of no value.
"""

import csv
import re
from dataclasses import dataclass, field

MODULE = re.compile(r"\w[\w-]* DEFINITIONS (IMPLICIT|EXPLICIT) TAGS ::= BEGIN")
TITLE = re.compile(r"(\w+) \(([^()]+)\)")
ASSIGNMENT = re.compile(r"([A-Z][\w-]*) ::= (.+)")
COMPONENT = re.compile(r"([a-z][\w-]*) (?:\[(\d+)\] (?:(IMPLICIT|EXPLICIT) )?)?(.+?)(?: (OPTIONAL|DEFAULT \S+))?")
BESIDE = re.compile(r"(\w+): ([^.]+)\. (.+)")
LISTS = {"SEQUENCE OF ": ("Asn1SequenceOf", 0x30), "SET OF ": ("Asn1SetOf", 0x31)}


class BadDeclaration(Exception):
    """What is wrong with a file of declarations, and in which line."""


@dataclass(frozen=True)
class Type:
    """A Rust type that a component may have, and how the grammar has it."""

    asn1: str
    rust: str
    # what contracts see of a value; none where the table doesn't say
    value: str
    # the bytes that an encoding may begin with, in the order of the grammar's alternatives; none where they aren't known
    tags: tuple
    # the grammar of a content; none where the type is a CHOICE, so that it has no tag of its own
    content: str
    whole: str
    # what the grammar is made of, as (module, name), and the Rust type, as (crate, name)
    grammar: frozenset
    imports: frozenset
    # the argument of its `lawful`
    fits: str

    @property
    def constructed(self):
        return bool(self.tags[0] & 0x20)

    def listed(self, asn1):
        """The list of such items, `SEQUENCE OF ` or `SET OF `."""
        name, tag = LISTS[asn1]
        content = f"items {within(self.whole)}"
        items = {("x509_der.specs.Items", "items"), ("x509_der.specs.Tagged", "tagged")}
        return Type(
            asn1 + self.asn1, f"{name}<{self.rust}, A>", f"List {within(self.value)}", (tag,), content,
            f"tagged {tag} ({content})", self.grammar | items, self.imports | {("x509_der", name)}, f"({self.fits}, tt)",
        )


@dataclass(frozen=True)
class Component:
    """A component of a SEQUENCE, or an alternative of a CHOICE."""

    asn1: str
    name: str
    doc: str
    type: Type
    optional: bool
    tag: int = None
    explicit: bool = False

    @property
    def byte(self):
        """The tag that stands in front of it, as a byte."""
        return 0x80 | (0x20 if self.explicit or self.type.constructed else 0) | self.tag

    @property
    def tags(self):
        return self.type.tags if self.tag is None else (self.byte,)

    @property
    def shape(self):
        """Its grammar."""
        if self.tag is None:
            return self.type.whole
        return f"tagged {self.byte} {within(self.type.whole if self.explicit else self.type.content)}"

    @property
    def grammar(self):
        return self.type.grammar | ({("x509_der.specs.Tagged", "tagged")} if self.tag is not None else set())

    @property
    def fits(self):
        return f"({self.type.fits}, tt)" if self.optional else self.type.fits

    @property
    def held(self):
        """The Rust type of its field."""
        return f"Option<{self.type.rust}>" if self.optional else self.type.rust

    @property
    def kind(self):
        """The type of its tag."""
        return "ContextConstructed" if self.byte & 0x20 else "ContextPrimitive"

    def part(self, rust):
        """The part that holds it, over a type or a reference to one."""
        if self.tag is not None:
            rust = f"Tagged<{self.kind}<{self.tag}>, {f'One<{rust}>' if self.explicit else rust}>"
        return f"Optional<{rust}>" if self.optional else rust


@dataclass
class Declaration:
    """An assignment that code is written for: SEQUENCE, CHOICE or LIST."""

    kind: str
    asn1: str
    name: str
    source: str
    doc: list
    components: list = field(default_factory=list)
    # of a list, what stands behind `::=`, the type of its items and its own
    list: str = None
    item: Type = None
    type: Type = None

    @property
    def snake(self):
        return snake(self.name)

    @property
    def generic(self):
        return self.item is not None or any(re.search(r"\bA\b", it.type.rust) for it in self.components)

    @property
    def rust(self):
        """The Rust type over any allocator."""
        return f"{self.name}<A>" if self.generic else self.name

    @property
    def value(self):
        """What contracts see of a value."""
        if self.type:
            return self.type.value
        return f"{self.name} A" if self.generic else f"{self.name}Value"


def within(term):
    """A term where an argument stands."""
    return f"({term})" if " " in term else term


def snake(name):
    return re.sub(r"(?<=[a-z0-9])(?=[A-Z])", "_", name).lower()


def types_in(path):
    """The types of a table, by their Rust names."""
    with open(path, encoding="utf-8", newline="") as file:
        rows = list(csv.DictReader(file, delimiter="\t", quoting=csv.QUOTE_NONE))
    return {row["rust"]: type_of(row) for row in rows}


def type_of(row):
    tags = tuple(int(it, 16) for it in row["tags"].split())
    content = None if row["content"] == "-" else row["content"]
    modules = re.findall(r"([\w.]+)\.\{(.*?)\}", row["grammar"])
    grammar = {(module, name) for module, names in modules for name in names.split(", ")}
    if content is not None:
        grammar |= {("x509_der.specs.Tagged", "tagged")}
    whole = row["whole"] if content is None else f"tagged {tags[0]} {within(content)}"
    imports = frozenset() if row["crate"] == "-" else frozenset({(row["crate"], row["rust"].partition("<")[0])})
    return Type(row["asn1"], row["rust"], row["value"].strip("-"), tags, content, whole, frozenset(grammar), imports, row["fits"])


def bare(asn1):
    """A type in ASN.1 without its size, range and named bits."""
    asn1 = re.sub(r"\{[^{}]*\}", "", asn1)
    while "(" in asn1:
        asn1 = re.sub(r"\([^()]*\)", "", asn1)
    return " ".join(asn1.replace("SIZE", "").split())


class Reader:
    """Reads a file of declarations."""

    def __init__(self, path, known, module):
        self.path = path
        self.known = dict(known)
        # where the grammar of a type that is declared here stands: the module that a name is defined in
        self.module = module
        self.synonyms = {}
        self.implicit = None
        self.found = []

    def refuse(self, number, why):
        raise BadDeclaration(f"{self.path}:{number}: {why}")

    def read(self, text):
        """The declarations of a text."""
        above, block = [], []
        for number, line in enumerate(text.split("\n"), 1):
            line = " ".join(line.split())
            if block:
                block.append((number, line))
                if line.partition("--")[0].rstrip().endswith("}"):
                    self.assignment(above, block)
                    above, block = [], []
            elif line.startswith("--"):
                above.append(line[2:].strip())
            elif ASSIGNMENT.fullmatch(line.partition("--")[0].rstrip()):
                block = [(number, line)]
                if "{" not in line or "}" in line:
                    self.assignment(above, block)
                    above, block = [], []
            else:
                above = []
                self.other(number, line)
        if block:
            self.refuse(block[0][0], "an assignment without an end")
        return self.found

    def other(self, number, line):
        """A line that is no assignment: where the module begins, where it ends, and nothing else."""
        begins = MODULE.fullmatch(line)
        if begins:
            self.implicit = begins[1] == "IMPLICIT"
        elif line not in ("", "END"):
            self.refuse(number, f"neither a comment nor an assignment: {line}")

    def assignment(self, above, block):
        """An assignment, under the comment above it."""
        number, line = block[0]
        code, _, beside = line.partition("--")
        name, what = ASSIGNMENT.fullmatch(code.rstrip()).groups()
        listed = bare(what)
        kind = next((it for it in LISTS if listed.startswith(it)), None)
        if what in ("SEQUENCE {", "CHOICE {"):
            made = self.titled(number, name, above, what.split()[0])
            made.components = self.components(block[1:-1], made.kind)
        elif kind and above:
            made = self.titled(number, name, above, "LIST")
            made.list, made.item = what, self.type_of(number, listed[len(kind):], beside.strip().removesuffix("."))
        else:
            self.synonyms[name] = bare(" ".join([what, *(it.partition("--")[0] for _, it in block[1:])]))
            return
        self.found.append(made)
        self.known[made.rust] = self.declared(number, name, made, kind)

    def titled(self, number, asn1, above, kind):
        """A declaration with what the comment above it says."""
        title = TITLE.fullmatch(above[0]) if above else None
        if not title or len(above) < 2:
            self.refuse(number, f"{asn1} wants a comment above it: '-- RustName (source)', and what it is")
        if self.implicit is None:
            self.refuse(number, "before the module begins")
        if f"{title[1]}<A>" in self.known or title[1] in self.known:
            self.refuse(number, f"{title[1]} is declared already")
        return Declaration(kind, asn1, title[1], title[2], above[1:])

    def declared(self, number, asn1, made, kind):
        """What is declared, as the type of later components."""
        rust = made.rust
        try:
            home = self.module(made.snake)
        except KeyError:
            self.refuse(number, f"specs/ defines no {made.snake}: the grammar of {made.name} comes first")
        imports = frozenset({("crate::structures", made.name)})
        if kind:
            it = made.item.listed(kind)
            made.type = it
            return Type(asn1, rust, it.value, it.tags, it.content, it.whole, it.grammar, imports, it.fits)
        if made.kind == "CHOICE":
            tags = tuple(byte for it in made.components for byte in it.tags)
            return Type(asn1, rust, made.value, tags, None, made.snake, frozenset({(home, made.snake)}), imports, "tt")
        grammar = frozenset({(home, made.snake), (home, f"{made.snake}_content")})
        return Type(asn1, rust, made.value, (0x30,), f"{made.snake}_content", made.snake, grammar, imports, "tt")

    def components(self, lines, kind):
        """The components in the lines of a block."""
        found = []
        for number, line in lines:
            code, dashes, comment = (it.strip() for it in line.partition("--"))
            if code:
                found.append([number, code.removesuffix(","), comment])
            elif dashes and found:
                found[-1][2] += f" {comment}"
        if len(found) < (2 if kind == "CHOICE" else 1):
            self.refuse(lines[0][0] if lines else 0, f"too few components of a {kind}")
        made = [self.component(number, code, comment, kind) for number, code, comment in found]
        for it in made:
            if [other.name for other in made].count(it.name) > 1:
                self.refuse(found[0][0], f"two components have the name {it.name}")
        return made

    def component(self, number, code, comment, kind):
        """One component, with its comment."""
        parts, beside = COMPONENT.fullmatch(code), BESIDE.fullmatch(comment)
        if not parts:
            self.refuse(number, f"not a component: {code}")
        if not beside:
            self.refuse(number, f"{parts[1]} wants a comment: '-- name: Type. What it is.'")
        _, tag, how, asn1, absent = parts.groups()
        of = self.type_of(number, bare(asn1), beside[2])
        if kind == "CHOICE" and absent:
            self.refuse(number, f"an alternative can't be absent: {code}")
        choice = of.content is None
        if how == "IMPLICIT" and choice:
            self.refuse(number, f"no implicit tag stands over a CHOICE (X.680, 31.2.7): {code}")
        explicit = how == "EXPLICIT" or (how is None and (choice or not self.implicit))
        return Component(code, beside[1], beside[3], of, bool(absent), tag and int(tag), explicit)

    def type_of(self, number, asn1, rust):
        """The Rust type that stands beside a type, which has to be one of it."""
        of = self.lookup(number, rust)
        if self.resolved(asn1) != self.resolved(of.asn1):
            self.refuse(number, f"{rust} is no {asn1}, but {of.asn1}")
        return of

    def lookup(self, number, rust):
        listed = re.fullmatch(r"(Asn1SequenceOf|Asn1SetOf)<(.+), A>", rust)
        if listed:
            asn1 = next(it for it, (name, _) in LISTS.items() if name == listed[1])
            return self.lookup(number, listed[2]).listed(asn1)
        if rust not in self.known:
            self.refuse(number, f"no type is known by the name {rust} (tools/structure_types.tsv)")
        return self.known[rust]

    def resolved(self, asn1):
        """A type in ASN.1, by its first name."""
        for kind in LISTS:
            if asn1.startswith(kind):
                return kind + self.resolved(asn1[len(kind):])
        return self.resolved(self.synonyms[asn1]) if asn1 in self.synonyms else asn1
