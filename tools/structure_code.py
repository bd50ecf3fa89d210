"""The Rust code of declarations (tools/asn1_declarations.py): types, their impls, and their laws."""

import re
import textwrap

from asn1_declarations import within

PARAMETERS = "BCDEFGHIJKLMNOP"
WIDTH = 120
CODE_WIDTH = 100


def doc(text, indent=""):
    """A doc comment."""
    return "\n".join(
        textwrap.fill(line, WIDTH, initial_indent=f"{indent}/// ", subsequent_indent=f"{indent}/// ", break_long_words=False,
                      break_on_hyphens=False) if line else f"{indent}///"
        for line in text.split("\n")
    )


def described(made):
    """What a type is, and its source at the end of the first sentence."""
    first, dot, more = " ".join(made.doc).partition(".")
    return f"{first} ({made.source}){dot}{more}"


def encoding(made):
    """How it stands in ASN.1."""
    inner = ", ".join(it.asn1 for it in made.components)
    what = made.list or f"{made.kind} {{ {inner} }}"
    said = f"`{made.asn1} ::= {what}`."
    return said if made.generic else f"{said} Reading it takes no memory."


def struct_doc(made):
    return doc(f"{described(made)}\n\n# Encoding\n{encoding(made)}")


def uses(pairs):
    """`use` lines of pairs of a path and a name."""
    lines = []
    for path in {path for path, _ in pairs}:
        names = sorted({name for of, name in pairs if of == path})
        lines.append(f"use {path}::{names[0]};" if len(names) == 1 else f"use {path}::{{{', '.join(names)}}};")
    return "\n".join(sorted(lines))


def ghost_uses(crate, home, made, base, facts):
    """`ghost use` lines: the grammar by hand, and the facts that are written."""
    s = made.snake
    laws = "structure_lawful, structure_element" if made.kind == "CHOICE" else "structure_lawful"
    last = f"{s} as shape" if made.kind == "CHOICE" else f"{s}_content"
    return "\n".join([
        "ghost use Rattle.std.specs.Prelude.{◌≡◌, refl};",
        f"ghost use Rattle.x509_der.specs.laws.Structure.{{{laws}}};",
        f"ghost use Rattle.{home}.{{{s}_parts, {s}_{base}, {last}}};",
        f"ghost use Rattle.{crate}.specs.facts.structures.{made.name}.{{{', '.join(facts)}}};",
    ])


def derives(made):
    if made.generic:
        return "#[derive(Drop)]\n#[derive_where(Debug, PartialEq, Eq)]\n#[derive_where(Clone; A: Copy)]"
    return "#[derive(Clone, Debug, Drop, PartialEq, Eq)]"


def impl_of(made, bound=""):
    """`impl` with the parameter that a type has, if it has one."""
    return f"impl<A: Allocator{bound}>" if made.generic else "impl"


def comparisons(made):
    """Its clones are equal, and `==` tells the same."""
    compared = dict.fromkeys(
        it.held.replace("<", "::<", 1) for it in made.components
    )
    calls = "\n".join(f"        {it}::decides();" for it in compared)
    return f"""{impl_of(made, " + Copy")} CloneEq for {made.rust} {{
    ghost use Rattle.std.proofs.Common.{{rules}};

    ghost exact = {{ Prim.search (rules) }};
}}

{impl_of(made)} SameEq for {made.rust} {{
    fn decides() {{
{calls}
    }}
}}
"""


def right(items, join, last=str):
    """Items in pairs that nest to the right."""
    made = last(items[-1])
    for it in reversed(items[:-1]):
        made = join(it, made)
    return made


def nested(made, nest, owned):
    """The types of the fields: over any types, owned, and borrowed."""
    names = ", ".join(PARAMETERS[: len(made.components)])
    types = [it.type.rust for it in made.components]
    lifetime = "'a, A" if made.generic else "'a"
    applied = f"{owned}<A>" if made.generic else owned
    what = "alternatives" if made.kind == "CHOICE" else "fields in the SEQUENCE"
    each = what.partition(" ")[0]
    return f"""/// The {what}, owned or borrowed.
type Nest<{names}> = {nest};

/// The {each}, owned.
type {applied} = Nest<{", ".join(types)}>;

/// The {each}, borrowed.
type Written<{lifetime}> = Nest<{", ".join(f"Ref<'a, {it}>" for it in types)}>;
"""


def written(made, body, what):
    """The function that borrows the fields of a value."""
    over, lent = ("<A: Allocator>", "<'_, A>") if made.generic else ("", "<'_>")
    return f"""/// The {what} of a value, to be written.
fn written{over}(value: &{made.rust}) -> Written{lent}
    ensures {{ result ≡ {made.snake}_parts value.now }}
{{
{body}
}}
"""


def lent(it):
    """A component of `value`, borrowed."""
    field = f"&value.{it.name}"
    if it.optional:
        how = "borrowed" if it.tag is None else "borrowed_element" if it.explicit else "borrowed_content"
        return f"Optional::{how}({field})"
    return tagged(it, f"Ref({field})")


def tagged(it, ref):
    """A reference under the tag of a component."""
    if it.tag is None:
        return ref
    return f"Tagged::new(One({ref}))" if it.explicit else f"Tagged::new({ref})"


def taken(it, name):
    """A component out of its part."""
    if it.tag is not None:
        return f"{name}.into_value()" if it.explicit else f"{name}.into_inner()"
    return f"{name}.0" if it.optional else name


def given(it):
    """A component in the value that is made."""
    value = taken(it, it.name)
    return it.name if value == it.name else f"{it.name}: {value}"


def known_call(it):
    """The call that tells of a component that it is one of its type."""
    return f"known_there::<{it.type.rust}, A>(&self.{it.name})" if it.optional else f"Field::<A>::known(&self.{it.name})"


def imports_of(made, parts):
    """What the code of a type uses."""
    pairs = {("x509_der::parts", it) for it in parts}
    pairs |= {("x509_der", it) for it in ("CloneEq", "ReadError", "SameEq", "TooLong")}
    pairs |= {("std::alloc", "Allocator")}
    if made.generic:
        pairs |= {("std::alloc", "Global")}
    for it in made.components:
        pairs |= it.type.imports
        if it.tag is not None:
            pairs |= {("x509_der::parts", name) for name in ("Tagged", it.kind, *(["One"] if it.explicit else []))}
    return pairs


def head(made, file):
    return f"//! {made.name}, written by `tools/structures.py` from `{file}`.\n"


def sequence(made, crate, home, file):
    """A SEQUENCE."""
    s, fields = made.snake, made.components
    apart = [f"{s}_{it.name}_apart" for it in fields[:-1] if it.optional]
    parts = {"Content", "FromContent", "One", "Output", "OwnTag", "Reader", "Ref", "Sequence", "Structure", "ToContent",
             "pass_as_content", "read_as_content"}
    parts |= {"Optional", "known_there"} if any(it.optional for it in fields) else set()
    parts |= {"Field"} if any(not it.optional for it in fields) else set()
    parts |= {"Join"} if len(fields) > 1 else set()
    over = "<A: Allocator = Global>" if made.generic else ""
    members = "\n".join(f"{doc(it.doc, '    ')}\n    pub {it.name}: {it.held}," for it in fields)
    nest = right([it.part(PARAMETERS[i]) for i, it in enumerate(fields)], lambda a, b: f"Join<{a}, {b}>", lambda a: f"One<{a}>")
    pair = {"join": lambda a, b: f"Join({a}, {b})", "last": lambda a: f"One({a})"}
    return "\n".join([
        head(made, file),
        ghost_uses(crate, home, made, "inner", [f"{s}_of", f"{s}_same", *apart]) + "\n",
        uses(imports_of(made, parts)) + "\n",
        f"{struct_doc(made)}\n{derives(made)}\npub struct {made.name}{over} {{\n{members}\n}}\n",
        comparisons(made),
        nested(made, nest, "Inner"),
        written(made, "    " + right([lent(it) for it in fields], **pair), "fields"),
        sequence_impls(made, right([it.name for it in fields], **pair)),
    ])


def fits(made):
    """The argument of the nest's `lawful`."""
    ends = made.components[-1].fits
    for it in reversed(made.components[:-1]):
        apart = f"{made.snake}_{it.name}_apart" if it.optional else "λ c h. refl"
        ends = f"({it.fits}, {ends}, {apart})"
    return ends if " " not in ends or ends.startswith("(") else f"({ends})"


def sequence_impls(made, pattern):
    """What makes a type one whose encoding is a SEQUENCE."""
    s, own = made.snake, made.rust
    inner = "Inner<A>" if made.generic else "Inner"
    values = "\n".join(f"            {given(it)}," for it in made.components)
    known = "\n".join(f"        {known_call(it)};" for it in made.components)
    return f"""{impl_of(made)} ToContent for {own} {{
    ghost content = {{ λ v. {s}_inner.strict ({s}_parts v) }};

    fn put_content<O: Output>(&self, out: &mut [u8], at: usize) -> Result<usize, TooLong> {{
        written(self).put_content::<O>(out, at)
    }}
}}

{impl_of(made)} Structure<{inner}> for {own} {{
    ghost fields = {{ {s}_parts }};

    fn from_fields(parts: {inner}) -> Self {{
        let {pattern} = parts;
        {made.name} {{
{values}
        }}
    }}

    ghost same = {{ {s}_same }};

    ghost made = {{ λ f. ({s}_of f, refl) }};
}}

impl<A: Allocator + Copy> Content<A> for {own} {{
    type ContentBrief = ();

    ghost content_shape = {{ {s}_content }};

    ghost content_brief = {{ λ v. tt }};

    ghost content_lawful = {{ λ h. structure_lawful {s}_parts {s}_inner {s}_same
        (⟦<{inner} as Content<A>>⟧.content_lawful {fits(made)}) }};

    fn known_content(&self) {{
{known}
    }}

    fn read_content(alloc: A, reader: &mut Reader<'_, A>) -> Result<Self, ReadError> {{
        read_as_content::<Self, {inner}, A>(alloc, reader)
    }}

    fn pass_content(alloc: A, reader: &mut Reader<'_, A>) -> Result<(), ReadError> {{
        pass_as_content::<Self, {inner}, A>(alloc, reader)
    }}

    ghost content_agrees = {{ λ v. refl }};
}}

impl<A: Allocator + Copy> FromContent<A> for {own} {{
    ghost content_always = {{ tt }};
}}

{impl_of(made)} OwnTag for {own} {{
    type Tag = Sequence;
}}
"""


def arm(indent, pattern, value):
    """An arm of a `match`, in braces where it doesn't fit into a line of code."""
    line = f"{indent}{pattern} => {value},"
    return line if len(line) <= CODE_WIDTH else f"{indent}{pattern} => {{\n{indent}    {value}\n{indent}}}"


def sided(index, count, inner):
    """An alternative in its place among the others."""
    inner = f"Choice::First({inner})" if index < count - 1 else inner
    for _ in range(index):
        inner = f"Choice::Second({inner})"
    return inner


def choice(made, crate, home, file):
    """A CHOICE."""
    s, cases = made.snake, made.components
    apart = [f"{s}_{snake_of(it)}_apart" for it in cases[:-1]]
    parts = {"Choice", "Field", "Output", "Reader", "Ref", "Structure", "pass_fields", "read_fields"}
    over = "<A: Allocator = Global>" if made.generic else ""
    members = "\n".join(f"{doc(it.doc, '    ')}\n    {it.name}({it.type.rust})," for it in cases)
    nest = right([it.part(PARAMETERS[i]) for i, it in enumerate(cases)], lambda a, b: f"Choice<{a}, {b}>")
    arms = "\n".join(arm(" " * 8, f"{made.name}::{it.name}(value)", sided(i, len(cases), tagged(it, "Ref(value)")))
                     for i, it in enumerate(cases))
    pairs = imports_of(made, parts) | {("x509_der", "FromDer"), ("x509_der", "ToDer")}
    return "\n".join([
        head(made, file),
        ghost_uses(crate, home, made, "base", [f"{s}_of", f"{s}_same", f"{s}_whole", *apart]) + "\n",
        uses(pairs) + "\n",
        f"{struct_doc(made)}\n{derives(made)}\npub enum {made.name}{over} {{\n{members}\n}}\n",
        comparisons(made),
        nested(made, nest, "Fields"),
        written(made, f"    match value {{\n{arms}\n    }}", "alternative"),
        choice_impls(made),
    ])


def snake_of(it):
    """The name of a variant as one of a lemma."""
    return "".join(f"_{c.lower()}" if c.isupper() and i else c.lower() for i, c in enumerate(it.name))


def choice_fits(made):
    """The argument of the nest's `lawful`, and of its `elements`."""
    ends, alone = made.components[-1].fits, "tt"
    for it in reversed(made.components[:-1]):
        ends = f"(({it.fits}, {ends}), ((tt, {alone}), {made.snake}_{snake_of(it)}_apart))"
        alone = f"(tt, {alone})"
    return ends, alone


def choice_impls(made):
    """What makes a type one whose encodings are those of its alternatives."""
    s, own, cases = made.snake, made.rust, made.components
    fields = "Fields<A>" if made.generic else "Fields"
    fitting, alone = choice_fits(made)
    values = "\n".join(arm(" " * 12, sided(i, len(cases), "value"), f"{made.name}::{it.name}({taken(it, 'value')})")
                       for i, it in enumerate(cases))
    starts = " || ".join(f"byte == 0x{tag:02X}" for it in cases for tag in it.tags)
    known = "\n".join(arm(" " * 12, f"{made.name}::{it.name}(value)", "Field::<A>::known(value)") for it in cases)
    whole = f"{s}_whole _ f" if made.generic else f"{s}_whole f"
    return f"""{impl_of(made)} ToDer for {own} {{
    ghost strict = {{ λ v. {s}_base.strict ({s}_parts v) }};

    fn put<O: Output>(&self, out: &mut [u8], at: usize) -> Result<usize, TooLong> {{
        written(self).put::<O>(out, at)
    }}
}}

{impl_of(made)} Structure<{fields}> for {own} {{
    ghost fields = {{ {s}_parts }};

    fn from_fields(parts: {fields}) -> Self {{
        match parts {{
{values}
        }}
    }}

    ghost same = {{ {s}_same }};

    ghost made = {{ λ f. ({s}_of f, {whole}) }};
}}

impl<A: Allocator + Copy> Field<A> for {own} {{
    type Brief = ();

    ghost shape = {{ shape }};

    ghost brief = {{ λ v. tt }};

    ghost lawful = {{ λ h. structure_lawful {s}_parts {s}_base {s}_same
        (⟦<{fields} as Field<A>>⟧.lawful {fitting}) }};

    ghost elements = {{ λ h. structure_element {s}_parts {s}_base
        (⟦<{fields} as Field<A>>⟧.elements {alone}) }};

    ghost agrees = {{ λ v. refl }};

    fn starts(byte: u8) -> bool {{
        {starts}
    }}

    fn known(&self) {{
        match self {{
{known}
        }}
    }}

    fn read(alloc: A, reader: &mut Reader<'_, A>) -> Result<Self, ReadError> {{
        read_fields::<Self, {fields}, A>(alloc, reader)
    }}

    fn pass(alloc: A, reader: &mut Reader<'_, A>) -> Result<(), ReadError> {{
        pass_fields::<Self, {fields}, A>(alloc, reader)
    }}
}}

impl<A: Allocator + Copy> FromDer<A> for {own} {{
    ghost stands_alone = {{ (tt, tt) }};
}}
"""


def alias(made, file):
    """A list."""
    rust = f"{'Asn1SetOf' if made.list.startswith('SET') else 'Asn1SequenceOf'}"
    return "\n".join([
        head(made, file),
        uses(made.item.imports | {("std::alloc", "Global"), ("x509_der", rust)}) + "\n",
        f"{struct_doc(made)}\npub type {made.name}<A = Global> = {rust}<{made.item.rust}, A>;\n",
    ])


def modules(declared, file):
    """The module over all of them."""
    lines = [f"//! The plain structures of this crate, written by `tools/structures.py` from `{file}`.\n"]
    lines += [f"pub mod {it};" for it in sorted([*(made.snake for made in declared), "laws"])]
    lines += ["", *(f"pub use self::{made.snake}::{made.name};" for made in sorted(declared, key=lambda it: it.snake)), ""]
    return "\n".join(lines)


LAW_DOCS = {
    "SEQUENCE": "The law of fields of `{name}`: in each encoding they stand one behind the other, right behind the header.",
    "CHOICE": "The law of fields of `{name}`: each encoding is one of the alternative that was taken.",
    "LIST": "The law of fields of `{name}`: the items stand one behind another, right behind the header.",
}

FRUGAL_DOC = "Reading `{name}` takes no memory, so that `from_bytes`, `read_counted` and `read_metered` never answer want of it."


def law(made):
    """The law of fields; and that reading takes no memory, where no field owns any."""
    at = f"{made.name}At v string y"
    if made.kind == "LIST":
        at = f"ContentFirst {made.type.tags[0]} {within(made.type.content)} v string y"
    found = f"""{doc(LAW_DOCS[made.kind].format(name=made.name))}
pub fn {made.snake}_fields<A: Allocator + Copy>()
    ensures {{ (v : {made.value}) (string : List ℕ) (y : Tally) → {made.snake}.spelled v string y →
        {at} }}
{{
    fields::<{made.rust}, A>();
}}
"""
    if made.generic:
        return found
    return found + f"""
{doc(FRUGAL_DOC.format(name=made.name))}
pub fn {made.snake}_takes_no_memory<A: Allocator + Copy>()
    ensures {{ ⟦<{made.rust} as Field<A>>⟧.shape.frugal }}
{{}}
"""


def laws(declared, crate, module, file):
    """The module of laws."""
    grammar = {(module(made.snake), made.snake) for made in declared}
    grammar |= {(f"{crate}.specs.fields.{made.name}", f"{made.name}At") for made in declared if made.kind != "LIST"}
    grammar |= {(f"{crate}.specs.declared.structures.{made.snake}.{made.name}", f"{made.name} as {made.value}")
                for made in declared if not made.generic}
    lists = [made for made in declared if made.kind == "LIST"]
    for made in lists:
        grammar |= made.type.grammar | {("x509_der.specs.Fields", "ContentFirst")}
    grammar |= {("std.specs.Prelude", it) for it in ("ℕ", "List")} | {("x509_der.specs.Tally", "Tally")}
    pairs = {("crate::structures", made.name) for made in declared}
    pairs |= {("std::alloc", "Allocator"), ("x509_der::laws", "fields")}
    pairs |= {("x509_der::parts", "Field")} if any(not made.generic for made in declared) else set()
    pairs |= {(path, name) for made in lists for path, name in made.item.imports if name in made.value}
    body = "\n".join(law(made) for made in declared)
    return "\n".join([
        f"//! The laws of fields of the plain structures of this crate, written by `tools/structures.py` from `{file}`.",
        "//! A function here does nothing when it runs: its contract is the law.\n",
        ghosts(named_in(body, grammar)) + "\n",
        uses(pairs) + "\n",
        body,
    ])


def named_in(body, pairs):
    """Those of pairs of a module and a name that are named in a text."""
    return {(path, name) for path, name in pairs if re.search(rf"(?<!\w){name.rpartition(' ')[2]}(?!\w)", body)}


def ghosts(pairs):
    """`ghost use` lines of pairs of a module and a name."""
    lines = []
    for path in sorted({path for path, _ in pairs}):
        names = sorted(name for of, name in pairs if of == path)
        lines.append(f"ghost use Rattle.{path}.{{{', '.join(names)}}};")
    return "\n".join(lines)
