"""What is written below the code of declarations (tools/asn1_declarations.py): facts, where fields stand, and answers."""

from asn1_declarations import within
from structure_code import named_in, right, snake_of

TALLY = [("x509_der.specs.Tally", "Tally")]


def uses(pairs):
    """`use` lines of pairs of a module and a name."""
    lines = []
    for path in dict.fromkeys(path for path, _ in pairs):
        names = dict.fromkeys(name for of, name in pairs if of == path)
        lines.append(f"use Rattle.{path}.{{{', '.join(names)}}}")
    return "\n".join(lines)


def head(what, file):
    return f"-- {what}, written by tools/structures.py from {file}."


def own(made, crate):
    return f"{crate}.specs.declared.structures.{made.snake}.{made.name}"


def over(made):
    """The parameter of definitions, where a type has one, and the names of its values and fields under it."""
    return ("{A : Type 0} ", f"{made.name} A", "Fields A") if made.generic else ("", made.name, "Fields")


def to(parameter):
    return f"{parameter}→ " if parameter else ""


def begins(tags):
    """The test of an encoding's first byte, as the grammar of a field or a choice computes it."""
    return right([f"eqb c {it}" for it in tags], lambda a, b: f"{a} || {b if '||' not in b else f'({b})'}")


def either(tests):
    """The same of fields one behind another."""
    braced = [f"({it})" if "||" in it else it for it in tests]
    return right(braced[:-1] + tests[-1:], lambda a, b: f"{a} || {b if '||' not in b else f'({b})'}")


def apart(made, name, there, here):
    """The lemma that what begins one thing doesn't begin another."""
    return f"""
pub {made.snake}_{name}_apart : (c : ℕ) → {within_test(there)} ≡ true → {within_test(here)} ≡ false
{made.snake}_{name}_apart c h = grind (arith, nat_tests)
"""


def within_test(test):
    return f"({test})" if "||" in test else test


def sequence_facts(made, crate, home, file):
    """That values with the same fields are the same, and that fields which may be absent are told from what follows them."""
    s, fields = made.snake, made.components
    parameter, value, of = over(made)
    optional = [i for i, it in enumerate(fields[:-1]) if it.optional]
    common = ["◌≡◌", "ap", *(["ℕ", "◌||◌", "eqb", "true", "false", "arith"] if optional else [])]
    lines = [
        head(f"Facts about {made.name}", file),
        uses([("std.proofs.Common", it) for it in common]
             + ([("std.proofs.lemmas.Bool.Decides", "nat_tests")] if optional else [])
             + [(own(made, crate), made.name), (home, "Fields"), (home, f"{s}_parts")]),
        f"\nabbrev pub {s}_of : {to(parameter)}{of} → {value}",
        f"{s}_of f = record {{ {'; '.join(f'{it.name} = f{place(i, len(fields))}' for i, it in enumerate(fields))} }}",
        f"\npub {s}_same : {parameter}(v w : {value}) → {s}_parts v ≡ {s}_parts w → v ≡ w",
        f"{s}_same v w e = ap {s}_of e",
    ]
    for i in optional:
        behind = either([begins(it.tags) for it in fields[i + 1:]])
        lines.append(apart(made, fields[i].name, behind, f"false || {within_test(begins(fields[i].tags))}").rstrip("\n"))
    return "\n".join(lines) + "\n"


def place(index, count):
    """Where a field stands among nested pairs."""
    return ".1" * index + (".0" if index < count - 1 else "")


def choice_facts(made, crate, home, file):
    """That values with the same alternative are the same, that each is that of a value, and that they are told apart."""
    s, cases = made.snake, made.components
    parameter, value, of = over(made)
    count = len(cases)
    tests = [begins(it.tags) for it in cases]
    common = ["◌≡◌", "ℕ", *(["◌||◌"] if count > 2 or "||" in "".join(tests) else []), "eqb", "true", "false", "refl", "arith"]
    sides = [side(i, count) for i in range(count)]
    explicit = ("(A : Type 0) ", " A", " {A = A}") if made.generic else ("", "", "")
    lines = [
        head(f"Facts about {made.name}", file),
        uses([("std.proofs.Common", it) for it in common] + [("std.proofs.lemmas.Bool.Decides", "nat_tests")]
             + [("x509_der.specs.Types.choice", "First"), ("x509_der.specs.Types.choice", "Second")]
             + [("x509_der.specs.facts.Lists", "same_one"), (own(made, crate), made.name)]
             + [(home, "Fields"), (home, f"{s}_parts")]),
        f"use Rattle.{own(made, crate)}.TheVariants as variant",
        f"\nabbrev pub {s}_of : {to(parameter)}{of} → {value}",
        *(f"{s}_of {within(it)} = variant.{case.name} v" for it, case in zip(sides, cases)),
        f"\n{s}_made : {parameter}(v : {value}) → {s}_of ({s}_parts v) ≡ v",
        *(f"{s}_made (variant.{case.name} v) = refl" for case in cases),
        f"\npub {s}_same : {parameter}(v w : {value}) → {s}_parts v ≡ {s}_parts w → v ≡ w",
        f"{s}_same = same_one {s}_parts {s}_of {s}_made",
        f"\npub {s}_whole : {explicit[0]}(f : {of}) → {s}_parts ({s}_of{explicit[2]} f) ≡ f",
        *(f"{s}_whole{explicit[1]} {within(it)} = refl" for it in sides),
    ]
    for i, case in enumerate(cases[:-1]):
        lines.append(apart(made, snake_of(case), tests[i], either(tests[i + 1:])).rstrip("\n"))
    return "\n".join(lines) + "\n"


def side(index, count):
    """An alternative of nested choices."""
    inner = "First v" if index < count - 1 else "v"
    for _ in range(index):
        inner = f"Second {within(inner)}"
    return inner


def grammar_of(components):
    """What the grammars of components are made of."""
    shapes = " ".join(it.shape for it in components)
    return sorted(named_in(shapes, {it for component in components for it in component.grammar}))


def sequence_at(made, crate, file):
    """Where the fields stand in an encoding."""
    parameter, value, _ = over(made)
    fields = made.components
    grammar = grammar_of(fields)
    kinds = [("x509_der.specs.Fields", "Stands")] if any(not it.optional for it in fields) else []
    kinds += [("x509_der.specs.Optional", "OptionalAt")] if any(it.optional for it in fields) else []
    lines = [
        head(f"Where the fields of {made.name} stand in an encoding", file),
        uses([("std.proofs.Common", it) for it in ("◌≡◌", "ℕ", "◌+◌", "List", "◌++◌", "length")]
             + [("x509_der.specs.Element", "element"), ("x509_der.specs.Element", "header")] + TALLY + kinds + grammar
             + [(own(made, crate), made.name)]),
        f"\npub record {made.name}At {parameter}(v : {value}) (string : List ℕ) (y : Tally) : Type 0 where",
        "  pub content : List ℕ",
        "  pub bytes : string ≡ element 48 content",
    ]
    here, rest = "header content", "content"
    for i, it in enumerate(fields):
        mine, behind = slices(fields, i)
        if behind:
            lines += [f"  pub {mine} : List ℕ", f"  pub {behind} : List ℕ"]
            lines.append(f"  pub {it.name}_first : {rest} ≡ {mine} ++ {behind}")
            rest = behind
        at = "OptionalAt" if it.optional else "Stands"
        lines.append(f"  pub {it.name}_at : {at} {within(it.shape)} v.{it.name} ({here}) {mine} string y")
        here = f"{within(here) if i else here} + length {mine}"
    return "\n".join(lines) + "\n"


def slices(fields, index):
    """The names of a field's bytes, and of all those behind it, if there are any."""
    last = len(fields) - 1
    if index == last:
        return (f"{fields[index].name}_bytes" if last else "content"), None
    behind = f"{fields[last].name}_bytes" if index == last - 1 else f"behind_{fields[index].name}"
    return f"{fields[index].name}_bytes", behind


def choice_at(made, crate, file):
    """Which alternative an encoding is."""
    parameter, value, _ = over(made)
    grammar = grammar_of(made.components)
    name = f"{made.name}At"
    return "\n".join([
        head(f"The alternative of {made.name} that was taken", file),
        uses([("std.proofs.Common", "ℕ"), ("std.proofs.Common", "List")] + TALLY + [("x509_der.specs.Fields", "Stands")]
             + grammar + [(own(made, crate), made.name)]),
        f"use Rattle.{own(made, crate)}.TheVariants as variant",
        f"\nabbrev pub {name} : {to(parameter)}{value} → List ℕ → Tally → Type 0",
        *(f"{name} (variant.{it.name} v) string y = Stands {within(it.shape)} v 0 string string y" for it in made.components),
    ]) + "\n"


def decided(made):
    """The names of what `decides` of each component's type ensures."""
    types = list(dict.fromkeys((it.optional, it.type.rust) for it in made.components))
    places = [types.index((it.optional, it.type.rust)) for it in made.components]
    return [f"c.decides{f'-{it + 1}' if it else ''}.ensures" for it in places]


def sequence_decides(made, crate, home, file):
    """`==` of a structure tells the same."""
    s = made.snake
    path = f"{crate}.proofs.structures.{s}.{made.name}SameEq.decides.Goals"
    both = right(decided(made), lambda a, b: f"both_decide {a} {within(b)}")
    names = ["both_decide", "told_decide"] if len(made.components) > 1 else ["told_decide"]
    lemmas = [("x509_der.specs.facts.SameEq", it) for it in names]
    return "\n".join([
        head(f"That == of {made.name} tells the same", file),
        uses([(home, f"{s}_parts"), (f"{crate}.specs.facts.structures.{made.name}", f"{s}_same")] + lemmas),
        f"use Rattle.{path} as goal",
        "\npub returns : goal.returns",
        f"returns {'g ' if made.generic else ''}c = told_decide {s}_parts {s}_same {within(both)}",
    ]) + "\n"


def choice_decides(made, crate, file):
    """`==` of a choice tells the same."""
    path = f"{crate}.proofs.structures.{made.snake}.{made.name}SameEq.decides.Goals"
    g = "g " if made.generic else ""
    return "\n".join([
        head(f"That == of {made.name} tells the same", file),
        uses([("std.proofs.Common", "ap")]),
        f"use Rattle.{own(made, crate)}.TheVariants as variant",
        f"use Rattle.{path} as goal",
        "\npub returns : goal.returns",
        *(f"returns {g}c (variant.{it.name} x) (variant.{it.name} y) = "
          f"let d = {ensured} x y in (λ h. ap variant.{it.name} (d.0 h), λ h. d.1 (cc))"
          for it, ensured in zip(made.components, decided(made))),
        f"returns {g}c x y = (λ h. cc, λ h. cc)",
    ]) + "\n"


def law(made, crate, home, file):
    """The answer of a law of fields."""
    path = f"{crate}.proofs.structures.laws.{made.snake}_fields.Goals"
    first = head(f"The law of fields of {made.name}", file)
    if made.kind == "CHOICE":
        return choice_law(made, crate, home, first, path)
    lines = [
        first,
        uses([("x509_der.specs.facts.ElementPlaces", "content_first")]),
        f"use Rattle.{path} as goal",
        "\npub returns : goal.returns",
    ]
    found = f"content_first {made.type.tags[0] if made.type else 48} _ _ string y (c.fields.ensures v string y a).parts"
    if made.kind == "LIST":
        return "\n".join([*lines, f"returns g c = λ v string y a. {found}"]) + "\n"
    return "\n".join([*lines, "returns g c = λ v string y a.", f"    let s = {found} in", *places_of(made.components)]) + "\n"


def places_of(fields):
    """The record of where fields stand, out of nested joins."""
    last = len(fields) - 1
    lets, members = [], ["content = s.content", "bytes = s.bytes"]
    for i, it in enumerate(fields):
        mine, behind = slices(fields, i)
        here = f"j{i}.first" if i < last else f"j{last - 1}.second" if last else "s.inner"
        if behind:
            lets.append(f"    let j{i} = {f'j{i - 1}.second' if i else 's.inner'}.parts in")
            members += [f"{mine} = j{i}.front", f"{behind} = j{i}.back", f"{it.name}_first = j{i}.bytes"]
        members.append(f"{it.name}_at = {here}{'.parts' if it.optional else ''}")
    return [*lets, f"    record {{ {'; '.join(members)} }}"]


def choice_law(made, crate, home, first, path):
    """The same of a choice, by cases."""
    s, cases = made.snake, made.components
    grammar = grammar_of(cases)
    shapes = [within(it.shape) for it in cases]
    rest = [within(right(shapes[i:], lambda a, b: f"choice {a} {within(b)}")) for i in range(len(cases))]
    lines = []
    for i, it in enumerate(cases):
        value = f"(variant.{it.name} v)"
        found = f"stands_parts {s}_parts {s}_base {value} 0 string string y (c.fields.ensures {value} string y a)"
        for j in range(min(i, len(cases) - 1)):
            inner = "v" if i == len(cases) - 1 and j == i - 1 else "_"
            found = f"stands_second {shapes[j]} {rest[j + 1]} {inner} 0 string string y ({found})"
        if i < len(cases) - 1:
            found = f"stands_first {shapes[i]} {rest[i + 1]} v 0 string string y ({found})"
        lines.append(f"returns g c {value} string y a = {found}")
    return "\n".join([
        first,
        uses([("x509_der.specs.Choice", "choice")] * (len(cases) > 2)
             + [("x509_der.specs.facts.FieldPlaces", it) for it in ("stands_parts", "stands_first", "stands_second")]
             + grammar + [(home, f"{s}_parts"), (home, f"{s}_base")]),
        f"use Rattle.{own(made, crate)}.TheVariants as variant",
        f"use Rattle.{path} as goal",
        "\npub returns : goal.returns",
        *lines,
    ]) + "\n"


def modules(names, what, file):
    return "\n".join([head(what, file), *(f"pub mod {it}" for it in sorted(names))]) + "\n"
