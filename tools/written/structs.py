"""Structs: how one is seen as the values of its fields or parts, and made of them."""
import re

from .definitions import PATH, same, tidy
from .fields import compare_clauses, compare_fields, compare_literal, said_of, taken_apart
from .impls import parts_of

# How many parts the longest tuple has that is one in every format.
LONGEST_TUPLE = 4
# What a format of texts calls for a struct of more parts than that, by the trait.
WIDE_CALLS = {"{}Codec": "tuple_{}_of", "Ser{}": "write_tuple_{}", "De{}": "read_tuple_{}"}


def compare_newtype(impls, name, field):
    """A struct of one part is that part in every format."""
    same(f"type of `{name}`", field.type, impls.expanded(impls.aliases[f"{name}Fields"]))
    seen = re.findall(rf"\(λ x\. (.*?)\) ⟦<{name}Fields", impls.text) + re.findall(
        r"⟧\.means (x.*?) \}", impls.block(f"Value for {name}\\b")
    )
    same(f"what `{name}` is seen as", {"x.0"}, set(seen))


def compare_seen(name, keys, schema, refs):
    """The view of a struct and the references to it have its fields or parts in their order."""
    view = re.search(r"ghost view = \{ λ x\.(.*?) \};", schema, re.S)[1]
    handed = re.search(r"-> Self::Refs \{\n(.*?)\n    \}", refs, re.S)[1]
    same(
        f"view of `{name}`",
        [f"x.{key}" for key in keys],
        [part.strip() for part in parts_of(view) if part.strip() != "tt"],
    )
    same(
        f"references of `{name}`",
        [f"&self.{key}" for key in keys],
        [part.strip() for part in parts_of(handed)],
    )


def compare_of_row(impls, name, row, block, member, trait):
    """The values of a struct, or the references to them, are those of its row."""
    said = tidy(PATH.sub("", re.search(rf"type {member} = (.*?);", block, re.S)[1]))
    of = row + impls.parameters.get(row, "")
    same(f"{member} of `{name}`", f"<{of}as{trait}>::{member}", said)


def compare_meaning(impls, name, row):
    """What a struct means is what its row does."""
    meaning = impls.block(rf"(?:\w+::)?Value for {name}\b")
    rows = re.findall(r"<(?:\w+::)?(\w+)(?:<[\w, ]*>)? as (?:\w+::)?Shape>", meaning)
    same(f"row of `{name}`", [row, row], rows)


def compare_struct(impls, name, attributes, content):
    """A struct: what it is seen as and made of, and its fields or parts."""
    kind, fields = content
    if kind == "Newtype":
        return compare_newtype(impls, name, fields[0])
    in_row = [(index, field) for index, field in enumerate(fields) if field.is_in_row()]
    row = f"{name}Fields" if in_row else "Unit"
    schema = impls.block(f"(?:\\w+::)?StructSchema for {name}\\b")
    refs = impls.block(f"(?:\\w+::)?FieldRefs<'a> for {name}\\b")
    compare_seen(name, [field.name or str(index) for index, field in in_row], schema, refs)
    compare_meaning(impls, name, row)
    compare_of_row(impls, name, row, refs, "Refs", "Borrowed<'a>")
    if kind != "Tuple" or len(fields) > LONGEST_TUPLE:
        compare_of_row(impls, name, row, schema, "Values", "Shape")
    said = said_of(fields, [f"result.{field.name}" for field in fields])
    compare_clauses(name, "StructSchema", schema, said)
    if kind == "Tuple":
        return compare_parts(impls, name, fields, schema)
    taken = taken_apart(schema, "values")
    same(f"what `{name}` is made from", [field.name for _, field in in_row], taken)
    compare_literal(name, fields, schema, rf"\n        {name}")
    row = impls.aliases[row] if in_row else row
    compare_fields(impls, name, fields, row, attributes.get("rename_all", ""))


def compare_parts(impls, name, fields, schema):
    """A tuple struct: what it is made of, and the types of its parts in their order."""
    made = re.search(rf"\n        {name}\((.*?)\)", schema, re.S)[1]
    taken = taken_apart(schema, "values")
    same(f"number of parts of `{name}`", len(fields), len(taken))
    same(f"parts of `{name}`", taken, [part.strip() for part in made.split(",") if part.strip()])
    types, row = [field.type for field in fields], impls.expanded(impls.aliases[f"{name}Fields"])
    if len(fields) > LONGEST_TUPLE:
        same(f"types of `{name}`", first_and_others([f"Newtype<{type}>" for type in types]), row)
        return compare_wide(impls, name)
    got = impls.expanded(tidy(re.search(r"type Values = (.*?);", schema, re.S)[1]))
    same(f"types of `{name}`", types, flat(got, len(types)))
    same(f"row of `{name}`", f"Tuple<{got}>", row)


def first_and_others(items):
    """A tuple of the first item and one of the others, which is so, too."""
    return f"({items[0]},{first_and_others(items[1:])})" if items[1:] else items[0]


def compare_wide(impls, name):
    """A struct of more parts than a tuple has is one in each format of texts, and no record."""
    for form in ("Json", "Ron"):
        for trait, call in WIDE_CALLS.items():
            trait, call = trait.format(form), call.format(form.lower())
            if trait in impls.traits(name):
                block = impls.block(rf"(?:\w+::)?{trait} for {name}\b")
                got = re.findall(r"\b(?:\w+_)?(?:tuple|record|parts)_\w+|\b\w+_of\b", block)
                same(f"calls of `{trait}` for `{name}`", [call], got)


def flat(row, count):
    """The types of a row with so many: one is the row itself."""
    return [row] if count == 1 else top(row)


def top(row):
    """The items of a tuple, of which each may be a tuple."""
    items, depth, start = [], 0, 1
    for place, letter in enumerate(row):
        depth += (letter in "([<") - (letter in ")]>")
        if depth == 1 and letter == "," or depth == 0:
            items.append(row[start:place])
            start = place + 1
    return [item for item in items if item]
