"""Types that contain themselves or each other: their rows, and how many levels of them are read."""
import re

from .definitions import Differs, name_of, same
from .fields import compare_fields
from .impls import LABEL, parts_of


def without_levels(impls, names, fields, row):
    """A row without what stands around each part: `Within` where it holds one of these types."""
    inner, parts = [], [] if row in ("Unit", "Other<Unit>") else parts_of(impls.expanded(row))
    same(f"number of parts of `{row}`", len(fields), len(parts))
    for field, written in zip(fields, parts):
        around = re.fullmatch(r"(Within|Other)<(.*)>", written)
        if not around:
            raise Differs(f"`{written}` is neither within {names} nor other")
        holds = any(re.search(rf"\b{name}\b", field.type) for name in names)
        same(f"whether `{written}` is within {names}", holds, around[1] == "Within")
        inner.append(around[2])
    return "(" + ",".join(inner) + ")"


def compare_levels(impls, name, limit, is_root):
    """As many levels are read in each format, and reported at the root, as the root says."""
    for trait in {"DeBin", "DeJson", "DeRon"} & impls.traits(name):
        chain = f"at_most({limit})" if trait == "DeBin" and limit else "most()"
        block = impls.block(rf"(?:\w+::)?{trait} for {name}\b")
        got = re.search(r"Levels::(\w+\(\d*\))", block)[1]
        same(f"levels of `{trait}` for `{name}`", chain, got)
        if trait != "DeBin":
            got = re.search(r"\(levels, (\d+), alloc", block)[1]
            same(f"count of `{trait}` for `{name}`", limit or "128", got)
            compare_end(impls, name, trait, limit, is_root)


def compare_end(impls, name, trait, limit, is_root):
    """What a reader of a text says where there are too many levels, which it does at the root."""
    head = rf"(?:\w+::)?Reads{trait[2:]}<{name}(?:<[^{{]*>)?> for (?:\w+::)?Levels"
    error = r"Err\((?:\w+::)?(too_\w+)\(alloc, (?:(\d+), )?state\)\)"
    found = re.search(error, impls.block(head))
    wanted = ("too_many_levels", limit) if limit else ("too_deep", None)
    got = found and found.groups()
    same(f"what is too deep in `{trait}` for `{name}`", wanted if is_root else None, got)


def compare_nested(impls, kind, name, content, cycle):
    """A type that contains itself: names, types and order, and which parts hold such a type."""
    if kind == "struct":
        row = without_levels(impls, cycle, content[1], impls.aliases[f"{name}Fields"])
        return compare_fields(impls, name, content[1], row, "")
    compare_chain(impls, name, content, impls.aliases[f"{name}Variants"], cycle)
    if f"{name}JsonVariants" in impls.aliases:
        compare_chain(impls, name, content, impls.aliases[f"{name}JsonVariants"], cycle)


def compare_chain(impls, name, variants, chain, cycle):
    """The variants of a type that contains itself, in every format or in JSON."""
    rows = parts_of(impls.expanded(chain))
    same(f"number of variants of `{name}`", len(variants), len(rows))
    for variant, written in zip(variants, rows):
        compare_nested_variant(impls, name, variant, written, cycle)


def compare_nested_variant(impls, owner, variant, written, cycle):
    """A variant of a type that contains itself, whose parts are called a tuple in JSON."""
    name, of_variant, shape, fields = variant
    match = re.fullmatch(rf"Variant<({LABEL}),(?:Tuple<(.*)>|(.*))>", written)
    if not match:
        raise Differs(f"`{written}` is no variant")
    label, row = match[1], match[2] or match[3]
    same(f"name of `{owner}::{name}`", name_of(name, of_variant, "", True), impls.name(label))
    if shape == "Struct":
        held = re.fullmatch(r"Struct<(.*)>", row)
        same(f"content of `{owner}::{name}`", "Struct", "Struct" if held else row)
        row = without_levels(impls, cycle, fields, held[1])
        compare_fields(impls, f"{owner}::{name}", fields, row, "")
    elif shape != "Unit":
        types = [f"Newtype<{field.type}>" for field in fields]
        got = parts_of(without_levels(impls, cycle, fields, row))
        same(f"types of `{owner}::{name}`", types, got)
    else:
        same(f"content of `{owner}::{name}`", "Other<Unit>", row)
