"""Enums: how one is seen as the content of its variant, and made of it."""
import re

from .definitions import Differs, name_of, same
from .fields import compare_clauses, compare_fields, compare_literal, said_of, taken_apart
from .impls import LABEL, parts_of
from .structs import flat


def compare_variant(impls, owner, variant, written, case):
    """A variant as it stands in a row. What comes is its label."""
    name, of_variant, kind, fields = variant
    match = re.fullmatch(rf"Variant<({LABEL}),(\w+)(?:<(.*)>)?>", written)
    if not match:
        raise Differs(f"`{written}` is no variant")
    label, got, row = match.groups()
    same(f"name of `{owner}::{name}`", name_of(name, of_variant, case, True), impls.name(label))
    same(f"content of `{owner}::{name}`", kind, got)
    if kind == "Struct":
        compare_fields(impls, f"{owner}::{name}", fields, row, "")
    elif kind != "Unit":
        same(
            f"types of `{owner}::{name}`",
            [field.type for field in fields],
            flat(impls.expanded(row), len(fields)),
        )
    return label


def compare_arm(owner, variant, index, last, arm):
    """A variant in the view of an enum: its content at its place."""
    name, fields = variant[0], variant[3]
    binders = [f"v{place}" for place in range(len(fields))]
    handed = [binder for binder, field in zip(binders, fields) if field.is_in_row()]
    same(f"binders of `{owner}::{name}`", binders, arm[1].split())
    same(f"place of `{owner}::{name}`", index, arm[2].count("Later"))
    same(f"end of `{owner}::{name}`", not last, "First" in arm[2])
    same(f"view of `{owner}::{name}`", handed, re.findall(r"\bv\d+", arm[2]))


def compare_refs(owner, variant, index, last, refs):
    """The references to the content of a variant, at its place."""
    name, _attributes, kind, fields = variant
    match = re.search(
        rf"Self::{name}\b(.*?)=> \{{\n\s+let refs = (.*?);\n(.*?)\n            \}}", refs, re.S
    )
    if not match:
        raise Differs(f"`{owner}::{name}` hands out no references")
    pattern, handed, chain = match.groups()
    bound = [part.strip() for part in re.split(r",", pattern.strip(" \n({})")) if part.strip()]
    if kind == "Struct":
        bound = [part for part in bound if not part.endswith(": _")]
        wanted = [field.name for field in fields if field.is_in_row()]
        same(f"fields of `{owner}::{name}`", wanted, bound)
    same(
        f"references of `{owner}::{name}`",
        bound,
        [part.strip() for part in parts_of(handed) if part.strip() != "()"],
    )
    same(
        f"place of the references of `{owner}::{name}`",
        (index, not last),
        (chain.count("Later"), "First" in chain),
    )


def compare_made(owner, variants, schema):
    """Each variant is made of its content, which is taken apart in its order."""
    lines = schema.partition("-> Self")[2]
    for index, (name, _attributes, kind, fields) in enumerate(variants):
        is_last_of_several = 0 < index == len(variants) - 1
        before, _made, lines = lines.partition(f"Self::{name}")
        taken = taken_apart(before, "later" if is_last_of_several else "values")
        if kind == "Struct":
            wanted = [field.name for field in fields if field.is_in_row()]
            same(f"what `{owner}::{name}` is made from", wanted, taken)
            compare_literal(f"{owner}::{name}", fields, schema, f"Self::{name}")
        else:
            made = re.match(r"\((.*?)\)", lines, re.S)
            parts = [part.strip() for part in (made[1] if made else "").split(",")]
            same(f"number of parts of `{owner}::{name}`", len(fields), len(taken))
            same(f"parts of `{owner}::{name}`", taken, [part for part in parts if part])


def skipped_of(variants):
    """What a clause says of skipped fields that are in no row, by the variant, or nothing."""
    cases = []
    for name, _attributes, _kind, fields in variants:
        binders = [f"v{place}" for place in range(len(fields))]
        said = said_of(fields, binders)
        cases += [f"|{name}{''.join(binders)}↦{said}"] if said else []
    cases += ["|_↦⊤"] if cases and len(cases) < len(variants) else []
    return f"elimresult[{''.join(cases)}]" if cases else ""


def compare_enum(impls, name, attributes, variants):
    """An enum: its variants in their order, what it is seen as and what it is made as."""
    rows = parts_of(impls.expanded(impls.aliases[f"{name}Variants"]))
    same(f"number of variants of `{name}`", len(variants), len(rows))
    schema = impls.block(f"(?:\\w+::)?EnumSchema for {name}\\b")
    refs = impls.block(f"(?:\\w+::)?VariantRefs<'a> for {name}\\b")
    view = re.search(r"ghost view = \{(.*?)\};", schema, re.S)[1]
    arms = re.findall(r"\| (\w+)((?: \w+)*) ↦ (.*)", view)
    compare_clauses(name, "EnumSchema", schema, skipped_of(variants))
    same(f"variants that `{name}` is seen as", [v[0] for v in variants], [arm[0] for arm in arms])
    same(
        f"variants that `{name}` is made as",
        [v[0] for v in variants],
        re.findall(r"Self::(\w+)(?= \{|\(|;|\n)", re.sub(r"Self::Values|-> Self", "", schema)),
    )
    compare_made(name, variants, schema)
    case = attributes.get("rename_all", "")
    for index, (variant, arm, row) in enumerate(zip(variants, arms, rows)):
        last = index == len(variants) - 1
        label = compare_variant(impls, name, variant, row, case)
        compare_arm(name, variant, index, last, arm)
        compare_refs(name, variant, index, last, refs)
    same(f"number of names of `{name}`", len(variants), len(impls.names(label.partition("<")[0])))
