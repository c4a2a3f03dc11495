"""Fields with names: their names and types, and what stands where one is missing or skipped."""
import re

from .definitions import PATH, Differs, name_of, path_below, same, tidy
from .impls import LABEL, parts_of


def default_of(impls, owner, field, written):
    """What stands for the default of a field, or `written` if that is a type with the value."""
    kind = field.default_kind()
    if kind == "type":
        return "TypeDefault"
    if kind == "path":
        return path_below(field.default)
    if kind == "text" or field.type in ("u128", "i128"):
        wanted = (field.default, field.default)
        same(f"default of `{owner}.{field.name}`", wanted, impls.default(field.type, written))
        return written
    return f"Default{field.type.capitalize()}<{field.default}>"


def row_of(field, label, default):
    """A field as a row has it."""
    if field.skipped:
        return f"Skipped<{field.type},{default}>"
    if "default" in field.attributes:
        return f"Defaulted<{label},{field.type},{default}>"
    option = re.fullmatch(r"Option<(.*)>", field.type)
    return f"Optional<{label},{option[1]}>" if option else f"Required<{label},{field.type}>"


def labels_of(written):
    """The labels of a field, its own before those of its aliases, and it without the latter."""
    aliases = []
    while around := re.fullmatch(rf"Aliased<({LABEL}),(.*)>", written):
        aliases.insert(0, around[1])
        written = around[2]
    label = re.match(rf"\w+<({LABEL}),", written)
    if not label:
        raise Differs(f"`{written}` is no field that is read")
    return [label[1], *aliases], written


def compare_field(impls, owner, field, written, case):
    """A field as it stands in a row. What comes is its labels, of which a skipped one has none."""
    labels = []
    if not field.skipped:
        labels, written = labels_of(written)
        names = [impls.name(label) for label in labels]
        wanted = name_of(field.name, field.attributes, case, False)
        same(f"name of `{owner}.{field.name}`", wanted, names[0])
        same(f"aliases of `{owner}.{field.name}`", field.aliases, names[1:])
    default = default_of(impls, owner, field, written[:-1].rsplit(",", 1)[-1])
    wanted = row_of(field, labels[0] if labels else None, default)
    same(f"field `{owner}.{field.name}`", wanted, written)
    return labels


def compare_fields(impls, owner, fields, row, case):
    """Named fields: names, order, types, and what stands where one is missing or skipped."""
    in_row = [field for field in fields if field.is_in_row()]
    got = [] if row == "Unit" else parts_of(impls.expanded(row))
    same(f"number of fields of `{owner}`", len(in_row), len(got))
    labels = []
    for field, written in zip(in_row, got):
        labels += compare_field(impls, owner, field, written, case)
    compare_labels(impls, owner, labels)


def compare_labels(impls, owner, labels):
    """The names of one type of names, each for one field, and all of them."""
    types = {label.partition("<")[0] for label in labels}
    same(f"number of types of names of `{owner}`", min(len(labels), 1), len(types))
    for of in types:
        same(f"number of names of `{owner}`", len(set(labels)), len(impls.names(of)))


def compare_literal(owner, fields, body, head):
    """A value is made of each field by its name, and of a value for one that is in no row."""
    inside = re.search(rf"{head} \{{(.*?)\}}", body, re.S)
    got = dict(
        (part.split(":", 1) + [None])[:2]
        for part in re.split(r",\s*", re.sub(r"\s+", " ", inside[1]).strip(" ,"))
        if part
    )
    got = {name.strip(): text and text.strip() for name, text in got.items()}
    same(f"fields that `{owner}` is made of", [field.name for field in fields], list(got))
    for field in fields:
        made = field.default or "std::default::Default::default()"
        wanted = None if field.is_in_row() else made
        same(f"what `{owner}.{field.name}` is made of", wanted, got[field.name])


def said_of(fields, values):
    """What a clause says of the values that fields are made as which stand in no row."""
    facts = []
    for field, value in zip(fields, values):
        given = field.default
        if field.is_in_row():
            continue
        if given is None:
            facts.append(f"⟦<{field.type}asDefault>⟧.is_default{value}")
        elif not field.type.startswith("i"):
            facts.append(f"{value}≡{given}")
        elif given.startswith("-"):
            facts.append(f"{value}≡neg_ℤ(pos{given[1:]})")
        else:
            facts.append(f"{value}≡pos{given}")
    return "×".join(f"({fact})" for fact in facts) if facts[1:] else "".join(facts)


def compare_clauses(owner, trait, schema, skipped):
    """The clauses of `make`: the trait's alone, or it again and this one for skipped fields."""
    head = re.search(r"fn make\(.*?\) -> Self(.*?)\{\n        let ", schema, re.S)[1]
    got = re.sub(rf"(⟦<{owner})<[\w,]*>(as{trait}>)", r"\1\2", tidy(PATH.sub("", head)))
    seen = f"ensuresseen{{⟦<{owner}as{trait}>⟧.viewresult≡values}}"
    wanted = f"{seen}ensuresskipped{{{skipped}}}" if skipped else ""
    same(f"clauses of `make` of `{owner}`", wanted, got)


def taken_apart(lines, whole):
    """The names that the whole is taken apart into: by one pattern, or half by half."""
    steps = {taken: pattern for pattern, taken in re.findall(r"let ([^;=]*?) = (\w+);", lines)}
    if whole not in steps:
        raise Differs(f"`{whole}` is not taken apart")
    names = parts_of(steps.pop(whole))
    while any(name.strip() in steps for name in names):
        names = [part for name in names for part in parts_of(steps.get(name.strip(), name))]
    return [name.strip() for name in names]
