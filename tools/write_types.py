#!/usr/bin/env python3
"""Writes crates/conformance_types/src/types/, which reads an input as a type by the type's name, of tools/types.tsv.

A line of that file is divided by TAB. `use MODULE NAMES` says where types come from, `file NAME TEXT` begins a
file, and `group NAME TEXT` a function of_NAME with the table of its names: TEXT says what they are. Each other
line is a type: FORMATS, which is a key of CALLS, the NAME by which a case gives it, and the type as Rust writes
it where that is another. A function passes on what is none of its names to the next one, and the last answers
that it is unknown. A container of CONTAINERS is read by a function that was proved for all types of items.

Usage, at the top of the repository: python3 tools/write_types.py [--check]
With --check nothing is written, and the script fails where a file would be another.
"""
import pathlib
import re
import sys
import textwrap

LIST = pathlib.Path("tools/types.tsv")
FOLDER = pathlib.Path("crates/conformance_types/src/types")
WIDTH, ARRAY, SHORT = 100, 60, 10  # the columns of a line, of an array in one, and of items that share lines
MOST = 14  # types of a function
# What reads a type of these formats, and the module that it stands in.
CALLS = {"all": ("of_type", "reads"), "bytes": ("of_bytes", "reads"), "json": ("of_json_alone", "reads"),
         "bytes-json": ("of_bytes_and_json", "reads")}
CONTAINERS = {"Vec": "of_list", "Option": "of_option", "Holder": "of_holder", "HashSet": "of_hash_set",
              "BTreeSet": "of_tree_set", "HashMap": "of_hash_map", "BTreeMap": "of_tree_map"}
ARGUMENTS = ["alloc: Global", "format: Format", "kind: &str", "input: &[u8]"]


class Malformed(Exception):
    """A line of the list that cannot be read."""


def read_list():
    """The module of each type, and the files: name, text and groups, of which each has a name, a text and types."""
    modules, files = {}, []
    for number, line in enumerate(LIST.read_text().splitlines(), 1):
        if not line or line.startswith("#"):
            continue
        word, name, *rest = line.split("\t")
        if word == "use":
            modules.update({kind: name for kind in rest[0].split()})
        elif word == "file":
            files.append((name, rest[0], []))
        elif word == "group":
            files[-1][2].append((name, rest[0], []))
        elif word in CALLS and len(rest) < 2:
            files[-1][2][-1][2].append((word, name, rest[0] if rest else name))
        else:
            raise Malformed(f"{LIST}:{number}: no line of a type: {line}")
    return modules, files


def call_of(formats, kind):
    """The function that reads a type, its module, and its type parameters."""
    function, module = CALLS[formats]
    outer = re.fullmatch(r"(\w+)<(.*)>", kind)
    if formats == "all" and outer and outer.group(1) in CONTAINERS:
        return CONTAINERS[outer.group(1)], "containers", outer.group(2)
    return function, module, kind


def arm(place, formats, kind):
    """An arm of a match, as `rt fmt` lays it out."""
    function, _, parameters = call_of(formats, kind)
    call = f"{function}::<{parameters}>(alloc, format, input)"
    if len(f"        {place} => {call},") <= WIDTH:
        return f"        {place} => {call},\n"
    if len(f"            {call}") > WIDTH:
        return f"        {place} => {function}::<{parameters}>(\n            alloc, format, input,\n        ),\n"
    return f"        {place} => {{\n            {call}\n        }}\n"


def table(name, kinds):
    """The names of a group, as `rt fmt` lays them out."""
    items = [f'"{kind}"' for _, kind, _ in kinds]
    joined = ", ".join(items)
    if len(joined) <= ARRAY - 2:
        return f"const {name}: &[&str] = &[{joined}];\n"
    if max(map(len, items)) <= SHORT:
        lines = textwrap.wrap(joined + ",", WIDTH, initial_indent="    ", subsequent_indent="    ",
                              break_long_words=False, break_on_hyphens=False)
        return f"const {name}: &[&str] = &[\n" + "\n".join(lines) + "\n];\n"
    return f"const {name}: &[&str] = &[\n" + "".join(f"    {item},\n" for item in items) + "];\n"


def head(name):
    """The head of a function, as `rt fmt` lays it out."""
    line = f"pub(crate) fn of_{name}({', '.join(ARGUMENTS)}) -> Result<Outcome, AllocError> {{\n"
    if len(line) <= WIDTH + 1:
        return line
    lines = "".join(f"    {argument},\n" for argument in ARGUMENTS)
    return f"pub(crate) fn of_{name}(\n{lines}) -> Result<Outcome, AllocError> {{\n"


def group_text(name, text, kinds, following):
    """A table of names and its function."""
    if len(kinds) > MOST:
        raise Malformed(f"the group {name} has {len(kinds)} types, and at most {MOST} can be")
    last = f"of_{following}(alloc, format, kind, input)" if following else "Ok(Outcome::Unknown)"
    arms = "".join(arm(f"Some({place})", formats, kind) for place, (formats, _, kind) in enumerate(kinds))
    ending = "or another type" if following else "or no type that a case can name"
    names = name.upper() + "_NAMES"
    return (f"/// The names of the types of `of_{name}`, in the order of its arms.\n{table(names, kinds)}\n"
            f"/// {text}, {ending}.\n{head(name)}"
            f"    match place_of({names}, kind) {{\n{arms}        _ => {last},\n    }}\n}}\n")


def use_lines(used):
    """The imports, names by module, as `rt fmt` lays them out."""
    lines = []
    for module, found in used.items():
        names = sorted(found)
        line = f"use {module}::{names[0]};" if len(names) == 1 else f"use {module}::{{{', '.join(names)}}};"
        if len(line) > WIDTH:
            wrapped = textwrap.wrap(", ".join(names) + ",", WIDTH - 1, initial_indent="    ", subsequent_indent="    ")
            line = f"use {module}::{{\n" + "\n".join(wrapped) + "\n};"
        lines.append(line + "\n")
    return sorted(lines)


def file_text(modules, text, groups, following):
    """A file: its imports, its tables and its functions."""
    used = {"crate::format": {"Format"}, "crate::outcome": {"Outcome"}, "crate::named": {"place_of"},
            "std::alloc": {"AllocError", "Global"}}
    if following[1]:
        used.setdefault(f"crate::types::{following[0]}", set()).add(f"of_{following[1]}")
    for _, _, kinds in groups:
        for formats, _, kind in kinds:
            function, module, parameters = call_of(formats, kind)
            used.setdefault(f"crate::{module}", set()).add(function)
            for name in re.findall(r"\w+", parameters):
                if name in modules:
                    used.setdefault(modules[name], set()).add(name)
    nexts = [name for name, _, _ in groups[1:]] + [following[1]]
    parts = [group_text(*group, after) for group, after in zip(groups, nexts)]
    return (f"//! {text}\n//!\n//! tools/write_types.py writes this file of tools/types.tsv.\n\n"
            + "".join(use_lines(used)) + "\n" + "\n".join(parts))


def main():
    modules, files = read_list()
    afters = [(name, groups[0][0]) for name, _, groups in files[1:]] + [("", "")]
    known = [kind for _, _, groups in files for group in groups for _, kind, _ in group[2]]
    if len(known) != len(set(known)):
        raise Malformed(f"{LIST}: {max(known, key=known.count)} has two lines")
    stale = 0
    for path in sorted(set(FOLDER.glob("*.rt")) - {FOLDER / f"{name}.rt" for name, _, _ in files}):
        print(f"{path}: {LIST} has no such file")
        stale += 1
    for (name, text, groups), following in zip(files, afters):
        path, written = FOLDER / f"{name}.rt", file_text(modules, text, groups, following)
        if path.exists() and path.read_text() == written:
            continue
        if "--check" in sys.argv:
            print(f"{path} is not what tools/write_types.py writes of {LIST}")
            stale += 1
        else:
            FOLDER.mkdir(exist_ok=True)
            path.write_text(written)
    print(f"{len(known)} types in {len(files)} files, {stale} stale")
    return 1 if stale else 0


if __name__ == "__main__":
    try:
        sys.exit(main())
    except Malformed as fault:
        sys.exit(str(fault))
