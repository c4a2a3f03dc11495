#!/usr/bin/env python3
"""Lists what a reader must read to believe a promise: definition files in order, with their lines.

For each headline the script starts at the names that the contracts of its public calls cite, and
follows them through specs/. It counts the lines of each definition with the comment above it, once.

Laws are proved, so they are neither followed nor counted; definitions.py says what a law is, by its
type alone. Of a record of values and laws, as a codec, the values are followed, each where what is
followed reads it. Nothing of std is followed. proofs/, and a module of specs/ whose name ends in
Codec, Codecs or Impls, hold codecs of types, and laws: a codec there is a way to definitions, and
its own lines are not counted.

The script fails where another module of specs/ states a law, and where a headline has more lines or
files than are allowed. Usage, at the top of the repository: python3 tools/what_to_read.py [-v]
With -v each definition is named with its lines.
"""
import pathlib
import re
import sys

from definitions import LAW_MODULE, WORD, Specs, imported

READ = re.compile(r"\.([\w'-]+)")
# The source files whose contracts are the headline, the crate whose types have the encodings that
# these speak of, and the most lines and files of its definitions.
HEADLINES = {
    "bytes": (["nano_bin/src/traits.rt"], "nano_bin", 330, 15),
    "JSON": (["nano_json/src/traits.rt"], "nano_json", 900, 30),
    "RON": (["nano_ron/src/traits.rt"], "nano_ron", 980, 30),
    "TOML": (["nano_toml/src/parser.rt"], None, 500, 15),
    "where bytes go wrong": (["nano_bin/src/traits.rt"], None, None, None),
    "where JSON and RON go wrong": (["nano_json/src/traits.rt"], None, None, None),
    "the place of an error of TOML": (["nano_toml/src/parser.rt"], None, None, None),
    "the program": (["nano_show_answers/src/answers.rt"], None, None, None),
}
# What is a headline of its own, by the definition: a clause cites it, or the outcome of a call holds it.
APART = {
    "IsErrorAt": "the place of an error of TOML",
    "IsReport": "where bytes go wrong",
    "RejectsWithMore": "where bytes go wrong",
    "RejectsWholeWithMore": "where bytes go wrong",
    "Breaks": "where JSON and RON go wrong",
    "GoesWrong": "where JSON and RON go wrong",
    "IsNoText": "where JSON and RON go wrong",
    "TextGoesOn": "where JSON and RON go wrong",
}


def is_law_module(item):
    return "proofs" in item.file.parts or LAW_MODULE.search(item.file.stem) is not None


def promised(text):
    """What a source says outside of bodies and of private functions: clauses and ghost members."""
    lines, in_trait, is_public, in_head = [], False, True, False
    for line in text.splitlines():
        stripped = line.strip()
        if not line.startswith((" ", "}")):
            in_trait = stripped.startswith("pub trait") if stripped else in_trait
        if re.match(r"(pub(\(crate\))? )?((const|final|default) )*fn ", stripped):
            in_head, is_public = True, in_trait or stripped.startswith("pub fn")
        if (in_head or stripped.startswith("ghost ")) and (is_public or not in_head):
            if not re.match(r"ghost use |//", stripped):
                lines.append(line)
        if stripped == "{" or stripped.endswith((") {", "> {", ";")) and "ghost" not in stripped:
            in_head, is_public = False, True
    return "\n".join(lines)


def cited(places, types):
    """The names that the contracts cite, and the members of the types' impls."""
    for place in places:
        text = pathlib.Path("crates", place).read_text()
        names = imported(text)
        yield from (names[word] for word in WORD.findall(promised(text)) if word in names)
    if types:
        for path in sorted(pathlib.Path("crates", types, "src").glob("*.rt")):
            text = path.read_text()
            names = imported(text)
            for member in re.finditer(r"(?s)\bghost \w+ = \{(.*?)\};", text):
                yield from (names[word] for word in WORD.findall(member.group(1)) if word in names)


def closure(specs, headline, places, types):
    """The definitions that the contracts of the sources rest on."""
    own = {name for name, other in APART.items() if other == headline}
    if own:
        queue = [item for item in specs.all() if item.name in own]
    else:
        queue = [specs.find(*name) for name in cited(places, types)]
    # the fields that something reads, and the values of those that nothing has read yet
    read = {name for place in places
            for name in READ.findall(promised(pathlib.Path("crates", place).read_text()))}
    return followed(specs, queue, read, APART.keys() - own)


def followed(specs, queue, read, apart=()):
    """The definitions that the items of the queue rest on, where these fields are read."""
    found, unread = {}, []
    while queue:
        item = queue.pop()
        if item is not None and item.name not in apart and item not in found and not specs.is_law(item):
            found[item] = True
            text, fields = specs.said(item)
            read.update(READ.findall(text))
            queue.extend(specs.items_in(item, text))
            unread += [(item, *field) for field in fields]
        while not queue and any(name in read for _, name, _ in unread):
            now = [field for field in unread if field[1] in read]
            unread = [field for field in unread if field[1] not in read]
            for holder, _, value in now:
                read.update(READ.findall(value))
                queue.extend(specs.items_in(holder, value))
    return [item for item in found if not (is_law_module(item) and specs.is_instance(item))]


def laws_among_definitions(specs):
    """Prints each law that stands in a module of definitions, and whether there are some."""
    laws = [item for item in specs.all() if not is_law_module(item) and specs.is_law(item)]
    for item in laws:
        print(f"{item.file}: {item.name} is a law")
    return bool(laws)


def exceeds(specs, headline, order):
    """Prints the files of a headline with the lines of its definitions, and whether they are too
    many."""
    places, types, most, most_files = HEADLINES[headline]
    files = {}
    for item in closure(specs, headline, places, types):
        files.setdefault(item.file, []).append(item)
    lines = {path: sum(len(item.lines) for item in files[path]) for path in files}
    total = sum(lines.values())
    limits = [f" (at most {limit})" if limit else "" for limit in (most, most_files)]
    print(f"\n{headline}: {total} lines of definitions{limits[0]} in {len(files)} files{limits[1]}")
    for path in sorted(files, key=lambda path: (order.index(path.parts[1]), path)):
        print(f"{lines[path]:6} {path}")
        if "-v" in sys.argv:
            print("       " + " ".join(f"{item.name} {len(item.lines)}" for item in files[path]))
    return total > (most or total) or len(files) > (most_files or len(files))


def main():
    specs = Specs()
    failed = laws_among_definitions(specs)
    names = pathlib.Path("crates.txt").read_text().splitlines()
    order = [line.split(":")[0].split()[0] for line in names if line and line[0] != "#"]
    for headline in HEADLINES:
        failed = exceeds(specs, headline, order) or failed
    return 1 if failed else 0


if __name__ == "__main__":
    sys.exit(main())
