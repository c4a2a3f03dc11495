"""The types by the names that the tables use, as small trees.

A value is an int, a bool, a str, or a tuple: of the items of a list, of the parts of a tuple, of the fields of a
struct; `(v,)` is Some(v), and `()` both None and the unit; a set is the tuple of its items ascending, a map that of its
pairs ascending by key; an enum is its index and its content. So two values of a type compare as they do in Rust.
"""
import functools
import re
from typing import Any, NamedTuple


class Type(NamedTuple):
    """A type: what kind it is, and what that kind needs to be said."""

    kind: str
    parts: tuple = ()  # the types of its items, parts or fields, one after another
    fields: tuple = ()  # of a struct
    variants: tuple = ()  # of an enum
    above: tuple = ()  # of a struct: `deny_unknown` (of JSON, no others) and `allow_unknown` (of RON)
    size: int = 0  # an integer's bytes
    low: int = 0  # the range of an integer
    high: int = 0
    name: str = ""  # of one that contains itself
    levels: int = 0  # how many it may have
    limit: int = 0  # how many the one has that is in no other of it


class Field(NamedTuple):
    """A named field. `kind` says what a missing one is: `required`, `optional` (`None`, not written) or `default`."""

    name: str
    aliases: list  # other names under which it is read
    type: Type
    kind: str
    default: Any


class Variant(NamedTuple):
    """A variant: its name, and its content as a tuple, a struct or the unit."""

    name: str
    content: Type


class Unknown(Exception):
    """The name of no type."""


BITS = {"8": 8, "16": 16, "32": 32, "64": 64, "128": 128, "size": 64}
ALIASES = {
    "Test": "[i32; 1]", "Plain": "i32",
    "Lists": "(Vec<i32>, LinkedList<i32>, HashSet<i32>, BTreeSet<i32>)", "Pair": "Option<([u32; 4], String)>",
    "Limits": "HashMap<String, u64>", "Tags": "BTreeMap<String, Vec<String>>",
    "UserId": "u64", "HallName": "String", "Seat": "(HallName, u16)", "Seats": "BTreeSet<Seat>",
    "Visits": "BTreeMap<UserId, u32>", "Greetings": "HashMap<Role, String>",
    "Point": "(i32, i32, String)", "Entry": "(u64, Option<String>, Point, bool)",
    "Segment": "(u8, String, Option<u16>, Vec<i32>, bool)", "Reply": "Reply<i32, String>",
    "Cells": "(i32, Option<i32>, Vec<i32>, (i32, u8), String, (), [i64; 1], i32)", "Tagged": "Tagged<i32, String>",
}

# The types of the tables in docs/FORMATS.md. A field is `name|alias: type`, and its default if it has one. A skipped
# one is neither read nor written, so it is no field here. A variant is a name, its parts or its fields.
STRUCTS = {
    "Item": ["value: i32", "note: Option<String>"], "Profile": ["name: String", "level: u8", "mode: Event"],
    "Server": ["host: String", "port: u16", "tags: Tags", "limits: Limits", "note: Option<String>"],
    "Site": ["host: String", ("port: u16", 8080), ("first: String", "index"),
             ("tags: Vec<String>", ()), ("owner: Option<String>", ())],
    "Moved": ["host|hostname: String", "contact|owner|admin: Option<String>", ("port|tcp_port: u16", 8080)],
    "Clock": [("offset: i32", -5), ("running: bool", True)], "Folder": ["name: String", "folders: Vec<Folder>"],
    "Proxy": ["host|hostname: String", "port: Option<u16>"], "Chain": ["number: u32", "next: Option<Box<Chain>>"],
    "Marker": [], "Empty": [], "Count": [], "Menu": ["title: String", "entries: BTreeMap<String, Menu>"],
    "Trip": ["there: Marker", "new: Option<Empty>", "steps: Vec<Step>"], "Draft": ["title: String", "words: Vec<u32>"],
    "Tagged": ["first: A", "other: Option<B>", "more: Vec<A>", ("times: u32", 1)],
    "Measures": ["größe: u32", "長さ|länge: Option<u32>", "weight: u32"],
    "Hall": ["visits: Visits", "greetings: Greetings", "taken: Seats"],
    "Branch": ["then: Statement", "otherwise: Option<Box<Statement>>"], "Holder": ["x: A"],
    "Widget": ["title: String", ("shortcut: String", "none"), ("width: u16", 80), ("row: i32", -1),
               ("is_open: bool", True), ("entries: Vec<Widget>", ()), ("others: BTreeMap<String, Widget>", ())],
    "Node": ["name: String", "at: [i32; 3]", "size: (u32, u32)", "tags: BTreeSet<String>",
             "effects: HashMap<String, u32>", "children: Vec<Node>"],
}
ENUMS = {
    "Choice": ["A", "B(i32, String)", {"C": ["a: i32", "b: String"]}],
    "Event": ["Stop", "Move(u32, String)", {"Say": ["text: String", "times: u32"]}],
    "Signal": ["Wait(u64)", "Move(u16, u16, u16)", "Light(u8, u8, u8, bool)"],
    "Command": ["Stop", "Move(u32, String)", "Wait(u64)"], "Tree": ["Leaf(i32)", "Node(Vec<Tree>)"],
    "Message": ["Hello", "Move(i32, String)", "Wait(u64)", {"Say": ["text: String", "times: u32"]}],
    "Notice": ["gone", "Move(i32, String)", {"said": ["text: String", ("times: u32", 1)]}],
    "Change": ["Started", {"Renamed": ["from|old: String", "to: String"]}],
    "Step": [{"Rest": []}, "Walk(u16)", {"Stop": []}], "Edit": ["Close", {"Add": ["words: Vec<u32>"]}],
    "Sky": ["ясно", "bewölkt(u8)", {"Rain": ["höhe: u16"]}], "Role": ["Guest", "Member", "Moderator", "Owner"],
    "Reply": ["Found(A)", "Failed(B, u32)", {"Listed": ["items: Vec<A>", "next: Option<B>"]}],
    "Term": ["Number(i64)", "Call(String, Vec<Argument>)", "If(Box<Term>, Box<Term>, Box<Term>)",
             "Repeat(u32, bool, Box<Term>)"],
    "Argument": ["Plain(Term)", {"Named": ["name: String", "value: Option<Box<Term>>"]}, "Rest"],
    "Trail": ["End", "Through(LinkedList<(String, u8)>, HashSet<u16>, Box<Trail>)"],
    "Statement": ["Assign(String, i32)", "Block(Vec<Statement>)", "If(Box<Branch>)"],
    "Expression": ["Number(i64)", "Negated(Box<Expression>)", "Sum(Box<Expression>, Box<Expression>)"],
    "Rule": ["Always", "From(u8)",
             {"When": ["condition: Box<Rule>", "then: Box<Rule>", "otherwise: Option<Box<Rule>>"]}],
    "Json": ["Null(())", "Bool(bool)", "U64(u64)", "I64(i64)", "Decimal(decimal)", "Text(String)", "List(Vec<Json>)",
             "Object(entries<String, Json>)"],
}
# These contain themselves; a value of each has at most so many levels, itself being the first.
NESTED = dict.fromkeys("Chain Expression Folder Json Menu Node Statement Term Trail Tree Widget".split(), 128)
NESTED["Rule"] = 5
ABOVE = {"Proxy": ("deny_unknown",), "Profile": ("allow_unknown",)}
PARAMETERS = {"Holder": 1, "Tagged": 2, "Reply": 2}
ONLY = dict.fromkeys("Json Measures Sky".split(), "bin json") | {"Message": "json"}
ONLY |= dict.fromkeys("Command i128 u128".split(), "bin")
NAME = re.compile(r"\s*([A-Za-z]\w*|[()\[\]<>,;]|\d+)")
CONTAINERS = {"Option": "option", "Vec": "list", "LinkedList": "linked",
              "HashSet": "set", "BTreeSet": "set", "HashMap": "map", "BTreeMap": "map", "entries": "entries"}


@functools.lru_cache(maxsize=None)
def parse(name):
    """The type with this name, as `Vec<Option<u8>>`."""
    words = NAME.findall(name)
    if "".join(words) != re.sub(r"\s", "", name):
        raise Unknown(name)
    try:
        type, rest = read(words, {})
    except (IndexError, ValueError):
        rest = words
    if rest:
        raise Unknown(name)
    return type


def has(name, format):
    """Whether the type with this name has a format."""
    return all(format in ONLY.get(word, format) for word in NAME.findall(name))


def read(words, given):
    """The type that the words begin with, and the other words."""
    word, rest = words[0], words[1:]
    if word == "(":
        parts, rest = read_list(rest, ")", given)
        if len(parts) == 1 or len(parts) > 8:
            raise Unknown("a tuple of two to four parts is known, and a struct of up to eight")
        return (Type("tuple", parts) if parts else Type("unit")), rest
    if word == "[":
        item, rest = read(rest, given)
        if rest[0] != ";" or rest[2] != "]":
            raise Unknown("an array has its count")
        return Type("array", (item,) * int(rest[1])), rest[3:]
    parts = ()
    if rest[:1] == ["<"]:
        parts, rest = read_list(rest[1:], ">", given)
    return named(word, parts, given), rest


def read_list(words, close, given):
    """Types with commas between, up to the closing word."""
    parts = []
    while words[0] != close:
        part, words = read(words, given)
        parts.append(part)
        if words[0] == ",":
            words = words[1:]
    return tuple(parts), words[1:]


def named(word, parts, given):
    """The type of this name and these parameters."""
    if word in given:
        return given[word]
    if word in NESTED and not parts:
        return Type("nested", name=word, levels=NESTED[word], limit=NESTED[word])
    if word[1:] in BITS and word[0] in "ui" and not parts and word != "isize":
        bits = BITS[word[1:]]
        low, high = (0, 2**bits - 1) if word[0] == "u" else (-(2 ** (bits - 1)), 2 ** (bits - 1) - 1)
        return Type("int", size=bits // 8, low=low, high=high)
    if word in ("bool", "String", "decimal") and not parts:
        return Type(word)
    if word == "Box" and len(parts) == 1:  # it is what it holds
        return parts[0]
    if word in CONTAINERS and len(parts) == (2 if word.endswith(("Map", "entries")) else 1):
        return Type(CONTAINERS[word], parts)
    if word in ALIASES and not parts:
        return parse(ALIASES[word])
    if len(parts) != PARAMETERS.get(word, 0):
        raise Unknown(word)
    return defined(word, dict(zip("AB", parts)) or given)


def defined(word, given):
    """The struct or the enum of this name."""
    if word in STRUCTS:
        return struct(STRUCTS[word], given)._replace(above=ABOVE.get(word, ()))
    if word in ENUMS:
        variants = tuple(variant(line, given) for line in ENUMS[word])
        return Type("document" if word == "Json" else "enum", variants=variants)
    raise Unknown(word)


@functools.lru_cache(maxsize=None)
def opened(type):
    """What a type that contains itself is; one of these in it has a level less."""
    return defined(type.name, {type.name: type._replace(levels=type.levels - 1)})


def struct(lines, given):
    """A struct of these fields. One whose type is written `Option<..>` may be missing."""
    found = []
    for line in lines:
        line, *default = line if isinstance(line, tuple) else (line,)
        names, written = line.split(": ")
        name, *aliases = names.split("|")
        kind = "default" if default else "optional" if written.startswith("Option<") else "required"
        found.append(Field(name, aliases, read(NAME.findall(written), given)[0], kind, *default or [()]))
    return Type("struct", tuple(field.type for field in found), tuple(found))


def variant(line, given):
    """A variant of an enum."""
    if isinstance(line, dict):
        ((name, lines),) = line.items()
        return Variant(name, struct(lines, given))
    name, _, parts = line.partition("(")
    return Variant(name, Type("tuple", read_list(NAME.findall(parts), ")", given)[0]) if parts else Type("unit"))


def collected(kind, items):
    """The value of a container: ascending a set has each item once, a map each key with its last value."""
    if kind == "map":
        return tuple(sorted(dict(items).items()))
    return tuple(sorted(set(items)) if kind == "set" else items)
