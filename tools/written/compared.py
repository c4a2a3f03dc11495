"""Whether what derive wrote is what was declared."""
import re

from .cycles import cycle_of
from .definitions import Differs, definitions, same
from .enums import compare_enum
from .impls import Impls
from .nested import compare_levels, compare_nested
from .structs import compare_struct

FORMATS = {"bin": "Bin", "json": "Json", "ron": "Ron"}
# Where an impl cites the row of its type: before a trait of rows or of a format, and in a call.
TRAITS = r"\w*Shapes?|\w+Parts|Borrowed\w*|Choices|(?:Bin|Json|Ron)Codec|De(?:Bin|Json|Ron)"
CITED = re.compile(
    rf"<(?:\w+::)?(\w+)(?:<[\w, ]*>)? as (?:\w+::)?(?:{TRAITS})\b|::<Self, (?:\w+::)?(\w+)"
)


def compare_key(impls, kind, name, attributes, content):
    """A key has both impls: its order is that of what it holds, or of its variants as declared."""
    keys = {trait for trait in impls.traits(name) if trait in ("Key", "OrderedKey")}
    same(f"keys of `{name}`", {"Key", "OrderedKey"} if "key" in attributes else set(), keys)
    if not keys:
        return
    traits = ("Key", "OrderedKey")
    key, sorted_key = (impls.block(rf"(?:\w+::)?{trait} for {name}\b") for trait in traits)
    order = re.search(r"ghost order = \{ (.*?) \};", key, re.S)[1]
    if kind == "enum":
        same(f"order of `{name}`", "variants", order)
        for block in (key, sorted_key):
            listed = re.search(r"\(IsPlaced .*?\((.*?∷\s+)\[\]\)\)", block, re.S)[1]
            wanted = [f"{name}_{variant[0]}" for variant in content]
            same(f"values of `{name}`", wanted, re.findall(r"\w+", listed))
        return
    of = "Fields" if content[0] == "Newtype" else "Values"
    row = re.fullmatch(r"⟦<(\w+)(?:<.*>)? as (?:\w+::)?Key>⟧\.order", order)
    same(f"order of `{name}`", f"{name}{of}", row and row[1])
    places = len(content[1])
    for block, member in ((key, "exact"), (sorted_key, "follows")):
        term = re.search(rf"ghost {member} = \{{ (.*) \}};", block, re.S)[1]
        parts = re.findall(r"\b([xy]\.\d)\b", term.rsplit(f".{member}", 1)[1])
        wanted = [f"{value}.{place}" for value in "xy" for place in range(places)]
        same(f"parts of `{member}` of `{name}`", wanted, parts)


# What encodes and reads a struct by its fields, in a text.
OF_FIELDS = re.compile(r"\b(?:strict_json|json|open_ron|ron)_of\b|\b(?:read|take)_record_\w+")


def compare_unknown(impls, name, attributes):
    """A struct is strict in JSON where it denies unknown names alone, and open in RON where it
    allows them alone."""
    words = (("Json", "deny_unknown", "strict"), ("Ron", "allow_unknown", "open"))
    for format, attribute, word in words:
        calls = []
        for trait in {f"{format}Codec", f"De{format}"} & impls.traits(name):
            calls += OF_FIELDS.findall(impls.block(rf"(?:\w+::)?{trait} for {name}\b"))
        wanted = [attribute in attributes] * len(calls)
        same(f"whether `{name}` is {word}", wanted, [word in call.split("_") for call in calls])


def compare_rows(impls, kind, name, content):
    """Each impl of a type is of its own row, but a tuple of few parts is one in texts."""
    rows = {f"{name}Variants"} if kind == "enum" else {f"{name}Fields"}
    if kind == "struct" and content[0] == "Tuple":
        rows.add(f"{name}Values")
    elif kind == "struct" and not any(field.is_in_row() for field in content[1]):
        rows = {"Unit"}
    for trait in impls.traits(name):
        block = impls.block(rf"(?:\w+::)*{trait}(?:<'a>)? for {name}\b")
        cited = {row for match in CITED.findall(block) for row in match if row}
        same(f"rows of `{trait}` for `{name}` beside its own", set(), cited - rows)


def formats_of(attributes):
    """The traits of the formats that a type has, by the words above it."""
    return {
        way + FORMATS[word.split("_")[-1]]
        for word in attributes
        if word.split("_")[-1] in FORMATS
        for way in ("Ser", "De")
        if not word.startswith({"Ser": "de_", "De": "ser_"}[way])
    }


def compare(source, text):
    """Compares the definitions of a source with the text of its impls."""
    impls, found = Impls(text), definitions(source)
    if not found:
        raise Differs("no definition has a format")
    for kind, name, bounds, attributes, content in found:
        got = {
            trait for trait in impls.traits(name) if re.fullmatch("(Ser|De)(Bin|Json|Ron)", trait)
        }
        same(f"formats of `{name}`", formats_of(attributes), got)
        compare_key(impls, kind, name, attributes, content)
        compare_unknown(impls, name, attributes)
        for trait, written in impls.bounds(name):
            same(f"bounds of `{trait}` for `{name}`", bounds, written)
        cycle, root = cycle_of(found, name)
        if cycle:
            limit = {other: of.get("levels") for _, other, _, of, _ in found}.get(root)
            compare_levels(impls, name, limit, name == root)
            compare_nested(impls, kind, name, content, cycle)
        else:
            (compare_struct if kind == "struct" else compare_enum)(impls, name, attributes, content)
            compare_rows(impls, kind, name, content)
    return len(found)
