"""The names of docs/DIFFERENCES.md that can explain why the port and the Rust crate answer an input
otherwise, each with the condition on format, type and input without which it explains nothing.

A condition is about the whole input, not about the place where the two part, so that each is a line
or two. A name explains that the crate stopped, that both reject and tell otherwise, or whatever the two do.
"""
import re

WORDS = {"string": "String", "bytes": "Vec<u8>", "set": "HashSet<i32>", "map": "HashMap<String, i32>",
         "tree": "BTreeMap<String, i32>", "item": "Item", "choice": "Choice"}
# What stands in the types that have a name, as far as a condition asks for it.
CONTENT = {"Item": "i32 Option<String>", "Choice": "i32 (i32, String)", "Plain": "i32",
           "Test": "[i32; 1]", "Pair": "[u32; 4] ([u32; 4], String)", "Lists": "(Vec<i32>, HashSet<i32>)"}
FIELDS = {"Item": {"value", "note"}, "Choice": {"a", "b"}, "Holder": {"x"}}
FIELD = re.compile(rb'"((?:[^"\\]|\\.)*)"[ \t\r\n]*:', re.S)


def spoken(form, kind):
    """Format and type, where the words of nano_show stand for them, and what stands in the type."""
    if form == "run":
        form, _, word = kind.partition(" ")
        kind = WORDS.get(word, word)
    names = re.findall(r"\w+", kind)
    return form.split("-")[0], " ".join([kind, *(CONTENT.get(name, "") for name in names)]), names


def counts(data):
    """Each eight bytes with the number that they are, and the bytes after them."""
    for place in range(len(data) - 7):
        yield int.from_bytes(data[place:place + 8], "little"), data[place + 8:]


def is_utf8(data):
    try:
        data.decode()
    except UnicodeDecodeError:
        return False
    return True


def has_text(content):
    return "String" in content


def is_large_count(data):
    return any(count >= 1 << 20 for count, _ in counts(data))


def is_cut_text(data):
    return any(count > len(rest) for count, rest in counts(data))


def is_no_text(data):
    return any(count <= len(rest) and not is_utf8(rest[:count]) for count, rest in counts(data))


def is_wrapping(data):
    return any(count >= (1 << 64) - len(data) for count, _ in counts(data))


def is_over_i64(data):
    return any(int(run) >= 1 << 63 for run in re.findall(rb"\d{19,}", data))


def skips_a_field(data, names):
    """Whether a field has a name that one of these structs does not have."""
    structs = [FIELDS[name] for name in names if name in FIELDS]
    return bool(structs) and any(name.decode(errors="replace") not in set.intersection(*structs)
                                 for name in FIELD.findall(data))


def has_tuple(content):
    return re.search(r"\([^()]*,", content) is not None


STOPPED, TOLD, ANY = "stopped", "told", "any"
# Each name: the formats, what it explains, and the condition on the type's content, the input and the
# type's names.
NAMES = {
    "counts": ("bin", STOPPED, lambda of, data, _: re.search(r"Vec<|Hash(Set|Map)<|BTreeMap<", of)
               and is_large_count(data)),
    "a text that is cut short": ("bin", TOLD, lambda of, data, _: has_text(of) and is_cut_text(data)),
    "a text that is not UTF-8": ("bin", STOPPED, lambda of, data, _: has_text(of) and is_no_text(data)),
    "lengths whose sum wraps": ("bin", ANY, lambda of, data, _: has_text(of) and is_wrapping(data)),
    "i64_range": ("json ron", ANY, lambda of, data, _: re.search(r"\bi\d", of) and is_over_i64(data)),
    "whole_field": ("json", STOPPED, lambda of, data, names: skips_a_field(data, names)),
    "a fault in a tuple": ("json ron", TOLD, lambda of, data, _: has_tuple(of)
                           and re.search(rb"[\[(]", data)),
    "a character between apostrophes": ("ron", ANY, lambda of, data, _: b"'" in data),
    "NUL inside a character between apostrophes": (
        "ron", ANY, lambda of, data, _: re.search(rb"'\\?\0", data)),
    "/*/": ("ron", ANY, lambda of, data, _: b"/*/" in data),
    '""': ("toml", ANY, lambda of, data, _: b'""' in data),
    "closing triple quotes": ("toml", ANY, lambda of, data, _: data.count(b'"""') > 1),
    "a.b": ("toml", ANY, lambda of, data, _: re.search(rb"[A-Za-z_-]\.", data)),
    "[[a]] on a key of another kind": ("toml", STOPPED, lambda of, data, _: re.search(rb"\[[^\[]*\[", data)),
    "a string that ends at a backslash and NUL": ("toml", ANY, lambda of, data, _: b"\\\0" in data),
}


def explains(what, verdict, status):
    """Whether a name of this kind can explain a verdict of the port and a status of the crate."""
    return what == ANY or (what == STOPPED and status == "stopped") or (
        what == TOLD and (verdict, status) == ("error", "rejected"))


def conditions_met(form, kind, data):
    """The names whose conditions an input meets, with what each explains."""
    form, content, names = spoken(form, kind)
    return {name: what for name, (forms, what, condition) in NAMES.items()
            if form in forms.split() and condition(content, data, names)}


def names_of(form, kind, data, verdict, status):
    """The names that can explain a difference at this input."""
    met = conditions_met(form, kind, data)
    return [name for name, what in met.items() if explains(what, verdict, status)]
