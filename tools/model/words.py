"""The program nano_show, of which docs/ERRORS.md has a section, and the formats by their names."""
import re

from . import binary, toml_format, type_tree, values
from .json_format import JsonForm, JsonReader
from .reader import Fault
from .ron_format import RonForm, RonReader

USAGE = ("usage: nano_show code u16s N.. | code text [WORD] | json TYPE | ron TYPE | bin TYPE | toml"
         " | json-whole TYPE | ron-whole TYPE | bin-whole TYPE")
TYPES = {"u8": "u8", "u32": "u32", "u64": "u64", "i32": "i32", "i64": "i64", "bool": "bool",
         "string": "String", "bytes": "Vec<u8>", "set": "HashSet<i32>", "map": "HashMap<String, i32>",
         "tree": "BTreeMap<String, i32>", "item": "Item", "choice": "Choice"}
TITLES = {"json": "Json Deserialize error", "ron": "Ron Deserialize error", "toml": "Toml error"}
READERS = {"json": JsonReader, "ron": RonReader}
FORMS = {"json": JsonForm, "ron": RonForm}


class Rejected(Exception):
    """An input with no value: the error as it is printed."""


def of_text(name, read, data):
    """What a reader makes of a text of this format."""
    try:
        return read(data.decode())
    except UnicodeDecodeError:
        raise Rejected("not UTF-8") from None
    except Fault as fault:
        message, line, column = fault.args
        raise Rejected(f"{TITLES[name]}: {message}, line:{line + 1} col:{column + 1}") from None


def decoded(name, type, data, whole):
    """The value that an input of this format begins with, or that it is."""
    if name == "bin":
        return binary.deserialize(type, data, whole)
    return of_text(name, lambda text: values.deserialize(READERS[name](text), type, whole), data)


def encoded(name, type, value):
    """What is written of a value: pairs of digits, or a text at level 0."""
    return binary.write(type, value).hex(" ") if name == "bin" else values.write(FORMS[name], type, value)


def codes(words):
    """What `code` writes after these words, or nothing where they are unknown."""
    if words[:1] == ["u16s"]:
        if all(re.fullmatch("0*[0-9]{1,5}", word) and int(word[-5:]) < 65536 for word in words[1:]):
            return encoded("bin", type_tree.parse("Vec<u16>"), tuple(map(int, words[1:])))
    if words[:1] == ["text"] and len(words) < 3:
        return encoded("bin", type_tree.parse("Option<String>"), tuple(words[1:]))
    return None


def answered(words, data):
    """What is written for these words and this input, or nothing where the words are unknown."""
    if words[:1] == ["code"]:
        line = codes(words[1:])
        return line if line is None else line + "\n"
    if words == ["toml"]:
        return toml_format.listing(of_text("toml", toml_format.parse, data))
    name, dash, whole = (words[:1] or [""])[0].partition("-")
    if len(words) != 2 or words[1] not in TYPES or name not in ("bin", *READERS) or dash + whole not in ("", "-whole"):
        return None
    type = type_tree.parse(TYPES[words[1]])
    return encoded(name, type, decoded(name, type, data, bool(whole))) + "\n"


def run(words, data):
    """The status, and what is written on standard output and on standard error."""
    try:
        line = answered(words, data)
    except Rejected as error:
        return 1, b"", f"{error}\n".encode()
    except binary.BinFault as fault:
        return 1, b"", f"{fault.printed()}\n".encode()
    return (2, b"", f"{USAGE}\n".encode()) if line is None else (0, line.encode(), b"")
