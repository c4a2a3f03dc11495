"""Rows of a state: calls of a reader or a writer, one after another, and readers at an offset.

The head of states.tsv says how their fields are written; Calls of a reader's state in
docs/ERRORS.md says what each call does.
"""
import re

from . import binary, toml_format, type_tree, values
from .reader import BLOCK, CURLY, GREATEST, PAREN, Fault
from .ron_format import indent
from .words import FORMS, READERS, encoded, of_text

FORMATS = {"bin-at", "json-state", "ron-state", "json-write", "ron-write", "toml-date"}
STATE = re.compile(r"(\w+)(?:\((.*?)\))? ([0-9]+):([0-9]+) (.*)", re.DOTALL)
WRITES = re.compile(r"(st_pre|st_post|conl|indent|field|label)(?:_([0-9]+))?(?:_([a-z]+))?")
# The calls that one format alone has.
ALONE = {"json": {"string", "next_str", "is_null"},
         "ron": {"ident", "paren_open", "paren_close", "eat_comma_paren", "is_paren_close", "next_ident", "is_none"}}
ASKS = {"colon": ("Colon", ":"), "string": ("Str", "String"), "ident": ("Ident", "Identifier")}
BRACKETS = {"block": BLOCK, "curly": CURLY, "paren": PAREN}
TESTS = {"next_str": "Str", "next_ident": "Ident", "is_block_close": "BlockClose",
         "is_curly_close": "CurlyClose", "is_paren_close": "ParenClose"}
BOUNDS = {"i64_range": [-(2**63), 2**63 - 1]}  # where a call names none
ERRORS = {"err_exp": "Unexpected key k", "err_nf": "Key not found k", "err_enum": "Enum not defined V",
          "err_range": "Value out of range x ", "err_type": "Token wrong type x ", "err_parse": "Cannot parse x "}


def answered(format, type, data):
    """The answer of a row."""
    name, _, kind = format.partition("-")
    if kind == "at":
        offset, _, code = data.partition(b" ")
        value, at = binary.read(type_tree.parse(type), code, int(offset))
        return f"{encoded('bin', type_tree.parse(type), value)} -> {at}".encode()
    if kind == "date":
        return of_text(name, toml_format.parse, data)[type][1].encode()
    if kind == "write" and type[0] != ".":
        value, _ = binary.read(type_tree.parse(type), data, 0)
        return values.write(FORMS[name], type_tree.parse(type), value, GREATEST).encode()
    if kind == "write":
        return f"ok -> {data.decode()}{appended(name, type[1:])}".encode()
    tok, value, line, column, text = STATE.fullmatch(data.decode()).groups()
    reader = READERS[name](text, int(line), int(column), 1)
    reader.tok, reader.value = tok, carried(tok, value)
    if type[0] != ".":
        return call(reader, lambda: values.write(FORMS[name], type_tree.parse(type), read(reader, type))).encode()
    return " | ".join(call(reader, lambda: called(name, reader, word[1:])) for word in type.split(" ")).encode()


def carried(tok, value):
    """What a token carries that is written with this in parentheses."""
    if tok in ("U64", "I64"):
        return int(value)
    return value == "true" if tok == "Bool" else value[1:-1] if tok == "Char" else value


def read(reader, type):
    """A value of this type; a reader that fails is at the end of its text."""
    try:
        return values.read(reader, type_tree.parse(type))
    except Fault:
        reader.fail()
        raise


def call(reader, ask):
    """What a call answers, and the state after it."""
    try:
        answer = ask()
    except Fault as fault:
        answer = "error {}, at {}:{}".format(*fault.args)
    line, column = reader.place()
    has_text = reader.tok in ("Str", "F64", "Ident")
    current = "\0" if reader.failed else reader.text[reader.at : reader.at + 1] or "\0"
    shown = f"{reader.tok}({reader.value})" if has_text else reader.shown()
    return f"{answer} -> {shown} {line}:{column} {current}{reader.text[reader.at + 1 :]}"


def called(format, reader, word):
    """What one call answers."""
    name, *arguments = re.fullmatch(r"([a-z0-9_]*?)(?:_(-?[0-9]+))?(?:_(-?[0-9]+))?", word).groups()
    numbers = [int(argument) for argument in arguments if argument]
    part, _, rest = name.partition("_")
    if name in ALONE["ron" if format == "json" else "json"]:
        raise type_tree.Unknown(word)
    if name in TESTS:
        return str(reader.tok == TESTS[name]).lower()
    if name in ("is_null", "is_none"):
        return str(reader.is_absent()).lower()
    if name in ("as_bool", "u64_range", "i64_range"):
        return str(getattr(reader, name)(*numbers or BOUNDS.get(name, []))).lower()
    if name == "as_string":
        return reader.as_string()
    if name == "err_memory":
        return "out of memory"
    if name == "err_token" or name in ERRORS:
        raise reader.error(ERRORS[name]) if name in ERRORS else reader.err_token("x")
    if name in ("next", "next_tok", "next_colon", "fail", "whole_field"):
        getattr(reader, name)()
    elif name in ASKS:
        reader.ask(*ASKS[name])
    elif name.startswith("eat_comma_"):
        reader.eat_comma(BRACKETS[name[10:]])
    elif rest in ("open", "close"):
        reader.ask(*getattr(BRACKETS[part], rest))
    else:
        raise type_tree.Unknown(word)
    return "ok"


def appended(format, call):
    """What a call of a writer's state appends."""
    name, level, word = WRITES.fullmatch(call).groups()
    space = indent(int(level or 0))
    texts = {
        "json": {"st_pre": "{", "st_post": "}", "conl": ",", "indent": "", "field": f'"{word}":', "label": f'"{word}"'},
        "ron": {"st_pre": "(\n", "st_post": f"{space})", "conl": ",\n", "indent": space, "field": f"{space}{word}:"},
    }
    return texts[format][name]
