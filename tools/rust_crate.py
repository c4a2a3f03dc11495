"""What the Rust crate does, where docs/DIFFERENCES.md says that the port does otherwise.

Each of WAYS is an item of that page, and makes the model do as the crate does. So it can be asked
whether the differences that a row names are those that change what comes, no more and no fewer.
"""
import re

from model import binary, ron_format, toml_format, toml_tokens, values
from model.answer import answer
from model.binary import BinFault
from model.cases import unescape
from model.json_format import JsonReader
from model.reader import Fault, Reader


class Stopped(Exception):
    """The crate panics, or does not end."""


def i64_range(ported):
    """A U64 from 2^63 up wraps to a negative number, which is cut to the type's width."""
    def crate(self, least, most):
        if self.tok != "U64" or self.value < 2**63:
            return ported(self, least, most)
        return (self.value - 2**64 - least) % (most - least + 1) + least
    return crate


def whole_field(ported):
    """Endless at the end of the text, a panic on other starts."""
    def crate(self):
        try:
            ported(self)
        except Fault as fault:
            if fault.args[0].endswith((" expected field ", "Cannot parse field ")):
                raise Stopped from fault
            raise
    return crate


def read_parts(ported):
    """A comma's fault may hide an item's, in tuples and not in arrays."""
    def crate(reader, parts):
        if len(set(parts)) < 2:
            return ported(reader, parts)
        found = []
        reader.ask(*reader.PARTS.open)
        for part in parts:
            try:
                found.append(values.read(reader, part))
            finally:
                reader.eat_comma(reader.PARTS)
        reader.ask(*reader.PARTS.close)
        return tuple(found)
    return crate


def cut_char(ported):
    """A character between apostrophes is skipped, and the token after it is cut."""
    def crate(self, at, end):
        self.tok, self.value, self.at = ported(self, at, end)
        self.at = self.skipped(self.at, end)
        return self.cut(self.at, end) if self.at < end else ("Eof", None, end)
    return crate


def empty_text(ported):
    """`""` runs to the next quote."""
    def crate(self, at, end):
        quotes = re.compile('"*').match(self.text, at, end).end() - at
        return ported(self, at + 1 if quotes == 2 else at, end)
    return crate


def triple_quotes(ported):
    """The closing triple quotes swallow the character after them."""
    def crate(self, at, end):
        tok, value, after = ported(self, at, end)
        return tok, value, min(after + 1, end) if self.text.startswith('"""', at, end) else after
    return crate


def dotted(ported):
    """A word loses its dots."""
    def crate(self, at, end):
        tok, value, after = ported(self, at, end)
        return tok, value.replace(".", "") if tok == "Ident" else value, after
    return crate


def array_header(ported):
    """A panic on a key of another kind."""
    def crate(reader, root):
        try:
            return ported(reader, root)
        except Fault as fault:
            if fault.args[0].startswith("Array header "):
                raise Stopped from fault
            raise
    return crate


def counted(ported):
    """What a count asks for is reserved at once."""
    def crate(type, count, at):
        if count * ITEM[type.kind] > TOO_MUCH:
            raise Stopped
        return ported(type, count, at)
    return crate


def faulting(ported, change):
    """As the port reads a text, with each fault changed."""
    def crate(data, length, at):
        try:
            return ported(data, length, at)
        except BinFault as fault:
            raise change(*fault.args) from fault
    return crate


def cut_text(ported):
    """Of a text that is cut short `l` is 1."""
    return faulting(ported, lambda kind, o, l, s: BinFault(kind, o, 1 if kind == "TooShort" else l, s))


def not_utf8(ported):
    """A panic where a text is not UTF-8."""
    return faulting(ported, lambda kind, *rest: Stopped() if kind == "NotUtf8" else BinFault(kind, *rest))


# Bytes that an item of the crate's lists, sets and maps takes, and how many were not there.
ITEM = {"list": 1, "set": 5, "map": 33}
TOO_MUCH = 200_000_000
# The item, and what is another in the model.
WAYS = {
    "i64_range": [(Reader, "i64_range", i64_range)],
    "whole_field": [(JsonReader, "whole_field", whole_field)],
    # The state after a fault is somewhere, and not at the end of the text.
    "a fault in a tuple": [(values, "read_parts", read_parts), (Reader, "fail", lambda _: lambda self: None)],
    "a character between apostrophes": [(ron_format.RonReader, "cut_char", cut_char)],
    "/*/": [(ron_format, "COMMENT", lambda ported: re.compile(r"/\*/|" + ported.pattern, re.DOTALL))],
    '""': [(toml_tokens.TomlReader, "string", empty_text)],
    "closing triple quotes": [(toml_tokens.TomlReader, "string", triple_quotes)],
    "a.b": [(toml_tokens.TomlReader, "cut_word", dotted)],
    "[[a]] on a key of another kind": [(toml_format, "array_header", array_header)],
    "counts": [(binary, "counted", counted)],
    "a text that is cut short": [(binary, "text", cut_text)],
    "a text that is not UTF-8": [(binary, "text", not_utf8)],
}

def as_crate(names, row):
    """What the crate does with the format, type and input of a row, and what comes of it."""
    ported = [(owner, name, getattr(owner, name)) for way in names for owner, name, _ in WAYS[way]]
    try:
        for way in names:
            for owner, name, crate in WAYS[way]:
                setattr(owner, name, crate(getattr(owner, name)))
        got = answer(*row)
    except Stopped:
        return "stopped", ""
    finally:
        for owner, name, value in reversed(ported):
            setattr(owner, name, value)
    # The crate has no columns in RON and TOML.
    shown = got.answer if row[0].startswith(("bin", "json")) else re.sub(r" col:\d+$", "", got.answer)
    return {"is": "answered", "error": "rejected"}.get(got.verdict, got.verdict), shown


def faults(fields):
    """Where a row names other differences than those that change what comes, or the crate did other."""
    did, names = fields[5], [name for name in fields[6].split("; ") if name]
    row = (fields[0], fields[1], unescape(fields[2]))
    unknown = [name for name in names if name not in WAYS]
    if unknown:
        yield f"of {unknown} nothing is known"
        return
    come = as_crate(names, row)
    if come[0] != did:
        yield f"the crate {did}, and by {names} it is {come[0]}"
    for name in names:
        if as_crate([other for other in names if other != name], row) == come:
            yield f"{name!r} changes nothing"
    if as_crate(list(WAYS), row) != come:
        yield f"more than {names} changes what comes"
