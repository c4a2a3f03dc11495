"""The rows of the tables in crates/conformance_run/data: their fields and how these are written."""
import re

ESCAPED = re.compile(rb"%\*([0-9]+)\(([^()]*)\)|%([0-9A-F]{2})")


class Malformed(Exception):
    """A field that is written as none can be."""


def rows(path):
    """The rows of a table: where each stands, and its fields as they are written."""
    with open(path, encoding="utf-8", newline="\n") as table:
        for number, line in enumerate(table, 1):
            line = line.rstrip("\n")
            if line and not line.startswith("#"):
                yield f"{path}:{number}", line.split("\t")


def unescape(field):
    """The bytes of a field: `%XX` is a byte, and `%*N(TEXT)` are N copies of TEXT."""
    def one(match):
        copies, text, digits = match.groups()
        return unescape(text.decode()) * int(copies) if digits is None else bytes([int(digits, 16)])

    rest = ESCAPED.sub(b"", field.encode())
    if b"%" in rest:
        raise Malformed(field)
    return ESCAPED.sub(one, field.encode())


def escape(data):
    """Bytes as a field has them."""
    return "".join(chr(b) if 0x20 <= b <= 0x7E and b != 0x25 else f"%{b:02X}" for b in data)


def words_of(field):
    """The words of a program: a space between two, and `%_` for the empty word."""
    return [unescape(word.replace("%_", "")).decode() for word in field.split(" ")] if field else []
