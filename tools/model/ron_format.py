"""RON: its tokens, and how it reads and writes what JSON does otherwise.

The sections RON tokens and RON of docs/FORMATS.md.
"""
import re

from . import values
from .reader import BLOCK, PAREN, PUNCTUATION, WHITE, Reader

WORD = re.compile("[A-Za-z_][A-Za-z0-9_]*")
# Up to the line feed, and with it, or up to the first `*/` after `/*`, or up to the end of the text.
COMMENT = re.compile(r"//[^\n]*\n?|/\*.*?(?:\*/|\Z)", re.DOTALL)
ESCAPES = {10: "\\n", 13: "\\r", 9: "\\t", 0: "\\0", 92: "\\\\", 34: '\\"'}


class RonReader(Reader):
    """A reader of RON."""

    PUNCTUATION = {**PUNCTUATION, "(": "ParenOpen", ")": "ParenClose"}
    NUMBERS = Reader.NUMBERS + "."
    PARTS, FIELDS, NAME = PAREN, PAREN, "Ident"

    def skipped(self, at, end):
        """White space and comments, in any number. A `/` that begins neither is no token."""
        at = WHITE.match(self.text, at, end).end()
        while self.text.startswith("/", at, end):
            comment = COMMENT.match(self.text, at, end)
            if comment is None:
                self.at = at + 1
                raise self.err_parse("comment")
            at = WHITE.match(self.text, comment.end(), end).end()
        return at

    def cut_word(self, at, end):
        """A word as long as it goes, or a character between apostrophes."""
        if self.text[at] == "'":
            return self.cut_char(at + 1, end)
        word = WORD.match(self.text, at, end)
        if word is None:
            raise self.err_token("tokenizer")
        if word.group() in ("true", "false"):
            return "Bool", word.group() == "true", word.end()
        return "Ident", word.group(), word.end()

    def cut_char(self, at, end):
        """`c'`, or a backslash and `c'`: the character c itself."""
        if self.text.startswith("\\", at, end):
            at += 1
        if at >= end or not self.text.startswith("'", at + 1, end):
            self.at = min(at + 1, end)
            raise self.err_token("char")
        return "Char", self.text[at], at + 2

    def as_bool(self):
        """A boolean, or an integer from 0 up, of which 0 is false and any other true."""
        return self.value != 0 if self.tok == "U64" else super().as_bool()

    def unknown_field(self, name, above):
        """A name that the struct does not have: what comes after it is skipped if the struct allows it."""
        if "allow_unknown" not in above:
            raise self.error(f"Unexpected key {name}")
        self.next_colon()
        self.whole_field()

    def unit(self):
        """The unit is `(` `)`."""
        return values.read_parts(self, ())

    def is_absent(self):
        """The identifier `None` is `None`."""
        return self.tok == "Ident" and self.value == "None"

    def variant(self, variants):
        """Ident with a name, and the content after it."""
        name = self.value
        self.ask("Ident", "Identifier")
        for index, variant in enumerate(variants):
            if variant.name == name:
                return index, () if variant.content.kind == "unit" else values.read(self, variant.content)
        raise self.error(f"Enum not defined {name}")


def indent(level):
    """The spaces of a level."""
    return " " * (4 * level)


def in_lines(open, texts, level, close):
    """Each text in a line of its own, with a comma after it."""
    lines = "".join(f"{indent(level + 1)}{text},\n" for text in texts)
    return f"{open}\n{lines}{indent(level)}{close}"


class RonForm:
    """What is written at a level."""

    UNIT, NONE = "()", "None"
    quoted = staticmethod(lambda text: '"' + text.translate(ESCAPES) + '"')
    name = key = staticmethod(lambda name: name)  # of a variant, of a field
    content = staticmethod(lambda name, content: name + content)  # a variant with content
    # an array, a tuple, the parts of a variant; a linked list, a set; a vector; a map; fields
    parts = staticmethod(lambda texts: "(" + ", ".join(texts) + ")")
    items = staticmethod(lambda texts, level: "[" + ",".join(indent(level + 1) + text for text in texts) + "]")
    lines = staticmethod(lambda texts, level: in_lines("[", texts, level, "]"))
    pairs = staticmethod(lambda texts, level: in_lines("{", texts, level, "}"))
    fields = staticmethod(lambda texts, level: in_lines("(", texts, level, ")"))
