"""Tokens of TOML. The table Tokens in the section TOML of docs/FORMATS.md."""
import re

from .debug import shown
from .lexemes import integer
from .reader import Reader

SKIPPED = re.compile(r"(?:[ \t\r\n]|#[^\n]*)*")
WORD = re.compile(r"[A-Za-z_][A-Za-z_.-]*")
WORDS = {"true": ("Bool", True), "false": ("Bool", False), "inf": ("Inf", False), "nan": ("Nan", False)}
# A sign, digits and underscores, and then a point with such, or what may stand in a date.
NUMBER = re.compile(r"[+-]?[0-9_]*(?:(\.)[0-9_]*|(-)[0-9:T-]*)?")
PIECE = re.compile(r'[^"\\]+|"+|\\.', re.DOTALL)


class TomlReader(Reader):
    """A reader of TOML: the pending token is the last that was taken."""

    PUNCTUATION = {",": "Comma", "[": "BlockOpen", "]": "BlockClose", "=": "Equals"}

    def skipped(self, at, end):
        """White space and comments, in any number."""
        return SKIPPED.match(self.text, at, end).end()

    def cut_lexeme(self, what, at, end):
        """A string or a number."""
        return self.string(at, end) if what == "string" else self.number(at, end)

    def cut_word(self, at, end):
        """A word as long as it goes."""
        word = WORD.match(self.text, at, end)
        if word is None:
            raise self.err_lexeme("tokenizer", at)
        tok, value = WORDS.get(word.group(), ("Ident", word.group()))
        return tok, value, word.end()

    def err_lexeme(self, what, at):
        """No token, which is found at the character at this place."""
        self.at = at
        return self.error(f"Cannot parse toml {what} ")

    def string(self, at, end):
        """A string: empty, or between quotes, or between three of them."""
        text = self.text
        quotes = 3 if text.startswith('"""', at, end) else 1
        if quotes == 1 and text.startswith('""', at, end):
            return "Str", "", at + 2
        at += quotes
        pieces = []
        while True:
            piece = PIECE.match(text, at, end)
            if piece is None:  # the end of the text, or a backslash before it
                raise self.err_lexeme("string", end)
            at, found = piece.end(), piece.group()
            if found[0] == '"' and quotes == 1:  # the first quote ends it
                return "Str", "".join(pieces), piece.start() + 1
            if found == '"""':
                return "Str", "".join(pieces), at
            pieces.append(found[1] if found[0] == "\\" else found)

    def number(self, at, end):
        """An integer, a decimal, a date, or a signed nan or inf."""
        text = self.text
        sign = text[at] if text[at] in "+-" else ""
        if sign and text[at + 1 : at + 2] in ("n", "i") and at + 1 < end:
            return self.special(at + 1, end, sign == "-")
        number = NUMBER.match(text, at, end)
        point, date = number.groups()
        kept = number.group().lstrip("+").replace("_", "")
        digits = any(char.isdigit() for char in kept)
        if date:
            return "Date", kept, number.end()
        if point and digits:
            return "F64", kept, number.end()
        tok, value = integer(kept) if digits else (None, None)
        if tok is None:
            raise self.err_lexeme("number", number.end())
        return tok, value, number.end()

    def special(self, at, end, minus):
        """`nan` or `inf` after a sign. After `i` without `n` the error says nan."""
        text = self.text
        word, tok = ("nan", "Nan") if text[at] == "n" else ("inf", "Inf")
        for count in (1, 2):
            if not text.startswith(word[count], at + count, end):
                what = "nan" if count == 1 else word
                raise self.err_lexeme(what, min(at + count, end))
        return tok, minus, at + 3

    def shown(self):
        """The token in its debug form."""
        if self.tok in ("Ident", "Str", "F64", "Date"):
            return f"{self.tok}({shown(self.value, chr(34))})"
        if self.tok in ("Nan", "Inf"):
            return f"{self.tok}({str(self.value).lower()})"
        return super().shown()

    def want(self, *toks):
        """What the next token carries, which is to be one of these."""
        self.next_tok()
        if self.tok not in toks:
            raise self.err_unexpected()
        return self.value

    def err_unexpected(self):
        """The token that was taken is none that may stand there."""
        return self.error(f"Unexpected token {self.shown()} ")
