"""What a reader of JSON or RON has: a text, the place in it, the pending token, and the helpers.

The characters that are taken are those of the tokens so far, of all that is skipped before them,
and the one after the last of them, which is `text[at]`: see Place in docs/ERRORS.md.
"""
import re
from typing import NamedTuple

from . import lexemes
from .debug import shown

WHITE = re.compile("[ \t\r\n]*")
GREATEST = 2**64 - 1  # usize::MAX


class Brackets(NamedTuple):
    """Two tokens around others, each with the word for it."""

    open: tuple
    close: tuple


BLOCK = Brackets(("BlockOpen", "["), ("BlockClose", "]"))
CURLY = Brackets(("CurlyOpen", "{"), ("CurlyClose", "}"))
PAREN = Brackets(("ParenOpen", "("), ("ParenClose", ")"))
PUNCTUATION = {":": "Colon", ",": "Comma"} | {word: tok for pair in (BLOCK, CURLY) for tok, word in pair}


class Fault(Exception):
    """An error of a text. Its arguments are the message, and the line and column from 0."""


class Reader:
    """A reader's state. Line and column begin with these, in which `taken` characters are counted."""

    PUNCTUATION = PUNCTUATION
    NUMBERS = "+-0123456789"  # what a number begins with

    def __init__(self, text, line=0, column=0, taken=0):
        self.text, self.at, self.end = text, 0, -1
        self.line, self.column, self.taken = line, column, taken
        self.tok, self.value = "Bof", None
        self.failed = False

    def text_end(self):
        """The text ends before its first NUL."""
        if self.end < self.at:
            found = self.text.find("\0", self.at)
            self.end = len(self.text) if found < 0 else found
        return self.at if self.failed else self.end

    def place(self):
        """The line and the column after the characters that are taken."""
        taken = self.text[self.taken : self.at + 1]
        lines = taken.count("\n")
        column = len(taken) - taken.rfind("\n") - 1 if lines else self.column + len(taken)
        return min(self.line + lines, GREATEST), min(column, GREATEST)

    # ---- errors

    def error(self, message):
        """An error at this place."""
        return Fault(message, *self.place())

    def err_token(self, what):
        """Another token is wanted than the pending one."""
        return self.error(f"Unexpected token {self.shown()} expected {what} ")

    def err_parse(self, what):
        """What is here can be cut into no token."""
        return self.error(f"Cannot parse {what} ")

    def err_range(self, what):
        """A number is out of its range."""
        return self.error(f"Value out of range {what} ")

    def shown(self):
        """The pending token as errors name it: of a string, a decimal and a word the kind alone."""
        if self.tok in ("U64", "I64", "Bool"):
            return f"{self.tok}({str(self.value).lower()})"
        if self.tok == "Char":
            return f"Char({shown(self.value, chr(39))})"
        return self.tok

    # ---- tokens

    def skipped(self, at, end):
        """The place after all that is skipped before a token."""
        return WHITE.match(self.text, at, end).end()

    def cut(self, at, end):
        """The kind and the value of the token at this place, and the place after it. Each format has `cut_word`."""
        char = self.text[at]
        if char in self.PUNCTUATION:
            return self.PUNCTUATION[char], None, at + 1
        if char != '"' and char not in self.NUMBERS:
            return self.cut_word(at, end)
        return self.cut_lexeme("string" if char == '"' else "number", at, end)

    def cut_lexeme(self, what, at, end):
        """The same of a token that is a string or a number."""
        tok, value, self.at = getattr(lexemes, what)(self.text, at, end)
        if tok is None:
            raise self.err_parse(what)
        return tok, value, self.at

    def next_tok(self):
        """Cuts the next token; after an error the reader is at the end of its text."""
        end = self.text_end()
        try:
            self.at = self.skipped(self.at, end)
            tok, value, self.at = self.cut(self.at, end) if self.at < end else ("Eof", None, self.at)
        except Fault:
            self.fail()
            raise
        self.tok, self.value = tok, value

    def next(self):
        """Takes a character; at the end of the text there is none."""
        self.at, self.failed = min(self.at + 1, len(self.text)), False

    def fail(self):
        """The reader is at the end of its text; line and column are unchanged."""
        self.tok, self.value, self.failed = "Eof", None, True

    # ---- helpers

    def ask(self, tok, what):
        """Takes the pending token, which is to be this one."""
        if self.tok != tok:
            raise self.err_token(what)
        self.next_tok()

    def eat_comma(self, brackets):
        """Takes a comma, or leaves the closing bracket."""
        tok, word = brackets.close
        if self.tok != tok:
            self.ask("Comma", f", or {word}")

    def next_colon(self):
        """Takes the pending token, and then a colon."""
        self.next_tok()
        self.ask("Colon", ":")

    def whole_field(self):
        """Takes a skipped field: a token, as many closing as opening brackets, or a word and then parentheses."""
        if self.tok not in ("Str", "U64", "I64", "F64", "Bool", "Null", "Char", "Ident") and self.tok[-4:] != "Open":
            raise self.err_token("field")
        word, depth = self.tok == "Ident", 0
        while True:
            depth += self.tok.endswith("Open") - self.tok.endswith("Close")
            if self.tok == "Eof":
                fault = self.err_parse("field")
                self.fail()
                raise fault
            self.next_tok()
            if depth == 0 and not (word and self.tok == "ParenOpen"):
                return
            word = False

    def u64_range(self, most):
        """The pending integer up to `most`."""
        if self.tok != "U64":
            raise self.err_token("unsigned integer")
        if self.value > most:
            raise self.err_range(f"{self.value}>{most}")
        return self.value

    def i64_range(self, least, most):
        """The pending integer from `least`, which is tested first, to `most`."""
        if self.tok not in ("I64", "U64"):
            raise self.err_token("signed integer")
        if self.value < least:
            raise self.err_range(f"{self.value}<{least}")
        if self.value > most:
            raise self.err_range(f"{self.value}>{most}")
        return self.value

    def as_bool(self):
        """The pending boolean."""
        if self.tok != "Bool":
            raise self.err_token("boolean")
        return self.value

    def as_string(self):
        """The pending text, which is then empty."""
        if self.tok != "Str":
            raise self.err_token("string")
        value, self.value = self.value, ""
        return value

    def end_of_input(self):
        """A whole input: the end is pending, and the text has no NUL."""
        if self.tok != "Eof" or "\0" in self.text:
            raise self.err_parse("end")
