"""JSON: its tokens, and how it reads and writes what RON does otherwise. JSON tokens and types in docs/FORMATS.md."""
import re

from . import values
from .reader import BLOCK, CURLY, Reader

WORD = re.compile("[A-Za-z_]+")
DOCUMENT = ("Null", "Bool", "U64", "I64", "F64", "Str", "BlockOpen", "CurlyOpen")  # what begins each variant
WORDS = {"true": ("Bool", True), "false": ("Bool", False), "null": ("Null", None)}
ESCAPES = {8: "\\b", 12: "\\f", 10: "\\n", 13: "\\r", 9: "\\t", 92: "\\\\", 34: '\\"'}
ESCAPES = {**{code: f"\\u{code:04x}" for code in (*range(32), 127)}, **ESCAPES}


class JsonReader(Reader):
    """A reader of JSON."""

    PARTS, FIELDS, NAME = BLOCK, CURLY, "Str"

    def cut_word(self, at, end):
        """A word as long as it goes, which is one of three. Any other character is no token."""
        word = WORD.match(self.text, at, end)
        if word is None:
            raise self.err_token("tokenizer")
        self.at = word.end()
        if word.group() not in WORDS:
            self.tok = "BareIdent"
            raise self.err_token(f"Got ##{word.group()}## needed true, false, null")
        return (*WORDS[word.group()], self.at)

    def unknown_field(self, name, above):
        """A name that the struct does not have: what comes after it is skipped, unless the struct denies it."""
        self.next_colon()
        if "deny_unknown" in above:
            raise self.error(f"Unexpected key {name}")
        self.whole_field()

    def unit(self):
        """The unit is Null."""
        self.ask("Null", "null")
        return ()

    def is_absent(self):
        """Null is `None`."""
        return self.tok == "Null"

    def document(self, variants):
        """A `Json`: the pending token says its variant."""
        if self.tok not in DOCUMENT:
            raise self.err_token("value")
        index = DOCUMENT.index(self.tok)
        return index, (values.read(self, variants[index].content.parts[0]),)

    def variant(self, variants):
        """Str with a name; or `{` Str with a name, Colon, the content, `}` with no comma before it."""
        has_content = self.tok == "CurlyOpen"
        if has_content:
            self.next_tok()
        elif self.tok != "Str":
            raise self.err_token("String or {")
        name = self.value
        self.ask("Str", "String")
        if has_content:
            self.ask("Colon", ":")
        for index, variant in enumerate(variants):
            if variant.name == name and (variant.content.kind != "unit") == has_content:
                content = values.read(self, variant.content) if has_content else ()
                if has_content:
                    self.ask(*CURLY.close)
                return index, content
        raise self.error(f"Enum not defined {name}")


class JsonForm:
    """What is written. It is the same at every level."""

    UNIT = NONE = "null"
    quoted = staticmethod(lambda text: '"' + text.translate(ESCAPES) + '"')
    name = key = staticmethod(lambda name: f'"{name}"')  # of a variant, of a field
    content = staticmethod(lambda name, content: f'{{"{name}":{content}}}')  # a variant with content
    parts = items = lines = staticmethod(lambda texts, level=0: "[" + ",".join(texts) + "]")
    pairs = fields = staticmethod(lambda texts, level: "{" + ",".join(texts) + "}")
