"""What a source declares: types with formats, their fields and variants, and their names."""
import re

TOKEN = re.compile(
    r'//[ ]nanoserde:(?P<attr>[^\n]*)|(?P<skip>//[^\n]*|\s+|/\*.*?\*/)|(?P<text>"(?:[^"\\]|\\.)*")'
    r"|(?P<word>'?\w+|::|->|↦|.)",
    re.S,
)
PATH = re.compile(r"(?:::)?\b(?:nano_\w+|std(?:::[a-z_]\w*)*)::(?=[A-Z])")
# Types whose values may take memory, and the one in which none of them is by default.
IN_MEMORY = re.compile(
    r"\b(?:(Option)|String|Vec|LinkedList|HashMap|HashSet|BTreeMap|BTreeSet|Box)\b"
)


# How a module below says where a path begins.
FROM_BELOW = {"self": "super", "super": "super::super"}
RESTRICTIONS = [["(", word, ")"] for word in ("crate", "self", "super")]


class Differs(Exception):
    """The impls are not those of the definitions."""


def same(what, wanted, got):
    if wanted != got:
        raise Differs(f"{what}: declared {wanted!r}, written {got!r}")


class Cursor:
    """The tokens of a source: words, strings, and the lines with attributes."""

    def __init__(self, source):
        self.tokens = []
        for match in TOKEN.finditer(source):
            if match["attr"] is not None:
                self.tokens.append(("attr", match["attr"].strip()))
            elif match["skip"] is None:
                self.tokens.append(("token", match["text"] or match["word"]))
        self.at = 0

    def peek(self):
        return self.tokens[self.at] if self.at < len(self.tokens) else ("end", "")

    def take(self, wanted=None):
        kind, token = self.peek()
        if wanted is not None and token != wanted:
            raise Differs(f"`{wanted}` expected, and not `{token}`")
        self.at += 1
        return token

    def attributes(self):
        """The attributes here, past other attributes and what says who sees an item."""
        found = {}
        while True:
            kind, token = self.peek()
            if kind == "attr":
                self.at += 1
                for match in re.finditer(r'(\w+)(?:\s*=\s*"((?:[^"\\]|\\.)*)")?', token):
                    word, text = match.groups()
                    if word == "alias":
                        found.setdefault("aliases", []).append(text)
                    else:
                        found[word] = text
            elif token == "#":
                self.at += 1
                self.balanced()
            elif token == "pub":
                self.at += 1
                words = [token for _kind, token in self.tokens[self.at : self.at + 3]]
                if words[:2] == ["(", "in"] or words in RESTRICTIONS:
                    self.balanced()
            else:
                return found

    def balanced(self):
        """Past a bracket, with what is in it."""
        depth = 0
        while True:
            token = self.take()
            depth += (token in "([{<") - (token in ")]}>")
            if depth == 0:
                return

    def type_tokens(self, ends=",)}"):
        """The tokens of a type up to one of these, as a module below says it."""
        depth, tokens = 0, []
        while True:
            token = self.peek()[1]
            if depth == 0 and token in ends:
                return tokens
            depth += (token in "([<") - (token in ")]>")
            if token in FROM_BELOW and tokens[-1:] != ["::"]:
                token = FROM_BELOW[token]
            tokens.append(token)
            self.at += 1

    def bound_text(self, ends):
        """A type and its bounds, up to one of these tokens."""
        return tidy(" ".join(self.type_tokens(ends)))

    def parameters(self):
        """The bounds of the type parameters, if there are any."""
        if self.peek()[1] != "<":
            return []
        self.take()
        bounds = []
        while self.peek()[1] != ">":
            bounds.append(self.bound_text(",>"))
            if self.peek()[1] == ",":
                self.take()
        self.take(">")
        return [bound for bound in bounds if ":" in bound]

    def where(self):
        """The bounds after `where`, if there are any."""
        bounds = []
        if self.peek()[1] == "where":
            self.take()
            while self.peek()[1] not in "{;":
                bounds.append(self.bound_text(",{;"))
                if self.peek()[1] == ",":
                    self.take()
        return bounds


def tidy(text):
    """A type without spaces, a comma before a bracket, and the paths of what is brought in."""
    text = PATH.sub("", re.sub(r"\s+", "", text))
    return re.sub(r",([)\]>])", r"\1", text)


def path_below(path):
    """A path as a module below says it."""
    first, colons, rest = path.partition("::")
    return tidy(FROM_BELOW.get(first, first) + colons + rest)


class Field:
    """A field or a part of the definition: its name, its type, and its attributes."""

    def __init__(self, name, tokens, attributes):
        self.name, self.attributes = name, attributes
        self.type, self.is_word = tidy(" ".join(tokens)), len(tokens) == 1
        self.skipped = "skip" in attributes
        self.aliases = attributes.get("aliases", [])
        self.default = attributes.get("default")

    def default_kind(self):
        """What its default is: that of its type, a text, a truth value, a path or a number."""
        if self.default is None:
            return "type"
        if self.is_word and self.type == "String":
            return "text"
        if self.is_word and self.type == "bool" and self.default in ("true", "false"):
            return "truth"
        return "path" if re.match(r"[A-Za-z_]", self.default) else "number"

    def is_in_row(self):
        """Whether it is read, or is skipped and made as what takes memory or a type stands for."""
        kind = self.default_kind()
        if self.skipped and kind == "type":
            held = IN_MEMORY.search(self.type)
            return held is not None and held[1] is None
        return not self.skipped or kind in ("text", "path")


def fields_of(cursor, closing):
    fields = []
    while cursor.peek()[1] != closing:
        attributes = cursor.attributes()
        name = None
        if closing == "}":
            name = cursor.take()
            cursor.take(":")
        fields.append(Field(name, cursor.type_tokens(), attributes))
        if cursor.peek()[1] == ",":
            cursor.take()
    cursor.take(closing)
    return fields


def content_of(cursor):
    """What a struct or a variant holds: its kind, and its fields."""
    token = cursor.peek()[1]
    if token == "{":
        cursor.take()
        return "Struct", fields_of(cursor, "}")
    if token == "(":
        cursor.take()
        fields = fields_of(cursor, ")")
        return ("Newtype" if len(fields) == 1 else "Tuple"), fields
    return "Unit", []


def definitions(source):
    """The types that have formats: (kind, name, bounds, attributes, content), in their order."""
    cursor, found = Cursor(source), []
    while cursor.peek()[0] != "end":
        attributes = cursor.attributes()
        token = cursor.take()
        if token not in ("struct", "enum"):
            continue
        name = cursor.take()
        bounds = cursor.parameters() + cursor.where()
        if token == "struct":
            content = content_of(cursor)
            bounds += cursor.where()
        else:
            cursor.take("{")
            content = []
            while cursor.peek()[1] != "}":
                of_variant = cursor.attributes()
                content.append((cursor.take(), of_variant, *content_of(cursor)))
                if cursor.peek()[1] == ",":
                    cursor.take()
        if any(re.fullmatch(r"(de_|ser_)?(bin|json|ron)", word) for word in attributes):
            found.append((token, name, bounds, attributes, content))
    return found


# ---- names


def words_of(name, of_variant):
    if of_variant:
        return re.sub(r"(?<!^)(?=[A-Z])", "_", name).lower().split("_")
    return name.split("_")


def renamed(name, case, of_variant):
    """The name in a case of serde's, of a field in snake case or a variant in Pascal's."""
    words = words_of(name, of_variant)
    capital = lambda word: word[:1].upper() + word[1:]
    pascal = name if of_variant else "".join(capital(word) for word in words)
    snake = "_".join(words)
    return {
        "": name,
        "lowercase": name.lower() if of_variant else name,
        "UPPERCASE": name.upper(),
        "PascalCase": pascal,
        "camelCase": pascal[:1].lower() + pascal[1:],
        "snake_case": snake,
        "SCREAMING_SNAKE_CASE": snake.upper(),
        "kebab-case": snake.replace("_", "-"),
        "SCREAMING-KEBAB-CASE": snake.upper().replace("_", "-"),
    }[case]


def name_of(name, attributes, case, of_variant):
    return attributes["rename"] if "rename" in attributes else renamed(name, case, of_variant)
