"""JSON and RON of a type, drawn at random: a spelling of a value, with gaps between its tokens."""
from model.type_tree import opened

GAPS = ("", "", "", "", "", " ", "\n", "\t", "\r\n", "  ")
COMMENTS = ("/**/", "// x\n", "/*x*/", "/* a\n *//**/", "/*/ */", "//\n", "/***/")


class Spelling:
    """What JSON and RON have in common."""

    def __init__(self, draw):
        self.draw = draw

    def gap(self):
        return self.draw.pick(GAPS)

    def value(self, kind):
        """A spelling of a value of this type."""
        return self.gap() + getattr(self, "of_" + kind.kind)(kind)

    def of_int(self, kind):
        return self.draw.numeral(self.draw.integer(kind.low, kind.high))

    def of_bool(self, _):
        return self.draw.pick(("true", "false"))

    def of_String(self, _):
        return self.draw.quoted(self.draw.text())

    def of_option(self, kind):
        is_none = self.draw.is_deepest() or self.draw.chance(0.3)
        return self.none if is_none else self.value(kind.parts[0])

    def of_nested(self, kind):
        return self.draw.nested(lambda: self.value(opened(kind)))

    def of_list(self, kind):
        return self.between("[", [self.value(kind.parts[0]) for _ in range(self.draw.few())], "]")

    of_linked = of_set = of_list

    def of_map(self, kind):
        key, value = kind.parts
        pairs = [f"{self.value(key)}{self.gap()}:{self.value(value)}" for _ in range(self.draw.few())]
        if pairs and self.draw.chance(0.2):
            pairs.append(f"{pairs[0].rpartition(':')[0] or '0'}:{self.value(value)}")
        return self.between("{", pairs, "}")

    of_entries = of_map

    def of_tuple(self, kind):
        parts = [self.value(part) for part in kind.parts]
        if self.draw.chance(0.03):
            parts = parts[1:] if self.draw.chance(0.5) else parts + parts[:1]
        return self.between(self.tuple[0], parts, self.tuple[1])

    of_array = of_tuple

    def between(self, opening, items, closing):
        """A list of items that are spelled already."""
        commas = [item + self.gap() + "," for item in items[:-1]] + items[-1:]
        end = "," if items and self.draw.chance(0.15) else ""
        return opening + "".join(commas) + self.gap() + end + self.gap() + closing

    def fields_of(self, kind):
        """Fields in any order, some twice; one that can be missing may be."""
        spelled = []
        for field in kind.fields:
            names = [field.name, *field.aliases]
            if not self.draw.chance(0.02 if field.kind == "required" else 0.35):
                spelled.append(self.field(self.draw.pick(names), self.value(field.type)))
            if self.draw.chance(0.08):
                spelled.append(self.field(self.draw.pick(names), self.value(field.type)))
        if self.draw.chance(0.5 if "allow_unknown" in kind.above else self.other_fields):
            spelled.append(self.other_field())
        if self.draw.chance(0.4):
            self.draw.rng.shuffle(spelled)
        return spelled

    def field(self, name, value):
        return f"{self.gap()}{self.name_of(name)}{self.gap()}:{value}"

    def other_field(self):
        return self.field(self.draw.pick(self.others), self.gap() + self.skipped(3))

    def skipped(self, depth):
        """A field that is skipped: a token, or brackets of any kind with any tokens between."""
        draw = self.draw
        if depth == 0 or draw.chance(0.5):
            numbers = "1", "-1", "0.5", "1e5", draw.float()
            return draw.pick((*self.words, *numbers, "true", draw.quoted(draw.text())))
        inner = [self.gap() + (self.skipped(depth - 1) if draw.chance(0.6) else draw.pick(",:"))
                 for _ in range(draw.below(4))]
        return draw.pick(self.opening) + ",".join(inner) + self.gap() + draw.pick(self.closing)


class Json(Spelling):
    """JSON."""

    none, tuple, other_fields = "null", "[]", 0.25
    others, words, opening, closing = ("q", "", "valu", "values", "none"), ("null",), "[{", "]}"

    def of_unit(self, _):
        return "null"

    def name_of(self, name):
        return f'"{name}"' if self.draw.chance(0.95) else self.draw.quoted(name)

    def of_struct(self, kind):
        return self.between("{", self.fields_of(kind), "}")

    def of_enum(self, kind):
        name, content = kind.variants[self.draw.variant(kind.variants)]
        name = self.name_of(name if self.draw.chance(0.96) else self.draw.text())
        if content.kind == "unit":
            return name
        return f"{{{self.gap()}{name}{self.gap()}:{self.value(content)}{self.gap()}}}"

    def of_document(self, kind):
        _, content = kind.variants[self.draw.variant(kind.variants)]
        return self.value(content.parts[0])

    def of_decimal(self, _):
        return self.draw.decimal()


class Ron(Spelling):
    """RON."""

    none, tuple, other_fields = "None", "()", 0.03
    others, words = ("q", "valu", "values", "None"), ("None", "Word", "'c'", "'\\''", "// x\nA")
    opening, closing = ("[", "{", "(", "Some(", "W (", "A["), "]})"

    def gap(self):
        if self.draw.random() < 0.04:
            return self.draw.pick(COMMENTS)
        return self.draw.pick(GAPS)

    def of_bool(self, _):
        return self.draw.pick(("true", "false", "true", "false", "0", "1", "2", "18446744073709551615"))

    def of_unit(self, _):
        return f"({self.gap()})"

    def name_of(self, name):
        return name

    def of_struct(self, kind):
        return self.between("(", self.fields_of(kind), ")")

    def of_enum(self, kind):
        name, content = kind.variants[self.draw.variant(kind.variants)]
        name = name if self.draw.chance(0.96) else self.draw.pick(("D", "AA", "true", "None", "b"))
        return name if content.kind == "unit" else name + self.value(content)
