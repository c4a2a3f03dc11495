"""What derive wrote: names, rows of fields and variants, defaults and impls."""
import re

from .definitions import Differs, same, tidy


# A text in code, and what is cited of a type of names: the type, and the number of a name.
TEXT = r'"((?:[^"\\]|\\.)*)"'
LABEL = r"\w+(?:<\d+>)?"


def codes_of(name):
    """The bytes of a name in a ghost term: as a text, or one by one if it is beyond ASCII."""
    listed = "".join(f"{byte} ∷ " for byte in name.encode())
    return f'codes "{name}"' if name.isascii() else f"({listed}[])"


def label_of(names):
    """The label of names by their numbers, of which the last one has every later number, too."""
    codes = [codes_of(name) for name in names]
    cases = [f"if I == {place} then {code} else" for place, code in enumerate(codes[:-1])]
    return " ".join(cases + codes[-1:])


def code_of(names):
    """The code of names by their numbers, or of the one name."""
    if len(names) == 1:
        return f'"{names[0]}"'
    arms = [f'{place} => "{name}", ' for place, name in enumerate(names[:-1])]
    return f'nano_schema::name_of!(I, {"".join(arms)}_ => "{names[-1]}")'


def in_line(text):
    """A text without its line breaks."""
    return re.sub(r"\s+", " ", text).strip()


class Impls:
    """The text that derive wrote."""

    def __init__(self, text):
        self.text = text
        found = re.findall(r"^type (\w+)(<[^=]*>)? = (.*?);$", text, re.M | re.S)
        self.aliases = {name: tidy(type) for name, _parameters, type in found}
        self.parameters = {name: tidy(parameters) for name, parameters, _type in found}

    def names(self, of):
        """The names of a type of names, as its code and as its label have them."""
        head = rf"Label for {of}(?:<I>)? \{{\n    ghost label = \{{(.*?)\}};\n\n"
        body = r"    fn text\(\) -> &'static str \{\n(.*?)\n    \}\n\}\n"
        match = re.search(head + body, self.text, re.S)
        if not match:
            raise Differs(f"there is no type `{of}` of names")
        label, code = match.groups()
        names = re.findall(TEXT, code)
        same(f"code of `{of}`", in_line(code_of(names)), in_line(code))
        same(f"label of `{of}`", in_line(label_of(names)), in_line(label))
        return names

    def name(self, label):
        """The name that is cited as a type of names, with a number if that has several."""
        of, number = re.fullmatch(r"(\w+)(?:<(\d+)>)?", label).groups()
        names = self.names(of)
        if (number is None) != (len(names) == 1) or int(number or 0) >= len(names):
            raise Differs(f"`{label}` is none of {len(names)} names")
        return names[int(number or 0)]

    def block(self, head):
        match = re.search(rf"^impl[^\n]* {head}[^{{]*\{{\n(.*?)^\}}$", self.text, re.M | re.S)
        if not match:
            raise Differs(f"there is no impl `{head}`")
        return match[1]

    def traits(self, name):
        return set(
            re.findall(
                rf"^impl(?:<[^{{]*?>)? (?:\w+::)*(\w+)(?:<'a>)? for {name}\b", self.text, re.M
            )
        )

    def bounds(self, name):
        """Each trait of a type, and the bounds after `where` in its impl."""
        heads = rf"^impl(?:<[^{{]*?>)? (?:\w+::)*(\w+)(?:<'a>)? for {name}\b([^{{]*)\{{$"
        for trait, rest in re.findall(heads, self.text, re.M):
            where = rest.partition("\nwhere\n")[2]
            yield trait, [tidy(line) for line in where.split(",\n") if line.strip()]

    def expanded(self, type):
        """A row of fields or variants with its aliases written out."""
        while True:
            found = re.finditer(r"\b(\w+?(?:Fields|Parts|Values|Variants\d*))\b(<[\w,]*>)?", type)
            match = next((match for match in found if match[1] in self.aliases), None)
            if not match:
                return type
            same(f"parameters of `{match[1]}`", self.parameters[match[1]], match[2] or "")
            type = type[: match.start()] + self.aliases[match[1]] + type[match.end() :]

    def default(self, type, name):
        """The value that a type stands for, as its ghost and as its code have it."""
        match = re.search(
            rf"DefaultOf<([^{{]*?)> for {name} \{{\n    ghost missing = \{{(.*?)\}};\n"
            r".*?\{\n(.*?)\n    \}",
            self.text,
            re.S,
        )
        if not match:
            return None
        same(f"type of `{name}`", type, tidy(match[1]))
        return value(match[2]), value(match[3])


def value(text):
    """A number or a text of code or of a ghost."""
    strings = re.findall(TEXT, text)
    if strings:
        return strings[0]
    digits = re.findall(r"\d+", re.sub(r"\bi\d+|\bu\d+", "", text))
    minus = "neg_" in text or re.search(r"-\s*\d", text) is not None
    return ("-" if minus else "") + (digits[0] if digits else text.strip())


def parts_of(row):
    """The items of a tuple of tuples, in their order."""
    row = row.strip()
    if not row.startswith("("):
        return [row]
    items, depth, start = [], 0, 1
    for place, letter in enumerate(row):
        depth += (letter in "([<{") - (letter in ")]>}" and row[place - 1 : place] != "-")
        if depth == 1 and letter == "," or depth == 0:
            if row[start:place].strip():
                items.append(row[start:place])
            start = place + 1
        if depth == 0:
            break
    return [part for item in items for part in parts_of(item)]
