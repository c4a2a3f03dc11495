"""The items of specs/ and proofs/: which of them are laws, by their types, and what each names.

An item is a law if its type ends in what states something: an equation, an order, a contradiction,
or a relation or a record of laws that is applied to values. A record that has values and laws, as a
codec, is no statement; what is of such a type is an instance, a value that holds laws.
"""
import pathlib
import re

WORD = re.compile(r"(?<![\w'])[A-Za-z_][\w']*(?:-[\w']+)*")
# A word that names an item, and no field of what stands before its dot.
NAME = re.compile(r"(?<![\w'.])[A-Za-z_][\w']*(?:-[\w']+)*")
USE = re.compile(r"(?:pub )?use Rattle\.(\w+)\.(specs|proofs)\.(\w+)\.\{([^}]*)\}")
HEAD = re.compile(
    r"(?:pub |abbrev |unfoldable )*(record |data |module |mutual|ruleset )?([^\s:({]*)")
# What makes a type a statement wherever it stands.
CLAIM = re.compile(r"[≡≢≤≥<>↔⊥¬]")
# Modules of specs/ that hold codecs, what impls need, and laws, beside no definitions.
LAW_MODULE = re.compile(r"(Laws|Codecs|Impls)$|.Codec$")


def split_outside(text, mark):
    """The parts of a text between the marks that stand outside of brackets."""
    parts, depth, part = [], 0, ""
    for character in text:
        depth += (character in "([{") - (character in ")]}")
        if character == mark and depth == 0:
            parts.append(part)
            part = ""
        else:
            part += character
    return parts + [part]


def binders(text):
    """What a telescope binds: the type of each name, of explicit and implicit parameters."""
    found = {}
    for part in re.findall(r"[({]([^(){}]*(?:[({][^(){}]*[)}][^(){}]*)*)[)}]", text):
        names, colon, kind = part.partition(":")
        if colon:
            found.update((name, kind.strip()) for name in names.split())
    return found


class Item:
    """A definition or a law: its name, its lines, its module's parameters, and its file."""

    def __init__(self, file, name, kind, lines, above):
        self.file, self.name, self.kind, self.lines = file, name, kind, lines
        self.text = "\n".join(re.sub(r"--.*", "", line) for line in lines)
        self.fields, self.above = [], above
        if kind == "record":
            head, *fields = re.split(r"\n(?=\s*pub [\w'-]+ :)", self.text)
            self.signature = head.split("where")[0]
            for field in fields:
                name, _, of = field.strip().removeprefix("pub ").partition(" :")
                self.fields.append((name.strip(), of, field))
            self.head = head
        elif kind == "data":
            self.signature = self.text.split("where")[0]
        else:
            at = re.search(r"\n\s*" + re.escape(self.name) + r"(?![\w'-])[^\n:]*(=|\n)", self.text)
            self.signature = self.text[:at.start()] if at else self.text
        self.body = self.text[len(self.signature):]
        self.type = self.signature.partition(":")[2] if kind == "def" else ""

    def exports(self):
        """The names that the item brings: its own, and its constructors."""
        names = [self.name]
        if self.kind == "data":
            names += [m.group(1) for m in re.finditer(r"(?m)^\s+(\S+) :", self.body)]
        return names


def items_of(path):
    """The items of a file, each with the comment above it and what its modules bind."""
    found, comment, name, modules, open_head = [], [], None, [], False
    for line in path.read_text().splitlines():
        text = line.strip()
        head = HEAD.match(text)
        indent = len(line) - len(line.lstrip())
        if open_head:
            modules[-1][1] += " " + text
            open_head = not text.endswith("where")
            continue
        if text and not text.startswith("--"):
            while modules and indent <= modules[-1][0]:
                modules.pop()
        if not text or text.startswith(("use ", "pub use ", "pub mod ")):
            comment, name = [], None
        elif head.group(1) in ("module ", "mutual"):
            modules.append([indent, text])
            open_head = head.group(1) == "module " and not text.endswith("where")
            comment, name = [], None
        elif text.startswith("--"):
            comment.append(line)
        elif name and (indent > level or head.group(2) == name and not text.startswith(name + " :")
                       or text[0] in ")}|" or text.startswith("unfolding ")):
            found[-1][2].append(line)
        else:
            kind, name, level = (head.group(1) or "def").strip(), head.group(2), indent
            found.append((name, kind, comment + [line], " ".join(m[1] for m in modules)))
            comment = []
    return [Item(path, *item) for item in found]


def imported(text):
    """Each name that the text imports, with its crate, folder, module and own name."""
    names = {}
    for use in USE.finditer(text):
        for part in filter(None, (part.strip() for part in use.group(4).split(","))):
            own, _, other = part.partition(" as ")
            names[other or own] = (use.group(1), use.group(2), use.group(3), own)
    return names


def module_of(path):
    """The crate, the folder and the name of a module."""
    return path.parts[1], path.parts[2], path.stem


class Specs:
    """All definitions and laws of the repository, by crate, module and name."""

    def __init__(self):
        self.items, self.uses, self.aliases, self.passed = {}, {}, {}, {}
        for path in sorted(pathlib.Path("crates").glob("*/[sp][pr]*s/*.antt")):
            key, text = module_of(path), path.read_text()
            self.uses[key] = imported(text)
            self.aliases[key] = {m.group(4): m.group(1, 2, 3) for m in re.finditer(
                r"(?m)^(?:pub )?use Rattle\.(\w+)\.(specs|proofs)\.(\w+) as (\w+)$", text)}
            self.items[key] = {n: item for item in items_of(path) for n in item.exports()}
            if path.stem == "Lib":
                for m in re.finditer(
                        r"(?m)^pub use Rattle\.(\w+)\.(specs|proofs)\.(\w+)(?: as (\w+))?$", text):
                    self.passed[(*key[:2], m.group(4) or m.group(3))] = m.group(1, 2, 3)
        self.known = {}
        fields = [(item, name, of) for item in self.all() for name, of, _ in item.fields]
        self.field_types = {}
        for _, name, of in fields:
            self.field_types.setdefault(name, []).append(of)
        laws = [(item, name) for item, name, of in fields if self.is_law_type(item, of)]
        self.law_fields = {name for item, name in laws if not self.is_statement(item)}
        self.law_fields -= {name for item, name, _ in fields if (item, name) not in laws}

    def all(self):
        """Each item once."""
        return list(dict.fromkeys(i for module in self.items.values() for i in module.values()))

    def find(self, *cited):
        """The item of a name, through modules and names that are passed on."""
        for _ in range(8):
            *key, name = cited
            key = tuple(key)
            while key in self.passed:
                key = self.passed[key]
            if name in self.items.get(key, {}):
                return self.items[key][name]
            if name not in self.uses.get(key, {}):
                return None
            cited = self.uses[key][name]
        return None

    def named(self, item, word):
        """The item that a word of an item stands for, or none."""
        key = module_of(item.file)
        if word in self.items[key]:
            return self.items[key][word]
        return self.find(*self.uses[key][word]) if word in self.uses[key] else None

    def is_law_type(self, item, text, bound=None):
        """Whether a type that stands in an item is that of a law: its end states something."""
        bound = bound if bound is not None else {**binders(item.above), **binders(item.signature)}
        end = split_outside(text, "→")[-1].strip()
        while end.startswith("(") and end.endswith(")") and len(split_outside(end, ")")) == 1:
            end = end[1:-1].strip()
        parts = [one for part in split_outside(end, "×") for one in split_outside(part, "⊎")]
        if len(parts) > 1:
            return any(self.is_law_type(item, part, bound) for part in parts)
        if re.search(r"^\(\S+( \S+)* : ", end) and end.endswith(")"):
            return False
        if CLAIM.search(end):
            return True
        head = (re.match(r"[\w'.-]+", end) or [""])[0]
        if head in ("Type", ""):
            return False
        if "." in head:
            own = head.rsplit(".", 1)[1]
            return any(self.is_relation(of) for of in self.field_types.get(own, []))
        if head in bound:
            return self.is_relation(bound[head])
        field = [of for name, of, _ in item.fields if name == head]
        if field:
            return self.is_relation(field[0])
        found = self.named(item, head)
        given = {**bound, **binders(text)}
        return self.is_statement(found) if found is not None else any(
            not self.is_of_values(item, given[word]) for word in WORD.findall(end) if word in given)

    def ends_in_type(self, text):
        """Whether a type is that of types, or of what makes them."""
        return split_outside(text, "→")[-1].strip().startswith("Type")

    def is_relation(self, text):
        """Whether a type is that of a relation: of what makes a type of values."""
        *given, end = [part.strip() for part in split_outside(text, "→")]
        return end.startswith("Type") and any(not part.startswith("Type") for part in given)

    def is_statement(self, item):
        """Whether the item is what says something of values: a relation, or a record of laws."""
        if item not in self.known:
            self.known[item] = False
            self.known[item] = self.states(item)
        return self.known[item]

    def states(self, item):
        """The same, found anew. What says something is given values, and holds or is a law."""
        given = {**binders(item.above), **binders(item.signature)}
        plain = [of for of in given.values() if not self.is_of_values(item, of)]
        if item.kind == "data":
            held = [part for m in re.finditer(r"(?m)^\s+\S+ :((?:.*\n?)(?:\s+→.*\n?)*)", item.body)
                    for part in split_outside(m.group(1), "→")[:-1]]
            return bool(plain) and any(self.is_law_type(item, part) for part in held)
        if item.kind == "record":
            laws = [self.is_law_type(item, of) for _, of, _ in item.fields]
            return all(laws) or bool(plain) and any(laws)
        if not self.ends_in_type(item.type):
            return False
        bodies = re.split(r"(?m)^\s*" + re.escape(item.name) + r"(?![\w'-])[^=\n]*=", item.body)[1:]
        told = [body for body in bodies if body.strip() not in ("⊥", "Unit {0}")]
        return any(self.is_law_type(item, body, {**given, **binders(body)})
                   for body in told or bodies)

    def is_of_values(self, item, text):
        """Whether a parameter is a type, a function, or a record of values and laws."""
        if self.ends_in_type(text) or len(split_outside(text, "→")) > 1:
            return True
        found = self.named(item, (re.match(r"[\w'-]+", text) or [""])[0])
        return found is not None and self.is_instance_type(found)

    def is_instance_type(self, item):
        """Whether the item is a record of values and laws, or a name for one."""
        if item.kind == "record":
            return not self.is_statement(item) and any(
                self.is_law_type(item, of) for _, of, _ in item.fields)
        if item.kind == "def" and self.ends_in_type(item.type):
            word = re.search(r"=\s*([\w'-]+)", item.body)
            found = self.named(item, word.group(1)) if word else None
            return found not in (None, item) and self.is_instance_type(found)
        return False

    def is_law(self, item):
        """Whether the item is proved."""
        return item.kind == "def" and self.is_law_type(item, item.type)

    def is_instance(self, item):
        """Whether the item is a value that holds laws, as a codec."""
        head = (re.match(r"[\w'-]+", split_outside(item.type, "→")[-1].strip()) or [""])[0]
        found = self.named(item, head) if item.kind == "def" else None
        return found is not None and self.is_instance_type(found)

    def without_fields(self, text, fields):
        """A text without the fields of its records. They come into the list, but for the laws."""
        at = text.find("record {")
        if at < 0:
            return text
        depth, end = 0, at + 7
        for end in range(at + 7, len(text)):
            depth += (text[end] == "{") - (text[end] == "}")
            if depth == 0:
                break
        for field in split_outside(text[at + 8:end], ";"):
            name, equals, value = field.partition("=")
            if equals and name.strip() not in self.law_fields:
                fields.append((name.strip(), self.without_fields(value, fields)))
        return text[:at] + self.without_fields(text[end + 1:], fields)

    def without_law_parameters(self, item):
        """The signature of an item, without what it asks to be proved."""
        *given, end = split_outside(item.type, "→")
        bound = {**binders(item.above), **binders(item.signature)}
        kept = []
        for part in given:
            groups = re.sub(r"[({][^:(){}]*:((?:[^(){}]|[({][^(){}]*[)}])*)[)}]", lambda m: ""
                            if self.is_law_type(item, m.group(1), bound) else m.group(0), part)
            if not self.is_law_type(item, groups, bound):
                kept.append(groups)
        return " ".join(kept + [end])

    def said(self, item):
        """What is followed of an item, and what of its records where their fields are read."""
        fields = []
        if item.kind == "record" and not self.is_statement(item):
            values = [field for _, of, field in item.fields if not self.is_law_type(item, of)]
            return "\n".join([item.head] + values), fields
        if item.kind == "def":
            body = self.without_fields(item.body, fields)
            return self.without_law_parameters(item) + body, fields
        return item.text, fields

    def items_in(self, item, text):
        """The items that a text of an item names."""
        key = module_of(item.file)
        found = [self.named(item, word) for word in set(NAME.findall(text))]
        found += [self.find(*self.aliases[key][alias], name)
                  for alias, name in re.findall(r"\b(\w+)\.(\w+)", text)
                  if alias in self.aliases[key]]
        return [one for one in found if one is not None and one is not item]
