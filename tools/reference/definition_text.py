"""Writes a definition as HTML: its comment as prose, and its code with each word linked."""
import html
import re
import textwrap

from definitions import binders, split_outside
from targets import local
from tokens import CLOSE, OPEN, closing, tokens_of
from walk import Walk, span


def parts_of(item):
    """The comment above an item, as prose, and its code."""
    lines = list(item.lines)
    comment = []
    while lines and lines[0].strip().startswith("--"):
        comment.append(lines.pop(0).strip()[2:].strip())
    return " ".join(comment), textwrap.dedent("\n".join(lines))


def bound_above(resolver, item):
    """What the modules around an item bind."""
    context = resolver.context_of(item)
    return {name: local(of, context) for name, of in binders(item.above).items()}


def parameter_types(of):
    """The type of each explicit parameter that a type has, in order."""
    found = []
    for part in split_outside(of, "→")[:-1]:
        part = part.strip()
        groups = re.findall(r"([({])([^(){}:]*):([^(){}]*(?:[({][^(){}]*[)}][^(){}]*)*)[)}]", part)
        if groups and part[0] in "({":
            found += [of.strip() for sign, names, of in groups if sign == "("
                      for _ in names.split()]
        else:
            found.append(part)
    return found


def starts(tokens, item):
    """Where the name of an item stands at the beginning of a line of its own level, or after the
    words before its type."""
    found, fresh = [], True
    for at, (kind, text) in enumerate(tokens):
        if kind == "space":
            fresh = fresh or text.endswith("\n")
        elif kind == "word" and fresh and text == item.name:
            found.append(at)
            fresh = False
        elif text not in ("pub", "abbrev", "unfoldable", "record", "data", "ruleset"):
            fresh = False
    return found


def inner_anchors(tokens, item, laws):
    """Where the fields of a record and the constructors of a type stand, with their kinds."""
    found = {}
    for at, (kind, text) in enumerate(tokens):
        if kind == "word" and [one for _, one in tokens[at + 1:at + 3]] == [" ", ":"]:
            before = "".join(one for _, one in tokens[max(0, at - 3):at])
            if item.kind == "record" and before.endswith("pub ") \
                    or item.kind == "data" and re.search(r"\n\s*$", before):
                begin = at - 2 if item.kind == "record" else at
                found[begin] = (f"{item.name}.{text}", "part proved" if text in laws else "part")
    return found


class DefinitionText:
    """One definition on its way to HTML."""

    def __init__(self, resolver, item, unknown):
        self.resolver, self.item, self.unknown = resolver, item, unknown
        self.context = resolver.context_of(item)
        self.prose, self.code = parts_of(item)
        self.tokens, self.walks = tokens_of(self.code), []

    def walk(self):
        """A walk that knows what the modules around the item bind."""
        walk = Walk(self.resolver, self.context, bound_above(self.resolver, self.item),
                    unknown=self.unknown)
        for name, of, _ in self.item.fields:
            walk.scopes[0][name] = self.resolver.field_target(self.item, name, of)
        self.walks.append(walk)
        return walk

    def names(self):
        """The definitions that the code names. What is bound where it stands names none."""
        self.html()
        return {item for walk in self.walks for item in walk.items}

    def laws(self):
        """The fields of a record of values and laws that are laws."""
        specs = self.resolver.specs
        if self.item.kind != "record" or specs.is_statement(self.item):
            return set()
        return {name for name, of, _ in self.item.fields if specs.is_law_type(self.item, of)}

    def html(self, statement_only=False):
        """The code; of a law its statement alone."""
        if not self.tokens:
            return ""
        begin = starts(self.tokens, self.item)
        ends = [*begin[1:], len(self.tokens)] if self.item.kind == "def" else [len(self.tokens)]
        walk = self.walk()
        tokens = self.tokens[:ends[0]]
        anchors = inner_anchors(tokens, self.item, self.laws())
        first = begin[0] if begin else 0
        out = [walk.run(tokens[:first]), span("h", self.item.name) if begin else ""]
        after = first + 1 if begin else 0
        out.append(walk.run(tokens[after:], {at - after: name for at, name in anchors.items()}))
        if not statement_only:
            for at, end in zip(ends, ends[1:]):
                out.append(self.equation(self.tokens[at:end]))
        return "".join(out).rstrip()

    def equation(self, tokens):
        """One equation. Its left side binds what is no constructor, typed by the parameters."""
        walk, depth, end = self.walk(), 0, len(tokens)
        for at, (kind, text) in enumerate(tokens):
            if kind == "symbol":
                depth += (text in OPEN) - (text in CLOSE)
                if text == "=" and depth == 0:
                    end = at
                    break
        walk.binding(tokens[:end], 1, ())
        self.give_types(walk, tokens[1:end], parameter_types(self.item.type), self.context)
        result = split_outside(self.item.type, "→")[-1]
        walk.expected = (result, self.context, False)
        walk.run(tokens[end:])
        return span("h", self.item.name) + "".join(walk.out)


    def give_types(self, walk, tokens, types, context):
        """Gives each name of a left side its type, and those inside of a constructor too."""
        place, at = 0, 0
        while at < len(tokens):
            kind, text = tokens[at]
            end = closing(tokens, at) if text in ("(", "{") else at
            if place < len(types):
                bound = walk.scopes[-1].get(text) if kind == "word" else None
                if bound is not None and bound.kind == "local":
                    walk.bind([text], types[place], context)
                if text == "(":
                    self.give_inner_types(walk, tokens[at + 1:end], types[place], context)
            place += kind == "word" or text == "("
            at = end + 1

    def give_inner_types(self, walk, tokens, of, context):
        """The same inside of a constructor with its values."""
        words = [text for kind, text in tokens if kind == "word"]
        signs = [text for kind, text in tokens if kind == "symbol"]
        parts = [text for kind, text in tokens if kind != "space"]
        held = re.match(r"\s*\(?\s*(?:Option|List)\s+(.*?)\)?\s*$", of, re.S)
        if "∷" in parts or words[:1] == ["Some"]:
            name = parts[0] if parts[1] == "∷" else parts[1] if len(parts) == 2 else ""
            if held and name in words:
                walk.bind([name], held.group(1), context)
            return
        target = self.context.find(words[0]) if words else None
        item = getattr(target, "inner", None)
        if item is not None and getattr(item, "kind", "") == "data" and "λ" not in signs:
            line = re.search(rf"(?m)^\s+{re.escape(words[0])} :((?:.*\n?)(?:\s+→.*\n?)*)", item.body)
            if line:
                inner = self.resolver.context_of(item)
                rest = next(at for at, one in enumerate(tokens) if one[0] == "word") + 1
                self.give_types(walk, tokens[rest:], parameter_types(line.group(1)), inner)


def above_html(resolver, item):
    """The parameters that the modules around an item bind."""
    if not item.above or "module" not in item.above:
        return ""
    text = re.sub(r"\bmutual\b|\bmodule _?|\bwhere\b", "", item.above)
    walk = Walk(resolver, resolver.context_of(item), {})
    written = walk.run(tokens_of(" ".join(text.split())))
    return f'<p class="above">For <code>{written}</code></p>' if text.strip() else ""


def escaped(text):
    """Plain text."""
    return html.escape(text, quote=False)
