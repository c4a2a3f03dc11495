"""Finds what a name after a dot stands for: a field, a variant, or a member of a trait."""
import html
import re

from targets import Target, kit
from tokens import CLOSE, OPEN, closing

# Fields of values of the kit's own types, and what a name of a clause stands for before and after.
KIT_FIELDS = set("""
    items entries keys value old new now post pre IsAlwaysCallable eq cmp symm trans congr refl hash
    insert empty len output debug_output partial_cmp model
""".split())


def span(kind, text, title=""):
    """A piece of text of a kind."""
    tip = f' title="{html.escape(title)}"' if title else ""
    return f'<span class="{kind}"{tip}>{html.escape(text)}</span>'


class Fields:
    """The part of a walk that knows names after dots."""

    def on_field(self, tokens, at, text):
        name = text[1:]
        self.out.append(".")
        if name[0].isdigit():
            self.out.append(span("n", name))
            self.last = None
            return at + 1
        target = self.field(self.last, name)
        self.write(target, name)
        self.last = target
        return at + 1

    def field(self, base, name):
        """The target of a field of what stands before its dot."""
        found = self.known_field(base, name) if base is not None else None
        if found is not None:
            return found
        if name in ("old", "new", "now"):
            return Target("kit", "", "the value before, after, or behind the reference")
        for one in self.structs:
            found = self.resolver.struct_fields(one).get(name)
            if found is not None:
                return found
        if name in KIT_FIELDS:
            return kit("a field or member of the kit's own types")
        return self.by_name(name)

    def known_field(self, base, name):
        """The same, where what stands before the dot is known."""
        if base.kind == "module" and isinstance(base.inner, str):
            return self.resolver.in_module(base.inner, name)
        if base.kind == "kit":
            return kit(base.title)
        if name in ("old", "new", "now"):
            return Target("kit", "", "the value before, after, or behind the reference", base.of,
                          base.context, base.is_rust)
        if isinstance(base.inner, list):
            file = self.context.file
            found = self.resolver.member_of(file, base.inner, name)
            found = found or self.trait_of(base, name)
            return found or (None if name in self.resolver.members else kit("a trait of the kit"))
        if base.kind == "type" and base.inner is not None:
            if name in self.resolver.names_inside(base.inner):
                return self.resolver.type_target(base.inner, name)
        return self.resolver.types.field(base.of, base.context, base.is_rust, name)

    def by_name(self, name):
        """The target of a field of a record that is not known."""
        is_code = hasattr(self.context, "file")
        return self.resolver.by_name(name, self.crate(), with_members=is_code)

    def crate(self):
        """The crate that the text is of."""
        return self.context.file.crate if hasattr(self.context, "file") else self.context.key[0]

    def fields_written(self, tokens, at):
        """The fields of a record that is written out, if one record alone has all of these names."""
        names, depth, fresh = set(), 0, True
        for kind, text in tokens[at:closing(tokens, at)]:
            if kind == "symbol":
                depth += (text in OPEN) - (text in CLOSE)
                fresh = depth == 1 and text in "{;"
            elif kind == "word" and fresh:
                names.add(text)
                fresh = False
        return self.resolver.record_with(names, self.crate()) if names else {}

    def trait_of(self, base, name):
        """The trait of this name, where it stands after a type to say which of its traits is meant."""
        for path in base.inner:
            target = self.context.rust(path.split("::")) if path.endswith(name) else None
            if target is not None and target.kind == "type" and target.inner.name == name:
                return Target("type", target.href, target.title, inner=[path])
        return None

    def is_field_name(self, tokens, at):
        """Whether a word is the name of a field in a record that is written out."""
        if self.groups[-1].symbol != "record":
            return False
        after = [text for kind, text in tokens[at + 1:at + 3] if kind != "space"]
        before = [text for kind, text in tokens[max(0, at - 3):at] if kind == "symbol"]
        return bool(after) and after[0] == "=" and (not before or before[-1] in "{;")

    def field_of_record(self, name):
        """The field of the record that is written out, where its type is known."""
        expected = self.groups[-1].record
        found = self.resolver.types.field(*expected, name) if expected is not None else None
        found = found or self.groups[-1].fields.get(name)
        self.expected = (found.of, found.context, found.is_rust) if found is not None else None
        return found
