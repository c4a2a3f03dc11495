"""Writes a text of clauses or definitions as HTML, with each word linked to what it stands for."""
import html
import re

from definitions import split_outside
from fields import KIT_FIELDS, Fields, span
from resolver import LANGUAGE, PRELUDE
from targets import Target, kit, local
from tokens import CLOSE, OPEN, closing, joined, tokens_of

CLASSES = {"definition": "d", "law": "l", "codec": "q", "field": "f", "member": "m", "type": "r",
           "call": "r", "module": "r", "kit": "t", "local": "v"}
# The value that a function of one of these words is applied to, where it stands before the function.
OK_WORD = re.compile(r"\b(?:IfOk|OnOk|IfSome|IfOkOrNone|MatchResult|MatchOption)\s+result\s*\(\s*$")
ERR_WORD = re.compile(r"\bIfErr\s+result\s*\(\s*$|\bMatchResult\s+result\s*\(.*\)\s*\(\s*$", re.S)


def linked(target, text):
    """A word with its link, or with where it comes from."""
    if not target.href:
        return span(CLASSES.get(target.kind, "v"), text, target.title)
    return (f'<a class="{CLASSES[target.kind]}" href="{html.escape(target.href)}"'
            f' title="{html.escape(target.title)}">{html.escape(text)}</a>')


def items_of_target(target):
    """The definitions that a word cites: its own, or those that the type of a member names."""
    if target.kind in ("definition", "codec", "law"):
        return [target.inner]
    if target.kind == "member" and target.of:
        found = [target.context.find(word) for kind, word in tokens_of(target.of) if kind == "word"]
        return [one.inner for one in found
                if one is not None and one.kind in ("definition", "codec", "law")]
    return []


def tip(part):
    """What a part of a record says of itself, if it is a law."""
    return ' title="a law: proved of each record that is made"' if "proved" in part else ""


class Group:
    """A bracket that is open: its head, and the type of the record that is written in it."""

    def __init__(self, symbol, record=None):
        self.symbol, self.record, self.head, self.first = symbol, record, None, True
        self.fields = {}


class Walk(Fields):
    """One text on its way to HTML. What is bound holds up to the bracket's end."""

    def __init__(self, resolver, context, bound, bounds=None, unknown=None):
        self.resolver, self.context, self.bounds = resolver, context, bounds or {}
        self.scopes, self.groups, self.out = [dict(bound)], [Group("")], []
        self.last, self.recent, self.expected, self.structs = None, None, None, []
        self.unknown, self.items = unknown if unknown is not None else [], []

    def find(self, word):
        """The target of a word, or none."""
        for scope in reversed(self.scopes):
            if word in scope:
                return scope[word]
        found = self.context.find(word)
        if found is not None:
            return found
        return kit("the kit's prelude") if word in PRELUDE else None

    def bind(self, names, of=None, context=None, is_rust=False):
        """Binds names from here on."""
        for name in names:
            self.scopes[-1][name] = local(of, context or self.context, is_rust)

    def run(self, tokens, anchors=None):
        """Writes the tokens. At the index of its token a part begins, with its anchor and kind."""
        at, begun, before = 0, False, len(self.out)
        while at < len(tokens):
            kind, text = tokens[at]
            if anchors and at in anchors:
                anchor, part = anchors[at]
                self.out.append(("</span>" if begun else "")
                                + f'<span class="{part}" id="{html.escape(anchor)}"{tip(part)}>')
                begun = True
            at = getattr(self, "on_" + kind)(tokens, at, text)
        return "".join(self.out[before:]) + ("</span>" if begun else "")

    def on_space(self, tokens, at, text):
        self.out.append(text)
        self.last = None
        return at + 1

    def on_comment(self, tokens, at, text):
        self.out.append(span("c", text))
        return at + 1

    def on_string(self, tokens, at, text):
        self.out.append(span("s", text))
        return at + 1

    def on_number(self, tokens, at, text):
        self.out.append(span("n", text))
        return at + 1

    def on_word(self, tokens, at, text):
        if self.is_label(tokens, at):
            self.out.append(span("v", text, "a parameter by its name"))
            return at + 1
        target = None if text in LANGUAGE and text not in self.scopes[-1] else self.find(text)
        if target is None and text in LANGUAGE:
            self.out.append(span("k", text))
            return self.let(tokens, at + 1) if text == "let" else at + 1
        if self.is_field_name(tokens, at):
            target = self.field_of_record(text) or self.by_name(text)
            if target is None and text in KIT_FIELDS:
                target = kit("a field of the kit's own types")
        self.write(target, text)
        group = self.groups[-1]
        if group.first:
            group.head, group.first = target, False
        self.last = target
        return at + 1

    def is_label(self, tokens, at):
        """Whether a word names an implicit parameter that is given, as in `{names = all}`."""
        after = [text for kind, text in tokens[at + 1:at + 3] if kind != "space"]
        return self.groups[-1].symbol == "{" and after[:1] == ["="] and tokens[at - 1][1] == "{"

    def let(self, tokens, at):
        """Binds the names of a `let`, with the type of the head of what follows, if one is known."""
        end = self.binding(tokens, at, ("=", ":"))
        names = [text for kind, text in tokens[at:end] if kind == "word"]
        words = [text for kind, text in tokens[end:end + 3] if kind == "word"]
        head = self.find(words[0]) if words and len(names) == 1 else None
        after = tokens[end + 3:end + 4]
        if head is not None and head.of and not (after and after[0][0] == "field"):
            self.bind(names, head.of, head.context, head.is_rust)
        return end

    def write(self, target, text):
        """Writes a word, and notes it if nothing is known of it."""
        self.recent = target
        if target is None:
            self.unknown.append(text)
            self.out.append(span("u", text))
        else:
            self.out.append(linked(target, text))
            self.items += items_of_target(target)
            self.resolver.note(target)

    def binding(self, tokens, at, ends):
        """Writes and binds the words up to one of the ends, which is left."""
        depth = 0
        while at < len(tokens):
            kind, text = tokens[at]
            if kind == "symbol":
                if depth == 0 and text in ends:
                    return at
                depth += (text in OPEN) - (text in CLOSE)
            if kind == "word":
                found = self.context.find(text)
                if found is not None and self.is_constructor(found, text):
                    self.write(found, text)
                else:
                    self.bind([text])
                    self.write(self.scopes[-1][text], text)
            elif kind in ("space", "symbol"):
                self.out.append(html.escape(text))
            else:
                self.out.append(span("n", text))
            at += 1
        return at

    def is_constructor(self, target, word):
        """Whether a word of a pattern stands for a constructor, and binds nothing."""
        if target.kind == "kit" or target.kind == "type":
            return word[0].isupper() or word in ("suc", "pos", "true", "false", "tt")
        return target.inner is not None and getattr(target.inner, "kind", "") == "data" \
            and word != target.inner.name

    # ---- symbols

    def on_symbol(self, tokens, at, text):
        if text == "λ":
            self.out.append(span("k", text))
            return self.lambda_names(tokens, at + 1)
        if text == "|" and self.groups[-1].symbol == "[":
            self.out.append(span("k", text))
            return self.binding(tokens, at + 1, ("↦",))
        if text == "⟦":
            return self.rust_type(tokens, at)
        if text in OPEN:
            return self.opened(tokens, at, text)
        if text in CLOSE:
            return self.closed(at, text)
        found = self.context.find(f"◌{text}◌")
        self.out.append(span("o", text, found.title if found is not None else ""))
        return at + 1

    def lambda_names(self, tokens, at):
        """Binds the names of a function, typed where they are what a result holds."""
        before = joined(tokens[:at - 1])[-400:]
        end = at
        while end < len(tokens) and tokens[end][1] != ".":
            end += 1
        names = [text for kind, text in tokens[at:end] if kind == "word"]
        result, option = self.scopes[0].get("result"), self.recent
        self.binding(tokens, at, (".",))
        held = re.match(r"\s*Option\s+(.*)", option.of, re.S) if option and option.of else None
        if held and not option.is_rust and re.search(r"\bIfSome\s+\S+\s*\(\s*$", before):
            self.bind(names[:1], held.group(1), option.context)
        if len(names) == 1 and result is not None and result.of:
            parts = re.match(r"(?:io::)?(?:Result|Option)<(.*)>$", result.of.strip(), re.S)
            kinds = [part.strip() for part in split_outside(
                parts.group(1).replace("<", "(").replace(">", ")"), ",")] if parts else []
            of = kinds[0] if kinds and OK_WORD.search(before) else \
                kinds[-1] if kinds and ERR_WORD.search(before) else None
            if of:
                self.bind(names, of.replace("(", "<").replace(")", ">"), result.context, True)
        return end

    def opened(self, tokens, at, text):
        """Opens a bracket. Names with a type in it are bound after it too."""
        names, next_at = [], at + 1
        while next_at < len(tokens) and tokens[next_at][0] in ("word", "space"):
            names += [tokens[next_at][1]] if tokens[next_at][0] == "word" else []
            next_at += 1
        if text in "({" and names and next_at < len(tokens) and tokens[next_at][1] == ":":
            self.bind(names, joined(tokens[next_at + 1:closing(tokens, at)]))
        record = re.search(r"\brecord(\s+[^\s{}]+)?\s*$", joined(tokens[:at])[-200:]) \
            if text == "{" else None
        base = self.recent if record and record.group(1) else None
        expected = (base.of, base.context, base.is_rust) if base is not None else self.expected
        self.out.append(html.escape(text))
        self.groups.append(Group("record" if record else text, expected if record else None))
        if record and base is None:
            self.groups[-1].fields = self.fields_written(tokens, at)
        self.scopes.append({})
        return at + 1

    def closed(self, at, text):
        """Closes a bracket. What stands in it has the type of its head."""
        self.out.append(html.escape(text))
        if len(self.groups) > 1:
            group = self.groups.pop()
            self.scopes.pop()
            self.last = group.head if text == ")" else None
        return at + 1

    def rust_type(self, tokens, at):
        """A type of Rust with one of its traits, between double brackets."""
        end = closing(tokens, at)
        text = joined(tokens[at:end + 1])
        self.out.append(self.rust(text))
        trait = re.search(r" as ([\w:]+)[^>]*>⟧$", text)
        self.last = Target("local", inner=[trait.group(1)]) if trait else None
        return end + 1

    def rust(self, text):
        """A piece of Rust; the renderer of signatures writes it."""
        return html.escape(text)
