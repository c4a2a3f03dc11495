"""Writes heads of Rust items as HTML, with their clauses, each word linked."""
import html
import re

from library import impl_parts
from source import clause_name, masked, matching
from targets import Target, local
from tokens import RUST, tokens_of
from walk import Walk, linked, span

KEYWORDS = set("""
    as const crate dyn else enum final fn for ghost if impl in let mut pub ref return self static
    struct super trait type unsafe use where
""".split())


def generics_of(head):
    """The names of the type parameters and lifetimes that a head declares."""
    match = re.search(r"\b(?:fn\s+\w+|trait\s+\w+|struct\s+\w+|enum\s+\w+|type\s+\w+|impl)\s*<",
                     head)
    if not match:
        return []
    depth, at = 0, match.end() - 1
    for end in range(at, len(head)):
        depth += (head[end] == "<") - (head[end] == ">" and head[end - 1] != "-")
        if depth == 0:
            break
    return re.findall(r"(?:^|[<,])\s*(?:const\s+)?(\w+)", re.sub(r"(?<!^)<[^<>]*>", "", head[at:end]))


def parameters_of(head):
    """The parameters of a function with their types, and the type that it returns."""
    hidden = masked(head)
    match = re.search(r"\bfn\s+\w+", hidden)
    at, depth = match.end(), 0
    while at < len(hidden) and (hidden[at] != "(" or depth):
        depth += (hidden[at] == "<") - (hidden[at] == ">" and hidden[at - 1] != "-")
        at += 1
    end = matching(hidden, at)
    found, depth, part = {}, 0, ""
    for index in range(at + 1, end + 1):
        character = hidden[index]
        depth += (character in "([{<") - (character in ")]}" or character == ">"
                                          and hidden[index - 1] != "-")
        if (character == "," and depth == 0) or index == end:
            name, colon, of = part.partition(":")
            if colon:
                found[re.sub(r"^\s*(?:mut\s+)?", "", name).strip()] = of.strip()
            part = ""
        else:
            part += character
    after = re.match(r"\s*->\s*(.*?)\s*(?=\b(?:where|requires|ensures)\b|$)", hidden[end + 1:], re.S)
    return found, after.group(1) if after else "()"


def trait_before(tokens, at):
    """The trait of an associated type that stands here, after `<X as Trait>::`, if one does."""
    texts, depth = [text for _, text in tokens[:at] if text.strip()], 0
    if texts[-2:] != [">", "::"]:
        return None
    for place in range(len(texts) - 2, -1, -1):
        depth += (texts[place] == ">") - (texts[place] == "<")
        if texts[place] == "as" and depth == 1:
            return texts[place + 1]
    return None


class RustText:
    """Writes items of one file, in a trait or an impl or outside of both."""

    def __init__(self, resolver, file, owner=None):
        self.resolver, self.file, self.owner = resolver, file, owner
        self.unknown, self.items = [], []
        self.context = resolver.rust_context(file, owner)

    def bounds(self, item):
        """The traits that bound each type parameter of the item and of the block around it."""
        heads = [one.head for one in (self.owner, item) if one is not None]
        return self.resolver.bounds(heads, self.owner or item, self.file)

    def generics(self, item):
        """A target for each type parameter."""
        bounds, found = self.bounds(item), {}
        for one in (self.owner, item):
            for name in generics_of(one.head) if one is not None else []:
                found[name] = Target("local", "", "a type parameter", inner=bounds.get(name, []))
        own = self.owner or item
        if own.kind == "trait":
            found["Self"] = Target("local", "", "the type itself", inner=[own.name])
        elif own.kind == "impl":
            of_trait, of_type = impl_parts(own.head)
            names = [re.sub(r"<.*", "", of_trait, flags=re.S)] if of_trait else []
            found["Self"] = Target("local", "", "the type itself", of_type, self.context, True,
                                   names + self.other_traits(of_type))
        else:
            found["Self"] = Target("local", "", "the type itself", own.name, self.context, True)
        return found

    def other_traits(self, of_type):
        """The traits that the same type has in this file."""
        parts = [impl_parts(item.head) for item in self.file.items if item.kind == "impl"]
        return [re.sub(r"<.*", "", of_trait, flags=re.S) for of_trait, other in parts
                if of_trait and other == of_type]

    def rust(self, text, known=None):
        """A piece of Rust code."""
        known, out, tokens, at = known or {}, [], tokens_of(text, RUST), 0
        while at < len(tokens):
            kind, word = tokens[at]
            if kind == "word" and not word.startswith("'"):
                at = self.path(tokens, at, known, out)
                continue
            out.append(span({"comment": "c", "string": "s", "number": "n"}.get(kind, ""), word)
                       if kind in ("comment", "string", "number") else html.escape(word))
            at += 1
        return "".join(out)

    def path(self, tokens, at, known, out):
        """Writes a path of names."""
        path, first = [], at
        while True:
            word = tokens[at][1]
            path.append(word)
            before = [text for _, text in tokens[max(0, first - 2):first]]
            if word in KEYWORDS or word in ("requires", "ensures"):
                out.append(span("k", word))
            elif before[-2:-1] and before[-2] in ("fn", "trait", "struct", "enum", "type", "const"):
                out.append(span("h", word))
            else:
                self.word(path, known, out, tokens[at + 1:at + 3], trait_before(tokens, first))
            at += 1
            if at + 1 < len(tokens) and tokens[at][1] == "::" and tokens[at + 1][0] == "word":
                out.append("::")
                at += 1
            else:
                return at

    def word(self, path, known, out, rest, of_trait=None):
        """Writes a word of a path, which is one of a trait or begins it, before the rest of the tokens."""
        word = path[-1]
        target = known.get(word) if len(path) == 1 else None
        if len(path) == 1 and of_trait:
            target = self.resolver.member_of(self.file, [of_trait], word)
        if len(path) > 1 and path[0] in known:
            bounds = known[path[0]].inner
            target = self.resolver.member_of(self.file, bounds, word) if bounds else None
        is_name = rest and rest[0][1] == ":"
        if target is None and not is_name:
            target = self.context.rust(path)
        if target is not None:
            out.append(linked(target, word))
            return
        if [text for _, text in rest] == [" ", "="]:
            out.append(span("v", word, "an associated type"))
        elif word[0].isupper() and len(path) == 1:
            self.unknown.append(word)
            out.append(span("u", word))
        else:
            out.append(html.escape(word))

    def clause_walk(self, item):
        """A walk for the clauses of a function, or for a ghost member."""
        bound = self.generics(item)
        walk = Walk(self.resolver, self.context, bound, unknown=self.unknown)
        walk.rust = lambda text: self.rust(text, bound)
        if self.owner is not None and self.owner.kind == "impl":
            walk.structs = self.structs_in([part or "" for part in impl_parts(self.owner.head)])
        if item.kind == "fn":
            names, result = parameters_of(item.head)
            for name, of in names.items():
                walk.scopes[0][name] = local(of, self.context, True)
            own = self.owner
            of_self = impl_parts(own.head)[1] if own is not None and own.kind == "impl" else None
            walk.scopes[0]["self"] = local(of_self, self.context, True)
            result = of_self if result == "Self" and of_self else result
            walk.scopes[0]["result"] = local(result, self.context, True)
            walk.structs = self.structs_in([*names.values(), result, of_self or ""])
        return walk

    def structs_in(self, texts):
        """The structs that types name."""
        found = []
        for word in re.findall(r"\b[A-Z]\w*", " ".join(texts)):
            target = self.context.rust([word])
            if target is not None and target.kind == "type" and target.inner.kind == "struct":
                found.append(target.inner)
        return found

    def function(self, item, anchor):
        """The head of a function: its signature, and its clauses with an anchor each."""
        known, parts = self.generics(item), item.clauses()
        out = [self.rust(item.head[:parts[0][2]] if parts else item.head, known)]
        for number, (word, name, start, end) in enumerate(parts):
            clause = f"{anchor}.{clause_name(number, word, name)}"
            brace = item.head.index("{", start)
            out.append(f'<span class="clause" id="{clause}">{span("k", word)}')
            out.append(" " + span("cn", name) if name else "")
            out.append(" " + self.logic(item, item.head[brace:end]) + "</span>")
            after = parts[number + 1][2] if number + 1 < len(parts) else len(item.head)
            out.append(self.rust(item.head[end:after], known))
        return "".join(out).rstrip()

    def logic(self, item, text):
        """A clause, or the type or value of a ghost member."""
        walk = self.clause_walk(item)
        written = walk.run(tokens_of(text))
        self.items += walk.items
        return written

    def ghost(self, item):
        """A ghost member."""
        brace = item.head.index("{")
        head = re.match(r"ghost\s+(\w+)", item.head)
        rest = item.head[head.end():brace]
        return (span("k", "ghost") + " " + span("h", head.group(1)) + html.escape(rest)
                + self.logic(item, item.head[brace:]))

    def example(self, text):
        """An example of a comment. Its names are linked where the file has them."""
        written = self.rust(text)
        self.unknown.clear()
        return re.sub(r'<span class="u">(.*?)</span>', r"\1", written)
