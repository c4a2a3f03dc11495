"""The pages of traits and types: their members, methods and impls with their contracts."""
import html
import re

from library import RustItem, impl_parts
from page import section
from rust_text import RustText
from source import parts_of_body
from targets import PART, Target, variants_of
from tokens import tokens_of


class ItemPages:
    """Writes the page of each public trait, struct, enum and type."""

    def __init__(self, writer):
        self.writer, self.resolver, self.library = writer, writer.resolver, writer.library

    def page(self, one):
        """The body of the page of an item."""
        word = {"type": "type"}.get(one.kind, one.kind)
        docs = self.writer.markdown(one.file, one).blocks(one.item.docs)
        head = [f"<h1><small>{word}</small> {html.escape(one.path())}</h1>",
                f'<p class="where">{one.file.path}</p>', docs]
        if one.kind == "trait":
            return "\n".join([*head, self.trait_head(one), self.members(one),
                              self.impls(one, self.impls_of_trait(one), True)])
        return "\n".join([*head, self.type_head(one), self.parts(one), self.methods(one),
                          self.impls(one, self.impls_of_type(one), False)])

    # ---- traits

    def trait_head(self, one):
        """The head of a trait."""
        text = RustText(self.resolver, one.file, one.item)
        known = text.generics(one.item)
        return f"<pre><code>{text.rust(one.item.head, known)}</code></pre>"

    def members(self, one):
        """The members of a trait, each with its contract."""
        written = [self.member(one, member) for member in one.item.members]
        return section("Members", "".join(part for part in written if part))

    def member(self, one, member):
        """One member of a trait."""
        if member.name == "use":
            return ""
        title = f"{one.name}::{member.name}"
        href = one.href(member.name)
        if member.kind == "fn":
            return self.writer.function(one.file, one.item, member, member.name, title, href)
        self.resolver.current = (title, href)
        text = RustText(self.resolver, one.file, one.item)
        head = text.ghost(member) if member.kind == "ghost" else text.rust(
            member.head, text.generics(one.item))
        self.writer.take(text)
        docs = self.writer.markdown(one.file, one).blocks(member.docs, 4)
        believe = self.writer.to_believe(text.items, member.head, "this member")
        return (f'<section class="item" id="{member.name}"><h3><code>{html.escape(title)}</code>'
                f' <a class="anchor" href="#{member.name}" aria-label="Link to this member">#</a>'
                f"</h3>\n<pre class=\"contract\"><code>{head}</code></pre>\n{believe}{docs}</section>\n")

    # ---- types

    def type_head(self, one):
        """A struct or an enum with its parts, without their comments."""
        text = RustText(self.resolver, one.file)
        known = self.known(text, one)
        derives = [part for part in one.item.attributes if part.startswith("#[derive")]
        head = one.item.head
        lines = [html.escape(part) for part in derives]
        if one.kind in ("struct", "enum") and one.item.body.strip():
            inner = [self.part(one, text, known, part) for _, part in parts_of_body(one.item.body)]
            lines += [text.rust(head, known) + " {", *inner, "}"]
        else:
            lines.append(text.rust(head, known) + (" {}" if one.item.body else ";"))
        self.writer.take(text)
        return "<pre><code>" + "\n".join(lines) + "</code></pre>"

    def part(self, one, text, known, part):
        """A field or a variant. A ghost field speaks of the others by their names."""
        part = re.sub(r"(?m)^\s*///.*\n", "", part)
        ghost = re.match(r"(?:pub )?ghost \w+: (?=\{)", part)
        if not ghost:
            return "    " + text.rust(part, known) + ","
        walk = text.clause_walk(one.item)
        walk.scopes[0].update(self.resolver.struct_fields(one))
        written = walk.run(tokens_of(part[ghost.end():]))
        return "    " + text.rust(ghost.group(), known) + written + ","

    def known(self, text, one):
        """The names that an item itself brings: its type parameters and its variants."""
        variants = variants_of(one) if one.kind == "enum" else []
        return {**text.generics(one.item),
                **{name: Target("local", "", "a variant") for name in variants}}

    def parts(self, one):
        """The comments of fields or variants, with their anchors."""
        if one.kind not in ("struct", "enum"):
            return ""
        rows, hidden = [], []
        for docs, part in parts_of_body(one.item.body):
            name = PART.match(part).group(1)
            text = self.writer.markdown(one.file).inline(" ".join(docs))
            is_hidden = one.kind == "struct" and not part.startswith("pub ")
            if is_hidden and not docs:
                hidden.append(f'<code id="{name}">{name}</code>')
            else:
                text += " <small>Not public.</small>" if is_hidden else ""
                rows.append(f'<dt id="{name}"><code>{name}</code></dt><dd>{text or "&#8203;"}</dd>')
        title = "Variants" if one.kind == "enum" else "Fields"
        body = f"<dl>{''.join(rows)}</dl>" if rows else ""
        body += f'<p class="below">Not public: {", ".join(hidden)}.</p>' if hidden else ""
        return section(title, body) if body else ""

    def methods(self, one):
        """The public methods of a type, each with its contract."""
        blocks, written = [], []
        for name, (file, block, member) in self.writer.methods(one).items():
            if block.docs and block not in blocks:
                blocks.append(block)
                written.append(self.writer.markdown(file).blocks(block.docs))
            title = f"{one.name}::{name}"
            written.append(self.writer.function(file, block, member, name, title, one.href(name)))
        return section("Calls", "".join(written)) if written else ""

    # ---- impls

    def impls_of_trait(self, one):
        """The impl blocks of a trait."""
        return [(file, block) for file, block, of_trait, _ in self.library.impls
                if of_trait and self.writer.is_of(file, of_trait, one)]

    def impls_of_type(self, one):
        """The impl blocks of traits for a type."""
        return [(file, block) for file, block, of_trait, of_type in self.library.impls
                if of_trait and self.writer.is_of(file, of_type, one)]

    def impls(self, one, blocks, with_lists):
        """The impls of a trait, or those for a type: what each gives and promises."""
        full, bare = [], []
        for number, (file, block) in enumerate(blocks):
            written = self.impl(file, block, f"impl-{number}", with_lists, one)
            (full if written[1] else bare).append(written[0])
        if bare:
            full.append("<pre class=\"impls\"><code>" + "\n".join(bare) + "</code></pre>")
        return section("Impls", "".join(full)) if full else ""

    def impl(self, file, block, anchor, with_list, one):
        """One impl: its head, its ghost members, and the functions that have clauses of their own."""
        head = " ".join(block.head.split())
        self.resolver.current = (head, f"{one.href()}#{anchor}")
        text = RustText(self.resolver, file, block)
        known = text.generics(block)
        inner = []
        for member in block.members:
            if member.kind == "ghost" and member.name != "use":
                inner.append(text.ghost(member) + ";")
            elif member.kind == "type":
                inner.append(text.rust(member.head, known) + ";")
            elif member.kind == "fn" and member.clauses():
                inner.append(text.function(member, f"{anchor}.{member.name}"))
        written = text.rust(block.head, known)
        self.writer.take(text)
        if not inner:
            return written, False
        body = "\n\n".join("    " + part.replace("\n", "\n    ") for part in inner)
        heads = " ".join(member.head for member in block.members)
        is_shown = with_list or not self.is_ours(file, block)
        believe = self.writer.to_believe(text.items, heads, "what it says") if is_shown else ""
        docs = self.writer.markdown(file).blocks(block.docs, 4)
        return (f'<section class="item" id="{anchor}">{docs}<pre class="contract"><code>{written} {{\n'
                f"{body}\n}}</code></pre>{believe}</section>"), True


    def is_ours(self, file, block):
        """Whether the trait of an impl has a page, which then has the impl too."""
        head = re.match(r"[\w:]+", impl_parts(block.head)[0] or "")
        found = self.library.resolve(file, head.group().split("::")) if head else None
        return isinstance(found, RustItem) and found.home is not None

    # ---- items that are not public

    def internal(self, one):
        """An item that is not public, as it stands in its file."""
        docs = self.writer.markdown(one.file).blocks(one.item.docs, 4)
        text = RustText(self.resolver, one.file, one.item if one.kind == "trait" else None)
        known = self.known(text, one)
        anchors = "".join(f'<span id="{one.name}.{name}"></span>' for name in self.inside(one))
        if one.kind == "trait":
            inner = [text.ghost(member) + ";" if member.kind == "ghost" else text.rust(
                member.head, known) + ";" for member in one.item.members if member.name != "use"]
            code = text.rust(one.item.head, known) + " {\n    " + "\n    ".join(inner) + "\n}"
        else:
            inner = [f'    <span class="c">/// {html.escape(line)}</span>\n' * bool(line) + written
                     for line, written in self.lines_of_parts(one, text, known)]
            body = " {\n" + "\n".join(inner) + "\n}" if inner else ";"
            code = text.rust(one.item.head, known) + body
        self.writer.take(text)
        return (f'<section class="item" id="{one.name}"><h3><code>{one.name}</code></h3>{anchors}'
                f'<p class="where">{one.file.path}</p>{docs}<pre><code>{code}</code></pre></section>')

    def lines_of_parts(self, one, text, known):
        """The fields or variants of an item, each with its comment."""
        return [(" ".join(docs), self.part(one, text, known, part))
                for docs, part in parts_of_body(one.item.body)]

    def inside(self, one):
        """The names of the fields, variants or members of an item."""
        if one.kind == "struct":
            return list(self.resolver.struct_fields(one))
        return [name for name in self.resolver.names_inside(one) if name != "use"]


def internal_items(resolver):
    """The types that definitions name and that are not public."""
    return sorted((one for one in resolver.internal if isinstance(one, RustItem)),
                  key=lambda one: (one.crate, one.name))
