"""The pages of crates and modules: what they hold, and their functions with their contracts."""
import html
import re

from belief import by_file, lines_of, name_of, summary
from library import module_page
from markdown import Markdown
from page import section
from rust_text import RustText


def first_sentence(docs):
    """The first paragraph of a comment, up to its first stop."""
    text = " ".join(docs).strip() if "" not in docs else " ".join(docs[:docs.index("")])
    return re.split(r"(?<=\.)\s(?=[A-Z`])", text)[0]


class Writer:
    """What pages of Rust items have in common: docs, contracts, and what to believe of these."""

    def __init__(self, resolver, belief):
        self.resolver, self.belief, self.library = resolver, belief, resolver.library
        self.unknown, self.contracts = [], {"requires": 0, "ensures": 0, "calls": 0}

    def markdown(self, file, owner=None):
        """Writes the docs of a file's items."""
        text = RustText(self.resolver, file)

        def code(name):
            path = name.strip().removesuffix("()").split("::")
            if not all(re.fullmatch(r"[A-Za-z_]\w*", part) for part in path):
                return None
            if owner is not None and len(path) == 1 and owner.home is not None \
                    and any(one.name == path[0] for one in owner.item.members):
                return owner.href(path[0])
            found = text.context.rust(path)
            if found is not None and found.href and "internal.html" not in found.href:
                return found.href
            if len(path) == 2:
                outer = text.context.rust(path[:1])
                if outer is not None and outer.kind == "type" and path[1] in self.methods(outer.inner):
                    return outer.inner.href(path[1])
            return None

        return Markdown(code=code, rust=lambda source: RustText(self.resolver, file).example(source))

    def methods(self, one):
        """The public methods of a type: file, impl block and function."""
        found = {}
        for file, block, of_trait, of_type in self.library.impls:
            if of_trait is None and self.is_of(file, of_type, one):
                for member in block.members:
                    if member.kind == "fn" and member.public == "pub":
                        found[member.name] = (file, block, member)
        return found

    def is_of(self, file, of_type, one):
        """Whether a type, as it stands in a file, is the one of the item."""
        head = re.match(r"[\w:]+", of_type or "")
        return bool(head) and head.group().split("::")[-1] == one.name \
            and self.library.resolve(file, head.group().split("::")) is one

    def function(self, file, owner, item, anchor, title, href):
        """A function: its heading, comment, signature, clauses, and what to believe."""
        self.resolver.current = (title, f"{href}")
        text = RustText(self.resolver, file, owner)
        head = text.function(item, anchor)
        docs = self.markdown(file).blocks(item.docs, 4)
        self.take(text)
        for word, *_ in item.clauses():
            self.contracts[word] += 1
        self.contracts["calls"] += 1
        believe = self.to_believe(text.items, item.head)
        return (f'<section class="item" id="{anchor}"><h3><code>{html.escape(title)}</code>'
                f' <a class="anchor" href="#{anchor}" aria-label="Link to this call">#</a></h3>\n'
                f"<pre class=\"contract\"><code>{head}</code></pre>\n{believe}{docs}</section>\n")

    def take(self, text):
        """Keeps the words that nothing is known of."""
        self.unknown += [(self.resolver.current, word) for word in text.unknown]
        self.resolver.current = None

    def to_believe(self, items, text, word="this contract"):
        """What must be believed of a contract: its definitions in reading order."""
        if not items:
            return ""
        below = self.belief.below(items, text)
        if not below:
            return ""
        rows = []
        for path, here in by_file(below).items():
            names = " ".join(f'<a href="{self.resolver.definition_href(one)}">'
                             f"{html.escape(one.name)}</a>&nbsp;{len(one.lines)}" for one in here)
            rows.append(f"<li><b>{name_of(here[0])}</b> <small>{lines_of(here)}</small><br>"
                        f"{names}</li>")
        return (f"<details class=\"believe\"><summary>To believe {word}, read {summary(below)}"
                f"</summary><ul>{''.join(rows)}</ul></details>")


class CratePages:
    """Writes the page of each crate and of each public module of it."""

    def __init__(self, writer, definitions):
        self.writer, self.library, self.definitions = writer, writer.library, definitions

    def page(self, crate, module):
        """The body of one page."""
        file = self.library.files[crate, module]
        items = self.library.public_items(crate, module)
        calls = [one for one in items if one.kind in ("fn", "const", "static")]
        path = "::".join([crate, *module])
        body = [f"<h1><small>{'module' if module else 'crate'}</small> {path}</h1>",
                f'<p class="where">{file.path}</p>',
                self.writer.markdown(file).blocks(file.docs)]
        body += [self.modules(crate, module), self.table("Traits", items, ("trait",)),
                 self.table("Types", items, ("struct", "enum", "type")),
                 self.table("Calls", calls, ("fn", "const", "static")), self.passed_on(file, items)]
        body += [self.definitions.table(crate) if not module else ""]
        if calls:
            written = "".join(self.call(one) for one in calls)
            body.append(section("The calls with their contracts", written))
        return "\n".join(part for part in body if part)

    def call(self, one):
        """A function that stands in no type, or a constant."""
        if one.kind == "fn":
            return self.writer.function(one.file, None, one.item, one.name, one.name, one.href())
        text = RustText(self.writer.resolver, one.file)
        docs = self.writer.markdown(one.file).blocks(one.item.docs, 4)
        return (f'<section class="item" id="{one.name}"><h3><code>{one.name}</code></h3>{docs}'
                f"<pre><code>{text.rust(one.item.head)};</code></pre></section>")

    def modules(self, crate, module):
        """The public modules inside."""
        rows = []
        for inner in self.library.public_modules(crate, module):
            if len(inner) == len(module) + 1:
                file = self.library.files[crate, inner]
                rows.append((inner[-1], module_page(crate, inner), file, file.docs))
        return self.rows("Modules", rows)

    def table(self, title, items, kinds):
        """A table of items with the first sentence of each."""
        rows = [(one.name, one.href(), one.file, one.item.docs) for one in items
                if one.kind in kinds]
        return self.rows(title, rows)

    def rows(self, title, rows):
        """Rows of a name, its link, the file of its comment, and that comment."""
        if not rows:
            return ""
        written = "".join(
            f'<tr><td><a href="{href}"><code>{name}</code></a></td>'
            f"<td>{self.writer.markdown(file).inline(first_sentence(docs))}</td></tr>"
            for name, href, file, docs in sorted(rows, key=lambda row: row[0].lower()))
        return section(title, f'<div class="scroll"><table class="names">{written}</table></div>')

    def passed_on(self, file, items):
        """The names that stand here and have their page elsewhere."""
        links = []
        for name in file.passed_on:
            target = self.writer.resolver.rust_target(file, [name])
            if target is not None and target.href and getattr(target, "inner", None) not in items:
                links.append(f'<li><a href="{target.href}" title="{html.escape(target.title)}">'
                             f"<code>{name}</code></a></li>")
        return section("Passed on", f'<ul class="inline">{"".join(links)}</ul>') if links else ""


