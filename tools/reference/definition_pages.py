"""The pages of modules of definitions: each definition with its links and what must be believed."""
import html
import re

from belief import counted, lines_of
from definition_text import DefinitionText, above_html
from definitions import module_of
from markdown import Markdown
from page import section
from targets import page_of_module
from what_to_read import is_law_module


class DefinitionPages:
    """Writes the definitions of the libraries, and of proofs/ what these and contracts name."""

    def __init__(self, resolver, belief):
        self.resolver, self.belief, self.specs = resolver, belief, resolver.specs
        self.unknown, self.written, self.proved = [], {}, {}
        self.crates, self.shown = set(resolver.library.crates), set()

    def render(self):
        """Writes all that is needed, until nothing new is named."""
        waiting = [item for item in self.specs.all()
                   if item.file.parts[1] in self.crates and item.file.parts[2] == "specs"]
        while waiting:
            for item in waiting:
                self.written[item] = self.text(item)
            waiting = [item for item in self.specs.all()
                       if item in self.resolver.linked and item not in self.written]

        for law in self.specs.all():
            if self.resolver.kinds[law] == "law" and law.file.parts[1] in self.crates:
                for item in self.specs.items_in(law, f"{law.above} {law.signature}"):
                    self.proved.setdefault(item, []).append(law)

    def text(self, item):
        """The prose and the code of an item."""
        self.resolver.current = (item.name, self.resolver.definition_href(item))
        unknown = []
        text = DefinitionText(self.resolver, item, unknown)
        code = text.html(self.resolver.kinds[item] == "law")
        above = above_html(self.resolver, item)
        self.unknown += [(self.resolver.current, word) for word in unknown]
        self.resolver.current = None
        return text.prose, above, code

    def modules(self):
        """The modules that have items, each with its items in their order."""
        found = {}
        for item in self.specs.all():
            if item in self.written:
                found.setdefault(module_of(item.file), []).append(item)
        return dict(sorted(found.items(), key=lambda pair: (
            self.belief.order.get(pair[0][0], 99), pair[0][1] == "proofs", pair[0][2])))

    def comment(self, items):
        """The comment of a module: what stands above its imports."""
        lines = []
        for line in items[0].file.read_text().splitlines():
            if not line.startswith("--"):
                break
            lines.append(line[2:].strip())
        else:
            return ""
        is_first = line.strip() == "" or line.startswith(("use ", "pub use "))
        return " ".join(lines) if is_first else ""

    def page(self, key, items):
        """The body of the page of a module."""
        crate, folder, module = key
        word = "definitions" if folder == "specs" else "proofs"
        body = [f"<h1><small>{word}</small> {crate}/{folder}/{module}</h1>",
                f'<p class="where">{items[0].file}</p>',
                f"<p>{Markdown().inline(self.comment(items))}</p>", self.note(folder, items)]
        names = " ".join(f'<a href="#{html.escape(one.name)}">{html.escape(one.name)}</a>'
                         for one in items)
        body.append(f'<p class="names">{names}</p>' if len(items) > 1 else "")
        return "\n".join(body + [self.item(one) for one in items])

    def note(self, folder, items):
        """What stands on the page, and what of it must be believed."""
        believed = [one for one in items if one in self.belief.public]
        laws = [one for one in items if self.resolver.kinds[one] == "law"]
        parts = [f"<b>{counted(lines_of(believed), 'line')}</b> in "
                 f"{counted(len(believed), 'definition')} that public contracts rest on"]
        if laws:
            parts.append(f"{counted(len(laws), 'law')}, of which the statement is shown; "
                         "laws are proved, so nobody has to believe them")
        if any('class="part proved"' in self.written[one][2] for one in items):
            parts.append("parts in green are laws that a record holds, proved where it is made")
        if folder == "proofs":
            parts.append("what definitions or contracts do not name is left out")
        return f'<p class="note">{"; ".join(parts)}.</p>'

    def badge(self, item):
        """What an item is to a reader who decides what to believe."""
        kind, lines = self.resolver.kinds[item], counted(len(item.lines), "line")
        if kind == "law":
            return f'<span class="badge law">proved, {lines} with its proof</span>'
        if item in self.belief.public:
            return f'<span class="badge believe">to believe: {lines}</span>'
        if kind == "codec":
            return ('<span class="badge codec" title="Its values are followed, its laws are proved">'
                    f"codec, {lines}</span>")
        if is_law_module(item):
            return f'<span class="badge codec">for proofs, {lines}</span>'
        return (f'<span class="badge" title="No public contract rests on it">{lines}, '
                "for private calls</span>")

    def item(self, item):
        """One definition."""
        prose, above, code = self.written[item]
        name = html.escape(item.name)
        text = f"<p>{Markdown().inline(prose)}</p>" if prose else ""
        return (f'<section class="item" id="{name}"><h3><code>{name}</code> {self.badge(item)}'
                f' <a class="anchor" href="#{name}" aria-label="Link to this definition">#</a></h3>\n'
                f"{text}{above}<pre class=\"definition\"><code>{code}</code></pre>\n"
                f"{self.below(item)}{self.laws_of(item)}{self.named_by(item)}</section>\n")

    def below(self, item):
        """How much stands below a definition."""
        if self.resolver.kinds[item] == "law":
            return ""
        below = [one for one in self.belief.below_item(item)]
        others = [one for one in below if one is not item]
        if not others:
            return '<p class="below">Nothing of the repository stands below it.</p>'
        return (f'<p class="below">Below it: {counted(len(others), "definition")}, '
                f"{counted(lines_of(others), 'line')}.</p>")

    def laws_of(self, item):
        """How many laws speak of a definition, and where they stand."""
        modules, shown = {}, self.modules_shown()
        for law in self.proved.get(item, []):
            modules.setdefault(module_of(law.file), []).append(law)
        if not modules or self.resolver.kinds[item] == "law":
            return ""
        parts = []
        for key, laws in sorted(modules.items()):
            name = "/".join(key)
            place = f'<a href="{page_of_module(key)}">{name}</a>' if key in shown else name
            parts.append(f"{place}&nbsp;{len(laws)}")
        total = sum(len(laws) for laws in modules.values())
        return (f'<details class="by"><summary>Proved of it: {counted(total, "law")}</summary>'
                f"<p>{', '.join(parts)}</p></details>")

    def modules_shown(self):
        """The modules that have a page."""
        if not self.shown:
            self.shown = {module_of(item.file) for item in self.written}
        return self.shown

    def named_by(self, item):
        """What names a definition."""
        found = sorted(one for one in self.resolver.named_by.get(item, {})
                       if one[1] != self.resolver.definition_href(item))
        if not found:
            return ""
        links = ", ".join(f'<a href="{html.escape(href)}">{html.escape(name)}</a>'
                          for name, href in found)
        return (f'<details class="by"><summary>Named by {counted(len(found), "other")}</summary>'
                f"<p>{links}</p></details>")

    def table(self, crate):
        """The modules of a crate, with their comments and lines."""
        rows = []
        for key, items in self.modules().items():
            if key[0] != crate:
                continue
            believed = [one for one in items if one in self.belief.public]
            first = re.split(r"(?<=\.)\s", self.comment(items))[0]
            rows.append(f'<tr><td><a href="{page_of_module(key)}"><code>{key[1]}/{key[2]}</code></a>'
                        f"</td><td>{Markdown().inline(first)}</td>"
                        f'<td class="n">{len(items)}</td><td class="n">{lines_of(believed)}</td></tr>')
        if not rows:
            return ""
        head = ("<tr><th>Module</th><th>Says</th><th>Items</th><th>Lines to believe</th></tr>")
        return section("Definitions", f'<div class="scroll"><table class="names"><thead>{head}</thead>'
                       f"<tbody>{''.join(rows)}</tbody></table></div>")
