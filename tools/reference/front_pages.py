"""The pages at the front: the start, the headlines, the guarantees, and the list of all names."""
import html
import pathlib
import re

from belief import counted, lines_of, name_of
from definitions import module_of
from library import module_page
from markdown import Markdown
from page import section
from source import clause_name
from targets import page_of_module
from what_to_read import APART, HEADLINES


def slug(name):
    """A name as a part of a path."""
    return re.sub(r"\W+", "-", name.lower()).strip("-")


def headline_path(name):
    """The page of a headline."""
    return f"/headlines/{slug(name)}.html"


class Names:
    """All names: items, methods, members, definitions and the fields of records."""

    def __init__(self, resolver, writer, definitions):
        self.entries, self.resolver = [], resolver
        for crate in resolver.library.crates:
            for module in resolver.library.public_modules(crate):
                self.entries.append(("::".join([crate, *module]), module_page(crate, module),
                                     "crate"))
            for one in resolver.library.public_items(crate):
                self.entries.append((one.name, one.href(), f"{one.kind} of {crate}"))
                self.add_inside(one, writer)
        for item in definitions.written:
            kind = {"definition": "definition"}.get(resolver.kinds[item], resolver.kinds[item])
            crate, folder, module = module_of(item.file)
            self.entries.append((item.name, resolver.definition_href(item),
                                 f"{kind}, {crate}/{folder}/{module}"))
        self.index = {}
        for name, href, _ in self.entries:
            self.index.setdefault(name, []).append(href)

    def add_inside(self, one, writer):
        """The members of a trait, or the methods of a type."""
        members = [member.name for member in one.item.members if member.name != "use"] \
            if one.kind == "trait" else list(writer.methods(one))
        for name in members:
            self.entries.append((name, one.href(name), f"in {one.path()}"))
            self.entries.append((f"{one.name}::{name}", one.href(name), f"in {one.crate}"))

    def link(self, name):
        """The link to a name: to its page, or to its place in the list if several things have it."""
        found = list(dict.fromkeys(self.index.get(name.removesuffix("()"), [])))
        if len(found) == 1:
            return found[0]
        return f"/all.html#name.{name}" if found else None

    def fields(self):
        """The fields of records and structs, and members of traits, with each place that has one."""
        found = {}
        for name, places in self.resolver.fields.items():
            for item, _ in places:
                if item in self.resolver.linked or item.file.parts[1] in self.resolver.library.crates:
                    found.setdefault(name, []).append(
                        (f"{item.name}.{name}", self.resolver.definition_href(item, name)))
        for name, places in self.resolver.members.items():
            found.setdefault(name, []).extend(
                (f"{one.name}::{name}", one.href(name)) for one, _ in places)
        for one in self.resolver.library.rust.values():
            if one.kind == "struct" and (one.home or one in self.resolver.internal):
                for name in self.resolver.struct_fields(one):
                    found.setdefault(name, []).append((f"{one.name}.{name}", one.href(name)))
        return found

    def page(self):
        """The alphabetical list."""
        out, letter = ["<h1>All names</h1>"], None
        entries = sorted((one for one in set(self.entries) if "::" not in one[0]),
                         key=lambda one: (one[0].lower(), one))
        letters = sorted({name[0].upper() for name, *_ in entries})
        out.append('<p class="letters">' + " ".join(
            f'<a href="#letter.{one}">{one}</a>' for one in letters)
            + ' <a href="#fields">fields</a></p>')
        seen = set()
        for name, href, where in entries:
            if name[0].upper() != letter:
                out.append("</ul>" if letter else "")
                letter = name[0].upper()
                out.append(f'<h2 id="letter.{letter}">{letter}</h2><ul class="all">')
            mark = "" if name in seen else f' id="name.{html.escape(name)}"'
            seen.add(name)
            out.append(f'<li{mark}><a href="{html.escape(href)}"><code>{html.escape(name)}</code></a>'
                       f" <small>{html.escape(where)}</small></li>")
        out.append('</ul><h2 id="fields">Fields and members</h2><ul class="all">')
        for name, places in sorted(self.fields().items(), key=lambda pair: pair[0].lower()):
            links = ", ".join(f'<a href="{html.escape(href)}">{html.escape(title)}</a>'
                              for title, href in places)
            shown = html.escape(name)
            out.append(f'<li id="field.{shown}"><code>{shown}</code> {links}</li>')
        return "\n".join(out) + "</ul>"


class FrontPages:
    """Writes the pages at the front."""

    def __init__(self, resolver, belief, definitions, names):
        self.resolver, self.belief, self.definitions = resolver, belief, definitions
        self.names, self.library = names, resolver.library

    def guarantees(self):
        """The page of guarantees, with the names of its contracts linked."""
        lines = pathlib.Path("docs/GUARANTEES.md").read_text().splitlines()
        slugs = lambda url: url if url.startswith("#") else None
        text = Markdown(code=self.names.link, url=slugs).blocks(lines, 1)
        return re.sub(r"<(h\d) class=\"doc\">(.*?)</h", lambda match: (
            f'<{match.group(1)} id="{slug(re.sub("<[^>]*>", "", match.group(2)))}">'
            f"{match.group(2)}</h"), text)

    def calls_of(self, name):
        """The public calls of the sources of a headline, with the clauses that carry it."""
        rows = []
        own = {word for word, other in APART.items() if other == name}
        for place in HEADLINES[name][0]:
            for one, owner, item in self.functions_in(pathlib.Path("crates", place)):
                href = (owner or one).href(item.name) if owner else one.href()
                title = f"{owner.name}::{item.name}" if owner else item.name
                clauses = []
                for number, (word, clause, start, end) in enumerate(item.clauses()):
                    cites = set(re.findall(r"\w+", item.head[start:end]))
                    if bool(cites & own) == bool(own) and not (not own and cites & set(APART)):
                        mark = clause_name(number, word, clause)
                        anchor = href + ("." if "#" in href else "#") + mark
                        clauses.append(f'<a href="{anchor}"><code>{clause or word}</code></a>')
                if clauses:
                    rows.append(f'<tr><td><a href="{href}"><code>{title}</code></a></td>'
                                f"<td>{', '.join(clauses)}</td></tr>")
        return ('<div class="scroll"><table class="names"><thead><tr><th>Call</th><th>Clauses</th>'
                f"</tr></thead><tbody>{''.join(rows)}</tbody></table></div>")

    def functions_in(self, path):
        """The public functions of a source: those of traits, of types and of none."""
        for one in self.library.rust.values():
            if one.file.path == path and one.home and one.kind == "fn":
                yield one, None, one.item
            elif one.file.path == path and one.home and one.kind == "trait":
                yield from ((one, one, member) for member in one.item.members if member.kind == "fn")
        for file, block, of_trait, of_type in self.library.impls:
            if file.path == path and of_trait is None:
                owner = self.library.resolve(file, [re.match(r"\w+", of_type).group()])
                yield from ((None, owner, member) for member in block.members
                            if member.kind == "fn" and member.public == "pub" and owner.home)

    def headline(self, name):
        """The page of a headline: its calls, and its definitions in reading order."""
        files = self.belief.of_headline(name)
        items = [one for group in files.values() for one in group]
        body = [f"<h1><small>headline</small> {html.escape(name)}</h1>",
                f'<p class="note">To believe it, read <b>{counted(lines_of(items), "line")}</b> in '
                f"{counted(len(items), 'definition')} of {counted(len(files), 'file')}. Everything "
                "else is proved of them.</p>"]
        body.append(section("The calls that carry it", self.calls_of(name)))
        types = HEADLINES[name][1]
        more = (f" With the contracts of these calls count the encodings of the types of "
                f'<a href="/{types}/index.html">{types}</a>.' if types else "")
        body.append(section("The definitions, in reading order",
                            f"<p>Each line that must be believed stands in one of these.{more}</p>"
                            + self.reading(files)))
        return "\n".join(body)

    def reading(self, files):
        """The files of a headline in their order, each with its definitions."""
        rows = []
        for path, items in files.items():
            names = " ".join(f'<a href="{self.resolver.definition_href(one)}">{html.escape(one.name)}'
                             f"</a>&nbsp;<small>{len(one.lines)}</small>" for one in items)
            rows.append(f'<tr><td><a href="{page_of_module(module_of(path_of(items)))}">'
                        f"<code>{name_of(items[0])}</code></a></td>"
                        f'<td class="n">{lines_of(items)}</td><td>{names}</td></tr>')
        return ('<div class="scroll"><table class="reading"><thead><tr><th>File</th><th>Lines</th>'
                f"<th>Definitions, with their lines</th></tr></thead><tbody>{''.join(rows)}</tbody>"
                "</table></div>")

    def start(self, counts):
        """The first page."""
        headlines = "".join(self.headline_card(name) for name in HEADLINES)
        crates = "".join(
            f"<h3>{html.escape(title)}</h3><ul class=\"cards\">"
            + "".join(self.crate_card(crate) for crate in names) + "</ul>"
            for title, names in self.library.groups if names)
        return (
            "<h1>Reference</h1><p>Every public call of the libraries has a contract, and every "
            "contract is proved. A contract means what its definitions say. So each word of a contract "
            "links to its definition, and each word of a definition to those below it.</p>"
            '<p>What must be believed are the <span class="badge believe">definitions</span>, with '
            'their lines. What is <span class="badge law">proved</span> of them need not be. A '
            '<span class="badge codec">codec</span> holds both: its values are followed, its laws are '
            "proved. Words of the kit's own library have no link; their module is in the tooltip.</p>"
            + section("Headlines, in reading order", f'<ul class="cards">{headlines}</ul>'
                      '<p><a href="/guarantees.html">All guarantees</a>, with the contract that '
                      "carries each.</p>")
            + section("Crates", crates)
            + section("In numbers", f"<p>{counts}</p>"))

    def headline_card(self, name):
        """A headline with its lines."""
        files = self.belief.of_headline(name)
        items = [one for group in files.values() for one in group]
        return (f'<li><a href="{headline_path(name)}">{html.escape(name)}</a> '
                f"<small>{counted(lines_of(items), 'line')} to believe, "
                f"{counted(len(files), 'file')}</small></li>")

    def crate_card(self, crate):
        """A crate with the first sentence of its comment."""
        docs = self.library.files[crate, ()].docs
        text = re.split(r"(?<=\.)\s", " ".join(docs))[0]
        return (f'<li><a href="/{crate}/index.html"><code>{crate}</code></a> '
                f"<small>{Markdown().inline(text)}</small></li>")


def path_of(items):
    """The file of items."""
    return items[0].file
