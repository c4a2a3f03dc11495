#!/usr/bin/env python3
"""Checks the reference that tools/reference.sh writes, and prints its counts.

Every link leads to a page and to an anchor on it, no page has an anchor twice, every public item,
function and clause that regular expressions find in the sources is there, and every word of every
clause is linked, bound, or known as the kit's. Each definition that a contract is said to rest on
is reached from that contract by clicks alone. Usage, at the top of the repository:
python3 tools/check_reference.py [OUT]. Without a folder it writes the site anew and drops it again.
"""
import collections
import html.parser
import pathlib
import re
import subprocess
import sys
import tempfile
import urllib.parse

ITEM = re.compile(r"^pub (?:const )?(fn|struct|enum|trait|type|const|static) (\w+)", re.M)
BLOCK = re.compile(r"^(pub trait|impl)\b(.*)")
FUNCTION = re.compile(r"^( *)(pub )?(?:final |const )*fn (\w+)")
LETTERS = re.compile(r"[^\W\d_]")


class Reader(html.parser.HTMLParser):
    """Reads a page: its anchors, its links, its headings, and its clauses with their words."""

    def __init__(self):
        super().__init__()
        self.anchors, self.links, self.items, self.bad = [], [], [], []
        self.open, self.passed_on, self.clauses, self.known = [], set(), [], 0
        self.ways, self.below = collections.defaultdict(list), collections.defaultdict(list)

    def handle_starttag(self, tag, attributes):
        found = dict(attributes)
        if tag in ("meta", "link", "br"):
            self.links += [found["href"]] if "href" in found else []
            return
        kinds = (found.get("class") or "").split()
        self.open.append((tag, kinds))
        if "id" in found:
            self.anchors.append(found["id"])
        if tag == "section" and "item" in kinds:
            self.items.append(found.get("id"))
        if "href" in found:
            self.links.append(found["href"])
            around = {kind for _, inner in self.open for kind in inner}
            if self.items and around & {"contract", "definition", "above"}:
                self.ways[self.items[-1]].append(found["href"])
            elif self.items and "believe" in around:
                self.below[self.items[-1]].append(found["href"])
        if "clause" in kinds:
            self.clauses.append(found["id"])
        if "u" in kinds:
            self.bad.append("a word of which nothing is known")

    def handle_endtag(self, tag):
        if self.open and self.open[-1][0] == tag:
            self.open.pop()
        elif tag != "br":
            self.bad.append(f"</{tag}> closes nothing")

    def handle_data(self, data):
        if any("inline" in kinds for _, kinds in self.open):
            self.passed_on.add(data.strip())
        if not any("clause" in kinds for _, kinds in self.open):
            return
        if "clause" in self.open[-1][1]:
            if LETTERS.search(data):
                self.bad.append(f"a word of a clause without a mark: {data.strip()}")
        else:
            self.known += len(re.findall(r"[\w'-]+", data))


def read(folder):
    """Each page of the site."""
    pages = {}
    for path in sorted(folder.rglob("*.html")):
        pages[path.resolve()] = reader = Reader()
        reader.feed(path.read_text())
    return pages


def broken_links(folder, pages):
    """The links that lead nowhere, and the anchors that stand twice."""
    anchors = {path: set(page.anchors) for path, page in pages.items()}
    for path, page in pages.items():
        name = path.relative_to(folder)
        if len(anchors[path]) < len(page.anchors):
            twice = {one for one in page.anchors if page.anchors.count(one) > 1}
            yield f"{name}: the anchor {sorted(twice)[0]} stands twice"
        if page.open:
            yield f"{name}: <{page.open[-1][0]}> is never closed"
        yield from (f"{name}: {one}" for one in page.bad)
        for link in page.links:
            target, _, anchor = link.partition("#")
            other = (path.parent / urllib.parse.unquote(target)).resolve() if target else path
            if not other.is_file():
                yield f"{name}: no file {link}"
            elif anchor and urllib.parse.unquote(anchor) not in anchors.get(other, ()):
                yield f"{name}: no anchor {link}"


class Ways:
    """The clicks from one item to others: from its contract, or from its definition."""

    def __init__(self, pages):
        self.pages, self.steps = pages, {}

    def place(self, path, link):
        """The page and the item that a link leads to."""
        target, _, anchor = link.partition("#")
        other = (path.parent / urllib.parse.unquote(target)).resolve() if target else path
        anchor = urllib.parse.unquote(anchor)
        items = self.pages[other].items if other in self.pages else []
        while anchor and anchor not in items:
            anchor = anchor.rpartition(".")[0]
        return other, anchor

    def from_item(self, place):
        """The items that one click leads to."""
        if place not in self.steps:
            path, anchor = place
            self.steps[place] = {self.place(path, link) for link in
                                 self.pages[path].ways.get(anchor, [])} if path in self.pages else set()
        return self.steps[place]

    def clicks(self, start):
        """How many clicks each item is away."""
        found, queue = {start: 0}, collections.deque([start])
        while queue:
            here = queue.popleft()
            for there in self.from_item(here) - found.keys():
                found[there] = found[here] + 1
                queue.append(there)
        return found


def out_of_reach(folder, pages, counts):
    """The definitions that no clicks lead to from a contract that rests on them."""
    ways = Ways(pages)
    for path, page in pages.items():
        for item, links in page.below.items():
            found = ways.clicks((path, item))
            for link in links:
                place = ways.place(path, link)
                counts["clicks"] = max(counts["clicks"], found.get(place, 0))
                if place not in found:
                    yield f"{path.relative_to(folder)}#{item}: no clicks lead to {link}"


def libraries():
    """The crates above the tests that are libraries."""
    head = pathlib.Path("crates.txt").read_text().partition("\n# tests")[0]
    names = re.findall(r"(?m)^(\w+)(?= |:)", head)
    return [name for name in names if pathlib.Path("crates", name, "src/lib.rt").exists()]


def public_names(crate):
    """The names that a crate makes public, for each public module."""
    top = pathlib.Path("crates", crate, "src/lib.rt").read_text()
    modules = {(): top}
    for name in re.findall(r"(?m)^pub mod (\w+);", top):
        modules[name,] = pathlib.Path("crates", crate, "src", f"{name}.rt").read_text()
    own = re.findall(r"(?m)^(?:pub )?mod (\w+);", top)
    for module, text in modules.items():
        names = {name for _, name in ITEM.findall(text)}
        inner = re.findall(r"(?m)^mod (\w+);", text) if module else own
        for use in re.findall(r"(?m)^pub use ([^;]*);", text):
            source = use.split("::")[0]
            if source in inner or source == "crate":
                names |= set(re.findall(r"\w+(?=\s*(?:,|\}|$))", use.split("::", 1)[1]))
        yield module, names


def functions_of(path):
    """Each function of a file with the block that it stands in and the number of its clauses."""
    block, found = "", None
    for line in path.read_text().splitlines():
        head = BLOCK.match(line)
        if head:
            block = line
        elif line.startswith("}"):
            block = ""
        match = FUNCTION.match(line)
        if match and len(match.group(1)) in (0, 4):
            if found:
                yield tuple(found)
            found = [block if match.group(1) else "", bool(match.group(2)), match.group(3), 0]
        if found and re.match(r"\s+(ensures|requires)\b", line):
            found[3] += 1
        if found and (re.match(r"\s*\{", line) or line.endswith((") {", "> {", "};", ");"))):
            yield tuple(found)
            found = None
    if found:
        yield tuple(found)


def expected(crate):
    """What the sources of a crate make public: items, and functions with their clauses."""
    items, functions = set(), collections.Counter()
    for _, names in public_names(crate):
        items |= names
    for path in sorted(pathlib.Path("crates", crate, "src").rglob("*.rt")):
        own = {name for _, name in ITEM.findall(path.read_text())}
        for block, is_public, name, clauses in functions_of(path):
            trait = re.match(r"pub trait (\w+)", block)
            owner = trait or re.match(r"impl(?:<.*?>)? (\w+)(?:<[^{]*>)? \{", block)
            if not block and is_public and name in own & items:
                functions["", name] += clauses
            elif owner and owner.group(1) in items and (trait or is_public):
                functions[owner.group(1), name] += clauses  # of each type of that name
    return items, functions


def missing(folder, pages, crate, counts):
    """The public items and functions of a crate that the site lacks."""
    items, functions = expected(crate)
    anchors, clauses, names = {}, {}, set()
    for path, page in pages.items():
        if path.parent != (folder / crate).resolve():
            continue
        owner = (re.search(r"\b(?:trait|type)\.(\w+)\.html$", path.name) or ["", ""])[1]
        names |= {owner} if owner else {*page.items, *page.passed_on}
        anchors.setdefault(owner, set()).update(page.items)
        for clause in page.clauses:
            holder = clause.rpartition(".")[0]
            clauses[owner, holder] = clauses.get((owner, holder), 0) + 1
    counts["items"] += len(items)
    counts["functions"] += len(functions)
    yield from (f"{crate}: {name} has no place" for name in sorted(items - names - {"self"}))
    for (owner, name), wanted in functions.items():
        counts["clauses"] += wanted
        if name not in anchors.get(owner, ()):
            yield f"{crate}: {owner}::{name} has no place"
        elif clauses.get((owner, name), 0) != wanted:
            yield f"{crate}: {owner}::{name} has {clauses.get((owner, name), 0)} of {wanted} clauses"


def check(folder):
    """Prints what is wrong and the counts, and whether something is wrong."""
    folder = folder.resolve()
    pages, counts = read(folder), {"items": 0, "functions": 0, "clauses": 0, "clicks": 0}
    wrong = [*broken_links(folder, pages), *out_of_reach(folder, pages, counts)]
    for crate in libraries():
        wrong += missing(folder, pages, crate, counts)
    for line in wrong:
        print(line)
    links = sum(len(page.links) for page in pages.values())
    definitions = sum(len(page.items) for path, page in pages.items()
                      if path.parent.name in ("specs", "proofs"))
    size = sum(path.stat().st_size for path in folder.rglob("*") if path.is_file())
    words = sum(page.known for page in pages.values())
    print(f"{len(pages):,} pages, {counts['items']:,} public items, {counts['functions']:,} functions "
          f"with {counts['clauses']:,} clauses of {words:,} words, {definitions:,} definitions and "
          f"laws, {links:,} links, {size:,} bytes, at most {counts['clicks']} clicks from a "
          f"contract to a definition below it; {len(wrong)} wrong")
    return bool(wrong) or not pages


def main():
    if len(sys.argv) > 1:
        return check(pathlib.Path(sys.argv[1]))
    with tempfile.TemporaryDirectory() as folder:
        done = subprocess.run(["sh", "tools/reference.sh", folder], stdout=subprocess.PIPE, text=True)
        print(done.stdout, end="")
        return check(pathlib.Path(folder)) or done.returncode


if __name__ == "__main__":
    sys.exit(main())
