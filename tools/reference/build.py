#!/usr/bin/env python3
"""Writes the reference: a site of all public items of the libraries, their contracts, and the
definitions below these. Usage, at the top of the repository: sh tools/reference.sh OUT
"""
import pathlib
import sys

sys.path.insert(0, str(pathlib.Path(__file__).resolve().parent.parent))
sys.path.insert(0, str(pathlib.Path(__file__).resolve().parent))

from belief import Belief, counted, lines_of  # noqa: E402
from crate_pages import CratePages, Writer  # noqa: E402
from definition_pages import DefinitionPages  # noqa: E402
from front_pages import FrontPages, Names, headline_path  # noqa: E402
from item_pages import ItemPages, internal_items  # noqa: E402
from library import module_page  # noqa: E402
from page import Site  # noqa: E402
from resolver import Resolver  # noqa: E402
from targets import page_of_module  # noqa: E402
from what_to_read import HEADLINES  # noqa: E402

START = ("Start", "/index.html")


class Build:
    """Gathers all pages of the site."""

    def __init__(self):
        self.resolver = Resolver()
        self.library, self.belief = self.resolver.library, Belief(self.resolver)
        self.writer = Writer(self.resolver, self.belief)
        self.definitions = DefinitionPages(self.resolver, self.belief)
        self.items = ItemPages(self.writer)
        self.crates = CratePages(self.writer, self.definitions)

    def run(self, folder):
        """Writes the site. Public items come first, since what they rest on is marked elsewhere."""
        bodies = {one: self.items.page(one) for crate in self.library.crates
                  for one in self.library.public_items(crate) if one.page()[1] == ""}
        for key in self.library.files:
            self.crates.page(*key) if key[1] in self.library.public_modules(key[0]) else None
        self.writer.contracts = {"requires": 0, "ensures": 0, "calls": 0}
        self.definitions.render()
        site = Site()
        self.add_front(site)
        for crate in self.library.crates:
            self.add_crate(site, crate, bodies)
        site.write(folder)
        return site

    def add_front(self, site):
        """The pages at the front."""
        names = Names(self.resolver, self.writer, self.definitions)
        front = FrontPages(self.resolver, self.belief, self.definitions, names)
        site.add("/index.html", "Reference", [], front.start(self.counts()))
        for name in HEADLINES:
            site.add(headline_path(name), name, [START], front.headline(name))
        site.add("/guarantees.html", "Guarantees", [START], front.guarantees())
        site.add("/all.html", "All names", [START], names.page())

    def add_crate(self, site, crate, bodies):
        """The pages of a crate: its modules, its items and its definitions."""
        above = [START, (crate, module_page(crate, ()))]
        for module in self.library.public_modules(crate):
            title = "::".join([crate, *module])
            crumbs = above if module else [START]
            site.add(module_page(crate, module), title, crumbs, self.crates.page(crate, module))
            for one in self.library.public_items(crate, module):
                if one in bodies:
                    inner = [(part, module_page(crate, module)) for part in module[-1:]]
                    site.add(one.page()[0], one.name, [*above, *inner], bodies[one])
        for key, items in self.definitions.modules().items():
            if key[0] == crate:
                site.add(page_of_module(key), f"{key[1]}/{key[2]}", above,
                         self.definitions.page(key, items))
        self.add_internal(site, crate, above)

    def add_internal(self, site, crate, above):
        """The types that definitions or contracts name and that are not public."""
        written = {}
        while True:
            waiting = [one for one in internal_items(self.resolver)
                       if one.crate == crate and one not in written]
            if not waiting:
                break
            written.update((one, self.items.internal(one)) for one in waiting)
        if written:
            parts = ["<h1>Types that are not public</h1>",
                     "<p>Definitions or contracts name them, and no caller sees them.</p>",
                     *(written[one] for one in sorted(written, key=lambda one: one.name))]
            site.add(f"/{crate}/internal.html", "Types that are not public", above,
                     "\n".join(parts))

    def counts(self):
        """The numbers of the site."""
        public = [one for crate in self.library.crates for one in self.library.public_items(crate)]
        believed = self.belief.public
        laws = [one for one in self.resolver.specs.all() if self.resolver.kinds[one] == "law"]
        crates = counted(len(self.library.crates), "crate")
        return (f"{counted(len(public), 'public item')} in {crates}. "
                f"All public contracts together rest on {counted(len(believed), 'definition')} with "
                f"{counted(lines_of(believed), 'line')}; {counted(len(laws), 'law')} are proved of "
                "them.")

    def unknown(self):
        """The words of which nothing is known, each with where it stands."""
        return self.writer.unknown + self.definitions.unknown


def main():
    if len(sys.argv) != 2:
        print(__doc__.strip().splitlines()[-1])
        return 2
    build = Build()
    site = build.run(sys.argv[1])
    for where, word in build.unknown():
        print(f"{where}: nothing is known of {word}")
    print(f"{counted(len(site.pages), 'page')} in {sys.argv[1]}")
    return 1 if build.unknown() else 0


if __name__ == "__main__":
    sys.exit(main())
