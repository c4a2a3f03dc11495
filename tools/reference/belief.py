"""What a reader must believe: the definitions below a contract, with their lines."""
import functools

from definition_text import DefinitionText
from definitions import module_of
from what_to_read import HEADLINES, READ, closure, followed


class Belief:
    """Finds the definitions below others, and counts their lines."""

    def __init__(self, resolver):
        self.specs, self.resolver = resolver.specs, resolver
        self.specs.said = functools.cache(self.specs.said)
        self.named = self.specs.items_in
        self.specs.items_in = functools.cache(self.items_in)
        crates = [crate for _, names in resolver.library.groups for crate in names]
        self.order = {crate: place for place, crate in enumerate(crates)}
        self.places = {item: place for place, item in enumerate(self.specs.all())}
        self.public = set()

    def items_in(self, item, text):
        """The items that a text of an item names, without those whose names are bound there."""
        exact = self.exact_names(item)
        return [one for one in self.named(item, text) if one in exact]

    @functools.cache
    def exact_names(self, item):
        """The items that the code of an item names, read with its scopes."""
        with self.resolver.unnoted():
            return DefinitionText(self.resolver, item, []).names()

    def ordered(self, items):
        """The items by crate, file and place."""
        return sorted(set(items), key=lambda item: (
            self.order.get(item.file.parts[1], len(self.order)), str(item.file), self.places[item]))

    def below(self, items, text):
        """The definitions that a contract of these items and this text rests on."""
        found = self.ordered(followed(self.specs, list(dict.fromkeys(items)),
                                      set(READ.findall(text))))
        self.public.update(found)
        return found

    @functools.cache
    def below_item(self, item):
        """The item and the definitions below it."""
        return self.ordered(followed(self.specs, [item], set()))

    def of_headline(self, name):
        """The definitions of a headline, by file in reading order."""
        places, types, *_ = HEADLINES[name]
        return by_file(self.ordered(closure(self.specs, name, places, types)))


def by_file(items):
    """Items by their files."""
    files = {}
    for item in items:
        files.setdefault(item.file, []).append(item)
    return files


def lines_of(items):
    """How many lines the definitions have, with the comments above them."""
    return sum(len(item.lines) for item in items)


def counted(number, word):
    """A number with its word."""
    return f"{number:,} {word}" + ("" if number == 1 else "s")


def summary(items):
    """The count of definitions, lines and files."""
    files = counted(len(by_file(items)), "file")
    return f"{counted(len(items), 'definition')}, {counted(lines_of(items), 'line')} in {files}"


def name_of(item):
    """The file of an item, as a reader names it."""
    crate, folder, module = module_of(item.file)
    return f"{crate}/{folder}/{module}"
