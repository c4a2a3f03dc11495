"""The crates of the libraries: their files, what each file imports, and what is public of them."""
import pathlib
import re

from source import items_of, masked, module_docs


KIT_CRATES = {"std", "core", "thiserror", "anyhow"}


class File:
    """A module of Rust code: its comment, its items and its imports."""

    def __init__(self, crate, module, path):
        text = path.read_text()
        self.crate, self.module, self.path = crate, module, path
        self.docs, self.items = module_docs(text), items_of(text)
        self.uses, self.passed_on = {}, []
        for item in self.items:
            if item.kind == "use":
                names = use_names(item.head.split("use", 1)[1])
                self.uses.update(names)
                if item.public == "pub":
                    self.passed_on += names

    def named(self, name):
        """The item of a name that the file itself has."""
        for item in self.items:
            if item.name == name and item.kind not in ("use", "impl", "mod", "ghost"):
                return item
        return None


class RustItem:
    """An item with the file that it stands in, and its page, if it is public."""

    def __init__(self, file, item):
        self.file, self.item, self.home = file, item, None
        self.name, self.kind, self.crate = item.name, item.kind, file.crate

    def page(self):
        """The page that the item has or stands on, and its anchor there."""
        crate, module, name = self.home
        place = "".join(part + "." for part in module)
        if self.kind == "trait":
            return f"/{crate}/{place}trait.{name}.html", ""
        if self.kind in ("struct", "enum", "type"):
            return f"/{crate}/{place}type.{name}.html", ""
        return module_page(crate, module), name

    def href(self, member=""):
        """The link to the item, or to a member of it."""
        if self.home is None:
            return f"/{self.crate}/internal.html#{self.name}" + (f".{member}" if member else "")
        page, anchor = self.page()
        parts = [part for part in (anchor, member) if part]
        return page + ("#" + ".".join(parts) if parts else "")

    def path(self):
        """The name with the path to it."""
        crate, module, name = self.home or (self.crate, self.file.module, self.name)
        return "::".join([crate, *module, name])


def module_page(crate, module):
    """The page of a crate or of a module."""
    return f"/{crate}/" + ("mod." + ".".join(module) if module else "index") + ".html"


def use_names(text):
    """The names that the tree of a `use` brings, each with its path."""
    found = {}

    def walk(prefix, part):
        part = part.strip().rstrip(";").strip()
        brace = part.find("{")
        if brace >= 0:
            inside, depth, piece = part[brace + 1:part.rindex("}")], 0, ""
            path = prefix + [one for one in part[:brace].split("::") if one.strip()]
            for character in inside + ",":
                depth += (character == "{") - (character == "}")
                if character == "," and depth == 0:
                    if piece.strip():
                        walk(path, piece)
                    piece = ""
                else:
                    piece += character
            return
        path, _, other = part.partition(" as ")
        path = prefix + [one.strip() for one in path.split("::")]
        if path[-1] == "self":
            path = path[:-1]
        found[other.strip() or path[-1]] = path

    walk([], masked(text))
    return found


def groups_of(path="crates.txt"):
    """The crates that are no tests, by the comment above them."""
    groups = []
    for line in pathlib.Path(path).read_text().splitlines():
        if line.startswith("# tests"):
            break
        if line.startswith("# ") and ":" not in line:
            groups.append((line[2:], []))
        elif line and not line.startswith("#"):
            groups[-1][1].append(line.split(":")[0].split()[0])
    return groups


def below_each(path="crates.txt"):
    """For each crate itself and every crate that it stands on."""
    found = {}
    for line in pathlib.Path(path).read_text().splitlines():
        head, colon, uses = line.partition(":")
        if colon and not line.startswith("#"):
            found[head.split()[0]] = uses.split()

    def all_below(crate):
        return {crate}.union(*(all_below(one) for one in found.get(crate, [])))

    return {crate: all_below(crate) for crate in found}


class Library:
    """The libraries of the repository, with what each name of their code stands for."""

    def __init__(self):
        self.groups = [(title, [crate for crate in crates
                                if pathlib.Path("crates", crate, "src/lib.rt").exists()])
                       for title, crates in groups_of()]
        self.crates = [crate for _, crates in self.groups for crate in crates]
        self.files, self.rust, self.below = {}, {}, below_each()
        for crate in self.crates:
            self.read(crate, (), pathlib.Path("crates", crate, "src/lib.rt"))
        for crate in self.crates:
            self.publish(crate, ())
        self.impls = list(self.all_impls())

    def read(self, crate, module, path):
        """Reads a module and those below it."""
        file = self.files[crate, module] = File(crate, module, path)
        for item in file.items:
            if item.kind == "mod":
                folder = pathlib.Path("crates", crate, "src", *module)
                self.read(crate, (*module, item.name), folder / f"{item.name}.rt")
            elif item.kind in ("trait", "struct", "enum", "fn", "const", "static", "type"):
                self.rust[crate, module, item.name] = RustItem(file, item)

    def publish(self, crate, module):
        """Gives each item that a module makes public its home, unless it has one above."""
        file = self.files[crate, module]
        for item in file.items:
            one = self.rust.get((crate, module, item.name))
            if item.public == "pub" and one is not None and one.home is None:
                one.home = (crate, module, item.name)
        for name in file.passed_on:
            one = self.resolve(file, [name])
            if isinstance(one, RustItem) and one.crate == crate and one.home is None:
                one.home = (crate, module, name)
        for item in file.items:
            if item.kind == "mod" and item.public == "pub":
                self.publish(crate, (*module, item.name))

    def public_modules(self, crate, module=()):
        """The modules of a crate that are public, from its root on."""
        yield module
        for item in self.files[crate, module].items:
            if item.kind == "mod" and item.public == "pub":
                yield from self.public_modules(crate, (*module, item.name))

    def public_items(self, crate, module=None):
        """The public items of a crate, or of one module, in the order of their sources."""
        found = [one for key, one in self.rust.items() if key[0] == crate and one.home]
        return [one for one in found if module is None or one.home[1] == module]

    def resolve(self, file, path, depth=0):
        """What a path stands for in a file: an item, a file, or the path of something of the kit."""
        head, *rest = path
        if depth > 12:
            return None
        if head in ("crate", "self", "super"):
            module = {"crate": (), "self": file.module, "super": file.module[:-1]}[head]
            here = self.files.get((file.crate, module))
            return self.inside(here, rest, depth + 1) if rest else here
        found = self.inside(file, [head], depth + 1)
        if found is None and (head, ()) in self.files:
            found = self.files[head, ()]
        if found is None and head in KIT_CRATES:
            return "::".join(path)
        if isinstance(found, str):
            return "::".join([found, *rest])
        if isinstance(found, File) and rest:
            return self.inside(found, rest, depth + 1)
        return found

    def inside(self, file, path, depth):
        """What a path stands for inside of a module."""
        head, *rest = path
        found = self.rust.get((file.crate, file.module, head))
        if found is None:
            found = self.files.get((file.crate, (*file.module, head)))
        if found is None and head in file.uses and file.uses[head] != path:
            found = self.resolve(file, file.uses[head], depth + 1)
        if found is None and head != "*" and "*" in file.uses:
            found = self.resolve(file, [*file.uses["*"][:-1], head], depth + 1)
        if isinstance(found, File) and rest:
            return self.inside(found, rest, depth + 1)
        return found

    def all_impls(self):
        """Each impl block with its file, its trait, if it has one, and its type's name."""
        for file in self.files.values():
            for item in file.items:
                if item.kind == "impl":
                    of_trait, of_type = impl_parts(item.head)
                    yield file, item, of_trait, of_type


def impl_parts(head):
    """The trait of an impl, or none, and the type that it is for."""
    text = " ".join(head.split())[len("impl"):].strip()
    if text.startswith("<"):
        depth = 0
        for at, character in enumerate(text):
            depth += (character == "<") - (character == ">" and text[at - 1] != "-")
            if depth == 0:
                text = text[at + 1:].strip()
                break
    text = re.split(r"\bwhere\b", text)[0].strip()
    of_trait, found, of_type = text.partition(" for ")
    return (of_trait, of_type) if found else (None, text)


