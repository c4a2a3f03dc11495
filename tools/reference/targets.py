"""What a word stands for: a target with its link, and the type of its values where it is known."""
import re

from definitions import split_outside
from library import impl_parts
from source import masked, parts_of_body

# A field of a struct, or a variant of an enum.
PART = re.compile(r"(?:pub(?:\([^)]*\))? )?(?:ghost )?(\w+):?\s*(.*)", re.S)
HEAD = re.compile(r"[^\W\dλ][\w']*(?:-[\w']+)*")


class Target:
    """What a word stands for. The type is read in its context, as Rust's where `is_rust` is true."""

    def __init__(self, kind, href="", title="", of=None, context=None, is_rust=False, inner=None):
        self.kind, self.href, self.title = kind, href, title
        self.of, self.context, self.is_rust, self.inner = of, context, is_rust, inner


def kit(path):
    """A word of the kit."""
    return Target("kit", title=path)


def local(of=None, context=None, is_rust=False):
    """A name that is bound where it stands."""
    return Target("local", "", "bound here", of, context, is_rust)


def page_of_module(key):
    """The page of a module of definitions."""
    crate, folder, module = key
    return f"/{crate}/{folder}/{module}.html"


def end_of(text):
    """The end of a type: what stands after its arrows, without the brackets around it."""
    end = split_outside(text, "→")[-1].strip()
    while end.startswith("(") and end.endswith(")") and len(split_outside(end[1:-1], ")")) == 1:
        end = end[1:-1].strip()
    return end


def fields_of_struct(one, resolver):
    """The public fields of a Rust struct: for each name its target."""
    found = {}
    for _, text in parts_of_body(one.item.body):
        match = PART.match(text)
        if match:
            found[match.group(1)] = Target(
                "field", one.href(match.group(1)), f"a field of {one.path()}", match.group(2),
                resolver.rust_context(one.file), True)
    return found


def variants_of(one):
    """The names of the variants of a Rust enum."""
    return [re.match(r"\w+", text).group() for _, text in parts_of_body(one.item.body)]


class Types:
    """Finds what a type has as fields. Both kinds of contexts find words by `find`."""

    def __init__(self, resolver):
        self.resolver = resolver

    def field(self, of, context, is_rust, name, depth=0):
        """The target of a field of a value of the type, or none if the type is not known."""
        if of is None or context is None or depth > 8:
            return None
        if is_rust:
            return self.field_of_rust(of, context, name)
        head = HEAD.match(end_of(of))
        found = context.find(head.group()) if head else None
        if found is None:
            return None
        if found.kind == "type":
            return self.resolver.struct_fields(found.inner).get(name)
        if found.kind not in ("definition", "codec", "law"):
            return None
        item = found.inner
        for own, type_of, _ in item.fields:
            if own == name:
                return self.resolver.field_target(item, own, type_of)
        if item.kind == "def" and end_of(item.type).startswith("Type"):
            body = item.body.partition("=")[2]
            inner = self.resolver.context_of(item)
            return self.field(body, inner, False, name, depth + 1)
        return None

    def field_of_rust(self, of, context, name):
        """The same of a type of Rust."""
        text = re.sub(r"^(?:&\s*(?:'\w+ )?(?:mut )?)*", "", of.strip())
        head = re.match(r"[\w:]+", text)
        found = context.rust(head.group().split("::")) if head else None
        if found is None or found.kind != "type":
            return None
        return self.resolver.struct_fields(found.inner).get(name)


class DefinitionContext:
    """The words of a module of definitions."""

    IMPORT = re.compile(r"(?m)^\s*(?:pub )?use (?:Rattle\.)?([\w.+-]+)\.\{([^}]*)\}")
    WHOLE = re.compile(r"(?m)^\s*(?:pub )?use Rattle\.([\w.+-]+?)(?: as (\w+))?\s*$")

    def __init__(self, resolver, key, text):
        self.resolver, self.key, self.imports, self.modules = resolver, key, {}, {}
        for path, names in self.IMPORT.findall(text):
            self.imports.update(split_names(path, names))
        for path, other in self.WHOLE.findall(text):
            self.modules[other or path.rsplit(".", 1)[1]] = path
        self.own = resolver.specs.items[key]

    def find(self, word):
        """The target of a word, or none."""
        if word in self.own:
            return self.resolver.definition(self.own[word], word)
        if word in self.imports:
            return self.resolver.imported(*self.imports[word])
        if word in self.modules:
            return Target("module", "", f"Rattle.{self.modules[word]}", inner=self.modules[word])
        return None


class RustContext:
    """The words of clauses and of code in a file: in a trait, an impl, or outside of both."""

    IMPORT = re.compile(r"(?s)^ghost use Rattle\.([\w.+-]+)\.\{(.*)\}")

    def __init__(self, resolver, file, owner=None):
        self.resolver, self.file, self.owner = resolver, file, owner
        self.imports = {}
        for item in [*file.items, *(owner.members if owner else [])]:
            match = self.IMPORT.match(item.head)
            if match:
                self.imports.update(split_names(*match.groups()))

    def find(self, word):
        """The target of a word of a clause, or none."""
        if word in self.imports:
            return self.resolver.imported(*self.imports[word])
        own = self.resolver.member_of(self.file, self.traits(), word) if self.owner else None
        return own or self.rust([word])

    def traits(self):
        """The trait that the block is, or whose impl it is."""
        if self.owner.kind == "trait":
            return [self.owner.name]
        of_trait = impl_parts(self.owner.head)[0]
        return [re.sub(r"<.*", "", of_trait)] if of_trait else []

    def rust(self, path):
        """The target of a path of Rust code, or none."""
        return self.resolver.rust_target(self.file, path)


def split_names(path, names):
    """What a list of imported names brings: for each its path and its own name."""
    found = {}
    for part in filter(None, (part.strip() for part in names.split(","))):
        own, _, other = part.partition(" as ")
        found[(other or own).strip()] = (path, own.strip())
    return found


def bounds_of(head):
    """The bounds of each type parameter of an item's head."""
    found, text = {}, masked(head)
    for part in re.findall(r"[<,]\s*(?:const )?(\w+)\s*:\s*([^,<>{]*(?:<[^<>]*>[^,<>{]*)*)", text):
        names = re.findall(r"(?:\w+::)*[A-Z]\w*", re.sub(r"<[^<>]*>", "", part[1]))
        found.setdefault(part[0], []).extend(names)
    for part in re.findall(r"(?m)^\s*(\w+): ([^,{]*),$", text):
        found.setdefault(part[0], []).extend(re.findall(r"(?:\w+::)*[A-Z]\w*", part[1]))
    return found


