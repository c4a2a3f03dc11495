"""Finds the target of each word, over the crates and over the definitions."""
import contextlib
import re

from definitions import Specs, module_of
from library import File, Library, RustItem, module_page
from source import Item
from targets import DefinitionContext, RustContext, Target, Types, bounds_of, fields_of_struct
from targets import kit, page_of_module, variants_of

PRELUDE = set("""
    Prim
    bool char str u8 u16 u32 u64 u128 usize i8 i16 i32 i64 i128 isize f32 f64 String Vec Option Some
    None Result Ok Err Box Drop Copy Clone Sized Fn FnMut FnOnce Iterator IntoIterator Default
    PartialEq Eq PartialOrd Ord From Into AsRef ToString Send Sync Hash Debug Display Error Write
    Read Extend HostRuntime
""".split())
# Words of the language itself, and of clauses without an import; `lit<` is cut before its `<`.
LANGUAGE = set("""
    Type Unit tt absurd refl record let in if then else elim with where unfolding data pub abbrev
    unfoldable do mutual ruleset as cc grind omega search rw lit _
""".split())

# The modules that the kit makes of a type: its variants, one level of it, its views and its folds.
GENERATED = {"TheVariants", "TheOpen", "TheViews", "TheFolds"}


class Resolver:
    """All that is needed to link a word."""

    def __init__(self):
        self.library, self.specs = Library(), Specs()
        self.types, self.contexts, self.structs = Types(self), {}, {}
        self.internal, self.linked, self.named_by, self.current = set(), set(), {}, None
        self.is_noting = True
        self.kinds = {item: self.kind(item) for item in self.specs.all()}
        self.fields, self.members = {}, {}
        for item in self.specs.all():
            for name, of, _ in item.fields if item.file.parts[2] == "specs" else []:
                self.fields.setdefault(name, []).append((item, of))
        for one in self.library.rust.values():
            for member in one.item.members if one.kind == "trait" and one.home else []:
                if member.kind in ("ghost", "type", "fn") and member.name != "use":
                    self.members.setdefault(member.name, []).append((one, member))

    def kind(self, item):
        """What an item is to a reader: a law, a codec or a definition."""
        if self.specs.is_law(item):
            return "law"
        return "codec" if self.specs.is_instance(item) else "definition"

    @contextlib.contextmanager
    def unnoted(self):
        """Within it nothing is noted, since nothing is written."""
        before, self.is_noting = self.is_noting, False
        yield
        self.is_noting = before

    def note(self, target):
        """Notes that what is written now names a definition."""
        item = target.inner
        if self.is_noting and hasattr(item, "signature"):
            self.linked.add(item)
            if self.current is not None:
                self.named_by.setdefault(item, {})[self.current] = True

    # ---- definitions

    def context_of(self, item):
        """The words of the module of an item."""
        key = module_of(item.file)
        if key not in self.contexts:
            self.contexts[key] = DefinitionContext(self, key, item.file.read_text())
        return self.contexts[key]

    def definition_href(self, item, name=None):
        """The link to an item, or to what stands in it."""
        anchor = item.name if name in (None, item.name) else f"{item.name}.{name}"
        return f"{page_of_module(module_of(item.file))}#{anchor}"

    def definition(self, item, name):
        """The target of an item, or of a constructor of it."""
        crate, folder, module = module_of(item.file)
        kind = self.kinds[item]
        words = {"law": "a law, proved", "codec": "a codec", "definition": "a definition"}[kind]
        title = f"{words} of {crate}/{folder}/{module}"
        of = item.type if name == item.name and item.kind == "def" else None
        return Target(kind, self.definition_href(item, name), title, of, self.context_of(item),
                      inner=item)

    def field_target(self, item, name, of):
        """The target of a field of a record."""
        return Target("field", self.definition_href(item, name), f"a field of {item.name}", of,
                      self.context_of(item), inner=item)

    def imported(self, path, name):
        """The target of an imported name."""
        crate, *rest = path.split(".")
        if not any(key[0] == crate for key in self.library.files):
            return kit(f"Rattle.{path}")
        if "declared" in rest:
            return self.declared(crate, rest[rest.index("declared") + 1:], name)
        item = self.specs.find(crate, rest[0], rest[1], name) if len(rest) == 2 else None
        return self.definition(item, name) if item is not None else None

    def in_module(self, path, name):
        """The target of a name in a module that is imported as a whole."""
        found = self.imported(path, name)
        crate, *rest = path.split(".")
        passed = self.specs.passed.get((crate, *rest)) if len(rest) == 2 else None
        return found or (self.imported(".".join(passed), name) if passed else None)

    def declared(self, crate, rest, name):
        """The target of a name that stands for a Rust type or for a variant of one."""
        is_variant = rest[-1] == "TheVariants"
        names = [part for part in rest if part not in GENERATED]
        one = self.library.rust.get((crate, tuple(names[:-1]), names[-1]))
        return self.type_target(one, name if is_variant else "") if one else None

    # ---- Rust

    def rust_context(self, file, owner=None):
        """The words of a file, or of a block in it."""
        key = (file.crate, file.module, owner)
        if key not in self.contexts:
            self.contexts[key] = RustContext(self, file, owner)
        return self.contexts[key]

    def type_target(self, one, member=""):
        """The target of a Rust item, or of a variant of it."""
        if one.home is None:
            self.internal.add(one)
        kind = "type" if one.kind in ("struct", "enum", "type", "trait") else "call"
        private = "" if one.home else ", which is not public"
        return Target(kind, one.href(member), f"{one.kind} {one.path()}{private}", inner=one)

    def rust_target(self, file, path):
        """The target of a path of Rust code."""
        found = self.library.resolve(file, path)
        if isinstance(found, RustItem):
            return self.type_target(found) if found.home or found.kind != "fn" else None
        if isinstance(found, File):
            public = found.module in self.library.public_modules(found.crate)
            title = "::".join(("module" if found.module else "crate", found.crate, *found.module))
            return Target("module", module_page(found.crate, found.module) if public else "", title)
        if isinstance(found, str):
            return kit(found)
        if len(path) > 1:
            outer = self.library.resolve(file, path[:-1])
            if isinstance(outer, RustItem) and path[-1] in self.names_inside(outer):
                return self.type_target(outer, path[-1])
        return kit("the kit's prelude") if path[0] in PRELUDE else None

    def names_inside(self, one):
        """The names of variants, or of members, inside of a Rust item."""
        if one.kind == "enum":
            return variants_of(one)
        return [member.name for member in one.item.members]

    def struct_fields(self, one):
        """The fields of a Rust struct, by name."""
        if one not in self.structs:
            self.structs[one] = fields_of_struct(one, self) if one.kind == "struct" else {}
        return self.structs[one]

    # ---- members of traits

    def member_of(self, file, traits, word, depth=0):
        """The target of a member of one of the traits, or of those above them."""
        above = []
        for name in traits if depth < 6 else []:
            found = self.library.resolve(file, name.split("::"))
            if not isinstance(found, RustItem) or found.kind != "trait":
                continue
            for member in found.item.members:
                if member.name == word and member.kind in ("ghost", "type", "fn"):
                    return self.member_target(found, member)
            above.append((found, re.findall(r"(?:\b\w+::)*\b[A-Z]\w*",
                                            found.item.head.partition(":")[2])))
        for one, names in above:
            target = self.member_of(one.file, names, word, depth + 1)
            if target is not None:
                return target
        return None

    def member_target(self, one, member):
        """The target of a member of a trait. The type of a ghost member is that of its values."""
        of = re.match(r"ghost \w+:\s*\{(.*)\}", member.head, re.S)
        return Target("member", one.href(member.name), f"a member of {one.path()}",
                      of.group(1) if of else None, self.rust_context(one.file, one.item))

    def by_name(self, word, crate, with_members=False):
        """The target of a field whose record is not known: the one of this name, or their list.

        Only what the crate itself has, or those below it, can be meant.
        """
        below = self.library.below.get(crate, {crate})
        found = [self.field_target(item, word, of) for item, of in self.fields.get(word, [])
                 if item.file.parts[1] in below]
        found += [self.struct_fields(one)[word] for one in self.library.rust.values()
                  if one.kind == "struct" and one.crate in below and word in self.struct_fields(one)]
        found += [self.member_target(one, member) for one, member in self.members.get(word, [])
                  if with_members and one.crate in below and member.kind != "fn"]
        if len(found) == 1:
            return found[0]
        many = Target("field", f"/all.html#field.{word}", "one of several fields of this name")
        return many if found else None

    def record_with(self, names, crate):
        """The fields of the one record or struct that has exactly fields of these names."""
        below = self.library.below.get(crate, {crate})
        found = [{name: self.field_target(item, name, of) for name, of, _ in item.fields}
                 for item, _ in self.fields.get(min(names), [])
                 if item.file.parts[1] in below and {name for name, *_ in item.fields} == names]
        found += [self.struct_fields(one) for one in self.library.rust.values()
                  if one.kind == "struct" and one.crate in below
                  and self.struct_fields(one).keys() == names]
        return found[0] if len(found) == 1 else {}

    def bounds(self, heads, owner, file):
        """The traits that bound each type parameter, and `Self`."""
        found = {}
        for head in heads:
            for name, traits in bounds_of(head).items():
                found.setdefault(name, []).extend(traits)
        if isinstance(owner, Item) and owner.kind == "trait":
            found["Self"] = [owner.name]
        return found
