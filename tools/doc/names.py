"""What a name stands for: a definition, or an item of a crate."""
import re

from antt import NAME, Definition

OPERATOR = re.compile(r"◌(\S+)◌")
DOTTED = re.compile(rf"(?<![\w.]){NAME}(?:\.(?:{NAME}|\d+))*")
PATH = re.compile(r"(?<![\w.:])[A-Za-z_]\w*(?:::[A-Za-z_]\w*)*")


class Module:
    """A module of a crate, by its path there."""

    def __init__(self, crate, path):
        self.crate, self.path = crate, path


class Names:
    """Looks names up in all crates."""

    def __init__(self, crates):
        self.crates = crates
        self.specs = {module: it for crate in crates.values() for module, it in crate.specs.items()}
        self.tables = {}
        self.operator_names = [name for it in self.specs.values() for name in it.definitions if OPERATOR.fullmatch(name)]

    # Names of definitions

    def specs_at(self, module):
        """The file of definitions that a path names, also where one passes another on under a name of its own."""
        for _ in range(8):
            if module in self.specs:
                return self.specs[module]
            parts = module.split(".")
            for end in range(len(parts) - 1, 2, -1):
                above = ".".join(parts[:end])
                lists = self.specs.get(above) or self.specs.get(above + ".Lib")
                if lists and parts[end] in lists.passed_on:
                    module = ".".join([lists.passed_on[parts[end]], *parts[end + 1:]])
                    break
            else:
                return None
            declared = re.match(r"Rattle\.\w+\.specs\.declared\.", module)
            if declared:
                return None
        return None

    def whole(self, module):
        """The path of a module where what it names is, if another passes it on."""
        parts = module.split(".")
        lists = self.specs.get(".".join(parts[:3]) + ".Lib")
        if lists and len(parts) > 3 and parts[3] in lists.passed_on and module not in self.specs:
            return ".".join([lists.passed_on[parts[3]], *parts[4:]])
        return module

    def find(self, module, name):
        """What a name of a module of definitions stands for. It is None for what is of Rattle's own library."""
        parts = self.whole(module).split(".")
        if len(parts) < 3 or parts[1] not in self.crates:
            return None
        if parts[3:4] == ["declared"]:
            return self.declared(self.crates[parts[1]], parts[4:], name)
        specs = self.specs_at(module)
        if not name:
            return None
        if not specs:
            data = self.specs_at(module.rpartition(".")[0])
            return data and data.definitions.get(parts[-1])
        if name in specs.definitions or name in specs.constructors:
            return specs.definitions.get(name) or specs.constructors[name]
        if name in specs.imports and specs.imports[name][1]:
            return self.find(*specs.imports[name])
        return None

    def declared(self, crate, parts, name):
        """A type of Rust that definitions see, or one of its variants."""
        at = next((at for at, part in enumerate(parts) if part[0].isupper()), len(parts) - 1)
        source = crate.sources.get(tuple(parts[:at]))
        item = source and self.table(source).get(name if parts[at] == "TheConstants" else parts[at])
        if item and "TheVariants" in parts:
            return member_of(item, name)
        return item or None

    def in_clause(self, text, source, imports=()):
        """Where names stand in an antt text of a file of Rattle, and what each stands for."""
        imports = {**source.imports, **(imports or {})}

        def first(path):
            if path[0] in imports:
                return self.imported(imports[path[0]], path)
            if path[0][0].isupper():
                item = self.item(source.crate, source.path, path[:1])
                if item and not isinstance(item, Module):
                    return with_member(item, path)
            return None

        yield from located(text, first)
        yield from self.operators(text, imports, {})

    def in_specs(self, text, specs):
        """Where names stand in a definition, and what each stands for."""

        def first(path):
            own = specs.definitions.get(path[0]) or specs.constructors.get(path[0])
            if own:
                return own, 1
            return self.imported(specs.imports[path[0]], path) if path[0] in specs.imports else None

        yield from located(text, first)
        yield from self.operators(text, specs.imports, specs.definitions)

    def operators(self, text, imports, definitions):
        """Where operators stand that are definitions of these crates."""
        for name in self.operator_names:
            if name in imports or name in definitions:
                found = definitions.get(name) or self.find(*imports[name])
                for at in re.finditer(rf"(?<=\s){re.escape(name.strip('◌'))}(?=\s)", text) if found else ():
                    yield at.start(), at.end(), found

    def imported(self, entry, path):
        module, name = entry
        if name:
            found = self.find(module, name)
            return found and with_member(found, path)
        found = len(path) > 1 and self.find(module, path[1])
        return (found, 2) if found else None

    # Names of code

    def table(self, source):
        """The items of a file by name."""
        if source not in self.tables:
            self.tables[source] = {it.name: it for it in source.items if it.kind != "impl" and it.name}
        return self.tables[source]

    def item(self, crate, path, names, depth=0):
        """What a path of code stands for in a module: an item, a module, or None for what isn't of these crates."""
        first, *rest = names
        if depth > 12:
            return None
        if first in ("crate", "self", "super"):
            base = {"crate": (), "self": path, "super": path[:-1]}[first]
            return self.item(crate, base, rest, depth + 1) if rest else Module(crate, base)
        source = crate.sources.get(path)
        found = source and self.table(source).get(first)
        if not found and source and any(first == name for name, _ in source.modules):
            found = Module(crate, path + (first,))
        if not found and source:
            found = next((self.used(crate, path, to, depth) for to, alias, _ in source.uses if alias == first and to != (first,)), None)
        if not found and first in self.crates and depth < 12:
            found = Module(self.crates[first], ())
        if isinstance(found, Module) and rest:
            return self.item(found.crate, found.path, rest, depth + 1)
        return with_member(found, names)[0] if found and not isinstance(found, Module) else found

    def methods(self, owner):
        """The functions of a type in all files of its crate, and the members of a trait."""
        own = owner.members if owner.kind == "trait" else []
        impls = (it for source in owner.source.crate.sources.values() for it in source.items if it.kind == "impl" and not it.trait and it.name == owner.name)
        return [*own, *(member for impl in impls for member in impl.members)]

    def used(self, crate, path, names, depth):
        """What a `use` names, whose path begins at a crate or at its own module."""
        if names[0] in self.crates and names[0] != crate.name:
            return self.item(self.crates[names[0]], (), names[1:], depth + 1) if names[1:] else Module(self.crates[names[0]], ())
        return self.item(crate, path, names, depth + 1)

    def in_code(self, text, source):
        """Where names stand in code, and what each stands for."""
        for found in PATH.finditer(text):
            path = found[0].split("::")
            if path[0][0].isupper() or len(path) > 1:
                item = self.item(source.crate, source.path, path)
                if item and not isinstance(item, Module):
                    yield found.start(), found.end(), item


def with_member(item, path):
    """The variant or constant of an item that stands behind its name, with the count of names that this takes, or the item itself."""
    member = len(path) > 1 and not isinstance(item, Definition) and member_of(item, path[1])
    return (member, 2) if member else (item, 1)


def member_of(item, name):
    return next((it for it in item.members if it.name == name and it.kind in ("variant", "ghost", "fn", "const")), None)


def located(text, first):
    for found in DOTTED.finditer(text):
        path = found[0].split(".")
        it = first(path)
        if it and it[0]:
            yield found.start(), found.start() + len(".".join(path[:it[1]])), it[0]
