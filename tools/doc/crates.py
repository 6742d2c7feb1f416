"""The crates of the repository with what was read of each: sources, definitions, tests, and what each hands on."""
import pathlib
import re
import sys

TOP = pathlib.Path(__file__).resolve().parent.parent.parent
sys.path.insert(0, str(TOP / "tools/launcher"))

import antt
import rattle
import tree


class Crate:
    """A crate. Its sources are by the path of their module, () being that of src/lib.rt or src/main.rt."""

    def __init__(self, name, layer):
        self.name, self.layer, self.below = name, layer, tree.own_libraries(name)
        self.folder = tree.folder_of(name)
        self.sources, self.specs = {}, {}
        for file in sorted(self.folder.glob("src/**/*.rt")):
            path = file.relative_to(self.folder / "src").with_suffix("").parts
            self.sources[() if path in (("lib",), ("main",)) else path] = self.source(file, path)
        for file in sorted(self.folder.glob("specs/**/*.antt")):
            parts = file.relative_to(self.folder).with_suffix("").parts
            module = ".".join(("Rattle", name, *parts))
            self.specs[module] = antt.Specs(module, file.read_text(encoding="utf-8"))
            self.specs[module].file, self.specs[module].crate = file.relative_to(TOP).as_posix(), self
            self.specs[module].is_lemmas = "lemmas" in parts
        self.is_library = (self.folder / "src/lib.rt").exists()
        self.has_tests = any("#[test]" in it.text for it in self.sources.values())

    def source(self, file, path):
        source = rattle.Source(file.read_text(encoding="utf-8"))
        source.file, source.crate = file.relative_to(TOP).as_posix(), self
        source.path = () if path in (("lib",), ("main",)) else path
        return source

    def comment(self):
        return self.sources[()].comment

    def definitions(self):
        """Its definitions, without the lemmas."""
        return [it for specs in self.specs.values() if not specs.is_lemmas for it in specs.definitions.values()]


def layers():
    """The layer of each crate: the comment right above the first one of it in crates.txt."""
    found, layer = {}, ""
    for line in (TOP / "crates.txt").read_text(encoding="utf-8").split("\n"):
        head = re.match(r"# *(.+)", line)
        if head:
            layer = head[1]
        elif ":" in line:
            found[tree.Line(line).name] = layer
    return found


def read():
    """All crates by name, in the order of crates.txt."""
    return {name: Crate(name, layer) for name, layer in layers().items()}


def is_law(item):
    """Whether a function is a law: it is in a module of laws."""
    return item.kind == "fn" and any(part == "laws" or part.endswith("_laws") for part in item.source.path)


def public_items(source):
    """The public items of a file, as its code has them: those of an `impl` of a type, and what a public trait has, beside those of the
    file itself."""
    for item in source.items:
        if item.kind == "impl":
            yield from (it for it in item.members if it.is_public() and not item.trait)
        elif item.is_public():
            yield item
            if item.kind == "trait":
                yield from (it for it in item.members if it.kind != "ghost")


def parts_of(item):
    """What of a public type has a comment of its own: its variants, their fields, and its public fields, each with a name."""
    for part in item.members if item.kind in ("struct", "enum", "variant") else ():
        if part.name and (part.kind == "variant" or part.is_public() or item.kind == "variant"):
            yield part
            yield from parts_of(part)


def qualified(item):
    """The name of an item behind that of its type or trait, as `Heap.flip`."""
    names = [item.name]
    owner = item.owner
    while owner:
        names[:0] = [owner.name, owner.trait] if owner.trait else [owner.name]
        owner = owner.owner
    return ".".join(names)
