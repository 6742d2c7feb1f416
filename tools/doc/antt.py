"""Reads a file of Antt: what it says of itself, what it names, and its definitions with their comments."""
import re

NAME = r"[^\W\d][\w]*(?:[-'][\w]+)*"
USE = re.compile(r"^\s*(pub )?use (Rattle(?:\.\w+)+)(?:\.\{([^}]*)\})?(?: as (\w+))?$", re.M)
FIXITY = re.compile(r" *infix[lr]? ")
DEFINITION = re.compile(rf"^ *(?:abbrev |unfoldable )?pub (?:record |data )?({NAME}|[^\s\w]\S*)")


class Definition:
    """A definition: its name, its comment, its text without it, and the line of the module whose parameters it takes."""

    kind = "definition"

    def __init__(self, name, comment, text, frame, specs):
        self.name, self.comment, self.text, self.frame, self.specs = name, comment, text, frame, specs

    def code(self):
        """The text, and the module's line that it stands below, without the comments within."""
        lines = (self.frame + "\n" + self.text).split("\n")
        return "\n".join(line for line in lines if not line.lstrip().startswith("--"))


class Specs:
    """A file of definitions. `modules` are those below it that it lists, `passed_on` those of others under a name of its own."""

    def __init__(self, module, text):
        self.module, self.text = module, text
        self.imports, self.passed_on, self.definitions, self.constructors = {}, {}, {}, {}
        self.modules = re.findall(r"^pub mod (\w+)", text, re.M)
        first = re.match(r"(?:--[^\n]*\n)+", text)
        self.comment = uncommented(first[0].rstrip("\n").split("\n")) if first else ""
        for is_public, path, names, alias in USE.findall(text):
            self.note_use(is_public, path, names, alias)
        self.read_definitions()

    def note_use(self, is_public, path, names, alias):
        for entry in filter(None, (entry.strip() for entry in names.split(","))):
            name, _, other = entry.partition(" as ")
            self.imports[other or name] = (path, name)
        if not names:
            self.imports[alias or path.split(".")[-1]] = (path, None)
        if is_public and not names:
            self.passed_on[alias or path.split(".")[-1]] = path

    def read_definitions(self):
        """A definition is a paragraph: its comment, and its lines. Lines of modules may stand before it, with comments of their own."""
        frames = []
        for block in re.finditer(r"(?:[^\n]+\n?)+", self.text):
            lines, comment = block[0].rstrip("\n").split("\n"), []
            while lines and (lines[0].lstrip().startswith(("--", "module ")) or FIXITY.match(lines[0])):
                line = lines.pop(0)
                if line.lstrip().startswith("module "):
                    while not line.endswith(" where"):
                        line += "\n" + lines.pop(0)
                    frames.append((indent_of(line), "\n".join([*comment, line])))
                    comment = []
                elif not FIXITY.match(line):
                    comment.append(line)
            name = DEFINITION.match(lines[0]) if lines else None
            if lines:
                frames = [it for it in frames if it[0] < indent_of(lines[0])]
            if name and not lines[0].startswith(("pub use ", "pub mod ")):
                frame = "\n".join(text for _, text in frames)
                self.add(Definition(name[1], uncommented(comment), "\n".join(lines), frame, self))

    def add(self, definition):
        """Adds a definition, and the constructors of a `data`, which stand for it."""
        self.definitions[definition.name] = definition
        if re.match(r" *pub data ", definition.text):
            for name in re.findall(rf"^ +({NAME}) :", definition.text, re.M):
                self.constructors[name] = definition


def indent_of(line):
    return len(line) - len(line.lstrip(" "))


def uncommented(lines):
    return "\n".join(line.lstrip()[2:].removeprefix(" ") for line in lines)
