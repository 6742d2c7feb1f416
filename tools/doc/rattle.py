"""Reads a file of Rattle: what it says of itself, what it names, and its items with their comments and clauses."""
import re
import textwrap

from masking import closing, closing_angle, masked, parts_between_commas

HEAD = re.compile(r"^(?P<indent> *)(?P<visibility>pub(?:\([^)]*\))? )?(?P<words>(?:(?:unsafe|const|async|ghost|extern +) *)*)(?P<kind>fn|struct|enum|trait|impl|const|static|type|mod|use|ghost)\b", re.M)
CLAUSE = re.compile(r"\b((?:requires|ensures)\*?|ghost)\s+(?:(\w+)\s+)?\{")
STOP = re.compile(r"\b(?:requires|ensures|ghost)\b|[({\[;]")
# A field or a variant begins so.
PART = re.compile(r"(?:\s|#\[[^\]]*\])*(pub(?:\([^)]*\))? )?(?:ghost )?(\w+)?")
GHOST_USE = re.compile(r"^ *ghost use (Rattle(?:\.\w+)+)(?:\.\{([^}]*)\})?(?: as (\w+))?;", re.M)


class Clause:
    """A clause of a contract: `requires` or `ensures`, its name where it has one, and what it says."""

    def __init__(self, kind, name, text):
        self.kind, self.name, self.text = kind, name, text


class Item:
    """What a file declares: its kind, its name, its comment, its text up to a body, its clauses, and what stands within it."""

    def __init__(self, kind, name, comment, attributes, text):
        self.kind, self.name, self.comment, self.attributes, self.text = kind, name, comment, attributes, text
        self.visibility, self.clauses, self.members, self.imports = "", [], [], {}
        self.start = self.end = self.line = 0
        self.trait = self.source = self.owner = None

    def is_public(self):
        return self.visibility == "pub"


class Source:
    """A file of Rattle."""

    def __init__(self, text):
        self.text, self.code = text, masked(text)
        self.comment = "\n".join(line[3:].removeprefix(" ") for line in text.split("\n") if line.startswith("//!"))
        self.imports, self.uses, self.modules = {}, [], []
        self.items = self.items_of(0, len(text), "")

    def items_of(self, start, end, indent):
        """The items that begin at this indentation between two places."""
        found, at = [], start
        while (head := HEAD.search(self.code, at, end)) is not None:
            if head["indent"] != indent:
                at = head.end()
                continue
            item = self.item(head, self.text[at:head.start()])
            at = item.end
            if item.kind == "use":
                self.note_use(item)
            elif item.kind == "mod":
                self.modules.append((item.name, item.visibility))
            else:
                found.append(item)
        return found

    def item(self, head, before):
        """The item that begins here; before it stand its comment and its attributes."""
        kind = head["kind"]
        name = re.compile(r"\s*(\w+)?").match(self.code, head.end())[1] or ""
        item = Item(kind, name, comment_of(before), attributes_of(before), "")
        item.visibility, item.start = (head["visibility"] or "").strip(), head.start()
        item.words, item.line, item.source = head["words"], self.text.count("\n", 0, head.start()) + 1, self
        body = self.read_head(item, head.end())
        item.text = textwrap.dedent(self.text[head.start():item.text_end].rstrip("\n")).rstrip()
        deeper = head["indent"] + "    "
        if kind in ("trait", "impl"):
            item.members = self.items_of(body, item.end, deeper)
            self.note_imports_within(item, body)
        if kind == "impl":
            read_impl(item, self.code[head.end():item.text_end])
        for member in item.members:
            member.owner = item
        if kind in ("struct", "enum"):
            item.members = self.parts_of(body, item)
        return item

    def read_head(self, item, at):
        """Reads up to the item's body or its end, with its clauses, and returns where its body begins."""
        item.text_end = 0
        while True:
            stop = STOP.search(self.code, at)
            clause = item.kind == "fn" and CLAUSE.match(self.code, stop.start())
            if clause:
                item.text_end = item.text_end or stop.start()
                at = closing(self.code, clause.end() - 1)
                item.clauses.append(Clause(clause[1], clause[2] or "", dedented(self.text, clause.end(), at - 1)))
            elif stop[0] == ";":
                item.text_end, item.end = item.text_end or stop.start(), stop.end()
                return stop.end()
            elif stop[0] == "{" and item.kind in ("fn", "struct", "enum", "trait", "impl"):
                item.text_end, item.end = item.text_end or stop.start(), closing(self.code, stop.start())
                return stop.end()
            elif stop[0] in "({[":
                at = closing(self.code, stop.start())
            else:
                at = stop.end()

    def parts_of(self, body, item):
        """The fields of a struct, or the variants of an enum."""
        if self.code[body - 1] == ";":
            bracket = self.code.find("(", item.start, body)
            between = (bracket + 1, self.code.rindex(")", 0, body)) if bracket >= 0 else (body, body)
        else:
            between = (body, item.end - 1)
        is_named = self.code[between[0] - 1] == "{"
        return [self.part(*place, item, is_named) for place in parts_between_commas(self.code, *between)]

    def part(self, start, end, item, is_named):
        """A field or a variant, with the fields of the variant. The fields of a tuple have no names."""
        head = PART.match(self.code, start, end)
        before, text = self.text[start:head.start(1) if head[1] else head.end()], self.text[start:end]
        kind = "variant" if item.kind == "enum" else "field"
        part = Item(kind, head[2] if is_named else "", comment_of(before), attributes_of(before), without_comments(text))
        part.visibility, part.owner, part.source = (head[1] or "").strip(), item, self
        part.line = self.text.count("\n", 0, head.end()) + 1
        bracket = re.compile(r"\s*[({]").match(self.code, head.end(2), end) if kind == "variant" else None
        if bracket:
            inside = parts_between_commas(self.code, bracket.end(), closing(self.code, bracket.end() - 1) - 1)
            part.members = [self.part(*place, part, bracket[0].endswith("{")) for place in inside]
        return part

    def note_use(self, item):
        """Notes what a `use` names: definitions if it is a ghost, else items of crates."""
        if "ghost" in item.words:
            self.imports.update(imports_in(self.text[item.start:item.end]))
        else:
            tree = re.sub(r"\s+", " ", self.code[item.start:item.end - 1]).strip()
            tree = re.sub(r"^(?:pub(?:\([^)]*\))? )?use ", "", tree)
            self.uses += [(path, alias, item.visibility) for path, alias in paths_of(tree)]

    def note_imports_within(self, item, body):
        if self.code.find("ghost use ", body, item.end) >= 0:
            item.imports = imports_in(self.text[body:item.end])


def imports_in(text):
    """What each name stands for that a `ghost use` gives: a module of definitions with a name of it, or with None."""
    found = {}
    for module, names, alias in GHOST_USE.findall(text):
        for entry in filter(None, (entry.strip() for entry in names.split(","))):
            name, _, other = entry.partition(" as ")
            found[other or name] = (module, name)
        if not names:
            found[alias or module.split(".")[-1]] = (module, None)
    return found


def paths_of(tree, before=()):
    """The paths that a `use` names, each with the name that it gets."""
    head, brace, rest = tree.partition("{")
    path = tuple(it for it in re.sub(r"\s", "", head.partition(" as ")[0]).split("::") if it)
    if not brace:
        alias = head.partition(" as ")[2].strip()
        if path[-1:] == ("self",):
            path = path[:-1]
        whole = before + path
        return [(whole, alias or whole[-1])]
    inner = rest[:closing("{" + rest, 0) - 2]
    return [found for start, end in parts_between_commas(inner, 0, len(inner)) for found in paths_of(inner[start:end].strip(), before + path)]


def comment_of(before):
    """The comment in what stands before an item."""
    lines = (line.strip() for line in before.split("\n"))
    return "\n".join(line[3:].removeprefix(" ") for line in lines if line.startswith("///"))


def attributes_of(before):
    """The attributes in what stands before an item, without their brackets."""
    code, found, at = masked(before), [], 0
    while (at := code.find("#[", at)) >= 0:
        end = closing(code, at + 1)
        found.append(re.sub(r"\s+", " ", before[at + 2:end - 1]))
        at = end
    return found


def without_comments(text):
    """The text of a field or a variant, without what stands before it and within it of comments and attributes."""
    text = re.sub(r"^\s*(?:///?[^\n]*|#\[[^\n]*)\n?", "", text, flags=re.M)
    return textwrap.dedent(text.strip("\n")).strip()


def dedented(text, start, end):
    """What stands between the braces of a clause: further lines begin where they do below the clause's line."""
    line = text.rfind("\n", 0, start) + 1
    indent = len(text[line:]) - len(text[line:].lstrip(" "))
    first, *rest = text[start:end].split("\n")
    return "\n".join([first.strip(), *(it[min(indent, len(it) - len(it.lstrip())):].rstrip() for it in rest)]).strip()


def read_impl(item, head):
    """What an `impl` is for: its type, and its trait if it is one's."""
    head = head.strip()
    if head.startswith("<"):
        head = head[closing_angle(head, 0):].strip()
    flat, at = head, 0
    while (at := flat.find("<", at)) >= 0:
        end = closing_angle(flat, at)
        flat = flat[:at] + " " * (end - at) + flat[end:]
    trait, split, target = flat.partition(" for ")
    target = target if split else trait
    word = re.search(r"[\w:]+", re.sub(r"&|'\w+|\bmut\b|\bdyn\b", " ", target))
    item.name = word[0].split("::")[-1] if word else target.strip()
    item.trait = re.search(r"[\w:]+", trait)[0].split("::")[-1] if split else None
