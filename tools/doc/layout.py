"""Where each thing is in the site: its page, and its place there."""
import posixpath
from urllib.parse import quote

from crates import TOP, parts_of, public_items, qualified


def page_of_file(path):
    """The page of a file of the repository that is written in Markdown."""
    folder, name = posixpath.split(path)
    return posixpath.join(folder, "index.html" if name == "README.md" else name.removesuffix(".md") + ".html")


def page_of_crate(crate):
    return f"reference/{crate.name}/index.html"


def page_of_source(source):
    return f"reference/{source.crate.name}/src/{'/'.join(source.path) or 'lib'}.html"


def page_of_specs(specs):
    return "reference/" + specs.file.split("/", 1)[1].removesuffix(".antt") + ".html"


class Layout:
    """The page and the place of each item and each definition that has one."""

    def __init__(self, crates, citations):
        self.places, self.taken, self.shown, self.known = {}, set(), {}, {}
        for crate in crates.values():
            for specs in crate.specs.values():
                for it in specs.definitions.values() if not specs.is_lemmas else ():
                    self.put(it, page_of_specs(specs), it.name)
            for source in crate.sources.values() if not crate.has_tests else ():
                self.put_source(source, citations)

    def put(self, it, page, anchor):
        """Gives it a place. A second one of a name on a page gets a number."""
        free, count = anchor, 1
        while (page, free) in self.taken:
            count += 1
            free = f"{anchor}-{count}"
        self.taken.add((page, free))
        self.places[it] = (page, free)

    def put_source(self, source, citations):
        """The items of a file that the site shows: the public ones, what others of these crates implement, and types that are cited."""
        page, public = page_of_source(source), set(public_items(source))
        cited = {it for it in source.items if it.kind in ("struct", "enum", "const") and is_cited(it, citations)}
        self.shown[source] = []
        # What contracts see of a type by its `Model` is shown at the type.
        for item in (it for it in source.items if it.trait != "Model"):
            methods = [it for it in item.members if it in public] if item.kind == "impl" and not item.trait else []
            if item in public or item in cited or methods or item.kind == "impl" and item.trait:
                self.shown[source].append(item)
                self.put_item(item, page, methods)

    def put_item(self, item, page, methods):
        if item.kind != "impl":
            self.put(item, page, item.name)
        if item.kind == "impl" and item.trait:
            self.put(item, page, f"{item.name}.{item.trait}")
            methods = item.members
        for it in methods or (item.members if item.kind == "trait" else ()):
            self.put(it, page, qualified(it))
        for it in parts_of(item):
            self.put(it, page, qualified(it))

    def href(self, page, target):
        """The link from a page to an item or a definition, or None where it has no place."""
        place = self.places.get(target)
        return place and self.to(page, *place)

    def to(self, page, other, anchor=""):
        """The link from a page to a place of another, or of its own."""
        key = (posixpath.dirname(page), other)
        if other != page and key not in self.known:
            self.known[key] = quote(posixpath.relpath(other, key[0] or "."))
        return ("" if other == page else self.known[key]) + (f"#{quote(anchor, safe='.')}" if anchor else "")


def is_cited(item, citations):
    return bool(citations.used.get(item)) or any(citations.used.get(it) for it in item.members)


def clause_anchor(anchor, clause):
    """The place of a clause, behind that of its function. A `requires` has the word in it, since an `ensures` may have its name."""
    if clause.kind == "ensures" and clause.name:
        return f"{anchor}.{clause.name}"
    return f"{anchor}.{clause.kind.replace('*', '-all')}" + (f".{clause.name}" if clause.name else "")


def first_sentence(comment):
    """The first sentence of a comment, in Markdown."""
    paragraph = " ".join(comment.strip().split("\n\n")[0].split())
    end = paragraph.find(". ")
    return paragraph[:end + 1] if end >= 0 else paragraph


def is_in_repository(path):
    return (TOP / path).exists()
