"""Makes the site: all of its pages, its style, and the index of its search."""
import json
import pathlib

import crates as reading
from catalogue import Catalogue
from citing import Citations
from crates import parts_of, public_items, qualified
from describing import Describer
from frame import Frame
from layout import Layout, first_sentence, page_of_crate, page_of_file, page_of_source, page_of_specs
from names import Module, Names
from pages import Pages
from prose import Prose
from reference import Reference
from theorem import PAGE as THEOREM, Theorem
from trials import trials

HERE = pathlib.Path(__file__).resolve().parent
COPIED = ("site.css", "search.js")


class Site:
    """The site, in memory: the text of each page by its path, and what is in the index."""

    def __init__(self):
        self.crates = reading.read()
        self.names = Names(self.crates)
        self.citations = Citations(self.crates, self.names)
        self.layout = Layout(self.crates, self.citations)
        self.pages = Pages(self.crates, self.layout)
        self.prose = Prose()
        self.describer = Describer(self.names, self.citations, self.layout, self.prose, trials(self.crates), self.pages.link)
        self.frame = Frame(self.pages.groups(), self.layout)
        self.made, self.entries = {}, []
        self.make_prose()
        self.make_reference()
        for path in sorted(self.pages.linked):
            self.put(self.pages.linked[path], path, self.pages.file_page(path))
        self.made["search-index.js"] = self.index()
        for name in COPIED:
            self.made[name] = (HERE / name).read_text(encoding="utf-8")

    def put(self, path, title, body, trail=(), further=()):
        self.made[path] = self.frame.page(path, title, body, trail, further)

    def enter(self, name, sort, page, anchor="", about=""):
        """Puts an entry into the index."""
        self.entries.append((name, sort, page, anchor, first_sentence(about).replace("`", "")[:160]))

    def make_prose(self):
        """The pages that are written in Markdown."""
        for path, text in self.pages.texts.items():
            page = page_of_file(path)
            body, headings = self.prose.html(text, lambda to: self.pages.link(page, path, to), lambda piece: self.named(page, piece))
            self.put(page, self.pages.titles[path], body)
            self.enter(self.pages.titles[path], "page", page)
            for level, anchor, heading in headings:
                if level > 1:
                    self.enter(heading, f"in {self.pages.titles[path]}", page, anchor)

    def named(self, page, piece):
        """The link to what a piece of code in a page names by its whole path, as `rh_core::Heap::flip`."""
        first, *rest = piece.split("::")
        if not rest or first not in self.crates:
            return None
        found = self.names.item(self.crates[first], (), rest) if piece.replace(":", "").isidentifier() else None
        owner = found and not isinstance(found, Module) and rest[-1] != found.name and found
        if owner:
            found = next((it for it in self.names.methods(owner) if it.name == rest[-1]), None)
        return found and self.layout.href(page, found)

    def make_reference(self):
        """The pages of the crates, their sources and their definitions."""
        catalogue, reference = (it(self.describer, self.layout, self.crates) for it in (Catalogue, Reference))
        self.put("reference/index.html", *catalogue.all_crates())
        self.put(THEOREM, *Theorem(self.describer, self.layout, self.crates).page("index.html", "docs/headline.html"))
        self.enter("The theorem, from the top down", "page", THEOREM)
        for crate in self.crates.values():
            trail = [("reference/index.html", "crates"), (page_of_crate(crate), crate.name)]
            neighbours = [(f"Of {crate.layer}", [(page_of_crate(it), it.name) for it in self.crates.values() if it.layer == crate.layer])]
            self.put(page_of_crate(crate), *catalogue.crate_page(crate), trail[:1], neighbours)
            self.enter(crate.name, "crate", page_of_crate(crate), "", crate.comment())
            for source in crate.sources.values():
                if self.layout.shown.get(source):
                    self.put(page_of_source(source), *reference.source_page(source), trail, neighbours)
                    self.enter_items(source)
            for specs in crate.specs.values():
                if specs.definitions and not specs.is_lemmas:
                    self.put(page_of_specs(specs), *reference.specs_page(specs), trail, neighbours)
                    for it in specs.definitions.values():
                        self.enter(it.name, f"definition in {crate.name}", *self.layout.places[it], it.comment)

    def enter_items(self, source):
        for item in public_items(source):
            sort = "law" if reading.is_law(item) else {"fn": "function"}.get(item.kind, item.kind)
            self.enter(qualified(item), f"{sort} in {source.crate.name}", *self.layout.places[item], item.comment)
            for part in parts_of(item):
                if part.kind == "variant":
                    self.enter(qualified(part), f"variant in {source.crate.name}", *self.layout.places[part], part.comment)

    def index(self):
        """The index of the search: its pages, and entries that name them by number."""
        paths = list(dict.fromkeys(entry[2] for entry in self.entries))
        numbers = {path: number for number, path in enumerate(paths)}
        rows = ",\n".join(json.dumps([name, sort, numbers[page], anchor, about], ensure_ascii=False) for name, sort, page, anchor, about in self.entries)
        return f"window.searchIndex={{pages:{json.dumps(paths)},entries:[\n{rows}\n]}};\n"

    def write(self, folder):
        """Writes the site to a folder, and takes away the pages that an earlier site had there and this one hasn't."""
        for file in folder.rglob("*.html"):
            if file.relative_to(folder).as_posix() not in self.made:
                file.unlink()
        for path, text in self.made.items():
            (folder / path).parent.mkdir(parents=True, exist_ok=True)
            (folder / path).write_text(text, encoding="utf-8")
        self.pages.copy_pictures(folder)
