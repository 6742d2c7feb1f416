"""The page of each crate, and the page of all of them by layer."""
from crates import is_law
from layout import page_of_crate, page_of_source, page_of_specs
from names import Module
from quoting import escaped

KINDS = [("struct", "Structs"), ("enum", "Enums"), ("trait", "Traits"), ("type", "Types"), ("fn", "Functions"), ("const", "Constants"), ("static", "Statics")]


class Catalogue:
    """Makes these pages."""

    def __init__(self, describer, layout, crates):
        self.describer, self.layout, self.crates = describer, layout, crates

    def all_crates(self):
        """The page of all crates, the lowest layer first."""
        self.describer.page = "reference/index.html"
        parts = ["<h1>The reference: all crates, by layer</h1>",
                 "<p>Each crate with what it is. Its page has what it hands on, and its files: each public item with its contract, and each definition that contracts cite. "
                 f'<a href="{self.layout.to(self.describer.page, "reference/theorem.html")}">The theorem behind the first sentence of this site</a> has a page of its own.</p>']
        layer = None
        for crate in self.crates.values():
            if crate.layer != layer:
                parts.append(("</ul>" if layer else "") + f'<h2>{escaped(crate.layer)}</h2>\n<ul class="rows">')
                layer = crate.layer
            link = self.layout.to(self.describer.page, page_of_crate(crate))
            parts.append(f'<li><a href="{link}"><code>{crate.name}</code></a> {self.describer.comment(crate.comment(), crate.sources[()], is_short=True)}</li>')
        return "The reference", "\n".join([*parts, "</ul>"])

    def crate_page(self, crate):
        """The page of a crate: its comment, what it uses, what it hands on, and its files."""
        self.describer.page = page_of_crate(crate)
        above = [it for it in self.crates.values() if crate.name in it.below]
        parts = [f"<h1>{crate.name}</h1>", self.describer.comment(crate.comment(), crate.sources[()])]
        for title, names in (("Uses", crate.below), ("Used by", [it.name for it in above])):
            if names:
                links = (f'<a href="{self.layout.to(self.describer.page, page_of_crate(self.crates[it]))}">{it}</a>' for it in names)
                parts.append(f'<p class="uses">{title} {", ".join(links)}</p>')
        if crate.is_library and not crate.has_tests:
            parts += [self.handed_on(crate, handed_on(crate, self.describer.names))]
        parts.append(self.laws(crate))
        parts.append(self.files("Sources", [(it.file, page_of_source(it) if self.layout.shown.get(it) else None, it.comment, it) for it in crate.sources.values()]))
        parts.append(self.files("Definitions", [(it.file, page_of_specs(it), it.comment, None) for it in crate.specs.values() if it.definitions and not it.is_lemmas]))
        parts.append(self.describer.edits_within([it for it in crate.sources.values() if not self.layout.shown.get(it)]))
        return crate.name, "\n".join(it for it in parts if it)

    def handed_on(self, crate, found):
        """What a user of the crate may name: its own items by kind, and those of other crates by crate."""
        parts = []
        for kind, title in KINDS:
            rows = [self.row(name, it) for name, it in found if it.kind == kind and it.source.crate is crate]
            if rows:
                parts.append(f'<h2>{title}</h2>\n<ul class="rows">{"".join(rows)}</ul>')
        others = {}
        for name, it in found:
            if it.source.crate is not crate:
                others.setdefault(it.source.crate, []).append(f'<a href="{self.describer.href(it)}"><code>{escaped(name)}</code></a>')
        for name, source in modules_handed_on(crate, self.describer.names):
            page = page_of_source(source) if self.layout.shown.get(source) else page_of_crate(source.crate)
            others.setdefault(source.crate, []).append(f'<a href="{self.layout.to(self.describer.page, page)}"><code>{escaped(name)}</code></a>')
        if others:
            rows = [f'<li><a href="{self.layout.to(self.describer.page, page_of_crate(it))}">{it.name}</a>: {", ".join(links)}</li>' for it, links in others.items()]
            parts.append(f'<h2>Handed on from other crates</h2>\n<ul class="rows">{"".join(rows)}</ul>')
        return "\n".join(parts)

    def row(self, name, it):
        return f'<li><a href="{self.describer.href(it)}"><code>{escaped(name)}</code></a> {self.describer.comment(it.comment, it.source, is_short=True)}</li>'

    def laws(self, crate):
        """The laws of a crate: functions that do nothing, whose contracts are theorems."""
        rows = [self.row(it.name, it) for source in crate.sources.values() for it in self.layout.shown.get(source, ()) if is_law(it) and it.is_public()]
        return f'<h2>Laws</h2>\n<ul class="rows">{"".join(rows)}</ul>' if rows else ""

    def files(self, title, rows):
        made = []
        for file, page, comment, source in rows:
            name = f"<code>{escaped(file.split('/', 2)[2])}</code>"
            linked = f'<a href="{self.layout.to(self.describer.page, page)}">{name}</a>' if page else name
            made.append(f"<li>{linked} {self.describer.comment(comment, source, is_short=True)}</li>")
        return f'<h2>{title}</h2>\n<ul class="rows">{"".join(made)}</ul>' if made else ""


def handed_on(crate, names):
    """What a crate hands on, each item by the name by which others name it: what its root and its public modules have of public items and
    of public `use`s. Laws are left out: they are listed by themselves."""
    found = {}

    def take(home, path, before):
        source = home.sources.get(path)
        for item in source.items if source else ():
            if item.is_public() and item.kind != "impl" and not is_law(item):
                found.setdefault(item, before + item.name)
        for to, alias, visibility in source.uses if source else ():
            item = names.item(home, path, list(to)) if visibility == "pub" else None
            if item and not isinstance(item, Module) and item.kind != "variant" and not is_law(item):
                found.setdefault(item, before + alias)
        for name, visibility in source.modules if source else ():
            if visibility == "pub":
                take(home, path + (name,), before + name + "::")

    take(crate, (), "")
    return [(name, item) for item, name in found.items()]


def modules_handed_on(crate, names):
    """The modules of other crates that the root of a crate hands on, each by the name that it gets there."""
    root = crate.sources[()]
    found = ((alias, names.item(crate, (), list(to))) for to, alias, visibility in root.uses if visibility == "pub")
    return [(alias, it.crate.sources[it.path]) for alias, it in found if isinstance(it, Module) and it.crate is not crate]
