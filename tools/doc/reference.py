"""The pages of sources and of definitions: each public item and each definition, with what is said of it."""
import re

from crates import parts_of, qualified
from layout import page_of_source, page_of_specs
from quoting import block, escaped


class Reference:
    """Makes these pages, whose parts the describer makes."""

    def __init__(self, describer, layout, crates):
        self.describer, self.layout, self.crates = describer, layout, crates

    # Sources

    def source_page(self, source):
        """The page of a file of a crate: its comment, and each item that the site shows."""
        self.describer.page = page_of_source(source)
        name = "::".join((source.crate.name, *source.path))
        parts = [f"<h1>{escaped(name)}</h1>", self.describer.comment(source.comment, source)]
        for item in self.layout.shown[source]:
            parts.append(self.implementation(item) if item.kind == "impl" else self.item(item, 2))
        parts.append(self.describer.edits_within([source]))
        parts.append(f'<p class="uses">From <code>{escaped(source.file)}</code>.</p>')
        return name, "\n".join(it for it in parts if it)

    def item(self, item, level):
        """An item: its name, its code, its comment, its parts, its clauses, and what tries or cites it."""
        anchor = self.layout.places[item][1]
        kind = "" if item.kind == "fn" else f" <small>{item.kind}</small>"
        private = "" if item.is_public() or item.owner else " <small>only within its crate</small>"
        sort = "item public" if item.is_public() else "item"
        parts = [f'<section class="{sort}"><h{level} id="{escaped(anchor)}"><a href="#{escaped(anchor)}">{escaped(item.name)}</a>{kind}{private}</h{level}>']
        parts.append(self.describer.code(declaration(item), item.source))
        parts.append(self.describer.comment(item.comment, item.source, signature=item.text if item.kind == "fn" else ""))
        parts.append(self.parts(item))
        parts.append(self.model(item) if item.kind in ("struct", "enum") else "")
        parts.append(self.describer.clauses(item))
        if item.kind == "trait":
            parts += [self.member(it, level + 1) for it in item.members]
        parts.append(self.methods(item) if item.kind in ("struct", "enum") else "")
        parts.append(self.describer.edits(item))
        parts.append(self.describer.uses(item) if item.kind != "fn" else "")
        return "\n".join([it for it in parts if it] + ["</section>"])

    def parts(self, item):
        """The variants of an enum and the public fields of a struct that have comments."""
        rows = [f'<dt id="{escaped(self.layout.places[it][1])}">{escaped(part_name(it))}</dt><dd>{self.describer.comment(it.comment, item.source)}</dd>'
                for it in parts_of(item)]
        return f'<dl class="parts">{"".join(rows)}</dl>' if rows else ""

    def model(self, item):
        """What contracts see of a type, by its `Model`."""
        models = [it for it in item.source.items if it.kind == "impl" and it.trait == "Model" and it.name == item.name]
        ghosts = [self.describer.ghost(it) for model in models for it in model.members if it.kind == "ghost"]
        return f"<p>Contracts see this of it:</p>{block(chr(10).join(ghosts))}" if ghosts else ""

    def member(self, item, level):
        """A member of a trait, or of an `impl` of one."""
        if item.kind == "fn":
            return self.item(item, level)
        anchor = escaped(self.layout.places[item][1])
        return f'<div id="{anchor}">{self.describer.comment(item.comment, item.source)}{block(self.describer.ghost(item))}</div>'

    def methods(self, item):
        """Links to the methods of a type and to the traits that it has, file by file."""
        rows = []
        for source in item.source.crate.sources.values():
            links = []
            for impl in (it for it in source.items if it.kind == "impl" and it.name == item.name and it.trait != "Model"):
                shown = [impl] if impl.trait else [it for it in impl.members if it in self.layout.places]
                links += [f'<a href="{self.describer.href(it)}"><code>{escaped(it.trait or it.name)}</code></a>' for it in shown if self.describer.href(it)]
            if links:
                rows.append(f"<li>{self.describer.comment(source.comment, source, is_short=True)} {', '.join(links)}</li>")
        derived = [it for text in item.attributes if text.startswith("derive(") for it in text[7:-1].split(",")]
        told = f"<p>Derives {', '.join(f'<code>{escaped(it.strip())}</code>' for it in derived if it.strip())}.</p>" if derived else ""
        return told + (f'<p>Its functions and traits, by what they are about:</p><ul class="rows">{"".join(rows)}</ul>' if rows else "")

    def implementation(self, impl):
        """The functions of a type in an `impl`, or what a type says and does for a trait."""
        code = self.describer.code(re.sub(r"\s+", " ", impl.text), impl.source)
        if not impl.trait:
            shown = [it for it in impl.members if it in self.layout.places]
            return "\n".join([f"<h2>Functions of <code>{escaped(impl.name)}</code></h2>", code, *(self.item(it, 3) for it in shown)])
        anchor = escaped(self.layout.places[impl][1])
        parts = [f'<section class="item"><h2 id="{anchor}">{escaped(impl.trait)} <small>of {escaped(impl.name)}</small></h2>', code]
        parts.append(self.describer.comment(impl.comment, impl.source))
        parts += [self.member(it, 3) for it in impl.members if it.kind == "ghost" or it.clauses or it.comment]
        rest = [it for it in impl.members if it.kind == "fn" and not it.clauses and not it.comment]
        if rest:
            parts.append(f"<p>It has the trait's contract for {', '.join(self.of_trait(it, impl) for it in rest)}.</p>")
        return "\n".join([*(it for it in parts if it), "</section>"])

    def of_trait(self, item, impl):
        """A function of an `impl`, with a link to it in the trait."""
        anchor = escaped(self.layout.places[item][1])
        trait = self.describer.names.item(impl.source.crate, impl.source.path, [impl.trait])
        own = next((it for it in getattr(trait, "members", ()) if it.name == item.name), None)
        link = own and self.describer.href(own)
        code = f"<code>{escaped(item.name)}</code>"
        return f'<span id="{anchor}">' + (f'<a href="{link}">{code}</a>' if link else code) + "</span>"

    # Definitions

    def specs_page(self, specs):
        """The page of a file of definitions."""
        self.describer.page = page_of_specs(specs)
        name = specs.module.removeprefix("Rattle.").replace(".", "::")
        parts = [f"<h1>{escaped(name)}</h1>", self.describer.comment(specs.comment)]
        for it in specs.definitions.values():
            anchor = escaped(self.layout.places[it][1])
            parts += [f'<section class="item definition"><h2 id="{anchor}"><a href="#{anchor}">{escaped(it.name)}</a></h2>', self.describer.comment(it.comment),
                      self.describer.definition(it), self.describer.edits(it), self.describer.uses(it), "</section>"]
        parts.append(f'<p class="uses">From <code>{escaped(specs.file)}</code>.</p>')
        return name, "\n".join(it for it in parts if it)


def part_name(part):
    return qualified(part).partition(".")[2]


def declaration(item):
    """The code of an item: of a struct its public fields, of an enum its variants, without comments."""
    if item.kind not in ("struct", "enum"):
        return item.text + (";" if item.kind in ("const", "static", "type") else "")
    head = item.source.text[item.start:item.source.code.find("{", item.start, item.end)].rstrip()
    if item.source.code[item.end - 1] == ";":
        return item.source.text[item.start:item.end]
    shown = [it for it in item.members if item.kind == "enum" or it.is_public()]
    lines = ["    " + it.text.replace("\n", "\n    ") + "," for it in shown]
    if len(shown) < len(item.members):
        lines.append("    // fields that aren't public")
    return head + " {\n" + "\n".join(lines) + "\n}" if lines else head + " {}"
