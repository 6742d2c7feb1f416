"""The page of the theorem: its contract clause by clause, and below each clause every definition that it is the first to need."""
import re

from antt import Definition
from layout import clause_anchor
from quoting import block, escaped, quote
from reference import declaration

LAW = ("rh_core", ("laws", "headline"), "headline")
PAGE = "reference/theorem.html"
INTRODUCTION = """
<p>This is the theorem behind the first sentence of <a href="{home}">README</a>: the contract of the law <a href="{law}"><code>rh_core::laws::headline::headline</code></a>.
<a href="{headline}">The headline</a> says it in plain words. Here it can be read from the top down. Each clause is followed by the definitions that it names, and each of these by those
that it names itself; a definition is shown once, where it is first needed, and a name leads to it. Below all clauses stands what contracts see of the types that are left.
Whoever has read the page has read all {count} definitions and types that the theorem rests on, but for the words of Rattle's own library: those of numbers, lists, options and results.</p>
"""


class Node:
    """A definition or a type, shown where it is first needed: by what, and what it needs first itself."""

    def __init__(self, it, by):
        self.it, self.by, self.nodes = it, by, []


class Theorem:
    """Makes the page."""

    def __init__(self, describer, layout, crates):
        self.describer, self.layout, self.names = describer, layout, describer.names
        crate, path, name = LAW
        self.source = crates[crate].sources[path]
        self.law = next(it for it in self.source.items if it.name == name)
        self.seen = {}

    def page(self, home, headline):
        self.describer.page = PAGE
        clauses = [(it, self.nodes(None, [target for _, _, target in self.names.in_clause(it.text, self.source)])) for it in self.law.clauses]
        types = self.nodes(None, [target for _, _, target in self.names.in_code(self.law.text, self.source)])
        to = lambda page: self.layout.to(PAGE, page)
        parts = ["<h1>The theorem, from the top down</h1>"]
        parts.append(INTRODUCTION.format(home=to(home), headline=to(headline), law=self.layout.href(PAGE, self.law), count=len(self.seen)))
        parts.append(self.contents(clauses, types))
        parts.append("<h2>What it speaks of</h2>" + block(quote(self.law.text, self.names.in_code(self.law.text, self.source), self.href)))
        parts.append(self.describer.comment(self.law.comment.split("\n- ")[0], self.source))
        for it, nodes in clauses:
            parts.append(self.clause(it) + "".join(self.shown(node) for node in nodes))
        parts.append('<h2 id="types">What contracts see of the other types</h2>' + "".join(self.shown(node) for node in types))
        return "The theorem", "\n".join(parts)

    # What needs what

    def nodes(self, by, targets):
        """The nodes of what isn't shown yet."""
        found = []
        for it in targets:
            it = it.owner if getattr(it, "kind", "") in ("variant", "ghost") and it.owner else it
            if it in self.seen or getattr(it, "kind", "") not in ("definition", "struct", "enum", "const", "trait"):
                continue
            self.seen[it] = node = Node(it, by)
            found.append(node)
            node.nodes = self.nodes(it, self.needed(it))
        return found

    def needed(self, it):
        """What a definition or a type names, in order."""
        if isinstance(it, Definition):
            return [target for _, _, target in self.names.in_specs(it.code(), it.specs)]
        seen = [(member.text, member) for member in self.model(it)]
        found = [target for text, member in seen for _, _, target in self.names.in_clause(text, it.source, member.owner.imports)]
        return found + [target for text in fields_of(it) for _, _, target in self.names.in_code(text, it.source)]

    def model(self, it):
        """What contracts see of a type by its model: its value and its view. What each value keeps is no part of that."""
        models = (impl for impl in it.source.items if impl.kind == "impl" and impl.trait == "Model" and impl.name == it.name)
        return [member for impl in models for member in impl.members if member.kind == "ghost" and member.name in ("Value", "view")]

    # How it is shown

    def href(self, target):
        """A link within the page where it shows the target, else to where the target is."""
        it = target.owner if getattr(target, "kind", "") == "variant" and target.owner else target
        return "#" + self.anchor(it) if it in self.seen else self.layout.href(PAGE, target)

    def anchor(self, it):
        crate = it.specs.crate if isinstance(it, Definition) else it.source.crate
        kind = "" if isinstance(it, Definition) else "type."
        return escaped(f"{crate.name}.{kind}{it.name}")

    def clause(self, it):
        """A clause: its sentences in the law's comment, and its text."""
        sentences = [text for names, text in re.findall(r"^- ((?:`\w+`(?:, )?)+): (.*?)(?=\n- |\n\n|\Z)", self.law.comment, re.M | re.S) if f"`{it.name}`" in names]
        anchor = clause_anchor("clause", it)
        head = f'<h2 id="{anchor}"><code>{escaped(it.name)}</code></h2>'
        said = "".join(self.describer.comment(text[0].upper() + text[1:], self.source) for text in sentences)
        return head + said + block(quote(it.text, self.names.in_clause(it.text, self.source), self.href))

    def shown(self, node):
        """A definition or a type, and below it those that it is the first to need."""
        it, anchor = node.it, self.anchor(node.it)
        whole = self.layout.href(PAGE, it)
        by = f' <small>for <a href="#{self.anchor(node.by)}">{escaped(node.by.name)}</a></small>' if node.by else ""
        head = f'<section class="item"><h3 id="{anchor}"><a href="{whole}">{escaped(it.name)}</a>{by}</h3>'
        if isinstance(it, Definition):
            text = (it.frame + "\n" if it.frame else "") + it.text
            body = self.describer.comment(it.comment) + block(quote(text, self.names.in_specs(text, it.specs), self.href_but(it)))
        else:
            body = self.describer.comment(it.comment, it.source) + self.type(it)
        return f"{head}\n{body}\n</section>\n" + "".join(self.shown(below) for below in node.nodes)

    def type(self, it):
        model = self.model(it)
        texts = [quote(member.text, self.names.in_clause(member.text, it.source, member.owner.imports), self.href) for member in model]
        code = declaration(it)
        return block("\n".join(texts) if model else quote(code, self.names.in_code(code, it.source), self.href_but(it)))

    def href_but(self, own):
        return lambda target: None if target is own else self.href(target)

    def contents(self, clauses, types):
        """All clauses with what stands below them, as far as one goes down."""
        def rows(nodes):
            return "<ul>" + "".join(f'<li><a href="#{self.anchor(it.it)}">{escaped(it.it.name)}</a>{rows(it.nodes) if it.nodes else ""}</li>' for it in nodes) + "</ul>"

        made = "".join(f'<li><a href="#{clause_anchor("clause", it)}"><b>{escaped(it.name)}</b></a>{rows(nodes) if nodes else ""}</li>' for it, nodes in clauses)
        made += f'<li><a href="#types"><b>other types</b></a>{rows(types) if types else ""}</li>'
        return f'<details><summary>What needs what: the whole tree</summary><ul class="tree">{made}</ul></details>'


def fields_of(it):
    """The texts of a type's fields, those of variants without the variants' names."""
    for part in it.members if it.kind in ("struct", "enum") else ():
        yield from (deeper.text for deeper in part.members) if part.kind == "variant" else [part.text]
