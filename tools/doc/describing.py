"""Parts of pages that several sorts of pages have: comments, code with links, clauses, edits, and what cites something."""
import collections

from antt import Definition
from citing import imports_of
from crates import is_law, qualified
from layout import clause_anchor, first_sentence
from prose import without_links_to_items
from quoting import block, escaped, quote

# So many uses are shown; if there are more, they can be unfolded.
FEW = 6


class Describer:
    """What makes the parts of pages. `page` is the page that is being made."""

    def __init__(self, names, citations, layout, prose, trials, link):
        self.names, self.citations, self.layout, self.prose, self.trials, self.link = names, citations, layout, prose, trials, link
        self.page = ""

    def href(self, target):
        return self.layout.href(self.page, target)

    # Comments

    def comment(self, text, source=None, is_short=False, signature=""):
        """The HTML of a comment, whose pieces of code have links to what they name in the file in which it stands, or in a signature: a
        variant of one of its types, as an error is."""
        variants = {} if not signature else {it.name: it for _, _, target in self.names.in_code(signature, source) if target.kind == "enum" for it in target.members}

        def named(piece):
            found = source and next(iter(self.names.in_code(piece, source)), None)
            if found and found[:2] == (0, len(piece)):
                return self.href(self.method(found[2], piece.split("::")[-1]) or found[2])
            return self.href(variants[piece]) if piece in variants else None

        text = first_sentence(text) if is_short else text
        return self.prose.html(without_links_to_items(text), lambda to: self.link(self.page, source.file if source else "", to), named, level=3)[0]

    def method(self, item, name):
        """The function of a type, or the member of a trait, that has this name."""
        if item.kind not in ("struct", "enum", "trait") or item.name == name:
            return None
        return next((it for it in self.names.methods(item) if it.name == name and it in self.layout.places), None)

    # Code

    def code(self, text, source):
        return block(quote(text, self.names.in_code(text, source), self.href))

    def definition(self, it):
        text = (it.frame + "\n" if it.frame else "") + it.text
        return block(quote(text, self.names.in_specs(text, it.specs), self.href_but(it)))

    def href_but(self, own):
        return lambda target: None if target is own else self.href(target)

    def ghost(self, item):
        return quote(item.text, self.names.in_clause(item.text, item.source, imports_of(item)), self.href)

    def clauses(self, item):
        """The clauses of a function, each with its name and a place of its own."""
        if not item.clauses:
            return ""
        place = self.layout.places.get(item)
        rows = []
        for it in item.clauses:
            anchor = clause_anchor(place[1], it)
            code = block(quote(it.text, self.names.in_clause(it.text, item.source, imports_of(item)), self.href), "clause")
            rows.append(f'<dt class="clause" id="{escaped(anchor)}"><a href="#{escaped(anchor)}">{it.kind} {escaped(it.name)}</a></dt><dd>{code}</dd>')
        return f'<dl class="clauses">{"".join(rows)}</dl>'

    # What tries it, and what cites it

    def edits_within(self, sources):
        """The edits of functions of these files that have no place in the site."""
        edits = [edit for it, edits in self.trials.items() if it not in self.layout.places and getattr(it, "source", None) in sources for edit in edits]
        return f"<h2>Functions that aren't public</h2>{self.edits(None, edits)}" if edits else ""

    def edits(self, it, edits=None):
        """The edits of a function or a definition, each of which the prover must refuse."""
        edits = self.trials.get(it, ()) if edits is None else edits
        if not edits:
            return ""
        rows = []
        for edit in edits:
            lines = [f"<span class={sort}>{mark} {escaped(text.strip())}</span>" for _, old, new in edit.changes for sort, mark, text in (("old", "-", old), ("new", "+", new))]
            rows.append(f"<p><code>{escaped(edit.name)}</code></p>" + block("\n".join(lines)))
        count = "An edit that the prover refuses" if len(edits) == 1 else f"{len(edits)} edits that the prover refuses"
        return f"<details><summary>{count}</summary>{''.join(rows)}</details>"

    def uses(self, it):
        """Where a definition or a type is cited."""
        rows = collections.defaultdict(list)
        for item, clauses in self.citations.clauses_that_cite(it):
            row = "Laws" if is_law(item) and item.is_public() else "Clauses"
            link = self.href(item)
            if link:
                names = ", ".join(f"<code>{escaped(clause.name)}</code>" for clause in clauses if clause.name)
                rows[row].append(self.name_of(item, link) + (f" ({names})" if names else ""))
            else:
                rows["Clauses of functions that aren't public"].append(f"<code>{escaped(self.whole_name(item))}</code>")
        for item in self.citations.ghosts_that_cite(it):
            owner = item.owner
            link = self.href(owner) or next((self.href(of) for of in owner.source.items if of.name == owner.name and of.kind != "impl"), None)
            rows["Models, traits and their implementations"].append(self.name_of(owner, link) + f" (<code>{escaped(item.name)}</code>)")
        for other in self.citations.definitions_that_cite(it):
            rows["Definitions"].append(self.name_of(other, self.href(other)))
        parts = [f"<dt>{title}</dt><dd>{few(rows[title])}</dd>" for title in ORDER if rows[title]]
        return f'<p class="uses">Cited by:</p><dl class="uses">{"".join(parts)}</dl>' if parts else ""

    def name_of(self, it, link):
        name = f"<code>{escaped(self.whole_name(it))}</code>"
        return f'<a href="{link}">{name}</a>' if link else name

    def whole_name(self, it):
        """The name of an item or a definition behind that of its crate."""
        if isinstance(it, Definition):
            return f"{it.specs.crate.name}::{it.name}"
        name = qualified(it).replace(".", "::") if it.kind != "impl" else it.name + (f" as {it.trait}" if it.trait else "")
        return f"{it.source.crate.name}::{name}"


ORDER = ["Clauses", "Laws", "Models, traits and their implementations", "Definitions", "Clauses of functions that aren't public"]


def few(rows):
    """Some of the rows, and the others unfolded."""
    rows = list(dict.fromkeys(rows))
    if len(rows) <= FEW + 2:
        return ", ".join(rows)
    return ", ".join(rows[:FEW]) + f"<details><summary>and {len(rows) - FEW} more</summary>{', '.join(rows[FEW:])}</details>"
