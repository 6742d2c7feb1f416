"""What cites what: which definitions and items each clause and each definition names, and the other way around."""
import collections

from antt import Definition
from crates import is_law


class Use:
    """Where a definition or an item is cited: by a clause of a function, by what a trait, an `impl` or a model says, or by a definition."""

    def __init__(self, item, clause=None):
        self.item, self.clause = item, clause


class Citations:
    """All citations. `used` has the uses of each definition and item; `below` what each definition cites."""

    def __init__(self, crates, names):
        self.names, self.used, self.below = names, collections.defaultdict(list), {}
        self.reached = set()
        for crate in crates.values():
            for source in crate.sources.values():
                self.note_items(source.items)
        for crate in crates.values():
            for specs in crate.specs.values():
                for it in specs.definitions.values():
                    self.note_definition(it, specs)
        self.reach()

    def note_definition(self, definition, specs):
        cited = self.names.in_specs(definition.code(), specs)
        self.below[definition] = [it for it in distinct(target for _, _, target in cited) if it is not definition]
        if not specs.is_lemmas:
            for it in self.below[definition]:
                self.used[it].append(Use(definition))

    def note_items(self, items):
        for item in items:
            texts = [(it.text, it) for it in item.clauses] + ([(item.text, None)] if item.kind == "ghost" else [])
            for text, clause in texts:
                for it in distinct(target for _, _, target in self.names.in_clause(text, item.source, imports_of(item))):
                    self.used[it].append(Use(item, clause))
                    self.reached.add(it)
            if item.kind in ("trait", "impl"):
                self.note_items(item.members)

    def reach(self):
        """Adds what is cited by what is reached, until nothing is left."""
        waiting = list(self.reached)
        while waiting:
            for it in self.below.get(waiting.pop(), ()):
                if it not in self.reached:
                    self.reached.add(it)
                    waiting.append(it)

    def definitions_that_cite(self, it):
        return [use.item for use in self.used[it] if isinstance(use.item, Definition)]

    def clauses_that_cite(self, it):
        """The functions that cite it, each with its clauses that do; laws come last."""
        found = {}
        for use in self.used[it]:
            if not isinstance(use.item, Definition) and use.item.kind == "fn":
                found.setdefault(use.item, []).append(use.clause)
        return sorted(found.items(), key=lambda row: is_law(row[0]))

    def ghosts_that_cite(self, it):
        """The ghost members of traits, of their `impl`s and of models that cite it."""
        return [use.item for use in self.used[it] if not isinstance(use.item, Definition) and use.item.kind == "ghost"]


def imports_of(item):
    """What the `impl` or trait of an item imports for its members alone."""
    return item.owner.imports if item.owner else {}


def distinct(items):
    return list(dict.fromkeys(items))
