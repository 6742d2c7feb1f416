"""The edits that the prover must refuse, and what each is an edit of: a function, or a definition."""
import re


class Edit:
    """An edit: its file, and for each place that it changes the file there, what stood and what stands."""

    def __init__(self, crate, file):
        self.crate, self.file, self.name, self.changes = crate, file, file.stem, []
        path, old = "", ""
        for line in file.read_text(encoding="utf-8").split("\n"):
            if line.startswith("file: "):
                path = line[6:].strip()
            elif line.startswith("old: "):
                old = line[5:]
            elif line.startswith("new:"):
                self.changes.append((path, old, re.sub(r"\Anew: ?", "", line)))


def edits_of(crate):
    return [Edit(crate, file) for file in sorted((crate.folder / "must-fail").glob("*")) if file.suffix in (".edit", ".md")]


def trials(crates):
    """The edits of each function and of each definition."""
    found = {}
    for crate in crates.values():
        sources = {it.file.split("/", 2)[2]: it for it in crate.sources.values()}
        specs = {it.file.split("/", 2)[2]: it for it in crate.specs.values()}
        for edit in edits_of(crate):
            path, old, _ = edit.changes[0]
            tried = edited_item(sources[path].items, sources[path].text.find(old), old) if path in sources else None
            if path in specs:
                tried = next((it for it in specs[path].definitions.values() if old in it.text), None)
            if tried:
                found.setdefault(tried, []).append(edit)
    return found


def edited_item(items, at, old):
    """The innermost item in which a place is."""
    if at < 0:
        return None
    at += len(old) - len(old.lstrip())
    for item in items:
        if item.start <= at < item.end:
            inner = edited_item(item.members, at, old.lstrip()) if item.kind in ("impl", "trait") else None
            return inner or item
    return None
