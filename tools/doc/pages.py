"""The pages that are written in Markdown, what they link of the repository, and their order in the navigation."""
import posixpath
import re
import shutil
from urllib.parse import unquote

from crates import TOP
from layout import page_of_crate, page_of_file, page_of_source, page_of_specs
from quoting import block, escaped, quote

WHERE = ("*.md", "docs/*.md", "bench/**/*.md", "examples/**/*.md", "bindings/**/*.md", "crates/*.md", "crates/*/*.md")
# The navigation: groups of pages, in the order in which a reader needs them. A page that none of them has goes to the last.
GROUPS = [
    ("Begin", ["README.md", "docs/README.md", "docs/tour.md", "examples/README.md"]),
    ("Use", ["docs/embedding.md", "docs/sizing.md", "crates/rh_heap/CALLING.md", "docs/c.md", "bindings/rust/rheap/README.md", "docs/porting.md",
             "docs/threads.md", "docs/lisp.md", "examples/lisp/README.md", "docs/formats.md"]),
    ("What is proved", ["docs/assurance.md", "docs/headline.md", "docs/promises.md", "docs/definitions.md"]),
    ("Figures", ["bench/RESULTS.md", "bench/README.md"]),
    ("Work on it", ["CONTRIBUTING.md", "docs/architecture.md", "docs/conventions.md", "docs/DECISIONS.md", "docs/gate.md", "crates/README.md", "CHANGELOG.md"]),
]
PICTURES = (".svg", ".png")


class Pages:
    """The Markdown pages. `linked` are the other files of the repository that a page links, which get a page that shows them."""

    def __init__(self, crates, layout):
        self.crates, self.layout, self.linked, self.pictures = crates, layout, {}, {}
        self.texts = {file.relative_to(TOP).as_posix(): file.read_text(encoding="utf-8") for glob in WHERE for file in sorted(TOP.glob(glob))}
        self.titles = {path: title_of(text) or path for path, text in self.texts.items()}
        self.by_file = {it.file: page_of_source(it) for crate in crates.values() for it in crate.sources.values() if layout.shown.get(it)}
        self.by_file.update((it.file, page_of_specs(it)) for crate in crates.values() for it in crate.specs.values() if it.definitions and not it.is_lemmas)

    def groups(self):
        """The navigation: each group with its pages and their titles."""
        named = [path for _, paths in GROUPS for path in paths]
        groups = [(title, [path for path in paths if path in self.texts]) for title, paths in GROUPS]
        groups.append(("More", [path for path in self.texts if path not in named]))
        made = [(title, [(page_of_file(path), self.titles[path]) for path in paths]) for title, paths in groups if paths]
        made[2][1].append(("reference/theorem.html", "The theorem, from the top down"))
        made.insert(3, ("Reference", [("reference/index.html", "All crates, items and definitions")]))
        return made

    def link(self, page, file, to):
        """Where a link of a file leads, as a link of its page. One that leads out of the repository stays as it is."""
        if re.match(r"[a-z][a-z0-9+.-]*:", to) or to.startswith("#"):
            return to
        path, _, anchor = to.partition("#")
        target = posixpath.normpath(posixpath.join(posixpath.dirname(file), unquote(path)))
        found = self.page_of(target)
        return self.layout.to(page, found, anchor) or "#content" if found else to

    def page_of(self, path):
        """The page of a file or a folder of the repository, or None where it isn't there."""
        if path in self.texts or path + "/README.md" in self.texts:
            return page_of_file(path if path in self.texts else path + "/README.md")
        if path in self.by_file:
            return self.by_file[path]
        parts = path.split("/")
        if parts[0] == "crates" and len(parts) == 2 and parts[1] in self.crates:
            return page_of_crate(self.crates[parts[1]])
        if path.startswith("..") or not (TOP / path).exists():
            return None
        if path.endswith(PICTURES):
            self.pictures[path] = path
            return path
        self.linked[path] = f"files/{path}.html"
        return self.linked[path]

    def file_page(self, path):
        """The page of a file or a folder of the repository that is no page itself."""
        page, parts = self.linked[path], [f"<h1><code>{escaped(path)}</code></h1>"]
        if (TOP / path).is_dir():
            rows = []
            for it in sorted((TOP / path).iterdir()):
                name = it.relative_to(TOP).as_posix()
                known = self.linked.get(name) or name in self.texts and page_of_file(name) or self.by_file.get(name)
                label = f"<code>{escaped(it.name)}{'/' if it.is_dir() else ''}</code>"
                rows.append(f'<li><a href="{self.layout.to(page, known)}">{label}</a></li>' if known else f"<li>{label}</li>")
            return "\n".join([*parts, f'<ul class="rows">{"".join(rows)}</ul>'])
        text = (TOP / path).read_text(encoding="utf-8", errors="replace")
        return parts[0] + block(quote(text) if path.endswith((".rt", ".antt")) else escaped(text))

    def copy_pictures(self, folder):
        for path in self.pictures:
            (folder / path).parent.mkdir(parents=True, exist_ok=True)
            shutil.copyfile(TOP / path, folder / path)


def title_of(text):
    found = re.search(r"^# +(.+?) *$", text, re.M)
    return found and found[1].replace("`", "")
