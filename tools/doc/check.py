"""What is wrong with a site: links that lead nowhere, public items without a comment, definitions that no clause reaches, and counts
that aren't those of the sources."""
import html
import posixpath
import re
from urllib.parse import unquote

import count
from crates import parts_of, public_items, qualified

ANCHOR = re.compile(r'\bid="([^"]*)"')
LINK = re.compile(r'\b(?:href|src)="([^"]*)"')


def faults_of(site):
    """A line for each thing that is wrong."""
    return [*broken_links(site), *without_comment(site), *not_reached(site), *count.differences(site)]


def broken_links(site):
    """Each link leads to a file of the site, and its anchor to a place there."""
    anchors = {path: {html.unescape(it) for it in ANCHOR.findall(text)} for path, text in site.made.items() if path.endswith(".html")}
    for path, text in site.made.items():
        if not path.endswith(".html"):
            continue
        for link in dict.fromkeys(LINK.findall(text)):
            if re.match(r"[a-z][a-z0-9+.-]*:", link):
                continue
            to, _, anchor = html.unescape(link).partition("#")
            target = posixpath.normpath(posixpath.join(posixpath.dirname(path), unquote(to))) if to else path
            if target not in site.made and target not in site.pages.pictures:
                yield f"{path}: a link leads to no page: {link}"
            elif anchor and unquote(anchor) not in anchors.get(target, ()):
                yield f"{path}: a link leads to no place of its page: {link}"


def without_comment(site):
    """Each public item has a comment, and so has each variant and each public field that has a name."""
    for crate in site.crates.values():
        for source in crate.sources.values() if not crate.has_tests else ():
            if not source.comment:
                yield f"{source.file}: the file begins without a comment"
            for item in public_items(source):
                for it in (item, *parts_of(item)):
                    if not it.comment.strip():
                        yield f"{source.file}:{it.line}: no comment: {qualified(it)}"


def not_reached(site):
    """Each definition is cited by a clause, or by a definition that is reached so."""
    for crate in site.crates.values():
        for it in crate.definitions():
            if it not in site.citations.reached:
                yield f"{it.specs.file}: no clause reaches the definition {it.name}"

