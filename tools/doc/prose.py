"""Markdown as HTML, by markdown-it; blocks of code in other languages than Rattle are coloured by Pygments."""
import re

from markdown_it import MarkdownIt
from markdown_it.token import Token
import pygments
import pygments.formatters
import pygments.lexers

from quoting import block, escaped, quote

# What blocks of code are coloured as. Rattle's own is coloured as what is read of it.
LEXERS = {"c": "c", "cpp": "cpp", "sh": "sh", "scheme": "scheme", "toml": "toml", "cmake": "cmake", "python": "python", "json": "json"}
FORMATTER = pygments.formatters.HtmlFormatter(nowrap=True)


def coloured(text, language, _=""):
    """A block of code."""
    if language == "rust":
        return block(quote(text))
    if language in LEXERS:
        return block(pygments.highlight(text, pygments.lexers.get_lexer_by_name(LEXERS[language]), FORMATTER))
    return block(escaped(text))


# Paragraphs that have no marks of Markdown: most comments are of this sort, and need no library.
PLAIN = re.compile(r"(?:[A-Za-z][^\n\\`*_\[\]<>&#|~!=]*(?:\n+|\Z))*")


class Prose:
    """What makes HTML of Markdown. `link` gives what a link leads to in the site, `named` what a piece of code names, or None."""

    def __init__(self):
        self.markdown = MarkdownIt("commonmark", {"highlight": coloured}).enable(["table", "strikethrough"])

    def html(self, text, link, named, level=0):
        """The HTML of a text, its headings so many levels lower, and the headings as they are: level, anchor and text."""
        if PLAIN.fullmatch(text):
            return "".join(f"<p>{escaped(it)}</p>\n" for it in re.split(r"\n{2,}", text.strip()) if it), []
        tokens, headings, seen = self.markdown.parse(text), [], {}
        for at, token in enumerate(tokens):
            if token.type == "heading_open":
                heading = plain(tokens[at + 1])
                anchor = slug(heading, seen)
                headings.append((int(token.tag[1]), anchor, heading))
                if not level:
                    token.attrSet("id", anchor)
            if token.type in ("heading_open", "heading_close"):
                token.tag = f"h{min(6, int(token.tag[1]) + level)}"
            if token.type == "inline":
                token.children = self.inline(token.children, link, named)
        made = self.markdown.renderer.render(tokens, self.markdown.options, {})
        return made.replace("<table>", '<div class="scroll" tabindex="0"><table>').replace("</table>", "</table></div>"), headings

    def inline(self, tokens, link, named):
        """The tokens of a line, with links that lead to pages of the site, and one at each piece of code that names something."""
        made, is_in_link = [], False
        for token in tokens:
            if token.type == "link_open":
                token.attrSet("href", link(token.attrGet("href")))
            if token.type == "image":
                token.attrSet("src", link(token.attrGet("src")))
            is_in_link = token.type == "link_open" or is_in_link and token.type != "link_close"
            to = named(token.content) if token.type == "code_inline" and not is_in_link else None
            made += [raw(f'<a href="{to}">'), token, raw("</a>")] if to else [token]
        return made


def raw(text):
    return Token("html_inline", "", 0, content=text)


def plain(inline):
    """The text of a heading, without its marks."""
    return "".join(it.content for it in inline.children if it.type in ("text", "code_inline"))


def slug(heading, seen):
    """The anchor of a heading, by GitHub's rule."""
    anchor = re.sub(r"[^\w\- ]", "", heading.lower()).replace(" ", "-")
    seen[anchor] = seen.get(anchor, -1) + 1
    return f"{anchor}-{seen[anchor]}" if seen[anchor] else anchor


def without_links_to_items(comment):
    """A comment of code in which [`Heap::run`] is a piece of code alone, which gets its link from what it names."""
    return re.sub(r"\[(`[\w:()]+`)\](?![(\[:])", r"\1", comment)
