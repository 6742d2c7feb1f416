"""Code as HTML: coloured, each name that is known with a link to what it stands for."""
import html
import re

COMMENT = r"(?P<comment>//[^\n]*|--(?=\s|$)[^\n]*)"
TOKEN = re.compile(COMMENT + r"""|(?P<string>b?"(?:[^"\\]|\\.)*")|(?P<number>(?<![\w.])\d\w*)|(?P<word>\w+)|(?P<other>[^\w"/-]+|.)""", re.S)
KEYWORDS = frozenset("""abbrev as async box break const continue crate data dyn else ensures enum extern fn for ghost if impl in invariant
let loop match mod module move mut pub record ref requires return self static struct super trait type unfoldable unsafe use where while Self then with"""
                     .split())
# The classes that Pygments gives to such parts of other languages.
CLASSES = {"comment": "c", "string": "s", "number": "m"}


def escaped(text):
    return html.escape(text, quote=True)


def quote(text, places=(), href=None):
    """The HTML of a text of Rattle or Antt. `places` are where names stand, and what each stands for, to which `href` has a link."""
    begins = {start: (end, target) for start, end, target in sorted(places, key=lambda it: it[:2])}
    made, at = [], 0
    while at < len(text):
        found = TOKEN.match(text, at)
        end, target = begins.get(at, (0, None)) if found.lastgroup != "comment" else (0, None)
        link = target and href(target)
        if link:
            made.append(f'<a href="{link}">{escaped(text[at:end])}</a>')
            at = end
            continue
        made.append(token(found))
        at = found.end()
    return "".join(made)


def token(found):
    """A part of code, in the colour of its sort."""
    text, sort = found[0], found.lastgroup
    if sort == "word":
        return f'<span class="k">{text}</span>' if text in KEYWORDS else text
    return f'<span class="{CLASSES[sort]}">{escaped(text)}</span>' if sort in CLASSES else escaped(text)


def block(code, kind=""):
    """A block of code, which may be scrolled by the keyboard too."""
    return f'<pre tabindex="0"{f" class={kind}" if kind else ""}><code>{code}</code></pre>'
