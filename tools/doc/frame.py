"""The frame of each page: its head, the navigation, and the search."""
from quoting import escaped

PAGE = """<!doctype html>
<html lang="en">
<head>
<meta charset="utf-8">
<meta name="viewport" content="width=device-width, initial-scale=1">
<title>{title}</title>
<link rel="stylesheet" href="{css}">
<script defer src="{js}" data-index="{index}"></script>
</head>
<body>
<a class="skip" href="#content">Skip to the text</a>
<header>
<a class="home" href="{home}">rheap</a>
<form role="search" hidden><input type="search" aria-label="Search the site" placeholder="Search: an item, a definition, a page" autocomplete="off"><ol id="found" aria-label="What was found"></ol></form>
<a class="menu" href="#menu">Menu</a>
</header>
<div class="columns">
<main id="content">
{trail}{body}
</main>
<nav id="menu" aria-label="Pages">
{menu}
</nav>
</div>
</body>
</html>
"""


class Frame:
    """Makes whole pages. `groups` are the navigation: the title of each group, and its pages with their titles."""

    def __init__(self, groups, layout):
        self.groups, self.layout = groups, layout

    def page(self, path, title, body, trail=(), further=()):
        """A page. The trail is the pages above it, `further` are groups of the navigation that it alone has."""
        to = lambda other: self.layout.to(path, other) or "#content"
        steps = " / ".join(f'<a href="{to(page)}">{escaped(name)}</a>' for page, name in trail)
        return PAGE.format(
            title=escaped(title if title == "rheap" else f"{title} · rheap"), body=body, css=to("site.css"), js=to("search.js"),
            index=to("search-index.js"), home=to("index.html"), trail=f'<p class="trail">{steps}</p>\n' if steps else "",
            menu="\n".join(self.group(path, *it, to) for it in (*further, *self.groups)))

    def group(self, path, title, pages, to):
        """A group of the navigation. The page itself is marked there."""
        rows = (f'<li><a href="{to(page)}"{" aria-current=page" if page == path else ""}>{escaped(name)}</a></li>' for page, name in pages)
        return f"<h2>{escaped(title)}</h2>\n<ul>\n" + "\n".join(rows) + "\n</ul>"
