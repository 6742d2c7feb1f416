"""How much the site has, and how much the sources have by a count of lines that knows nothing of how the site reads them."""
import re

from crates import TOP

WORDS = r"(?:unsafe |const |async |extern \"C\" )*"
ITEM = re.compile(rf"^ *pub {WORDS}(?:fn|struct|enum|trait|type|const|static) \w", re.M)
FUNCTION = re.compile(rf"^ *(pub )?(?:pub\([^)]*\) )?{WORDS}fn \w")
CLAUSE = re.compile(r"^ +(?:requires|ensures)\*?(?: \w+)?(?: \{|$)")
DEFINITION = re.compile(r"^ *(?:abbrev |unfoldable )pub |^ *pub (?:record|data) |^pub [^\W\d]\S* :", re.M)
# How each begins in the pages.
MARKS = {"public items": '<section class="item public"', "clauses of public functions": '<dt class="clause"', "definitions": '<section class="item definition"'}


def of_sources():
    """The counts of the sources: public items, clauses of public functions, definitions, and pages in Markdown."""
    items = clauses = definitions = 0
    for crate in sorted((TOP / "crates").iterdir()):
        texts = [file.read_text(encoding="utf-8") for file in crate.glob("src/**/*.rt")]
        if not any("#[test]" in text for text in texts):
            items += sum(len(ITEM.findall(text)) for text in texts)
            clauses += sum(map(public_clauses, texts))
        specs = (file for file in crate.glob("specs/**/*.antt") if not re.search(r"/lemmas\b", str(file)))
        definitions += sum(len(DEFINITION.findall(file.read_text(encoding="utf-8"))) for file in specs)
    pages = [it for it in TOP.rglob("*.md") if not {"must-fail", "out", "target", ".git"} & set(it.relative_to(TOP).parts)]
    return {"public items": items, "clauses of public functions": clauses, "definitions": definitions, "pages in Markdown": len(pages)}


def public_clauses(text):
    """How many clauses public functions have, with those of public traits and of what implements a trait."""
    count = 0
    for part in re.split(r"^(?!where\b)(?=[a-z])", text, flags=re.M):
        head = part.partition("{")[0]
        is_open = head.startswith("pub trait ") or head.startswith("impl") and " for " in head
        is_public = False
        for line in part.split("\n"):
            function = FUNCTION.match(line)
            is_public = bool(function[1]) or is_open if function else is_public
            count += is_public and bool(CLAUSE.match(line))
    return count


def of_site(site):
    """The counts of the site: what its pages have."""
    counts = {what: sum(text.count(mark) for path, text in site.made.items() if path.startswith("reference/")) for what, mark in MARKS.items()}
    return {**counts, "pages in Markdown": len(site.pages.texts)}


def differences(site):
    due = of_sources()
    for what, count in of_site(site).items():
        if count != due[what]:
            yield f"the sources have {due[what]} {what}, and the site {count}"
