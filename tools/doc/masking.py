"""Texts of Rattle without what only looks like code: comments, strings and characters."""
import re

NOT_CODE = re.compile(r"""//[^\n]* | /\*.*?\*/ | \b[bc]?r(\#*)".*?"\1 | [bc]?"(?:[^"\\]|\\.)*" | b?'(?:[^'\\\n]|\\x..|\\u\{[^}]*\}|\\.)'""", re.S | re.X)
BRACKET = re.compile(r"[(){}\[\]]")
ENDS = re.compile(r"[^\n]+")


def masked(text):
    """The text with blanks for comments, strings and characters, so that each place of it is that of the text."""
    return NOT_CODE.sub(lambda found: ENDS.sub(lambda line: " " * len(line[0]), found[0]), text)


def closing(code, at):
    """The place behind the bracket that closes the one at a place of masked code."""
    depth = 0
    for found in BRACKET.finditer(code, at):
        depth += 1 if found[0] in "({[" else -1
        if depth == 0:
            return found.end()
    raise ValueError(f"no bracket closes the one at {at}")


def closing_angle(code, at):
    """The place behind the `>` that closes the `<` at a place. That of an arrow closes nothing."""
    depth = 0
    for found in re.finditer(r"->|=>|[<>]", code[at:]):
        depth += {"<": 1, ">": -1}.get(found[0], 0)
        if depth == 0:
            return at + found.end()
    raise ValueError(f"no bracket closes the one at {at}")


def parts_between_commas(code, start, end):
    """Where the parts of masked code stand that commas part, brackets being passed over."""
    begun, at = start, start
    for found in iter(lambda: re.compile(r"[({\[<,]").search(code, at, end), None):
        if found[0] == ",":
            yield begun, found.start()
            begun = at = found.end()
        else:
            at = (closing_angle if found[0] == "<" else closing)(code, found.start())
    if code[begun:end].strip():
        yield begun, end
