"""The table of faults and what to do, as docs/LANGUAGE.md has it, and the pages of the rules."""
import os
import re

from safl_tools.documents import cited
from safl_tools.ending import WRONG_USE, Refusal
from safl_tools.files import read

FOLDER = os.path.dirname(os.path.abspath(__file__))
RULE = re.compile(r"[EV]\d\d")


def cells_of(line):
    return [cell.strip().replace("\\|", "|") for cell in re.split(r"(?<!\\)\|", line.strip().strip("|"))]


def rows():
    """The rows of the table by their first cells: usual causes, and what to write."""
    table = [cells_of(line) for line in read(os.path.join(FOLDER, "rows.md")).splitlines()[2:]]
    return {key: tuple(unlinked(cell) for cell in cells) for key, *cells in table}


def unlinked(text):
    """A cell in which each link is the name of a page."""
    text = re.sub(r"\[([^\]]*)\]\(#[^)]*\)", r"\1 (docs/LANGUAGE.md)", text)
    return cited(re.sub(r"\(?\[([^\]]*)\]\((\w+\.md)[^)]*\)\)?", r"(docs/\2)", text))


def row(key):
    """What is told of a row of the table; nothing if there is no such row."""
    causes, write = rows().get(key, ("", ""))
    return [(word, text) for word, text in (("usual causes", causes), ("what to write", write)) if text]


def pages():
    """The rules that have a page."""
    return sorted(name.removesuffix(".txt") for name in os.listdir(os.path.join(FOLDER, "pages")) if name.endswith(".txt"))


def page(rule):
    """The page of a rule."""
    rule = rule.upper()
    if rule not in pages():
        raise Refusal(WRONG_USE, f"there is no rule {rule}: there are {', '.join(pages())}")
    return cited(read(os.path.join(FOLDER, "pages", f"{rule}.txt")))
