#!/usr/bin/env python3
"""Says which links of README.md, CHANGES.md, docs/, examples/ and editors/ lead to no file of the repository, or to no heading of its page.

With a folder, such as PREFIX/share/doc/safl, it follows the links of the pages there."""
import glob
import os
import re
import sys

from files import TOP, read
from given import parser

LINK = re.compile(r"(?<!\\)\]\(([^)\s]+)\)")


def without_code(page):
    """The page without its blocks of code; code within a line stays, as headings have it."""
    return re.sub(r"^```.*?^```$", "", page, flags=re.M | re.S)


def anchor(heading):
    """The anchor that a heading has: its letters and digits, lower, with a hyphen for each blank."""
    text = re.sub(r"\[([^\]]*)\]\([^)]*\)", r"\1", heading.strip())
    return re.sub(r"[^\w\- ]", "", text.lower()).replace(" ", "-")


def anchors(path):
    return {anchor(line) for line in re.findall(r"^#+ (.*)$", without_code(read(path)), re.M)}


def pages(top):
    """The pages of the folders that are installed."""
    found = [path for folder in ("docs", "examples", "editors") for path in glob.glob(f"{top}/{folder}/**/*.md", recursive=True)]
    return sorted(glob.glob(f"{top}/*.md") + found)


def broken(top=TOP):
    """A line for each link that leads nowhere, or out of the folder."""
    for page in pages(top):
        text = re.sub(r"`[^`\n]*`", "", without_code(read(page)))
        for link in LINK.findall(text):
            if re.match(r"\w+:", link):
                continue
            path, _, part = link.partition("#")
            there = os.path.normpath(os.path.join(os.path.dirname(page), path)) if path else page
            if not os.path.exists(there):
                yield f"{os.path.relpath(page, top)}: {link} is no file"
            elif os.path.relpath(there, top).startswith(".."):
                yield f"{os.path.relpath(page, top)}: {link} leads out of the folder"
            elif part and (not there.endswith(".md") or part not in anchors(there)):
                yield f"{os.path.relpath(page, top)}: {link} is no heading"


def main():
    reader = parser(__doc__)
    reader.add_argument("folder", metavar="FOLDER", nargs="?", default=TOP, help="a folder with installed pages")
    found = list(broken(os.path.abspath(reader.parse_args().folder)))
    for line in found:
        print(f"links: {line}")
    sys.exit(1 if found else 0)


if __name__ == "__main__":
    main()
