"""The documents and examples that messages name: where they are, in the repository or where `make install` puts them."""
import os
import re

from safl_tools.version import TOP

FOLDERS = (TOP, f"{TOP}/../doc/safl")
NAMED = re.compile(r"\b(?:docs/\w+\.md|examples/\w+)")


def path_of(name):
    """A name of a document that leads there from here: its short one where that does, or else the whole path."""
    path = next(filter(os.path.exists, (os.path.normpath(f"{folder}/{name}") for folder in FOLDERS)), name)
    return name if os.path.exists(name) and os.path.samefile(name, path) else path


def cited(text):
    """A text of these programs with names of documents that lead there."""
    return NAMED.sub(lambda found: path_of(found[0]), text)
