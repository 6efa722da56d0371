"""Pictures: the ending of a file's name says which kind it is."""
import os

from safl_tools import files, outside, temporary
from safl_tools.ending import WRONG_USE, Refusal

KINDS = ("svg", "png", "pdf")
CONVERTER, PACKAGE = "rsvg-convert", "librsvg2-bin"


def kind(name):
    """The kind of the picture that this name is for."""
    found = [each for each in KINDS if name.endswith(f".{each}")]
    if not found:
        raise Refusal(WRONG_USE, f"the picture {name} does not end with .svg, .png or .pdf")
    return found[0]


def ready(name):
    """Asks for what makes a picture of this name from an SVG."""
    if kind(name) != "svg":
        outside.tool(CONVERTER, PACKAGE)


def of_svg(name, text):
    """The picture with this name: the SVG itself, or what it is made into."""
    if kind(name) == "svg":
        return text
    with temporary.folder() as folder:
        files.write(os.path.join(folder, "picture.svg"), text)
        words = [outside.tool(CONVERTER, PACKAGE), "-f", kind(name), "-o", "picture", "picture.svg"]
        told = outside.Told(words, folder)
        if told.status:
            raise outside.failed(CONVERTER, told)
        with open(os.path.join(folder, "picture"), "rb") as file:
            return file.read()
