"""Templates: files of this folder with names in double braces, for which values are put."""
import os
import re

from safl_tools.files import read

FOLDER = os.path.dirname(os.path.abspath(__file__))


def filled(template, values):
    """The text of a template, with values in the places of their names."""
    return re.sub(r"\{\{(\w+)\}\}", lambda found: str(values[found[1]]), read(os.path.join(FOLDER, template)))
