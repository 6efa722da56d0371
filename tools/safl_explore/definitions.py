"""The words of a source and their places."""
import re

TOKEN = re.compile(r"//[^\n]*|\w+'\w+|\w+|==|!=|<=|>=|<<|>>|=>|\S", re.ASCII)


def tokens(text):
    """The words of a text and their places, comments left out."""
    return [(found.group(), found.start()) for found in TOKEN.finditer(text) if not found.group().startswith("//")]
