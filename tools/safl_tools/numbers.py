"""Numbers as people write them: in decimal, or in hexadecimal with 0x in front. `safl` itself reads decimals only."""
import argparse
import re

HEXADECIMAL = re.compile(r"0[xX]([0-9a-fA-F]+(?:_[0-9a-fA-F]+)*)")
LONGEST = 1000  # a longer word is no argument of any circuit


def is_hexadecimal(word):
    """Whether a word is a number in hexadecimal, perhaps with `_` between its digits."""
    return len(word) <= LONGEST and bool(HEXADECIMAL.fullmatch(word))


def decimal(word):
    """The word as `safl` reads it: a number in hexadecimal becomes one in decimal, any other word stays as it is."""
    return str(int(word[2:].replace("_", ""), 16)) if is_hexadecimal(word) else word


def argument(word):
    """A type for argparse: a number in decimal or hexadecimal, as a decimal."""
    found = decimal(word)
    if not (found.isascii() and found.isdigit()):
        raise argparse.ArgumentTypeError(f"{word} is no number: write it in decimal, or in hexadecimal as 0x1f")
    return found


def script(text):
    """The text of a script of calls with its numbers in decimal. What is no number is left for `safl`, which tells its line."""
    return "\n".join(" ".join(map(decimal, line.split(" "))) for line in text.split("\n"))


def hexadecimal(value):
    return f"0x{value:x}"
