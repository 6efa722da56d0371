"""The words that a script is given: a parser that prints with --help what the script does and refuses words that it does not know,
and what a word may be."""
import argparse
import os


def parser(about):
    return argparse.ArgumentParser(description=about, formatter_class=argparse.RawDescriptionHelpFormatter)


def a_file(path):
    """The path of a file that can be read."""
    if os.path.isdir(path) or not os.access(path, os.R_OK):
        raise argparse.ArgumentTypeError(f"cannot read {path}")
    return path


def a_program(path):
    """The absolute path of a program."""
    if os.path.isdir(path) or not os.access(path, os.X_OK):
        raise argparse.ArgumentTypeError(f"there is no program {path}")
    return os.path.abspath(path)


def a_number(word):
    """A number from 0 on, in decimal."""
    if not word.isascii() or not word.isdigit():
        raise argparse.ArgumentTypeError(f"{word} is no number")
    return int(word)
