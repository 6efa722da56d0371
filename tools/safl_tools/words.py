"""The words of a command line."""
import argparse
import shlex
import sys

from safl_tools.ending import WRONG_USE, Refusal
from safl_tools.version import version

MARK = "\0"  # no word has it


class Version(argparse.Action):
    """The option that prints the program's version."""

    def __call__(self, parser, *_):
        print(f"{parser.prog} {version()}")
        parser.exit()


class Words(argparse.ArgumentParser):
    """The words of a program's command line. A wrong one is told in one line; no option may be shortened.

    Words after `--` are no options, whatever they begin with. They are marked until they are read.
    """

    def __init__(self, name, purpose, calls_safl=True, **more):
        super().__init__(prog=name, description=purpose, allow_abbrev=False, **more)
        self.add_argument("--version", action=Version, nargs=0, help="print the version")
        if calls_safl:
            self.add_argument(
                "--safl", metavar="PROGRAM",
                help="the program safl (else the variable SAFL, then PATH, then the one beside this program)",
            )

    def error(self, message):
        raise Refusal(WRONG_USE, f"{message.replace(MARK, '')} (try --help)")

    def parse_args(self, args=None, namespace=None):
        return unmarked(super().parse_args(marked(args), namespace))

    def parse_intermixed_args(self, args=None, namespace=None):
        return unmarked(super().parse_intermixed_args(marked(args), namespace))


def marked(args):
    """The words without `--`, those after it with a mark where they look like options."""
    words = sys.argv[1:] if args is None else list(args)
    if "--" not in words:
        return words
    place = words.index("--")
    return words[:place] + [MARK + word if word.startswith("-") else word for word in words[place + 1:]]


def unmarked(found):
    """What was read, without marks."""
    for name, value in vars(found).items():
        setattr(found, name, list(map(plain, value)) if isinstance(value, list) else plain(value))
    return found


def plain(value):
    return value.removeprefix(MARK) if isinstance(value, str) else value


def quoted(name):
    """A file's name as a word of a shell's line. It does not look like an option."""
    return shlex.quote(f"./{name}" if name.startswith("-") else name)


def count(low, high, what):
    """A type for argparse: a decimal number from low to high."""

    def read(word):
        if not (word.isascii() and word.isdigit() and len(word) <= 20 and low <= int(word) <= high):
            raise argparse.ArgumentTypeError(f"{word} is no {what} from {low:,} to {high:,}")
        return int(word)

    return read
