"""The words of a command: which one is wrong, and what is written instead. The same forms say which words are files and arguments."""
from dataclasses import dataclass, field

from safl_explain.hints import nearest
from safl_explain.report import counted
from safl_tools.documents import cited

COUNTS, LIMIT, SIZE = (0, 2**64 - 1), (1, 10**9), (1, 900)


@dataclass(frozen=True)
class Form:
    """What stands behind a command's word: names or numbers in their order, options with a value, flags, and whether ARGs follow."""

    places: tuple
    options: dict = field(default_factory=dict)
    optional: tuple = ()
    flags: tuple = ()
    takes_arguments: bool = False
    one_of: tuple = ()


CYCLES = {"cycles": "L"}
TRACES = {"vcd": "F1", "starts": "F2", "toggles": "F3"}
FORMS = {
    "check": Form(("IN",)),
    "build": Form(("IN", "OUT"), flags=("opt",)),
    "sim": Form(("IN",), {**CYCLES, **TRACES}, tuple(TRACES), takes_arguments=True),
    "run": Form(("FILE",), CYCLES, takes_arguments=True),
    "walk": Form(("IN",), {"order": "SEED", "steps": "N"}, takes_arguments=True),
    "report": Form(("IN",)),
    "gen": Form(("SEED", "COUNT")),
    "bench": Form(("SEED", "COUNT"), CYCLES),
    "reshape": Form(("IN", "OUT"), {"copy": "K", "unfold": "K"}, one_of=("copy", "unfold")),
    "session": Form(("IN", "SCRIPT"), CYCLES),
    "aig": Form(("FILE", "OUT")),
    "aigstat": Form(("FILE",)),
}
RANGES = {"L": LIMIT, "N": LIMIT, "SEED": COUNTS, "K": COUNTS, "COUNT": SIZE}
MANUAL = cited("the help is `man safl`; docs/COMMANDS.md has an example of each command")


def usage(verb):
    """The usage of a command."""
    form = FORMS[verb]
    words = ["safl", verb, *form.places]
    words += [" | ".join(f"--{name} {form.options[name]}" for name in form.one_of)] if form.one_of else []
    for name, value in form.options.items():
        if name not in form.one_of:
            words.append(f"[--{name} {value}]" if name in form.optional else f"--{name} {value}")
    words += [f"[--{name}]" for name in form.flags]
    return " ".join(words + (["[ARG..]"] if form.takes_arguments else []))


class Wrong(Exception):
    """Which word of a command is wrong, by its place in the list (its length: a word that is missing), and why."""

    def __init__(self, place, why, *hints):
        super().__init__(why)
        self.place, self.why, self.hints = place, why, hints


class Line:
    """The words behind a command's word, by what they are: the places of the plain words, and of the options' values."""

    def __init__(self, words):
        self.words, self.verb, self.form = words, words[0], FORMS[words[0]]
        self.plain, self.values, self.options = [], {}, {}
        self.read()

    def read(self):
        at = 1
        while at < len(self.words):
            word = self.words[at]
            if word == "--":
                self.plain += range(at + 1, len(self.words))
                return
            at = self.option(at) if word.startswith("-") and word != "-" else self.word(at)

    def word(self, at):
        self.plain.append(at)
        return at + 1

    def option(self, at):
        """Reads an option and its value, and gives the place after them."""
        word = self.words[at]
        name, equals, value = word.removeprefix("--").partition("=")
        if not word.startswith("--") or name not in (*self.form.options, *self.form.flags):
            raise self.unknown(at, name)
        if name in self.options:
            raise Wrong(at, f"`--{name}` is given a second time")
        self.options[name] = at
        if name in self.form.flags:
            if equals:
                raise Wrong(at, f"`--{name}` takes no value")
            return at + 1
        if equals:
            self.values[name] = (at, value)
            return at + 1
        if at + 1 == len(self.words) or self.words[at + 1].startswith("-") and self.words[at + 1] != "-":
            raise Wrong(min(at + 1, len(self.words)), f"the value of `--{name}` is missing: {self.form.options[name]}")
        self.values[name] = (at + 1, self.words[at + 1])
        return at + 2

    def unknown(self, at, name):
        word = self.words[at]
        if word in ("--help", "-h", "--version", "-V"):
            return Wrong(at, f"there is no `{word}`", MANUAL)
        if word.isascii() and word[1:].isdigit() and len(word) < 40:
            value = int(word[1:])
            examples = f"with 8 bits `{2**8 - value % 2**8}`, with 16 `{2**16 - value % 2**16}`"
            return Wrong(at, "a word that begins with `-` is an option", f"no number is negative; in w bits, {word} is written 2^w - {value}: {examples}")
        meant = nearest(name.lstrip("-"), [*self.form.options, *self.form.flags])
        others = [verb for verb, form in FORMS.items() if name in (*form.options, *form.flags)]
        if others:
            return Wrong(at, f"`{self.verb}` has no option `{word}`", f"it is an option of {', '.join(f'`{verb}`' for verb in others)}")
        return Wrong(at, f"`{self.verb}` has no option `{word}`", *([f"did you mean `--{meant}`? Options are not shortened"] if meant else []))


def number(place, word, kind):
    """Refuses a word that is no number of this kind."""
    low, high = RANGES[kind]
    if not (word.isascii() and word.isdigit()):
        raise Wrong(place, f"{kind} is a number in decimal")
    if len(word) > 20 or not low <= int(word) <= high:
        raise Wrong(place, f"{kind} is a number from {low:,} to {high:,}")


def checked(words):
    """The line of a command. A wrong word is an exception."""
    if not words:
        raise Wrong(0, "the command is missing", f"the commands are {', '.join(FORMS)}", MANUAL)
    if words[0] not in FORMS:
        raise no_command(words)
    line = Line(words)
    form, plain = line.form, line.plain
    if len(plain) < len(form.places):
        name = form.places[len(plain)]
        raise Wrong(len(words), f"{name} is missing", *([f"{name} is the file that is written"] if name == "OUT" else []))
    if len(plain) > len(form.places) and not form.takes_arguments:
        raise Wrong(plain[len(form.places)], f"a word too many: `{line.verb}` takes {counted(len(form.places), 'word')} and its options")
    for place, kind in zip(plain, form.places):
        if kind in RANGES:
            number(place, words[place], kind)
        elif not words[place]:
            raise Wrong(place, f"the name of {kind} is empty")
    options(line)
    return line


def no_command(words):
    word = words[0]
    if word.startswith("-"):
        return Wrong(0, "the command comes first, and its options after it" if word.lstrip("-").partition("=")[0] in
                     {name for form in FORMS.values() for name in (*form.options, *form.flags)} else f"there is no `{word}`", MANUAL)
    meant = nearest(word, FORMS)
    return Wrong(0, f"there is no command `{word}`", *([f"did you mean `{meant}`?"] if meant and word != "help" else []),
                 f"the commands are {', '.join(FORMS)}", MANUAL)


def options(line):
    """Refuses options that are missing, and values that are out of range."""
    form, words = line.form, line.words
    if form.one_of:
        given = [name for name in form.one_of if name in line.values]
        if not given:
            raise Wrong(len(words), "`--copy K` or `--unfold K` is missing")
        if len(given) > 1:
            raise Wrong(line.options[given[1]], "either `--copy` or `--unfold`")
    for name, kind in form.options.items():
        if name not in line.values:
            if name in form.optional or name in form.one_of:
                continue
            raise Wrong(len(words), f"`--{name} {kind}` is missing")
        place, value = line.values[name]
        if kind in RANGES:
            number(place, value, kind)
        elif not value:
            raise Wrong(place, f"the name of the file for `--{name}` is empty")
    seen = {}
    for name in TRACES:
        if name in line.values and line.verb == "sim":
            place, value = line.values[name]
            if value in seen:
                raise Wrong(place, f"`--{seen[value]}` has the same file")
            seen[value] = name
