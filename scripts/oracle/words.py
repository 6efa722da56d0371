"""The words of a command line, as the parser clap reads them: options stand anywhere, and each is given at most once.

Each command's words are put in the order of the table of docs/COMMANDS.md, so that what follows reads them by their places.
"""
# what stands behind a command's word: names and numbers in their order, options with a value, flags, and whether any words may follow
FORMS = {
    "check": (1, [], [], False),
    "build": (2, [], ["opt"], False),
    "sim": (1, ["cycles"], [], True),
    "run": (1, ["cycles"], [], True),
    "walk": (1, ["order", "steps"], [], True),
    "report": (1, [], [], False),
    "gen": (2, [], [], False),
    "bench": (2, ["cycles"], [], False),
    "reshape": (2, ["copy", "unfold"], [], False),
    "session": (2, ["cycles"], [], False),
    "aig": (2, [], [], False),
    "aigstat": (1, [], [], False),
}
# options of which exactly one is given, and options that may be left out
CHOICES = ("reshape",)
TRACES = {"sim": ["vcd", "starts", "toggles"]}
# the commands whose positional words are numbers, and not names
NUMBERS = ("gen", "bench")


class NoCommand(Exception):
    """The words are no command."""


class Line:
    """The words behind a command's own, read one after the other."""

    def __init__(self, options, flags):
        self.options, self.flags = options, flags
        self.values, self.plain = {}, []
        self.waiting = None

    def read(self, words):
        words = list(words)
        while words:
            word = words.pop(0)
            if word == "--":
                self.plain += words
                break
            self.one(word)
        if self.waiting:
            raise NoCommand

    def one(self, word):
        if word.startswith("--"):
            self.option(word[2:])
        elif word.startswith("-") and word != "-":
            raise NoCommand  # no option has a short name, and a negative number is no value
        elif self.waiting:
            self.give(self.waiting, word)
            self.waiting = None
        else:
            self.plain.append(word)

    def option(self, text):
        name, equals, value = text.partition("=")
        if self.waiting:
            raise NoCommand
        if name in self.flags and not equals:
            self.give(name, "true")
        elif name in self.options and equals:
            self.give(name, value)
        elif name in self.options:
            self.waiting = name
        else:
            raise NoCommand

    def give(self, name, value):
        if name in self.values:
            raise NoCommand
        self.values[name] = value


def in_order(words):
    """The command's word, its names or numbers, its options in the table's order, each before its value, and what follows; and
    the files of its traces by their kinds."""
    if not words or words[0] not in FORMS:
        raise NoCommand
    verb = words[0]
    count, options, flags, follows = FORMS[verb]
    kinds = TRACES.get(verb, [])
    line = Line(options + kinds, flags)
    line.read(words[1:])
    traces = {kind: line.values.pop(kind) for kind in kinds if kind in line.values}
    if "" in traces.values() or len(set(traces.values())) < len(traces):
        raise NoCommand
    plain = line.plain
    if len(plain) < count or len(plain) > count and not follows:
        raise NoCommand
    if verb not in NUMBERS and "" in plain[:count]:
        raise NoCommand
    given = [name for name in options if name in line.values]
    if len(given) != (1 if verb in CHOICES else len(options)):
        raise NoCommand
    found = [verb] + plain[:count]
    for name in given:
        found += [f"--{name}", line.values[name]]
    found += [f"--{name}" for name in flags if name in line.values]
    return found + plain[count:], traces
