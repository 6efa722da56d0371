"""What is told about a refusal: places of a text, each with a label, and lines below them."""
from dataclasses import dataclass, field


@dataclass(frozen=True)
class Spot:
    """A part of a text, by its first byte and the byte after its last one, and what is said of it."""

    place: int
    end: int
    label: str = ""


@dataclass
class Report:
    """What is told about a refusal: a rule, the spot that `safl` names, other spots, hints, and the row of the table of faults."""

    rule: str = ""
    spot: Spot = None
    others: list = field(default_factory=list)
    hints: list = field(default_factory=list)
    row: str = ""


class Fault(Exception):
    """The first fault of a source, as the second reading finds it."""

    def __init__(self, rule, place, end, label, others=(), hints=(), row=""):
        super().__init__(rule)
        self.report = Report(rule, Spot(place, max(end, place + 1), label), list(others), list(hints), row or rule)


def listed(words, last="or"):
    """Words as a list in a sentence: a, b or c."""
    words = list(words)
    return words[0] if len(words) == 1 else f"{', '.join(words[:-1])} {last} {words[-1]}" if words else ""


def counted(number, noun):
    return f"{number:,} {noun}" + ("" if number == 1 else "s")
