"""The tokens of a source, with their places. A text has a character for each byte, so that a place is a number of bytes."""
import re
from dataclasses import dataclass

KEYWORDS = frozenset("fun if then else let in case default cat bits ext and".split())
TOKEN = re.compile(
    r"(?P<blank>[ \t\r\n]+|//[^\n]*)|(?P<name>[A-Za-z_][A-Za-z0-9_]*)|(?P<sized>\d+'(?:d\d+|h[0-9a-fA-F]+|b[01]+))|(?P<num>\d+)"
    r"|(?P<symbol>=>|==|!=|<=|>=|<<|>>|[(){},:;=<>+\-*&|^~])", re.ASCII)
NAME_MOST, DIGITS_MOST, VALUE_END = 64, 128, 2**128
BASES = {"d": 10, "h": 16, "b": 2}


@dataclass(frozen=True)
class Token:
    """A token: its kind (name, keyword, num, sized, symbol or end), its text, and where it is."""

    kind: str
    text: str
    place: int

    @property
    def end(self):
        return self.place + len(self.text)

    @property
    def shown(self):
        return "the end of the text" if self.kind == "end" else f"`{self.text}`" if len(self.text) <= 40 else f"`{self.text[:37]}..`"


def tokens(text):
    """The tokens up to the end of the text or to the first byte that begins none, and the place of that byte or None."""
    found, at = [], 0
    while at < len(text):
        match = TOKEN.match(text, at)
        if not match:
            return found, at
        kind, word = match.lastgroup, match.group()
        if kind != "blank":
            found.append(Token("keyword" if kind == "name" and word in KEYWORDS else kind, word, at))
        at = match.end()
    found.append(Token("end", "", len(text)))
    return found, None


def number(digits, base=10):
    """The value of a run of digits, or the end of the range if it is too large to be read."""
    return min(int(digits[:400] or "0", base), VALUE_END) if len(digits) <= 400 else VALUE_END


def parts_of(token):
    """The width of a sized literal and its value; a plain number has no width."""
    if token.kind == "num":
        return None, number(token.text)
    width, _, rest = token.text.partition("'")
    return number(width), number(rest[1:], BASES[rest[0]])


def is_too_long(token):
    """Whether a name or a number is too long or too large to be read."""
    if token.kind in ("name", "keyword"):
        return len(token.text) > NAME_MOST
    if token.kind not in ("num", "sized"):
        return False
    runs = token.text.split("'")
    digits = [runs[0], *(run[1:] for run in runs[1:])]
    return any(len(run) > DIGITS_MOST for run in digits) or VALUE_END in filter(None, parts_of(token))
