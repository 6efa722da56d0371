"""What was probably meant where a token or a byte can't come."""
import difflib
import re
import unicodedata

from safl_explain.tokens import KEYWORDS, number
from safl_tools.documents import cited

BYTES = {
    "[": ("`a[3]` is written `bits(a, 3, 3)`, and `a[7:4]` is `bits(a, 7, 4)`",),
    "]": ("`a[3]` is written `bits(a, 3, 3)`, and `a[7:4]` is `bits(a, 7, 4)`",),
    "!": ("`!a` is written `a == 0`, or `~a` for a word of one bit; `a != b` is a comparison",),
    "?": ("`c ? x : y` is written `if c then x else y`",),
    "/": (cited("there is no division: write a loop, as examples/divide does"),),
    "%": (cited("there is no remainder: subtract where a sum can pass the modulus once, or write a loop, as examples/divide does"),),
    ".": ("there are no fractions and no fields; the point has no meaning",),
    '"': ("there are no texts, only words of bits",),
    "'": ("a number with a width is written `8'd255`, `8'hff` or `8'b1010`: the base is d, h or b, in lower case, with no blank beside the `'`",),
    "$": ("a name has letters, digits and `_`",),
    "`": ("there are no directives: a script can write the source",),
    "#": ("a comment begins with `//`",),
    "\\": ("a name has letters, digits and `_`",),
}
LIKE = {
    "–": "-", "—": "-", "−": "-", "‘": "'", "’": "'", "“": '"', "”": '"',
    "×": "*", "≤": "<=", "≥": ">=", "≠": "!=", "→": "=>", "⇒": "=>",
}
NOT_HERE = {
    "{": "`{a, b}` is written `cat(a, b)`",
    "-": "`-a` is written `0 - a`",
    "^": "`^a`, the parity, is written with shifts: `a ^ (a >> 4)` and so on, and then `bits(a, 0, 0)`",
    "=": "a comparison is written `==`",
    ">": cited("`>>>` is for signed words: see \"Signed words\" in docs/LANGUAGE.md"),
}
FIRST_WORDS = {"module": "this looks like Verilog: `safl run` and `safl aig` read such a file; the other commands read a source",
               "aag": "this looks like an AIGER file, which `safl aigstat` reads"}


def nearest(word, names):
    """The name that was probably meant."""
    names = sorted(set(names) - {word})
    alike = [name for name in names if name.lower() == word.lower()]
    found = alike or difflib.get_close_matches(word, names, 1, 0.6)
    return found[0] if found else None


def foreign(text, place):
    """What a byte that begins no token is, how many bytes it takes, and hints."""
    byte, rest = text[place], text[place:place + 4].encode("latin-1")
    if rest.startswith(b"\xef\xbb\xbf"):
        return "a byte order mark, which some editors put before a text", 3, ["save the file as UTF-8 without a byte order mark (BOM)"]
    if rest[:2] in (b"\xff\xfe", b"\xfe\xff"):
        return "a mark of UTF-16", 2, ["save the file as UTF-8, or as ASCII"]
    if byte.isascii():
        name = f"`{byte}`" if byte.isprintable() else f"the byte 0x{ord(byte):02x}"
        return f"{name} begins nothing here", 1, similar(text, place) or list(BYTES.get(byte, ()))
    for length in (2, 3, 4):
        try:
            letter = rest[:length].decode("utf-8")
        except UnicodeDecodeError:
            continue
        meant = [f"`{LIKE[letter]}` is probably meant"] if letter in LIKE else ["outside of comments a source has only ASCII: names of letters, digits and `_`"]
        return f"`{letter}` ({unicodedata.name(letter, 'without a name').lower()}) is not ASCII", length, meant
    return f"the byte 0x{ord(byte):02x} is neither ASCII nor UTF-8", 1, ["outside of comments a source has only ASCII"]


def similar(text, place):
    """A hint that uses the words of the source: `a[3]`, or a file of another kind."""
    if text[place:place + 2] == "/*":
        return ["a comment begins with `//` and ends with the line"]
    index = re.match(r"\[\s*(\d+)\s*(?::\s*(\d+)\s*)?\]", text[place:], re.ASCII)
    name = re.search(r"([A-Za-z_]\w*)$", text[:place], re.ASCII)
    if index and name:
        return [f"write `bits({name[1]}, {index[1]}, {index[2] or index[1]})`"]
    return kind_of_file(text)


def kind_of_file(text):
    """A hint if the file is no source, by its first word."""
    first = re.match(r"(?:\s|//[^\n]*\n|/\*.*?\*/)*(\w+)", text, re.ASCII | re.S)
    return [FIRST_WORDS[first[1]]] if first and first[1] in FIRST_WORDS else []


def after_number(before, token):
    """What was meant by a number that is followed by letters: `0xff`, `1_000`."""
    hexadecimal = re.fullmatch(r"[xX]([0-9a-fA-F]+)", token.text)
    if before.text == "0" and hexadecimal:
        return f"`0{token.text}` is written `{max(1, 4 * len(hexadecimal[1]))}'h{hexadecimal[1]}`, or `{number(hexadecimal[1], 16)}`"
    if re.fullmatch(r"(_\d+)+", token.text):
        return f"`{before.text}{token.text}` is written `{before.text}{token.text.replace('_', '')}`"
    return None


def unexpected(parser, wanted):
    """The row of the table of faults for this token, and hints."""
    token, before = parser.token, parser.before
    other = kind_of_file(parser.text) if before is None else []
    if other:
        return "", other
    for case in (number_before, keyword_as_name, operand, comparison, index, missing, semicolon):
        found = case(token, before, wanted)
        if found:
            return found
    if token.text in ("}", "fun", "", "and", ")", "in", "then", "else", "default"):
        return "E02 at `}` or the next `fun`, or at the end", incomplete(token, parser)
    return "E02", []


def incomplete(token, parser):
    """A hint for the construct that is still open."""
    label = parser.open[-1][1] if parser.open else ""
    if token.text == "}" and "`case`" in label:
        return ["a `case` ends with `default => VALUE`, without a comma after it"]
    if "`if`" in label and token.text in ("fun", "", "and"):
        return ["an `if` has a value in both cases: add `else` and what it is otherwise"]
    return []


def number_before(token, before, _):
    if before and before.kind == "num" and token.kind == "name" and before.end == token.place:
        meant = after_number(before, token)
        return "E02 at a name, a number or a `,`", [meant] if meant else []
    return None


def keyword_as_name(token, _, wanted):
    if token.text in KEYWORDS and "a name" in wanted:
        return "E02 at a word", [f"`{token.text}` is a word of the language, so nothing can have that name"]
    return None


def operand(token, before, wanted):
    if "an expression" not in wanted:
        return equals(token, wanted)
    if token.text in ("if", "let", "case"):
        return "E02 at a word", [f"as an operand, `{token.text}` needs parentheses: `a + ({token.text} ..)`"]
    doubled = before and before.end == token.place and before.text + token.text
    if doubled in ("&&", "||"):
        return "E02 at `{`, `&`, `>`, `-`, `^`", [f"`a {doubled} b` is written `a {token.text} b` for words of one bit, which evaluates both sides"]
    if doubled == "==":
        return "E02", ["a comparison is written `==`"]
    if token.text == "&":
        return "E02 at `{`, `&`, `>`, `-`, `^`", ["`&a` is written `~a == 0`"]
    if token.text == "|":
        return "E02 at `{`, `&`, `>`, `-`, `^`", ["`|a` is written `a != 0`"]
    if token.text in NOT_HERE:
        return "E02 at `{`, `&`, `>`, `-`, `^`", [NOT_HERE[token.text]]
    if token.text in KEYWORDS and token.text not in ("fun", "and", "in", "then", "else", "default"):
        return "E02 at a word", [f"`{token.text}` is a word of the language, so nothing can have that name"]
    return None


def equals(token, wanted):
    if token.text == "=" and "an operator" in wanted:
        return "E02", [NOT_HERE["="]]
    return None


def comparison(token, _, wanted):
    if token.text in ("==", "!=", "<", "<=", ">", ">=") and "an operator" in wanted:
        return "E02 at a second comparison", ["comparisons do not chain: `(a < b) & (b < c)`"]
    return None


def index(token, _, wanted):
    if "the number of a bit" in wanted:
        return "E02 in `bits`", ["the bits are given by numbers; for a bit that is computed write `bits(a >> i, 0, 0)`"]
    return None


def missing(token, before, wanted):
    """A width or a comma that is missing."""
    if "`:` and a width" in wanted:
        return "E02 at a word", [f"each parameter has a width: `{before.text}:8`"]
    if "`:` and the width of the result" in wanted:
        return "E02 at a word", ["the result has a width: `fun f(a:8):8 = ..`"]
    if token.kind in ("name", "num", "sized") and "`,`" in wanted:
        return "E02 at a name, a number or a `,`", ["a comma may be missing here"]
    if token.kind in ("name", "num", "sized") and "an operator" in wanted:
        return "E02 at a name, a number or a `,`", ["two values follow each other: an operator, a comma or a parenthesis may be missing between them"]
    return None


def semicolon(token, before, _):
    if token.text == "and" and before and before.text == ";":
        return "E02 at a word", ["a `;` may follow a whole group only: leave it out before `and`"]
    return None
