"""Parts of a text as they are shown: numbered lines, with marks below the places and what is said of each."""
import os
import re
import shutil
import sys
import textwrap
import unicodedata

WIDTH, WIDTH_LEAST, TAB = 100, 40, 4
RED, BLUE, BOLD, PLAIN = "\033[1;31m", "\033[1;34m", "\033[1m", "\033[0m"


def columns():
    """How many columns a line may take."""
    return max(WIDTH_LEAST, shutil.get_terminal_size((WIDTH, 24)).columns) if sys.stderr.isatty() else WIDTH


def painted(text, colour):
    """The text in a colour, if it goes to a terminal."""
    is_wanted = sys.stderr.isatty() and not os.environ.get("NO_COLOR") and os.environ.get("TERM") != "dumb"
    return f"{colour}{text}{PLAIN}" if is_wanted and text else text


def width_of(letter):
    """How many columns a letter takes."""
    if unicodedata.combining(letter):
        return 0
    return 2 if unicodedata.east_asian_width(letter) in "WF" else 1


def shown(line, column=0):
    """The bytes of a line as they are shown from a column on, and the column after them. What can't be shown is a `?`."""
    found = ""
    for letter in line.decode("utf-8", "replace"):
        if letter == "\t":
            blanks = TAB - column % TAB
            found, column = found + " " * blanks, column + blanks
        else:
            letter = letter if letter.isprintable() else "?"
            found, column = found + letter, column + width_of(letter)
    return found, column


def window(text, begin, room):
    """The part of a long line around a column, and the columns that are left out before it."""
    if sum(map(width_of, text)) <= room:
        return text, 0
    skip, column, at = max(0, begin - room // 3), 0, 0
    while skip and at < len(text) and column < skip:
        column, at = column + width_of(text[at]), at + 1
    part, taken = "", 0
    for letter in text[at:]:
        if taken + width_of(letter) > room - 4:
            break
        part, taken = part + letter, taken + width_of(letter)
    head = ".." if at else ""
    tail = ".." if at + len(part) < len(text) else ""
    return head + part + tail, column - len(head)


class Page:
    """A text of which lines are shown. Those of a command have no numbers."""

    def __init__(self, data, numbered=True):
        self.data, self.numbered = data, numbered

    def line_of(self, place):
        """The number of the line of a place, counted from 0, and the place of its first byte."""
        number = self.data.count(b"\n", 0, place)
        return number, self.data.rfind(b"\n", 0, place) + 1

    def place_of(self, line, column):
        """The place of a line and a column, both counted from 1."""
        place = 0
        for _ in range(line - 1):
            place = self.data.index(b"\n", place) + 1
        return place + column - 1

    def lines(self, spot, others=()):
        """The lines that are shown: those with these spots. The first spot is the one that matters."""
        marks = {}
        for mark, each in (("^", spot), *(("-", other) for other in others)):
            number, begin = self.line_of(min(each.place, len(self.data)))
            marks.setdefault(number, []).append((begin, mark, each))
        margin, before = len(str(max(marks) + 1)) if self.numbered else 1, None
        found = [" " * margin + " |"]
        for number in sorted(marks):
            if before is not None and number > before + 1:
                found.append(" " * margin + " ..")
            found += self.marked(number, marks[number], margin)
            before = number
        return found

    def marked(self, number, marks, margin):
        """A line, and below it a line for each mark."""
        begin = marks[0][0]
        end = self.data.find(b"\n", begin)
        line = (self.data[begin:] if end < 0 else self.data[begin:end]).rstrip(b"\r")
        whole, _ = shown(line)
        spans = [self.span(line, begin, spot) for _, _, spot in marks]
        text, left_out = window(whole, spans[0][0], columns() - margin - 3)
        found = [f"{number + 1 if self.numbered else '':>{margin}} | {text}".rstrip()]
        room = sum(map(width_of, text))
        for (_, mark, spot), (first, last) in zip(marks, spans):
            colour = RED if mark == "^" else BLUE
            if mark == "-" and not 0 <= first - left_out < room:
                found.append(" " * margin + " | " + painted(f"column {spot.place - begin + 1}: {spot.label}", colour))
                continue
            first, last = max(0, first - left_out), max(1, last - left_out)
            under = mark * (max(first + 1, min(last, room)) - first) + (f" {spot.label}" if spot.label else "")
            found.append(" " * margin + " | " + " " * first + painted(under, colour))
        return found

    @staticmethod
    def span(line, begin, spot):
        """The columns of a spot in its line."""
        _, first = shown(line[:spot.place - begin])
        _, last = shown(line[spot.place - begin:spot.end - begin], first)
        return first, max(last, first + 1)


def notes(lines, margin=1):
    """Lines below a text, each with a word in front that says what it is."""
    found = []
    for word, text in lines:
        head = " " * margin + f" = {word}: "
        wrapped = wrap(text, max(20, columns() - len(head)))
        found.append(" " * margin + " = " + painted(f"{word}: ", BOLD) + wrapped[0])
        found += [" " * len(head) + rest for rest in wrapped[1:]]
    return found


def wrap(text, width):
    """The text in lines of a width, which do not end within backticks."""
    joined = re.sub(r"`[^`]*`", lambda found: found[0].replace(" ", "\0"), text)
    lines = textwrap.wrap(joined, width, break_long_words=False, break_on_hyphens=False) or [""]
    return [line.replace("\0", " ") for line in lines]
