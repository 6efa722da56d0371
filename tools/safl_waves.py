"""Waveforms of a value change dump, as a picture or as lines.

Signals of one bit are drawn as lines, others as boxes with their values, in decimal if none of them has more than ten digits, and else
in hexadecimal, as 0x.. Cycle c shows the values at time c * P + O; P is 1 and O is 0 if they aren't given, as in the dumps of `safl`.
"""
import argparse
import bisect
import html
import re

from safl_tools import files, pictures
from safl_tools.ending import WRONG_USE, Refusal
from safl_tools.words import Words, count

NAME = "safl-waves"
DUMP_MOST = 1 << 29  # the most bytes of a dump
ROW, HIGH, LEFT_CHARACTER, CHARACTER, TOP = 26, 16, 7.3, 6.7, 24
DECIMALS_MOST = 10
INK, LIGHT, UNKNOWN, FILL = "#222", "#ddd", "#e8c9c9", "#eef3fa"


class Trace:
    """The signals of a dump in order, with their widths, and for each the times and the values of its changes."""

    def __init__(self, text):
        self.widths, self.changes, self.end = {}, {}, 0
        names, scopes, now = {}, [], 0
        words = iter(text.split())
        for word in words:
            if word == "$scope":
                scopes.append([next(words) for _ in range(3)][1])
            elif word == "$upscope":
                scopes.pop()
                next(words)
            elif word == "$var":
                self.declare(words, scopes, names)
            elif word in ("$dumpvars", "$end", "$dumpall"):
                continue
            elif word[0] == "$":
                while next(words) != "$end":
                    pass
            elif word[0] == "#":
                now = int(word[1:])
                self.end = max(self.end, now)
            elif word[0] in "bBrR":
                self.change(names, next(words), now, word[1:])
            else:
                self.change(names, word[1:], now, word[0])

    def declare(self, words, scopes, names):
        _, width, code, name = (next(words) for _ in range(4))
        while next(words) != "$end":
            pass
        name = name.removeprefix("\\")
        if name in names.get(code, []):
            return
        if name in self.widths:
            name = ".".join(scopes + [name])
        self.widths[name] = int(width)
        names.setdefault(code, []).append(name)
        self.changes[name] = ([], [])

    def change(self, names, code, now, value):
        for name in names.get(code, []):
            times, values = self.changes[name]
            times.append(now)
            values.append(value.lower())

    def value(self, name, time):
        """The word at this time, or nothing if it isn't known."""
        times, values = self.changes[name]
        at = bisect.bisect_right(times, time) - 1
        if at < 0 or not re.fullmatch("[01]+", values[at]):
            return None
        return int(values[at], 2)


def shown(values):
    """The values of a signal as texts."""
    is_decimal = max((value for value in values if value is not None), default=0) < 10**DECIMALS_MOST
    return ["?" if value is None else str(value) if is_decimal else f"{value:#x}" for value in values]


def runs(values):
    """The values with the cycles at which they begin and end, equal neighbours together."""
    first = 0
    for i in range(1, len(values) + 1):
        if i == len(values) or values[i] != values[first]:
            yield first, i, values[first]
            first = i


def line(points, colour=INK, width=1.2):
    text = " ".join(f"{x:g},{y:g}" for x, y in points)
    return f'<polyline points="{text}" fill="none" stroke="{colour}" stroke-width="{width}"/>'


def bit_row(values, left, step, y):
    """A signal of one bit: a line that is high or low, and a patch if it isn't known."""
    points, patches = [], []
    for first, last, value in runs(values):
        level = y + (0 if value else HIGH)
        if value is None:
            patches.append(f'<rect x="{left + first * step:g}" y="{y:g}" width="{(last - first) * step:g}" height="{HIGH}" fill="{UNKNOWN}"/>')
        points += [(left + first * step, level), (left + last * step, level)]
    return patches + [line(points)]


def bus_row(values, left, step, y):
    """A signal of several bits: a box for each value, with the value in it if it fits."""
    found, texts = [], shown(values)
    for first, last, value in runs(values):
        a, b, slope = left + first * step, left + last * step, min(3, step / 4)
        corners = [(a, y + HIGH / 2), (a + slope, y), (b - slope, y), (b, y + HIGH / 2), (b - slope, y + HIGH), (a + slope, y + HIGH)]
        text = " ".join(f"{x:g},{z:g}" for x, z in corners)
        fill = UNKNOWN if value is None else "none" if value == 0 else FILL
        found.append(f'<polygon points="{text}" fill="{fill}" stroke="{INK}" stroke-width="1"/>')
        label, room = texts[first], int((b - a - 2 * slope) / CHARACTER)
        if len(label) > room:
            label = label[:room - 1] + "\u2026" if room > 2 else ""
        found.append(f'<text x="{(a + b) / 2:g}" y="{y + HIGH - 4:g}" text-anchor="middle">{label}</text>')
    return found


def step_of(trace, names, cycles):
    """How wide a cycle is: so wide that most values fit."""
    longest = 2
    for name in names:
        if trace.widths[name] > 1:
            labels = shown([trace.value(name, time) for time in cycles])
            longest = max([longest] + [len(label) for label in labels])
    return min(max(26, CHARACTER * longest + 10), 96)


def drawing(trace, names, numbers, times):
    left = LEFT_CHARACTER * max(len(name) for name in names) + 14
    step = step_of(trace, names, times)
    width, height = left + step * len(times) + 8, TOP + ROW * len(names) + 6
    found = [
        f'<svg xmlns="http://www.w3.org/2000/svg" width="{width:g}" height="{height:g}" viewBox="0 0 {width:g} {height:g}"'
        ' font-family="monospace" font-size="11">',
        f'<rect width="{width:g}" height="{height:g}" fill="white"/>',
    ]
    for i, number in enumerate(numbers):
        found.append(line([(left + i * step, TOP - 6), (left + i * step, height - 4)], LIGHT, 0.8))
        found.append(f'<text x="{left + (i + 0.5) * step:g}" y="13" text-anchor="middle" fill="#777">{number}</text>')
    for row, name in enumerate(names):
        y = TOP + row * ROW + (ROW - HIGH) / 2
        values = [trace.value(name, time) for time in times]
        found.append(f'<text x="6" y="{y + HIGH - 4:g}">{html.escape(name)}</text>')
        found += bit_row(values, left, step, y) if trace.widths[name] == 1 else bus_row(values, left, step, y)
    return "\n".join(found + ["</svg>"]) + "\n"


def trace_of(dump):
    """The trace in a file."""
    try:
        if "$enddefinitions" in dump.text:
            return Trace(dump.text)
    except (StopIteration, LookupError, ValueError):
        pass
    raise Refusal(WRONG_USE, f"{dump} is no value change dump")


def changes(trace, names, numbers, times):
    """A line for each cycle: the signals whose values differ from those of the cycle before, with their values. Before the first all
    are 0."""
    old = dict.fromkeys(names, 0)
    for number, time in zip(numbers, times):
        new = {name: trace.value(name, time) for name in names}
        yield f"#{number}" + "".join(f" {name}={'?' if new[name] is None else new[name]}" for name in names if new[name] != old[name])
        old = new


def cycle_range(word):
    found = re.fullmatch(r"(\d{1,10})-(\d{1,10})", word, re.ASCII)
    if not found or int(found[1]) > int(found[2]):
        raise argparse.ArgumentTypeError(f"{word} is no range of cycles FIRST-LAST")
    return int(found[1]), int(found[2])


def words():
    parser = Words(NAME, "Draw the waveforms of a value change dump, or print what changes in each cycle.", calls_safl=False)
    add, time = parser.add_argument, count(0, 10**9, "time")
    add("dump", metavar="DUMP.vcd", help="what `safl sim --vcd` or a simulator wrote")
    add("-o", "--out", metavar="OUT.svg", help="the file for the picture (else it is printed)")
    add("--text", action="store_true", help="print a line for each cycle: which signals change, and to what")
    add("--signals", metavar="NAME,NAME,..", help="the signals that are shown, in this order (all)")
    add("--cycles", metavar="FIRST-LAST", type=cycle_range, help="the cycles that are shown, both counted in (all)")
    add("--period", metavar="P", type=count(1, 10**9, "number of units"), default=1, help="units of time in a cycle (1)")
    add("--at", metavar="O", type=time, default=0, help="the time in a cycle at which its values are taken (0)")
    return parser


def main():
    chosen = words().parse_args()
    if chosen.text and chosen.out:
        raise Refusal(WRONG_USE, "--text prints, and -o is for a picture")
    if chosen.out:
        pictures.ready(chosen.out)
    chosen.dump = files.Input(chosen.dump, "dump.vcd", DUMP_MOST)
    chosen.out, = files.outputs([chosen.dump], [chosen.out])
    trace = trace_of(chosen.dump)
    names = chosen.signals.split(",") if chosen.signals else list(trace.widths)
    for name in names:
        if name not in trace.widths:
            raise Refusal(WRONG_USE, f"there is no signal {name}")
    first, last = chosen.cycles or (0, max(0, (trace.end - 1 - chosen.at) // chosen.period))
    numbers = range(first, last + 1)
    times = [number * chosen.period + chosen.at for number in numbers]
    if chosen.text:
        print("\n".join(changes(trace, names, numbers, times)))
    elif chosen.out:
        chosen.out.write(pictures.of_svg(chosen.out.name, drawing(trace, names, numbers, times)))
    else:
        print(drawing(trace, names, numbers, times), end="")
