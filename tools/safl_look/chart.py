"""The chart of a whole run as a picture: a row for each unit, a bar for each call with its site's number, and what calls waited for."""
from dataclasses import dataclass
from html import escape

from safl_look import looks
from safl_look.looks import COLOURS, PATTERNS, WAITING, WAITS, WAIT_TEXTS, colour
from safl_look.run import ARBITER, KINDS, joined

WIDTH, TOP, BAR, LANE, GAP, RIGHT = 900, 30, 20, 10, 12, 12
LABEL, DIGIT, SMALL, NAME_MOST = 6.7, 6.1, 5.4, 28
STEP_MOST = 60  # the most that a cycle is wide
THIN = 3  # a row whose bars are thinner on average is summed up
COLUMN = 6  # how wide a column of such a row is
LANES_MOST = 40  # how many calls that wait at the same time a row has room for
INK, FAINT, GRID = "#222", "#777", "#e4e4e4"


def number(value):
    """A coordinate with two places at most."""
    return f"{value:.2f}".rstrip("0").rstrip(".")


def ticks(cycles, room):
    """The cycles that are named on the axis: round numbers, not closer than the room for one."""
    least, step = room * cycles, 1
    while step < least:
        step *= 2.5 if str(step)[0] == "2" else 2
        step = int(step)
    return range(0, cycles, step)


def laid(spans):
    """The lane of each span, so that no two in one lane overlap. The spans are sorted by their beginnings."""
    ends, found = [], []
    for begin, end in spans:
        lane = next((i for i, until in enumerate(ends) if until <= begin), len(ends))
        ends[lane:lane + 1] = [end]
        found.append(lane)
    return found


def shares(spans, cycles, columns):
    """The share of each column of cycles that the spans cover."""
    found = [0.0] * columns
    each = cycles / columns
    for begin, end in spans:
        first, last = int(begin / each), min(columns - 1, int(end / each))
        if first == last:
            found[first] += (end - begin) / each
            continue
        found[first] += first + 1 - begin / each
        for column in range(first + 1, last):
            found[column] += 1
        found[last] += end / each - last
    return found


def parted(inner, spans):
    """For each of the spans, which do not overlap, the parts of the inner ones in it. Both are sorted."""
    at = 0
    for begin, end in spans:
        found = []
        while at < len(inner) and inner[at][0] < end:
            if inner[at][1] > begin:
                found.append((max(begin, inner[at][0]), min(end, inner[at][1])))
            if inner[at][1] > end:
                break
            at += 1
        yield found


@dataclass
class Scale:
    """Where a cycle is in the picture."""

    left: float
    step: float
    cycles: int

    def at(self, cycle):
        return self.left + cycle * self.step


def rectangle(x, y, width, height, fill, more=""):
    return f'<rect x="{number(x)}" y="{number(y)}" width="{number(width)}" height="{number(height)}" fill="{fill}"{more}/>'


def word(x, y, text, more=""):
    return f'<text x="{number(x)}" y="{number(y)}"{more}>{escape(text)}</text>'


def tile(name, pattern, dark, back="none"):
    """A pattern as an element that can be named."""
    size = pattern.size
    return f'<pattern id="{name}" width="{size}" height="{size}" patternUnits="userSpaceOnUse">{looks.drawn(pattern, dark, back)}</pattern>'


def holders_text(holders, room):
    """The sites that a call waits for, as many as there is room for."""
    texts = [str(site) if site else "main" for site, _ in holders]
    shown = len(texts)
    while shown and SMALL * len(" ".join([*texts[:shown], "\u2026"][:len(texts)])) > room:
        shown -= 1
    return " ".join([*texts[:shown], "\u2026"][:len(texts)]) if shown else ""


class Chart:
    """The picture, row by row."""

    def __init__(self, run):
        self.run, self.patterns, self.parts = run, {}, []
        self.units = list(reversed(run.program.units))
        longest = max(max(len(self.name(unit)) * LABEL, len(self.count(unit)) * DIGIT * 0.9) for unit in self.units)
        left = 10 + longest + 8
        step = min(STEP_MOST, (WIDTH - left - RIGHT) / run.cycles)
        self.scale = Scale(left, step, run.cycles)
        self.width = max(left + step * run.cycles + RIGHT, 560)

    def name(self, unit):
        """The functions of the unit, cut where there is no room."""
        names = ", ".join(self.run.program.members(unit))
        return names if len(names) <= NAME_MOST else names[:NAME_MOST - 1] + "\u2026"

    def count(self, unit):
        count = len(self.run.calls[unit])
        return f"{count:,} call{'' if count == 1 else 's'}"

    def waits_fill(self, site, kind):
        """What a wait of a site is filled with."""
        light, dark = colour(site)
        return self.tiled(f"{kind}-{dark[1:]}", WAITS[kind], dark, "white" if kind == ARBITER else light)

    def tiled(self, name, *pattern):
        self.patterns.setdefault(name, tile(name, *pattern))
        return f"url(#{name})"

    def over(self, site, x, y, width, height, opacity=0.6):
        """The pattern of a site over its colour, if it has one."""
        number, dark = looks.pattern(site), colour(site)[1]
        fill = self.tiled(f"site{number}-{dark[1:]}", PATTERNS[number], dark)
        return [rectangle(x, y, width, height, fill, f' opacity="{opacity}"')] if number and width > 2 else []

    def is_thin(self, unit):
        calls = self.run.calls[unit]
        return len(calls) > 8 and self.scale.step * self.run.cycles / len(calls) < THIN

    def told(self, call):
        where = f"site {call.site}" if call.site else "main"
        ended = f", has its value in {call.ended}" if call.ended is not None else ""
        return f"{where}: accepted in cycle {call.accepted}{ended}"

    def bars(self, unit, y):
        """A bar for each call: pale where the unit only waits for calls, stronger where it works, with a border and a number."""
        calls, spans = self.run.calls[unit], list(self.run.busy(unit))
        for call, (begin, end), works in zip(calls, spans, parted(list(self.run.working(unit)), spans)):
            light, dark = colour(call.site)
            x, width = self.scale.at(begin), max((end - begin) * self.scale.step - 0.4, 0.6)
            self.parts.append(f"<g><title>{self.told(call)}</title>" + rectangle(x, y, width, BAR, light, ' fill-opacity="0.45"'))
            self.parts += self.works(works, (begin, end), y, light) + self.over(call.site, x, y, width, BAR)
            border = f' stroke="{dark}" stroke-width="{1 if width > 4 else 0.5}"'
            self.parts.append(rectangle(x, y, width, BAR, "none", border) + "</g>")
            if call.site:
                self.label(call.site, x + width / 2, y, width)

    def works(self, works, span, y, light):
        """Where the unit works in a bar; a mean shade if that is too fine to see."""
        begin, end = span
        if len(works) * THIN > (end - begin) * self.scale.step:
            share = sum(last - first for first, last in works) / (end - begin)
            works, more = [span], f' fill-opacity="{number(share)}"'
        else:
            more = ""
        return [rectangle(self.scale.at(first), y, (last - first) * self.scale.step, BAR, light, more) for first, last in works]

    def has_strips(self, unit):
        """Whether the waits of the unit's calls are drawn one by one."""
        return not self.is_thin(unit) and len(self.run.waits[unit]) * THIN <= self.scale.step * self.run.cycles

    def label(self, site, x, y, width):
        """The number of a site in a bar, if there is room for it."""
        label = str(site)
        size = next((size for size in (11, 9) if width > len(label) * size * 0.6), None)
        if size is None:
            return
        if looks.pattern(site):
            room = len(label) * size * 0.6 + 4
            self.parts.append(rectangle(x - room / 2, y + 4, room, BAR - 8, "white", ' fill-opacity="0.85" rx="3"'))
        look = f' text-anchor="middle" font-size="{size}" fill="{colour(site)[1]}" font-weight="bold"'
        self.parts.append(word(x, y + BAR / 2 + size * 0.36, label, look))

    def column(self):
        """How many columns a row that is summed up has, and how wide each is."""
        room = self.scale.step * self.run.cycles
        count = max(1, int(room / COLUMN))
        return count, room / count

    def columns(self, unit, y):
        """A row of thin bars summed up: in each column the share of cycles in which the unit works, and runs."""
        count, wide = self.column()
        runs = shares(joined(self.run.busy(unit)), self.run.cycles, count)
        works = shares(self.run.working(unit), self.run.cycles, count)
        light, dark = COLOURS[0]
        for values, fill in ((runs, light), (works, dark)):
            points = [f"{number(self.scale.left)},{number(y + BAR)}"]
            for i, share in enumerate(values):
                level = number(y + BAR * (1 - min(1, share)))
                points += [f"{number(self.scale.left + edge * wide)},{level}" for edge in (i, i + 1)]
            points.append(f"{number(self.scale.left + count * wide)},{number(y + BAR)}")
            self.parts.append(f'<polygon points="{" ".join(points)}" fill="{fill}"/>')

    def waits(self, unit, y):
        """Thin strips below the bars for calls that wait, and how many lanes they take."""
        waits = self.run.waits[unit]
        if not self.has_strips(unit):
            return self.wait_columns(waits, y)
        lanes = laid(zip(waits.begin, waits.end))
        for wait, lane in zip(waits, lanes):
            if lane < LANES_MOST:
                self.strip(wait, y + lane * LANE + 1)
        hidden = sum(lane >= LANES_MOST for lane in lanes)
        if hidden:
            self.parts.append(word(self.scale.left, y + LANES_MOST * LANE + 9, f"and {hidden:,} more", f' font-size="9" fill="{FAINT}"'))
        return min(LANES_MOST + 1, max(lanes, default=-1) + 1)

    def strip(self, wait, y):
        """A call that waits: its site's number, and those that it waits for, where there is room."""
        (light, dark), label, high = colour(wait.site), str(wait.site), LANE - 1.5
        x, width = self.scale.at(wait.begin), max((wait.end - wait.begin) * self.scale.step - 0.4, 0.6)
        border, bold = f' stroke="{dark}" stroke-width="0.5"', f' font-size="9" font-weight="bold" fill="{dark}"'
        self.parts.append(f"<g><title>{escape(self.waits_for(wait))}</title>")
        self.parts.append(rectangle(x, y, width, high, self.waits_fill(wait.site, wait.kind), border))
        room = len(label) * SMALL + 4
        if width > room + 6:
            self.parts += [rectangle(x, y, room, high, light, border), *self.over(wait.site, x, y, room, high, 0.3)]
            self.parts.append(word(x + 2, y + 7.4, label, bold))
            holders = holders_text(wait.holders, width - room - 24)
            if holders:
                holders = f"for {holders}"
                self.parts.append(rectangle(x + room + 4, y, len(holders) * SMALL + 4, high, "white"))
                self.parts.append(word(x + room + 6, y + 7.4, holders, f' font-size="9" fill="{INK}"'))
        self.parts.append("</g>")

    def waits_for(self, wait):
        """What a wait is, in words."""
        holders = ", ".join(f"{f'site {site}' if site else 'main'} ({count:,})" for site, count in wait.holders)
        return f"site {wait.site}: waits for {WAIT_TEXTS[wait.kind]} in cycles {wait.begin:,} to {wait.end - 1:,}, for {holders}"

    def wait_columns(self, waits, y):
        """Many waits summed up: one lane, the darker the more of its cycles have a call that waits for the arbiter."""
        spans = list(joined(waits.spans(ARBITER)))
        count, wide = self.column()
        for i, share in enumerate(shares(spans, self.run.cycles, count)):
            if share > 0.005:
                look = f' fill-opacity="{number(min(1, share))}"'
                self.parts.append(rectangle(self.scale.left + i * wide, y + 1, wide, LANE - 1.5, WAITING, look))
        return 1 if spans else 0

    def row(self, unit, y):
        """Draws a row, and gives where the next one begins."""
        self.parts.append(word(10, y + 11, self.name(unit), ' font-weight="bold"'))
        self.parts.append(word(10, y + 21, self.count(unit), f' fill="{FAINT}" font-size="9"'))
        (self.columns if self.is_thin(unit) else self.bars)(unit, y)
        return y + BAR + LANE * self.waits(unit, y + BAR) + GAP

    def lost(self):
        """A line along the axis where a wanted call waits for a unit; the paler the fewer of the cycles it stands for."""
        spans, found = list(self.run.waiting()), []
        if len(spans) * THIN <= self.scale.step * self.run.cycles:
            return [rectangle(self.scale.at(begin), TOP - 8, (end - begin) * self.scale.step, 3, WAITING) for begin, end in spans]
        count, wide = self.column()
        for i, share in enumerate(shares(spans, self.run.cycles, count)):
            if share > 0.005:
                look = f' fill-opacity="{number(min(1, share))}"'
                found.append(rectangle(self.scale.left + i * wide, TOP - 8, wide, 3, WAITING, look))
        return found

    def axis(self, bottom):
        """Lines where cycles begin, and their numbers: in the middle of a cycle that is wide, and else on its line."""
        found, step = [], self.scale.step
        room = DIGIT * len(f"{self.run.cycles:,}") + 18
        for cycle in ticks(self.run.cycles, room / (step * self.run.cycles)):
            x = number(self.scale.at(cycle))
            found.append(f'<line x1="{x}" x2="{x}" y1="{TOP - 6}" y2="{number(bottom)}" stroke="{GRID}"/>')
            middle = self.scale.at(cycle + 0.5 if step > DIGIT * 2 else cycle)
            found.append(word(middle, TOP - 13, f"{cycle:,}", f' text-anchor="middle" fill="{FAINT}" font-size="10"'))
        return found

    def kinds(self, is_asked):
        """What calls of these units wait for."""
        return {KINDS[kind] for unit in self.units if is_asked(unit) for kind in set(self.run.waits[unit].kind)}

    def keys(self):
        """The lines of the legend: a word, and for each key how it is drawn and what it means."""
        border = f' stroke="{COLOURS[0][1]}" stroke-width="0.8"'
        kinds, summed = self.kinds(self.has_strips), self.kinds(lambda unit: not self.has_strips(unit))
        thin = [self.is_thin(unit) for unit in self.units]
        keys = [(COLOURS[0][0], border, "works"), (COLOURS[0][0], border + ' fill-opacity="0.45"', "waits for calls")]
        keys += [(self.waits_fill(1, kind), border, f"a call waits for {what}") for kind, what in WAIT_TEXTS.items() if kind in kinds]
        keys += [(WAITING, "", "some call waits for an arbiter")] * (ARBITER in kinds)
        found = [] if all(thin) else [("cycles", keys)]
        if any(thin) or summed:
            keys = [(COLOURS[0][1], "", "works"), (COLOURS[0][0], "", "waits for calls")]
            keys += [(WAITING, "", "a call waits for the arbiter")] * (ARBITER in summed)
            found.append(("shares", keys))
        return found

    def legend(self, y):
        """What the parts of the picture mean; only what is in it."""
        found = []
        for name, keys in self.keys():
            x = self.scale.left
            found.append(word(10, y + 9, name, f' fill="{FAINT}" font-size="10"'))
            for fill, more, text in keys:
                wide = 21 + len(text) * DIGIT
                if x + wide > self.width and x > self.scale.left:
                    x, y = self.scale.left, y + 16
                found.append(rectangle(x, y, 16, 10, fill, more))
                found.append(word(x + 21, y + 9, text, f' fill="{FAINT}" font-size="10"'))
                x += wide + 14
            y += 16
        return found, y

    def text(self):
        y = TOP
        for unit in self.units:
            y = self.row(unit, y)
        axis = self.axis(y - GAP + 4)
        legend, height = self.legend(y + 4)
        head = (
            f'<svg xmlns="http://www.w3.org/2000/svg" width="{number(self.width)}" height="{number(height)}" '
            f'viewBox="0 0 {number(self.width)} {number(height)}" font-family="monospace" font-size="11" fill="{INK}">'
        )
        patterns = "".join(self.patterns[name] for name in sorted(self.patterns))
        back = rectangle(0, 0, self.width, height, "white")
        return "\n".join([head, f"<defs>{patterns}</defs>", back, *axis, *self.lost(), *self.parts, *legend, "</svg>"]) + "\n"
