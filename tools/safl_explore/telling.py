"""What safl-explore prints and writes of the points that it found."""
import itertools
import json
import os

from safl_explore.advice import advice
from safl_explore.search import left_out
from safl_tools.ending import one_line
from safl_tools.words import quoted

BY_TEXT = "by text, replies compared"


def counted(number, what):
    return f"{number:,} {what}{'' if number == 1 else 's'}"


def columns(point, calls):
    """What is told of a point, if there are so many calls: names and texts."""
    figures, found = point.figures, [("cycles", f"{point.cycles:,}")]
    if "luts" in figures:
        found += [("LUTs", f"{figures['luts']:,}"), ("flip-flops", f"{figures['flops']:,}")]
        found += [("DSP blocks", f"{figures['dsps']:,}")] if "dsps" in figures else []
    else:
        found += [("area", f"{point.area:,.0f}"), ("ANDs", f"{figures['ands']:,}"), ("register bits", f"{figures['bits']:,}")]
    if "mhz" in figures:
        found += [("MHz", f"{figures['mhz']:.1f}"), ("calls a second", f"{point.calls_a_second(calls):,}")]
    return found


def table(rows):
    """Prints rows of words, each column as wide as its widest word, the last one as it is."""
    widths = [max(len(row[column]) for row in rows) for column in range(len(rows[0]) - 1)]
    for row in rows:
        print("  ".join([*(word.rjust(width) for word, width in zip(row, widths)), row[-1]]).rstrip())


def steps_of(point):
    """The steps to a point in words, the same ones counted."""
    runs = [(how, len(list(same))) for how, same in itertools.groupby(point.how)]
    return "; ".join(how if times == 1 else f"{how} ({times} times)" for how, times in runs)


def commands(source, target, chain):
    """The commands that lead from the source to a point, and what is done by text between them."""
    source, target, lines = quoted(source), quoted(target), []
    for step, (kind, site) in enumerate(chain):
        lines.append(f"{BY_TEXT}: {site}" if kind == "text" else f"safl reshape {target if step else source} {target} --{kind} {site}")
    return lines


class Telling:
    """The source and the points that no other beats, the fastest first, with their numbers."""

    def __init__(self, chosen, search, best):
        self.chosen, self.search, self.first = chosen, search, search.points[0]
        self.numbered = list(enumerate((point for point in best if point is not self.first), 1))
        self.unbeaten = [("source", self.first)] * (self.first in best) + self.numbered

    def path(self, number):
        """The file for the source of a point."""
        return self.chosen.out.path(self.name(number)) if self.chosen.out else self.name(number)

    def name(self, number):
        return f"{self.chosen.source.stem}.{number}.safl"

    def made(self, number, point):
        """How a point is made: the commands, what is done by text, and what is left out at the end."""
        gone = [("text", line) for line in left_out(point.program, self.search.shown(point.program))]
        return commands(self.chosen.source.name, self.path(number), [*point.chain, *gone])

    def rows(self):
        """The table: its heads, and a row for the source and for each point."""
        named = [("source", self.first), *self.numbered]
        heads = ["point", *(name for name, _ in self.columns(self.first)), "steps"]
        return [heads, *([str(name), *(text for _, text in self.columns(point)), steps_of(point)] for name, point in named)]

    def columns(self, point):
        return columns(point, len(self.search.wanted))

    def tell(self):
        """Prints the points, how each is reached, and whether one is better in all."""
        table(self.rows())
        for number, point in self.numbered:
            print(f"\npoint {number}:")
            print("\n".join(self.made(number, point)))
            if point.figures.get("longest path"):
                print(f"longest path {point.figures['longest path']}")
        print()
        self.tell_better()

    def tell_better(self):
        first, area = self.first, "LUTs" if "luts" in self.first.figures else "area"
        better = min((point.cycles for point in self.search.points if point.area <= first.area), default=first.cycles)
        smaller = min((point.area for point in self.search.points if point.time <= first.time), default=first.area)
        if better < first.cycles:
            print(f"fewer cycles with no more {area}: {better:,} in place of {first.cycles:,}")
        if smaller < first.area:
            less = "fewer" if area == "LUTs" else "less"
            print(f"{less} {area} with no more time: {smaller:,.0f} in place of {first.area:,.0f}")
        if better == first.cycles and smaller == first.area:
            every = "all single steps and sets of functions were tried" if self.search.all_tried else "not all single steps were tried"
            print(f"none was found that takes fewer cycles with no more {area}; {every}")
        self.tell_best()
        span = self.search.least.span(first.program)
        if span and span < first.cycles:
            print(f"copies alone bring the source to no fewer than {span:,} cycles, its span; more is spared by fewer calls")

    def for_area(self, point):
        """The calls that a point makes in some time for its area, as a multiple of those of the source."""
        calls = len(self.search.wanted)
        return point.calls_for_area(calls) / self.first.calls_for_area(calls)

    def tell_best(self):
        """Says which point makes the most calls for its area, if there are some."""
        if not self.numbered:
            return
        number, best = max(self.numbered, key=lambda pair: self.for_area(pair[1]))
        what = f"calls a {'second' if 'mhz' in best.figures else 'cycle'} for {'each LUT' if 'luts' in best.figures else 'its area'}"
        times = self.for_area(best)
        print(f"point {number} makes the most {what}: {times:.2f} times those of the source" if times > 1 else f"the source makes the most {what}")

    def advise(self):
        for line in advice(self.first.program, self.search.least, self.search.task.products):
            print(line)

    def tell_end(self):
        search = self.search
        end = "the budget is used up" if search.over() else "nothing else promises to be better"
        replies = f"all with the same replies to {counted(len(search.wanted), 'call')}"
        print(f"{search.built()} built of {counted(len(search.timed), 'source')}, {replies}; {end}")
        if search.refused:
            print(f"{counted(len(search.refused), 'source')} left out, the first for: {search.refused[0][1]}")

    def head(self, number, point):
        """The comment at the head of a point's source."""
        names = ", ".join(f"{text} {name}" for name, text in self.columns(point))
        lines = [f"Point {number} of {os.path.basename(self.chosen.source.name)} by safl-explore: {names}.", *self.made(number, point)]
        return "".join(f"// {one_line(line)}\n" for line in lines)

    def keep(self):
        """Writes the sources and what is known of them."""
        found = [self.told("source", self.first, self.chosen.source.name)]
        for number, point in self.numbered:
            self.chosen.out.write(self.name(number), self.head(number, point) + point.shown)
            found.append(self.told(number, point, self.path(number)))
        self.chosen.out.write("points.json", json.dumps(found, indent=1) + "\n")
        heads, *rows = self.rows()
        lines = [heads, ["---"] * len(heads), *rows]
        self.chosen.out.write("points.md", "".join(f"| {' | '.join(line)} |\n" for line in lines))

    def told(self, name, point, path):
        """What points.json has of a point."""
        unbeaten = any(point is other for _, other in self.unbeaten)
        told = {"point": name, "source": path, "steps": list(point.how), "chain": point.chain, "cycles": point.cycles}
        return {**told, "area": point.area, **point.figures, "unbeaten": unbeaten, "calls for area": round(self.for_area(point), 3)}
