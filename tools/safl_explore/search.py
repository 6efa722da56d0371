"""Looks for sources that take less time or have less area: times many, and builds those that promise something."""
import concurrent.futures
import sys
import time
from dataclasses import astuple

from safl_explore import NAME, tree
from safl_explore.meaning import Least
from safl_explore.points import Point, measured, timed, unbeaten
from safl_explore.reshapings import Reshaping, everywhere, reshape_steps, subsets
from safl_explore.text_steps import joined, text_steps
from safl_tools.ending import CANNOT_READ, CANNOT_WRITE, DIFFERENT, FAULT, INTERRUPTED, NO_MEMORY, NOT_THERE, Refusal

NO_RESULT = 6
ENDS = (CANNOT_READ, CANNOT_WRITE, NO_MEMORY, NOT_THERE, FAULT, INTERRUPTED)  # these are not about the source that was measured
TIMED = 20  # so many sources are timed for each that may be built
PATIENCE = 12  # so many rounds may bring nothing
WATCH = 1  # after so many seconds it is looked whether workers are lost
FIRST = 31  # so many sets of functions are written out before all else
AT_ONCE = 4  # so many sources are built before the next one is continued: a fixed number, so that the points are always the same
SLACK = 0.08  # guesses of areas may be wrong by this part


class Search:
    """The sources that were timed, and those of them that were built."""

    def __init__(self, safl, pool, known, task, chosen, say):
        self.safl, self.pool, self.known, self.task, self.say = safl, pool, known, task, say
        self.threads = concurrent.futures.ThreadPoolExecutor(chosen.jobs)
        self.most, self.end, self.keeps = chosen.points, time.monotonic() + chosen.seconds, chosen.keep
        self.timed, self.points, self.refused = [], [], []
        self.seen, self.wanted, self.all_tried, self.dropped = set(), None, False, 0

    def left(self):
        return max(0, self.end - time.monotonic())

    def built(self):
        """How many sources were built, also if they are no points any more."""
        return len(self.points) + self.dropped

    def over(self):
        return self.built() + len(self.refused) >= self.most or not self.left()

    def shown(self, program):
        """The program as it is measured and written."""
        return program if self.keeps else program.without_unreached()

    def first(self, text):
        """Times and builds the source itself."""
        program = tree.read(text)
        shown = self.shown(program)
        self.seen.add(tree.plain(shown))
        for told in self.together(timed, [(self.safl, tree.text_of(shown), self.task)]):
            self.wanted = told["replies"]
            self.least = Least(self.task.calls)
            self.timed.append(Point(program, text, shown, (), (), None, told, self.task.products))
        self.build(self.timed)
        if self.refused:
            raise Refusal(*self.timed[0].refused)
        if not self.points:
            raise Refusal(NO_RESULT, "the time is over before the source itself is measured")

    def together(self, work, each):
        """What some work gives for each of these words, in their order, as far as it is done before the seconds are over."""
        futures = [self.threads.submit(work, *words) for words in each]
        concurrent.futures.wait(futures, self.left(), concurrent.futures.FIRST_EXCEPTION)
        for future in futures:
            future.cancel()
        return [future.result() for future in futures if future.done() and not future.cancelled()]

    def stepped(self, point, how, what, words):
        """The text after a step of a point, and how it came; nothing if the step cannot be taken."""
        if what == "text":
            gone = left_out(point.program, self.shown(point.program))
            return tree.text_of(words), (*point.how, how), (*point.chain, *(("text", line) for line in [*gone, how]))
        reshaping = Reshaping(self.safl, point.text)
        if not getattr(reshaping, what)(*words):
            return None
        return reshaping.text, (*point.how, how), (*point.chain, *reshaping.chain)

    def steps(self, point):
        """All single steps of a point."""
        span = self.least.span(point.program)
        yield from reshape_steps(point.program, copies=span is None or point.cycles > span)
        for how, program in text_steps(self.shown(point.program)):
            if not self.left():
                break
            yield how, "text", program

    def take(self, point, steps):
        """Times the sources after these steps of a point that were not seen before."""
        found = []
        for text, how, chain in filter(None, self.together(self.stepped, [(point, *step) for step in steps])):
            program = tree.read(text)
            shown = self.shown(program)
            plain = tree.plain(shown)
            if plain not in self.seen:
                self.seen.add(plain)
                found.append((point, program, text, shown, how, chain))
        new = list(filter(None, self.together(self.after, found)))
        self.timed += new
        return new

    def after(self, before, program, text, shown, how, chain):
        """A point after another, timed; nothing if `safl` refuses it."""
        try:
            told = timed(self.safl, tree.text_of(shown), self.task)
        except Refusal as refusal:
            if refusal.status in ENDS:
                raise
            return None
        if told["replies"] != self.wanted:
            raise Refusal(DIFFERENT, f"the source after {'; '.join(how)} gives other replies; please report this")
        return Point(program, text, shown, how, chain, before, told, self.task.products)

    def build(self, points):
        """Builds sources side by side, and keeps them in the order in which they are given."""
        waiting = {}
        for point in points:
            point.figures = self.known.figures(point.shown, self.task)
            if not point.built:
                waiting[self.submitted(point)] = point
        try:
            self.await_all(waiting)
        finally:
            for future in waiting:
                future.cancel()
            self.points += [point for point in points if point.built]

    def submitted(self, point):
        return self.pool.submit(measured, point.shown, astuple(self.task))

    def await_all(self, waiting):
        """Takes the points that are ready until all are, or the seconds are over. One whose worker was lost is tried once more."""
        again, ready = set(), 0
        while waiting and self.left():
            done, _ = concurrent.futures.wait(waiting, min(WATCH, self.left()), concurrent.futures.FIRST_COMPLETED)
            self.tell(self.pool.changed())
            for future in done:
                point = waiting.pop(future)
                if future.exception() and point not in again:
                    self.tell(f"a worker was lost: {future.exception()}: its point is tried again")
                    again.add(point)
                    waiting[self.submitted(point)] = point
                else:
                    self.end_of(point, future)
                    ready += 1
                    self.say(self, ready)

    def tell(self, line):
        if line:
            print(f"{NAME}: {line}", file=sys.stderr, flush=True)

    def end_of(self, point, future):
        """Takes what became of a point."""
        if future.exception():
            self.refuse(point, NOT_THERE, f"a worker was lost: {future.exception()}")
        elif "line" in future.result():
            status, line = future.result()["status"], future.result()["line"]
            if status in ENDS:
                raise Refusal(status, line)
            self.refuse(point, status, line)
        else:
            point.figures = future.result()
            self.known.add(point.shown, self.task, point.figures)

    def refuse(self, point, status, line):
        point.refused = status, line
        self.refused.append((point, line))

    def alive(self):
        return [point for point in self.timed if not point.refused]

    def near(self, points, slack):
        """Those of some points that no other is sure to beat in time and area, the unbeaten first, and then by their product."""
        best = unbeaten(self.alive())
        bounds, fronts = [(point.time, point.area) for point in best], set(map(id, best))
        found = []
        for point in points:
            when, area = point.time, point.area
            if not any(time <= when and size < area * (1 - slack) for time, size in bounds):
                found.append(((id(point) not in fronts, when * area), point))
        return [(first, point) for (first, _), point in sorted(found, key=lambda pair: pair[0])]

    def to_build(self, near_too):
        """The sources to be built next: the unbeaten, and if there are none, those that are near to them."""
        found = self.near([point for point in self.alive() if not point.built], SLACK)
        unbeaten_ones = [point for late, point in found if not late]
        chosen = unbeaten_ones or [point for _, point in found] * near_too
        return chosen[:min(AT_ONCE, self.most - len(self.points) - len(self.refused))]

    def to_continue(self):
        """The source to be continued next."""
        found = self.near([point for point in self.alive() if not point.continued], SLACK / 2)
        return found[0][1] if found and len(self.timed) < TIMED * self.most else None

    def write_out(self, first):
        """Times what the sets of functions give that can be written out, each with its groups joined too."""
        names = everywhere(first.program)
        chosen = subsets(names, FIRST)
        found = [first, *self.take(first, [(f"unfold {', '.join(each)}", "unfold", (each,)) for each in chosen])]
        while found:
            found = [
                new for point in found
                for new in self.take(point, [(how, "text", program) for how, program in joined(self.shown(point.program))])
            ]
        return len(chosen) == 2 ** len(names) - 1

    def go_on(self, point):
        """Times all that is a step away from a point."""
        point.continued = True
        self.take(point, list(self.steps(point)))

    def walk(self):
        """Continues the best sources until the budget is used up, or nothing is left that promises something."""
        first = self.points[0]
        self.all_tried = self.write_out(first)
        self.go_on(first)
        last, idle = None, 0
        while not self.over() and idle < PATIENCE:
            point = self.to_continue()
            wanted = self.to_build(near_too=not point or idle >= PATIENCE // 2)
            if not point and not wanted:
                break
            self.build(wanted)
            if point:
                self.go_on(point)
            best = [(point.time, point.area) for point in unbeaten(self.points)]
            last, idle = best, idle + 1 if best == last else 0
        self.all_tried &= self.left() > 0

    def front(self, task):
        """Measures the source and the points that no other beats in another way, and drops the others. If that ends early, all is as it was."""
        built, figures, before, end = self.points, [point.figures for point in self.points], self.task, self.end
        first, *_ = built
        others = [point for point in unbeaten(built) if point is not first]
        self.task, self.points, self.end = task, [], float("inf")
        try:
            for point in (first, *others):
                point.figures = None
            self.build([first])
            if first.refused:
                raise Refusal(*first.refused)
            self.build(others)
            self.dropped = len(built) - len(self.points)
        except BaseException:
            self.task, self.points = before, built
            for point, known in zip(built, figures):
                point.figures = known
            raise
        finally:
            self.end = end


def left_out(program, shown):
    """A line that says which functions are left out, if there are some."""
    gone = [function.name for function in program.functions if function not in shown.functions]
    return [f"without {', '.join(gone)}, as nothing calls {'it' if len(gone) == 1 else 'them'}"] if gone else []
