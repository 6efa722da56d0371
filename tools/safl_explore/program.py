"""What safl-explore does."""
import sys
from dataclasses import replace

import safl_place
from safl_explore import NAME, picture, tree
from safl_explore.cluster import Cluster, Here
from safl_explore.inline import called_from_few, inlined
from safl_explore.known import Known
from safl_explore.points import REGISTER_BIT, Task, unbeaten
from safl_explore.search import Search
from safl_explore.telling import Telling, commands
from safl_explore.words import checked, opened, words
from safl_tools import outside
from safl_tools.ending import Refusal, all_of, told_of

RECURSION = 20_000  # a source may have a hundred levels of nesting, and each takes some calls of the reader


def needed(chosen):
    """Asks for programs and libraries before any work is done."""
    if chosen.plot:
        picture.ready()
    if chosen.scheduler:
        outside.library("distributed", "python3-distributed")
        return
    if chosen.luts or chosen.place:
        outside.tool("yosys", "yosys")
    if chosen.place:
        name = f"nextpnr-{safl_place.DEVICES[chosen.device or 'hx8k'].family}"
        outside.tool(name, safl_place.PACKAGES.get(name))


def task_of(chosen, safl):
    device = (chosen.device or "hx8k") if chosen.luts or chosen.place else None
    seed, seeds = (1 if number is None else number for number in (chosen.seed, chosen.seeds))
    return Task(chosen.calls.text, chosen.cycles, safl.path, device, chosen.place, seed, seeds, chosen.dsp)


def progress(search, more):
    """Says on a terminal how far the search is: the sources that are built, the best of them, and the time that is left."""
    if not sys.stderr.isatty():
        return
    best = unbeaten(search.points)
    ends = f"{best[0].cycles:,} to {best[-1].cycles:,} cycles" if len(best) > 1 else f"{best[0].cycles:,} cycles" if best else ""
    left = f", {search.left():.0f} s left" if search.left() < 10**5 else ""
    told = f"{NAME}: {len(search.points) + more} points of {len(search.timed)} sources, {len(best)} unbeaten, {ends}{left}"
    print(f"\r{told:<79}", end="", file=sys.stderr, flush=True)


def explored(chosen, safl):
    """The search, and what ended it early."""
    pool = Cluster(chosen.scheduler) if chosen.scheduler else Here(chosen.jobs)
    known, early = Known(chosen.known, chosen.before, safl), None
    task = task_of(chosen, safl)
    search = Search(safl, pool, known, replace(task, device=None, clock=False) if chosen.front else task, chosen, progress)
    try:
        search.first(chosen.source.text)
        search.walk()
        if chosen.front:
            search.front(task)
    except (KeyboardInterrupt, Refusal, OSError, MemoryError) as fault:
        if not search.points:
            raise
        early = fault
    finally:
        outside.end_running()
        pool.shutdown()
        search.threads.shutdown()
        if sys.stderr.isatty():
            print(file=sys.stderr)
    return search, early


def draw(chosen, search, named):
    """Draws the points: area, and the cycles of all calls or, where the clock is known, the calls a second."""
    figures, calls = search.points[0].figures, len(search.wanted)
    area = "LUTs" if "luts" in figures else f"ANDs + {REGISTER_BIT} x register bits"
    if "mhz" in figures:
        high = [(point.area, point.calls_a_second(calls)) if "mhz" in point.figures else None for point in search.points]
    else:
        high = [(point.area, point.cycles) for point in search.points]
    spots = dict(zip(map(id, search.points), high))
    best = [(name, spots[id(point)]) for name, point in named]
    names = area, "calls a second" if "mhz" in figures else "cycles of all calls"
    chosen.plot.write(picture.drawn(chosen.plot.name, chosen.source.name, [spot for spot in high if spot], best, names))


def explore(chosen, safl):
    safl.text("check", chosen.source)
    search, early = explored(chosen, safl)
    telling = Telling(chosen, search, unbeaten(search.points))
    telling.tell()
    if not early:
        telling.advise()
    telling.tell_end()
    works = [search.known.keep]
    if chosen.out:
        works.append(telling.keep)
    if chosen.plot:
        works.append(lambda: draw(chosen, search, telling.unbeaten))
    all_of(works)
    if early:
        status, line = told_of(early)
        raise Refusal(status, f"{line}: what is above was found until then")


def inline(chosen, safl):
    safl.text("check", chosen.source)
    text = chosen.source.text
    if chosen.inline is not None:
        names = [name.strip() for name in chosen.inline.split(",")]
    else:
        names = called_from_few(tree.read(text), chosen.inline_below)
    task = Task(chosen.calls.text, chosen.cycles, safl.path)
    text, chain, gone, before, after = inlined(safl, text, names, task)
    chosen.result.write(text)
    print(f"written out: {', '.join(names) or 'nothing'}")
    if chain:
        print("\n".join(commands(chosen.source.name, chosen.result.name, chain)))
    print(f"left out, as nothing calls them: {', '.join(gone) or 'nothing'}")
    print(f"the replies are the same; {after:,} cycles in place of {before:,}")


def main(arguments=None):
    sys.setrecursionlimit(RECURSION)
    chosen = words().parse_args(arguments)
    checked(chosen)
    needed(chosen)
    opened(chosen)
    safl = outside.safl(chosen.safl)
    return inline(chosen, safl) if chosen.result else explore(chosen, safl)
