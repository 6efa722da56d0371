"""The command line of safl-look, and what it runs and writes."""
import argparse
import os
import re
import shlex
import sys
from dataclasses import dataclass

from safl_look import NAME
from safl_look.chart import Chart
from safl_look.dump import FOREVER, Dump, Window
from safl_look.page import Page
from safl_look.run import Run, is_watched
from safl_look.source import Program
from safl_tools import files, outside, pictures, temporary
from safl_tools.ending import TOOL_FAILED, WRONG_USE, Refusal, one_line
from safl_tools.numbers import argument, hexadecimal
from safl_tools.words import Words, count

NO_RESULT = 6
WAVES_MOST = 8_000_000  # the most bytes of waveforms in a page, before they are compressed


@dataclass
class Told:
    """What a run printed: its result and the cycle of it, or nothing of both."""

    result: int = None
    cycle: int = None

    @property
    def hexadecimal(self):
        return hexadecimal(self.result)


@dataclass
class Command:
    """The source and the arguments, and the command line that made the page."""

    source: str
    arguments: list
    line: str


def cycle_range(word):
    found = re.fullmatch(r"(\d{1,10})-(\d{1,10})", word, re.ASCII)
    if not found or int(found[1]) > int(found[2]):
        raise argparse.ArgumentTypeError(f"{word} is no range of cycles FIRST-LAST")
    return int(found[1]), int(found[2]) + 1


def words():
    parser = Words(NAME, "Show a run of a source: its call sites, units, calls, waits and waveforms, as a page or a chart.")
    add, cycles = parser.add_argument, count(1, 10**9, "number of cycles")
    add("source", metavar="IN", help="the source")
    add("arguments", metavar="ARG", nargs="*", type=argument, help="the arguments of main, in decimal or as 0x and hexadecimal digits")
    add("-o", "--page", metavar="PAGE.html", help="write the page")
    add("--chart", metavar="PICTURE", help="write the chart of the whole run alone, as .svg, .png or .pdf")
    add("--cycles", type=cycles, default=1000000, metavar="L", help="the most cycles of the run (1,000,000)")
    add("--signals", metavar="NAME,NAME,..", help="the signals whose waveforms are in the page, drawn in this order (all)")
    add("--waves", type=cycle_range, metavar="FIRST-LAST", help="the cycles whose waveforms are in the page (0 on, as many as fit)")
    return parser


def checked(chosen):
    """Refuses words that do not go together."""
    if not (chosen.page or chosen.chart):
        raise Refusal(WRONG_USE, "name the page with -o PAGE.html or the chart with --chart PICTURE (try --help)")
    if (chosen.signals or chosen.waves) and not chosen.page:
        raise Refusal(WRONG_USE, "--signals and --waves go with -o PAGE.html")


def opened(chosen):
    """Asks for libraries, reads the source, and opens the outputs."""
    if chosen.page:
        outside.library("jinja2", "python3-jinja2")
    if chosen.chart:
        pictures.ready(chosen.chart)
    chosen.source = files.source(chosen.source)
    chosen.page, chosen.chart = files.outputs([chosen.source], [chosen.page, chosen.chart])


def on_terminal(line):
    """Shows a line on a terminal; the next one is written over it."""
    if sys.stderr.isatty():
        print(f"\r{line}\x1b[K\r", end="", file=sys.stderr, flush=True)


def recorded(safl, chosen):
    """Runs the circuit, and reads the dump while it is written, so that none is kept. Gives what was printed, and the dump."""
    dump = Dump(is_watched, window_of(chosen), lambda cycle: on_terminal(f"{NAME}: cycle {cycle:,}"))
    told = safl.told("sim", chosen.source, "--cycles", chosen.cycles, *chosen.arguments, "--vcd", outside.Piped(dump.read))
    on_terminal("")
    if told.status not in (0, NO_RESULT):
        raise outside.refused(told, "sim")
    if not dump.cycles:
        raise Refusal(TOOL_FAILED, "the dump of the run is not whole")
    found = re.match(r"result (\d+)\ncycle (\d+)\n", told.out)
    return Told(int(found[1]), int(found[2])) if found else Told(), dump


def window_of(chosen):
    """The waveforms that the page has."""
    if not chosen.page:
        return Window()
    names = frozenset(chosen.signals.split(",")) if chosen.signals else None
    if chosen.waves:
        return Window(names, *chosen.waves, FOREVER)
    return Window(names, 0, FOREVER, WAVES_MOST)


def refuse_waves(chosen, dump):
    """Refuses waveforms that the run does not have."""
    for name in chosen.signals.split(",") if chosen.signals else []:
        if name not in dump.widths:
            raise Refusal(WRONG_USE, f"there is no signal {name}")
    if chosen.waves and chosen.waves[0] >= dump.cycles:
        raise Refusal(WRONG_USE, f"the run has only the cycles 0 to {dump.cycles - 1:,}")


def write(chosen, run, told, folder):
    if chosen.chart:
        chosen.chart.write(pictures.of_svg(chosen.chart.name, Chart(run).text()))
    if chosen.page:
        command = Command(one_line(chosen.source.name), chosen.arguments, one_line(shlex.join([NAME, *sys.argv[1:]])))
        signals = chosen.signals.split(",") if chosen.signals else None
        chosen.page.write(Page(run, command, told, signals, folder).text())


def summary(run, told, limit):
    """What is printed: what `safl sim` prints, the numbers of calls and of tail calls, what the cycle lies between, and in how many
    cycles a call waits for a unit."""
    calls, tails = run.all_calls, run.tail_calls
    if told.result is None:
        return f"no result in {limit} cycles\ncalls so far {calls}\ntail calls so far {tails}\ncycles with a waiting call {run.waiting_cycles}"
    return (
        f"result {told.result}\ncycle {told.cycle}\ncalls {calls}\ntail calls {tails}\n"
        f"span {run.span}\nbound 2n - l {2 * calls - tails}\ncycles with a waiting call {run.waiting_cycles}"
    )


def is_printed(output):
    """Whether an output is standard output, under whatever name."""
    try:
        return output is not None and os.path.samestat(os.stat(output.name), os.fstat(1))
    except OSError:
        return False


def main():
    chosen = words().parse_intermixed_args()
    checked(chosen)
    opened(chosen)
    safl = outside.safl(chosen.safl)
    program = Program(chosen.source.content.decode(errors="replace"), safl.text("report", chosen.source))
    told, dump = recorded(safl, chosen)
    refuse_waves(chosen, dump)
    run = Run(program, dump)
    with temporary.folder() as folder:
        write(chosen, run, told, folder)
    if not is_printed(chosen.page):
        print(summary(run, told, chosen.cycles))
    return 0 if told.cycle is not None else NO_RESULT
