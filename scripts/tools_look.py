#!/usr/bin/env python3
"""Tries tools/safl-look: tools_look.py [--picture OUT.png]

For each example: what it prints is the result of Python's libraries (scripts/gallery.py); its numbers of calls and tail calls
give the number of events of `safl walk`, 3n - 2l; its span is that of scripts/oracle, and the cycle of the result is not below
it, and is it if no call waits; the waits for arbiters, how long they are and for which sites, are those of the wires and
registers in the dump, as tools/safl_waves.py reads it. For small sources the waits follow from docs/CIRCUIT.md. Two charts of one
run are equal. Forty-two sites look differently.

In Chromium each page is loaded at two widths: no row, line or graph is cut, and nothing is written to the console. In one, each
site is clicked, and as many bars are marked as the trace of starts has lines of that site; the longest wait is found from its row
and by a key, and the pictures that the page saves are whole. The same for one site of a run of 1,000,000 cycles, of which seconds
and memory are said. And wrong uses: a line and a status each.

The pictures of the page are put into out/look.png and out/look.narrow.png, or OUT.png and OUT.narrow.png. What can't be tried is
SKIPPED. The status is 0 if all is well.
"""
import argparse
import os
import re
import shutil
import signal
import subprocess
import sys
import tempfile
import time
import xml.dom.minidom

from browser import Browser
from example import language, meaning
from files import TOP, examples, read, written
from gallery import PAGES
from program import PROGRAM, lacks, told

sys.path.insert(0, f"{TOP}/tools")
from safl_look import looks  # noqa: E402
from safl_tools.ending import INTERRUPTED, Refusal  # noqa: E402
from safl_tools.outside import library  # noqa: E402
from safl_waves import Trace  # noqa: E402

LOOK = f"{TOP}/tools/safl-look"
SMALL = {"seven": ([], 7), "multiply": ([255, 255], 1), "shared": ([5], 13), "even_odd": ([200], 1)}
PICTURED, PICTURED_SITE = "clock", 3
SIZES = {"": (1280, 1000), ".narrow": (760, 1000)}
CALLS_MOST = 1_000_000
LIMIT = "1100000"
LONG = """fun step(x:32, n:32):32 = if n == 0 then x else step(x * 1664525 + 1013904223, n - 1)
fun twice(x:32, n:32):32 = step(x, 3) ^ step(n, 2)
fun run(x:32, n:32):32 = if n == 0 then x else run(twice(x, n), n - 1)
fun main(n:32):32 = run(1, n)
"""
LONG_ROUNDS, LONG_SIZE, LONG_MEMORY = 83333, 8_000_000, 200  # 1,000,000 cycles; the most bytes of their page, and the most MB
SLOW = 2  # seconds for 1,000 rounds, or the program is too slow for all
# What of a page is not to be seen whole: the page itself, lines of the source, the graph, and rows of the chart.
CUT = """[
  ...(document.documentElement.scrollWidth > window.innerWidth ? ["page"] : []),
  ...[...document.querySelectorAll(".line code")].filter((line) => line.scrollWidth > line.clientWidth + 1).map((line) => line.textContent),
  ...(document.querySelector(".graph").scrollWidth > document.querySelector(".graph").clientWidth ? ["graph"] : []),
  ...units.filter((unit) => unit.y < CHART && unit.y + BAR + LANE * unit.lanes > CHART).map((unit) => unit.name),
]""".replace("CHART", "document.getElementById('chart').clientHeight")
# All waits for arbiters of a page: site, first cycle, how many cycles, and sites and cycles of those whom it is for.
ARBITER_WAITS = """units.flatMap(({ waits }) => Array.from(waits.begin, (begin, i) => [
  waits.kind[i], waits.site[i], begin, waits.end[i] - begin,
  Array.from(waits.holder.subarray(i ? waits.last[i - 1] : 0, waits.last[i]), (site, j) => [site, waits.held[(i ? waits.last[i - 1] : 0) + j]]),
])).filter(([kind]) => kind === 0).map((wait) => wait.slice(1))"""
# Sources, and for some sites the cycles of waiting for the arbiter and for an argument. A call adds two cycles.
INC = "fun f(x:8):8 = x + 1\n"
KNOWN = [
    (INC + "fun main(a:8):8 = f(f(f(a)))\n", {1: (0, 4), 2: (0, 2), 3: (0, 0)}),
    (INC + "fun main(a:8):8 = f(a) + f(a)\n", {1: (0, 0), 2: (2, 0)}),
    (INC + "fun main(a:8):8 = f(a) + f(a) + f(a)\n", {1: (0, 0), 2: (2, 0), 3: (4, 0)}),
    (INC + "fun g(x:8, y:8):8 = x + y\nfun main(a:8):8 = g(f(a), f(f(a)))\n", {1: (0, 6), 2: (0, 0), 3: (0, 4), 4: (2, 0)}),
    (INC + "fun main(a:8):8 = let b = f(a) in f(if b == 6 then f(b) else b)\n", {1: (0, 0), 2: (0, 2), 3: (0, 0)}),
]


class Trial:
    """What was tried so far, and how much of it differs."""

    def __init__(self, folder):
        self.folder, self.sources, self.clicks, self.uses, self.failed, self.skipped, self.waits = folder, 0, 0, 0, 0, [], {}

    def say(self, text):
        print(f"tools_look: {text}", flush=True)

    def same(self, what, wanted, got):
        if wanted != got:
            self.failed += 1
            self.say(f"{what}: {wanted} is wanted, but there is {got}")

    def skip(self, text):
        self.skipped.append(text)
        self.say(f"{text}, SKIPPED")

    def path(self, name):
        return os.path.join(self.folder, name)

    def look(self, *words, seconds=600):
        """Runs safl-look; it is interrupted after these seconds."""
        limit = ["timeout", "--preserve-status", "--signal=INT", str(seconds)]
        return told([*limit, LOOK, "--safl", PROGRAM, *map(str, words)], TOP)

    def safl(self, *words):
        return told([PROGRAM, *map(str, words)], TOP).stdout

    def starts(self, source, arguments):
        """How many calls of each site a run accepts."""
        self.safl("sim", source, "--cycles", LIMIT, "--starts", self.path("starts"), *arguments)
        wires = [line.split()[1] for line in read(self.path("starts")).splitlines()]
        return {wire: wires.count(wire) for wire in set(wires)}


def cases():
    """The examples, as paths from the repository's folder, with their arguments and the results of the libraries."""
    for name, path in examples():
        if name in SMALL:
            yield name, os.path.relpath(path, TOP), *SMALL[name]
        else:
            answer, values = PAGES[name]
            yield name, os.path.relpath(path, TOP), *answer(*values[min(1, len(values) - 1)])[1:]


def cells_of(row):
    return [re.sub("<.*?>|,", "", cell).strip() for cell in re.findall(r"<td.*?>(.*?)</td>", row)]


def rows_of(page):
    """The numbers of the page's table of sites, by site: calls, cycles waited for the arbiter, and for an argument."""
    found = {}
    for number, row in re.findall(r'<tr class="row" data-site="(\d+)">(.*?)</tr>', page):
        found[int(number)] = tuple(int(cell) if cell.isdigit() else 0 for cell in cells_of(row)[3:6])
    return found


def longest_of(page):
    """The page's table of the longest waits: site, first cycle, number of cycles, what is waited for, and the holders."""
    table = page[page.index("<h2>Longest waits"):page.index("<h2>Sites")]
    found = []
    for row in re.findall(r"<tr><td>(.*?)</tr>", table):
        site, cycles, kind, *_ = cells_of(f"<td>{row}")
        holders = re.findall(r'<span class="holder">(.*?)<small>([\d,]+)</small>', row)
        pairs = tuple((int(re.sub(r"<.*?>|\s|main", "", who) or 0), int(count.replace(",", ""))) for who, count in holders)
        found.append((int(site), int(re.search(r'data-wait="(\d+)"', row)[1]), int(cycles), kind, pairs))
    return found


class Waits:
    """The waits for arbiters of a dump: for each site with an arbiter its first cycle, its length and whom it is for, by the wires and
    registers alone."""

    def __init__(self, dump, report):
        self.dump, self.units, self.waits, self.lost = dump, {}, {}, set()
        callees = {int(site): callee for site, callee in re.findall(r"^site (\d+) (\w+) in", report, re.M)}
        for site, callee in callees.items():
            self.units.setdefault(self.unit(callee), []).append(site)
        for name in dump.widths:
            if name.startswith("arb$"):
                site = int(name.removeprefix("arb$"))
                self.waits[site] = self.of_site(site, self.unit(callees[site]))

    def unit(self, callee):
        """The unit of a function: the last one above it that has a register run."""
        units = [name.removeprefix("run$") for name in self.dump.widths if name.startswith("run$")]
        order = [name.removeprefix("end$") for name in self.dump.widths if name.startswith("end$")]
        return next(name for name in reversed(order[:order.index(callee) + 1]) if name in units)

    def is_up(self, name, cycle):
        return self.dump.value(name, cycle) == 1

    def holder(self, unit, cycle):
        """The site whose call a unit accepts in a cycle, or runs: the one that was accepted last."""
        changes = ((time, site, word) for site in self.units[unit] for time, word in zip(*self.dump.changes[f"go${site}"]))
        return max((time, site) for time, site, word in changes if word == "1" and time <= cycle)[1]

    def of_site(self, site, unit):
        found = []
        changes = sorted({*self.dump.changes[f"want${site}"][0], *self.dump.changes[f"go${site}"][0], self.dump.end})
        for begin, end in zip(changes, changes[1:]):
            if self.is_up(f"want${site}", begin) and not self.is_up(f"go${site}", begin):
                holders = [self.holder(unit, cycle) for cycle in range(begin, end)]
                found.append((site, begin, end - begin, tuple((each, holders.count(each)) for each in dict.fromkeys(holders))))
                self.lost |= set(range(begin, end))
        return found


def said_by(trial, name, path, arguments, done, result):
    """What safl-look printed of a run, after it was compared with what others say."""
    said = {line.rpartition(" ")[0]: int(line.rpartition(" ")[2]) for line in done.stdout.splitlines()}
    calls, tails, cycle, span = (said[each] for each in ("calls", "tail calls", "cycle", "span"))
    trial.same(f"{name}: result", result, said["result"])
    meant = meaning(language.accept(read(f"{TOP}/{path}").encode()), [int(word) for word in arguments], CALLS_MOST)
    wanted = (meant.calls, meant.tails, meant.span, meant.latest)
    trial.same(f"{name}: calls, tail calls, span and 2n - l", wanted, (calls, tails, span, said["bound 2n - l"]))
    trial.same(f"{name}: whether span <= t <= 2n - l", True, span <= cycle <= said["bound 2n - l"])
    trial.same(f"{name}: whether t is the span if no call waits", True, said["cycles with a waiting call"] > 0 or cycle == span)
    walked = trial.safl("walk", path, "--order", 1, "--steps", 3 * calls, *arguments)
    trial.same(f"{name}: events, 3n - 2l", [str(3 * calls - 2 * tails)], re.findall(r"^events (\d+)$", walked, re.M))
    return said


def try_example(trial, name, path, arguments, result):
    page, chart = trial.path(f"{name}.html"), trial.path(f"{name}.svg")
    done = trial.look(path, *arguments, "-o", page, "--chart", chart)
    trial.same(f"{name}: status and lines on standard error", (0, ""), (done.returncode, done.stderr))
    if done.returncode:
        return
    trial.sources += 1
    said, starts, rows = said_by(trial, name, path, arguments, done, result), trial.starts(path, arguments), rows_of(read(page))
    trial.same(f"{name}: calls that are no tail calls", sum(starts.values()), said["calls"] - said["tail calls"])
    wanted = {site: starts.get(f"go${site}", 0) for site in rows}
    trial.same(f"{name}: calls of the sites", wanted, {site: row[0] for site, row in rows.items()})
    trial.safl("sim", path, "--cycles", LIMIT, "--vcd", trial.path("vcd"), *arguments)
    try_waits(trial, name, Waits(Trace(read(trial.path("vcd"))), trial.safl("report", path)), page, said["cycles with a waiting call"])


def try_waits(trial, name, found, page, waiting):
    """Whether the waits for arbiters on a page are those of the dump."""
    rows, longest = rows_of(read(page)), longest_of(read(page))
    trial.same(f"{name}: cycles in which a call waits for an arbiter", len(found.lost), waiting)
    wanted = {site: sum(cycles for _, _, cycles, _ in waits) for site, waits in found.waits.items()}
    trial.same(f"{name}: cycles waited for arbiters", wanted, {site: rows[site][1] for site in wanted})
    trial.waits[name] = sorted(wait for each in found.waits.values() for wait in each)
    shown = [(site, begin, cycles, holders) for site, begin, cycles, kind, holders in longest if kind == "the arbiter"]
    trial.same(f"{name}: waits of the table that are in no dump", set(), set(shown) - set(trial.waits[name]))


def try_known(trial):
    for number, (source, waits) in enumerate(KNOWN):
        path, page = written(trial.folder, f"known{number}.safl", source), trial.path("known.html")
        done = trial.look(path, 5, "-o", page)
        rows = rows_of(read(page)) if done.returncode == 0 else {}
        trial.same(f"waits of {source!r}", waits, {site: row[1:] for site, row in rows.items()})


def try_chart(trial):
    name, path, arguments, _ = next(case for case in cases() if case[0] == PICTURED)
    trial.look(path, *arguments, "--chart", trial.path("again.svg"))
    trial.same(f"{name}: the chart of the same run", True, read(trial.path(f"{name}.svg")) == read(trial.path("again.svg")))


def try_looks(trial):
    found = {(looks.colour(site), looks.pattern(site)) for site in range(1, 43)}
    trial.same("looks of 42 sites", 42, len(found))


def try_interrupt(trial):
    """A run that is interrupted while its circuit runs, or while its traces are read."""
    path = written(trial.folder, "endless.safl", "fun main(x:64):64 = main(x + 1)\n")
    words = [LOOK, "--safl", PROGRAM, path, "5", "--cycles", "2000000", "--chart", trial.path("endless.svg")]
    signal.signal(signal.SIGINT, signal.default_int_handler)  # a shell may have had it ignored, for the child too
    with subprocess.Popen(words, stderr=subprocess.PIPE, text=True, env={**os.environ, "TMPDIR": trial.folder}) as child:
        while child.poll() is None and not any(name.startswith("safl-") for name in os.listdir(trial.folder)):
            time.sleep(0.05)
        time.sleep(0.3)
        child.send_signal(signal.SIGINT)
        told_line = child.communicate()[1]
    trial.same("an interrupt", (INTERRUPTED, "safl-look: interrupted\n"), (child.returncode, told_line))


def marked(browser):
    """How many bars are marked, and which sites are marked in the source, the graph and the table."""
    parts = (".code .badge.marked", ".graph .site.marked", "tr.row.marked")
    return int(browser.all("#chart", "data-marked")[0]), [browser.all(part, "data-site") for part in parts]


def try_page(trial, browser, picture):
    """Clicks each site of a page, goes to its waits, and keeps pictures of one that is marked."""
    name, path, arguments, _ = next(case for case in cases() if case[0] == PICTURED)
    page, starts = trial.path(f"{name}.html"), trial.starts(path, arguments)
    for more, size in SIZES.items():
        browser.resize(*size)
        browser.load(page)
        trial.same(f"{name}: what is cut at a width of {size[0]}", [], browser.value(CUT))
        for site in browser.all(".code .badge", "data-site"):
            browser.click(f'.code .badge[data-site="{site}"]')
            wanted = (starts.get(f"go${site}", 0), [[site]] * 3)
            trial.same(f"{name}: bars marked by site {site}, and where it is marked", wanted, marked(browser))
            trial.clicks += 1
        try_keys(trial, browser, name)
        try_longest(trial, browser, name, longest_of(read(page))[0])
        try_pictures(trial, browser, name)
        browser.driver.execute_script("document.activeElement.blur(); window.scrollTo(0, 0)")
        browser.click(f'.code .badge[data-site="{PICTURED_SITE}"]')
        base, ending = os.path.splitext(os.path.abspath(picture))
        os.makedirs(os.path.dirname(base), exist_ok=True)
        browser.picture(f"{base}{more}{ending}")
    trial.same(f"{name}: what the console says", [], browser.complaints())


def try_widths(trial, browser):
    """Loads the pages of all examples at two widths; their waits for arbiters are those of the dumps."""
    for size in SIZES.values():
        browser.resize(*size)
        for name, *_ in cases():
            browser.load(trial.path(f"{name}.html"))
            trial.same(f"{name}: what is cut at a width of {size[0]}", [], browser.value(CUT))
            shown = [(*wait, tuple(map(tuple, holders))) for *wait, holders in browser.value(ARBITER_WAITS)]
            trial.same(f"{name}: waits for arbiters", trial.waits[name], sorted(shown))
    trial.same("the pages of the examples: what the console says", [], browser.complaints())


def try_keys(trial, browser, name):
    seen = []
    for key in "0+n0":
        browser.press(key)
        seen.append(browser.text("range"))
    trial.same(f"{name}: what the keys show", (True, True, True), (seen[0] != seen[1], seen[1] != seen[2], seen[0] == seen[3]))
    browser.click("#unmark")
    trial.same(f"{name}: bars marked afterwards", (0, [[]] * 3), marked(browser))


def try_longest(trial, browser, name, wait):
    """The longest wait, from its row in the table and by keys: what the page says of it."""
    site, begin, cycles, _, holders = wait
    wanted = f"site {site} waits {cycles} cycles, {begin} to {begin + cycles - 1}, for the arbiter, the unit works for "
    wanted += ", ".join(f"site {each} ({count})" for each, count in holders)
    browser.click(f'#longest button[data-from="{site}"]')
    trial.same(f"{name}: the longest wait, from the table", wanted, browser.text("wait-text"))
    browser.click("#unmark")
    browser.click(f'.code .badge[data-site="{site}"]')
    browser.press("w")
    trial.same(f"{name}: the longest wait, by a key", wanted, browser.text("wait-text"))
    browser.press("0")


def try_pictures(trial, browser, name):
    """The pictures that a page saves: the SVG has all rows and is well-formed, the PNG has the same size in points."""
    text = browser.value("svgOf('chart')")
    drawing = xml.dom.minidom.parseString(text).documentElement
    units = browser.value("units.map((unit) => unit.members.join(', '))")
    trial.same(f"{name}: rows of the SVG", [], [unit for unit in units if f">{unit}</text>" not in text])
    canvas = browser.value("(({ width, height }) => [width, height])(canvasOf('chart'))")
    trial.same(f"{name}: size of the PNG", [2 * int(float(drawing.getAttribute(each))) for each in ("width", "height")], canvas)
    xml.dom.minidom.parseString(browser.value("svgOf('waves')"))


def long_result():
    def step(x, n):
        for _ in range(n):
            x = (x * 1664525 + 1013904223) % 2**32
        return x

    x = 1
    for n in range(LONG_ROUNDS, 0, -1):
        x = step(x, 3) ^ step(n, 2)
    return x


def used(words):
    """What a command takes: seconds by the clock and of the processor, and the most memory in MB; and how it ended."""
    begun = time.monotonic()
    with subprocess.Popen(words, stdout=subprocess.PIPE, text=True) as child:
        out = child.stdout.read()
        _, status, taken = os.wait4(child.pid, 0)
        child.returncode = os.waitstatus_to_exitcode(status)
    return time.monotonic() - begun, taken.ru_utime + taken.ru_stime, taken.ru_maxrss / 1024, child.returncode, out


def try_long(trial, browser):
    """A run of 1,000,000 cycles: what it takes, its page, and one site of it, from the first cycles to the whole run."""
    path, page = written(trial.folder, "long.safl", LONG), trial.path("long.html")
    try:
        subprocess.run([PROGRAM, "sim", path, "--cycles", LIMIT, "1000"], stdout=subprocess.DEVNULL, timeout=SLOW, check=False)
    except subprocess.TimeoutExpired:
        trial.skip("the program is too slow for a run of 1,000,000 cycles")
        return
    alone = used([PROGRAM, "sim", path, "--cycles", LIMIT, str(LONG_ROUNDS)])
    words = [LOOK, "--safl", PROGRAM, path, LONG_ROUNDS, "--cycles", LIMIT, "-o", page, "--chart", trial.path("long.svg")]
    seconds, processor, memory, status, out = used([str(word) for word in words])
    trial.same("long run: status and first lines", (0, [f"result {long_result()}", "cycle 1000000"]), (status, out.splitlines()[:2]))
    if status:
        return
    trial.sources += 1
    trial.say(f"1,000,000 cycles: {seconds:.1f} s, {processor:.1f} s of processor, {memory:.0f} MB")
    trial.say(f"`safl sim` of them without a dump: {alone[0]:.1f} s, {alone[1]:.1f} s of processor")
    trial.same("long run: whether its page and the memory for it are small", (True, True), (os.path.getsize(page) < LONG_SIZE, memory < LONG_MEMORY))
    if browser is None:
        return
    trial.say(f"its page has {os.path.getsize(page):,} bytes and is drawn after {browser.load(page):.1f} s")
    browser.click('.code .badge[data-site="1"]')
    browser.click("#page-after")
    browser.click("#zoom-all")
    trial.same("long run: bars marked by site 1", (trial.starts(path, [LONG_ROUNDS])["go$1"], [["1"]] * 3), marked(browser))
    browser.click("#unmark")
    browser.click("#wait-after")
    trial.same("long run: its first wait", "site 2 waits 5 cycles, 3 to 7, for the arbiter", browser.text("wait-text").rpartition(",")[0])
    trial.same("long run: what the console says", [], browser.complaints())
    trial.clicks += 1


def wrong_uses(trial):
    """Words, the status, and a part of the line."""
    source = f"{TOP}/examples/shared.safl"
    wrong = written(trial.folder, "wrong.safl", "fun main(x:8):8 = y\n")
    copy = written(trial.folder, "copy.safl", read(source))
    page = ("-o", trial.path("wrong.html"))
    loop = written(trial.folder, "loop.safl", "fun main(x:8):8 = main(x + 1)\n")
    return [
        ([], 2, "IN"),
        ([source, 5], 2, "name the page"),
        ([source, 5, "--frob"], 2, "--frob"),
        ([source, -5, *page], 2, "5"),
        ([source, "5x", *page], 2, "5x is no number"),
        ([source, "0x", *page], 2, "0x is no number"),
        ([source, 5, *page, "--cycles", 0], 2, "0 is no number of cycles"),
        ([source, 5, *page, "--signals", "nothing"], 2, "no signal nothing"),
        ([source, 5, *page, "--waves", "9"], 2, "FIRST-LAST"),
        ([source, 5, *page, "--waves", "100-200"], 2, "0 to 6"),
        ([source, 5, "--chart", trial.path("wrong.svg"), "--waves", "1-2"], 2, "go with -o"),
        ([copy, 5, "-o", copy], 2, "nothing is written"),
        ([source, 5, "-o", trial.path("wrong.svg"), "--chart", trial.path("wrong.svg")], 2, "nothing is written"),
        ([source, 5, "--chart", trial.path("wrong.gif")], 2, "does not end with .svg, .png or .pdf"),
        ([trial.path("nothing.safl"), 5, *page], 3, "cannot read"),
        ([source, 5, "-o", trial.path("nothing/page.html")], 4, "cannot write"),
        ([wrong, 5, *page], 1, "E08 unknown variable"),
        ([source, *page], 8, "main takes 1 argument"),
        ([source, 256, *page], 8, "no number of 8 bits"),
        ([source, "0x100", *page], 8, "no number of 8 bits"),
        ([source, 5, *page, "--safl", trial.path("nothing")], 30, "no program"),
        ([loop, 5, *page, "--cycles", 40], 6, "no result in 40 cycles"),
    ]


def try_wrong_uses(trial):
    before = read(f"{TOP}/examples/shared.safl")
    for words, status, part in wrong_uses(trial):
        done = trial.look(*words)
        lines = (done.stderr or done.stdout).splitlines()
        what = f"safl-look {' '.join(map(str, words))}"
        trial.same(f"{what}: status", status, done.returncode)
        trial.same(f"{what}: one line with {part!r} in it", (True, True), (status == 6 or len(lines) == 1, part in "".join(lines)))
        trial.uses += 1
    trial.same("the sources afterwards", (before, before), (read(f"{TOP}/examples/shared.safl"), read(trial.path("copy.safl"))))


def lacking():
    """What the browser lacks: a line, or nothing. This may begin the script anew under the system's Python."""
    for name in ("chromium", "chromedriver"):
        if not shutil.which(name):
            return f"the program {name} is missing (Debian: apt install chromium-driver)"
    try:
        library("selenium", "python3-selenium")
    except Refusal as refusal:
        return refusal.line
    return None


def try_all(trial, picture, lacks_browser):
    browser = None if lacks_browser else Browser(*SIZES[""])
    if lacks_browser:
        trial.skip(f"pages in a browser: {lacks_browser}")
    try:
        for case in cases():
            try_example(trial, *case)
        try_known(trial)
        try_chart(trial)
        try_looks(trial)
        try_wrong_uses(trial)
        try_interrupt(trial)
        if browser:
            try_page(trial, browser, picture)
            try_widths(trial, browser)
        try_long(trial, browser)
    finally:
        if browser:
            browser.end()


def main():
    parser = argparse.ArgumentParser(description="Tries tools/safl-look.")
    parser.add_argument("--picture", metavar="OUT.png", default=f"{TOP}/out/look.png", help="where the picture of the page is put")
    words = parser.parse_args()
    if lacks(PROGRAM):
        return
    try:
        library("jinja2", "python3-jinja2")
    except Refusal as refusal:
        print(f"tools_look: {refusal.line}, SKIPPED")
        return
    lacks_browser = lacking()
    with tempfile.TemporaryDirectory(prefix="tools-look-") as folder:
        trial = Trial(folder)
        try_all(trial, words.picture, lacks_browser)
    skipped = f", {len(trial.skipped)} SKIPPED" if trial.skipped else ""
    waits = sum(map(len, trial.waits.values()))
    tried = f"{trial.sources} sources, {waits} waits, {trial.clicks} clicks, {trial.uses} wrong uses"
    print(f"tools_look: {tried}, {trial.failed} differences{skipped}")
    sys.exit(1 if trial.failed else 0)


if __name__ == "__main__":
    main()
