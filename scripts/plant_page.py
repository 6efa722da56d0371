"""What is known of planted bugs, kept in docs/plants.json, and the page docs/PLANTS.md that is made of it."""
import collections
import contextlib
import fcntl
import json
import os
import re

import files
from plant_bodies import Plant

DATA, PAGE = f"{files.TOP}/docs/plants.json", f"{files.TOP}/docs/PLANTS.md"
LISTS = ("operators", "definitions", "tool")
RESULTS = {
    "refused": "refused",
    "refused by the compiler": "by the compiler",
    "only by a name": "by a name",
    "equal": "equal",
    "not promised": "not promised",
    "survives": "survivors",
    "not settled": "not settled",
}
# the results of which each change is told, with a heading, and what is said of it
TOLD = (
    ("survives", "Survivors", "what it shows"),
    ("not promised", "Accepted where nothing is promised", "why not"),
    ("equal", "Accepted, with an equal result", "why it is equal"),
)
# the kinds of the tool's plants, as its last line counts them, and how the page calls them
TOOL = {
    "planted-in": "functions",
    "refused": "refused",
    "proves": "accepted",
    "same": "same",
    "elsewhere": "elsewhere",
    "not-judged": "not judged",
    "not-source": "by the compiler",
    "not-run": "not run",
    "untested": "untested",
    "no-ensures": "no ensures",
}
LAST = re.compile(r"^plants crate=(\w+) (.*)$", re.M)
ROW = re.compile(r"^(proves|no-ensures|untested) +(.*)$", re.M)
INTRODUCTION = """\
# Planted bugs

A proof says no more than its contract. So bugs are planted, one at a time, in the code and in the definitions, to see whether the prover refuses them. The [mutations](CONTRIBUTING.md#when-to-write-a-mutation) in `must-fail/` are bugs that a person thought of; those of this page are drawn. `scripts/plants.py` draws them, tries them and makes this page; what it found is in `docs/plants.json`.

"""
OPERATORS = """\
## Changes of bodies

One line of a body is changed in one of nine ways: `+` and `-` exchanged; `<` and `<=`, or `>` and `>=`; `&&` and `||`; an index moved by one; a constant moved by one; a branch turned; a statement left out; two arguments of one type exchanged; an early return. A seed draws {each} changes of each crate with code, of each kind in turn and of other functions as far as there are others. Crates of tests and benchmarks are left out. In a copy of the crate all other functions have holes in place of their proofs, since to its callers a function is what its contract says; so it is the changed function's own proof that has to fail.

- *refused*: a goal of the changed function is not proved. A change may alter the names of facts or take goals away; then the proof is first mended, so that it fails for what it says. Where it still names what is gone, the tactics alone try the goal.
- *by the compiler*: the changed line does not compile.
- *by a name*: the proof fails only because it names what is gone, also when it was mended. This says little.
- *equal*: accepted, and the result is the same; the reason is given below.
- *not promised*: accepted, and no contract promises the result, on purpose; the reason is given below.
- *survivors*: accepted, and a promised result may be another one.
- *not settled*: the prover does not say.

{tried} were tried; {left} are still to be tried.

"""
DEFINITIONS = """\
## Changes of definitions

One line of a definition that the contract of `run` reaches ([TRUSTED](TRUSTED.md)) is changed: a bound is moved by one, a case is left out (a fact of a record becomes one that always holds, the last part of a conjunction or of a choice goes), or a relation is turned. Then the functions whose contracts the definition touches are tried, those of its own crate first and then those of the crates above, until a proof breaks.

- *refused*: a proof breaks.
- *by the compiler*: the changed definition has no meaning.
- *survivors*: no proof breaks, so it is only tied to the world if a case of [CASES](CASES.md) breaks.

{tried} were tried; {left} are still to be tried.

"""
TRIED_BY_TOOL = """\
## Bodies by the tool

`rt plant` puts a wrong body in place of a whole function: one that gives up, or one that calls the function and changes an argument or the result.

"""

COLUMNS = """\
*Accepted* bodies meet the contract; *same* ones too, where the contract shows that the answer is the same. *Elsewhere* and *not judged* tell nothing of the contract. A function is *untested* where no body that gives up can be judged, and has *no ensures* where any body passes.

"""


class Data:
    """What was tried: changes of bodies and of definitions with what came of each, and what the tool counted.

    It is read again before each change, and others wait meanwhile: so several runs may try different crates side by side.
    """

    def __init__(self):
        self.read()

    def read(self):
        try:
            found = json.loads(files.read(DATA))
        except FileNotFoundError:
            found = {}
        self.kept = {name: found.get(name, []) for name in LISTS}

    @contextlib.contextmanager
    def changing(self):
        folder = os.open(os.path.dirname(DATA), os.O_RDONLY)
        try:
            fcntl.flock(folder, fcntl.LOCK_EX)
            self.read()
            yield
            entries = lambda name: "".join(f",\n  {json.dumps(entry, ensure_ascii=False)}" for entry in self.kept[name])[1:]
            files.write(f"{DATA}.new", "{\n" + ",\n".join(f'"{name}": [{entries(name)}\n]' for name in LISTS) + "\n}\n")
            os.replace(f"{DATA}.new", DATA)
        finally:
            os.close(folder)

    def plants(self, name):
        """The changes of this sort that were tried, with their results and what was said of them."""
        return {Plant(*entry["plant"]): (entry["result"], entry["said"]) for entry in self.kept[name]}

    def note(self, name, plant, result, said):
        """Notes what came of a change, in place of what was noted before, and prints it."""
        with self.changing():
            self.kept[name] = [entry for entry in self.kept[name] if Plant(*entry["plant"]) != plant]
            self.kept[name].append({"plant": plant.key, "result": result, "said": said})
        print(f"{plant.crate} {plant.function}: {plant.kind}: {plant.old}  =>  {plant.new}: {result}{said and ': '}{said}", flush=True)

    def keep(self, name, is_kept):
        """Forgets the changes of this sort that are not to be kept."""
        with self.changing():
            self.kept[name] = [entry for entry in self.kept[name] if is_kept(Plant(*entry["plant"]))]

    def read_logs(self, paths):
        """Notes what runs of `rt plant` counted; a later run of a crate replaces an earlier one."""
        with self.changing():
            counted = {entry["crate"]: entry for entry in self.kept["tool"]}
            for text in map(files.read, paths):
                for crate, words in LAST.findall(text):
                    counts = {name: int(number) for name, number in re.findall(r"(\S+)=(\d+)", words)}
                    counted[crate] = {"crate": crate, "counts": counts, "rows": [f"{kind}: {row}" for kind, row in ROW.findall(text)]}
            self.kept["tool"] = [counted[crate] for crate in sorted(counted)]


def cell(text):
    """Code in a cell of a table."""
    text = text.replace("|", "\\|")
    return f"`` {text} ``" if "`" in text else f"`{text}`" if text else "nothing"


def table(head, rows):
    lines = ["| " + " | ".join(map(str, row)) + " |" for row in [head, ["---"] * len(head), *rows]]
    return "\n".join(lines) + "\n\n"


def counted(found, crates, each=0):
    """A row for each crate, with how many changes were tried, what came of them, and how many are left of so many; a row of sums."""
    rows = []
    for crate in crates:
        counts = collections.Counter(result for plant, (result, _) in found.items() if plant.crate == crate)
        tried = sum(counts.values())
        rows.append([crate, tried, *(counts[result] for result in RESULTS), *([max(each - tried, 0)] if each else [])])
    sums = ["all", *(sum(column) for column in list(zip(*rows))[1:])]
    return table(["crate", "tried", *RESULTS.values(), *(["to be tried"] if each else [])], [*rows, sums])


def told(found, result, head, otherwise):
    """A row for each change with this result, with what is said of it."""
    rows = [[f"{plant.crate} `{plant.function}`", cell(plant.old), cell(plant.new), said] for plant, (is_result, said) in found.items() if is_result == result]
    return table(head, rows) if rows else f"{otherwise}\n\n"


def tool_part(data, crates):
    """The table of what the tool counted, and which crates it has not yet tried."""
    rows = [[entry["crate"], *(entry["counts"].get(name, 0) for name in TOOL)] for entry in data.kept["tool"]]
    known = {entry["crate"] for entry in data.kept["tool"]}
    left = ", ".join(crate for crate in crates if crate not in known)
    if not rows:
        return TRIED_BY_TOOL + "No crate was tried in this way yet.\n"
    ends = f"Not yet tried in this way: {left}.\n" if left else "All crates with code were tried in this way.\n"
    return TRIED_BY_TOOL + COLUMNS + table(["crate", *TOOL.values()], rows) + ends


def page(data, crates, each, definitions):
    """The text of the page: the crates with code, how many changes of each are wanted, and how many of definitions."""
    bodies, specs = data.plants("operators"), data.plants("definitions")
    left = sum(max(each - sum(plant.crate == crate for plant in bodies), 0) for crate in crates)
    text = INTRODUCTION + OPERATORS.format(each=each, tried=len(bodies), left=left) + counted(bodies, crates, each)
    head = ["function", "line", "changed to"]
    for result, title, why in TOLD:
        text += f"### {title}\n\n" + told(bodies, result, [*head, why], "There is none.")
    text += DEFINITIONS.format(tried=len(specs), left=max(definitions - len(specs), 0))
    text += counted(specs, sorted({change.crate for change in specs})) if specs else ""
    text += "### Definitions that break no proof\n\n" + told(specs, "survives", ["definition", *head[1:], "what ties it"], "There is none.")
    return text + tool_part(data, crates)
