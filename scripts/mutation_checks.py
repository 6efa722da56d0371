"""Tries all mutations of crates, up to ten of different functions in one check of a copy of their crate.

Such a check refuses a mutation if it says that the mutation's own function is not proved, with an error in the proofs of that
function or a goal of it for which no proof is found. It is not enough that a function which it calls is not proved. To its
callers a function is what its contract says, and a mutation changes no contract; so no other mutation of the check can be
the reason. Whatever a check does not settle in this way is tried alone, by `rt must-fail`: a mutation outside of functions,
one that cannot be read, one after which a proof only names what is gone, and one that is not refused.

Before that the crate is checked as it stands, since nothing is refused if it is not proved. Where the gate has just passed on the
same files this need not be done again: the first check with mutations then proves the rest of the crate.

What has been tried stands in out/mutations.tsv, with a checksum of the kit, of the files of the crate and of those below it, and
of the mutation. So a run that is cut off goes on where it was, and after a change only the mutations of that crate and of those
above it are tried again.

This depends on the kit in three ways: by the commands `rt check` and `rt must-fail`, by the lines that these print (`OUTCOME`,
`UNREAD`, `NOT_PROVED`, `PROOF_ERROR`, `NAMES_GONE`), and by where they keep what they made (`KEPT` and `LIBRARY`).
"""
import collections
import concurrent.futures
import contextlib
import dataclasses
import functools
import hashlib
import os
import pathlib
import re
import shutil
import subprocess
import tempfile
import threading

import files
from mutation_files import OUTCOME, TOP, crates, mutations_of

TOGETHER = 10
PARTS = ("src", "specs", "proofs")
KEPT, LIBRARY = "out/incremental", "out/rlib"
FUNCTION = re.compile(r"( *)(?:pub(?:\(\w+\))? )?(?:const )?fn (\w+)")
UNREAD = re.compile(r"(?:\./)?(?:src|specs)/\S+:\d+:\d+: error")
NOT_PROVED = r"fn {path}: (?:not proved$|no proof: expected answers in .*`search` did not prove)"
PROOF_ERROR = r"(?:\./)?proofs/{folders}(?:\w+/)*(?:{function}|\+\w+)/\w+\.antt:\d+:\d+: error"
NAMES_GONE = re.compile(r"has no field|is not in scope|has no `|was not admitted")
REFUSED, MISSED, BAD, UNTRIED = "refused, as it must be", "NOT REFUSED", "BAD EDIT", "NOT TRIED"


def processors():
    """How many processors this process may use."""
    return len(os.sched_getaffinity(0)) if hasattr(os, "sched_getaffinity") else os.cpu_count() or 1


@dataclasses.dataclass(frozen=True)
class Place:
    """A function of a file of src/, the only one of its name there, and whether it may be proved in one piece with others."""

    file: str
    function: str
    is_in_cycle: bool

    def is_apart(self, other):
        """Whether a check with mutations of both says which of them it refuses."""
        return self.function != other.function and not (self.is_in_cycle and other.is_in_cycle)

    def told(self, crate, lines):
        """The line which says that this function is not proved and why, or nothing."""
        modules = pathlib.Path(self.file).with_suffix("").parts[1:]
        modules = [] if modules in (("lib",), ("main",)) else modules
        path = "::".join([crate.name, *modules]) + rf"::(?:\w+::)*{self.function}"
        said = next((line for line in lines if re.match(NOT_PROVED.format(path=path), line)), None)
        if said is None or not said.endswith(": not proved"):
            return said
        error = re.compile(PROOF_ERROR.format(folders="".join(f"{module}/" for module in modules), function=self.function))
        return next((line for line in lines if error.match(line) and not NAMES_GONE.search(line)), None)


def function_at(lines, number):
    """The name of the function in which a line stands, or nothing."""
    for start in range(number, -1, -1):
        found = FUNCTION.match(lines[start])
        if found:
            has_ended = found[1] + "}" in lines[start:number]
            return None if has_ended else found[2]
    return None


def place_of(crate, mutation):
    """The function that a mutation changes; nothing if it changes several, or something else."""
    places = set()
    for file, old, _ in mutation.pieces():
        text = files.read(crate / file)
        lines = text.splitlines()
        names = [found[2] for found in map(FUNCTION.match, lines) if found]
        name = function_at(lines, text[: text.find(old)].count("\n"))
        if not file.startswith("src/") or names.count(name) != 1:
            return None
        places.add(Place(file, name, "#[cycle" in text))
    return places.pop() if len(places) == 1 else None


def grouped(crate, mutations):
    """Groups of at most TOGETHER mutations with their places, each for one check. What has no place is in none."""
    groups = []
    for mutation in mutations:
        place = place_of(crate, mutation)
        if place is None:
            continue
        fits = lambda group: len(group) < TOGETHER and all(place.is_apart(other) for _, other in group)
        group = next(filter(fits, groups), None)
        if group is None:
            group = []
            groups.append(group)
        group.append((mutation, place))
    return groups


@functools.lru_cache(maxsize=None)
def lines_of_crates():
    """What stands after the name of each crate in crates.txt."""
    return dict(re.findall(r"^(\w+):(.*)$", files.text("crates.txt"), re.M))


def crates_used(name):
    """The names of the crates of the repository that a crate uses."""
    return [used for used in lines_of_crates()[name].split() if used in lines_of_crates()]


@functools.lru_cache(maxsize=None)
def crates_below(name):
    """The names of the crates that a crate uses and of those that these use, each once."""
    every = [other for used in crates_used(name) for other in (*crates_below(used), used)]
    return tuple(dict.fromkeys(every))


@functools.lru_cache(maxsize=None)
def sum_of_kit():
    return hashlib.sha256(subprocess.run(["rt", "version"], check=True, stdout=subprocess.PIPE).stdout).hexdigest()


@functools.lru_cache(maxsize=None)
def sum_of(name):
    """A checksum of the kit, and of the files of a crate and of those below it."""
    below = [sum_of(used) for used in crates_used(name)]
    made = hashlib.sha256(repr((sum_of_kit(), lines_of_crates()[name], below)).encode())
    for part in PARTS:
        for path in sorted(filter(pathlib.Path.is_file, (TOP / "crates" / name / part).rglob("*"))):
            made.update(repr((str(path.relative_to(TOP)), path.read_bytes())).encode())
    return made.hexdigest()


class Record:
    """What was tried, in a file with a line for each mutation that a check has settled."""

    def __init__(self, path):
        self.path, self.lock, self.outcomes = path, threading.Lock(), {}
        path.parent.mkdir(exist_ok=True)
        if path.exists():
            for line in files.read(path).splitlines():
                key, _, _, outcome, _ = line.split("\t")
                self.outcomes[key] = outcome

    def key(self, crate, mutation):
        return hashlib.sha256(repr((sum_of(crate.name), mutation.name, mutation.text)).encode()).hexdigest()

    def outcome(self, crate, mutation):
        return self.outcomes.get(self.key(crate, mutation), UNTRIED)

    def add(self, crate, mutation, outcome, said):
        """Notes what a try came to, and what was said of it."""
        key = self.key(crate, mutation)
        if outcome != UNTRIED:
            with self.lock, open(self.path, "a", encoding="utf-8") as file:
                self.outcomes[key] = outcome
                print(key, crate.name, mutation.name, outcome, re.sub(r"\s+", " ", said), sep="\t", file=file)


def link_or_copy(one, other):
    """Gives a file that is never changed a second name, in another folder."""
    try:
        os.link(one, other)
    except OSError:
        shutil.copy2(one, other)


def copied(crate, room):
    """Copies a crate and those below it to a folder, with what is kept of them, and gives the crate's folder there."""
    names = [*crates_below(crate.name), crate.name]
    files.write(room / "crates.txt", "".join(f"{name}:{lines_of_crates()[name]}\n" for name in names))
    shutil.copy2(TOP / "HANDLES", room)
    for name in names:
        folder, copy = TOP / "crates" / name, room / "crates" / name
        for part in filter(lambda part: (folder / part).is_dir(), PARTS):
            shutil.copytree(folder / part, copy / part)
        if (folder / LIBRARY).is_dir():
            shutil.copytree(folder / LIBRARY, copy / LIBRARY, copy_function=link_or_copy)
    if (crate / KEPT).is_dir():
        shutil.copytree(crate / KEPT, room / "crates" / crate.name / KEPT)
    return room / "crates" / crate.name


def ran(words, folder):
    """Runs a command that works at one thing at a time, and gives its status and the lines that it prints."""
    settings = {**os.environ, "RT_JOBS": "1"}
    streams = {"stdin": subprocess.DEVNULL, "stdout": subprocess.PIPE, "stderr": subprocess.STDOUT, "text": True, "errors": "replace"}
    done = subprocess.run(words, cwd=folder, env=settings, check=False, **streams)
    return done.returncode, done.stdout.splitlines()


@contextlib.contextmanager
def changed(folder, texts):
    """While this lasts, files of a folder have these texts."""
    before = {file: files.read(folder / file) for file in texts}
    try:
        for file, text in texts.items():
            files.write(folder / file, text)
        yield
    finally:
        for file, text in before.items():
            files.write(folder / file, text)


def try_group(record, crate, group):
    """Tries mutations of different functions in one check of a copy of their crate, and notes those that it refuses."""
    texts, tried = {}, []
    for mutation, place in group:
        after, fault = mutation.applied(crate, texts)
        if fault is None:
            texts = after
            tried.append((mutation, place))
    with changed(crate, texts):
        _, lines = ran(["rt", "check", "--jobs", "1"], crate)
    if any(map(UNREAD.match, lines)) or not any(line.startswith("logic=not-proved") for line in lines):
        return
    for mutation, place in tried:
        said = place.told(crate, lines)
        if said is not None:
            record.add(crate, mutation, REFUSED, f"one of {len(tried)}: {said}")


def try_alone(record, crate, mutations):
    """Tries each of these mutations by itself, on a copy of their crate, and notes what rt says of it."""
    (crate / "must-fail").mkdir()
    for mutation in mutations:
        files.write(crate / "must-fail" / f"{mutation.name}.edit", mutation.text)
    _, lines = ran(["rt", "must-fail", crate.name], crate.parent.parent)
    told = {found[1]: found for found in map(OUTCOME.match, lines) if found}
    if not told:
        print(f"{crate.name}: {' '.join(lines[-1:])}", flush=True)
    for mutation in filter(lambda mutation: mutation.name in told, mutations):
        record.add(crate, mutation, told[mutation.name][2], told[mutation.name][3])


def left(record, crate):
    """The mutations of a crate of which nothing is known."""
    return [mutation for mutation in mutations_of(crate) if record.outcome(crate, mutation) == UNTRIED]


def try_crate(record, crate, preparing, is_proved):
    """Tries the mutations of a crate of which nothing is known. Gives whether the crate is proved, as far as that was needed."""
    if not left(record, crate):
        return True
    with tempfile.TemporaryDirectory(prefix="mutations-") as name:
        with preparing:
            if not is_proved and ran(["rt", "check"], crate)[0] != 0:
                return False
            copy = copied(crate, pathlib.Path(name))
        for group in grouped(copy, left(record, crate)):
            try_group(record, copy, group)
        alone = left(record, crate)
        if alone:
            try_alone(record, copy, alone)
    return True


def tell(record, crate, is_proved):
    """Prints the mutations of a crate that are not refused, and how many are; says whether all are."""
    outcomes = {mutation.name: record.outcome(crate, mutation) for mutation in mutations_of(crate)}
    lines = [f"    {name}: {outcomes[name]}" for name in sorted(outcomes) if outcomes[name] != REFUSED]
    counts = collections.Counter(outcomes.values())
    bad = counts[BAD] + counts[UNTRIED]
    note = "" if is_proved else " (the crate is not proved as it stands)"
    lines.append(f"{crate.name}: {counts[REFUSED]} refused, {counts[MISSED]} not refused, {bad} bad{note}")
    print("\n".join(lines), flush=True)
    return counts[REFUSED] == len(outcomes)


def try_all(lanes, is_proved):
    """Tries all mutations of all crates, so many crates at a time, lowest first; the status is 0 if each is refused."""
    record, preparing = Record(TOP / "out" / "mutations.tsv"), threading.Lock()
    with concurrent.futures.ThreadPoolExecutor(lanes) as pool:
        work = lambda crate: tell(record, crate, try_crate(record, crate, preparing, is_proved))
        results = list(pool.map(work, crates()))
    return 0 if all(results) else 1
