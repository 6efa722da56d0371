"""Tries planted bugs with the prover, those of different functions in one check of a copy of their crate.

In the copy every other function has a hole in place of its proof: to its callers a function is what its contract says, so the
proof of the changed function is checked and nothing else. A change alters the names of facts, as `if-n-le-MAX` becomes
`if-n-lt-MAX`, and may take goals away. Where a proof names what is gone, it is given the nearest name that is there, answers to
goals that are gone are left out, and it is checked again; at last its answers that still name what is gone are left out too.

This depends on the kit in two ways: by `rt check --allow-holes --only`, and by the lines that it prints (the patterns from
`FAULT` to `ACCEPTED`). Another program may stand for `rt check`: it is called with the folder of the copy, the name of the crate
and the same words.
"""
import contextlib
import pathlib
import re
import shutil
import tempfile

import files
from mutation_checks import PARTS, copied, crates_below, lines_of_crates, ran
from mutation_files import TOP
from plant_bodies import bodies_of, body_named, line_of
from plant_specs import place_of, touched

TOGETHER = 12
MENDINGS = 2
REFUSED, COMPILER, SURVIVES, NAME, OPEN_YET = "refused", "refused by the compiler", "survives", "only by a name", "not settled"
STUB = "use Rattle.{crate}.proofs.{path}.Statement.{{statement}}\n\npub {name}_spec : {{M : Type 1}} → statement M\n{name}_spec = ?\n"
FAULT = re.compile(r"(?:\./)?(src/\S+?):(\d+):\d+: error(.*)")
STANDS = re.compile(r"(?:\./)?(proofs/\S+?\.antt):\d+:\d+: error: (?:`([^`]*)`: )?(.*)")
OPEN = re.compile(r"`search` did not prove (.*)")
GONE = re.compile(r"has no field|is not in scope|has no `|was not admitted|is no name|no goal")
NEAREST = re.compile(r"has no field `([^`]+)` \(nearest: \.([^\s,)]+)")
NO_GOAL = re.compile(r"module `\S+\.(?:Goals|Given)` has no `([^`]+)`")
ANSWER = re.compile(r"(?:--.*\n)*(?:(?:abbrev|total|unfoldable|pub) )*(\S+) :")
ILL_TYPED = re.compile(r"(?:\./)?specs/\S+:\d+:\d+: error: (.*)")
BROKEN = re.compile(r"fn (\S+): (?:not proved|no proof)(.*)")
UNKNOWN = re.compile(r"has no function `([^`]+)`")
ACCEPTED = re.compile(r"(?:proved|no holes|depends on a hole in)\b")


class PlantError(Exception):
    """Why plants cannot be tried."""


def proof_of(body):
    """The folder of a function's proof, or of the proof of the cycle of calls in which it is."""
    *owner, name = body.path.split("::")
    return "/".join(["proofs", *owner, f"+{body.cycle}" if body.cycle else name])


def can_be_stub(body):
    """Whether a hole may stand for the proof of a function."""
    return not body.cycle and (not body.is_of_trait or (TOP / "crates" / body.crate / proof_of(body)).is_dir())


class Copy:
    """A copy of a crate, in which all functions have holes in place of their proofs but for those that are tried."""

    def __init__(self, crate, room, prover):
        if not prover and not shutil.which("rt"):
            raise PlantError("there is no rt")
        self.crate, self.room, self.prover, self.has_holes = crate, room, prover, True
        room.mkdir()
        self.folder = copied(TOP / "crates" / crate, room)

    def restore(self):
        """Gives the copy the code, the definitions and the proofs of the crate again."""
        for part in PARTS:
            shutil.rmtree(self.folder / part, ignore_errors=True)
            if (TOP / "crates" / self.crate / part).is_dir():
                shutil.copytree(TOP / "crates" / self.crate / part, self.folder / part)

    def put_holes(self, but):
        """Puts holes in place of the proofs of all other functions, unless the prover does not take holes in this crate."""
        for body in bodies_of(self.crate) if self.has_holes else ():
            if body not in but and can_be_stub(body):
                folder, parts = self.folder / proof_of(body), body.path.split("::")
                folder.mkdir(parents=True, exist_ok=True)
                for name in ("Answers.antt", "Invariants.antt"):
                    (folder / name).unlink(missing_ok=True)
                files.write(folder / "Proof.antt", STUB.format(crate=self.crate, path=".".join(parts), name=parts[-1]))

    def change(self, plant, number):
        """Puts a changed line, which has this number, into the copy."""
        path = self.room / "crates" / plant.crate / plant.file
        lines = files.read(path).split("\n")
        blank = lines[number][: len(lines[number]) - len(lines[number].lstrip())]
        lines[number] = blank + plant.new if plant.new else ""
        files.write(path, "\n".join(lines))

    def checked(self, bodies):
        """What the prover prints of these functions."""
        only = [word for body in bodies for word in ("--only", body.full)]
        words = [str(self.prover), str(self.room), self.crate] if self.prover else ["rt", "check"]
        return ran([*words, "--jobs", "1", "--allow-holes", *only], self.folder)[1]


@contextlib.contextmanager
def copy_of(crate, prover):
    with tempfile.TemporaryDirectory(prefix="plants-") as name:
        yield Copy(crate, pathlib.Path(name) / "plants", prover)


def grouped(plants):
    """Groups of changes of different functions that are not proved in one piece."""
    groups = []
    for plant, body in plants:
        apart = lambda group, body=body: all(proof_of(other) != proof_of(body) for _, other in group)
        group = next((group for group in groups if len(group) < TOGETHER and apart(group)), None)
        if group is None:
            groups.append(group := [])
        group.append((plant, body))
    return groups


def own_errors(lines, body):
    """The errors in a function's own proof: each with its goal."""
    found = (STANDS.match(line) for line in lines)
    return [(error[2] or "", error[3]) for error in found if error and error[1].startswith(proof_of(body) + "/")]


def ruled(lines, body):
    """What the prover says of a changed function, and of which goal; nothing if that is not settled."""
    owner, _, name = body.full.rpartition("::")
    own = [line.split(": ", 1)[1] for line in lines if re.match(rf"fn {re.escape(body.full)}: ", line)]
    inner = [line for line in lines if re.match(rf"fn {re.escape(owner)}::fn::{name}::\S+: (?:not proved|no proof)", line)]
    errors = own_errors(lines, body)
    if inner:
        return REFUSED, f"a closure: {inner[0][:120]}"
    if not own:
        return None
    if open_goals := OPEN.search(own[0]):
        return REFUSED, open_goals[1].split(";")[0].replace("`", "").strip()[:120]
    held = [goal for goal, said in errors if not GONE.search(said)]
    if held or errors:
        return (REFUSED, held[0]) if held else (NAME, errors[0][1][:120])
    return (SURVIVES, "") if ACCEPTED.match(own[0]) else None


def mended(copy, lines, body, is_last):
    """Whether a function's proof could be mended: names that are gone are replaced by the nearest ones, and answers to goals that
    are gone are left out; at last also those that still name what is gone, so that tactics alone try these goals."""
    errors = own_errors(lines, body)
    renamed = {found[1]: found[2] for _, said in errors if (found := NEAREST.search(said)) and not is_last}
    dropped = {found[1] for _, said in errors if (found := NO_GOAL.search(said))}
    dropped |= {goal for goal, _ in errors if is_last}
    for path in (copy.folder / proof_of(body)).glob("*.antt") if renamed or dropped else ():
        text = files.read(path)
        for old, new in renamed.items():
            text = re.sub(rf"(?<=\.){re.escape(old)}(?![\w-])", lambda _, new=new: new, text)
        blocks = [block for block in text.split("\n\n") if not (found := ANSWER.match(block)) or found[1] not in dropped]
        files.write(path, "\n\n".join(blocks) + "\n")
    return bool(renamed or dropped)


def faults_in(lines, group):
    """What of a group the compiler refuses, or the prover cannot try, with what is said of it."""
    places = [(found[1], int(found[2]) - 1, found[3]) for line in lines if (found := FAULT.match(line))]
    unknown = {found[1] for line in lines if (found := UNKNOWN.search(line))}
    for plant, body in group:
        said = next((said for file, number, said in places if body.holds(file, number)), None)
        if said is not None:
            yield plant, COMPILER, said[:120]
        elif body.full in unknown:
            yield plant, OPEN_YET, "the prover does not know the function"


def without_faults(copy, group, note):
    """Checks a group, again without what the compiler refuses of it, which is noted; gives what is printed and what was checked."""
    while group:
        copy.restore()
        copy.put_holes([body for _, body in group])
        for plant, body in group:
            copy.change(plant, line_of(plant, body))
        lines = copy.checked([body for _, body in group])
        bad = list(faults_in(lines, group))
        if not bad and copy.has_holes and not has_ended(lines):
            copy.has_holes = False
            continue
        if not bad:
            sure_of_end(copy, lines)
            return lines, group
        for fault in bad:
            note(*fault)
        group = [(plant, body) for plant, body in group if plant not in {fault[0] for fault in bad}]
    return [], []


def has_ended(lines):
    """Whether the prover came to the end of a check."""
    return any(line.startswith("only=") for line in lines)


def sure_of_end(copy, lines):
    """Sees to it that the prover came to the end of a check."""
    if not has_ended(lines):
        raise PlantError(f"{copy.crate}: {' '.join(lines[-1:])[:300]}")


def try_group(copy, group, note):
    """Tries changes of different functions in one check. Notes what is settled, and gives what is not."""
    lines, group = without_faults(copy, group, note)
    told = {plant: ruled(lines, body) for plant, body in group}
    for turn in range(MENDINGS):
        by_name = [(plant, body) for plant, body in group if told[plant] and told[plant][0] == NAME]
        again = [(plant, body) for plant, body in by_name if mended(copy, lines, body, turn == MENDINGS - 1)]
        if not again:
            break
        lines = copy.checked([body for _, body in again])
        told.update({plant: ruled(lines, body) or told[plant] for plant, body in again})
    for plant, outcome in told.items():
        if outcome:
            note(plant, *outcome)
    return [(plant, body) for plant, body in group if told[plant] is None]


def try_all(crate, plants, prover, note):
    """Tries all these changes of a crate: together, and what that does not settle alone."""
    pairs = [(plant, body_named(crate, plant.function)) for plant in plants]
    with copy_of(crate, prover) as copy:
        left = [pair for group in grouped(pairs) for pair in try_group(copy, group, note)]
        for pair in left:
            if try_group(copy, [pair], note):
                note(pair[0], OPEN_YET, "")


def broken(lines):
    """What the prover says of a changed definition: it has no meaning, or the first proof that it breaks; nothing if it breaks none."""
    for line in lines:
        if found := ILL_TYPED.match(line):
            return COMPILER, found[1][:120]
        if found := STANDS.match(line):
            return REFUSED, f"{found[1]}: {found[2] or found[3][:80]}"
        if found := BROKEN.match(line):
            goals = OPEN.search(found[2])
            return REFUSED, f"{found[1]}: {goals[1].split(';')[0][:100] if goals else found[2][:100]}"
    return None


def try_on(copy, change, bodies):
    """What the prover says of a changed definition by the proofs of these functions; nothing if all hold."""
    for first in range(0, len(bodies), TOGETHER):
        group = bodies[first : first + TOGETHER]
        copy.restore()
        copy.put_holes(group)
        copy.change(change, place_of(change))
        lines = copy.checked(group)
        if outcome := broken(lines):
            return outcome
        sure_of_end(copy, lines)
    return None


def try_definition(crate, change, prover, note):
    """Tries a changed definition on the functions whose contracts it touches, of its own crate and then of those above, until a
    proof breaks."""
    for each in [crate, *(other for other in lines_of_crates() if crate in crates_below(other))]:
        bodies = touched(change, each)
        if bodies:
            with copy_of(each, prover) as copy:
                outcome = try_on(copy, change, bodies)
            if outcome:
                return note(change, *outcome)
    return note(change, SURVIVES, "")
