"""Planted bugs in definitions: each change of one line of a definition that the contract of `run` reaches, and the functions
whose contracts it can touch.

A change keeps the types, as far as can be seen from the line: a bound is moved by one, a case (a fact of a record, a part of a
conjunction or of a choice) is left out, or a relation is turned.
"""
import functools
import random
import re

import trusted
from mutation_checks import crates_below
from plant_bodies import Plant, bodies_of, lines_of

KINDS = ("bound", "case", "relation")
NUMBER = re.compile(r"(?<![\w.◌-])(?<!Type )(?<!\{)\d+(?![\w.])")
FIELD = re.compile(r"(\s*(?:pub )?[^\W\d]\w* : )(.+)$")
FACT = re.compile(r" [≡≢≤<] |→ ⊥|^\(?(?:Is|Has|Are|If|On|All)[A-Z_ ]?|^All ")
SIDES = re.compile(r"(.*?(?:: |= |→ |\())([\w.]+) ([≤<]) ([\w.]+)(?=$|\)| →| ×)(.*)$")
CASE = re.compile(r"([\w.]+) (.*?) = (.+)$")
WORDS = re.compile(r"[^\s(){}\[\],;.]+")


@functools.lru_cache(maxsize=None)
def files_and_reached():
    files = trusted.definitions()
    return files, trusted.reached(files, trusted.clauses(), trusted.COMMANDS)


def imports_operator(lines, operator):
    return any(f"◌{operator}◌" in line for line in lines if line.startswith("use "))


def bounds(line, lines):
    for found in NUMBER.finditer(line):
        for other in (int(found[0]) + 1, int(found[0]) - 1):
            if other >= 0:
                yield line[: found.start()] + str(other) + line[found.end() :]
    for one, other in (("≤", "<"), ("<", "≤")):
        if imports_operator(lines, other):
            yield from (line[: found.start()] + f" {other} " + line[found.end() :] for found in re.finditer(f" {one} ", line))


def outside(line, sign):
    """The places of a sign that stands outside of brackets, right of the first `=`, or else of the first `:`."""
    begin = max(line.find(" = ") if " = " in line else line.find(" : "), 0)
    closed = lambda text: all(text.count(one) == text.count(other) for one, other in ("()", "{}"))
    return [at for at in range(begin, len(line)) if line.startswith(sign, at) and closed(line[begin:at])]


def cases(line, is_field):
    found = FIELD.match(line)
    if is_field and found and FACT.search(found[2]):
        yield found[1] + "Unit {0}"
    for at in outside(line, " × ")[-1:]:
        yield line[:at] + " × Unit {0}"
    for sign in (" || ", " && "):
        for at in outside(line, sign)[-1:]:
            yield line[:at]


def relations(line, below, lines):
    for one, other in (("true", "false"), ("false", "true")):
        if any(re.search(rf"[{{ ]{other}[,}}]", each) for each in lines if each.startswith("use ")):
            words = re.compile(rf"(?<![\w.]){one}(?![\w.])")
            yield from (line[: found.start()] + other + line[found.end() :] for found in words.finditer(line, max(line.find(" = "), 0)))
    for one, other in (("||", "&&"), ("&&", "||")):
        if imports_operator(lines, other):
            yield from (line[: found.start()] + f" {other} " + line[found.end() :] for found in re.finditer(re.escape(f" {one} "), line))
    if sides := SIDES.match(line):
        yield f"{sides[1]}{sides[4]} {sides[3]} {sides[2]}{sides[5]}"
    here, next_case = CASE.match(line), CASE.match(below)
    if here and next_case and here[1] == next_case[1] and here[3] != next_case[3] and not set(WORDS.findall(next_case[2])) & set(WORDS.findall(next_case[3])):
        yield f"{here[1]} {here[2]} = {next_case[3]}"


def changes_in(crate, module, file, item):
    """The changes of a definition, which is an item of a file of definitions."""
    name, path = f"specs/{module}.antt", file.items[item]
    lines = lines_of(crate, name)
    seen, function = {}, (path.names or ["?"])[0]
    for number in range(path.first, path.end):
        line, below = lines[number], lines[number + 1] if number + 1 < path.end else ""
        old = line.strip()
        seen[old] = seen.get(old, 0) + 1
        is_head = trusted.HEAD.match(file.lines[number]) is not None
        if not old or old.startswith("--") or is_head and " = " not in line:
            continue
        is_field = path.is_record and not (below.startswith(line[: len(line) - len(line.lstrip())] + " "))
        found = {"bound": bounds(line, lines), "case": cases(line, is_field), "relation": relations(line, below, lines)}
        for kind, news in found.items():
            yield from (Plant(crate, name, function, kind, old, seen[old], new.strip()) for new in news)


def changes_of(crate):
    """All changes of one line in the definitions of a crate that `run` reaches."""
    files, found = files_and_reached()
    for (owner, module), items in sorted(found.items()):
        if owner == crate:
            for item in sorted(items):
                yield from changes_in(crate, module, files[owner, module], item)


def item_of(change):
    """The file and the item of a changed definition, or nothing if it is gone."""
    module = change.file.removeprefix("specs/").removesuffix(".antt")
    file = files_and_reached()[0].get((change.crate, module))
    found = file and next((item for item in file.items if change.function in (item.names or ["?"])[:1]), None)
    return (file, found) if found else (None, None)


def place_of(change):
    """The number of the line that a change is of, or nothing if it is gone."""
    _, item = item_of(change)
    lines = lines_of(change.crate, change.file) if item else ()
    found = [number for number in range(item.first, item.end) if lines[number].strip() == change.old] if item else []
    return found[change.nth - 1] if change.nth <= len(found) else None


def names_by(change, crates):
    """The names that a changed definition defines, then those in these crates that name one of them, and so on."""
    names = [set(item_of(change)[1].names)]
    definitions = [(file, item) for (crate, _), file in files_and_reached()[0].items() if crate in crates for item in range(len(file.items))]
    while names[-1]:
        known = set().union(*names)
        names.append({name for file, item in definitions if file.words(item, ()) & known for name in file.items[item].names} - known)
    return names


def touched(change, crate):
    """The functions of a crate whose contracts a changed definition touches, those first that name it."""
    left, found = list(bodies_of(crate)), []
    for names in names_by(change, {*crates_below(crate), crate}):
        words = lambda body: set(WORDS.findall(" ".join(lines_of(body.crate, body.file)[body.first : body.start])))
        found += [body for body in left if words(body) & names]
        left = [body for body in left if body not in found]
    return found


def drawn_changes(seed, count):
    """So many changes of definitions, of each crate in turn and of each kind in turn."""
    draw, left = random.Random(f"{seed} definitions"), {}
    for crate in dict.fromkeys(crate for crate, _ in sorted(files_and_reached()[1])):
        every = list(changes_of(crate))
        draw.shuffle(every)
        kinds = draw.sample(KINDS, len(KINDS))
        left[crate] = (every, kinds)
    taken = []
    while len(taken) < count and any(every for every, _ in left.values()):
        for every, kinds in left.values():
            if every and len(taken) < count:
                used = {change.function for change in taken}
                change = min(every, key=lambda change: (change.function in used, kinds.index(change.kind)))
                every.remove(change)
                kinds.append(kinds.pop(kinds.index(change.kind)))
                taken.append(change)
    return taken
