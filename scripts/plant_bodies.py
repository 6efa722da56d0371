"""Planted bugs: the functions of src, and each change of one line of a body by an operator of mutation.

A change keeps the number of lines, so that a message of the compiler still leads to the function. Contracts, definitions, tests,
patterns of types and calls that are there only for their contract (`let _x = ..`, `.._law()`) are never changed.
"""
import dataclasses
import functools
import random
import re

import files
from mutation_checks import FUNCTION, lines_of_crates
from mutation_files import TOP

# crates whose code is tests or benchmarks
WITHOUT_CODE = ("safl_tests", "safl_cases", "safl_net_tests", "safl_bench")
KINDS = ("sum", "order", "logic", "index", "constant", "branch", "statement", "arguments", "return")
EXCHANGED = {
    "sum": ((" + ", " - "), (" - ", " + "), (" += ", " -= "), (" -= ", " += ")),
    "order": ((" < ", " <= "), (" <= ", " < "), (" > ", " >= "), (" >= ", " > ")),
    "logic": ((" && ", " || "), (" || ", " && ")),
    "branch": ((" == ", " != "), (" != ", " == ")),
}
TEXT = re.compile(r"""b?"(?:\\.|[^"\\])*"|b?'(?:\\[^']+|[^\\'])'|//.*$""")
IMPL = re.compile(r"impl(?:<.*?>)? (?:(\w+)(?:<(.*)>)? for )?(\w+)(?:<.*>)? \{$")
TYPE = re.compile(r"^(?:pub(?:\(\w+\))? )?(?:struct|enum) (\w+)", re.M)
INDEX = re.compile(r"(?<=[\w\])])\[([^\[\]]+)\]")
RANGE = re.compile(r"(.*)\.\.(=?)(.*)$")
NUMBER = re.compile(r"(?<![\w.])\d[\d_]*(?!\w|\.\w)")
NAMED = re.compile(r"(?<![\w:.])[A-Z][A-Z\d_]{2,}(?!\w|::|!|\()")
IF = re.compile(r"(\bif )(?!let )(.+)( \{| =>)$")
ASSIGNING_ARM = re.compile(r"=> [\w.]+(?:\[.*\])? [-+*|&^]?= [^,]+,$")
NOT_LEFT_OUT = re.compile(r"\s*(?:let|return|break|continue|const|use|ghost|prove!|[)}\].?]|\w*_law\()")
BEGINS_STATEMENT = re.compile(r"\s*(?:(?:'\w+: )?(?:for|while)|if|let|match|return)\b")
CALL = re.compile(r"(?<![\w!])(\w+)\(")
# what a function may give that gives up, by the type of its result
GIVEN_UP = (
    (r"bool$", "true"),
    (r"bool$", "false"),
    (r"(?:u8|u16|u32|u64|u128|usize|Raw)$", "0"),
    (r"Option<", "None"),
    (r"Result<\(\), ", "Ok(())"),
)


@dataclasses.dataclass(frozen=True)
class Body:
    """A function of a file: its path in the crate, its line, its body's first line and the line behind it, its signature, the name
    of the cycle of calls with which it is proved in one piece, or nothing, and whether a trait asks for it."""

    crate: str
    file: str
    path: str
    first: int
    start: int
    end: int
    parameters: tuple
    result: str
    cycle: str
    is_of_trait: bool

    @property
    def full(self):
        return f"{self.crate}::{self.path}"

    def holds(self, file, number):
        return self.file == file and self.first <= number < self.end


@dataclasses.dataclass(frozen=True)
class Plant:
    """A changed line of a body: the old line, which of the equal lines of the body it is, and the new one."""

    crate: str
    file: str
    function: str
    kind: str
    old: str
    nth: int
    new: str

    @property
    def key(self):
        return dataclasses.astuple(self)


def masked(line):
    """The line, with blanks in place of texts, characters and comments."""
    return TEXT.sub(lambda found: " " * len(found[0]), line)


def split(text):
    """The parts of a text between its commas outside of brackets, each with where it begins and ends."""
    depth, begin, parts = 0, 0, []
    for place, sign in enumerate(text):
        depth += (sign in "([{<") - (sign in ")]}" or sign == ">" and text[place - 1] not in "-=")
        if sign == "," and depth == 0:
            parts.append((begin, place))
            begin = place + 1
    return [(text[one:end].strip(), one, end) for one, end in [*parts, (begin, len(text))] if text[one:end].strip()]


def closing(text, start):
    """Where the bracket closes that opens just before this place, or nothing."""
    depth = 1
    for place in range(start, len(text)):
        depth += (text[place] in "([{") - (text[place] in ")]}")
        if depth == 0:
            return place
    return None


def signature_of(text):
    """The names and types of the parameters, and the type of the result."""
    start = re.search(r"fn \w+(?:<.*?>)?\(", text).end()
    end = closing(text, start)
    pairs = [part.split(": ", 1) for part, _, _ in split(text[start:end])]
    parameters = tuple((pair[0].removeprefix("mut "), pair[1]) for pair in pairs if len(pair) == 2)
    found = re.match(r"\) -> (.*?)(?: \{| where\b|\n|$)", text[end:])
    return parameters, found[1] if found else ""


def body_lines(lines, first, indent):
    """The line at which the body of a function begins, and the one that ends it, or nothing."""
    for start in range(first, len(lines)):
        line, is_head = lines[start], start == first or lines[start].startswith(indent + ")")
        if line in (indent + "{", indent + "{}") or line.endswith(" {") and is_head:
            break
        if not line or line.endswith(";") or line.endswith(" {}") and is_head:
            return None
    if lines[start].endswith("{}"):
        return start, start
    return start + 1, next(place for place in range(start + 1, len(lines)) if lines[place] == indent + "}")


def impl_of(line):
    """The name that the prover gives an impl, its type with the trait and the type that this is given; the type alone; and whether
    it is of a trait."""
    found = IMPL.match(line)
    if not found:
        return None, None, False
    trait, given, kind = found.groups()
    return kind + (trait or "").replace("Drop", "") + "".join(re.findall(r"^\w+", given or "")), kind, trait is not None


def modules_of(file):
    """The modules of a crate that lead to a file of src."""
    return () if file.stem in ("lib", "main") else file.with_suffix("").parts[1:]


@functools.lru_cache(maxsize=None)
def modules_of_types(crate):
    """The modules of each type that a crate declares."""
    top = TOP / "crates" / crate
    paths = [path.relative_to(top) for path in (top / "src").rglob("*.rt")]
    return {name: modules_of(path) for path in paths for name in TYPE.findall(files.read(top / path))}


def cycle_of(name, is_method, above, lines):
    """The name of the cycle of calls in which a function is: the one that stands above it, or its own if it calls itself."""
    found = re.search(r"#\[cycle\((\w+)\)\]", above)
    calls = re.compile(rf"\b(?:self\.|Self::){name}\(" if is_method else rf"(?<![\w.:]){name}\(")
    return found[1] if found else name if any(calls.search(masked(line)) for line in lines) else ""


def bodies_in(crate, path):
    """The functions of a file that are no tests."""
    lines = files.read(path).splitlines()
    file = path.relative_to(TOP / "crates" / crate)
    impl, is_of_trait, modules, last = None, False, (), -1
    for first, line in enumerate(lines):
        if line.startswith("impl") or line == "}":
            impl, kind, is_of_trait = impl_of(line)
            modules = modules_of_types(crate).get(kind, modules_of(file))
        found = FUNCTION.match(line)
        places = body_lines(lines, first, found[1]) if found and first > last else None
        if not places:
            continue
        last = places[1]
        above = "".join(lines[max(first - 4, 0) : first]).rpartition(";")[2].rpartition("}")[2]
        if "#[test]" not in above:
            is_method = bool(found[1] and impl)
            name = "::".join([*modules, impl, found[2]] if is_method else [*modules_of(file), found[2]])
            cycle = cycle_of(found[2], is_method, above, lines[slice(*places)])
            signature = signature_of("\n".join(lines[first : places[0]]))
            yield Body(crate, str(file), name, first, *places, *signature, cycle, is_method and is_of_trait)


@functools.lru_cache(maxsize=None)
def bodies_of(crate):
    """All functions of a crate."""
    return tuple(body for path in sorted((TOP / "crates" / crate / "src").rglob("*.rt")) for body in bodies_in(crate, path))


@functools.lru_cache(maxsize=None)
def lines_of(crate, file):
    return tuple(files.read(TOP / "crates" / crate / file).splitlines())


@functools.lru_cache(maxsize=None)
def types_by_name():
    """The types of the parameters of each function whose name only one function of the repository has."""
    found = {}
    for crate in lines_of_crates():
        for body in bodies_of(crate):
            found.setdefault(body.path.rpartition("::")[2], set()).add(tuple(kind for _, kind in body.parameters))
    return {name: kinds.pop() for name, kinds in found.items() if len(kinds) == 1}


def by_exchange(line, kind):
    for old, new in EXCHANGED.get(kind, ()):
        for found in re.finditer(re.escape(old), masked(line)):
            yield line[: found.start()] + new + line[found.end() :]


def indices(line):
    for found in INDEX.finditer(masked(line)):
        inner = line[found.start(1) : found.end(1)]
        ends = RANGE.match(inner)
        if inner == ".." or ends and ends[2]:
            continue
        changed = f"{inner} + 1" if not ends else f"{ends[1]}..{ends[3]} + 1" if ends[3] else f"{ends[1]} + 1.."
        yield line[: found.start(1)] + changed + line[found.end(1) :]


def constants(line):
    for found in NUMBER.finditer(masked(line)):
        number = int(found[0].replace("_", ""))
        for other in (number + 1, number - 1):
            if other >= 0:
                yield line[: found.start()] + str(other) + line[found.end() :]
    for found in NAMED.finditer(masked(line)):
        for sign in "+-":
            yield line[: found.start()] + f"({found[0]} {sign} 1)" + line[found.end() :]


def branches(line):
    found = IF.search(line) if masked(line) == line else None
    if found:
        turned = found[2][1:] if re.fullmatch(r"!\w+", found[2]) else f"!({found[2]})"
        yield line[: found.start(2)] + turned + line[found.end(2) :]


def statements(line):
    """The line without its statement, if it is one that stands by itself."""
    text, found = masked(line), ASSIGNING_ARM.search(line)
    if found:
        yield line[: found.start()] + "=> {},"
    elif line.endswith(";") and not NOT_LEFT_OUT.match(line) and all(text.count(one) == text.count(other) for one, other in ("()", "[]", "{}")):
        yield ""


def arguments(line):
    """Calls with two arguments of one type exchanged."""
    for found in CALL.finditer(masked(line)):
        end, kinds = closing(masked(line), found.end()), types_by_name().get(found[1], ())
        parts = split(masked(line)[found.end() : end]) if end else []
        if len(parts) != len(kinds) or line[: found.start()].endswith("fn "):
            continue
        text = line[found.end() : end]
        words = [text[one:stop].strip() for _, one, stop in parts]
        for one in range(len(kinds)):
            for other in range(one + 1, len(kinds)):
                if kinds[one] == kinds[other] and words[one] != words[other]:
                    changed = [*words]
                    changed[one], changed[other] = words[other], words[one]
                    yield line[: found.end()] + ", ".join(changed) + line[end:]


def values_of(body, lines, number):
    """What a function may return before this line."""
    if not body.result:
        return [""]
    values = [value for kind, value in GIVEN_UP if re.match(kind, body.result)]
    values += [name for name, kind in body.parameters if kind == body.result]
    last = re.fullmatch(r"\s*((?:Ok\()?(\w+)\)?)", lines[body.end - 1])
    made = last and any(re.match(rf"\s*let (?:mut )?{last[2]}\b", line) for line in lines[body.start : number])
    return values + ([last[1]] if made else [])


def returns(body, lines, number):
    """The line with an early return before it, if a statement begins there."""
    line, above = lines[number], masked(lines[number - 1]).rstrip()
    if not above.endswith(("{", "}", ";")) or number == body.end - 1:
        return
    if BEGINS_STATEMENT.match(line) or next(statements(line), None) is not None:
        blank = line[: len(line) - len(line.lstrip())]
        for value in values_of(body, lines, number):
            yield f"{blank}return{value and ' '}{value}; {line.lstrip()}"


def changed_lines(body, lines, number):
    """The kinds of changes of a line of a body, with the new lines."""
    line = lines[number]
    if not masked(line).strip() or line.lstrip().startswith("#["):
        return
    for kind in EXCHANGED:
        yield from ((kind, new) for new in by_exchange(line, kind))
    ways = {"index": indices, "constant": constants, "branch": branches, "statement": statements, "arguments": arguments}
    for kind, way in ways.items():
        yield from ((kind, new) for new in way(line))
    yield from (("return", new) for new in returns(body, lines, number))


def plants_of(crate):
    """All changes of one line in the bodies of a crate."""
    for body in bodies_of(crate):
        lines, seen = lines_of(crate, body.file), {}
        for number in range(body.start, body.end):
            old = lines[number].strip()
            seen[old] = seen.get(old, 0) + 1
            for kind, new in changed_lines(body, lines, number):
                yield Plant(crate, body.file, body.path, kind, old, seen[old], new.strip())


def body_named(crate, path):
    return next((body for body in bodies_of(crate) if body.path == path), None)


def line_of(plant, body):
    """The number of the line that a change is of, or nothing if it is gone."""
    lines = lines_of(plant.crate, plant.file)
    found = [number for number in range(body.start, body.end) if lines[number].strip() == plant.old] if body else []
    return found[plant.nth - 1] if plant.nth <= len(found) else None


def drawn(crate, seed, count):
    """So many changes of the bodies of a crate: of each kind in turn, and of one function again only when all others had a turn."""
    draw = random.Random(f"{seed} {crate}")
    left = {kind: [] for kind in draw.sample(KINDS, len(KINDS))}
    for plant in plants_of(crate):
        left[plant.kind].append(plant)
    for plants in left.values():
        draw.shuffle(plants)
    taken, turns = [], {}
    while len(taken) < count and any(left.values()):
        for kind in [kind for kind in left if left[kind]][: count - len(taken)]:
            plant = min(left[kind], key=lambda plant: turns.get(plant.function, 0))
            turns[plant.function] = turns.get(plant.function, 0) + 1
            left[kind].remove(plant)
            taken.append(plant)
    return taken


def crates_with_code():
    """The crates whose bodies may be changed, lowest first."""
    return [crate for crate in lines_of_crates() if crate not in WITHOUT_CODE and any(True for _ in plants_of(crate))]
