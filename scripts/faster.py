#!/usr/bin/env python3
"""The faster sources of the gallery, examples/faster: those that safl-explore proposes for the calls of each page.

    faster.py P [NAME..] [--jobs J]  has safl-explore look, with the program P, where a page's source or its calls are others than when it looked
                                     last, or at the circuits that are named. It counts LUTs of the points that no other beats (--luts --front)
    faster.py --slow NAME            drops the source of examples/faster whose clock makes it no better than the one as written, and takes
                                     the next one

A point is proposed if it takes fewer cycles and makes more calls a cycle for each LUT than the source; of several the one that makes
most. What was found stands in found.json in the same folder, and `scripts/examples.py` writes it into the pages.
"""
import hashlib
import json
import os
import sys
import tempfile
from collections import Counter

from files import TOP, read, write, written
from gallery import PAGES, calls_of
from given import a_number, a_program, parser
from program import told

FOLDER = f"{TOP}/examples/faster"
STORE = f"{FOLDER}/found.json"
KEPT = ("steps", "cycles", "luts", "flops", "calls for area")


def fail(line):
    sys.exit(f"faster: {line}")


def found():
    """What was found for each circuit: the digest of its source and calls, the points, the source first, and those that are too slow."""
    return json.loads(read(STORE)) if os.path.exists(STORE) else {}


def path_of(name):
    return f"{TOP}/examples/{name}/{name}.safl"


def faster_path(name):
    return f"{FOLDER}/{name}_faster.safl"


def digest_of(name):
    return hashlib.sha256((read(path_of(name)) + calls_of(name)).encode()).hexdigest()[:12]


def best(kept):
    """The point that is best among those that take no more cycles than the source, or nothing if that is the source itself."""
    source, *others = kept["points"]
    better = [point for point in others if point["cycles"] <= source["cycles"] and point["calls for area"] > 1]
    return max(better, key=lambda point: point["calls for area"], default=None)


def proposed(kept):
    """The point whose source stands in examples/faster, if there is one."""
    cycles = kept["points"][0]["cycles"]
    faster = [point for point in kept["points"] if point["cycles"] < cycles and point["calls for area"] > 1 and point["steps"] not in kept["slow"]]
    return max(faster, key=lambda point: point["calls for area"], default=None)


def in_words(steps):
    """The steps to a point, those that are taken several times counted."""
    return "; ".join(f"{how} ({times} times)" if times > 1 else how for how, times in Counter(steps).items())


def without_comments(text):
    return "".join(line for line in text.splitlines(True) if not line.startswith("//"))


def taken(folder):
    """The points of a folder of safl-explore, with the sources of those that may be proposed."""
    for point in json.loads(read(f"{folder}/points.json")):
        figures = {key: point[key] for key in KEPT}
        is_source = point["point"] == "source"
        yield figures if is_source else {**figures, "source": without_comments(read(f"{folder}/{os.path.basename(point['source'])}"))}


def put(name, points):
    """Keeps what was found for a circuit, and writes or removes its faster source."""
    every, digest = found(), digest_of(name)
    before = every.get(name, {})
    every[name] = {"digest": digest, "points": points, "slow": before["slow"] if before.get("digest") == digest else []}
    keep(every, name)


def keep(every, name):
    write(STORE, json.dumps(every, indent=1, sort_keys=True) + "\n")
    point = proposed(every[name])
    if point:
        write(faster_path(name), f"// {name}.safl, faster, as safl-explore proposes it: {in_words(point['steps'])}.\n{point['source']}")
    elif os.path.exists(faster_path(name)):
        os.remove(faster_path(name))
    print(f"faster: {name}: {in_words(point['steps']) if point else 'nothing'}", flush=True)


def look(program, name, jobs):
    """Has safl-explore look at a circuit."""
    with tempfile.TemporaryDirectory() as folder:
        words = [f"{TOP}/tools/safl-explore", path_of(name), "--calls", written(folder, "calls", calls_of(name)), "--luts", "--front"]
        ran = told([*words, "--jobs", str(jobs), "--out", folder, "--safl", program])
        if ran.returncode:
            fail(f"{name}: {ran.stderr.strip()}")
        put(name, list(taken(folder)))


def slow(name):
    """Notes that the clock of a faster source is too low, and takes the next one."""
    every = found()
    point = proposed(every[name]) if name in every else None
    if not point:
        fail(f"{name} has no faster source")
    every[name]["slow"].append(point["steps"])
    keep(every, name)


def main():
    reader = parser(__doc__)
    reader.add_argument("program", nargs="?", type=a_program, metavar="P")
    reader.add_argument("names", nargs="*", metavar="NAME", help="circuits of the gallery")
    reader.add_argument("--jobs", type=a_number, default=os.cpu_count(), metavar="J")
    reader.add_argument("--slow", choices=PAGES, metavar="NAME")
    given = reader.parse_args()
    unknown = [name for name in given.names if name not in PAGES]
    if unknown or bool(given.slow) == bool(given.program):
        reader.error(f"there is no circuit {unknown[0]}" if unknown else "either P or --slow NAME")
    if given.slow:
        slow(given.slow)
        return
    every = found()
    for name in given.names or [name for name in PAGES if every.get(name, {}).get("digest") != digest_of(name)]:
        look(given.program, name, given.jobs)


if __name__ == "__main__":
    main()
