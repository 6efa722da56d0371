#!/usr/bin/env python3
"""Plants bugs, one at a time, and notes in docs/plants.json what the prover says of each.

plants.py --list [CRATE..]            prints the changes of bodies that the seed draws
plants.py --try [CRATE..]             tries those that are not settled yet
plants.py --specs --list [CRATE..]    the same for changes of the definitions that `run` reaches
plants.py --specs --try [CRATE..]
plants.py --tool LOG..                notes what runs of `rt plant` counted, by what they printed
plants.py --write                     makes docs/PLANTS.md of what is noted
plants.py --check                     does docs/PLANTS.md say what is noted, and is each equal change argued?

A run that is cut off goes on where it was. What is no longer in the code is forgotten when its crate is tried again.
plant_bodies.py and plant_specs.py say which changes there are, plant_tries.py how they are tried, plant_page.py what is kept.
"""
import os
import sys
import time

import files
from given import a_file, a_number, a_program, parser
from mutation_checks import lines_of_crates
from plant_bodies import body_named, crates_with_code, drawn, line_of
from plant_page import PAGE, RESULTS, Data, page
from plant_specs import drawn_changes, place_of
from plant_tries import PlantError, try_all, try_definition

EACH, DEFINITIONS = 10, 60
# what is tried again
UNSETTLED = ("only by a name", "not settled")


def number_of(plant):
    """The number of the line that a change is of, or nothing if it is gone."""
    return place_of(plant) if plant.file.startswith("specs/") else line_of(plant, body_named(plant.crate, plant.function))


def wanted(crates, given):
    """The changes that the seed draws of these crates."""
    if given.specs:
        return [change for change in drawn_changes(given.seed, DEFINITIONS) if change.crate in crates]
    return [plant for crate in crates for plant in drawn(crate, given.seed, EACH)]


def list_all(crates, given):
    for plant in wanted(crates, given):
        print(f"crates/{plant.crate}/{plant.file}:{number_of(plant) + 1}: {plant.function}: {plant.kind}: {plant.old}  =>  {plant.new}")


def try_crate(crate, plants, given, note):
    """Tries changes of a crate; gives why that could not be done, or nothing."""
    try:
        if not given.specs:
            try_all(crate, plants, given.prover, note)
        for plant in plants if given.specs else ():
            try_definition(crate, plant, given.prover, note)
        return None
    except PlantError as error:
        return str(error)


def try_crates(crates, given):
    """Tries what is drawn of these crates and not noted yet, a crate at a time, and prints how long that takes."""
    data, name = Data(), "definitions" if given.specs else "operators"
    data.keep(name, lambda plant: plant.crate not in crates or number_of(plant) is not None)
    settled = {plant for plant, (result, _) in data.plants(name).items() if result not in UNSETTLED}
    left, faults = [plant for plant in wanted(crates, given) if plant not in settled], []
    for crate in crates:
        begin, plants = time.time(), [plant for plant in left if plant.crate == crate]
        if plants:
            fault = try_crate(crate, plants, given, lambda *words: data.note(name, *words))
            print(f"{crate}: {len(plants)} in {time.time() - begin:.0f} s", flush=True)
            faults += [fault] if fault else []
    for fault in faults:
        print(f"plants.py: {fault}", file=sys.stderr)
    return 1 if faults else 0


def made_page():
    """The page that is made of what is noted."""
    return page(Data(), crates_with_code(), EACH, DEFINITIONS)


def check():
    """Prints what is wrong with the page and what is noted."""
    is_made = os.path.exists(PAGE) and files.read(PAGE) == made_page()
    faults = [] if is_made else ["docs/PLANTS.md does not say what docs/plants.json has (plants.py --write mends it)"]
    data = Data()
    for name in ("operators", "definitions"):
        for plant, (result, said) in data.plants(name).items():
            if result not in RESULTS or result in ("equal", "not promised", "survives") and not said:
                faults.append(f"docs/plants.json: {plant.crate} {plant.function}: {plant.new}: {result}, and nothing is said of it")
    for fault in faults:
        print(f"plants: {fault}")
    if not faults:
        print(f"plants: {len(data.kept['operators'])} changes of bodies and {len(data.kept['definitions'])} of definitions, as the page says")
    return 1 if faults else 0


def main():
    reader = parser(__doc__)
    reader.add_argument("crates", nargs="*", metavar="CRATE")
    reader.add_argument("--list", action="store_true")
    reader.add_argument("--try", action="store_true", dest="tries")
    reader.add_argument("--specs", action="store_true", help="changes of definitions, in place of those of bodies")
    reader.add_argument("--tool", nargs="+", type=a_file, metavar="LOG")
    reader.add_argument("--write", action="store_true")
    reader.add_argument("--check", action="store_true")
    reader.add_argument("--seed", type=a_number, default=1, metavar="N")
    reader.add_argument("--prover", type=a_program, metavar="PROGRAM", help="a program in place of `rt check` (plant_tries.py)")
    given = reader.parse_args()
    if [given.list, given.tries, given.tool is not None, given.write, given.check].count(True) != 1:
        reader.error("give --list, --try, --tool, --write or --check")
    crates = given.crates or list(lines_of_crates()) if given.specs else given.crates or crates_with_code()
    if unknown := [crate for crate in crates if crate not in lines_of_crates()]:
        reader.error(f"no such crate: {unknown[0]}")
    if given.check:
        sys.exit(check())
    if given.list:
        list_all(crates, given)
    elif given.tries:
        sys.exit(try_crates(crates, given))
    elif given.tool:
        Data().read_logs(given.tool)
    else:
        files.write(PAGE, made_page())


if __name__ == "__main__":
    main()
