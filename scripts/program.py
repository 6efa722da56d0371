"""The built programs: where they are, how one is built if it is missing, and how calls of it end.

They are crates/safl/out/safl and crates/safl_time/out/safl_time, as the gate leaves them, or SAFL and SAFL_TIME name others.
"""
import os
import shutil
import subprocess
import sys
import time

from files import TOP

USAGE, NO_RESULT = 2, 6


def script():
    """The name of the script that runs."""
    return os.path.basename(sys.argv[0]).removesuffix(".py")


def program_of(variable, crate):
    """The program of a crate as the gate leaves it, or the one that a variable of the environment names."""
    return os.path.abspath(os.environ.get(variable, f"{TOP}/crates/{crate}/out/{crate}"))


PROGRAM, TIMER = program_of("SAFL", "safl"), program_of("SAFL_TIME", "safl_time")


def is_there(program):
    return os.access(program, os.X_OK)


def lacks(program):
    """Whether there is no such program; a line says so."""
    if is_there(program):
        return False
    print(f"{script()}: there is no program {program}, SKIPPED")
    return True


def made(program, crate, words):
    """The program, which these words build in the folder of the crate if it is missing."""
    if not is_there(program) and shutil.which("rt"):
        print(f"{script()}: builds {program}", flush=True)
        subprocess.run(["rt", *words], cwd=f"{TOP}/crates/{crate}", stdout=subprocess.DEVNULL, check=False)
    if not is_there(program):
        sys.exit(f"{script()}: there is no program {program}")
    return program


def built():
    return made(PROGRAM, "safl", ["run", "--", "check", "../../examples/seven.safl"])


class Ended:
    """How a command ended: its status, and its seconds by the clock."""

    def __init__(self, words, out=os.devnull, err=os.devnull):
        files = [
            (os.POSIX_SPAWN_OPEN, 0, os.devnull, os.O_RDONLY, 0),
            (os.POSIX_SPAWN_OPEN, 1, out, os.O_WRONLY | os.O_CREAT | os.O_TRUNC, 0o644),
            (os.POSIX_SPAWN_OPEN, 2, err, os.O_WRONLY | os.O_CREAT | os.O_TRUNC, 0o644),
        ]
        begun = time.perf_counter()
        child = os.posix_spawnp(words[0], words, os.environ, file_actions=files)
        _, status = os.waitpid(child, 0)
        self.seconds = time.perf_counter() - begun
        self.status = os.waitstatus_to_exitcode(status)


def ended(words, statuses=(0, NO_RESULT)):
    """How a command ends that may end with these statuses only."""
    found = Ended(words)
    if found.status not in statuses:
        sys.exit(f"{script()}: {' '.join(words)} ends with {found.status}")
    return found


def knows(words, program=PROGRAM):
    """Whether the program has a command: it doesn't answer with the usage line."""
    return Ended([program, *words]).status != USAGE


def told(words, folder=None):
    """How a command ended, with its texts on both outputs."""
    return subprocess.run(words, cwd=folder, capture_output=True, text=True, check=False)
