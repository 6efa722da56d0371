"""Programs and libraries that are called: where they are, and the line that says that one is missing."""
import atexit
import errno
import importlib
import os
import shutil
import signal
import subprocess
import sys
import threading

from safl_tools import requests
from safl_tools.ending import FAULT, INTERRUPTED, NOT_THERE, TOOL_FAILED, Refusal
from safl_tools.files import Input

TOP = os.path.abspath(os.path.join(os.path.dirname(os.path.abspath(__file__)), "../.."))
BESIDE = (f"{TOP}/crates/safl/out/safl", f"{TOP}/../../bin/safl")  # in the repository, and where `make install` puts it
SYSTEM_PYTHON = "/usr/bin/python3"


class Running(set):
    """The programs that run now, and whether only the main thread may start more. A copy on another machine begins empty."""

    is_closed = False

    def __reduce__(self):
        return Running, ()


RUNNING = Running()


class Told:
    """How a program ended: its status and its texts.

    It runs in a session of its own, so that it can be ended with all that it started. If it gets a folder to work in, its
    temporary files are there too. While it runs some work may be done. More may be said of how it is started, in the words of
    `subprocess`.
    """

    def __init__(self, words, folder=None, meanwhile=None, **how):
        name = os.path.basename(words[0])
        go_on()
        try:
            child = started(words, folder, how)
        except OSError as fault:
            if fault.errno == errno.ENOMEM:
                raise
            raise Refusal(NOT_THERE, f"cannot run {name}: {fault.strerror}") from None
        try:
            go_on()  # as it may have been started while the others were ended
            if meanwhile:
                meanwhile()
            self.out, self.err = child.communicate()
        except OSError as fault:
            raise Refusal(FAULT, f"cannot read what {name} prints: {fault.strerror}") from None
        finally:
            finish(child)
        self.status = child.returncode
        if self.status < 0:
            raise Refusal(TOOL_FAILED, f"{name} was ended by signal {-self.status}")


def go_on():
    """Refuses to go on in a thread for which nothing more may run."""
    if RUNNING.is_closed and threading.current_thread() is not threading.main_thread():
        raise Refusal(INTERRUPTED, "interrupted")


def started(words, folder, how):
    """The program, noted before a request to end can come."""
    usual = {"stdin": subprocess.DEVNULL, "stdout": subprocess.PIPE, "stderr": subprocess.PIPE, "text": True, "errors": "replace"}
    place = {"cwd": folder, "env": {**os.environ, "TMPDIR": "."}} if folder else {}
    with requests.held():
        child = subprocess.Popen(words, start_new_session=True, **{**usual, **place, **how})
        RUNNING.add(child)
    return child


def finish(child):
    """Ends a program if it still runs, with those that it started, and waits for it."""
    if child.poll() is None:
        end(child)
    for pipe in filter(None, (child.stdout, child.stderr)):
        pipe.close()
    child.wait()
    RUNNING.discard(child)


def end(child):
    try:
        os.killpg(child.pid, signal.SIGKILL)
    except ProcessLookupError:
        pass


def end_running():
    """Ends all programs that other threads wait for, and lets those threads start no more."""
    RUNNING.is_closed = True
    for child in list(RUNNING):
        end(child)


atexit.register(end_running)


class Piped:
    """A file that a program writes, as a pipe: its lines are read by some work while the program runs. As a path it is the pipe."""

    SIZE = 1 << 20  # how many bytes are taken at once, if they are there

    def __init__(self, read):
        self.read, (self.reading, self.writing), self.is_cut = read, os.pipe(), False

    def __fspath__(self):
        return f"/dev/fd/{self.writing}"

    def work(self):
        """Lets go of the end that the program has, so that the lines end when the program does, and reads them.

        If they break off, the program says why.
        """
        os.close(self.writing)
        with open(self.reading, "rb", self.SIZE) as lines:
            try:
                self.read(lines)
            except (LookupError, ValueError):
                self.is_cut = True


def failed(name, told, line=-1):
    """The refusal for a program that failed: the last line that it printed, or another one, or else its status."""
    lines = (told.err.strip() or told.out.strip()).splitlines()
    return Refusal(TOOL_FAILED, f"{name}: {lines[line].strip()}" if lines else f"{name} ends with {told.status}")


def spelled(word):
    return os.fspath(word) if isinstance(word, os.PathLike) else str(word)


class Safl:
    """The program `safl`."""

    def __init__(self, path):
        self.path = path

    def told(self, *words):
        """How a command ends, of which one file may be piped. What it says of an input has the user's name."""
        piped = next((word for word in words if isinstance(word, Piped)), None)
        how = {"meanwhile": piped.work, "pass_fds": [piped.writing]} if piped else {}
        told = Told([self.path, *map(spelled, words)], **how)
        if piped and piped.is_cut and not told.err:
            raise Refusal(TOOL_FAILED, f"safl {words[0]} writes what cannot be read")
        for word in words:
            if isinstance(word, Input):
                told.err = word.named(told.err)
        return told

    def text(self, *words):
        """What the program prints. If it refuses, its line and its status are those of the caller too."""
        told = self.told(*words)
        if told.status:
            raise refused(told, words[0])
        return told.out


def refused(told, command):
    """The refusal that passes on the line and the status with which a command of `safl` ended."""
    line = (told.err or told.out).strip().split("\n")[-1]
    return Refusal(told.status, line or f"safl {command} ends with {told.status}")


def safl(named=None):
    """The program `safl`: the one that is named, or that SAFL names, or that is in PATH, or that is beside this program."""
    named = named or os.environ.get("SAFL")
    path = next(filter(None, map(shutil.which, [named] if named else ["safl", *BESIDE])), None)
    if not path:
        raise Refusal(NOT_THERE, f"there is no program {named or 'safl'} (name it with --safl PROGRAM)")
    return Safl(os.path.abspath(path))


def tool(name, package=None):
    """The path of another program. Its Debian package is named if there is one."""
    path = shutil.which(name)
    if not path:
        where = f" (Debian: apt install {package})" if package else ""
        raise Refusal(NOT_THERE, f"the program {name} is missing{where}")
    return path


def library(name, package):
    """A module of Python. If this Python lacks it, the program begins anew under the system's Python, if that one has it.

    So ask for libraries before any work is done, and before any input is read.
    """
    try:
        return importlib.import_module(name)
    except ImportError:
        pass
    other = os.path.exists(SYSTEM_PYTHON) and sys.executable != SYSTEM_PYTHON
    if other and not Told([SYSTEM_PYTHON, "-c", f"import {name}"]).status:
        os.execv(SYSTEM_PYTHON, [SYSTEM_PYTHON, os.path.abspath(sys.argv[0]), *sys.argv[1:]])
    raise Refusal(NOT_THERE, f"the Python library {name} is missing (Debian: apt install {package})")
