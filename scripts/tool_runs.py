"""Runs of the programs of tools/, each in a folder of its own: how a run ends, what is left in its folder, and which processes live."""
import os
import pty
import shutil
import signal
import subprocess
import sys
import tempfile
import time
from dataclasses import dataclass, field

from files import TOP
from program import PROGRAM

SECONDS = 600  # the most that a run may take; on a busy machine Verilator takes minutes
MARK = "TOOL_RUN"  # all that a run starts has this variable, with the run's folder
TRIES, PAUSE = 500, 0.01
SYSTEM_PYTHON = "/usr/bin/python3"
TEMPORARY = "tmp"
HANG_UP = "the terminal is closed"


@dataclass(frozen=True)
class Link:
    """A link to a file of the folder: symbolic or hard."""

    target: str
    is_hard: bool = False


@dataclass
class Ended:
    """How a run ended: its status, its outputs, the files that are new or hold something else (None for one that is gone), what
    is left of temporary files, and what still runs. What is no status is the reason why there is none."""

    status: int
    out: bytes
    err: bytes
    changed: dict
    temporary: list
    living: list


@dataclass
class Run:
    """A line for bash, in which "$P" "$T" is the program; further files and variables, in which @ is the run's folder; and a signal
    that is sent when the file `began` is there, or HANG_UP."""

    tool: str
    line: str
    files: dict = field(default_factory=dict)
    given: dict = field(default_factory=dict)
    sent: object = None


def put(folder, name, content):
    """Makes a file. A text that begins as a script does is a program, and one of nothing is a folder."""
    path = os.path.join(folder, name)
    os.makedirs(os.path.dirname(path) if content is not None else path, exist_ok=True)
    if content is None:
        return
    if isinstance(content, Link):
        (os.link if content.is_hard else os.symlink)(os.path.join(folder, content.target), path)
        return
    with open(path, "wb") as file:
        file.write(content.encode() if isinstance(content, str) else content)
    if isinstance(content, str) and content.startswith("#!"):
        os.chmod(path, 0o755)


def content_of(path):
    if os.path.islink(path):
        return Link(os.readlink(path))
    if not os.path.isfile(path):
        return b""
    with open(path, "rb") as file:
        return file.read()


def found(folder):
    """The files of a folder, by their paths from there."""
    paths = (os.path.join(where, name) for where, _, names in os.walk(folder) for name in names)
    return {os.path.relpath(path, folder): content_of(path) for path in paths}


def living(folder):
    """The processes that a run started and that are still there: number and command."""
    mark, here = f"{MARK}={folder}".encode(), []
    for number in filter(str.isdigit, os.listdir("/proc")):
        try:
            with open(f"/proc/{number}/environ", "rb") as file:
                is_ours = mark in file.read().split(b"\0")
            with open(f"/proc/{number}/cmdline", "rb") as file:
                command = file.read().replace(b"\0", b" ").decode(errors="replace")
        except OSError:
            continue
        if is_ours:
            here.append((int(number), command))
    return here


def kill(folder):
    for number, _ in living(folder):
        try:
            os.kill(number, signal.SIGKILL)
        except ProcessLookupError:
            pass


def awaited(child, path):
    """Whether a file is there, which is waited for as long as the program runs."""
    end = time.monotonic() + SECONDS
    while not os.path.exists(path) and child.poll() is None and time.monotonic() < end:
        time.sleep(PAUSE)
    return os.path.exists(path)


def still_living(folder):
    """What still lives. A process that was just ended may be seen for a moment."""
    for _ in range(TRIES):
        here = living(folder)
        if not here:
            break
        time.sleep(PAUSE)
    return here


def environment(folder, run):
    path = f"{folder}/bin:{os.environ.get('PATH', os.defpath)}"
    known = {"P": sys.executable, "T": f"{TOP}/tools/{run.tool}", "SAFL": PROGRAM, "TMPDIR": f"{folder}/{TEMPORARY}", "PATH": path}
    return {**os.environ, **known, MARK: folder, **{name: text.replace("@", folder) for name, text in run.given.items()}}


def communicated(child, folder, run, terminal):
    """The outputs of a run, to which a signal is sent if that is wanted."""
    try:
        if run.sent and awaited(child, f"{folder}/began"):
            if run.sent == HANG_UP:
                os.close(terminal)
            else:
                child.send_signal(run.sent)
        return child.communicate(timeout=SECONDS)
    except subprocess.TimeoutExpired:
        kill(folder)
        child.communicate()
        return b"", b"no end in time"


def outputs_of(run, folder):
    """Runs a line in a session of its own, if a terminal is to be closed on that terminal: its status and its outputs."""
    words, terminal, standard = [shutil.which("bash"), "-c", run.line], None, subprocess.DEVNULL
    if run.sent == HANG_UP:
        terminal, standard = pty.openpty()
        words = [shutil.which("setsid"), "-c", *words]
    with subprocess.Popen(
        words, cwd=folder, env=environment(folder, run), start_new_session=not terminal,
        stdin=standard, stdout=subprocess.PIPE, stderr=subprocess.PIPE,
    ) as child:
        if terminal:
            os.close(standard)
        out, err = communicated(child, folder, run, terminal)
    return child.returncode, out, err


def ended(run, inputs):
    """How a run ends in a new folder with these inputs."""
    with tempfile.TemporaryDirectory(prefix="tool-run-") as folder:
        for name, content in {TEMPORARY: None, **inputs, **run.files}.items():
            put(folder, name, content)
        before = found(folder)
        status, out, err = outputs_of(run, folder)
        here = still_living(folder)
        if here:
            kill(folder)
        after = found(folder)
        changed = {name: after.get(name) for name in before.keys() | after.keys() if before.get(name) != after.get(name)}
        return Ended(status, out, err, changed, os.listdir(f"{folder}/{TEMPORARY}"), here)


def has_library(name):
    """Whether this Python or the system's has a library."""
    pythons = filter(os.path.exists, (sys.executable, SYSTEM_PYTHON))
    return any(subprocess.run([python, "-c", f"import {name}"], capture_output=True, check=False).returncode == 0 for python in pythons)


def can_mount():
    """Whether a small file system can be made, for which this has to run as root."""
    with tempfile.TemporaryDirectory() as folder:
        made = subprocess.run(["mount", "-t", "tmpfs", "-o", "size=4k", "none", folder], capture_output=True, check=False)
        return made.returncode == 0 and subprocess.run(["umount", folder], check=True).returncode == 0
