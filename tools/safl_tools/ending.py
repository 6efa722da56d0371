"""How a program of this folder ends: a line on standard error and a status for whatever goes wrong, never a traceback."""
import errno
import importlib
import io
import os
import sys

from safl_tools import requests

WRONG_USE, CANNOT_READ, CANNOT_WRITE, NO_MEMORY, TOO_LONG = 2, 3, 4, 5, 10  # as `safl` has them
NOT_THERE, TOOL_FAILED, DIFFERENT, FAULT, INTERRUPTED = 30, 31, 32, 33, 130
NO_THREAD = "can't start new thread"  # what Python says if the system refuses one
NO_ROOM = (errno.ENOSPC, errno.EDQUOT, errno.EROFS, errno.EFBIG)


class Refusal(Exception):
    """Why a program cannot go on: one line, and the status with which the program ends."""

    def __init__(self, status, line):
        super().__init__(line)
        self.status, self.line = status, line


def escaped(character):
    """What is printed of a character: itself, or its code. A byte that is no UTF-8 is a byte."""
    if character.isprintable():
        return character
    if "\udc80" <= character <= "\udcff":
        return f"\\x{ord(character) & 0xff:02x}"
    return character.encode("unicode_escape").decode()


def one_line(text):
    """The text as one line that is safe to print."""
    return "".join(map(escaped, text))


def send(descriptor, data):
    """Writes all bytes to a descriptor."""
    rest = memoryview(data)
    while rest:
        rest = rest[os.write(descriptor, rest):]


class Output(io.BufferedIOBase):
    """Standard output: what is printed is kept until it is flushed."""

    def __init__(self):
        super().__init__()
        self.kept = []

    def writable(self):
        return True

    def write(self, data):
        self.kept.append(bytes(data))
        return len(data)

    def flush(self):
        data, self.kept = b"".join(self.kept), []
        try:
            send(1, data)
        except OSError:
            raise Refusal(CANNOT_WRITE, "cannot write output") from None


class Errors(io.BufferedIOBase):
    """Standard error: what cannot be written there is lost."""

    def writable(self):
        return True

    def write(self, data):
        try:
            send(2, data)
        except OSError:
            pass
        return len(data)

    def fileno(self):
        return 2

    def isatty(self):
        return os.isatty(2)


def texts(stream, errors):
    """A stream of texts that keeps nothing for itself."""
    return io.TextIOWrapper(stream, "utf-8", errors, newline="", write_through=True)


def fill():
    """Puts descriptors that can be neither read nor written in the places of 0, 1 and 2 that are closed: no file gets there."""
    try:
        descriptor = 0
        while descriptor <= 2:
            descriptor = os.open("/", os.O_RDONLY)
        os.close(descriptor)
    except OSError:
        pass


def place_of(fault):
    """The file and the line where something was raised."""
    trace = fault.__traceback__
    while trace and trace.tb_next:
        trace = trace.tb_next
    return f"{os.path.basename(trace.tb_frame.f_code.co_filename)}:{trace.tb_lineno}" if trace else "nowhere"


def told_of_system(fault):
    """The status and the line for what the system refuses."""
    if fault.errno == errno.ENOMEM:
        return NO_MEMORY, "out of memory"
    name = f"{fault.filename}" if fault.filename else "a file"
    if fault.errno in NO_ROOM:
        return CANNOT_WRITE, f"cannot write {name}"
    return FAULT, f"{fault.strerror or fault}" + (f": {name}" if fault.filename else "")


def told_of(fault):
    """The status and the line for whatever was raised."""
    if isinstance(fault, Refusal):
        return fault.status, fault.line
    if isinstance(fault, KeyboardInterrupt):
        return INTERRUPTED, "interrupted"
    if isinstance(fault, MemoryError):
        return NO_MEMORY, "out of memory"
    if isinstance(fault, OSError):
        return told_of_system(fault)
    if isinstance(fault, RuntimeError) and str(fault) == NO_THREAD:
        return FAULT, NO_THREAD
    if isinstance(fault, ImportError):
        return NOT_THERE, f"the Python library {fault.name or 'of this program'} cannot be loaded"
    if sys.flags.dev_mode:
        raise fault
    return FAULT, f"{type(fault).__name__} at {place_of(fault)}: {fault} (please report this)"


def all_of(works):
    """Does all of this work, also if some of it is refused. Then the first refusal is raised at the end."""
    first = None
    for work in works:
        try:
            work()
        except Refusal as refusal:
            first = first or refusal
    if first:
        raise first


def outcome(work):
    """The status with which this work ends, and the line if something went wrong."""
    try:
        with requests.heeded():
            return work() or 0, None
    except SystemExit as end:  # after --help
        return end.code or 0, None
    except BaseException as fault:  # pylint: disable=broad-except
        return told_of(fault)


def ended(name, work):
    """The status with which a program ends that does this work. Work returns a status, or nothing if all went well.

    A request to end is taken like an interrupt, so that what was found can be kept, and no other program is left running.
    What was printed is written in any case.
    """
    fill()
    sys.stdout, sys.stderr = texts(Output(), "surrogateescape"), texts(Errors(), "backslashreplace")
    requests.take()
    status, line = outcome(work)
    printing, fault = outcome(sys.stdout.flush)
    if fault and not line:
        status, line = printing, fault
    if line:
        print(f"{name}: {one_line(line)}", file=sys.stderr)
    return status


def main_of(module):
    """Runs what a module has. It is loaded here, so that this may fail or be interrupted too. What libraries log is not printed."""
    logging = importlib.import_module("logging")
    logging.getLogger().addHandler(logging.NullHandler())
    return importlib.import_module(module).main()


def run(name, module):
    """Runs the program that a module has."""
    sys.exit(ended(name, lambda: main_of(module)))
