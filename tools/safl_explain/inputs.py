"""The files that a command reads. One that comes through a pipe is kept, so that it can be read again under its name."""
import os
import re
import stat
import tempfile

from safl_explain import usage

LIMITS = {"IN": 1 << 20, "SCRIPT": 1 << 20, "FILE": 1 << 26}
AIGER_LIMIT = 1 << 29
DESCRIPTOR = re.compile(r"/dev/fd/(\d+)|/proc/self/fd/(\d+)")
STANDARD = "/dev/stdin"


def descriptor_of(path):
    """The number of the open file that a name stands for."""
    found = DESCRIPTOR.fullmatch(path)
    return int(found[1] or found[2]) if found else 0 if path == STANDARD else None


def is_pipe(descriptor):
    try:
        return not stat.S_ISREG(os.fstat(descriptor).st_mode)
    except OSError:
        return False


class Inputs:
    """The inputs of a command, by their names."""

    def __init__(self, words):
        self.descriptors, self.kept = [], {}
        try:
            line = usage.checked(words)
        except usage.Wrong:
            return
        for place, kind in zip(line.plain, line.form.places):
            limit = AIGER_LIMIT if line.verb == "aigstat" else LIMITS.get(kind)
            if limit:
                self.keep(words[place], limit)

    def keep(self, path, limit):
        """Puts a file in the place of a pipe, with what the pipe gives: at most one byte above the limit."""
        number = descriptor_of(path)
        if number is None or path in self.kept:
            return
        self.descriptors.append(number)
        if not is_pipe(number) or os.isatty(number):
            return
        data = b""
        while len(data) <= limit:
            part = os.read(number, min(1 << 16, limit + 1 - len(data)))
            if not part:
                break
            data += part
        with tempfile.TemporaryFile() as file:
            file.write(data)
            file.flush()
            os.dup2(file.fileno(), number)
        self.kept[path] = data

    def data(self, path):
        """The bytes of an input; nothing if they can't be read again."""
        if path in self.kept or path == os.devnull:
            return self.kept.get(path, b"")
        if not os.path.isfile(path):
            return None
        try:
            with open(path, "rb") as file:
                return file.read()
        except OSError:
            return None
