"""Files that a program reads and writes. An input is read once, an output is written as a whole, and no output is an input."""
import contextlib
import os
import re
import stat

from safl_tools import numbers, temporary
from safl_tools.ending import CANNOT_READ, CANNOT_WRITE, TOO_LONG, WRONG_USE, Refusal, one_line, send

SOURCE_MOST, SCRIPT_MOST, VERILOG_MOST = 1 << 20, 1 << 20, 1 << 26  # as for `safl`
KNOWN_MOST = 1 << 26  # of a file of figures
PIECE = 1 << 16


def decoded(content):
    """The text of bytes. Those that are no UTF-8 stay what they are when it is written."""
    return content.decode("utf-8", "surrogateescape")


def read(path):
    """The text of a file."""
    try:
        with open(path, encoding="utf-8", errors="surrogateescape", newline="") as file:
            return file.read()
    except OSError:
        raise Refusal(CANNOT_READ, f"cannot read {path}") from None


def write(path, content):
    """Writes a text or bytes to a temporary file."""
    try:
        with open(path, "wb") as file:
            file.write(encoded(content))
    except OSError:
        raise Refusal(CANNOT_WRITE, f"cannot write {path}") from None


def encoded(content):
    return content if isinstance(content, bytes) else content.encode("utf-8", "surrogateescape")


def identity(state):
    """What tells a regular file from all others, by whatever name it is reached; nothing for other files."""
    return (state.st_dev, state.st_ino) if stat.S_ISREG(state.st_mode) else None


class Input:
    """A file that the user named. It is read once, so it may be a pipe. A copy has a plain name, and is what others read.

    As a path it is the copy, and in a message the user's name. The copy may be another text, which is made of what is read.
    """

    def __init__(self, name, plain, most, made=None):
        self.name, self.identity, self.content = name, *self.taken(name, most)
        if made:
            self.content = encoded(made(self.text))
        self.path = os.path.join(temporary.kept_folder(), plain)
        write(self.path, self.content)

    @staticmethod
    def taken(name, most):
        """What tells the file from others, and its bytes."""
        content = bytearray()
        try:
            with open(name, "rb", buffering=0) as file:
                state = os.fstat(file.fileno())
                while piece := file.read(PIECE):
                    content += piece
                    if len(content) > most:
                        raise Refusal(TOO_LONG, f"{name} is longer than {most} bytes")
        except (OSError, ValueError):
            raise Refusal(CANNOT_READ, f"cannot read {name}") from None
        return identity(state), bytes(content)

    @property
    def text(self):
        return decoded(self.content)

    @property
    def stem(self):
        """The name without its folder and its ending."""
        return os.path.splitext(os.path.basename(self.name))[0]

    def named(self, text):
        """What a program says of the copy, with the user's name."""
        return text.replace(self.path, one_line(self.name))

    def __fspath__(self):
        return self.path

    def __str__(self):
        return self.name


def source(name):
    return Input(name, "source.safl", SOURCE_MOST)


def script(name):
    """A script of calls. Its numbers may be hexadecimal; in the copy they are decimal."""
    return Input(name, "script", SCRIPT_MOST, numbers.script)


def verilog(name, plain="module.v"):
    return Input(name, plain, VERILOG_MOST)


class New:
    """A new file, which takes the place of the one of this path as a whole. It is made beside it, so that this is a renaming."""

    def __init__(self, path):
        self.path, self.beside = path, temporary.new_path(os.path.dirname(path), ".safl-")
        os.close(os.open(self.beside, os.O_WRONLY | os.O_CREAT | os.O_EXCL, 0o666))

    def take_place(self, content, old=None):
        """Writes the new file. It has the rights and, where that is allowed, the owner of an old one."""
        try:
            put(self.beside, content)
            if old:
                with contextlib.suppress(PermissionError):
                    os.chown(self.beside, old.st_uid, old.st_gid)
                os.chmod(self.beside, stat.S_IMODE(old.st_mode))
            os.replace(self.beside, self.path)
        finally:
            self.remove()

    def remove(self):
        temporary.remove(self.beside)


class Output:
    """A file that will have its whole new content, or stays as it is. It is opened before any work is done."""

    def __init__(self, name):
        self.name, self.old, self.descriptor, self.new = name, None, None, None
        try:
            self.old = os.stat(name) if os.path.exists(name) else None
            self.open()
        except (OSError, ValueError):
            raise Refusal(CANNOT_WRITE, f"cannot write {name}") from None

    def open(self):
        """Finds where the content goes: to a descriptor that is there, to a new file, or else to a pipe or a device."""
        self.descriptor = descriptor_of(self.name, self.old)
        if self.descriptor is not None:
            return
        if self.old and (stat.S_ISDIR(self.old.st_mode) or not os.access(self.name, os.W_OK)):
            raise PermissionError
        if not self.old or identity(self.old):
            self.new = New(os.path.realpath(self.name))

    def write(self, content):
        """Writes a text or bytes."""
        try:
            if self.descriptor is not None:
                send(self.descriptor, encoded(content))
            elif self.new:
                self.new.take_place(encoded(content), self.old)
            else:
                put(self.name, encoded(content))
        except OSError:
            raise Refusal(CANNOT_WRITE, f"cannot write {self.name}") from None


class Folder:
    """A folder for files whose names this program chooses. A link that has such a name is replaced, not followed."""

    def __init__(self, name):
        self.name = name
        try:
            os.makedirs(name, exist_ok=True)
            New(self.path("any")).remove()
        except (OSError, ValueError):
            raise Refusal(CANNOT_WRITE, f"cannot write {name}") from None

    def path(self, name):
        return os.path.join(self.name, name)

    def write(self, name, content):
        """Writes a text or bytes to a file of the folder."""
        try:
            New(self.path(name)).take_place(encoded(content))
        except OSError:
            raise Refusal(CANNOT_WRITE, f"cannot write {self.path(name)}") from None


def descriptor_of(name, state):
    """The descriptor that a name means: one of /dev/fd, or that of standard output or error if they go to this file."""
    found = re.fullmatch(r"/(?:dev|proc/self)/fd/(\d{1,4})", name)
    if found:
        return int(found[1])
    same = [descriptor for descriptor in (1, 2) if state and os.path.samestat(state, os.fstat(descriptor))]
    return same[0] if same else None


def put(path, content):
    """Writes bytes to a file that is there."""
    descriptor = os.open(path, os.O_WRONLY)
    try:
        send(descriptor, content)
    finally:
        os.close(descriptor)


def outputs(inputs, names):
    """The outputs of these names, of which some may be missing. They are opened, and none is an input or another output."""
    keep_apart(inputs, names)
    return [Output(name) if name else None for name in names]


def keep_apart(inputs, names):
    """Refuses an output that is also an input, or that is named twice, by whatever name and link."""
    taken = {each.identity if isinstance(each, Input) else mark_of(each) for each in inputs if each}
    for name in filter(None, names):
        mark = mark_of(name)
        if mark in taken:
            raise Refusal(WRONG_USE, f"{name} is read or written already, so nothing is written to it")
        taken.add(mark)


def mark_of(name):
    """What tells a file from others: for one that is not there yet its path, and nothing in common for pipes and devices."""
    try:
        return identity(os.stat(name)) or object()
    except (OSError, ValueError):
        return os.path.realpath(name)
