"""Temporary files and folders. Whatever happens, none is left when the program ends."""
import atexit
import os
import shutil
import time
from contextlib import contextmanager

from safl_tools.ending import CANNOT_WRITE, Refusal

TRIES, PAUSE = 20, 0.05  # a program that was just killed may still write into its folder


class Made(set):
    """The paths of what was made and is not removed yet. A copy on another machine begins empty."""

    def __reduce__(self):
        return Made, ()


MADE = Made()


def new_path(folder, begin="safl-"):
    """A path in a folder that nothing has, noted before anything is made there."""
    path = os.path.join(folder, begin + os.urandom(8).hex())
    MADE.add(path)
    return path


def removed(path):
    """Whether a file or a folder is gone now."""
    try:
        os.remove(path)
    except FileNotFoundError:
        return True
    except IsADirectoryError:
        return emptied(path)
    except OSError:
        return False
    return True


def emptied(path):
    """Whether a folder is gone now, with all that was in it."""
    try:
        shutil.rmtree(path)
    except OSError:
        return False
    return True


def remove(path):
    for _ in range(TRIES):
        if removed(path):
            break
        time.sleep(PAUSE)
    MADE.discard(path)


def remove_all():
    for path in list(MADE):
        remove(path)


atexit.register(remove_all)


def kept_folder():
    """A temporary folder, which is removed when the program ends."""
    path = new_path(os.path.abspath(os.environ.get("TMPDIR") or "/tmp"))
    try:
        os.mkdir(path, 0o700)
    except OSError:
        raise Refusal(CANNOT_WRITE, f"cannot write {os.path.dirname(path)}, the folder for temporary files") from None
    return path


@contextmanager
def folder():
    """A temporary folder for some work."""
    path = kept_folder()
    try:
        yield path
    finally:
        remove(path)
