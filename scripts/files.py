"""The folder of the repository, and texts in files. Scripts that import this may import the modules of tools/ too."""
import glob
import os
import sys

TOP = os.path.dirname(os.path.dirname(os.path.abspath(__file__)))
sys.path.append(f"{TOP}/tools")


def read(path):
    with open(path, encoding="utf-8") as file:
        return file.read()


def text(path):
    """The text of a file of the repository."""
    return read(f"{TOP}/{path}")


def write(path, text):
    with open(path, "w", encoding="utf-8") as file:
        file.write(text)


def written(folder, name, text):
    """The path of a file of the folder that has this text from now on."""
    path = os.path.join(folder, name)
    write(path, text)
    return path


def examples():
    """The names and files of the sources of examples/, but for those of by_hand and faster, which are other forms of them."""
    paths = sorted(glob.glob(f"{TOP}/examples/*.safl") + glob.glob(f"{TOP}/examples/*/*.safl"))
    return named(path for path in paths if os.path.basename(os.path.dirname(path)) not in ("by_hand", "faster"))


def tuned():
    """The same of the tuned forms."""
    return named(sorted(glob.glob(f"{TOP}/examples/by_hand/*.safl")))


def named(paths):
    return [(os.path.basename(path).removesuffix(".safl"), path) for path in paths]
