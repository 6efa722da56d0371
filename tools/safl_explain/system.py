"""Files that can't be read or written: the system's reason."""
import os
import stat

from safl_explain.hints import nearest


def unreadable(path):
    """Why a file can't be read, and hints."""
    if path == "-":
        return "there is no such file", ["`-` is a file of that name; standard input is `/dev/stdin`"]
    try:
        with open(path, "rb") as file:
            file.read(1)
        return "it can be read now", []
    except FileNotFoundError:
        return "there is no such file", beside(path)
    except IsADirectoryError:
        return "this is a folder", inside(path)
    except OSError as fault:
        return fault.strerror.lower(), owner(path)


def beside(path):
    """A hint: the file of the folder whose name is nearest, or the folder that is missing."""
    folder, name = os.path.split(path)
    if not os.path.isdir(folder or "."):
        return [f"there is no folder {folder}"]
    try:
        meant = nearest(name, os.listdir(folder or "."))
    except OSError:
        return []
    return [f"did you mean `{os.path.join(folder, meant)}`?"] if meant else []


def inside(path):
    """A hint: the sources of a folder."""
    try:
        found = sorted(name for name in os.listdir(path) if name.endswith((".safl", ".v")))
    except OSError:
        return []
    return [f"it has {', '.join(found[:5])}{' ..' if len(found) > 5 else ''}"] if found else []


def owner(path):
    """A hint: the permissions of a file, or of the first folder on the way to it that can't be entered."""
    on_the_way = []
    while path and path != os.path.dirname(path):
        on_the_way.append(path)
        path = os.path.dirname(path)
    for each in reversed(on_the_way):
        try:
            mode = os.stat(each).st_mode
        except OSError:
            return []
        if not os.access(each, os.X_OK if stat.S_ISDIR(mode) else os.R_OK):
            return [f"{each} has the permissions {stat.filemode(mode)}"]
    return []


def unwritable(path):
    """Why a file can't be written. Nothing is written to find out."""
    folder = os.path.dirname(path) or "."
    if os.path.isdir(path):
        return "this is a folder", []
    if not os.path.isdir(folder):
        return f"there is no folder {folder}", []
    target = path if os.path.exists(path) else folder
    try:
        room = os.statvfs(target)
        if room.f_flag & os.ST_RDONLY:
            return "it is on a file system that can only be read", []
    except OSError as fault:
        return fault.strerror.lower(), []
    if not os.access(target, os.W_OK):
        return "permission denied", [f"{target} has the permissions {stat.filemode(os.stat(target).st_mode)}"]
    if path == "/dev/full" or room.f_bavail == 0:
        return "no space is left on the device", []
    return "the system refused it; the disk may have been full, or a limit (`ulimit -f`) passed", []
