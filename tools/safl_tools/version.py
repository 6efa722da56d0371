"""The version of the programs: the file that `make install` wrote, or the commit of the repository."""
import os
import subprocess

TOP = os.path.abspath(os.path.join(os.path.dirname(os.path.abspath(__file__)), "../.."))
INSTALLED = f"{TOP}/../doc/safl/VERSION"
COMMIT = ["git", "-C", TOP, "log", "-1", "--format=%cd-%h", "--date=format:%Y.%m.%d"]


def version():
    """The day and the name of the commit, as in PREFIX/share/doc/safl/VERSION."""
    try:
        if not os.path.exists(f"{TOP}/.git"):
            with open(INSTALLED, encoding="utf-8") as file:
                return file.read().strip()
        return subprocess.run(COMMIT, capture_output=True, text=True, check=True).stdout.strip()
    except (OSError, subprocess.CalledProcessError):
        return "unknown"
