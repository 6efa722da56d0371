#!/usr/bin/env python3
"""Tries `make install` and `make uninstall`, with a folder for DESTDIR.

Each link of the installed pages leads to a file and a heading. Each installed tool says its version, which is the one in
share/doc/safl/VERSION, has a manual page of which `man` makes no complaint, and completions; what safl-explain tells is found from
there, and the documents that it names are the installed ones. After `make uninstall` no file is left.
"""
import os
import re
import sys
import tempfile

import links
from files import TOP, examples, read
from given import parser
from program import PROGRAM, TIMER, lacks, told

PREFIX = "/usr"


class Trial:
    """The folder, and how much differs."""

    def __init__(self, folder):
        self.folder, self.failed = folder, 0

    def same(self, what, wanted, got):
        if wanted != got:
            self.failed += 1
            print(f"tools_installed: {what}: {wanted!r} is wanted, but there is {got!r}")

    def make(self, goal):
        done = told(["make", "-s", "-C", TOP, goal, f"DESTDIR={self.folder}", f"PREFIX={PREFIX}", f"PROGRAM={PROGRAM}", f"TIMER={TIMER}"])
        self.same(f"make {goal}", (0, ""), (done.returncode, done.stderr))


def tools():
    return sorted(name for name in os.listdir(f"{TOP}/tools") if name.startswith("safl-"))


def try_tool(trial, name, version):
    top = f"{trial.folder}{PREFIX}"
    done = told([f"{top}/bin/{name}", "--version"])
    trial.same(f"{name} --version", (0, f"{name} {version}\n"), (done.returncode, done.stdout))
    done = told(["man", "--warnings", "-l", f"{top}/share/man/man1/{name}.1"])
    trial.same(f"man {name}", (0, ""), (done.returncode, done.stderr))
    trial.same(f"the manual page of {name} has --version", True, "version" in done.stdout)
    for path in (f"bash-completion/completions/{name}", f"zsh/site-functions/_{name}"):
        trial.same(f"{path} completes --version", True, "--version" in read(f"{top}/share/{path}"))


def try_explain(trial):
    """The tool finds the program beside it, its own files, and the documents."""
    environment = {**os.environ, "PATH": os.defpath}
    environment.pop("SAFL", None)
    words = ["env", "-i", f"PATH={os.environ['PATH']}", f"{trial.folder}{PREFIX}/bin/safl-explain", "check", dict(examples())["seven"]]
    done = told(words)
    trial.same("the installed safl-explain", (0, "functions 1\nsites 0\n"), (done.returncode, done.stdout))
    done = told([f"{trial.folder}{PREFIX}/bin/safl-explain", "E10"])
    trial.same("the installed page of E10", True, done.stdout.startswith("E10 "))
    for word, page in (("E04", "LANGUAGE"), ("V06", "VERILOG"), ("E99x", "COMMANDS")):
        done = told([*words[:-2], word], trial.folder)
        wanted = f"{trial.folder}{PREFIX}/share/doc/safl/docs/{page}.md"
        trial.same(f"safl-explain {word} names {page}.md", [wanted], re.findall(r"[^\s(]*\.md", done.stdout + done.stderr))


def main():
    parser(__doc__).parse_args()
    if lacks(PROGRAM):
        return
    with tempfile.TemporaryDirectory(prefix="tools-installed-") as folder:
        trial = Trial(os.path.join(folder, "root"))
        trial.make("install")
        documents = f"{trial.folder}{PREFIX}/share/doc/safl"
        broken = list(links.broken(documents))
        trial.same("links that lead nowhere", [], broken)
        count = sum(len(links.LINK.findall(read(page))) for page in links.pages(documents))
        for name in tools():
            try_tool(trial, name, read(f"{documents}/VERSION").strip())
        trial.same("README.md and docs name each tool", [], [name for name in tools() if not re.search(rf"`{name}`", read(f"{documents}/README.md"))])
        try_explain(trial)
        trial.make("uninstall")
        left = [os.path.join(path, name) for path, _, names in os.walk(trial.folder) for name in names]
        trial.same("files left by make uninstall", [], left)
    print(f"tools_installed: {len(tools())} tools, {count} links followed, {trial.failed} differences")
    sys.exit(1 if trial.failed else 0)


if __name__ == "__main__":
    main()
