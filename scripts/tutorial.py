#!/usr/bin/env python3
"""Runs the commands of the documents, and compares what they print with the page.

The pages are those of PAGES, or the ones that are named. The program is $SAFL, or crates/safl/out/safl, which is built if it is
missing. All commands of a page run in one temporary folder, in which the program is called safl, `examples` and `docs` are the
repository's folders, and what tools/ has can be called by its name; PONGURIKE names the folder of the repository. --write puts
what the commands print into the pages, and what they make into the files of docs/tutorial/.

The first line of a block says what it is:

    safl NAME, verilog NAME, .. a file, which is put into the folder; a file of examples/ has to be the
                                repository's, comments above it aside
    sh                          commands; words behind it name the tools that they need, as yosys or yosys=0.23
    text                        what the commands above it print, on both outputs; without it they print nothing
    console                     commands, each after `$ `, with what it prints below it; words behind it are as those of sh
    sh by-hand, console by-hand commands that are for the reader alone
    safl, verilog, text, ..     something to look at

In a manual page the lines from .nf to .fi are a console. Commands have to end with status 0. Those whose tool is missing, or
there in another version, are SKIPPED; so is a command that begins with the name of a tool with windows. A file of docs/tutorial/,
but for pictures of pixels (.png), has to be the one of its name that was put or made on a page of the tutorial that names it. The status is 0
if nothing differs.
"""
import difflib
import os
import re
import shutil
import subprocess
import sys
import tempfile

from files import TOP, read, write
from given import parser
from program import built

PAGES = ["README.md", "docs/TUTORIAL.md", "docs/TUTORIAL_TOOLS.md", "docs/COMMANDS.md", "docs/LANGUAGE.md", "docs/VERILOG.md", "docs/AIGER.md", "man/safl.1",
         "man/safl-explain.1", "man/safl-bench.1", "man/safl-waves.1", "docs/INTEGRATION.md"]
TUTORIALS = ("docs/TUTORIAL.md", "docs/TUTORIAL_TOOLS.md")
COPIES = f"{TOP}/docs/tutorial"
SECONDS = 600
VERSIONS = {"yosys": "-V", "iverilog": "-V", "vvp": "-V", "nextpnr-ice40": "--version", "verilator": "--version"}
WINDOWS = ("gtkwave",)


class Block:
    """A block of a page: the number of its first line, what that line says, and the lines between the fences."""

    def __init__(self, number, info, lines):
        self.number, self.kind, self.words = number, info[0], info[1:]
        self.text = "".join(line + "\n" for line in lines)

    def is_file(self):
        return self.kind not in ("sh", "console", "text") and len(self.words) == 1

    def is_run(self):
        return self.kind in ("sh", "console") and self.words != ["by-hand"]


def fenced_blocks(name, page):
    found, info, first, lines = [], None, 0, []
    for number, line in enumerate(page.splitlines(), 1):
        if info is None and line.startswith("```"):
            info, first, lines = line[3:].split(), number, []
            if not info:
                sys.exit(f"tutorial: {name}: line {number}: a block has to say what it is")
        elif info is not None and line == "```":
            found.append(Block(first, info, lines))
            info = None
        elif info is not None:
            lines.append(line)
    if info is not None:
        sys.exit(f"tutorial: {name}: line {first}: the block has no end")
    return found


def manual_blocks(page):
    """The consoles of a manual page, in plain text."""
    lines = [line.replace("\\-", "-").replace("\\e", "\\").replace("\\(aq", "'") for line in page.splitlines()]
    starts = [at for at, line in enumerate(lines) if line == ".nf"]
    return [Block(at + 1, ["console"], lines[at + 1:lines.index(".fi", at)]) for at in starts]


def blocks_of(name, page):
    return fenced_blocks(name, page) if name.endswith(".md") else manual_blocks(page)


def lacking(tools, path):
    """The first of the tools that is missing, in these folders, or there in another version."""
    for tool in tools:
        name, _, version = tool.partition("=")
        if not shutil.which(name, path=path):
            return name
        if version:
            told = subprocess.run([name, VERSIONS[name]], stdout=subprocess.PIPE, stderr=subprocess.STDOUT, text=True).stdout
            if version not in re.findall(r"\d+(?:\.\d+)+", told.partition("\n")[0]):
                return f"{name} {version}"
    return None


def commands_in(text):
    """The commands of a console, each with what stands below it."""
    found = []
    for line in text.splitlines(True):
        if line.startswith("$ "):
            found.append([line[2:], ""])
        elif found and not found[-1][1] and found[-1][0].endswith("\\\n"):
            found[-1][0] += line
        else:
            found[-1][1] += line
    return found


class Run:
    """The folder of a page, and how many blocks of commands were run, were skipped and differ."""

    def __init__(self, folder, program, page):
        self.page, self.folder, self.ran, self.files, self.skipped, self.failed = page, f"{folder}/work", 0, 0, 0, 0
        os.makedirs(f"{folder}/bin")
        os.makedirs(self.folder)
        os.symlink(program, f"{folder}/bin/safl")
        for name in ("examples", "docs"):
            os.symlink(f"{TOP}/{name}", f"{self.folder}/{name}")
        for tool in os.listdir(f"{TOP}/tools") if os.path.isdir(f"{TOP}/tools") else []:
            if os.access(f"{TOP}/tools/{tool}", os.X_OK) and tool.startswith("safl-"):
                os.symlink(f"{TOP}/tools/{tool}", f"{folder}/bin/{tool.removesuffix('.py')}")
        self.environment = {**os.environ, "PATH": f"{folder}/bin:{os.environ['PATH']}", "PONGURIKE": TOP, "LC_ALL": "C"}

    def say(self, text):
        print(f"tutorial: {self.page}: {text}")

    def fail(self, text):
        self.failed += 1
        self.say(text)

    def put(self, block):
        name = block.words[0]
        if name.startswith("examples/"):
            lines = read(f"{TOP}/{name}").splitlines(True)
            self.compare(name, "".join(line for line in lines if not line.startswith("//")), block.text)
        else:
            write(f"{self.folder}/{name}", block.text)

    def shell(self, block, commands):
        """What the commands print, on both outputs."""
        how = {"stdin": subprocess.DEVNULL, "stdout": subprocess.PIPE, "stderr": subprocess.STDOUT, "timeout": SECONDS}
        try:
            done = subprocess.run(["bash", "-c", commands], cwd=self.folder, env=self.environment, text=True, **how)
        except subprocess.TimeoutExpired:
            self.fail(f"line {block.number}: the commands take longer than {SECONDS} s")
            return ""
        if done.returncode:
            self.fail(f"line {block.number}: the commands end with {done.returncode}")
        return done.stdout

    def console(self, block):
        """The console with what its commands print."""
        found = ""
        for command, wanted in commands_in(block.text):
            is_run = command.split()[0] not in WINDOWS
            found += f"$ {command}{self.shell(block, command) if is_run else wanted}"
        return found

    def printed(self, block):
        """What a block of commands prints, or nothing if a tool is missing."""
        lacks = lacking(block.words, self.environment["PATH"])
        if lacks:
            self.skipped += 1
            self.say(f"line {block.number}: SKIPPED, {lacks} is missing")
            return None
        self.ran += 1
        return self.shell(block, block.text) if block.kind == "sh" else self.console(block)

    def compare(self, what, wanted, got):
        if wanted != got:
            self.fail(f"{what} differs")
            sys.stdout.writelines(difflib.unified_diff(wanted.splitlines(True), got.splitlines(True), "page", "run"))

    def copies(self, writes):
        for name in sorted(os.listdir(COPIES)) if os.path.isdir(COPIES) else []:
            if name.endswith(".png") or name not in read(f"{TOP}/{self.page}"):
                continue
            made = f"{self.folder}/{name}"
            if not os.path.exists(made):
                self.skipped += 1
                self.say(f"docs/tutorial/{name}: SKIPPED, it was not made")
            elif writes:
                shutil.copyfile(made, f"{COPIES}/{name}")
            else:
                self.files += 1
                self.compare(f"docs/tutorial/{name}", read(f"{COPIES}/{name}"), read(made))


def follow(run, blocks):
    """Puts the files, runs the commands, and gives what was printed by the number of the block that shows it; a block of commands
    below which no text stands has its own number, negative."""
    printed = {}
    for at, block in enumerate(blocks):
        if block.is_file():
            run.put(block)
        elif block.is_run():
            below = blocks[at + 1] if at + 1 < len(blocks) and blocks[at + 1].kind == "text" and not blocks[at + 1].words else None
            got = run.printed(block)
            if got is not None and block.kind == "console":
                printed[block.number] = got
            elif got is not None:
                printed[below.number if below else -block.number] = got
    return printed


def written(name, page, blocks, printed):
    """The page with what was printed in the place of what its blocks show."""
    lines = page.split("\n")
    for block in reversed(blocks):
        if block.number in printed:
            size, shown = block.text.count("\n"), printed[block.number]
            if not name.endswith(".md"):
                shown = shown.replace("\\", "\\e").replace("-", "\\-").replace("'", "\\(aq")
            lines[block.number:block.number + size] = shown.splitlines()
    return "\n".join(lines)


def follow_page(name, program, writes):
    page = read(f"{TOP}/{name}")
    blocks = blocks_of(name, page)
    with tempfile.TemporaryDirectory(prefix="tutorial-") as folder:
        run = Run(folder, program, name)
        printed = follow(run, blocks)
        texts = {block.number: block.text for block in blocks}
        for number, got in printed.items():
            if number < 0 or not writes:
                run.compare(f"line {abs(number)}: what is printed", texts[number] if number > 0 else "", got)
        if name in TUTORIALS:
            run.copies(writes)
    if writes:
        write(f"{TOP}/{name}", written(name, page, blocks, printed))
    skipped = f", {run.skipped} SKIPPED" if run.skipped else ""
    print(f"tutorial: {name}: {run.ran} blocks of commands run, {run.files} files compared, {run.failed} differences{skipped}", flush=True)
    return run.failed


def main():
    reader = parser(__doc__)
    reader.add_argument("--write", action="store_true", help="put what is printed into the pages")
    reader.add_argument("page", nargs="*", metavar="PAGE", help=f"pages of the repository; if none is given, {', '.join(PAGES)}")
    given = reader.parse_args()
    for page in given.page:
        if not os.path.isfile(f"{TOP}/{page}"):
            reader.error(f"there is no page {page}")
    program = built()
    failed = [follow_page(page, program, given.write) for page in given.page or PAGES]
    sys.exit(1 if any(failed) else 0)


if __name__ == "__main__":
    main()
