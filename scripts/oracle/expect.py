#!/usr/bin/env python3
"""Works out what the cases want, from the rules alone, and says what differs from the files.

With --write the files get what was worked out. docs/CASES.md says how case files are written. What rests on texts that the
documents leave open, as how many temporaries a circuit has, is left as it is, and counted.
"""
import argparse
import difflib
import os
import re
import sys
import threading

import aiger
import commands
from circuit import Circuit
from verilog import written_lines
from words import NoCommand, in_order

PRINTING = (0, 6)
KINDS = ("vcd", "starts", "toggles")


class Open(Exception):
    """What the documents leave open."""


def bytes_of(piece, number=0):
    if len(piece) >= 2 and piece[0] == piece[-1] == '"':
        piece = piece[1:-1]

    def escaped(match):
        c = match[1]
        if c[0] == "x":
            return chr(int(c[1:], 16))
        return {"n": "\n", "t": "\t", "r": "\r", "#": str(number)}[c]

    return re.sub(r"\\(n|t|r|#|x[0-9a-fA-F]{2})", escaped, piece.encode().decode("latin-1")).encode("latin-1")


def joined(lines, is_ended=True):
    return ("\n".join(lines) + ("\n" if is_ended else "")).encode()


def repeated(rows):
    found = []
    for row in rows:
        count, piece = row.split(" ", 1)
        found += [bytes_of(piece, i) for i in range(int(count))] if "\\#" in piece else [bytes_of(piece) * int(count)]
    return b"".join(found)


def words_of(text):
    return ["" if word == '""' else word for word in text.split()]


def row_text(status, lines):
    return " ".join([str(status)] + ([", ".join(lines)] if lines else []))


def traces_of(words):
    """The files for traces that the words name, by their kinds."""
    try:
        return in_order(words)[1]
    except NoCommand:
        return {}


def kept_start(wanted, found):
    """The wanted text if it ends with ` ..` and the found one begins as it does, else the found one."""
    return wanted if wanted.endswith(" ..") and found.startswith(wanted[:-3]) else found


class CaseFile:
    """The lines of a case file, and what is worked out for them."""

    def __init__(self, lines):
        self.lines, self.found = lines, []
        self.files, self.failing, self.probes = {}, {}, KINDS
        self.counts = {"worked out": 0, "left open": 0}

    def entries(self):
        at = 0
        while at < len(self.lines):
            head = self.lines[at]
            end = at + 1
            if head and not head.startswith(("    ", "//")):
                while end < len(self.lines) and self.lines[end].startswith("    "):
                    end += 1
            yield head, [line[4:] for line in self.lines[at + 1:end]]
            at = end

    def all(self):
        for head, body in self.entries():
            try:
                head, body = self.entry(head, body)
            except Open:
                self.counts["left open"] += 1
            self.found += [head] + ["    " + line for line in body]
        return self.found

    def entry(self, head, body):
        word, _, rest = head.partition(" ")
        if not head or head.startswith("//"):
            return head, body
        if word == "#":
            self.files, self.failing, self.probes = {}, {}, KINDS
        elif word == "probes":
            self.probes = rest.split()
        elif word == "file":
            name = rest.removesuffix(" open")
            self.files[name] = joined(body, name == rest)
        elif word == "pieces":
            self.files[rest] = repeated(body)
        elif word in ("spread", "cut"):
            self.make(word, rest)
        elif word == "printed":
            name, _, words = rest.partition(" by ")
            self.files[name] = joined(self.called(words_of(words), self.files)[1])
        elif word == "fail":
            what, number = rest.split()
            self.failing[what] = int(number)
        elif word == "safl":
            return self.call(rest, body)
        elif word == "holds" and isinstance(self.files.get(rest), bytes):
            lines = set(self.lines_of(rest))
            return head, [line for line in body if line in lines]
        elif word in ("begins", "ends", "holds"):
            return head, self.stands(word, rest, body)
        elif word == "is":
            return head, self.lines_of(rest)
        elif word == "failing":
            return head, self.failing_rows(rest, body)
        elif word in ("none", "part", "text", "lean", "folder", "shown"):
            raise Open
        else:
            return head, [self.row(word, rest, row) for row in body]
        return head, body

    def make(self, word, rest):
        name, _, rest = rest.partition(" as ")
        to, _, piece = rest.partition(" after ")
        text = self.files[name]
        if isinstance(text, Circuit):
            self.files[to] = text if word == "spread" else None
        elif word == "spread":
            self.files[to] = re.sub(rb"[ \n]+(?=[^ \n])", b"\n\n/* x */", text).rstrip(b" \n")
        else:
            piece = bytes_of(piece)
            self.files[to] = text[:text.index(piece)] + piece

    def called(self, words, files):
        if any(files.get(word) is None and word in files for word in words):
            raise Open
        self.counts["worked out"] += 1
        return commands.call(words, files)

    def call(self, rest, body):
        words, _, _ = rest.rpartition(" -> ")
        if self.failing:
            self.failing = {}
            raise Open
        status, lines = self.probed(words_of(words)) or self.called(words_of(words), self.files)
        if len(body) == 1 and len(lines) == 1:
            lines = [kept_start(body[0], lines[0])]
        return f"safl {words} -> {status}", lines

    def probed(self, words):
        """The status and line of a call for which a probe is missing or fails. What is in its files is left open then."""
        traces = traces_of(words)
        asked = {kind: next((probe for probe in self.probes if probe.partition(":")[0] == kind), None) for kind in traces}
        if None in asked.values():
            return 2, [commands.USAGE]
        status, lines = commands.call(words, dict(self.files)) if traces else (2, [])
        if status not in PRINTING:
            return None
        cycles = int(lines[1].split()[1]) + 1 if status == 0 else int(lines[0].split()[3])
        failing = [(int(probe.partition(":")[2] or 0), self.probes.index(probe), kind) for kind, probe in asked.items()]
        failing = [each for each in failing if 1 <= each[0] <= cycles + 2]
        if not failing:
            return None
        for name in traces.values():
            self.files.pop(name, None)
        self.counts["worked out"] += 1
        return 9, [f"probe {KINDS.index(min(failing)[2]) + 1} failed"]

    def stands(self, word, name, body):
        circuit = self.files.get(name)
        if word == "holds" and isinstance(circuit, aiger.Blasted):
            self.counts["worked out"] += 1
            return [line for line in body if line in circuit.symbols()]
        if not isinstance(circuit, Circuit):
            raise Open
        self.counts["worked out"] += 1
        head, outputs = written_lines(circuit)
        if word == "begins":
            return head
        if word == "ends":
            return ["endmodule"]
        return [line for line in body if line in head + outputs]

    def lines_of(self, name):
        """The lines of a file whose text is known."""
        text = self.files.get(name)
        if not isinstance(text, bytes) or not text.endswith(b"\n"):
            raise Open
        self.counts["worked out"] += 1
        return text.decode().splitlines()

    def failing_rows(self, rest, body):
        """Which call of a shelf reads and which one writes is left open; what each failure tells is not."""
        what, _, words = rest.partition(": ")
        names = words_of(words)
        whole = self.called(names, dict(self.files))
        inputs = names[1:3] if names[0] == "session" else names[1:2]
        traces = [] if what == "out" else list(traces_of(names).values())
        written = "output" if what == "out" or len(names) < 3 else names[2]
        told = {"3": f"cannot read {names[1]}", "4": f"cannot write {(traces or [written])[0]}"}
        found = []
        for row in body:
            which, _, wanted = row.partition(" -> ")
            wanted, semicolon, state = wanted.partition("; ")
            if which == "end" or what == "err":
                text = row_text(*whole)
            elif what in KINDS:
                text = f"9 probe {KINDS.index(what) + 1} failed"
            elif wanted in [f"3 cannot read {name}" for name in inputs] + [f"4 cannot write {name}" for name in traces]:
                text = wanted
            else:
                text = f"{wanted[0]} {told[wanted[0]]}"
            found.append(f"{which} -> {kept_start(wanted, text)}{semicolon}{state}")
        return found

    def row(self, word, rest, row):
        left, _, wanted = row.rpartition(" -> ")
        source, _, args = left.partition(" with ") if word in ("sources", "circuits:") else (left, "", "")
        if word == "plans:":
            self.counts["worked out"] += 1
            return f"{left} -> {commands.plan_text(bytes_of(left))}"
        if word == "circuits:":
            status, lines = self.called(words_of(f"sim p {rest} {args}"), {"p": bytes_of(source)})
            meant = commands.meant(bytes_of(source), words_of(args))
            assert status == 6 or meant == lines[0], f"the circuit gives {lines[0]}, the meaning {meant}"
        elif word == "sources":
            name, _, words = rest.partition(": ")
            status, lines = self.called(words_of(f"{words} {args}"), {name: bytes_of(source)})
        elif word == "changes":
            name, _, words = rest.partition(": ")
            status, lines = self.called(words_of(words), {name: changed(self.files[name], left)})
        elif word == "words:":
            status, lines = self.called(words_of(f"{rest} {left}"), self.files)
        else:
            raise SystemExit(f"no such entry: {word}")
        text = row_text(status, lines)
        return f"{left} -> {kept_start(wanted, text)}"


def changed(text, changes):
    for change in changes.split(" ;; "):
        old, _, new = change.partition(" => ")
        old, new = bytes_of(old), bytes_of(new)
        assert old in text, change
        text = text.replace(old, new, 1)
    return text


def given():
    """The folder of the case files, whether they are written, and which ones."""
    reader = argparse.ArgumentParser(description=__doc__, formatter_class=argparse.RawDescriptionHelpFormatter)
    reader.add_argument("--write", action="store_true", help="put what was worked out into the files")
    reader.add_argument("folder", metavar="FOLDER")
    reader.add_argument("files", nargs="*", metavar="FILE")
    words = reader.parse_args()
    if not os.path.isdir(words.folder):
        reader.error(f"there is no folder {words.folder}")
    for name in words.files:
        if not os.path.isfile(f"{words.folder}/{name}"):
            reader.error(f"there is no file {words.folder}/{name}")
    return words.folder, words.write, words.files


def main(folder, writes, names):
    differing = 0
    totals = {"worked out": 0, "left open": 0}
    for name in names or sorted(os.listdir(folder)):
        if not name.endswith(".case"):
            continue
        with open(f"{folder}/{name}", encoding="utf-8") as file:
            lines = file.read().splitlines()
        cases = CaseFile(lines)
        found = cases.all()
        for key in totals:
            totals[key] += cases.counts[key]
        diff = list(difflib.unified_diff(lines, found, name, "worked out", lineterm="", n=0))
        differing += sum(line.startswith("+") and not line.startswith("+++") for line in diff)
        print("\n".join(diff), end="\n" if diff else "")
        if writes and diff:
            with open(f"{folder}/{name}", "w", encoding="utf-8") as file:
                file.write("\n".join(found) + "\n")
    print(f"{totals['worked out']} calls worked out, {totals['left open']} entries left open, {differing} lines differ")
    STATUS.append(1 if differing else 0)


STATUS = []


if __name__ == "__main__":
    # sources nest deeply, and numbers may have thousands of digits
    sys.setrecursionlimit(1_000_000)
    sys.set_int_max_str_digits(0)
    threading.stack_size(512 * 1024 * 1024)
    thread = threading.Thread(target=main, args=given())
    thread.start()
    thread.join()
    sys.exit(STATUS[0] if STATUS else 2)
