"""What is known of sources that were built before, in a file: the figures of each by a digest of its text and of how it was built."""
import hashlib
import json
from dataclasses import astuple, replace

from safl_tools.ending import CANNOT_READ, Refusal


class Known:
    """The file and what it had; without a file nothing is known and nothing is kept."""

    def __init__(self, file, text, safl):
        self.file, self.found, self.program = file, {}, ""
        if not file:
            return
        try:
            self.found = json.loads(text)
            fits = all({"ands", "luts"} & set(figures) for figures in self.found.values())
        except (ValueError, TypeError, AttributeError, RecursionError):
            fits = False
        if not fits:
            raise Refusal(CANNOT_READ, f"{file.name} is no file of --known")
        with open(safl.path, "rb") as program:
            self.program = hashlib.sha256(program.read()).hexdigest()

    def key(self, text, task):
        how = astuple(replace(task, calls="", limit=0, program=self.program))
        return hashlib.sha256(json.dumps([text, how]).encode()).hexdigest()

    def figures(self, text, task):
        """The figures of a source that was built in the same way, or nothing."""
        return self.found.get(self.key(text, task)) if self.file else None

    def add(self, text, task, figures):
        if self.file:
            self.found[self.key(text, task)] = figures

    def keep(self):
        if self.file:
            self.file.write(json.dumps(self.found, indent=1) + "\n")
