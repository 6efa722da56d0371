#!/usr/bin/env python3
"""Tries tools/safl-explain: tools_explain.py [--seed S] [--count N]

The faults of scripts/explained.md, of which each is to be explained as it stands there (scripts/tutorial.py --write writes the page
anew, to be looked at). The examples of the pages of all rules: each refused one has that fault, and each accepted one has none.
Sources that are examples with some tokens changed, at random: the second reading comes to the fault that `safl check` reports, and
what `safl-explain` prints begins with the program's own line, with the same status. Words at random: a word is found wrong just where
`safl` answers with its usage line. The language server tells the same fault, in the
columns of the protocol. The table of faults in docs/LANGUAGE.md is the one that the tool shows. And wrong uses: a line and a status.

What can't be tried is SKIPPED. The status is 0 if all is well.
"""
import json
import random
import re
import subprocess
import sys
import tempfile

from files import TOP, examples, read, text, write, written
from given import a_number, parser
from program import PROGRAM, lacks, told
from tutorial import follow_page

sys.path.insert(0, f"{TOP}/tools")
from safl_explain import faults, source, usage  # noqa: E402
from safl_explain.tokens import tokens  # noqa: E402
from safl_tools.ending import Refusal  # noqa: E402
from safl_tools.outside import library  # noqa: E402

EXPLAIN, CASES = f"{TOP}/tools/safl-explain", "scripts/explained.md"
FAULT = re.compile(r".*?:(\d+):(\d+): (E\d\d) .*")
NOT_READ = ("E03", "E04")  # what the second reading does not look for
SPOKEN = 40  # how many of the changed sources are given to the tool itself
WORDS = ("fun if then else let in case default cat bits ext and ( ) { } , : ; = => == != < <= > >= << >> + - * & | ^ ~ x y a main "
         "0 1 2 300 129 8'd3 4'b11 8'd300").split()
SIZE = 4000  # the most bytes of a source that is changed
GIVEN = ("x y 5 0 1 99 1e3 -1 - -- --cycles --cycles=9 --vcd --vcd=t --starts=t --starts --toggles=u --opt --opt=1 --copy --copy=1 --unfold=1 --order=1 "
         "--order --steps=5 --help -h --cyc=5 --copy=x 1000000001 901 18446744073709551616 000000000000000000001").split() + [""]
USAGE = 2  # the status of `safl` for words that are no command


class Trial:
    """What was tried so far, and how much of it differs."""

    def __init__(self, folder):
        self.folder, self.failed = folder, 0

    def same(self, what, wanted, got):
        if wanted != got:
            self.failed += 1
            print(f"tools_explain: {what}: {wanted} is wanted, but there is {got}")

    def explain(self, *words):
        return told([EXPLAIN, "--safl", PROGRAM, *words], self.folder)


def try_pages(trial):
    """The examples of the pages. Those of Verilog are lines of the file `c` of docs/VERILOG.md."""
    count, whole = 0, re.findall(r"^```verilog c\n(.*?)^```$", text("docs/VERILOG.md"), re.M | re.S)[-1]
    for rule in faults.pages():
        page = faults.page(rule)
        for kind, block in re.findall(r"^   (refused|accepted):\n((?:     .*\n)+)", page, re.M):
            path = written(trial.folder, "page.safl", re.sub("^     ", "", block, flags=re.M))
            done = told([PROGRAM, "check", path])
            found = FAULT.fullmatch(done.stderr.strip())
            trial.same(f"{rule}, {kind} {block!r}", rule if kind == "refused" else None, found and found[3])
            count += 1
        for bad, good in re.findall(r"^   refused:   (.*)\n   accepted:  (.*)$", page, re.M):
            path = written(trial.folder, "page.v", whole.replace(good, bad))
            line = told([PROGRAM, "run", path, "--cycles", "20"]).stderr
            trial.same(f"{rule}, {bad}", (True, True), (good in whole, f": {rule} " in line))
            count += 1
    return count


def try_rows(trial):
    """The table of faults: that of the page, word for word, and each rule in a row."""
    trial.same("the table of faults is in docs/LANGUAGE.md", True, read(f"{TOP}/tools/safl_explain/rows.md") in text("docs/LANGUAGE.md"))
    keys = " ".join(faults.rows())
    trial.same("rules without a row", [], [rule for rule in faults.pages() if rule[0] == "E" and rule not in keys])


def changed(chosen, whole):
    """A source with one token or two that are left out, put in or replaced."""
    parts = [token.text for token in tokens(whole)[0][:-1]]
    for _ in range(chosen.choice((1, 1, 2))):
        at = chosen.randrange(len(parts))
        alike = [part for part in parts if part[0].isalpha() == parts[at][0].isalpha() and part[0].isdigit() == parts[at][0].isdigit()]
        kind = chosen.randrange(6)
        if kind == 0:
            del parts[at]
        elif kind == 1:
            parts.insert(at, chosen.choice(WORDS))
        else:
            parts[at] = chosen.choice(WORDS if kind == 2 else alike)
    return " ".join(parts)


def try_readings(trial, count, seed):
    """Changed sources: the second reading, and for some of them the tool."""
    chosen, path, rules = random.Random(seed), f"{trial.folder}/changed.safl", set()
    texts = [each for each in (read(path) for _, path in examples()) if len(each) < SIZE]
    for number in range(count):
        whole = changed(chosen, chosen.choice(texts))
        write(path, whole)
        done = told([PROGRAM, "check", path])
        found = FAULT.fullmatch(done.stderr.strip())
        rules.add(found and found[3])
        if not found or found[3] not in NOT_READ:
            own = source.reading(whole) if not found or found[3] != "E01" else None
            wanted = (found[3], int(found[2]) - 1) if found and found[3] != "E01" else None
            trial.same(f"changed source {number} of seed {seed}: {done.stderr.strip()}", wanted, own and (own.rule, own.spot.place))
        if number < SPOKEN:
            said = trial.explain("check", path)
            trial.same(f"changed source {number} of seed {seed}: status, output and first line", (done.returncode, done.stdout, done.stderr.splitlines()[:1]),
                       (said.returncode, said.stdout, said.stderr.splitlines()[:1]))
    return len(rules - {None})


def line_of(chosen, verb):
    """Words that begin with a command's word: its form with perhaps one word more, or any words."""
    form = usage.FORMS.get(verb)
    if not form or chosen.random() < 0.3:
        return [verb, *chosen.choices(GIVEN, k=chosen.randrange(1, 5))]
    words = [verb, *({"SEED": "1", "COUNT": "5"}.get(place, "x") for place in form.places)]
    words += [f"--{name}=9" for name in form.options if name not in (*form.optional, *form.one_of)] + ["--copy=1"] * bool(form.one_of)
    if chosen.random() < 0.8:
        words.insert(chosen.randrange(1, len(words) + 1), chosen.choice(GIVEN))
    return words


def is_command(words):
    try:
        usage.checked(words)
    except usage.Wrong:
        return False
    return True


def try_words(trial, count, seed):
    """Words at random."""
    chosen = random.Random(seed)
    for _ in range(count):
        words = line_of(chosen, chosen.choice([*usage.FORMS, "sims"]))
        write(f"{trial.folder}/x", "fun main(a:8):8 = a\n")
        done = subprocess.run([PROGRAM, *words], cwd=trial.folder, stdin=subprocess.DEVNULL, capture_output=True, check=False)
        trial.same(f"whether these words are a command: {words}", done.returncode != USAGE, is_command(words))


def packed(message):
    body = json.dumps({"jsonrpc": "2.0", **message}).encode()
    return b"Content-Length: %d\r\n\r\n%s" % (len(body), body)


def unpacked(stream):
    while stream:
        size = int(re.match(rb"Content-Length: (\d+)\r\n", stream)[1])
        body = stream.index(b"\r\n\r\n") + 4
        yield json.loads(stream[body:body + size])
        stream = stream[body + size:]


def try_server(trial):
    """A dialog with the language server: a text with a fault behind a letter of two units, and a text without one."""
    document, whole = {"uri": "file:///a.safl", "version": 1}, "// \N{GRINNING FACE}\nfun main(a:8, b:16):8 = // x\n  a + b\n"
    change = {"method": "textDocument/didChange"}
    asked = [
        {"id": 1, "method": "initialize", "params": {}}, {"method": "initialized", "params": {}},
        {"method": "textDocument/didOpen", "params": {"textDocument": {**document, "languageId": "safl", "text": whole}}},
        {**change, "params": {"textDocument": document, "contentChanges": [{"text": "fun main(a:8):8 = a // \N{GRINNING FACE}\nfun \u00e9"}]}},
        {**change, "params": {"textDocument": document, "contentChanges": [{"text": "fun main(a:8):8 = a\n"}]}},
        {"id": 2, "method": "shutdown"}, {"method": "exit"},
    ]
    words = [EXPLAIN, "--safl", PROGRAM, "--language-server"]
    done = subprocess.run(words, input=b"".join(map(packed, asked)), capture_output=True, timeout=60, check=False)
    found = [each["params"]["diagnostics"] for each in unpacked(done.stdout) if each.get("method") == "textDocument/publishDiagnostics"]
    shown = [[(each["code"], each["range"]["start"], each["range"]["end"]) for each in one] for one in found]
    at = {"line": 2, "character": 6}, {"line": 2, "character": 7}
    foreign = {"line": 1, "character": 4}, {"line": 1, "character": 5}
    trial.same("what the language server tells", ([[("E12", *at)], [("E01", *foreign)], []], 0), (shown, done.returncode))


def try_wrong_uses(trial):
    uses = [
        (["E99"], 2, "there is no rule E99"), (["--frob", "check", "x"], 2, "--frob"), (["--language-server", "--frob"], 2, "--frob"),
        (["--safl", f"{trial.folder}/nothing", "check", "x"], 30, "no program"),
    ]
    for words, status, part in uses:
        done = trial.explain(*words)
        trial.same(f"safl-explain {' '.join(words)}", (status, 1, True), (done.returncode, len(done.stderr.splitlines()), part in done.stderr))
    trial.same("the page of e10", (0, faults.page("E10")), (lambda done: (done.returncode, done.stdout))(trial.explain("e10")))
    return len(uses)


def main():
    reader = parser(__doc__)
    reader.add_argument("--seed", type=a_number, default=1, help="what changes the sources (%(default)s)")
    reader.add_argument("--count", type=a_number, default=400, help="how many sources are changed (%(default)s)")
    given = reader.parse_args()
    if lacks(PROGRAM):
        return
    try:
        lacking = library("pylsp_jsonrpc", "python3-pylsp-jsonrpc") and None
    except Refusal as refusal:
        lacking = refusal.line
    with tempfile.TemporaryDirectory(prefix="tools-explain-") as folder:
        trial = Trial(folder)
        trial.failed += follow_page(CASES, PROGRAM, False)
        pages, uses = try_pages(trial), try_wrong_uses(trial)
        try_rows(trial)
        rules = try_readings(trial, given.count, given.seed)
        try_words(trial, given.count, given.seed)
        if not lacking:
            try_server(trial)
    skipped = f", SKIPPED the language server: {lacking}" if lacking else ""
    print(f"tools_explain: {pages} examples of pages, {given.count} changed sources with {rules} kinds of faults, {given.count} lists of words,"
          f" {uses} wrong uses, {trial.failed} differences{skipped}")
    sys.exit(1 if trial.failed else 0)


if __name__ == "__main__":
    main()
