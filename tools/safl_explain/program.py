"""The command line of safl-explain."""
import subprocess
import sys

from safl_explain import NAME, faults, usage
from safl_explain.inputs import Inputs
from safl_explain.refusals import Ended, sections
from safl_explain.text import notes
from safl_tools import outside
from safl_tools.ending import send
from safl_tools.numbers import decimal, hexadecimal, is_hexadecimal
from safl_tools.words import Words

PURPOSE = """Runs `safl` with these words, and says more about a refusal than safl's own line, which stands first: the place in the source, what is
meant, and what to write. The status is safl's. With a rule alone, as in `safl-explain E10`, it prints the page of that rule."""


def words():
    parser = Words(NAME, PURPOSE, usage=f"{NAME} [--safl PROGRAM] COMMAND WORDS.. | {NAME} RULE | {NAME} --language-server")
    parser.add_argument("--language-server", action="store_true", help="serve an editor by the language server protocol on standard input and output")
    return parser


def split(given):
    """The words of this program, which come first, and those of `safl`."""
    at = 0
    while at < len(given) and given[at].startswith("-") and given[at] != "--":
        at += 2 if given[at] == "--safl" else 1
    return given[:at], given[at + 1:] if given[at:at + 1] == ["--"] else given[at:]


def in_decimal(given):
    """The words with hexadecimal arguments of main in decimal, and these arguments."""
    try:
        line = usage.checked(given)
    except usage.Wrong:
        return given, []
    if not line.form.takes_arguments:
        return given, []
    places = [place for place in line.plain[1:] if is_hexadecimal(given[place])]
    return [decimal(word) if place in places else word for place, word in enumerate(given)], [given[place] for place in places]


def run(safl, given, inputs, captures):
    """Runs `safl`. Gives its status, what it printed if that is captured, and its line."""
    how = {"stdin": None, "stdout": subprocess.PIPE if captures else None, "text": False, "errors": None}
    told = outside.Told([safl.path, *given], pass_fds=[number for number in inputs.descriptors if number > 2], **how)
    return told.status, told.out or b"", told.err


def say(out, err):
    """Prints what `safl` said, as it stands."""
    if out:
        sys.stdout.write(out.decode("ascii", "replace"))
        sys.stdout.flush()
    try:
        send(2, err)
    except OSError:
        pass  # as `safl` itself, with the same status


def written(report, page):
    """The lines that tell about a refusal."""
    found = page.lines(report.spot, report.others) if page and report.spot else []
    told = [("hint", hint) if not hint.startswith("usage: ") else ("usage", hint.removeprefix("usage: ")) for hint in report.hints]
    told += faults.row(report.row)
    if report.rule in faults.pages():
        told.append(("more", f"{NAME} {report.rule}"))
    margin = len(str(page.data.count(b"\n") + 1)) if page and page.numbered and report.spot else 1
    return found + notes(told, len(found[0]) - 2 if found and "|" in found[0] else margin)


def explain(safl, given, status, line, inputs):
    """Tells about a refusal. If that fails, the status is that of `safl` all the same."""
    try:
        for page, report in sections(Ended(given, inputs, status, line, safl.path)):
            print("\n".join(written(report, page)), file=sys.stderr)
    except Exception as fault:  # pylint: disable=broad-except
        print(f"{NAME}: cannot explain this: {type(fault).__name__}: {fault} (please report this)", file=sys.stderr)


def tell_hexadecimal(arguments, out):
    """What the numbers are in the other base, if arguments were given in hexadecimal."""
    parts = [f"{word} is {decimal(word)}" for word in arguments]
    for line in out.decode("ascii", "replace").splitlines():
        if line.startswith("result "):
            parts.append(f"the result is {hexadecimal(int(line.split()[1]))}")
    print("\n".join(notes([("hexadecimal", ", ".join(parts))])), file=sys.stderr)


def main():
    own, given = split(sys.argv[1:])
    chosen = words().parse_args(own)
    if chosen.language_server:
        from safl_explain.server import serve
        return serve(outside.safl(chosen.safl))
    if len(given) == 1 and faults.RULE.fullmatch(given[0].upper()):
        print(faults.page(given[0]), end="")
        return 0
    safl, inputs = outside.safl(chosen.safl), Inputs(given)
    given, changed = in_decimal(given)
    status, out, err = run(safl, given, inputs, bool(changed))
    say(out, err)
    if status:
        explain(safl, given, status, err.decode("utf-8", "surrogateescape").rstrip("\n"), inputs)
    if changed:
        tell_hexadecimal(changed, out)
    return status
