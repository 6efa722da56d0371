#!/usr/bin/env python3
"""Says where the commands and their options differ between the program's own table (FORMS of safl_command), the table of
docs/COMMANDS.md, the manual page, the completions for bash and zsh, and the oracle; where the other words of a command differ
between the program, the page and the oracle; and which command has no section in docs/COMMANDS.md. The status is 1 where they do."""
import re
import sys

from files import TOP, text
from given import parser

sys.path.insert(0, f"{TOP}/scripts/oracle")
from words import FORMS, TRACES  # noqa: E402


def options(words):
    return set(re.findall(r"--(\w+)", words))


def gathered(pairs):
    """The options of each command, of which there may be several forms."""
    found = {}
    for verb, given in pairs:
        found.setdefault(verb, set()).update(given)
    return found


def page():
    return gathered((verb, options(rest)) for verb, rest in re.findall(r"^\| \[`safl (\w+)([^`]*)`\]\(#\1\) \|", text("docs/COMMANDS.md"), re.M))


def sections():
    """The commands that have a section, and those that README.md lists."""
    listed = re.search(r"^The commands: (.*) \(\[", text("README.md"), re.M)[1]
    return [("docs/COMMANDS.md's sections", set(re.findall(r"^## (\w+)$", text("docs/COMMANDS.md"), re.M)) - {"Words"}),
            ("README.md's list", set(re.findall(r"`(\w+)`", listed)))]


def manual():
    synopsis = text("man/safl.1").split(".SH SYNOPSIS\n")[1].split(".SH ")[0].replace("\\-", "-")
    forms = [form.split() for form in synopsis.split(".br\n")]
    return gathered((form[form.index("safl") + 1], options(" ".join(form))) for form in forms)


def bash():
    page = text("completion/safl.bash")
    verbs = re.search(r'compgen -W "(check [^"]*)"', page)[1].split()
    found = {verb: set() for verb in verbs}
    for given, words in re.findall(r"^ +([\w |]+)\) echo (--.*?) ;;$", page, re.M):
        for verb in given.split(" | "):
            found[verb] |= options(words)
    return found


def zsh():
    page = text("completion/_safl")
    found = {verb: set() for verb in re.findall(r"^        ['\"](\w+):", page, re.M)}
    branches = page.split("case $verb in\n")[1].split("esac")[0]
    for given, words in re.findall(r"^        ([\w|]+)\)(.*?);;$", branches, re.M | re.S):
        for verb in given.split("|"):
            found[verb] |= {"cycles"} & set(re.findall(r"\$(cycles)", words)) | set(re.findall(r"--(\w+)[=\[]", words))
    return found


def program():
    """The arguments of each command in the program's own table, in order: pairs of a kind and a name."""
    table = text("crates/safl_command/src/forms.rt").split("static FORMS", 1)[1].split("\n];", 1)[0]
    forms = re.findall(r'word: "(\w+)",\s*arguments: &\[(.*?)\],\s*\}', table, re.S)
    return {verb: re.findall(r'Argument::(\w+)\("(\w+)"\)', arguments) for verb, arguments in forms}


def misplaced(table):
    """What the page and the oracle say of a command's words, and the program does not."""
    for verb, usage in re.findall(r"^\| \[`safl (\w+)([^`]*)`\]\(#\1\) \|", text("docs/COMMANDS.md"), re.M):
        names = [name for kind, name in table.get(verb, []) if kind == "Name"]
        rest = any(kind == "Rest" for kind, _ in table.get(verb, []))
        words = re.sub(r"\[[^]]*\]|--\w+ [A-Z]\w*", " ", usage).split()
        if (words, "[ARG..]" in usage) != (names, rest):
            yield f"commands: docs/COMMANDS.md has {verb}{usage}, not {' '.join([verb, *names])}{' [ARG..]' * rest}"
        if verb in FORMS and (FORMS[verb][0], FORMS[verb][3]) != (len(names), rest):
            yield f"commands: the oracle has {verb} with {FORMS[verb][0]} words{' and more' * FORMS[verb][3]}, not {len(names)}{' and more' * rest}"


def oracle():
    return {verb: {*given, *flags, *TRACES.get(verb, [])} for verb, (_, given, flags, _) in FORMS.items()}


def main():
    parser(__doc__).parse_args()
    table, differing = program(), 0
    wanted = {verb: {name for kind, name in arguments if kind in ("Option", "Choice", "Flag")} for verb, arguments in table.items()}
    for line in misplaced(table):
        differing += 1
        print(line)
    for where, found in sections():
        if found != wanted.keys():
            differing += 1
            print(f"commands: {where} and the program differ in {', '.join(sorted(found ^ wanted.keys()))}")
    for where, found in (("docs/COMMANDS.md", page()), ("man/safl.1", manual()), ("completion/safl.bash", bash()), ("completion/_safl", zsh()), ("the oracle", oracle())):
        for verb in sorted(wanted.keys() | found.keys()):
            if found.get(verb) != wanted.get(verb):
                differing += 1
                print(f"commands: {where} has {verb} with {sorted(found.get(verb, ['nothing']))}, not {sorted(wanted.get(verb, ['nothing']))}")
    print(f"commands: {len(wanted)} commands, {differing} differences")
    sys.exit(1 if differing else 0)


if __name__ == "__main__":
    main()
