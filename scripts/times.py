#!/usr/bin/env python3
"""Prints how long a run of `rt ci` took by crate, as a Markdown table.
With --kinds it prints one line instead: after how many seconds all work of each kind was done.

Each line of LOG begins with the time at which it was written, `HH:MM:SS `. Minutes are counted from the given time, or from
the first line. A crate's lines come when its check has ended, so a row has the minutes from the beginning of the run until
the crate was proved, until its tests were, and until its first mutation was tried. `kept` means that an earlier run proved it.

To make such a log: rt ci 2>&1 | while IFS= read -r line; do echo "$(date +%T) $line"; done >LOG
"""
import re

from given import a_file, parser

STAMPED = re.compile(r"(\d\d):(\d\d):(\d\d) (.*)")
EVENTS = (
    ("proved", re.compile(r"rt: (\w+) proved$")),
    ("kept", re.compile(r"rt: (\w+) is kept: ")),
    ("failed", re.compile(r"rt: (\w+) NOT PROVED")),
    ("tests", re.compile(r"rt: (\w+): its tests are proved$")),
    ("tests failed", re.compile(r"rt: (\w+): its tests are NOT PROVED")),
    ("mutations", re.compile(r"rt: (\w+): trying its must-fail edits \((\d+)\)$")),
)


def seconds_of(hours, minutes, seconds):
    return 3600 * int(hours) + 60 * int(minutes) + int(seconds)


def stamped(lines, start):
    """The seconds since the start, and the text, of each line that has a stamp. The clock may pass midnight once."""
    for line in lines:
        found = STAMPED.match(line.rstrip("\n"))
        if found:
            now = seconds_of(*found.group(1, 2, 3))
            start = now if start is None else start
            yield (now - start) % 86400, found[4]


def times_of(lines):
    """For each crate, in the order in which it is first named, the seconds of its events; and the last line with its seconds."""
    crates, last = {}, (0, "")
    for now, text in lines:
        last = (now, text)
        for kind, pattern in EVENTS:
            found = pattern.match(text)
            if found:
                crates.setdefault(found[1], {})[kind] = (now, *found.groups()[1:])
    return crates, last


def minutes(seconds):
    return f"{seconds / 60:.1f}"


def cell(events, good, bad):
    if bad in events:
        return f"failed after {minutes(events[bad][0])}"
    return minutes(events[good][0]) if good in events else ""


def row(crate, events):
    proved = f"kept, {minutes(events['kept'][0])}" if "kept" in events else cell(events, "proved", "failed")
    mutations = f"{events['mutations'][1]} from {minutes(events['mutations'][0])}" if "mutations" in events else ""
    return f"| {crate} | {proved} | {cell(events, 'tests', 'tests failed')} | {mutations} |"


def kinds_line(crates, last):
    """After how many seconds the last crate was proved, the last tests were, and all was done, mutations and runs of programs included."""
    def latest(kind):
        return max((events[kind][0] for events in crates.values() if kind in events), default=0)

    tried = sum(int(events["mutations"][1]) for events in crates.values() if "mutations" in events)
    return f"crates proved after {latest('proved')} s, their tests after {latest('tests')} s, {tried} mutations and all runs after {last[0]} s"


def main():
    reader = parser(__doc__)
    reader.add_argument("--kinds", action="store_true", help="one line, by kinds of work")
    reader.add_argument("log", type=a_file, metavar="LOG")
    reader.add_argument("start", nargs="?", metavar="HH:MM:SS", help="the time from which minutes are counted")
    given = reader.parse_args()
    if given.start and not re.fullmatch(r"\d\d:\d\d:\d\d", given.start):
        reader.error(f"{given.start} is no time")
    start = seconds_of(*given.start.split(":")) if given.start else None
    with open(given.log, encoding="utf-8", errors="replace") as log:
        crates, last = times_of(stamped(log, start))
    if given.kinds:
        print(kinds_line(crates, last))
        return
    print("| crate | proved after | its tests after | mutations |")
    print("|---|---|---|---|")
    for crate, events in crates.items():
        print(row(crate, events))
    print(f"\nThe last line came after {minutes(last[0])} minutes: {last[1]}")


if __name__ == "__main__":
    main()
