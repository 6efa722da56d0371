"""The page: the facts of a run, packed, in the template of the folder web."""
import json
import os
from collections import Counter
from html import escape
from operator import sub
from urllib.parse import quote

from safl_explore.definitions import TOKEN
from safl_look import graph, looks
from safl_look.chart import laid
from safl_look.pack import Pack, planes
from safl_look.run import ARBITER, ARGUMENT, KINDS
from safl_look.words import joins, split
from safl_tools import files
from safl_tools.ending import TOOL_FAILED, Refusal

WEB = os.path.join(os.path.dirname(os.path.abspath(__file__)), "web")
SCRIPTS = ("data.js", "pens.js", "chart.js", "waves.js", "hands.js")
KEYWORDS = set("fun if then else let in case default cat bits ext and".split())
REGISTERS = {"arg": "arguments", "res": "results", "keep": "kept", **dict.fromkeys(("run", "fin", "at", "sent", "got"), "control")}
REGISTER_KINDS = tuple(dict.fromkeys(REGISTERS.values()))
SHOWN = 12  # how many waves are drawn at first
LONGEST = 40  # how many waits the table has


def token_html(word):
    if word.startswith("//"):
        return f'<span class="comment">{escape(word)}</span>'
    return f'<span class="keyword">{word}</span>' if word in KEYWORDS else escape(word)


def source_lines(program):
    """The lines of the source as HTML, each call with its site's number before it. A call of several lines is marked in each."""
    lines, open_calls = [[]], []
    for kind, value in source_pieces(program):
        if kind == "open":
            open_calls.append(value)
            lines[-1].append(f'<span class="call" data-site="{value}">')
        elif kind == "close":
            open_calls.pop()
            lines[-1].append("</span>")
        elif kind == "line":
            lines[-1].append("</span>" * len(open_calls))
            lines.append([f'<span class="call" data-site="{number}">' for number in open_calls])
        else:
            lines[-1].append(value)
    found = ["".join(line) for line in lines]
    return found[:-1] if found[-1] == "" and len(found) > 1 else found


def source_pieces(program):
    """The source in pieces: HTML, ends of lines, and where calls begin and end."""
    at, text = 0, program.text.replace("\r\n", " \n")
    opened = {site.call.begin: site.number for site in program.sites}
    closed = Counter(site.call.end for site in program.sites)
    for found in TOKEN.finditer(text):
        yield from in_lines(escape(text[at:found.start()]))
        at, number = found.end(), opened.get(found.start())
        if number:
            badge = f'<button class="badge" data-site="{number}" title="site {number}">{number}</button>'
            yield "open", number
            yield "html", f'<span class="named">{badge}{found.group()}</span>'
        else:
            yield from in_lines(token_html(found.group()))
        yield from [("close", None)] * closed[at]
    yield from in_lines(escape(text[at:]))


def in_lines(html):
    for i, line in enumerate(html.split("\n")):
        if i:
            yield "line", None
        yield "html", line


def badge_look(site):
    """The colour and the pattern of a site's number, as CSS."""
    light, dark = looks.colour(site)
    found, pattern = f"background-color: {light}; color: {dark}; border-color: {dark};", looks.PATTERNS[looks.pattern(site)]
    if pattern.path:
        size = f'width="{pattern.size}" height="{pattern.size}"'
        svg = f'<svg xmlns="http://www.w3.org/2000/svg" {size} opacity="0.5">{looks.drawn(pattern, dark)}</svg>'
        found += f" background-image: url('data:image/svg+xml,{quote(svg)}'); text-shadow: 0 0 3px white, 0 0 3px white, 0 0 2px white;"
    return found


def word_row(name, width, value, is_part=False):
    signed = value - (1 << width) if width > 1 and value >> width - 1 else value
    return {"name": name, "width": width, "value": value, "hexadecimal": f"0x{value:x}", "signed": signed, "is_part": is_part}


def owner(program, name):
    """The unit that a register belongs to: for those of a site it is that of the caller."""
    kind, _, rest = name.partition("$")
    if kind in ("sent", "got", "keep"):
        return program.caller_of(int(rest))
    return program.functions[rest.partition("$")[0]].unit


def register_table(program, widths):
    """The bits of registers by unit and kind."""
    table, count = {unit: dict.fromkeys(REGISTER_KINDS, 0) for unit in program.units}, 0
    for name, width in widths.items():
        kind = REGISTERS.get(name.partition("$")[0])
        if kind:
            table[owner(program, name)][kind] += width
            count += 1
    if (count, sum(sum(row.values()) for row in table.values())) != (program.registers, program.bits):
        raise Refusal(TOOL_FAILED, "the registers of the dump are not those that safl reports")
    return table


def registers_of(program, unit):
    """The arguments and the result of a unit."""
    names = [f"arg${name}${parameter}" for name in program.members(unit) for parameter in program.functions[name].parameters]
    return [*names, f"res${unit}"]


def shown_at_first(program):
    """The waves that are drawn at first: arguments and results, from main on, and those of loops first where they are too many."""
    units = list(reversed(program.units))
    found = []
    for unit in sorted(units, key=lambda unit: unit not in program.loops):
        found += registers_of(program, unit)[:SHOWN - 3 - len(found)]
    in_order = [name for unit in units for name in registers_of(program, unit) if name in found]
    return ["start", *in_order, "done", "result"]


class Page:
    """What the page shows."""

    def __init__(self, run, command, told, waves_asked, folder):
        self.run, self.program, self.dump, self.pack = run, run.program, run.dump, Pack()
        self.command, self.told, self.waves_asked = command, told, waves_asked
        self.graph, self.graph_note = graph.drawn(self.program, folder)
        self.parts = joins(self.program, self.dump.widths)

    def calls(self, unit):
        """The calls of a unit, packed: sites, cycles in which they were accepted, and lengths, 0 without an end."""
        calls, pack = self.run.calls[unit], self.pack
        return {
            "site": pack.numbers(calls.site), "accepted": pack.rising(calls.accepted),
            "length": pack.numbers(0 if call.ended is None else call.ended - call.accepted for call in calls),
        }

    def waits(self, unit):
        """The waits of a unit's calls, packed, with those whom they are for."""
        waits, pack = self.run.waits[unit], self.pack
        lanes = laid(zip(waits.begin, waits.end))
        return {
            "site": pack.numbers(site * 2 + kind for site, kind in zip(waits.site, waits.kind)), "begin": pack.rising(waits.begin),
            "length": pack.numbers(map(sub, waits.end, waits.begin)), "lane": pack.numbers(lanes), "lanes": max(lanes, default=-1) + 1,
            "last": pack.rising(waits.last), "holder": pack.numbers(waits.holder), "held": pack.numbers(waits.held),
        }

    def unit(self, unit):
        return {
            "name": unit, "members": self.program.members(unit), "calls": self.calls(unit), "waits": self.waits(unit),
            "works": self.spans(self.run.working(unit)),
        }

    def spans(self, spans):
        return self.pack.rising(edge for span in spans for edge in span)

    def wave(self, name, signal):
        """A signal of the window, packed: cycles from its first on, and words; one bit goes to and fro."""
        first = self.dump.window.first
        words = self.pack.add(planes(signal.words, signal.size) if signal.width > 1 else bytes([signal.first]))
        return [name, signal.width, self.pack.rising(cycle - first for cycle in signal.cycles), words]

    def site(self, site):
        line = self.program.text.count("\n", 0, site.call.begin) + 1
        return {"callee": site.callee, "caller": site.caller, "line": line, "unit": self.program.unit_of(site.number)}

    def facts(self):
        """What the page's program reads."""
        dump, widths = self.dump, self.dump.widths
        shown = self.waves_asked or shown_at_first(self.program)
        return {
            "name": os.path.basename(self.command.source).removesuffix(".safl"), "cycles": self.run.cycles,
            "main": looks.MAIN, "colours": looks.COLOURS, "patterns": [vars(pattern) for pattern in looks.PATTERNS],
            "waits": [vars(looks.WAITS[kind]) for kind in KINDS], "waiting_colour": looks.WAITING,
            "waiting": self.spans(self.run.waiting()), "parts": {name: parts for name, parts in self.parts.items() if name in dump.waves},
            "units": [self.unit(unit) for unit in reversed(self.program.units)],
            "sites": [None] + [self.site(site) for site in self.program.sites],
            "waves": [self.wave(name, dump.waves[name]) for name in widths if name in dump.waves],
            "first": dump.window.first, "end": dump.wave_end, "shown": [name for name in shown if name in dump.waves],
        }

    def site_rows(self):
        arbiter, argument = self.run.waited(ARBITER), self.run.waited(ARGUMENT)
        return [
            {
                "number": site.number, "callee": site.callee, "caller": site.caller, "kept": site.kept,
                "calls": len(self.run.accepted[site.number]), "arbiter": arbiter[site.number], "argument": argument[site.number],
                "shared": self.program.unit_of(site.number) in self.program.arbiters, "look": badge_look(site.number),
            }
            for site in self.program.sites
        ]

    def arbiter_rows(self):
        waited = self.run.waited(ARBITER)
        arbiters = [unit for unit in self.program.units if unit in self.program.arbiters]
        rows = [(unit, self.program.sites_of(unit)) for unit in arbiters]
        return [{"unit": unit, "sites": sites, "waited": sum(waited[number] for number in sites)} for unit, sites in rows]

    def word_rows(self):
        """The arguments and the result, and what the result is joined of."""
        main = self.program.functions["main"]
        given = zip(main.parameters.items(), self.command.arguments)
        rows = [word_row(name, width, int(value)) for (name, width), value in given]
        if self.told.result is not None:
            rows.append(word_row("result", main.width, self.told.result))
            rows += [word_row(*part, is_part=True) for part in split(self.told.result, self.parts.get("result", []))]
        return rows

    def numbers(self):
        """The numbers of the run that the page names."""
        calls, tails, waits = self.run.all_calls, self.run.tail_calls, self.run.waits.values()
        return {
            "calls": calls, "tails": tails, "bound": 2 * calls - tails, "span": self.run.span,
            "waiting": self.run.waiting_cycles, "waits": sum(map(len, waits)),
            "longest": self.run.longest_waits(LONGEST), "wait_texts": looks.WAIT_TEXTS,
        }

    def text(self):
        import jinja2
        loader = jinja2.FileSystemLoader(WEB)
        environment = jinja2.Environment(loader=loader, autoescape=True, trim_blocks=True, lstrip_blocks=True, keep_trailing_newline=True)
        facts = json.dumps(self.facts(), separators=(",", ":")).replace("<", "\\u003c")
        table = register_table(self.program, self.dump.widths)
        return environment.get_template("page.html").render(
            self.numbers(), style=files.read(f"{WEB}/page.css"), script="\n".join(files.read(f"{WEB}/{name}") for name in SCRIPTS),
            facts=facts, data=self.pack.text(), command=self.command, told=self.told, run=self.run, program=self.program, dump=self.dump,
            source=source_lines(self.program), graph=self.graph, graph_note=self.graph_note,
            sites=self.site_rows(), arbiters=self.arbiter_rows(), words=self.word_rows(), kinds=REGISTER_KINDS, table=table,
            total={kind: sum(row[kind] for row in table.values()) for kind in REGISTER_KINDS},
        )
