"""The units and their calls as a graph, which Graphviz draws."""
import re
import shutil

from safl_look.looks import colour
from safl_tools import files, outside

SITES_MOST = 200


def label_of(program, unit):
    """The functions of a unit, four at most, and whether it has an arbiter."""
    members = program.members(unit)
    lines = [unit] + [f"and {name}" for name in members[1:4]]
    return "\\n".join(lines + ["and more"] * (len(members) > 4) + ["arbiter"] * (unit in program.arbiters))


def text(program):
    """The graph for Graphviz: a box for each unit, double with an arbiter; an arrow for each site, thick if its value is kept."""
    lines = [
        'digraph units { rankdir=LR; bgcolor="transparent"; nodesep=0.18; ranksep=0.5; pad=0.05;',
        '  node [shape=box, style="filled,rounded", fillcolor="#f7f8fa", color="#5b6675"];',
        '  node [fontname="monospace", fontsize=11, height=0.3, margin="0.1,0.04"];',
        '  edge [fontname="monospace", fontsize=10, arrowsize=0.6];',
    ]
    for unit in program.units:
        label, has_arbiter = label_of(program, unit), unit in program.arbiters
        lines.append(f'  "{unit}" [label="{label}", peripheries={2 if has_arbiter else 1}, tooltip="unit {unit}"];')
        if unit in program.loops:
            lines.append(f'  "{unit}" -> "{unit}" [style=dashed, color="#9aa3ad", tooltip="tail calls of {unit}"];')
    for site in program.sites:
        dark, wide = colour(site.number)[1], 2.2 if site.kept else 1.1
        ends = f'"{program.caller_of(site.number)}" -> "{program.unit_of(site.number)}"'
        look = f'label="{site.number}", fontcolor="{dark}", color="{dark}", penwidth={wide}'
        lines.append(f'  {ends} [{look}, class="site", id="edge-{site.number}", tooltip="site {site.number}"];')
    return "\n".join([*lines, "}"]) + "\n"


def drawn(program, folder):
    """The drawing as SVG, and why there is none: one of the two is empty."""
    if len(program.sites) > SITES_MOST:
        return "", f"The graph is left out, since the source has {len(program.sites):,} call sites."
    dot = shutil.which("dot")
    if not dot:
        return "", "The graph is left out, since the program dot is missing (Debian: apt install graphviz)."
    files.write(f"{folder}/units.dot", text(program))
    told = outside.Told([dot, "-Tsvg", "units.dot"], folder)
    if told.status:
        raise outside.failed("dot", told)
    return re.sub(r"<title>.*?</title>", "", told.out[told.out.index("<svg"):]), ""
