"""Draws the points: area against time, and the line of those that no other beats."""
import io
import os
import warnings

from safl_tools import outside, pictures
from safl_tools.ending import one_line

DATES = {"svg": {"Date": None}, "pdf": {"CreationDate": None}}  # no date is in a picture
PLACES = ((6, 5), (6, -12), (-6, 5), (-6, -12), (14, 14), (14, -21), (-14, 14), (-14, -21), (26, -3), (-26, -3))  # of a label at its point
LETTER, LINE = 5.5, 9  # the room of a label's letter, in points of print


def ready():
    """Asks for the library, which warns of nothing and computes in one thread."""
    os.environ.setdefault("OPENBLAS_NUM_THREADS", "1")
    warnings.simplefilter("ignore")
    outside.library("matplotlib", "python3-matplotlib")


def boxes_meet(one, other):
    return one[0] < other[2] and other[0] < one[2] and one[1] < other[3] and other[1] < one[3]


def labels(named, axes):
    """Writes the points' names beside them, each where it meets no other name and no point, if there is such a place."""
    scale = 72 / axes.figure.dpi
    spots = [tuple(scale * axes.transData.transform(spot)) for _, spot in named]
    taken = [(x - 3, y - 3, x + 3, y + 3) for x, y in spots]
    for (name, spot), (x, y) in zip(named, spots):
        tries = []
        for across, up in PLACES:
            left = x + across - (LETTER * len(str(name)) if across < 0 else 0)
            box = left, y + up, left + LETTER * len(str(name)), y + up + LINE
            tries.append((sum(boxes_meet(box, other) for other in taken), (across, up), box))
        _, (across, up), box = min(tries, key=lambda each: each[0])
        taken.append(box)
        side = "right" if across < 0 else "left"
        axes.annotate(str(name), spot, textcoords="offset points", xytext=(across, up), ha=side, fontsize=9)


def drawn(name, source, spots, named, axis_names):
    """The picture of the spots of all points, the source's first, with the names of those that no other beats.

    It is the same for the same points.
    """
    import matplotlib
    matplotlib.use("Agg")
    matplotlib.rcParams.update({"svg.hashsalt": "safl-explore", "font.size": 9})
    from matplotlib import pyplot
    best = sorted(spot for _, spot in named)
    figure, axes = pyplot.subplots(figsize=(7, 4.5))
    axes.scatter(*zip(*spots), s=14, color="#b0b0b0", label="built")
    axes.step(*zip(*best), where="post", color="#4c78a8", linewidth=1)
    axes.scatter(*zip(*best), s=30, color="#4c78a8", label="no other beats it")
    axes.scatter(*zip(spots[0]), s=90, facecolors="none", edgecolors="#e45756", linewidths=1.5, label="the source")
    axes.margins(0.1)
    for axis in (axes.xaxis, axes.yaxis):
        axis.set_major_formatter("{x:,.10g}")
    axes.set(xlabel=axis_names[0], ylabel=axis_names[1])
    axes.set_title(one_line(os.path.basename(source)), parse_math=False)
    axes.legend()
    figure.tight_layout()
    figure.canvas.draw()
    labels(named, axes)
    with io.BytesIO() as file:
        kind = pictures.kind(name)
        figure.savefig(file, format=kind, metadata=DATES.get(kind), dpi=150)
        return file.getvalue()
