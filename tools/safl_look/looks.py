"""How call sites and waits look: a colour and a pattern for each site, and a pattern for each thing that is waited for.

The six colours stay apart for readers who do not see red, green or blue. With the patterns they make 42 looks; then they repeat.
"""
from dataclasses import dataclass

from safl_look.run import ARBITER, ARGUMENT

MAIN = ("#d9dde3", "#5b6675")
COLOURS = (
    ("#c5ddf0", "#2b6a9b"), ("#f9deae", "#9a5c00"), ("#f0a79c", "#851205"), ("#ebf0e4", "#5a694f"), ("#a3aaf0", "#212884"),
    ("#d29bc2", "#552244"),
)
WAITING = "#c0262d"  # cycles in which a wanted call waits for a unit


@dataclass(frozen=True)
class Pattern:
    """A square of this size that is repeated: a path with round ends, and how wide its lines are."""

    size: int
    path: str
    width: float


# What lies over a site's colour, each for as many sites as there are colours.
PATTERNS = (
    Pattern(6, "", 0), Pattern(6, "M3,-1V7", 1), Pattern(6, "M3,3h.01", 2), Pattern(5, "M-1,2.5H6", 1), Pattern(7, "M-1,-1L8,8M-1,6L1,8M6,-1L8,1", 1),
    Pattern(9, "M2.5,4.5H6.5M4.5,2.5V6.5", 1.1), Pattern(8, "M1.5,1.5H6.5V6.5H1.5Z", 0.9),
)
WAITS = {ARBITER: Pattern(5, "M-1,1L1,-1M0,5L5,0M4,6L6,4", 1.2), ARGUMENT: Pattern(5, "M2.5,2.5h.01", 2)}
WAIT_TEXTS = {ARBITER: "the arbiter", ARGUMENT: "an argument"}


def colour(site):
    """A light colour and a dark one. Site 0 is the call of main."""
    return COLOURS[(site - 1) % len(COLOURS)] if site else MAIN


def pattern(site):
    """The number of a site's pattern."""
    return (site - 1) // len(COLOURS) % len(PATTERNS) if site else 0


def drawn(found, dark, back="none"):
    """A square of a pattern as SVG, without the element around it."""
    size, path = found.size, f'<path d="{found.path}" stroke="{dark}" stroke-width="{found.width}" stroke-linecap="round" fill="none"/>'
    return f'<rect width="{size}" height="{size}" fill="{back}"/>{path}' if back != "none" else path
