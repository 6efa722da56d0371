"""The command line of safl-explore: its words, and which of them go together."""
import os
import re

import safl_place
from safl_explore import NAME
from safl_tools import files, pictures
from safl_tools.ending import WRONG_USE, Refusal
from safl_tools.words import Words, count


def words():
    parser = Words(NAME, "Look for faster or smaller circuits of a source, or write calls out.")
    parser.add_argument("source", metavar="IN", help="the source")
    add = parser.add_argument
    add("--calls", metavar="FILE", required=True, help="the calls that count, as a script of `safl session`")
    cycles = count(1, 10**9, "number of cycles")
    add("--cycles", metavar="L", type=cycles, default=10**6, help="the most cycles of a call (1,000,000)")
    exploring(parser.add_argument_group("exploring").add_argument)
    inlining(parser.add_argument_group("writing calls out").add_argument)
    return parser


def exploring(add):
    add("--points", metavar="N", type=count(1, 10**6, "number of points"), default=60, help="build at most N sources (60)")
    add("--seconds", metavar="S", type=count(1, 10**6, "number of seconds"), default=10**6, help="stop after S seconds")
    jobs = count(1, 1024, "number of jobs")
    add("--jobs", metavar="J", type=jobs, default=os.cpu_count(), help="build J sources at once (one for each processor)")
    add("--scheduler", metavar="ADDRESS", help="measure on the Dask cluster with this scheduler, HOST:PORT")
    add("--keep", action="store_true", help="keep functions that main does not reach")
    add("--known", metavar="FILE", help="take what FILE has of sources that were built before, and add to it")
    add("--luts", action="store_true", help="area is LUTs, by Yosys")
    add("--place", action="store_true", help="area is LUTs, and time is cycles and clock, by Yosys and nextpnr")
    add("--front", action="store_true", help="with --luts or --place: look by ANDs, and measure only what no other point beats")
    devices = {"metavar": "DEVICE", "choices": safl_place.DEVICES}
    add("--device", **devices, help="the device for --luts and --place (hx8k), as safl-place has it")
    add("--dsp", action="store_true", help="multiply by the DSP blocks of the device (up5k, u4k); an ECP5 always does")
    add("--seed", metavar="SEED", type=count(0, 2**31 - 1, "seed"), help="the seed of the placement (1)")
    add("--seeds", metavar="N", type=count(1, 1000, "number of seeds"), help="with --place: the median clock of N placements (1)")
    add("--out", metavar="FOLDER", help="write the sources of the points to FOLDER, with points.json and points.md")
    add("--plot", metavar="PICTURE", help="draw the points, as .svg, .png or .pdf")


def inlining(add):
    add("--inline", metavar="NAME,NAME", help="only write out all calls of these functions")
    places = count(1, 4001, "number of places")
    add("--inline-below", metavar="K", type=places, help="the same for functions that are no loop and that fewer than K sites call")
    add("--source", dest="result", metavar="OUT", help="write that source to OUT")


def checked(chosen):
    """Refuses words that do not go together."""
    inlines = chosen.inline is not None or chosen.inline_below is not None
    if chosen.inline is not None and chosen.inline_below is not None:
        raise Refusal(WRONG_USE, "either --inline or --inline-below")
    if inlines != (chosen.result is not None):
        raise Refusal(WRONG_USE, "--source OUT goes with --inline or --inline-below, and neither without it")
    if inlines and (chosen.out or chosen.plot or chosen.keep or chosen.known or chosen.luts or chosen.place or chosen.scheduler):
        raise Refusal(WRONG_USE, "--inline and --inline-below explore nothing: of the options for that none goes with them")
    if chosen.luts and chosen.place:
        raise Refusal(WRONG_USE, "either --luts or --place")
    if (chosen.device or chosen.dsp or chosen.seed is not None) and not (chosen.luts or chosen.place):
        raise Refusal(WRONG_USE, "--device, --dsp and --seed go with --luts or --place")
    if chosen.front and (not (chosen.luts or chosen.place) or has_blocks(chosen)):
        raise Refusal(WRONG_USE, "--front goes with --luts or --place, and not with DSP blocks, as ANDs do not tell what those spare")
    if chosen.seeds and not chosen.place:
        raise Refusal(WRONG_USE, "--seeds goes with --place: there is no clock without")
    safl_place.refuse_dsp(chosen.device or "hx8k", chosen.dsp)
    if chosen.plot:
        pictures.kind(chosen.plot)


def has_blocks(chosen):
    """Whether products are made by DSP blocks."""
    return chosen.dsp or safl_place.DEVICES[chosen.device or "hx8k"].family == "ecp5"


def opened(chosen):
    """Reads the inputs, and opens the outputs."""
    chosen.source, chosen.calls = files.source(chosen.source), files.script(chosen.calls)
    if not chosen.calls.content:
        raise Refusal(WRONG_USE, f"{chosen.calls} has no call")
    inputs = [chosen.source, chosen.calls]
    outputs = files.outputs(inputs, [chosen.result, chosen.plot, chosen.known])
    is_known = chosen.known and os.path.exists(chosen.known)
    chosen.before = files.Input(chosen.known, "known", files.KNOWN_MOST).text if is_known else "{}"
    chosen.result, chosen.plot, chosen.known = outputs
    if chosen.out:
        chosen.out = files.Folder(chosen.out)
        for name in filter(lambda name: may_be_written(chosen, name), os.listdir(chosen.out.name)):
            files.keep_apart(inputs, [chosen.out.path(name)])


def may_be_written(chosen, name):
    """Whether a file of this name may be written to the folder."""
    return re.fullmatch(re.escape(chosen.source.stem) + r"\.\d+\.safl|points\.(json|md)", name)
