#!/usr/bin/env python3
"""Draws the picture of examples/mandelbrot by one session of calls.

`safl session` calls the circuit once for each point of a grid, row by row, and the result gives the point's colour. Each result n
has to be the one that Python's integers give for the same steps, and to come in cycle 7n + 10. The picture has to be the one of the
page, and the page has to name the number of calls and of cycles. --write puts the picture into the folder of the page. PROGRAM is
the built program; without it that is $SAFL, or crates/safl/out/safl.
"""
import os
import struct
import sys
import tempfile
import zlib

from files import TOP, read, written
from given import a_program, parser
from program import PROGRAM, told

FOLDER = f"{TOP}/examples/mandelbrot"
PICTURE = f"{FOLDER}/picture.png"
ONE, HALF_STEP = 1 << 24, 1 << 17  # points are 1/64 apart
COLUMNS, ROWS, SIDE = 192, 160, 3  # a point is drawn as a square of so many pixels
LEFT, UPPER = -9 * ONE // 4, 5 * ONE // 4
MOST = 255
STOPS = [(0, (0xF4, 0xF7, 0xFB)), (0.4, (0x7F, 0xA8, 0xD6)), (0.7, (0x1F, 0x4E, 0x8C)), (1, (0xF0, 0xA0, 0x30))]
INSIDE = (0x22, 0x22, 0x22)


def points():
    """The points of the grid, row by row from the upper left corner, in units of 2^-24."""
    for row in range(ROWS):
        for column in range(COLUMNS):
            yield LEFT + (2 * column + 1) * HALF_STEP, UPPER - (2 * row + 1) * HALF_STEP


def word(value):
    return value % (1 << 32)


def signed(value):
    return word(value) - (word(value) >> 31 << 32)


def steps(cx, cy):
    """How many steps z = z * z + c takes until |z| > 2, 255 at most, each product rounded down to 24 bits behind the point."""
    x = y = n = 0
    while n < MOST and word((x * x >> 24) + (y * y >> 24)) <= 4 * ONE:
        x, y, n = signed((x * x >> 24) - (y * y >> 24) + cx), signed(2 * (x * y >> 24) + cy), n + 1
    return n


def replies(program):
    """What the session prints for the points: a result and a cycle for each."""
    with tempfile.TemporaryDirectory() as folder:
        script = written(folder, "script", "".join(f"{word(x)} {word(y)}\n" for x, y in points()))
        session = told([program, "session", f"{FOLDER}/mandelbrot.safl", script, "--cycles", "2000"])
    lines = session.stdout.splitlines()
    if session.returncode or lines[-1] != f"calls {COLUMNS * ROWS}":
        sys.exit(f"picture: the session ends with {session.returncode}: {session.stderr.strip()}{lines[-1:]}")
    return [tuple(int(number) for number in line.split()) for line in lines[:-1]]


def colour(n):
    """Between the colours of the stops, by the logarithm of n."""
    if n == MOST:
        return INSIDE
    at = ((n + 1) * 256).bit_length() - 9 + (n + 1) / (1 << (n + 1).bit_length() - 1) - 1  # about the binary logarithm of n + 1
    place = at / 8
    for (low, one), (high, other) in zip(STOPS, STOPS[1:]):
        if place <= high:
            return tuple(round(a + (b - a) * (place - low) / (high - low)) for a, b in zip(one, other))
    return STOPS[-1][1]


def chunk(kind, data):
    return struct.pack(">I", len(data)) + kind + data + struct.pack(">I", zlib.crc32(kind + data))


def png(results):
    """A picture of the results in their colours."""
    rows = (results[at:at + COLUMNS] for at in range(0, len(results), COLUMNS))
    pixels = b"".join((b"\0" + b"".join(bytes([n]) * SIDE for n in row)) * SIDE for row in rows)
    size = struct.pack(">IIBBBBB", COLUMNS * SIDE, ROWS * SIDE, 8, 3, 0, 0, 0)
    palette = b"".join(bytes(colour(n)) for n in range(MOST + 1))
    parts = [(b"IHDR", size), (b"PLTE", palette), (b"IDAT", zlib.compress(pixels, 9)), (b"IEND", b"")]
    return b"\x89PNG\r\n\x1a\n" + b"".join(chunk(*part) for part in parts)


def parts_of(picture):
    """The chunks of a picture of `png`, with its pixels not compressed, since zlib may compress in several ways."""
    at = 8
    while at < len(picture):
        size, kind = struct.unpack(">I4s", picture[at:at + 8])
        data = picture[at + 8:at + 8 + size]
        yield kind, zlib.decompress(data) if kind == b"IDAT" else data
        at += 12 + size


def faults(results, picture):
    """Everything that is not as it should be."""
    for (x, y), (n, cycle) in zip(points(), results):
        if (n, cycle) != (steps(x, y), 7 * n + 10):
            yield f"the point {x / ONE} + {y / ONE}i gives {n} in cycle {cycle}, and it takes {steps(x, y)} steps"
            break
    numbers = f"{len(results):,} calls take {sum(cycle + 1 for _, cycle in results):,} cycles"
    if numbers not in read(f"{FOLDER}/README.md"):
        yield f"the page does not say that {numbers}"
    with open(PICTURE, "rb") as file:
        if list(parts_of(file.read())) != list(parts_of(picture)):
            yield f"{os.path.relpath(PICTURE, TOP)} is another picture"


def main(words):
    reader = parser(__doc__)
    reader.add_argument("--write", action="store_true", help="put the picture into the folder of the page")
    reader.add_argument("program", nargs="?", type=a_program, metavar="PROGRAM")
    given = reader.parse_args(words)
    results = replies(given.program or PROGRAM)
    picture = png([n for n, _ in results])
    if given.write:
        with open(PICTURE, "wb") as file:
            file.write(picture)
    found = list(faults(results, picture))
    for fault in found:
        print(f"picture: {fault}")
    print(f"picture: {len(results):,} points compared, {len(found)} faults")
    return 1 if found else 0


if __name__ == "__main__":
    sys.exit(main(sys.argv[1:]))
