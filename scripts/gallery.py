"""The gallery's circuits: the arguments on their pages and how further ones are drawn, their subjects, and what their pictures show.

For each example PAGES has the function of scripts/references that gives the results, and the values of the page; DRAWS has a
function that picks further values at random, if there is one.
"""
import math

from references import arithmetic, ciphers, codes, control, curves, signals
from references.signals import on_circle
from references.words import float_of, number

# FIPS 197, B and C.1, and SP 800-38A, F.1.1: key, block and result
AES = [
    ("FIPS 197, C.1", "000102030405060708090a0b0c0d0e0f", "00112233445566778899aabbccddeeff", "69c4e0d86a7b0430d8cdb78070b4c55a"),
    ("FIPS 197, B", "2b7e151628aed2a6abf7158809cf4f3c", "3243f6a8885a308d313198a2e0370734", "3925841d02dc09fbdc118597196a0b32"),
    ("SP 800-38A, block 1", "2b7e151628aed2a6abf7158809cf4f3c", "6bc1bee22e409f96e93d7e117393172a", "3ad77bb40d7a3660a89ecaf32466ef97"),
    ("SP 800-38A, block 2", "2b7e151628aed2a6abf7158809cf4f3c", "ae2d8a571e03ac9c9eb76fac45af8e51", "f5d3d58503b9699de785895a96fdbaaf"),
]
# The seeds of G. Marsaglia, "Xorshift RNGs" (2003), and the numbers that follow
RANDOM = [
    123456789, 362436069, 521288629, 88675123, 3701687786, 458299110, 2500872618, 3633119408, 516391518, 2377269574, 2599949379,
    717229868, 137866584, 395339113,
]
TAPS = [8192, 16384, 8192, 0]  # a quarter, a half, a quarter
LOW_PASS = signals.low_pass(0.05, 0.7071)
GAINS = [512, 64, 128]  # 2, 0.25 and 0.5
GLIDER = ["........", ".#......", "..#.....", "###....."] + ["........"] * 12
BLINKER = ["........"] * 6 + ["..###..."] + ["........"] * 9
PENTOMINO = ["........"] * 6 + ["...##...", "..##....", "...#...."] + ["........"] * 7
# RFC 8439, 2.3.2, and the first of its appendix A.1: key, counter and nonce, block
CHACHA = [
    (
        "RFC 8439, 2.3.2", bytes(range(32)), "01000000" "000000090000004a00000000",
        "10f1e7e4d13b5915500fdd1fa32071c4c7d1f4c733c068030422aa9ac3d46c4ed2826446079faa0914c2d705d98b02a2b5129cd1de164eb9cbd083e8a2503c4e",
    ),
    (
        "RFC 8439, A.1, 1", bytes(32), "00000000" "000000000000000000000000",
        "76b8e0ada0f13d90405d6ae55386bd28bdd219b8a08ded1aa836efcc8b770dc7da41597c5157488d7724e03fb8d84a376a43b8f41518a11cc387b669b2ee6586",
    ),
]
# D. McGrew and J. Viega, "The Galois/Counter Mode of Operation", test case 2: the hash before, a block, the key
GHASH = [
    ("the block of test case 2", "0" * 32, "0388dace60b6a392f328c2b971b2fe78", "66e94bd4ef8a2c3b884cfa59ca342b2e"),
    ("the lengths after it", "5e2ec746917062882c85b0685353deb7", f"{128:032x}", "66e94bd4ef8a2c3b884cfa59ca342b2e"),
    ("by 1", "0" * 32, "0123456789abcdef0123456789abcdef", "8" + "0" * 31),
    ("all ones", "0" * 32, "f" * 32, "f" * 32),
]
# SP 800-38A, F.5.1: counter, data and result of four blocks
COUNTER = "f0f1f2f3f4f5f6f7f8f9fafbfcfdfeff"
CTR = [
    (f"SP 800-38A, block {n + 1}", "2b7e151628aed2a6abf7158809cf4f3c", COUNTER, n, data, result)
    for n, (data, result) in enumerate(
        [
            ("6bc1bee22e409f96e93d7e117393172a", "874d6191b620e3261bef6864990db6ce"),
            ("ae2d8a571e03ac9c9eb76fac45af8e51", "9806f66b7970fdff8617187bb9fffdff"),
            ("30c81c46a35ce411e5fbc1191a0a52ef", "5ae4df3edbd5d35e5b4f09020db03eab"),
            ("f69f2445df4f9b17ad2b417be66c3710", "1e031dda2fbe03d1792170a0f3009cee"),
        ]
    )
]
# RFC 8439, 2.5.2 and A.3, 7 to 9: key, message and tag
POLY1305 = [
    (
        "RFC 8439, 2.5.2", bytes.fromhex("85d6be7857556d337f4452fe42d506a80103808afb0db2fd4abff6af4149f51b"), b"Cryptographic Forum Research Group",
        "a8061dc1305136c6c22b8baf0c0127a9",
    ),
    ("A.3, 7", bytes([2]) + bytes(31), bytes([255]) * 16, "03" + "00" * 15),
    ("A.3, 8", bytes([2]) + bytes(15) + bytes([255]) * 16, bytes([2]) + bytes(15), "03" + "00" * 15),
    ("A.3, 9", bytes([1]) + bytes(31), bytes([255] * 16 + [240] + [255] * 15 + [17] + [0] * 15), "05" + "00" * 15),
    ("no bytes", bytes(range(32)), b"", None),
]
FACTORIAL = "PUSH 1 again: PICK 1 ZERO out PICK 1 MUL PICK 1 PUSH 1 SUB PUT 1 JUMP again out: HALT"
DIVISOR = "again: PICK 1 PICK 1 SUB ZERO out PICK 1 PICK 1 LESS ZERO less SWAP less: PICK 1 PICK 1 SUB PUT 1 JUMP again out: HALT"
WAVES_8 = [on_circle(0.125 * n, 0.9) for n in range(8)]
KEY = number(bytes(range(16)))
PAGES = {
    "gcd": (arithmetic.gcd, [(48, 36), (1071, 462), (0, 7), (2**64 - 1, 2**32 - 1), (12345678901234567890, 9876543210987654321)]),
    "divide": (arithmetic.divide, [(100, 7), (2**64 - 1, 10), (2**64 - 1, 2**64 - 1), (7, 100), (5, 0)]),
    "isqrt": (arithmetic.isqrt, [(0,), (2,), (144,), (10**18,), (2**64 - 1,)]),
    "modexp": (
        arithmetic.modexp,
        [(2, 10, 1000), (3, 200, 13), (65, 17, 3233), (2790, 2753, 3233), (4294967290, 65537, 4294967291), (5, 0, 1)],
    ),
    "count": (arithmetic.count, [(0,), (1,), (0xF0F0,), (1 << 127,), (2**128 - 1,), (0xABCDEF00000000000000,)]),
    "bcd": (arithmetic.bcd, [(0,), (7,), (255,), (1234567890,), (2**64 - 1,)]),
    "base64": (codes.base_64, [(b"Pongurike 12",), (b"hello, world",), (bytes(12),), (bytes(range(244, 256)),)]),
    "utf8": (
        codes.utf8,
        [
            (b"",), (b"plain ASCII",), ("caf\u00e9 \u20ac5".encode(),), ("\U0001f980\u4e2d\u6587".encode(),), (b"ab\xc0\xaf",),
            (b"x\xed\xa0\x80",), (b"ok\xe2\x82",), (b"\xf4\x90\x80\x80",),
        ],
    ),
    "crc32": (codes.crc32, [(b"123456789012345\n",), (b"The quick brown ",), (bytes(16),), (bytes([255]) * 16,)]),
    "bitonic": (
        signals.bitonic,
        [(bytes([8, 7, 6, 5, 4, 3, 2, 1]),), (b"pongurik",), (bytes([5, 5, 0, 255, 5, 0, 255, 1]),), (bytes(range(8)),)],
    ),
    "float_mul": (
        arithmetic.float_mul,
        [
            (1.5, -2.25), (0.1, 0.2), (3.4e38, 10.0), (1e-30, 1e-30), (math.inf, -1.0), (16777215.0, 16777215.0),
            (1.9999999, 1.9999999), (-0.0, 5.0), (math.inf, 0.0),
        ],
    ),
    "mandelbrot": (signals.mandelbrot, [(0, 0), (1, 0), (0.26, 0), (-0.75, 0.125), (0.5, 0.5), (2, 2)]),
    "cordic": (arithmetic.cordic, [(0.0,), (0.5,), (1.0,), (-1.0,), (math.pi / 6,), (math.pi / 4,), (math.pi / 2,)]),
    "xtea": (
        ciphers.xtea,
        [
            (0x4142434445464748, KEY, 0x497DF3D072612CB5), (0x4141414141414141, KEY, 0xE78F2D13744341D8),
            (0x5A5B6E278948D77F, KEY, 0x4141414141414141), (0x4142434445464748, 0, 0xA0390589F8B8EFA5),
        ],
    ),
    "chacha20": (
        ciphers.chacha20,
        [(title, key, bytes.fromhex(start), bytes.fromhex(block), row) for title, key, start, block in CHACHA for row in range(4)],
    ),
    "sha256": (
        ciphers.sha256,
        [(ciphers.FIPS[text], low, place) for text, place in ((0, 0), (1, 0), (1, 1)) for low in (0, 1)],
    ),
    "clock": (control.clock, [(0,), (951782400,), (1704067199,), (1795824000,), (2**32 - 1,)]),
    "fir": (
        signals.fir,
        signals.fir_stream("an impulse", [32767, 0, 0, 0], TAPS)
        + signals.fir_stream("too great for a word", [-20000] * 2, [32767, 32767, 0, 0]),
    ),
    "biquad": (signals.biquad, signals.biquad_stream("a step", [16000] * 6, LOW_PASS)),
    "pid": (
        control.pid,
        control.pid_stream("a step", [8000] * 6, GAINS) + [("at the limit, the sum stays", 30000, -30000, GAINS, (5000, 0))],
    ),
    "butterfly": (
        signals.butterfly,
        [
            ("w = 1", [16384, 0], [8192, 0], [32767, 0]), ("w = -i", [16384, 0], [8192, 4096], [0, -32768]),
            ("an eighth of a turn", on_circle(0.2, 0.9), on_circle(0.7, 0.9), on_circle(-0.125)),
            ("both of length 1", on_circle(0.25), on_circle(0.5), on_circle(-0.25)),
        ],
    ),
    "float_add": (
        arithmetic.float_add,
        [
            (1.5, -2.25), (0.1, 0.2), (3.4e38, 3.4e38), (1e10, 1.0), (16777216.0, 1.0), (16777216.0, 3.0), (1.0, -1.0),
            (1.1754944e-38, -1.1754942e-38), (2.0**-149, 2.0**-149), (math.inf, -math.inf), (-0.0, -0.0),
        ],
    ),
    "median": (
        signals.median,
        [(bytes(range(1, 10)),), (bytes([9, 9, 9, 0, 0, 0, 5, 6, 7]),), (bytes([255, 0, 255, 0, 255, 0, 255, 0, 255]),), (b"pongurike",)],
    ),
    "speck": (
        ciphers.speck,
        [
            ("published vector", [0x1B1A1918, 0x13121110, 0x0B0A0908, 0x03020100], [0x3B726574, 0x7475432D]), ("all zero", [0] * 4, [0] * 2),
            ("all ones", [2**32 - 1] * 4, [2**32 - 1] * 2),
        ],
    ),
    "siphash": (ciphers.siphash, [(bytes(range(n)),) for n in (0, 1, 7, 8, 15)] + [(b"hello, world",)]),
    "aes": (ciphers.aes, AES),
    "xorshift": (
        ciphers.xorshift,
        [
            (f"{start}, {n} step{'s' * (n != 1)}", RANDOM[i:i + 4], n, RANDOM[i + n:i + n + 4])
            for start, i, n in (("Marsaglia's seeds", 0, 1), ("the seeds", 0, 4), ("on from there", 4, 6), ("the seeds", 0, 0))
        ],
    ),
    "secded": (
        codes.secded,
        [
            (0, 0xDEADBEEFCAFEF00D), (1, 0xDEADBEEFCAFEF00D), (1, 0xDEADBEEFCAFEF00D, 40), (1, 0xDEADBEEFCAFEF00D, 0),
            (1, 0xDEADBEEFCAFEF00D, 3, 71), (0, 2**64 - 1),
        ],
    ),
    "reed_solomon": (
        codes.reed_solomon,
        [
            ("a code word", codes.code_word(b"Reed-Solomon")),
            ("its first byte changed by 1", codes.code_word(b"Reed-Solomon", (0, 1))),
            ("two bytes changed", codes.code_word(b"Reed-Solomon", (5, 0x80), (11, 0x33))), ("any bytes", b"pongurike, 16 by"),
        ],
    ),
    "edit": (
        codes.edit,
        [(b"kitten", b"sitting"), (b"saturday", b"sunday"), (b"flaw", b"lawn"), (b"", b"abc"), (b"abc", b""), (b"same", b"same")],
    ),
    "life": (control.life, [("glider", GLIDER, 4), ("blinker", BLINKER, 3), ("r-pentomino", PENTOMINO, 20), ("glider", GLIDER, 0)]),
    "uart": (
        control.uart,
        [(0x55,), (0x41, 2), (0x41, 1, 40), (0xC3, 1, 17, (1, 20, 45)), (0x41, 2, 5, (), "parity"), (0xFF, 0, 5, (), "stop"), (None, 0, 0, (3, 30))],
    ),
    "queens": (control.queens, [(1,), (4,), (5,), (6,), (8,)]),
    "float_div": (
        arithmetic.float_div,
        [
            (1.0, 3.0), (-6.0, 1.5), (1e30, 1e-30), (1e-20, 1e20), (1.1754944e-38, 3.0), (2.0**-149, 2.0**-149), (5.0, 0.0), (0.0, -0.0),
            (math.inf, -2.0), (1.0, math.inf),
        ],
    ),
    "ghash": (ciphers.ghash, GHASH),
    "scrambler": (
        codes.scrambler,
        [
            ("the sequence from its beginning", 2**31 - 1, 0, 0), ("a thousand bits later", 2**31 - 1, 1000, 0),
            ("a text", 1, 12345, number(b"scramble")), ("the text again", 1, 12345, 0),
        ],
    ),
    "viterbi": (
        codes.viterbi,
        [(0x123456789ABCDEF,), (0x123456789ABCDEF, 5, 60, 127), (0x123456789ABCDEF, *range(3, 128, 12)), (0,), (2**62 - 1, 0)],
    ),
    "aes_ctr": (ciphers.aes_ctr, CTR),
    "keccak": (
        ciphers.keccak,
        [("all zero", [0] * 25, 24, 0), ciphers.sha3(b"abc", 0), ciphers.sha3(b"abc", 1), ("twelve rounds, the last lane", list(range(25)), 12, 12)],
    ),
    "poly1305": (ciphers.poly1305, POLY1305),
    "sect113": (
        ciphers.sect113,
        [("the base point", 1, 1, 1), ("twice the base point", 2, 1, 2), ("13 times a point", 13, 77, 4), ("13 times it, and two bits more", 13, 77, 6)],
    ),
    "code_8b10b": (
        codes.code_8b10b,
        [(0, 0, 0, 0x00), (0, 1, 0, 0x4A), (0, 0, 1, 0xBC), (0, 1, 1, 0xBC), (1, 1, 0, 0b1100000101), (1, 0, 0, 0b1100000101), (0, 0, 1, 0x00)],
    ),
    "fft": (
        signals.fft,
        [("a turn", WAVES_8, 1), ("a turn", WAVES_8, 0), ("an impulse", [(32767, 0)] + [(0, 0)] * 7, 0), ("all equal", [(-32768, 32767)] * 8, 0)],
    ),
    "dct": (
        signals.dct,
        [("all equal", [200] * 8), ("a ramp", list(range(16, 256, 32))), ("an edge", [0] * 4 + [255] * 4), ("alternating", [255, 0] * 4)],
    ),
    "dds": (signals.dds, [(0, 85899346), (2**30, 2**20), (3 * 2**29, 0), (2**32 - 1, 1), (0xDEADBEEF, 0x12345678)]),
    "stack": (
        control.stack,
        [
            ("the factorial of 7", FACTORIAL, 7, 0), ("the greatest common divisor of 84 and 36", DIVISOR, 84, 36),
            ("2 + 3", "ADD HALT", 2, 3), ("the constant 4660", "PUSH 1 EXTEND 2 EXTEND 3 EXTEND 4", 0, 0),
        ],
    ),
    "ws2812": (control.ws2812, [(255, 255, 255, 255), (255, 128, 0, 255), (255, 128, 0, 40), (1, 2, 3, 255)]),
    "bch": (
        codes.bch,
        [(number(b"two bits wrong"),), (number(b"two bits wrong"), 100), (number(b"two bits wrong"), 0, 126), (number(b"two bits wrong"), 1, 2, 3)],
    ),
}
# The examples by subject, in the order of the index
SUBJECTS = {
    "Arithmetic": ["gcd", "divide", "isqrt", "modexp", "float_add", "float_mul", "float_div", "cordic", "count", "bcd"],
    "Codes and texts": [
        "crc32", "secded", "bch", "reed_solomon", "viterbi", "scrambler", "code_8b10b", "base64", "utf8", "edit",
    ],
    "Ciphers, hashes and random numbers": [
        "aes", "aes_ctr", "ghash", "xtea", "speck", "chacha20", "poly1305", "sha256", "keccak", "siphash", "sect113", "xorshift",
    ],
    "Signals and pictures": ["fir", "biquad", "fft", "butterfly", "dct", "dds", "median", "bitonic", "mandelbrot"],
    "Control, lines and searches": ["pid", "uart", "ws2812", "clock", "stack", "queens", "life"],
}
# The signals of a page's waveforms, and the first and the last cycle that they are drawn for (at most that of done)
WAVES = {
    "gcd": (["arg$gcd$a", "arg$gcd$b", "arg$gcd$s", "done", "result"], 1, 40),
    "count": (["run$high", "arg$high$s", "arg$high$n", "run$ones", "res$ones", "done", "result"], 1, 40),
    "float_add": (
        ["at$main", "at$sum", "at$shift", "arg$shift$e", "arg$shift$m", "arg$shift$n", "at$round", "arg$round$e", "done", "result"], 1, 40,
    ),
    "utf8": (["at$lead", "at$first", "at$next", "arg$lead$begin", "arg$lead$n", "arg$next$more", "done", "result"], 1, 40),
    "edit": (["arg$walk$left", "arg$walk$up", "arg$walk$down", "arg$walk$distance", "res$equal", "done", "result"], 1, 40),
    "uart": (["at$idle", "arg$idle$left", "at$bit", "arg$bit$n", "arg$bit$d", "arg$bit$odd", "done", "result"], 1, 40),
    "queens": (["arg$place$cols", "arg$place$up", "arg$place$down", "arg$place$count", "done", "result"], 1, 40),
}
# The row whose run stands on the page, where it isn't the second one
SHOWN = {"gcd": 0, "float_add": 0, "utf8": 3, "secded": 2, "stack": 0, "fft": 0}


def calls_of(name):
    """The calls of a page, as a script of a session: a line for each."""
    answer, values = PAGES[name]
    return "".join(" ".join(map(str, answer(*each)[1])) + "\n" for each in values)


def word(r, width):
    """A word of any length up to the width."""
    return r.getrandbits(r.randint(1, width))


def text(r):
    """Some characters as UTF-8, often with a byte that may be wrong."""
    found = b""
    while len(found) < 16 and r.random() < 0.9:
        ranges = [(0, 0x80), (0x80, 0x800), (0x800, 0xD800), (0xE000, 0x10000), (0x10000, 0x110000)]
        found += chr(r.randrange(*r.choice(ranges))).encode()
    found = bytearray(found[:16])
    if found and r.random() < 0.4:
        wrong = [0xC0, 0xC1, 0xE0, 0xED, 0xF0, 0xF4, 0xF5, 0x80, 0xBF, 0x9F, 0xA0, 0x90, 0x8F, 0xFF]
        found[r.randrange(len(found))] = r.choice(wrong)
    return bytes(found)


def float_drawn(r):
    if r.random() < 0.1:
        return r.choice([0.0, -0.0, math.inf, -math.inf, math.nan])
    fraction = r.choice([r.getrandbits(23), 0, 1, 0x7FFFFF])
    return float_of(r.getrandbits(1) << 31 | r.randint(1, 254) << 23 | fraction)


def close_floats(r):
    """Two numbers whose exponents are often near each other, subnormal ones among them."""
    e = r.randint(0, 254)
    exponents = e, min(254, max(0, e + r.choice([0, 1, -1, 2, -2, 23, -24, 25, r.randint(-30, 30)])))
    return tuple(float_of(r.getrandbits(1) << 31 | each << 23 | r.choice([r.getrandbits(23), 0, 1, 0x7FFFFF])) for each in exponents)


def float_pairs(r):
    """Two numbers of any kind, or two whose exponents are near each other."""
    return close_floats(r) if r.random() < 0.5 else (float_drawn(r), float_drawn(r))


def keccak_drawn(r):
    """A hash whose value a library knows, or any state."""
    if r.random() < 0.5:
        return ciphers.sha3(r.randbytes(r.randint(0, 135)), r.getrandbits(1))
    return "drawn", [r.getrandbits(64) for _ in range(25)], r.randint(0, 24), r.randint(0, 12)


def multiple_drawn(r):
    """A multiple that OpenSSL knows, or one of another point by some bits."""
    k = r.randrange(1, curves.ORDER)
    return ciphers.sect113_by_openssl(k) if r.random() < 0.5 else ("drawn", k, r.randrange(1, curves.ORDER), r.randint(0, 113))


def symbol_drawn(r):
    k, byte = r.choice(codes.coded())
    plus = r.getrandbits(1)
    return r.choice([(0, plus, k, byte), (1, plus, 0, int(codes.symbol_of(plus, k, byte), 2)), (1, plus, 0, r.getrandbits(10))])


def program_drawn(r):
    """Some instructions without a jump backwards, or one of the programs above."""
    if r.random() < 0.3:
        return "drawn", r.choice([FACTORIAL, DIVISOR]), r.randint(1, 300), r.randint(1, 300)
    code = bytearray(r.choice([*range(1, 13), 16 + r.randrange(16), 32 + r.randrange(16), 48 + r.randrange(8), 64 + r.randrange(8)]) for _ in range(15))
    for at in range(14):
        if r.random() < 0.15:
            code[at] = r.choice([80, 96]) + r.randint(at + 1, 15)
    return "drawn", bytes(code) + b"\0", r.getrandbits(16), r.getrandbits(16)


def samples(r, length):
    return [r.randint(-32768, 32767) for _ in range(length)]


DRAWS = {
    "gcd": lambda r: (word(r, 64), word(r, 64)),
    "divide": lambda r: (word(r, 64), word(r, 64)),
    "isqrt": lambda r: (word(r, 64),),
    "modexp": lambda r: (word(r, 32), word(r, 32), word(r, 32) | 1),
    "count": lambda r: (word(r, 128),),
    "bcd": lambda r: (word(r, 64),),
    "base64": lambda r: (r.randbytes(12),),
    "utf8": lambda r: (text(r),),
    "crc32": lambda r: (r.randbytes(16),),
    "bitonic": lambda r: (bytes(r.choice([r.randrange(256), r.randrange(3)]) for _ in range(8)),),
    "fir": lambda r: ("drawn", *samples(r, 1), samples(r, 3), samples(r, 4)),
    "biquad": lambda r: ("drawn", *samples(r, 1), samples(r, 4), samples(r, 3), samples(r, 2)),
    "pid": lambda r: ("drawn", *samples(r, 2), [r.getrandbits(16) for _ in range(3)], (r.randint(-(2**23), 2**23), *samples(r, 1))),
    "butterfly": lambda r: ("drawn", *[on_circle(r.random(), r.random()) for _ in range(3)]),
    "float_add": close_floats,
    "median": lambda r: (bytes(r.choice([r.randrange(256), r.randrange(3)]) for _ in range(9)),),
    "speck": lambda r: ("drawn", [r.getrandbits(32) for _ in range(4)], [r.getrandbits(32) for _ in range(2)]),
    "siphash": lambda r: (r.randbytes(r.randint(0, 15)), r.randbytes(16)),
    "aes": lambda r: ciphers.aes_by_openssl(r.randbytes(16), r.randbytes(16)),
    "xorshift": lambda r: ciphers.xorshift_drawn([r.getrandbits(32) for _ in range(4)], r.randint(0, 20)),
    "secded": lambda r: (r.getrandbits(1), r.getrandbits(64), *r.sample(range(72), r.randint(0, 2))),
    "reed_solomon": lambda r: ("drawn", r.randbytes(16)),
    "edit": lambda r: tuple(bytes(r.choice(b"abc") for _ in range(r.randint(0, 8))) for _ in range(2)),
    "life": lambda r: ("drawn", ["".join(r.choice(".#") for _ in range(8)) for _ in range(16)], r.randint(0, 12)),
    "uart": lambda r: (r.getrandbits(8), r.randint(0, 2), r.randint(0, 40)),
    "float_mul": lambda r: (float_drawn(r), float_drawn(r)),
    "cordic": lambda r: (r.uniform(-math.pi / 2, math.pi / 2),),
    "sha256": lambda r: (r.randbytes(r.randint(0, 55)), r.getrandbits(1)),
    "clock": lambda r: (word(r, 32),),
    "float_div": float_pairs,
    "aes_ctr": lambda r: ciphers.aes_ctr_by_openssl(r.randbytes(16), r.randbytes(16), r.getrandbits(32), r.randbytes(16)),
    "keccak": keccak_drawn,
    "poly1305": lambda r: ("drawn", r.randbytes(32), r.randbytes(r.randint(0, 48))),
    "sect113": multiple_drawn,
    "code_8b10b": symbol_drawn,
    "fft": lambda r: ("drawn", [on_circle(r.random(), r.random()) for _ in range(8)], r.getrandbits(1)),
    "dct": lambda r: ("drawn", list(r.choice([r.randbytes(8), bytes(r.choice([0, 255]) for _ in range(8))]))),
    "dds": lambda r: (word(r, 32), word(r, 32)),
    "stack": program_drawn,
    "ws2812": lambda r: tuple(r.randbytes(4)),
    "ghash": lambda r: ("drawn", *[r.randbytes(16).hex() for _ in range(3)]),
    "scrambler": lambda r: ("drawn", r.getrandbits(31), r.randrange(20000), r.getrandbits(64)),
    "viterbi": lambda r: (r.getrandbits(62), *[place for place in range(r.randrange(12), 128, 12) if r.random() < 0.7]),
    "bch": lambda r: (r.getrandbits(113), *r.sample(range(127), r.choice([0, 1, 2, 2, 3]))),
}
# The parameters of main that have to be public, so that time tells nothing of the others: none of those that are not named here.
PUBLIC = {
    "code_8b10b": ("decodes",), "edit": ("m", "n"), "fft": ("odd",), "keccak": ("left",), "life": ("n",), "poly1305": ("n",),
    "secded": ("decodes",), "sect113": ("n",), "siphash": ("length",), "uart": ("line", "parity"), "xorshift": ("n",),
}
# Those whose time depends on all of their parameters.
ALL_PUBLIC = (
    "even_odd", "float_add", "float_div", "float_mul", "gcd", "gcd_tuned", "mandelbrot", "modexp", "multiply", "multiply_tuned", "queens",
    "stack", "utf8",
)
