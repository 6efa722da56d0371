"""What the circuits of codes and texts are to answer."""
import base64
import zlib

from references.words import joined, number, text_of


def base_64(data):
    return text_of(data), [number(data)], number(base64.b64encode(data))


def utf8(data):
    try:
        result = len(data.decode("utf-8"))
    except UnicodeDecodeError as fault:
        result = 256 + fault.start
    return text_of(data), [number(data.ljust(16, b"\0")), len(data)], result


def crc32(data):
    return text_of(data), [number(data)], zlib.crc32(data)


def positions(code):
    """The XOR of the positions of the set bits."""
    found = 0
    for place in range(72):
        found ^= place * (code >> place & 1)
    return found


def secded_word(data):
    """The code word of these data: the checks make the XOR of the positions 0, the parity makes their number even."""
    places = [p for p in range(3, 72) if p & (p - 1)]
    code = sum((data >> i & 1) << p for i, p in enumerate(places))
    code |= sum(1 << (1 << j) for j in range(7) if positions(code) >> j & 1)
    return code | bin(code).count("1") % 2


def secded_data(code):
    return sum((code >> p & 1) << i for i, p in enumerate(p for p in range(3, 72) if p & (p - 1)))


def secded(decodes, data, *flipped):
    """A word is encoded; or decoded with these bits flipped, to the code word that one flip leads to, if there is one."""
    code = secded_word(data)
    if not decodes:
        return f"encode {data:#x}", [0, data], code
    for place in flipped:
        code ^= 1 << place
    near = [code ^ flip for flip in [0] + [1 << p for p in range(72)]]
    right = [word for word in near if positions(word) == 0 and bin(word).count("1") % 2 == 0]
    state = 2 if not right else int(right[0] != code)
    what = ["no bit", "bit", "bits"][min(len(flipped), 2)] + "".join(f"{' and'[4 * (i == 0):]} {place}" for i, place in enumerate(flipped))
    return f"decode it with {what} flipped", [1, code], state << 64 | secded_data(right[0] if right else code)


def field_tables():
    """The powers of 2 in the field, and the exponent of each element."""
    powers = [1]
    while len(powers) < 255:
        powers.append(powers[-1] << 1 ^ (0x11D if powers[-1] & 0x80 else 0))
    return powers, {power: i for i, power in enumerate(powers)}


def reed_solomon(title, data):
    powers, exponents = field_tables()
    sums = [0, 0, 0, 0]
    for place, byte in enumerate(reversed(data)):
        for j in range(4 if byte else 0):
            sums[j] ^= powers[(exponents[byte] + j * place) % 255]
    return title, [number(data)], number(bytes(reversed(sums)))


def code_word(data, *wrong):
    """Twelve bytes with the four checks that make them a code word, and bytes changed at these places."""
    powers, exponents = field_tables()

    def times(a, b):
        return powers[(exponents[a] + exponents[b]) % 255] if a and b else 0

    divisor = [1]
    for j in range(4):
        divisor = [a ^ times(powers[j], b) for a, b in zip(divisor + [0], [0] + divisor)]
    rest = list(data) + [0] * 4
    for i in range(12):
        for j, d in enumerate(divisor[1:], 1):
            rest[i + j] ^= times(rest[i], d)
    word = bytearray(data + bytes(rest[12:]))
    for place, change in wrong:
        word[place] ^= change
    return bytes(word)


def edit(a, b):
    distances = list(range(len(b) + 1))
    for i, x in enumerate(a, 1):
        corner, distances[0] = distances[0], i
        for j, y in enumerate(b, 1):
            corner, distances[j] = distances[j], min(distances[j] + 1, distances[j - 1] + 1, corner + (x != y))
    args = [number(a.ljust(8, b"\0")), len(a), number(b.ljust(8, b"\0")), len(b)]
    return f"{text_of(a)} and {text_of(b)}", args, distances[-1]


def convolved(data):
    """The frame of 62 bits of data and two zeros: for each bit its sum with the two before it, and with the one before these."""
    bits = [0, 0] + [data >> (61 - i) & 1 for i in range(62)] + [0, 0]
    frame = 0
    for oldest, older, new in zip(bits, bits[1:], bits[2:]):
        frame = frame << 2 | (new ^ older ^ oldest) << 1 | new ^ oldest
    return frame


def viterbi(data, *wrong):
    """A frame in which these bits were turned over, counted from the first one; one in twelve is corrected for certain."""
    frame = convolved(data)
    for place in wrong:
        frame ^= 1 << (127 - place)
    title = f"{data:#x} with {len(wrong) or 'no'} error{'s' * (len(wrong) != 1)}"
    return title, [frame], len(wrong) << 62 | data


def bch_remainder(value, divisor):
    """What is left of a polynomial over the field of two elements."""
    while value.bit_length() >= divisor.bit_length():
        value ^= divisor << (value.bit_length() - divisor.bit_length())
    return value


BCH = 0o41567  # the generator of the code (127, 113), as the tables of such codes have it


def bch(data, *wrong):
    """A code word in which these bits were turned over: it is corrected if there are at most two."""
    sent = data << 14 | bch_remainder(data << 14, BCH)
    received = sent
    for place in wrong:
        received ^= 1 << place
    title = f"{len(wrong)} bits turned over" if len(wrong) != 1 else "a bit turned over"
    if len(wrong) <= 2:
        return title, [received], len(wrong) << 113 | data
    near = [flip for flip in bch_flips() if bch_remainder(received ^ flip, BCH) == 0]
    return title, [received], bin(near[0]).count("1") << 113 | (received ^ near[0]) >> 14 if near else 3 << 113 | received >> 14


def bch_flips():
    """All words with one or two bits."""
    return [1 << i | 1 << j for i in range(127) for j in range(i + 1)]

def scrambler(title, seed, n, data):
    """The seed is the first 31 bits of the sequence."""
    bits = [seed >> (30 - i) & 1 for i in range(31)]
    while len(bits) < n + 95:
        bits.append(bits[-28] ^ bits[-31])
    return title, [seed, n, data], joined(bits[n + 64:n + 95], 1) << 64 | data ^ joined(bits[n:n + 64], 1)


# The 8b/10b code as its table is published, for a line that has sent more zeros: by five bits, by three, and those of K.28
SIX = (
    "100111 011101 101101 110001 110101 101001 011001 111000 111001 100101 010101 110100 001101 101100 011100 010111"
    " 011011 100011 010011 110010 001011 101010 011010 111010 110011 100110 010110 110110 001110 101110 011110 101011"
).split()
FOUR = {
    0: "1011 1001 0101 1100 1101 1010 0110 1110".split(),  # after six bits that left more zeros
    1: "0100 1001 0101 0011 0010 1010 0110 0001".split(),  # after six bits that left more ones
}
COMMA = "0100 1001 0101 0011 0010 1010 0110 1000".split()
RUNS = {0: ((17, 18, 20), "0111"), 1: ((11, 13, 14), "1000")}  # where the seventh symbol would make a run of five equal bits
CONTROLS = {28 + 32 * y for y in range(8)} | {224 + x for x in (23, 27, 29, 30)}


def inverted(symbol):
    return symbol.translate({ord("0"): "1", ord("1"): "0"})


def symbol_of(plus, k, byte):
    """The ten bits of a byte, as text."""
    low, high = byte % 32, byte // 32
    if k and low == 28:
        symbol = "001111" + COMMA[high]
        return inverted(symbol) if plus else symbol
    six = SIX[low]
    if plus and (six.count("1") != 3 or low == 7):
        six = inverted(six)
    more = plus if six.count("1") == 3 else 1 - plus
    places, run = RUNS[more]
    return six + (run if high == 7 and (k or low in places) else FOUR[more][high])


def after(plus, symbol):
    return plus if symbol.count("1") == 5 else 1 - plus


def code_8b10b(decodes, plus, k, value):
    """A byte is encoded, or ten bits are decoded: an error where there is no such symbol on such a line."""
    line, error = "more ones" if plus else "more zeros", 1 << 12 | plus << 11
    right = {symbol_of(plus, *each): each for each in coded()}
    if decodes:
        text = f"{value:010b}"
        control, byte = right.get(text, (0, 0))
        result = after(plus, text) << 11 | control << 8 | byte if text in right else error
        return f"{text} after {line}", [1, plus, k, value], result
    symbol = symbol_of(plus, k, value)
    result = after(plus, symbol) << 11 | k << 10 | int(symbol, 2) if (k, value) in right.values() else error
    return f"{'K' if k else 'D'}.{value % 32}.{value // 32} after {line}", [0, plus, k, value], result


def coded():
    """All bytes and control symbols."""
    return [(0, byte) for byte in range(256)] + [(1, byte) for byte in sorted(CONTROLS)]

