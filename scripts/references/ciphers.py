"""What the circuits of ciphers, hashes and random numbers are to answer."""
import hashlib
import struct
import subprocess

from references import curves
from references.words import joined, number, text_of, turned

BEGIN = bytes.fromhex("6a09e667bb67ae853c6ef372a54ff53a510e527f9b05688c1f83d9ab5be0cd19")  # the hash that SHA-256 begins with
FIPS = (b"abc", b"abcdbcdecdefdefgefghfghighijhijkijkljklmklmnlmnomnopnopq")  # the examples of FIPS 180, of one and of two blocks
BETWEEN = {FIPS[1]: bytes.fromhex("85e655d6417a17953363376a624cde5c76e09589cac5f811cc4b32c1f20e533a")}  # the hash after the first block
# The hashes of the texts 00, 00 01 and so on with the key 00 to 0f, as published with SipHash-2-4
SIPHASH = (
    "310e0edd47db6f72", "fd67dc93c539f874", "5a4fa9d909806c0d", "2d7efbd796666785", "b7877127e09427cf", "8da699cd64557618",
    "cee3fe586e46c9cb", "37d1018bf50002ab", "6224939a79f5f593", "b0e4a90bdf82009e", "f3b9dd94c5bb5d7a", "a7ad6b22462fb3f4",
    "fbe50e86bc8f1e75", "903d84c02756ea14", "eef27a8e90ca23f7", "e545be4961ca29a1",
)


def xtea(block, key, result):
    return f"block {block:#x}, key {'00 to 0f' if key else 'zero'}", [block, key], result


def chacha20(title, key, start, block, row):
    """Key, counter and nonce, and the block, as bytes; the circuit has the words, whose bytes come in the other order."""

    def words(data):
        return number(b"".join(struct.pack(">I", w) for w in struct.unpack(f"<{len(data) // 4}I", data)))

    args = [words(key[:16]), words(key[16:]), words(start), row]
    return f"{title}, row {row}", args, words(block[16 * row:16 * row + 16])


def sha256(message, low, place=0):
    """A half of the hash after one block of a message that was padded, the block at this place."""
    length = len(message) + 9
    padded = message + b"\x80" + bytes(-length % 64) + struct.pack(">Q", 8 * len(message))
    block = padded[64 * place:64 * place + 64]
    before = [BEGIN, BETWEEN.get(message)][place]
    after = hashlib.sha256(message).digest() if len(padded) == 64 * place + 64 else BETWEEN[message]
    words = [number(x) for x in (before[:16], before[16:], *(block[i:i + 16] for i in range(0, 64, 16)))]
    title = f"{text_of(message)}, {f'block {place + 1}, ' if len(padded) > 64 else ''}{'low' if low else 'high'} half"
    return title, words + [low], number(after[16 * low:16 * low + 16])


def xorshift(title, before, n, after):
    """States as four words, the oldest one first."""
    return title, [joined(before, 32), n], joined(after, 32)


def xorshift_drawn(state, n):
    words = list(state)
    for _ in range(n):
        t = words[-4] ^ words[-4] << 11 & 0xFFFFFFFF
        words.append(words[-1] ^ words[-1] >> 19 ^ t ^ t >> 8)
    return "drawn", state, n, words[-4:]


def aes(title, key, block, result):
    return title, [number(bytes.fromhex(text)) for text in (key, block)], number(bytes.fromhex(result))


def aes_by_openssl(key, block):
    words = ["openssl", "enc", "-aes-128-ecb", "-nopad", "-K", key.hex()]
    result = subprocess.run(words, input=block, capture_output=True, check=True).stdout
    return "drawn", key.hex(), block.hex(), result.hex()


def speck(title, key, block):
    a, *l = key[::-1]
    x, y = block
    for i in range(27):
        x = turned(x, 24, 32) + y & 0xFFFFFFFF ^ a
        y = turned(y, 3, 32) ^ x
        l.append(turned(l.pop(0), 24, 32) + a & 0xFFFFFFFF ^ i)
        a = turned(a, 3, 32) ^ l[-1]
    return title, [joined(key, 32), joined(block, 32)], joined([x, y], 32)


def siphash(text, key=bytes(range(16))):
    k0, k1 = struct.unpack("<2Q", key)
    v = [k0 ^ 0x736F6D6570736575, k1 ^ 0x646F72616E646F6D, k0 ^ 0x6C7967656E657261, k1 ^ 0x7465646279746573]

    def rounds(count):
        for _ in range(count):
            for a, b, left, right in ((0, 1, 13, 32), (2, 3, 16, 0), (0, 3, 21, 0), (2, 1, 17, 32)):
                v[a] = (v[a] + v[b]) % (1 << 64)
                v[b] = turned(v[b], left, 64) ^ v[a]
                v[a] = turned(v[a], right, 64)

    for block in struct.unpack(f"<{len(text) // 8 + 1}Q", text + bytes(7 - len(text) % 8) + bytes([len(text)])):
        v[3] ^= block
        rounds(2)
        v[0] ^= block
    v[2] ^= 0xFF
    rounds(4)
    result = v[0] ^ v[1] ^ v[2] ^ v[3]
    if key == bytes(range(16)) and text == bytes(range(len(text))):
        assert result == struct.unpack("<Q", bytes.fromhex(SIPHASH[len(text)]))[0]
    return text_of(text), [int.from_bytes(key, "little"), int.from_bytes(text, "little"), len(text)], result


def turned_over(word):
    """The word of 128 bits read from its other end."""
    return int(f"{word:0128b}"[::-1], 2)


def ghash(title, y, x, h):
    """Words as hexadecimal digits. As polynomials they have their lowest bit first."""
    before, block, key = (int(digits, 16) for digits in (y, x, h))
    a, b, product = turned_over(before ^ block), turned_over(key), 0
    for place in range(128):
        product ^= (a << place) * (b >> place & 1)
    for place in reversed(range(128, 255)):
        product ^= (1 << 128 | 0x87) << (place - 128) if product >> place & 1 else 0
    return title, [before, block, key], turned_over(product)


def aes_ctr(title, key, counter, n, data, result):
    """Words as hexadecimal digits."""
    return title, [int(key, 16), int(counter, 16), n, int(data, 16)], int(result, 16)


def aes_ctr_by_openssl(key, counter, n, data):
    block = ((number(counter) + n) % (1 << 128)).to_bytes(16, "big")
    words = ["openssl", "enc", "-aes-128-ctr", "-K", key.hex(), "-iv", block.hex()]
    result = subprocess.run(words, input=data, capture_output=True, check=True).stdout
    return "drawn", key.hex(), counter.hex(), n, data.hex(), result.hex()


def keccak_rounds(lanes, count):
    """The last rounds of Keccak-f[1600], on lanes by column and row."""
    register, constants = 1, []
    for _ in range(24):
        constants.append(0)
        for j in range(7):
            constants[-1] ^= (register & 1) << ((1 << j) - 1)
            register = register << 1 ^ (0x171 if register & 0x80 else 0)
    for constant in constants[24 - count:]:
        parity = [lanes[x, 0] ^ lanes[x, 1] ^ lanes[x, 2] ^ lanes[x, 3] ^ lanes[x, 4] for x in range(5)]
        lanes = {(x, y): lane ^ parity[x - 1] ^ turned(parity[(x + 1) % 5], 1, 64) for (x, y), lane in lanes.items()}
        moved, place = {(0, 0): lanes[0, 0]}, (1, 0)
        for t in range(24):
            x, y = place
            place = y, (2 * x + 3 * y) % 5
            moved[place] = turned(lanes[x, y], (t + 1) * (t + 2) // 2 % 64, 64)
        lanes = {(x, y): moved[x, y] ^ ~moved[(x + 1) % 5, y] & moved[(x + 2) % 5, y] for x, y in moved}
        lanes[0, 0] ^= constant
    return lanes


def keccak(title, lanes, count, word):
    """A word of the state after so many rounds; lanes are listed by rows."""
    after = keccak_rounds({(i % 5, i // 5): lane for i, lane in enumerate(lanes)}, count)
    found = [after[i % 5, i // 5] for i in range(25)]
    words = [lanes[i] << 64 | lanes[i + 1] for i in range(0, 24, 2)] + [lanes[24]]
    return title, words + [count, word], found[2 * word] << 64 | found[2 * word + 1] if word < 12 else found[24]


def sha3(message, word):
    """The call that gives 16 bytes of a hash by SHA3-256 of a short message."""
    padded = bytearray(message.ljust(136, b"\0"))
    padded[len(message)] ^= 6
    padded[135] ^= 0x80
    lanes = [*struct.unpack("<17Q", padded), *[0] * 8]
    result = keccak(f"SHA3-256 of {text_of(message)}, {'second' if word else 'first'} half", lanes, 24, word)
    assert struct.pack("<2Q", result[2] >> 64, result[2] % (1 << 64)) == hashlib.sha3_256(message).digest()[16 * word:16 * word + 16]
    return result[0], lanes, 24, word


def poly1305(title, key, message, tag=None):
    """The key has r and s; a tag is one that was published."""
    r, s = (int.from_bytes(part, "little") for part in (key[:16], key[16:]))
    clamped, total = r & 0x0FFFFFFC0FFFFFFC0FFFFFFC0FFFFFFF, 0
    for i in range(0, len(message), 16):
        total = (total + int.from_bytes(message[i:i + 16] + b"\1", "little")) * clamped % (2**130 - 5)
    result = (total + s) % (1 << 128)
    assert tag in (None, result.to_bytes(16, "little").hex())
    blocks = [int.from_bytes(message[i:i + 16], "little") for i in range(0, 48, 16)]
    return title, [r, s, *blocks, len(message)], result


def sect113(title, k, base, bits=113):
    """The multiple by the lowest bits of k, of this multiple of the base point."""
    point, low = curves.multiple(base, curves.BASE), k % (1 << bits)
    found = curves.multiple(low, point)
    return title, [k, point[0], bits], found[0] if found else 0


def sect113_by_openssl(k):
    assert curves.multiple(k, curves.BASE)[0] == curves.by_openssl(k)
    return "drawn", k, 1
