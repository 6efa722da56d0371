"""Points of the elliptic curve sect113r1: y^2 + xy = x^3 + ax^2 + b over the field of 2^113 elements, by chords and tangents, and by
OpenSSL."""
import re
import subprocess

A, B = 0x3088250CA6E7C7FE649CE85820F7, 0xE8BEE4D3E2260744188BE0E9C723
BASE = (0x9D73616F35F4AB1407D73562C10F, 0xA52830277958EE84D1315ED31886)
ORDER = 0x100000000000000D9CCEC8A39E56F
MODULUS = 1 << 113 | 1 << 9 | 1


def times(a, b):
    product = 0
    while b:
        product ^= a * (b & 1)
        a, b = a << 1, b >> 1
        a ^= MODULUS * (a >> 113)
    return product


def inverse(a):
    """By Euclid's algorithm."""
    rest, other, factor, last = MODULUS, a, 0, 1
    while other != 1:
        places = rest.bit_length() - other.bit_length()
        if places < 0:
            rest, other, factor, last = other, rest, last, factor
            continue
        rest, factor = rest ^ other << places, factor ^ last << places
        if rest.bit_length() < other.bit_length():
            rest, other, factor, last = other, rest, last, factor
    return reduced(last)


def reduced(a):
    while a.bit_length() > 113:
        a ^= MODULUS << (a.bit_length() - 114)
    return a


def plus(p, q):
    """The sum of two points; None is the point at infinity."""
    if p is None or q is None:
        return q if p is None else p
    (x, y), (u, v) = p, q
    if x == u and (y ^ v == x or x == 0):
        return None
    slope = x ^ times(y, inverse(x)) if x == u else times(y ^ v, inverse(x ^ u))
    third = times(slope, slope) ^ slope ^ A ^ (0 if x == u else x ^ u)
    return third, times(slope, x ^ third) ^ third ^ y


def multiple(k, point):
    total = None
    while k:
        total = plus(total, point) if k & 1 else total
        point, k = plus(point, point), k >> 1
    return total


def by_openssl(k):
    """The first coordinate of this multiple of the base point: the public key of a private one."""
    key = bytes.fromhex("020101" "040f" + f"{k:030x}" + "a007" "06052b81040004")
    words = ["openssl", "ec", "-inform", "DER", "-text", "-noout"]
    told = subprocess.run(words, input=bytes([0x30, len(key)]) + key, capture_output=True, check=True).stdout.decode()
    point = "".join(re.search(r"pub:\s+((?:[0-9a-f:]+\s+)+)", told)[1].replace(":", "").split())
    return int(point[2:32], 16)
