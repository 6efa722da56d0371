"""What the circuits of arithmetic are to answer."""
import math

from references.words import float_of, float_word, signed


def gcd(a, b):
    return f"{a} and {b}", [a, b], math.gcd(a, b)


def divide(n, d):
    quotient, remainder = divmod(n, d) if d else (2**64 - 1, n)
    return f"{n} by {d}", [n, d], quotient << 64 | remainder


def isqrt(n):
    return str(n), [n], math.isqrt(n)


def modexp(b, e, m):
    return f"{b}^{e} mod {m}", [b, e, m], pow(b, e, m)


def count(x):
    low = (x & -x).bit_length() - 1 if x else 128
    return hex(x), [x], bin(x).count("1") << 16 | (128 - x.bit_length()) << 8 | low


def bcd(n):
    return str(n), [n], int(str(n), 16)


def float_mul(x, y):
    a, b = float_word(x), float_word(y)
    x, y = float_of(a), float_of(b)
    product = x * y
    result = 0x7FC00000 if math.isnan(product) else float_word(product)
    if abs(product) < 2.0**-126 * (1 - 2.0**-25):  # such a product has an exponent that is too small, rounded to 24 bits too
        result &= 0x80000000
    return f"{x:.8g} times {y:.8g}", [a, b], result


def cordic(angle):
    def word(value):
        return signed(math.floor(value * 2**30 + 0.5), 32)

    a = math.floor(angle * 2**30 + 0.5)
    true = a / 2**30
    return f"{true:.9f}", [signed(a, 32)], word(math.cos(true)) << 32 | word(math.sin(true))


def float_add(x, y):
    """A sum of two such numbers in double precision, rounded again, is rounded right."""
    a, b = float_word(x), float_word(y)
    x, y = float_of(a), float_of(b)
    total = x + y
    return f"{x:.8g} plus {y:.8g}", [a, b], 0x7FC00000 if math.isnan(total) else float_word(total)


def float_div(x, y):
    """A quotient of two such numbers in double precision, rounded again, is rounded right."""
    a, b = float_word(x), float_word(y)
    x, y = float_of(a), float_of(b)
    if math.isnan(x) or math.isnan(y) or (x == 0 and y == 0) or (math.isinf(x) and math.isinf(y)):
        result = 0x7FC00000
    elif y == 0:
        result = (a ^ b) & 0x80000000 | 0x7F800000
    else:
        result = float_word(x / y)
    return f"{x:.8g} by {y:.8g}", [a, b], result
