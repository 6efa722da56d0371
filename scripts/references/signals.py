"""What the circuits of signals and pictures are to answer."""
import cmath
import math
import statistics

from references.words import joined, number, saturated, signed, words_of


def bitonic(data):
    return data.hex(" "), [number(data)], number(bytes(sorted(data)))


def mandelbrot(x, y):
    words = [round(part * 2**24) for part in (x, y)]
    z, n, c = 0j, 0, complex(*words) / 2**24
    while z.real * z.real + z.imag * z.imag <= 4 and n < 255:
        z, n = z * z + c, n + 1
    return f"{x} + {y}i", [signed(word, 32) for word in words], n


def fir(title, sample, past, taps):
    total = sum(c * x for c, x in zip(taps, [sample] + past))
    result = joined([saturated(total >> 15), sample] + past[:2], 16)
    return title, [signed(sample, 16), joined(past, 16), joined(taps, 16)], result


def fir_stream(title, signal, taps):
    """The calls for the samples of a signal, one after another."""
    past = [0, 0, 0] + signal
    return [(f"{title}, sample {i + 1}", sample, past[i:i + 3][::-1], taps) for i, sample in enumerate(signal)]


def biquad(title, sample, state, forward, back):
    x1, x2, y1, y2 = state
    total = sum(b * x for b, x in zip(forward, (sample, x1, x2))) - sum(a * y for a, y in zip(back, (y1, y2)))
    args = [signed(sample, 16), joined(state, 16), joined(forward, 16), joined(back, 16)]
    return title, args, joined([sample, x1, total >> 14, y1], 16)


def low_pass(frequency, quality):
    """The coefficients in Q2.14 of a low pass at this part of the sampling frequency."""
    angle = 2 * math.pi * frequency
    alpha, c = math.sin(angle) / (2 * quality), math.cos(angle)
    return [[round(v / (1 + alpha) * 2**14) for v in values] for values in (((1 - c) / 2, 1 - c, (1 - c) / 2), (-2 * c, 1 - alpha))]


def biquad_stream(title, signal, coefficients):
    """The calls for the samples of a signal; the state of a call is the result of the call before."""
    calls, state = [], [0, 0, 0, 0]
    for i, sample in enumerate(signal):
        calls.append((f"{title}, sample {i + 1}", sample, state, *coefficients))
        result = biquad(*calls[-1])[2]
        state = [(word ^ 0x8000) - 0x8000 for word in words_of(result.to_bytes(8, "big"), 2)]
    return calls


def median(data):
    return data.hex(" "), [number(data)], statistics.median(data)


def butterfly(title, a, b, w):
    """Complex numbers as pairs of integers, in units of 2^-15."""
    real, imaginary = b[0] * w[0] - b[1] * w[1], b[0] * w[1] + b[1] * w[0]
    product = [real, imaginary, -real, -imaginary]
    parts = [(each * 2**15 + part) >> 16 for each, part in zip(a + a, product)]
    return title, [joined(each, 16) for each in (a, b, w)], joined(parts, 16)


def on_circle(turns, size=1.0):
    """A complex number by its angle and its length, in units of 2^-15."""
    return [round(part * size * 32767) for part in (math.cos(2 * math.pi * turns), math.sin(2 * math.pi * turns))]


def fft(title, numbers, odd):
    """The definition with the roots of unity in units of 2^-15, each sum rounded once; numbers are pairs of signed words."""
    roots = [(round(math.cos(k * math.pi / 4) * 2**15), round(-math.sin(k * math.pi / 4) * 2**15)) for k in range(8)]
    bins = []
    for k in range(odd, 8, 2):
        parts = [0, 0]
        for n, (x, y) in enumerate(numbers):
            c, s = roots[n * k % 8]
            parts = [parts[0] + x * c - y * s, parts[1] + x * s + y * c]
        bins += [(part + 2**17) >> 18 for part in parts]
        exact = sum(complex(*x) * cmath.exp(-0.25j * cmath.pi * n * k) for n, x in enumerate(numbers)) / 8
        assert max(abs(bins[-2] - exact.real), abs(bins[-1] - exact.imag)) < 2
    words = [joined([part for x in half for part in x], 16) for half in (numbers[:4], numbers[4:])]
    return f"{title}, {'odd' if odd else 'even'} bins", words + [odd], joined(bins, 16)


def dct(title, samples):
    """The definition with the factors in units of 2^-13, each sum rounded once."""
    found = []
    for k in range(8):
        size = math.sqrt(0.125) if k == 0 else 0.5
        factors = [size * math.cos((2 * n + 1) * k * math.pi / 16) for n in range(8)]
        found.append((sum(x * round(c * 2**13) for x, c in zip(samples, factors)) + 4096) >> 13)
        assert abs(found[-1] - sum(x * c for x, c in zip(samples, factors))) < 0.7
    return title, [number(bytes(samples))], joined(found, 16)


def dds(phase, step):
    angle = (phase // 2**24 + 0.5) * math.pi / 128
    sine, cosine = (round(wave(angle) * 32767) for wave in (math.sin, math.cos))
    return f"{phase / 2**32 * 360:.4g} degrees", [phase, step], (phase + step) % (1 << 32) << 32 | joined([sine, cosine], 16)
