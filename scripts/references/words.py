"""Words as the circuits take them: from bytes, from signed numbers, from numbers of floating point."""
import struct


def number(data):
    """The word whose bytes these are, the first one in the highest bits."""
    return int.from_bytes(data, "big")


def signed(value, width):
    return value % (1 << width)


def text_of(data):
    return str(data)[1:]


def float_word(x):
    try:
        return struct.unpack(">I", struct.pack(">f", x))[0]
    except OverflowError:
        return 0xFF800000 if x < 0 else 0x7F800000


def float_of(word):
    return struct.unpack(">f", struct.pack(">I", word))[0]


def words_of(data, size):
    """The numbers whose bytes follow each other here, the first one of each in its highest bits."""
    return [number(data[i:i + size]) for i in range(0, len(data), size)]


def joined(words, width):
    """The word that signed or unsigned words of this width make, the first one in the highest bits."""
    result = 0
    for each in words:
        result = result << width | signed(each, width)
    return result


def saturated(value):
    """The nearest signed word of 16 bits."""
    return max(-(1 << 15), min((1 << 15) - 1, value))


def turned(word, places, width):
    """The word turned to the left."""
    return (word << places | word >> (width - places)) % (1 << width)
