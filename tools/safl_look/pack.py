"""Numbers and words packed for the page: small numbers as bytes, all compressed, as text."""
import base64
import zlib
from array import array
from itertools import chain
from operator import sub


def varints(numbers):
    """An array of numbers as bytes: seven bits in each, the lowest first, and the eighth bit where more follow."""
    if not numbers or max(numbers) < 128:
        return bytes(numbers.tolist())
    found = bytearray()
    for value in numbers:
        while value > 127:
            found.append(value & 127 | 128)
            value >>= 7
        found.append(value)
    return bytes(found)


def planes(words, size):
    """Words of this size as bytes: first the lowest byte of each word, then the next one of each."""
    whole, step = (words, size) if isinstance(words, bytearray) else (words.tobytes(), words.itemsize)
    return b"".join(whole[i::step] for i in range(size))


class Pack:
    """Pieces of bytes, one behind the other, compressed; a piece is named by where it begins and how long it is."""

    def __init__(self):
        self.parts, self.size, self.compressor = [], 0, zlib.compressobj(6)

    def add(self, piece):
        self.parts.append(self.compressor.compress(piece))
        self.size += len(piece)
        return [self.size - len(piece), len(piece)]

    def numbers(self, values):
        return self.add(varints(array("I", values)))

    def rising(self, values):
        """Numbers that do not fall: the first, and how much each is above the one before."""
        numbers = array("I", values)
        return self.numbers(chain(numbers[:1], map(sub, numbers[1:], numbers)))

    def text(self):
        return base64.b64encode(b"".join([*self.parts, self.compressor.flush()])).decode()
