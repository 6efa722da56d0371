"""The answers of the board to the two messages of bench.v, by Python's own functions."""
import math
import zlib

for message in (b"123456789012345\n", b"The quick brown "):
    numbers = [int.from_bytes(message[place:place + 8], "little") for place in (0, 8)]
    answer = b"".join(math.isqrt(number).to_bytes(4, "little") for number in numbers)
    answer += math.gcd(*numbers).to_bytes(8, "little") + zlib.crc32(message).to_bytes(4, "big")
    print(answer.hex())
