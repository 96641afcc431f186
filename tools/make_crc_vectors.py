"""Prints check sum vectors, the same ones at every run.

Each line: the message in hex (or - for no bytes), its CRC-8 as two hex
digits, its CRC-16 as four hex digits.
"""

import random

from onewire_model import crc8, crc16

SEED = 20261117
LONGEST = 64
RANDOM_MESSAGES = 200


def chosen_messages():
    """Messages of a plain pattern, the well-known text first."""
    yield b"123456789"
    yield b""
    for length in (1, 2, 3, 7, 8, 9, 10, 15, 16, 17, 31, 32, 33, 63, 64):
        yield bytes(length)
        yield b"\xFF" * length
    for number in ("0000000000000000", "000000000000015E",
                   "2D47360000000161", "0000000000000001"):
        yield bytes.fromhex(number)


def single_bit_messages():
    """Messages with exactly one bit set."""
    for length in (1, 2, 8):
        for place in range(8 * length):
            yield (1 << place).to_bytes(length, "little")
    for place in (0, 7, 8, 255, 256, 503, 504, 511):
        yield (1 << place).to_bytes(LONGEST, "little")


def random_messages(chance):
    """Every length once, then lengths as they come."""
    lengths = list(range(LONGEST + 1))
    lengths += [chance.randint(0, LONGEST) for _ in range(RANDOM_MESSAGES)]
    chance.shuffle(lengths)
    for length in lengths:
        yield bytes(chance.getrandbits(8) for _ in range(length))


def all_messages():
    yield from chosen_messages()
    yield from single_bit_messages()
    yield from random_messages(random.Random(SEED))


def vector_line(message):
    shown = message.hex().upper() or "-"
    return f"{shown} {crc8(message):02X} {crc16(message):04X}"


if __name__ == "__main__":
    print("\n".join(map(vector_line, all_messages())))
