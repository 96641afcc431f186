"""Prints what the example program must write, from the plain model alone.

Two tags of the kinds and numbers that crates/example/args gives are joined;
each that a search finds is ordered a row and read, and once more with power
failing at the order's dwell.

    python3 tools/make_example_lines.py > crates/example/stdout
"""

import pathlib

from make_bench_lines import Order, Reading, Search
from onewire_model import (
    Chip, PracticePlug, RegistrationNumber, Rig, SealedTag, joint, one_tag)
from bench_words import spaced

ARGUMENTS = (pathlib.Path(__file__).resolve().parent.parent
             / "crates" / "example" / "args")

KINDS = {"sealed": lambda: SealedTag(b"\xFF" * 136),
         "plug": lambda: PracticePlug(b"\xFF" * 64)}

ROW = 0x0020
NEW = bytes(range(1, 9))

STEPS_BEFORE_THE_DWELL = 467


def given_line(words):
    kinds, numbers = words[0::2], words[1::2]
    first, second = (one_tag(Chip(RegistrationNumber(bytes.fromhex(number)),
                                  KINDS[kind]()))
                     for kind, number in zip(kinds, numbers, strict=True))
    return joint(first, second)


def write_row(rig, number):
    """An order and a reading, each told in a line."""
    order = Order(number, ROW, NEW)
    told = order.answer(rig)
    what = "order " if order.refused else ""
    yield f"{spaced(number)}: {what}{told}."
    reading = Reading(number, ROW)
    told = reading.answer(rig)
    what = "reading" if reading.refused else f"row {ROW:04X}h reads"
    yield f"{spaced(number)}: {what} {told}."


def all_lines():
    rig = Rig(given_line(ARGUMENTS.read_text(encoding="ascii").split()))
    rig.power_up()
    looking = Search(8)
    yield f"Search: {looking.answer(rig)}."
    assert not looking.refused
    for number in looking.found:
        yield from write_row(rig, number)
        rig.set_fuse(STEPS_BEFORE_THE_DWELL, 0)
        yield from write_row(rig, number)
        power = str(rig.line.presence()).lower()
        fuse = str(rig.fuse is not None).lower()
        yield (f"Then the line has power: {power}, and a fuse is set:"
               f" {fuse}.")
        rig.power_up()
    power = "a" if rig.line.presence() else "no"
    yield f"The line is given back; {power} tag on it has power."


if __name__ == "__main__":
    print("\n".join(all_lines()))
