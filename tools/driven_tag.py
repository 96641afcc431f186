"""A whole task on a sealed tag, driven by pulses alone: what is said of it.

From the number that the tag says to the row read back, each exchange made of
its pulses on the model's rig.  Bytes are in hex, in the sequence of their
travel.
"""

from bench_words import counted, refused_words, spaced, steps_words
from master_jobs import read
from onewire_model import (
    Chip, LINE_BUSY, RegistrationNumber, Rig, SealedTag, bits_of_bytes, crc16,
    inverted_crc16_bytes, one_tag, refusal_of)

NUMBER = bytes.fromhex("2D47360000000161")
DATA = bytes.fromhex("125A03E80BB80064")
TARGET = bytes([0x40, 0x00])          # low byte first
IMAGE = b"\xFF" * 136


def write(rig, data):
    """Send bytes; nobody may pull against them."""
    for bit in bits_of_bytes(data):
        assert rig.slot(bit) == bit


def begin(rig):
    assert rig.reset() is True


def select(rig):
    begin(rig)
    write(rig, b"\x55" + NUMBER)


def read_number(rig):
    begin(rig)
    write(rig, b"\x33")
    number = read(rig, 8)
    assert number == NUMBER
    return number


def write_scratchpad(rig):
    """Answers the 16-bit value whose low byte came first."""
    select(rig)
    sent = b"\x0F" + TARGET + DATA
    write(rig, sent)
    value = int.from_bytes(read(rig, 2), "little")
    assert value == crc16(sent) ^ 0xFFFF
    return value


def read_scratchpad(rig):
    select(rig)
    write(rig, b"\xAA")
    report = read(rig, 13)
    assert report[:11] == TARGET + b"\x07" + DATA
    assert report[11:] == inverted_crc16_bytes(b"\xAA" + report[:11])
    return report


def copy_scratchpad(rig):
    """Answers the refusal of a reset before the dwell."""
    select(rig)
    write(rig, b"\x55" + TARGET + b"\x07")
    steps = rig.steps
    refusal = refusal_of(rig.reset)
    assert refusal == LINE_BUSY and rig.steps == steps
    return refusal


def read_target(rig):
    select(rig)
    write(rig, b"\xF0" + TARGET)
    found = read(rig, 8)
    assert found == DATA
    return found


def drive_tag(report):
    report.begin("the same on a new tag, pulse by pulse, by resets, slots and"
                 " a dwell")
    rig = Rig(one_tag(Chip(RegistrationNumber(NUMBER), SealedTag(IMAGE))))
    assert rig.reset() is False
    report.say("Reset: no tag is present.")
    rig.power_up()
    rig.zero_counters()
    report.say("Power up: done.")
    report.say(f"Read ROM, 33h: the tag's number is"
               f" {spaced(read_number(rig))}.")
    report.say(f"Write scratchpad, 0Fh, with {spaced(DATA)} for row 0040h:"
               f" the inverted CRC-16 {write_scratchpad(rig):04X}h is right.")
    told = read_scratchpad(rig)
    report.say(f"Read scratchpad, AAh: address {spaced(told[:2])}, status"
               f" {told[2]:02X}h, bytes {spaced(told[3:11])}; the inverted"
               f" CRC-16 {int.from_bytes(told[11:], 'little'):04X}h is right.")
    report.say(f"Copy scratchpad, 55h, and a reset then:"
               f" {refused_words(copy_scratchpad(rig))}.")
    report.refusals += 1
    rig.dwell()
    said = read(rig, 1)
    assert said == b"\xAA"
    report.say(f"Dwell, and a byte read then: {spaced(said)}h, the tag has"
               " programmed.")
    report.say(f"Read memory, F0h, of row 0040h: {spaced(read_target(rig))}.")
    begin(rig)
    report.pulses += rig.steps
    report.end(f"the row read is the row written, in {steps_words(rig.steps)}:"
               f" {counted(rig.resets, 'reset')},"
               f" {counted(rig.dwells, 'dwell')},"
               f" {counted(rig.slots, 'slot')}")
