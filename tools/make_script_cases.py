"""Makes one long input for the script program, and its expected output.

    make_script_cases.py --input     prints the letters
    make_script_cases.py --output    prints what the script program answers

Both are the same at every run.  With --all-bytes the input gets a tail that
has every byte value once (letters too), so it is no plain text any more.

The letters are made by talking to the model: a conversation is a row of
helper calls, and the letters they send are kept.  A letter is a master's bit,
so reading a bit is the letter 1.
"""

import argparse
import random
import sys

from onewire_model import (
    Script, bits_of_bytes, bytes_of_bits, crc16, script_output)

SEED = 20261117
WANTED_LENGTH = 60000
ODD_LETTERS = "x \nr2pdc-.!?\t3/:OlQS"

NUMBER_BITS = 64
OPENING = "R1PR1100110011"


# ---------------------------------------------------------------------------
# Talking


def letters_of(data):
    """The letters that send these bytes."""
    return "".join(str(bit) for bit in bits_of_bytes(data))


def bytes_of_answers(answers):
    """The bytes that were read, from the answers to the reading slots."""
    return bytes_of_bits([int(answer) for answer in answers])


def address_bytes(address):
    return [address & 0xFF, address >> 8]


class Talk:
    """A model to talk to, and all letters sent to it so far."""

    def __init__(self, chance):
        self.chance = chance
        self.script = Script()
        self.letters = bytearray()
        self.noise = None         # may turn a letter into others

    @property
    def chip(self):
        return self.script.chip

    def say(self, letters):
        """Send letters; the answers come back as a text."""
        if self.noise:
            letters = "".join(map(self.noise, letters))
        self.letters += letters.encode("ascii")
        return "".join(self.script.answer(ord(letter)) for letter in letters)

    def write(self, *data):
        return self.say(letters_of(data))

    def read(self, count):
        return self.say("1" * 8 * count)

    def right_pattern(self):
        """The three bytes that a copy would need now."""
        return [self.chip.ta1, self.chip.ta2, self.chip.status()]

    def random_bytes(self, count):
        return [self.chance.getrandbits(8) for _ in range(count)]

    def random_slots(self, count):
        return "".join(self.chance.choice("01") for _ in range(count))


# ---------------------------------------------------------------------------
# Ways to get to the memory commands; the plug's number is all zero bits


def by_reading_number(talk):
    talk.say("R")
    talk.write(0x33)
    return talk.read(8)


def by_matching(talk):
    talk.say("R")
    talk.write(0x55)
    talk.say("0" * NUMBER_BITS)


def by_search(talk):
    """Both bits of every triple are read, then the right one is chosen."""
    talk.say("R")
    talk.write(0xF0)
    return talk.say("110" * NUMBER_BITS)


def by_skip(talk):
    talk.say("R")
    talk.write(0xCC)


def by_resume(talk):
    talk.say("R")
    talk.write(0xA5)


# Cheap ways stand here more often than costly ones.
WAYS = [by_skip] * 6 + [by_resume] * 3 + [by_matching] * 2 \
    + [by_reading_number, by_search]


def any_way(talk):
    talk.chance.choice(WAYS)(talk)


# Ways that do not lead there


def match_wrong_at(talk, place):
    """A number that differs in one bit, sent to its end."""
    talk.say("R")
    talk.write(0x55)
    talk.say("0" * place + "1" + "0" * (NUMBER_BITS - 1 - place))


def leave_search_at(talk, place):
    """A search that chooses the other branch at one bit and goes on."""
    talk.say("R")
    talk.write(0xF0)
    return talk.say("110" * place + "111" + "110" * min(3, 63 - place))


# ---------------------------------------------------------------------------
# The memory commands, each behind a way to get there


def write_scratchpad(talk, address, data, reads=2, way=by_skip):
    """0Fh with an address and data; then the sum is read, or not."""
    way(talk)
    talk.write(0x0F, *address_bytes(address), *data)
    return talk.read(reads)


def read_scratchpad(talk, count=13, way=by_skip):
    way(talk)
    talk.write(0xAA)
    return talk.read(count)


def send_copy(talk, pattern, way=by_skip):
    way(talk)
    talk.write(0x55, *pattern)


def read_memory(talk, address, count, way=by_skip):
    way(talk)
    talk.write(0xF0, *address_bytes(address))
    return talk.read(count)


def is_listening(talk):
    """Would a memory command be obeyed here?  Asks for the scratchpad."""
    talk.write(0xAA)
    return "0" in talk.say("1" * 24)


def store_row(talk, row, data):
    """Write, report, copy, dwell and read back, each step looked at."""
    sent = bytes([0x0F, *address_bytes(row), *data])
    answers = write_scratchpad(talk, row, data)
    wanted = crc16(sent) ^ 0xFFFF
    assert bytes_of_answers(answers) == wanted.to_bytes(2, "little")
    report = bytes_of_answers(read_scratchpad(talk))
    assert report[:11] == bytes([*address_bytes(row), 0x07, *data])
    send_copy(talk, report[:3])
    assert talk.say("R") == "!"
    talk.say("D")
    assert bytes_of_answers(talk.read(1)) == b"\xAA"
    found = bytes_of_answers(read_memory(talk, row, 8))
    assert found == bytes(data)


# ---------------------------------------------------------------------------
# Fixed conversations


def opening(talk):
    assert talk.say(OPENING) == "-1.p1100110000"


def power(talk):
    """Cut and power-up, each also twice; slots and resets in between."""
    assert talk.say("CR01R10D") == ".-01-10."
    assert talk.say("CCPP01RP10") == "....01p.10"
    write_scratchpad(talk, 0xA5C3, talk.random_bytes(4), 0)
    talk.say("CP")
    talk.write(0xCC)                      # no reset came before: still idle
    assert not is_listening(talk)
    report = bytes_of_answers(read_scratchpad(talk))
    assert report[:11] == b"\x00\x00\x20" + b"\xFF" * 8


def number_commands(talk):
    for _ in range(2):
        assert by_reading_number(talk) == "0" * 64
        assert is_listening(talk)
    for way in (by_matching, by_search, by_skip):
        way(talk)
        assert is_listening(talk)
    assert by_search(talk) == "010" * 64
    for place in (0, 1, 7, 8, 31, 32, 56, 62, 63):
        match_wrong_at(talk, place)
        assert not is_listening(talk)
    for place in (0, 1, 8, 33, 62, 63):
        leave_search_at(talk, place)
        assert not is_listening(talk)


def number_commands_broken_off(talk):
    """A reset in the middle begins anew; sending goes on with zeros too."""
    for command in (0x33, 0x55, 0xF0):
        for slots in (0, 1, 2, 3, 63):
            talk.say("R")
            talk.write(command)
            talk.say("0" * slots)
    for slots in range(1, 8):
        talk.say("R")
        talk.say(letters_of([0xCC])[:slots])
    talk.say("R")
    talk.write(0x33)
    talk.say("01" * 32)
    assert is_listening(talk)
    talk.say("R")
    talk.write(0xF0)
    talk.say("000" * 64)
    assert is_listening(talk)


def resume(talk):
    """A5h works only as long as the chip remembers its selection."""
    by_skip(talk)
    by_resume(talk)
    assert not is_listening(talk)
    for way in (by_matching, by_search):
        way(talk)
        for _ in range(3):
            by_resume(talk)
            assert is_listening(talk)
    for command in (0x3C, 0x69, 0xA5, 0x00, 0xFF, 0x0F, 0xAA):
        talk.say("R")
        talk.write(command)
        by_resume(talk)
        assert is_listening(talk)
    talk.say("R" + letters_of([0x33])[:7])
    by_resume(talk)
    assert is_listening(talk)
    for command in (0x33, 0x55, 0xF0, 0xCC):
        by_matching(talk)
        talk.say("R")
        talk.write(command)
        by_resume(talk)
        assert not is_listening(talk)
    by_matching(talk)
    match_wrong_at(talk, 63)
    by_resume(talk)
    assert not is_listening(talk)
    by_matching(talk)
    talk.say("CP")
    by_resume(talk)
    assert not is_listening(talk)


def every_number_command(talk):
    for command in range(256):
        talk.say("R")
        talk.write(command)
        talk.write(0xAA)
        talk.say("1111")


def every_memory_command(talk):
    for command in range(256):
        by_skip(talk)
        talk.write(command)
        talk.write(0xAA)
        talk.say("1111")


def fill_all_rows(talk):
    for row in range(0, 64, 8):
        store_row(talk, row, talk.random_bytes(8))
    found = bytes_of_answers(read_memory(talk, 0, 67))
    assert found == bytes(talk.chip.kind.bytes) + b"\xFF\xFF\xFF"


def memory_reads(talk):
    for address in (0x01, 0x07, 0x08, 0x20, 0x3D, 0x3F, 0x40, 0x41, 0x80,
                    0xFF, 0x100, 0x108, 0x3E00, 0x8000, 0xFFFE, 0xFFFF):
        read_memory(talk, address, 4)
    assert talk.say("R") == "p"
    assert bytes_of_answers(read_memory(talk, 0xFFFE, 6)) == b"\xFF" * 6
    by_skip(talk)
    talk.write(0xF0, 0x10, 0x00)
    talk.say("01100" * 9)                 # zeros do not stop the sending
    for slots in (3, 8, 15):
        by_skip(talk)
        talk.write(0xF0)
        talk.say("0" * slots)             # an address that is not finished


def scratchpad_beyond_its_end(talk):
    """Behind both sums the chip sends ones."""
    answers = write_scratchpad(talk, 0x10, talk.random_bytes(8), 6)
    assert answers[16:] == "1" * 32
    answers = read_scratchpad(talk, 17)
    assert answers[104:] == "1" * 32
    by_skip(talk)
    talk.write(0xAA)
    talk.say(talk.random_slots(110))


def show_whole_scratchpad(talk):
    """An aligned target without data lets all eight bytes be seen."""
    write_scratchpad(talk, 0x00, [], 0)
    return read_scratchpad(talk)


def unaligned_targets(talk):
    """The row is not taken whole, so it may not be copied."""
    for offset in range(1, 8):
        write_scratchpad(talk, 0x18 + offset, talk.random_bytes(8 - offset), 3)
        read_scratchpad(talk, 14 - offset)
        send_copy(talk, talk.right_pattern())
        assert talk.say("RD11") == "p.11"
        send_copy(talk, [0x18 + offset, 0x00, 0x07])
        assert talk.say("RD11") == "p.11"
        show_whole_scratchpad(talk)


def writing_broken_off(talk):
    """A reset after any number of bits; unfinished bytes are dropped."""
    for address, places in ((0x28, (7, 8, 12, 15, 16, 23, 24, 28, 31, 32, 39,
                                    40, 63, 80, 87, 88)),
                            (0x12D, (8, 16, 24, 31, 32, 39, 40, 47, 48))):
        data = talk.random_bytes(8 - address % 8)
        whole = letters_of([0x0F, *address_bytes(address), *data])
        for slots in places:
            write_scratchpad(talk, 0x38, talk.random_bytes(8), 0)
            by_skip(talk)
            talk.say(whole[:slots])
            read_scratchpad(talk, 4)
    show_whole_scratchpad(talk)


def copying_needs_the_right_pattern(talk):
    """Each bit wrong once; only then the right pattern."""
    talk.say("CP")
    write_scratchpad(talk, 0x20, talk.random_bytes(8))
    right = talk.right_pattern()
    for place in range(24):
        wrong = list(right)
        wrong[place // 8] ^= 1 << place % 8
        send_copy(talk, wrong)
        assert talk.say("R") == "p"
    send_copy(talk, right)
    assert talk.say("R") == "!"
    assert talk.say("D0101R") == ".0101p"


def copying_a_flawed_scratchpad(talk):
    """PF is set after power-up and after a writing that was broken off."""
    talk.say("CP")
    read_scratchpad(talk)
    send_copy(talk, [0x00, 0x00, 0x20])
    assert talk.say("R") == "p"
    send_copy(talk, [0x00, 0x00, 0x00])
    assert talk.say("R") == "p"
    for count in (0, 3, 7):
        write_scratchpad(talk, 0x08, talk.random_bytes(count), 0)
        send_copy(talk, talk.right_pattern())
        assert talk.say("R") == "p"
    write_scratchpad(talk, 0x08, talk.random_bytes(8), 0)
    by_skip(talk)
    talk.write(0x0F)                      # the command alone sets PF
    read_scratchpad(talk, 3)
    send_copy(talk, talk.right_pattern())
    assert talk.say("R") == "p"
    send_copy(talk, [0x08, 0x00, 0x07])
    assert talk.say("R") == "p"


def copying_again(talk):
    """After a copy the status has 80h too, and 0Fh takes it away."""
    store_row(talk, 0x30, talk.random_bytes(8))
    send_copy(talk, [0x30, 0x00, 0x07])
    assert talk.say("R") == "p"
    for _ in range(3):
        read_scratchpad(talk, 3)
        send_copy(talk, [0x30, 0x00, 0x87])
        assert talk.say("0") == "!"
        assert talk.say("D11111") == ".01010"
    by_skip(talk)
    talk.write(0x0F)
    assert bytes_of_answers(read_scratchpad(talk, 3)) == b"\x30\x00\x27"


def copying_outside(talk):
    """Rows at 64 and above are never programmed."""
    for row in (0x40, 0x48, 0x78, 0x80, 0xC0, 0xF8, 0x100, 0x108, 0x138,
                0x1000, 0x8000, 0xFFF8):
        write_scratchpad(talk, row, talk.random_bytes(8))
        send_copy(talk, talk.right_pattern())
        assert talk.say("RD111") == "p.111"
        read_memory(talk, row, 1)
    read_memory(talk, 0, 64)


def busy_line(talk):
    """While programming only dwell and cut do something."""
    data = talk.random_bytes(8)
    write_scratchpad(talk, 0x00, data)
    send_copy(talk, talk.right_pattern())
    assert talk.say("R01PR10xP\nR") == "!!!.!!!?.?!"
    assert talk.say("D1D10D0x1P0111") == ".0.10.0?0.0010"
    assert bytes_of_answers(read_memory(talk, 0, 8)) == bytes(data)


def cut_before_the_dwell(talk):
    """With mask 0 the row stays as it was, and the registers are lost."""
    for row in (0x00, 0x18, 0x38):
        store_row(talk, row, talk.random_bytes(8))
        held = bytes(talk.chip.kind.bytes)
        write_scratchpad(talk, row, talk.random_bytes(8))
        send_copy(talk, talk.right_pattern())
        assert talk.say("!RC") == "?!."
        assert talk.say("R01D1P01R") == "-01.1.01p"
        report = bytes_of_answers(read_scratchpad(talk))
        assert report[:11] == b"\x00\x00\x20" + b"\xFF" * 8
        assert bytes_of_answers(read_memory(talk, 0, 64)) == held


def cut_after_the_dwell(talk):
    data = talk.random_bytes(8)
    write_scratchpad(talk, 0x10, data)
    send_copy(talk, talk.right_pattern())
    assert talk.say("D010C11R0P1R") == ".010.11-0.1p"
    assert bytes_of_answers(read_memory(talk, 0x10, 8)) == bytes(data)


def cut_anywhere(talk):
    """A cut in the middle of each command; the plug forgets the talk."""
    writing = letters_of([0xCC, 0x0F, 0x08, 0x00, 1, 2, 3, 4, 5, 6, 7, 8])
    for slots in (0, 4, 8, 12, 16, 24, 32, 45, 95, 96):
        cut_within(talk, writing, slots)
    cut_within(talk, letters_of([0x33]) + "1" * 64, 40)
    cut_within(talk, letters_of([0x55]) + "0" * 64, 71)
    cut_within(talk, letters_of([0xF0]) + "110" * 64, 199)
    cut_within(talk, letters_of([0xCC, 0xAA]) + "1" * 104, 50)
    cut_within(talk, letters_of([0xCC, 0x55, 0x08, 0x00, 0x07]), 30)
    cut_within(talk, letters_of([0xCC, 0xF0, 0x08, 0x00]) + "1" * 64, 25)
    cut_within(talk, letters_of([0xCC, 0xF0, 0x08, 0x00]) + "1" * 64, 43)


def cut_within(talk, whole, slots):
    """Cut after some slots, go on a little, power up, go on, look."""
    talk.say("R" + whole[:slots] + "C" + whole[slots:slots + 4])
    talk.say("P" + whole[slots:slots + 12])
    read_scratchpad(talk, 12)


def nothing_in_between(talk):
    """Dwell, power-up and odd letters do not disturb a byte on its way."""
    def all_three(letter):
        return "DPx" + letter

    def one_or_none(letter):
        return talk.chance.choice(["", "", "", "D", "P", "x"]) + letter

    talk.noise = all_three
    write_scratchpad(talk, 0x2F, talk.random_bytes(1))
    talk.noise = one_or_none
    data = talk.random_bytes(8)
    write_scratchpad(talk, 0x28, data, 2, by_matching)
    read_scratchpad(talk, 13, by_search)
    assert talk.chip.scratchpad == data and talk.chip.status() == 0x07
    send_copy(talk, talk.right_pattern(), by_resume)
    talk.noise = None
    assert talk.say("xR1PD1010") == "?!!..0000"
    talk.noise = one_or_none
    read_memory(talk, 0x26, 12, by_reading_number)
    talk.noise = None


FIXED = [
    opening, power, number_commands, number_commands_broken_off, resume,
    fill_all_rows, memory_reads, scratchpad_beyond_its_end,
    unaligned_targets, writing_broken_off, copying_needs_the_right_pattern,
    copying_a_flawed_scratchpad, copying_again, copying_outside, busy_line,
    cut_before_the_dwell, cut_after_the_dwell, cut_anywhere,
    nothing_in_between, every_number_command, every_memory_command,
]


# ---------------------------------------------------------------------------
# Conversations by chance


def any_address(talk):
    """Mostly within the plug, sometimes near its end or far away."""
    chance = talk.chance
    return chance.choice([
        chance.randrange(64), chance.randrange(0, 64, 8),
        chance.randrange(0, 64, 8), chance.randrange(56, 80),
        chance.getrandbits(16), chance.randrange(0xFFF0, 0x10000)])


def some_write(talk):
    address = any_address(talk)
    count = 8 - address % 8
    if talk.chance.random() < 0.25:
        count = talk.chance.randrange(count + 1)
    reads = talk.chance.choice([0, 2, 2, 3])
    write_scratchpad(talk, address, talk.random_bytes(count), reads, any_way)


def some_report(talk):
    read_scratchpad(talk, talk.chance.choice([3, 8, 13, 15]), any_way)


def some_copy(talk):
    """Mostly with the right pattern, then what may follow."""
    any_way(talk)
    pattern = talk.right_pattern()
    if talk.chance.random() < 0.2:
        pattern[talk.chance.randrange(3)] ^= 1 << talk.chance.randrange(8)
    talk.write(0x55, *pattern)
    talk.say(talk.chance.choice(["", "", "R", "01", "1P0", "x\nR"]))
    talk.say(talk.chance.choice(["D", "D", "D", "D", "C", "CP", ""]))
    talk.say(talk.chance.choice(["1", "0", "1"]) * talk.chance.randrange(12))


def some_whole_copy(talk):
    row = talk.chance.randrange(0, 72, 8)
    write_scratchpad(talk, row, talk.random_bytes(8), 2, any_way)
    some_copy(talk)
    read_memory(talk, row, 8, any_way)


def some_memory_read(talk):
    read_memory(talk, any_address(talk), talk.chance.randrange(1, 12), any_way)


def some_wrong_way(talk):
    way = talk.chance.choice([match_wrong_at, leave_search_at])
    way(talk, talk.chance.randrange(NUMBER_BITS))
    is_listening(talk)


def some_bits_behind_a_command(talk):
    """A right beginning, then bits as they come."""
    any_way(talk)
    talk.write(talk.chance.choice([0x0F, 0xAA, 0x55, 0xF0]))
    talk.say(talk.random_slots(talk.chance.randrange(100)))


def some_letters(talk):
    """Letters as they come; the rare ones are rare."""
    letters = talk.chance.choices(
        ["0", "1", "R", "D", "C", "P", "odd"],
        weights=[40, 45, 8, 2, 1, 3, 1], k=talk.chance.randrange(10, 80))
    talk.say("".join(talk.chance.choice(ODD_LETTERS) if letter == "odd"
                     else letter for letter in letters))


def odd_noise(talk):
    """Now and then an odd letter goes before a letter."""
    def noise(letter):
        if talk.chance.random() < 0.03:
            return talk.chance.choice(ODD_LETTERS) + letter
        return letter
    return noise


def garbling_noise(talk):
    """Now and then a letter is lost, doubled or turned into another."""
    def noise(letter):
        if talk.chance.random() < 0.01:
            return talk.chance.choice(["", letter * 2, "0", "1", "R"])
        return letter
    return noise


BY_CHANCE = [
    some_write, some_report, some_copy, some_copy, some_whole_copy,
    some_whole_copy, some_whole_copy, some_memory_read, some_wrong_way,
    some_bits_behind_a_command, some_letters, some_letters,
]


def one_by_chance(talk):
    """Mostly begin with a plug that has power and is not programming."""
    if talk.chance.random() < 0.9:
        talk.say(talk.chance.choice(["DP", "DP", "DP", "CP"]))
    talk.noise = talk.chance.choice(
        [None, None, odd_noise(talk), garbling_noise(talk)])
    talk.chance.choice(BY_CHANCE)(talk)
    talk.noise = None


def make_input():
    talk = Talk(random.Random(SEED))
    for conversation in FIXED:
        conversation(talk)
    while len(talk.letters) < WANTED_LENGTH:
        one_by_chance(talk)
    talk.say("DP")
    read_memory(talk, 0, 66)
    return bytes(talk.letters)


# ---------------------------------------------------------------------------


def main():
    parser = argparse.ArgumentParser(description="script program cases")
    what = parser.add_mutually_exclusive_group(required=True)
    what.add_argument("--input", action="store_true")
    what.add_argument("--output", action="store_true")
    parser.add_argument("--all-bytes", action="store_true")
    choice = parser.parse_args()
    script_input = make_input()
    if choice.all_bytes:
        script_input += bytes(range(256))
    if choice.input:
        sys.stdout.buffer.write(script_input)
    else:
        sys.stdout.write(script_output(script_input))


if __name__ == "__main__":
    main()
