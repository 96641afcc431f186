"""Prints what the bench program must write, from the plain model alone.

The verified order of a row is written here a second time, beside the other
jobs of a master, and run on the model's rig.  Each call prints one line: what
was asked and what was answered.  Bytes are in hex, in the sequence of their
travel.  What a task says at its end is asserted first.

    python3 tools/make_bench_lines.py > crates/bench/stdout
"""

from bench_words import (
    ORDER, READING, Report, counted, job_words, refused_words, spaced,
    steps_words)
from driven_tag import drive_tag
from master_jobs import (
    BAD_ROW, GARBLED, JobRefused, MOST_PASSES, NO_PRESENCE, NO_ROOM, find_row,
    open_exchange, presence_or_refusal, read, reading, require_a_row, search)
from onewire_model import (
    Chip, LINE_BUSY, PracticePlug, Refusal, RegistrationNumber, Rig,
    ROW_LENGTH, SealedTag, WRONG_CRC8, WRONG_IMAGE_LENGTH, bits_of_bytes,
    crc8, crc16, inverted_crc16_bytes, joint, one_tag, open_clip, refusal_of)


# ---------------------------------------------------------------------------
# The verified order

DIFFERS = 7                       # an order's own refusals, by their numbers
NOT_HELD = 8

STEPS_OF_A_PASS = 201

WHOLE_ROW = 0x07                  # the status of a scratchpad that took a row
PROGRAMMED = 0xAA                 # what a tag says after it has programmed


def first_difference(asked, found):
    """The first index at which two rows differ, or None."""
    return next((i for i in range(ROW_LENGTH) if asked[i] != found[i]), None)


def load_row(rig, number, target, new):
    """Exchange 1: 0Fh, and the sum that the tag answers."""
    sent = b"\x0F" + target + new
    open_exchange(rig, 1, number, sent)
    if read(rig, 2) != inverted_crc16_bytes(sent):
        raise JobRefused(GARBLED, 1, rig.steps)


def check_scratchpad(rig, number, target, new):
    """Exchange 2: AAh; address, status and sum first, then the data."""
    open_exchange(rig, 2, number, b"\xAA")
    told = read(rig, 13)
    report, check = told[:11], told[11:]
    if report[:3] != target + bytes([WHOLE_ROW]):
        raise JobRefused(GARBLED, 2, rig.steps)
    if check != inverted_crc16_bytes(b"\xAA" + report):
        raise JobRefused(GARBLED, 2, rig.steps)
    index = first_difference(new, report[3:])
    if index is not None:
        raise JobRefused(DIFFERS, 2, rig.steps, index)


def copy_scratchpad(rig, number, target):
    """Exchange 3: 55h, a dwell, and the byte that tells of programming."""
    open_exchange(rig, 3, number, b"\x55" + target + bytes([WHOLE_ROW]))
    rig.dwell()
    return read(rig, 1) == bytes([PROGRAMMED])


def order(rig, number, row, new):
    """Write a row and read it back; answers whether the tag programmed."""
    require_a_row(row)
    rig.refuse_if_busy()
    rig.zero_counters()
    target = row.to_bytes(2, "little")
    load_row(rig, number, target, new)
    check_scratchpad(rig, number, target, new)
    programmed = copy_scratchpad(rig, number, target)
    found = find_row(rig, 4, number, row)
    presence_or_refusal(rig, 5)
    index = first_difference(new, found)
    if index is not None:
        raise JobRefused(NOT_HELD, 5, rig.steps, index)
    return programmed


# ---------------------------------------------------------------------------
# Calls, and what is said of each.  A call's answer is kept in its outcome.


def mask_words(mask):
    """Byte i of a mask is for byte i of a row."""
    return spaced(mask.to_bytes(8, "little"))


def as_job(refused):
    """A pulse that is refused at the first step of a job makes no step."""
    if isinstance(refused, JobRefused):
        return refused
    return JobRefused(refused.number, 0, 0)


class Call:
    refused = None                # the number of the refusal that it met
    found = ()                    # the numbers that a search found

    def answer(self, rig):
        """What is answered, in words."""
        try:
            return self.done(rig)
        except (JobRefused, Refusal) as refused:
            self.refused = refused.number
            return self.refused_words(refused)

    def refused_words(self, refused):
        return refused_words(refused.number)


class Reset(Call):
    asked = "Reset"

    def done(self, rig):
        self.outcome = rig.reset()
        return "a tag is present" if self.outcome else "no tag is present"


class Slot(Call):
    def __init__(self, bit):
        self.bit = bit
        self.asked = f"Slot with {bit}"

    def done(self, rig):
        self.outcome = rig.slot(self.bit)
        return f"the bit is {self.outcome}"


class Dwell(Call):
    asked = "Dwell"

    def done(self, rig):
        rig.dwell()
        return "done"


class Cut(Call):
    def __init__(self, mask):
        self.mask = mask
        self.asked = f"Cut power with mask {mask_words(mask)}"

    def done(self, rig):
        rig.cut(self.mask)
        return "done"


class PowerUp(Call):
    asked = "Power up"

    def done(self, rig):
        rig.power_up()
        return "done"


class Fuse(Call):
    """A fuse at 0 cuts power at the very next step."""

    def __init__(self, count, mask):
        self.count = count
        self.mask = mask
        self.asked = (f"Set the fuse so that power will fail at step"
                      f" {count + 1} from now, with mask {mask_words(mask)}")

    def done(self, rig):
        rig.set_fuse(self.count, self.mask)
        return "done"


class Search(Call):
    def __init__(self, room):
        self.room = room
        self.asked = (f"Search for the numbers on the line, with"
                      f" {counted(room, 'place')} for them")

    def done(self, rig):
        self.found = []
        search(rig, self.room, self.found)
        assert rig.steps == STEPS_OF_A_PASS * len(self.found)
        return f"{self.found_words()}, in {steps_words(rig.steps)}"

    def refused_words(self, refused):
        return (f"{job_words(as_job(refused), 'pass', ())};"
                f" {self.found_words()}")

    def found_words(self):
        for number in self.found:
            RegistrationNumber(number)
        return f"{counted(len(self.found) or 'no', 'number')} found"


class Reading(Call):
    def __init__(self, number, row):
        self.number = number
        self.row = row
        self.asked = f"Read row {row:04X}h of tag {spaced(number)}"

    def done(self, rig):
        self.outcome = reading(rig, self.number, self.row)
        return f"{spaced(self.outcome)}, in {steps_words(rig.steps)}"

    def refused_words(self, refused):
        return job_words(as_job(refused), "exchange", READING)


class Order(Call):
    def __init__(self, number, row, new):
        self.number = number
        self.row = row
        self.new = new
        self.asked = (f"Order to write {spaced(new)} to row {row:04X}h"
                      f" of tag {spaced(number)}")

    def done(self, rig):
        self.outcome = order(rig, self.number, self.row, self.new)
        held = "held and programmed" if self.outcome else \
            "held, not programmed"
        return f"{held}, in {steps_words(rig.steps)}"

    def refused_words(self, refused):
        return job_words(as_job(refused), "exchange", ORDER)


class Session:
    """A rig that finds the work of the calls before, and the report."""

    def __init__(self, report, rig):
        self.report = report
        self.rig = rig

    def ask(self, calls):
        """One line for each call, and one for each number found.

        Answers the calls' outcomes: the number of a refusal, or what it gave.
        """
        outcomes = []
        for call in calls:
            self.report.say(f"{call.asked}: {call.answer(self.rig)}.")
            for number in call.found:
                self.report.say(f"  {spaced(number)}")
            self.report.calls += 1
            self.report.refusals += call.refused is not None
            outcomes.append(call.refused if call.refused is not None
                            else getattr(call, "outcome", None))
        return outcomes

    def send(self, data):
        """A slot for each bit, against which nobody pulls."""
        bits = bits_of_bytes(data)
        for bit in bits:
            assert self.rig.slot(bit) == bit
        self.report.calls += len(bits)
        self.report.say(f"Slots with the bits of {spaced(data)}:"
                        f" {len(bits)} done.")


# ---------------------------------------------------------------------------
# One whole task

GEARBOX = bytes.fromhex("2D47360000000161")
WRONG_GEARBOX = bytes.fromhex("2D47360000000162")
CLUTCH = bytes.fromhex("125A03E80BB80064")
CLUTCH_ROW = 0x0040

PLUG = bytes(8)
SEALED = bytes([0, 0, 0, 0, 0, 0, 0x01, 0x5E])
WRONG_SEALED = bytes([0, 0, 0, 0, 0, 0, 0x01, 0x5F])


def sealed_rig(number, image):
    return Rig(one_tag(Chip(RegistrationNumber(number), SealedTag(image))))


def say_making(report, what, refusal):
    words = "made" if refusal is None else refused_words(refusal)
    report.say(f"Make {what}: {words}.")
    report.makings += 1
    report.refusals += refusal is not None
    return refusal


def make_parts(report):
    report.begin("numbers and a sealed tag are made; a wrong check byte and a"
                 " short image are refused")
    met = [say_making(report, f"number {spaced(number)}",
                      refusal_of(RegistrationNumber, number))
           for number in (WRONG_GEARBOX, GEARBOX, WRONG_SEALED, SEALED)]
    met += [say_making(report,
                       f"a sealed tag from an image of {length} bytes",
                       refusal_of(SealedTag, b"\xFF" * length))
            for length in (135, 136)]
    assert met == [WRONG_CRC8, None, WRONG_CRC8, None,
                   WRONG_IMAGE_LENGTH, None]
    report.end(f"{met.count(None)} made, {len(met) - met.count(None)} refused")


def order_clutch(report):
    report.begin("the gearbox tag gets power and is found; its clutch values"
                 " are ordered to row 0040h and read back")
    session = Session(report, sealed_rig(GEARBOX, b"\xFF" * 136))
    looking = Search(8)
    assert session.ask([
        Reset(), PowerUp(), Reset(), looking,
        Order(GEARBOX, CLUTCH_ROW, CLUTCH), Reading(GEARBOX, CLUTCH_ROW),
    ]) == [False, None, True, None, True, CLUTCH]
    assert looking.found == [GEARBOX]
    report.end_calls("no other tag was found, and the row read is the row"
                     " ordered")


# ---------------------------------------------------------------------------
# Edge runs of the order
#
# The tag has F0h everywhere but for its control bytes: page 0 is
# write-protected, page 1 is in EPROM mode, pages 2 and 3 are free.

OLD = b"\xF0" * ROW_LENGTH
NEW = bytes(range(1, 9))
ONES = b"\xFF" * ROW_LENGTH
ZEROS = bytes(ROW_LENGTH)


def edge_rig(lock):
    image = bytearray(b"\xF0" * 136)
    image[0x80:0x85] = bytes([0x55, 0xAA, 0x00, 0x00, lock])
    return sealed_rig(SEALED, image)


def lose_power(session, count, mask, new, left):
    """An order to a free row that loses power, and what the row holds then."""
    assert session.ask([
        Fuse(count, mask), Order(SEALED, 0x40, new), PowerUp(),
        Reading(SEALED, 0x40)]) == [None, NO_PRESENCE, None, left]


def lose_power_at_edges(session):
    report = session.report
    report.begin("power fails while row 0040h is ordered: at the dwell, with"
                 " two masks, and at the closing reset")
    session.ask([PowerUp()])
    lose_power(session, 467, 0, NEW, OLD)
    lose_power(session, 467, 0xFFFF_FFFF, NEW, NEW[:4] + OLD[4:])
    lose_power(session, 637, 0, NEW, NEW)
    report.end_calls("the row was left old, then half new, then new")


def order_protected(session):
    report = session.report
    report.begin("orders to rows that are not free: page 0 is write-protected,"
                 " in page 1 bits only fall, row 0088h is not programmable")
    assert session.ask([
        Order(SEALED, 0x20, b"\x0F" * 8), Order(SEALED, 0x20, b"\x70" * 8),
        Order(SEALED, 0x00, OLD), Order(SEALED, 0x00, NEW),
        Order(SEALED, 0x88, ONES), Order(SEALED, 0x88, ZEROS),
        Order(SEALED, 0x03, NEW),
    ]) == [DIFFERS, True, True, DIFFERS, False, NOT_HELD, BAD_ROW]
    report.end_calls("an order was held exactly where the row can hold its"
                     " bytes")


def order_locked(report):
    report.begin("the order of a protected row as it is, where byte 84h is 55h"
                 " and forbids the copy")
    session = Session(report, edge_rig(0x55))
    assert session.ask([PowerUp(), Order(SEALED, 0x00, OLD)]) == [None, False]
    report.end_calls("the order was held, though nothing was programmed")


def edge_runs(report):
    session = Session(report, edge_rig(0x00))
    lose_power_at_edges(session)
    order_protected(session)
    order_locked(report)


# A mask with no two bytes alike, and a row that differs from OLD in every bit:
# where it was programmed under the mask, the row shows the mask.
MASK = 0x0123_4567_89AB_CDEF
TURNED = b"\x0F" * ROW_LENGTH
MASKED = bytes(byte ^ 0xF0 for byte in MASK.to_bytes(8, "little"))


def mask_runs(report):
    session = Session(report, edge_rig(0x00))
    report.begin("power fails at the dwell of an order, with a mask of eight"
                 " different bytes")
    session.ask([PowerUp()])
    lose_power(session, 467, MASK, TURNED, MASKED)
    report.end_calls("the row is new exactly where the mask has ones")
    report.begin("slots write the scratchpad for row 0048h and copy it; a cut"
                 " with the same mask stops the programming")
    assert session.ask([Reset()]) == [True]
    session.send(b"\xCC\x0F\x48\x00" + TURNED)
    assert session.ask([Reset()]) == [True]
    session.send(b"\xCC\x55\x48\x00\x07")
    assert session.ask([
        Reset(), Cut(MASK), PowerUp(), Reading(SEALED, 0x48),
    ]) == [LINE_BUSY, None, None, MASKED]
    report.end_calls("the row is new exactly where the mask has ones")


# ---------------------------------------------------------------------------
# Two tags on one line

# Six zero bytes and a sum that makes the sum of 0Fh, the address and them 0.
SUM_ZERO = bytes(6) + crc16(b"\x0F" + bytes(8)).to_bytes(2, "little")

PLUG_ROW = b"\xA5" * ROW_LENGTH


def make_pair():
    plug = Chip(RegistrationNumber(PLUG), PracticePlug(b"\xA5" * 64))
    sealed = Chip(RegistrationNumber(SEALED), SealedTag(bytes(range(136))))
    return Rig(joint(one_tag(plug), one_tag(sealed)))


def read_pair(session):
    report = session.report
    report.begin("a practice plug whose bytes are A5h and a sealed tag whose"
                 " bytes are their own addresses share a line")
    looking = Search(8)
    assert session.ask([
        PowerUp(), looking, Reading(SEALED, 0x40), Reading(SEALED, 0x90),
        Reading(PLUG, 0x38), Reading(PLUG, 0x40),
    ]) == [None, None, bytes(range(0x40, 0x48)), ONES, PLUG_ROW, ONES]
    assert looking.found == [PLUG, SEALED]
    report.end_calls("both numbers were found, and each row read is that of"
                     " its tag, FFh past its bytes")


def refuse_readings(session):
    report = session.report
    report.begin("readings of a wrong row, of an absent tag, without power,"
                 " and with power that fails on the way")
    met = session.ask([
        Reading(SEALED, 0x03), Reading(GEARBOX, 0x00), Cut(0),
        Reading(SEALED, 0x40)])
    for count in (40, 100, 200, 266):
        met += session.ask([PowerUp(), Fuse(count, 0), Reading(SEALED, 0x40)])
    assert [refusal for refusal in met if refusal is not None] == [
        BAD_ROW, GARBLED, NO_PRESENCE,
        GARBLED, NO_PRESENCE, NO_PRESENCE, NO_PRESENCE]
    report.end_calls("no reading gave a row")


def refuse_searches(session):
    report = session.report
    report.begin("searches without power, with too few places, and with power"
                 " that fails on the way")
    searches = [Search(8), Search(0), Search(1), Search(8), Search(8)]
    unpowered, placeless, short, second, garbled = searches
    session.ask([
        unpowered, PowerUp(), placeless, short, Fuse(201, 0), second,
        PowerUp(), Fuse(300, 0), garbled])
    assert [(one.refused, list(one.found)) for one in searches] == [
        (NO_PRESENCE, []), (NO_ROOM, []), (NO_ROOM, [PLUG]),
        (NO_PRESENCE, [PLUG]), (GARBLED, [PLUG])]
    report.end_calls("each search kept the numbers found before its refusal")


def refuse_orders(session):
    report = session.report
    report.begin("orders without power, to an absent tag, and with power that"
                 " fails on the way")
    met = session.ask([
        Order(PLUG, 0x00, NEW), PowerUp(), Order(GEARBOX, 0x00, NEW),
        Order(GEARBOX, 0x00, SUM_ZERO), Fuse(100, 0), Order(PLUG, 0x00, NEW),
        PowerUp(), Fuse(300, 0), Order(PLUG, 0x00, NEW)])
    assert [refusal for refusal in met if refusal is not None] == [
        NO_PRESENCE, GARBLED, GARBLED, GARBLED, GARBLED]
    report.end_calls("no order was held")


def keep_busy(session):
    report = session.report
    report.begin("the plug takes an order, is made by slots to copy the same"
                 " row again, and keeps the line busy until a dwell")
    assert session.ask([PowerUp(), Order(PLUG, 0x08, NEW), Reset()]) == [
        None, True, True]
    session.send(b"\xCC\x55\x08\x00\x87")
    looking = Search(2)
    assert session.ask([
        Reset(), Slot(1), Reading(SEALED, 0x40), Search(8),
        Order(PLUG, 0x08, NEW), Dwell(), Slot(1), Slot(1),
        Reading(PLUG, 0x08), looking,
    ]) == [LINE_BUSY] * 5 + [None, 0, 1, NEW, None]
    assert looking.found == [PLUG, SEALED]
    report.end_calls("the busy line refused everything but the dwell, and the"
                     " row read is the row ordered")


def read_what_is_left(session):
    report = session.report
    report.begin("row 0000h of the plug after the orders that were refused,"
                 " and row 0040h, past its bytes")
    assert session.ask([
        Reading(PLUG, 0x00), Order(PLUG, 0x40, ONES), Order(PLUG, 0x40, NEW),
    ]) == [PLUG_ROW, False, NOT_HELD]
    report.end_calls("no refused order changed row 0000h, and row 0040h holds"
                     " nothing but FFh")


def pair_runs(report):
    session = Session(report, make_pair())
    read_pair(session)
    refuse_readings(session)
    refuse_searches(session)
    refuse_orders(session)
    keep_busy(session)
    read_what_is_left(session)


# ---------------------------------------------------------------------------
# More tags than a search lists


def plug_of_serial(serial):
    start = bytes([0x2D, serial, 0, 0, 0, 0, 0])
    number = RegistrationNumber(start + bytes([crc8(start)]))
    return one_tag(Chip(number, PracticePlug(bytes(64))))


def search_many(report):
    line = open_clip()
    for serial in range(MOST_PASSES + 1):
        line = joint(line, plug_of_serial(serial))
    report.begin(f"{len(line.chips)} practice plugs share a line, one more"
                 " than a search finds; their family is 2Dh, their serial"
                 f" numbers are 0 to {MOST_PASSES}")
    session = Session(report, Rig(line))
    looking = Search(100)
    assert session.ask([PowerUp(), looking]) == [None, NO_ROOM]
    assert all(number[0] == 0x2D for number in looking.found)
    assert len(set(looking.found)) == MOST_PASSES
    report.end_calls(f"{len(looking.found)} numbers of the family were found")


def all_lines():
    report = Report()
    report.say("This program plays 1-Wire memory tags in software and drives"
               " them as a bus master does: whole tasks, edge cases and"
               " refusals.")
    report.say("Each line says what is asked and, after the colon, what is"
               " answered. Bytes are in hexadecimal, in the sequence in which"
               " they travel.")
    report.say("A step is a reset, a slot of one bit, or a dwell, the time in"
               " which a tag programs. If power fails while a tag programs,"
               " the row gets its new bits only where the mask has ones.")
    make_parts(report)
    order_clutch(report)
    drive_tag(report)
    edge_runs(report)
    mask_runs(report)
    pair_runs(report)
    search_many(report)
    report.sum_up()
    return report.lines


# ---------------------------------------------------------------------------
# Self-check


def outcome(rig, *asked):
    """What an order answers: held, programmed and steps; or its refusal."""
    try:
        programmed = order(rig, *asked)
        return "held", programmed, rig.steps
    except JobRefused as refused:
        return (refused.number, refused.exchange, refused.steps,
                refused.index)


def row_of(rig, row):
    """A row as the model holds it, not as the master reads it."""
    return bytes(rig.line.chips[0].kind.byte_at(row + i)
                 for i in range(ROW_LENGTH))


def powered_edge_rig(lock=0x00):
    rig = edge_rig(lock)
    rig.power_up()
    return rig


def check_fuses():
    rig = powered_edge_rig()
    assert outcome(rig, SEALED, 0x40, NEW) == ("held", True, 638)
    assert row_of(rig, 0x40) == NEW
    for mask, left in ((0, OLD), (0xFFFF_FFFF, NEW[:4] + OLD[4:])):
        rig = powered_edge_rig()
        rig.set_fuse(467, mask)
        assert outcome(rig, SEALED, 0x40, NEW) == (5, 4, 477, None)
        assert row_of(rig, 0x40) == left
    rig = powered_edge_rig()
    rig.set_fuse(637, 0)
    assert outcome(rig, SEALED, 0x40, NEW) == (5, 5, 638, None)
    assert row_of(rig, 0x40) == NEW


def check_masks():
    """Byte i of a mask is for byte i of a row, the lowest byte first."""
    seen = [mask_byte ^ 0xF0 for mask_byte in MASK.to_bytes(8, "little")]
    rig = powered_edge_rig()
    rig.set_fuse(467, MASK)
    assert outcome(rig, SEALED, 0x40, TURNED) == (5, 4, 477, None)
    assert list(row_of(rig, 0x40)) == seen
    assert list(MASKED) == seen


def check_protection():
    rig = powered_edge_rig()
    assert outcome(rig, SEALED, 0x20, b"\x0F" * 8) == (7, 2, 362, 0)
    assert row_of(rig, 0x20) == OLD
    assert outcome(rig, SEALED, 0x20, b"\x70" * 8) == ("held", True, 638)
    assert row_of(rig, 0x20) == b"\x70" * 8
    assert outcome(rig, SEALED, 0x00, OLD) == ("held", True, 638)
    assert outcome(rig, SEALED, 0x88, b"\xFF" * 8) == ("held", False, 638)
    assert outcome(rig, SEALED, 0x88, bytes(8)) == (8, 5, 638, 0)
    assert outcome(rig, SEALED, 0x03, OLD) == (4, 0, 0, None)
    locked = powered_edge_rig(0x55)
    assert outcome(locked, SEALED, 0x00, OLD) == ("held", False, 638)


def check_pair():
    rig = make_pair()
    rig.power_up()
    found = []
    search(rig, 8, found)
    assert found == [PLUG, SEALED] and rig.steps == 402
    reading(rig, SEALED, 0x40)
    assert rig.steps == 267
    assert outcome(rig, GEARBOX, 0x00, NEW) == (6, 1, 177, None)
    assert outcome(rig, GEARBOX, 0x00, SUM_ZERO) == (6, 2, 362, None)


def check_everything():
    assert refusal_of(RegistrationNumber, SEALED) is None
    assert refusal_of(RegistrationNumber, WRONG_SEALED) == 1
    check_fuses()
    check_masks()
    check_protection()
    check_pair()


if __name__ == "__main__":
    check_everything()
    for line in all_lines():
        print(line)
