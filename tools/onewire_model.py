"""A plain model of 1-Wire memory tags: check sums, numbers, tags, lines, rig.

The model is written to be read, not to be fast.  It serves as a second
opinion on another program, so it takes other ways where it can: the check
sums, for example, are long divisions of polynomials over GF(2).

Everywhere bits travel lowest first: bit 0 of byte 0 goes first over the wire.

Run this file alone to let it check itself.
"""

from enum import Enum, auto

ROW_LENGTH = 8                    # bytes in a row, and in the scratchpad
FULL_MASK = (1 << 64) - 1         # a programming mask that takes every bit

WRONG_CRC8 = 1                    # the refusals, by their numbers
WRONG_IMAGE_LENGTH = 2
LINE_BUSY = 3


class Refusal(Exception):
    """A call was refused; nothing has changed."""

    def __init__(self, number):
        super().__init__(f"refusal {number}")
        self.number = number


# ---------------------------------------------------------------------------
# Bits and bytes


def bits_of_bytes(data):
    """The bits of some bytes in the order in which they travel."""
    return [byte >> j & 1 for byte in data for j in range(8)]


def byte_of_bits(bits):
    """The byte that eight travelled bits make up."""
    assert len(bits) == 8
    return sum(bit << j for j, bit in enumerate(bits))


def bytes_of_bits(bits):
    """The bytes that a whole number of eights of travelled bits make up."""
    return bytes(byte_of_bits(bits[i:i + 8]) for i in range(0, len(bits), 8))


# ---------------------------------------------------------------------------
# Check sums
#
# A message is read as a polynomial over GF(2), kept in an integer whose bit n
# is the coefficient of x^n.  The bit that travels first has the highest power.
# The check sum is the remainder of message * x^width divided by the generator.
# It travels like the message, highest power first, and since bit 0 of a value
# travels first, the remainder has to be mirrored to be read as a value.

CRC8_GENERATOR = 1 << 8 | 1 << 5 | 1 << 4 | 1
CRC16_GENERATOR = 1 << 16 | 1 << 15 | 1 << 2 | 1


def polynomial_of_message(data):
    """The message as a polynomial, the first travelling bit highest."""
    polynomial = 0
    for bit in bits_of_bytes(data):
        polynomial = polynomial << 1 | bit
    return polynomial


def remainder(dividend, divisor):
    """Long division over GF(2): subtract shifted divisors, keep the rest."""
    while dividend.bit_length() >= divisor.bit_length():
        dividend ^= divisor << (dividend.bit_length() - divisor.bit_length())
    return dividend


def mirrored(value, width):
    """The value with its lowest `width` bits in reverse sequence."""
    return int(format(value, f"0{width}b")[::-1], 2)


def check_sum(data, generator):
    width = generator.bit_length() - 1
    shifted = polynomial_of_message(data) << width
    return mirrored(remainder(shifted, generator), width)


def crc8(data):
    return check_sum(data, CRC8_GENERATOR)


def crc16(data):
    return check_sum(data, CRC16_GENERATOR)


def inverted_crc16_bytes(data):
    """What a chip sends behind a message: inverted sum, low byte first."""
    return (crc16(data) ^ 0xFFFF).to_bytes(2, "little")


# ---------------------------------------------------------------------------
# Registration numbers


class RegistrationNumber:
    """Eight bytes: family code, six serial bytes, CRC-8 of those seven."""

    def __init__(self, number_bytes):
        number_bytes = bytes(number_bytes)
        assert len(number_bytes) == 8
        if crc8(number_bytes[:7]) != number_bytes[7]:
            raise Refusal(WRONG_CRC8)
        self.bytes = number_bytes

    @classmethod
    def from_word(cls, word):
        """A number from a 64-bit word, byte 0 being the lowest."""
        return cls(word.to_bytes(8, "little"))

    def bits(self):
        return bits_of_bytes(self.bytes)


# ---------------------------------------------------------------------------
# Kinds of tag


def blended(old, new, mask):
    """Bits of `new` where the mask has a 1, bits of `old` elsewhere."""
    return new & mask | old & ~mask


class Kind:
    """What is common to all kinds; each kind adds its own two rules."""

    READABLE = 0        # N
    PROGRAMMABLE = 0    # W
    IMAGE_LENGTH = 0

    def __init__(self, image):
        if len(image) != self.IMAGE_LENGTH:
            raise Refusal(WRONG_IMAGE_LENGTH)
        rest = self.READABLE - self.IMAGE_LENGTH
        self.bytes = bytearray(image) + bytearray([0xFF] * rest)

    def byte_at(self, address):
        return self.bytes[address] if address < self.READABLE else 0xFF

    def load(self, address, sent):
        """The byte that goes into the scratchpad for this sent byte."""
        if address >= self.PROGRAMMABLE:
            return sent
        return self.load_rule(address, sent)

    def may_copy(self, row):
        """May the scratchpad be copied to the row beginning here?"""
        return row < self.PROGRAMMABLE and self.copy_rule(row)

    def program(self, row, new_bytes, mask):
        """Blend eight new bytes into a row; bit 8i+j is bit j of byte i."""
        assert row % ROW_LENGTH == 0 and len(new_bytes) == ROW_LENGTH
        if row >= self.PROGRAMMABLE:
            return
        for i, new in enumerate(new_bytes):
            byte_mask = mask >> 8 * i & 0xFF
            self.bytes[row + i] = blended(self.bytes[row + i], new, byte_mask)

    def load_rule(self, address, sent):
        raise NotImplementedError

    def copy_rule(self, row):
        raise NotImplementedError


class PracticePlug(Kind):
    """64 bytes without any protection."""

    READABLE = 64
    PROGRAMMABLE = 64
    IMAGE_LENGTH = 64

    def load_rule(self, address, sent):
        return sent

    def copy_rule(self, row):
        return True


class SealedTag(Kind):
    """Four pages of 32 bytes, then the bytes that govern them."""

    READABLE = 144
    PROGRAMMABLE = 136
    IMAGE_LENGTH = 136

    PAGE_LENGTH = 0x20
    FIRST_CONTROL = 0x80      # one control byte for each of the four pages
    COPY_LOCK = 0x84          # locks row 80h and the protected pages
    FACTORY = 0x85            # never changes; AAh here also seals 86h and 87h

    PROTECTED = 0x55
    EPROM = 0xAA

    def control_of(self, address):
        """The control byte of the page in which the address lies."""
        return self.bytes[self.FIRST_CONTROL + address // self.PAGE_LENGTH]

    def load_rule(self, address, sent):
        held = self.bytes[address]
        if address < self.FIRST_CONTROL:
            return self.load_in_page(self.control_of(address), held, sent)
        if self.is_sealed(address):
            return held
        return sent

    def load_in_page(self, control, held, sent):
        if control == self.PROTECTED:
            return held
        if control == self.EPROM:
            return sent & held
        return sent

    def is_sealed(self, address):
        """Is this byte of row 80h write-protected?"""
        if address <= self.COPY_LOCK:
            return self.bytes[address] in (self.PROTECTED, self.EPROM)
        if address == self.FACTORY:
            return True
        return self.bytes[self.FACTORY] == 0xAA

    def copy_rule(self, row):
        if self.bytes[self.COPY_LOCK] not in (self.PROTECTED, self.EPROM):
            return True
        if row == self.FIRST_CONTROL:
            return False
        return self.control_of(row) != self.PROTECTED


# ---------------------------------------------------------------------------
# The chip


class Phase(Enum):
    IDLE = auto()
    # with the number commands
    ROM_COMMAND = auto()         # taking the eight bits of a command
    SENDING_NUMBER = auto()      # 33h
    MATCHING = auto()            # 55h
    SEARCHING = auto()           # F0h
    # with the memory commands
    MEMORY_COMMAND = auto()      # taking the eight bits of a command
    TAKING_TA1 = auto()          # 0Fh, first byte
    TAKING_TA2 = auto()          # 0Fh, second byte
    TAKING_DATA = auto()         # 0Fh, the bytes for the scratchpad
    SENDING_MESSAGE = auto()     # a list of bits, then ones without end
    TAKING_PATTERN = auto()      # 55h, three bytes
    TAKING_ADDRESS = auto()      # F0h, two bytes
    SENDING_MEMORY = auto()      # F0h, bytes upward without end
    PROGRAMMING = auto()         # waits for dwell or cut
    ALTERNATING = auto()         # 0, 1, 0, 1 ... after a dwell


NUMBER_BITS = 64
PULLS_NOTHING = 1                # letting go of the line leaves it at 1


class Chip:
    """One tag: a number, a kind with its bytes, registers and a phase."""

    def __init__(self, number, kind):
        self.number = number
        self.kind = kind
        self.powered = False
        self.message = []        # the bits for SENDING_MESSAGE
        self.read_start = 0      # the first address for SENDING_MEMORY
        self.sent_data = []      # the data bytes taken by 0Fh, as sent
        self.clear_registers()
        self.enter(Phase.IDLE)

    def clear_registers(self):
        self.rc = False
        self.ta1 = 0
        self.ta2 = 0
        self.e = 0
        self.pf = True
        self.aa = False
        self.scratchpad = [0xFF] * ROW_LENGTH

    def enter(self, phase):
        """Begin a phase from its start: nothing gathered, nothing sent."""
        self.phase = phase
        self.place = 0           # how many bits were sent or compared in it
        self.taken = []          # bits gathered but not yet used

    # -- what can be asked ---------------------------------------------------

    def status(self):
        """The byte E/S."""
        return self.e + (0x20 if self.pf else 0) + (0x80 if self.aa else 0)

    def target_row(self):
        return (self.ta2 << 8 | self.ta1) & ~(ROW_LENGTH - 1)

    def target_offset(self):
        return self.ta1 % ROW_LENGTH

    def is_programming(self):
        return self.powered and self.phase is Phase.PROGRAMMING

    def pull(self):
        """The bit that the chip puts on the line in the coming slot."""
        if not self.powered:
            return PULLS_NOTHING
        if self.phase is Phase.SENDING_NUMBER:
            return self.number.bits()[self.place]
        if self.phase is Phase.SEARCHING:
            return self.search_pull()
        if self.phase is Phase.SENDING_MESSAGE:
            return self.message_pull()
        if self.phase is Phase.SENDING_MEMORY:
            return self.memory_pull()
        if self.phase is Phase.ALTERNATING:
            return self.place % 2
        return PULLS_NOTHING

    def search_pull(self):
        """Each bit has three slots: the bit, its opposite, the choice."""
        bit = self.number.bits()[self.place // 3]
        turn = self.place % 3
        if turn == 0:
            return bit
        if turn == 1:
            return 1 - bit
        return PULLS_NOTHING

    def message_pull(self):
        return self.message[self.place] if self.place < len(self.message) else 1

    def memory_pull(self):
        # The address simply grows; behind the last byte all is FFh.
        address = self.read_start + self.place // 8
        return self.kind.byte_at(address) >> self.place % 8 & 1

    # -- power, reset, dwell, cut --------------------------------------------

    def power_up(self):
        if self.powered:
            return
        self.powered = True
        self.clear_registers()
        self.enter(Phase.IDLE)

    def reset(self):
        if self.powered and self.phase is not Phase.PROGRAMMING:
            self.enter(Phase.ROM_COMMAND)

    def dwell(self):
        if self.is_programming():
            self.kind.program(self.target_row(), self.scratchpad, FULL_MASK)
            self.enter(Phase.ALTERNATING)

    def cut(self, mask):
        if self.is_programming():
            self.kind.program(self.target_row(), self.scratchpad, mask)
        self.powered = False

    # -- a taken bit ---------------------------------------------------------

    def take(self, bit):
        """The chip sees the bit of one slot and moves on."""
        if not self.powered:
            return
        step = {
            Phase.IDLE: self.take_nothing,
            Phase.PROGRAMMING: self.take_nothing,
            Phase.ROM_COMMAND: self.take_rom_command,
            Phase.SENDING_NUMBER: self.take_while_sending_number,
            Phase.MATCHING: self.take_while_matching,
            Phase.SEARCHING: self.take_while_searching,
            Phase.MEMORY_COMMAND: self.take_memory_command,
            Phase.TAKING_TA1: self.take_ta1,
            Phase.TAKING_TA2: self.take_ta2,
            Phase.TAKING_DATA: self.take_data,
            Phase.SENDING_MESSAGE: self.take_while_sending,
            Phase.TAKING_PATTERN: self.take_pattern,
            Phase.TAKING_ADDRESS: self.take_address,
            Phase.SENDING_MEMORY: self.take_while_sending,
            Phase.ALTERNATING: self.take_while_sending,
        }[self.phase]
        step(bit)

    def take_nothing(self, bit):
        pass

    def take_while_sending(self, bit):
        self.place += 1

    def gather(self, bit, count):
        """Gather bits; when `count` bytes are there, give them out."""
        self.taken.append(bit)
        if len(self.taken) < 8 * count:
            return None
        gathered = bytes_of_bits(self.taken)
        self.taken = []
        return gathered

    # -- number commands -----------------------------------------------------

    def take_rom_command(self, bit):
        gathered = self.gather(bit, 1)
        if gathered is not None:
            self.obey_rom_command(gathered[0])

    def obey_rom_command(self, command):
        if command in (0x33, 0x55, 0xF0, 0xCC):
            self.rc = False
        if command == 0x33:
            self.enter(Phase.SENDING_NUMBER)
        elif command == 0x55:
            self.enter(Phase.MATCHING)
        elif command == 0xF0:
            self.enter(Phase.SEARCHING)
        elif command == 0xCC:
            self.enter(Phase.MEMORY_COMMAND)
        elif command == 0xA5 and self.rc:
            self.enter(Phase.MEMORY_COMMAND)
        else:
            self.enter(Phase.IDLE)

    def take_while_sending_number(self, bit):
        self.place += 1
        if self.place == NUMBER_BITS:
            self.enter(Phase.MEMORY_COMMAND)

    def take_while_matching(self, bit):
        if bit != self.number.bits()[self.place]:
            self.enter(Phase.IDLE)
            return
        self.place += 1
        if self.place == NUMBER_BITS:
            self.selected()

    def take_while_searching(self, bit):
        choosing = self.place % 3 == 2
        if choosing and bit != self.number.bits()[self.place // 3]:
            self.enter(Phase.IDLE)
            return
        self.place += 1
        if self.place == 3 * NUMBER_BITS:
            self.selected()

    def selected(self):
        self.rc = True
        self.enter(Phase.MEMORY_COMMAND)

    # -- memory commands -----------------------------------------------------

    def take_memory_command(self, bit):
        gathered = self.gather(bit, 1)
        if gathered is not None:
            self.obey_memory_command(gathered[0])

    def obey_memory_command(self, command):
        if command == 0x0F:
            self.pf = True
            self.aa = False
            self.enter(Phase.TAKING_TA1)
        elif command == 0xAA:
            self.send_scratchpad()
        elif command == 0x55:
            self.enter(Phase.TAKING_PATTERN)
        elif command == 0xF0:
            self.enter(Phase.TAKING_ADDRESS)
        else:
            self.enter(Phase.IDLE)

    def send(self, message_bytes):
        """Send these bytes, then ones until reset."""
        self.message = bits_of_bytes(message_bytes)
        self.enter(Phase.SENDING_MESSAGE)

    # 0Fh: write the scratchpad

    def take_ta1(self, bit):
        gathered = self.gather(bit, 1)
        if gathered is not None:
            self.ta1 = gathered[0]
            self.e = self.target_offset()
            self.enter(Phase.TAKING_TA2)

    def take_ta2(self, bit):
        gathered = self.gather(bit, 1)
        if gathered is not None:
            self.ta2 = gathered[0]
            self.sent_data = []
            self.enter(Phase.TAKING_DATA)

    def take_data(self, bit):
        gathered = self.gather(bit, 1)
        if gathered is None:
            return
        offset = self.target_offset() + len(self.sent_data)
        sent = gathered[0]
        self.sent_data.append(sent)
        address = self.target_row() + offset
        self.scratchpad[offset] = self.kind.load(address, sent)
        self.e = offset
        if offset == ROW_LENGTH - 1:
            self.finish_writing()

    def finish_writing(self):
        if self.target_offset() == 0:
            self.pf = False
        heard = bytes([0x0F, self.ta1, self.ta2] + self.sent_data)
        self.send(inverted_crc16_bytes(heard))

    # AAh: read the scratchpad

    def send_scratchpad(self):
        report = bytes([self.ta1, self.ta2, self.status()]
                       + self.scratchpad[self.target_offset():])
        self.send(report + inverted_crc16_bytes(b"\xAA" + report))

    # 55h: copy the scratchpad

    def take_pattern(self, bit):
        pattern = self.gather(bit, 3)
        if pattern is None:
            return
        wanted = bytes([self.ta1, self.ta2, self.status()])
        allowed = not self.pf and self.kind.may_copy(self.target_row())
        if pattern == wanted and allowed:
            self.aa = True
            self.enter(Phase.PROGRAMMING)
        else:
            self.enter(Phase.IDLE)

    # F0h: read the memory

    def take_address(self, bit):
        gathered = self.gather(bit, 2)
        if gathered is not None:
            self.read_start = int.from_bytes(gathered, "little")
            self.enter(Phase.SENDING_MEMORY)


# ---------------------------------------------------------------------------
# Lines


class Line:
    """A list of chips on one wire, in a fixed sequence."""

    def __init__(self, chips):
        self.chips = list(chips)

    def presence(self):
        return any(chip.powered for chip in self.chips)

    def pull(self):
        return min((chip.pull() for chip in self.chips), default=1)

    def busy(self):
        return any(chip.is_programming() for chip in self.chips)

    def reset(self):
        for chip in self.chips:
            chip.reset()

    def take(self, bit):
        for chip in self.chips:
            chip.take(bit)

    def dwell(self):
        for chip in self.chips:
            chip.dwell()

    def cut(self, mask):
        for chip in self.chips:
            chip.cut(mask)

    def power_up(self):
        for chip in self.chips:
            chip.power_up()


def one_tag(chip):
    return Line([chip])


def open_clip():
    return Line([])


def joint(left, right):
    return Line(left.chips + right.chips)


# ---------------------------------------------------------------------------
# The rig


class Rig:
    """A line, a fuse, and counters of the steps done so far.

    A step that the fuse turned into a cut is counted under its own name.
    A refused pulse is no step and is not counted.
    """

    def __init__(self, line):
        self.line = line
        self.fuse = None         # or a pair (count, mask)
        self.zero_counters()

    def zero_counters(self):
        self.resets = 0
        self.slots = 0
        self.dwells = 0

    @property
    def steps(self):
        return self.resets + self.slots + self.dwells

    def set_fuse(self, count, mask):
        assert 0 <= count < 1 << 32 and 0 <= mask < 1 << 64
        self.fuse = (count, mask)

    def refuse_if_busy(self):
        if self.line.busy():
            raise Refusal(LINE_BUSY)

    def fuse_blows(self):
        """Burn the fuse by one step; yes if this step became a cut."""
        if self.fuse is None:
            return False
        count, mask = self.fuse
        if count > 0:
            self.fuse = (count - 1, mask)
            return False
        self.fuse = None
        self.line.cut(mask)
        return True

    def reset(self):
        """Answers presence."""
        self.refuse_if_busy()
        self.resets += 1
        if self.fuse_blows():
            return False
        self.line.reset()
        return self.line.presence()

    def slot(self, master_bit):
        """Answers the bit that was on the line."""
        self.refuse_if_busy()
        self.slots += 1
        if self.fuse_blows():
            return master_bit
        bit = master_bit & self.line.pull()
        self.line.take(bit)
        return bit

    def dwell(self):
        self.dwells += 1
        if not self.fuse_blows():
            self.line.dwell()

    def cut(self, mask):
        self.line.cut(mask)

    def power_up(self):
        self.line.power_up()


# ---------------------------------------------------------------------------
# The script program


class Script:
    """One practice plug on a rig, driven by single input bytes."""

    def __init__(self):
        number = RegistrationNumber(bytes(8))
        self.chip = Chip(number, PracticePlug(bytes(64)))
        self.rig = Rig(one_tag(self.chip))

    def answer(self, letter):
        """The one character printed for one input byte."""
        try:
            return self.obey(letter)
        except Refusal as refusal:
            assert refusal.number == LINE_BUSY
            return "!"

    def obey(self, letter):
        if letter == ord("R"):
            return "p" if self.rig.reset() else "-"
        if letter == ord("0"):
            return str(self.rig.slot(0))
        if letter == ord("1"):
            return str(self.rig.slot(1))
        if letter == ord("D"):
            self.rig.dwell()
            return "."
        if letter == ord("C"):
            self.rig.cut(0)
            return "."
        if letter == ord("P"):
            self.rig.power_up()
            return "."
        return "?"


def script_output(script_input):
    """All that the script program prints for these input bytes."""
    script = Script()
    return "".join(map(script.answer, script_input)) + "\n"


# ---------------------------------------------------------------------------
# Self-check


def refusal_of(call, *arguments):
    """The number of the refusal that a call meets, or None."""
    try:
        call(*arguments)
    except Refusal as refusal:
        return refusal.number
    return None


def crc_by_shifting(data, taps):
    """The customary shift register, only here as a cross-check."""
    register = 0
    for bit in bits_of_bytes(data):
        feedback = (register ^ bit) & 1
        register = register >> 1 ^ (taps if feedback else 0)
    return register


def check_check_sums():
    assert crc8(b"123456789") == 0xA1
    assert crc16(b"123456789") == 0xBB3D
    assert crc8(b"") == crc16(b"") == 0
    for length in range(40):
        message = bytes((37 * length + 11 * i * i) % 256 for i in range(length))
        assert crc8(message) == crc_by_shifting(message, 0x8C)
        assert crc16(message) == crc_by_shifting(message, 0xA001)
        assert crc8(message + bytes([crc8(message)])) == 0


def check_numbers():
    lawful = bytes([0, 0, 0, 0, 0, 0, 0x01, 0x5E])
    unlawful = bytes([0, 0, 0, 0, 0, 0, 0x01, 0x5F])
    assert refusal_of(RegistrationNumber, lawful) is None
    assert refusal_of(RegistrationNumber, unlawful) == WRONG_CRC8
    assert refusal_of(RegistrationNumber, bytes(8)) is None
    word = int.from_bytes(lawful, "little")
    assert RegistrationNumber.from_word(word).bytes == lawful


def sealed_tag(**held):
    """A sealed tag of F0h bytes with some others, named like x80=0x55."""
    image = bytearray([0xF0] * 136)
    for name, value in held.items():
        image[int(name[1:], 16)] = value
    return SealedTag(image)


def check_sealed_tag_loading():
    free = sealed_tag()
    assert free.load(0x00, 0x12) == free.load(0x7F, 0x12) == 0x12
    assert free.load(0x80, 0x12) == free.load(0x84, 0x12) == 0x12
    assert free.load(0x85, 0x12) == 0xF0
    assert free.load(0x86, 0x12) == free.load(0x87, 0x12) == 0x12
    assert free.load(0x88, 0x12) == free.load(0xFFFF, 0x12) == 0x12

    governed = sealed_tag(x80=0x55, x81=0xAA, x83=0x55, x84=0xAA, x85=0xAA)
    assert governed.load(0x00, 0x3C) == governed.load(0x1F, 0x3C) == 0xF0
    assert governed.load(0x20, 0x3C) == governed.load(0x3F, 0x3C) == 0x30
    assert governed.load(0x40, 0x3C) == governed.load(0x5F, 0x3C) == 0x3C
    assert governed.load(0x60, 0x3C) == governed.load(0x7F, 0x3C) == 0xF0
    assert [governed.load(a, 0) for a in range(0x80, 0x88)] == \
        [0x55, 0xAA, 0x00, 0x55, 0xAA, 0xAA, 0xF0, 0xF0]
    for tag in (free, governed):
        for address in range(0x100):
            held = tag.byte_at(address)
            assert tag.load(address, held) == held
    assert [free.byte_at(a) for a in (0x87, 0x88, 0x8F, 0x90, 0xFFFF)] == \
        [0xF0, 0xFF, 0xFF, 0xFF, 0xFF]


def check_sealed_tag_copying():
    rows = range(0, 0x98, ROW_LENGTH)

    def refused_rows(tag):
        return [row for row in rows if not tag.may_copy(row)]

    assert refused_rows(sealed_tag()) == [0x88, 0x90]
    assert refused_rows(sealed_tag(x81=0x55)) == [0x88, 0x90]
    for lock in (0x55, 0xAA):
        locked = sealed_tag(x81=0x55, x82=0xAA, x84=lock)
        assert refused_rows(locked) == \
            [0x20, 0x28, 0x30, 0x38, 0x80, 0x88, 0x90]


def check_programming():
    tag = sealed_tag()
    before = bytes(tag.bytes)
    tag.program(0x88, [0] * 8, FULL_MASK)
    assert bytes(tag.bytes) == before
    tag.program(0x40, [0x0F] * 8, 0x01 | 0xF0 << 8 | 0xFF << 56)
    assert bytes(tag.bytes[0x40:0x48]) == \
        bytes([0xF1, 0x00, 0xF0, 0xF0, 0xF0, 0xF0, 0xF0, 0x0F])
    assert tag.bytes[:0x40] + tag.bytes[0x48:] == before[:0x40] + before[0x48:]
    assert refusal_of(SealedTag, bytes(135)) == WRONG_IMAGE_LENGTH
    assert refusal_of(PracticePlug, bytes(65)) == WRONG_IMAGE_LENGTH


def check_rig():
    plug = Chip(RegistrationNumber(bytes(8)), PracticePlug(bytes(64)))
    rig = Rig(joint(one_tag(plug), open_clip()))
    assert rig.reset() is False and rig.slot(1) == 1
    rig.power_up()
    rig.set_fuse(1, 0)
    assert rig.reset() is True and rig.fuse == (0, 0)
    assert rig.reset() is False and rig.fuse is None and not plug.powered
    assert (rig.resets, rig.slots, rig.dwells, rig.steps) == (3, 1, 0, 4)


def check_script():
    assert script_output(b"R1PR1100110011") == "-1.p1100110000\n"
    assert script_output(b"") == "\n"
    assert script_output(b"Rr\n\xff2") == "-????\n"


def check_everything():
    check_check_sums()
    check_numbers()
    check_sealed_tag_loading()
    check_sealed_tag_copying()
    check_programming()
    check_rig()
    check_script()


if __name__ == "__main__":
    check_everything()
    print("onewire_model: all self-checks hold")
