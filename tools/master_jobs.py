"""The reading and the search of a master, on the plain model's rig.

What the tools share that print what a program must write.  Both jobs are
written here a second time, from the rules alone.
"""

from onewire_model import ROW_LENGTH, bits_of_bytes, bytes_of_bits


def send(rig, data):
    """Send bytes, whatever the line makes of them."""
    for bit in bits_of_bytes(data):
        rig.slot(bit)


def read(rig, count):
    """Read bytes: the master sends ones and looks at the line."""
    return bytes_of_bits([rig.slot(1) for _ in range(8 * count)])


BAD_ROW = 4                       # the refusals of the jobs, by their numbers
NO_PRESENCE = 5
GARBLED = 6
NO_ROOM = 9

MOST_PASSES = 64


class JobRefused(Exception):
    """A job ended early, in an exchange or pass, after so many steps."""

    def __init__(self, number, exchange, steps, index=None):
        super().__init__(f"refusal {number}")
        self.number = number
        self.exchange = exchange
        self.steps = steps
        self.index = index


def require_a_row(row):
    if row % ROW_LENGTH:
        raise JobRefused(BAD_ROW, 0, 0)


def presence_or_refusal(rig, exchange):
    if not rig.reset():
        raise JobRefused(NO_PRESENCE, exchange, rig.steps)


def open_exchange(rig, exchange, number, command):
    """Reset, 55h with the number, and the bytes of a command."""
    presence_or_refusal(rig, exchange)
    send(rig, b"\x55" + number + command)


def find_row(rig, exchange, number, row):
    open_exchange(rig, exchange, number, b"\xF0" + row.to_bytes(2, "little"))
    return read(rig, ROW_LENGTH)


def reading(rig, number, row):
    """The eight bytes of a row, in three exchanges."""
    require_a_row(row)
    rig.refuse_if_busy()
    rig.zero_counters()
    open_exchange(rig, 1, number, b"\xAA")
    if read(rig, 3) == b"\xFF\xFF\xFF":
        raise JobRefused(GARBLED, 1, rig.steps)
    found = find_row(rig, 2, number, row)
    presence_or_refusal(rig, 3)
    return found


def one_pass(rig, count, forced):
    """Follow the forced bits, then take 0 wherever both occur.

    Answers the bits taken and the places where there was a choice.
    """
    presence_or_refusal(rig, count)
    send(rig, b"\xF0")
    taken, forks = [], []
    while len(taken) < 64:
        bit, opposite = rig.slot(1), rig.slot(1)
        if bit and opposite:
            raise JobRefused(GARBLED, count, rig.steps)
        if bit == opposite:
            forks.append(len(taken))
            bit = forced[len(taken)] if len(taken) < len(forced) else 0
        rig.slot(bit)
        taken.append(bit)
    return taken, forks


def search(rig, room, found):
    """Append the numbers on the line to a list, a pass for each."""
    if room == 0:
        raise JobRefused(NO_ROOM, 0, 0)
    rig.refuse_if_busy()
    rig.zero_counters()
    passes = min(room, MOST_PASSES)
    forced = []
    for count in range(1, passes + 1):
        taken, forks = one_pass(rig, count, forced)
        found.append(bytes_of_bits(taken))
        zeros = [place for place in forks if taken[place] == 0]
        if not zeros:
            return
        forced = taken[:zeros[-1]] + [1]
    raise JobRefused(NO_ROOM, passes, rig.steps)
