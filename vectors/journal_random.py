"""Journals of drawn lines, good ones and spoilt ones."""
import random
import sys

sys.dont_write_bytecode = True  # a run leaves no file beside this one
from journal_lines import Pen, first, later, operation
from strobe import M, OPERATIONS, RATES, RECV_MAC

SEED = 2026
JOURNALS = 20
LINES = 60

# What a changed character becomes: a digit, or one that is near the digits.
CHARACTERS = b"0123456789abcdef" b"/:@AFG`gxz \t\r\x00\x80\xff"


class Draw:
    """Draws by random() alone, whose numbers no version of Python changes."""

    def __init__(self, seed):
        self.source = random.Random(seed)

    def below(self, n):
        """A number below n."""
        return int(self.source.random() * n)

    def one_of(self, choices):
        """One of a sequence."""
        return choices[self.below(len(choices))]

    def bytes(self, n):
        """n bytes."""
        return bytes(self.below(256) for _ in range(n))


def size(draw):
    """How many bytes: mostly few, at times more than a block, seldom many."""
    return draw.below(draw.one_of((1, 4, 20, 40, 40, 180, 400)))


def spoilt(draw, line):
    """A line with a character dropped, changed or doubled, or cut off."""
    at = draw.below(len(line))
    kept, rest = line[:at], line[at + 1:]
    changed = bytes([draw.one_of(CHARACTERS)])
    doubled = line[at:at + 1] * 2
    return draw.one_of(
        [kept, kept + rest, kept + changed + rest, kept + doubled + rest])


def received_mac(draw, pen, flags):
    """A MAC, right or not, at times one byte too long."""
    mac = pen.mac(flags, draw.one_of((0, 1, 8, 16, 32, 64, 65)))
    if draw.below(2):
        mac = mac[:-1] + draw.bytes(1)
    return later(flags, draw.below(8) == 0, mac)


def later_line(draw, pen):
    """A line of whole bytes: now and then its flag byte is any, or it has
    more bytes than it may."""
    last = pen.session.cur_flags
    more = draw.below(3) == 0
    flags = last if more and draw.below(5) else draw.one_of(OPERATIONS)
    if draw.below(12) == 0:
        flags = draw.below(256)
    if flags & ~M == RECV_MAC:
        return received_mac(draw, pen, flags)
    if draw.below(150) == 0:
        return operation(flags, more, draw.one_of((4095, 4096, 4097, 5000)))
    return operation(flags, more, size(draw))


def cases():
    """The journals, by name, at each level in turn."""
    for number in range(JOURNALS):
        draw = Draw(SEED + number)
        level = list(RATES)[number % 2]
        pen = Pen(first(level, draw.bytes(size(draw))))
        while len(pen.lines) < LINES:
            line = later_line(draw, pen)
            pen.write(line if draw.below(4) else spoilt(draw, line))
        yield f"drawn_{number:02}", pen.journal()
