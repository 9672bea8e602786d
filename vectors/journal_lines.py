"""The lines that the journals of the crate journal_cases are made of."""
import copy
import sys

sys.dont_write_bytecode = True  # a run leaves no file beside this one
from journal import COUNTED, LEVELS, answered, opened
from lines import counting
from strobe import M, PRF

NAME = b"journal.example"


def first(level, name=NAME):
    """A first line."""
    byte = next(byte for byte in LEVELS if LEVELS[byte] == level)
    return bytes([byte, *name]).hex().encode("ascii")


def later(flags, more, payload):
    """A later line with these bytes, `more` as a number."""
    return bytes([flags, more, *payload]).hex().encode("ascii")


def counted(flags, more, count):
    """A later line whose payload is a count."""
    return later(flags, more, count.to_bytes(4, "big"))


def operation(flags, more, n):
    """A later line for n bytes of data, whatever the operation."""
    if flags & ~M in COUNTED:
        return counted(flags, more, n)
    return later(flags, more, counting(flags, n))


START = first(128)

# Draws eight bytes, so that it is seen what the lines before it have done.
PROBE = counted(PRF, 0, 8)


def journal_of(lines):
    """A journal of these lines."""
    return b"".join(line + b"\n" for line in lines)


def probed(lines):
    """A journal of level 128 with these later lines, and what they did."""
    return journal_of([START, *lines, PROBE])


class Pen:
    """A journal while it is written, and the session that it has come to."""

    def __init__(self, start):
        self.lines = [start]
        self.session = opened(start)[1]

    def write(self, line):
        """One line more; what is answered, and shown."""
        self.lines.append(line)
        return answered(self.session, line)

    def mac(self, flags, n):
        """The MAC that would be accepted now."""
        ahead = copy.deepcopy(self.session)
        ahead.begin_op(flags)
        return ahead.duplex(bytes(n), True, False, False)

    def journal(self):
        """What is written."""
        return journal_of(self.lines)
