"""The lines that the program strobe_vectors writes."""
import sys

sys.dont_write_bytecode = True  # a run leaves no file beside this one
from saved import last_byte, load
from strobe import DONE, I, M, RATCHET, fresh

NAME = b"Pekenutor vectors"


def counting(first, n):
    """n bytes that count up, so that a byte out of its place is seen."""
    return bytes((first + j) % 256 for j in range(n))


class Lines:
    """The lines of the calls so far."""

    def __init__(self):
        self.lines = []

    def outcome(self, answer, session, lent):
        """The line of a creation or a call."""
        end = {None: "0", 0: "1", I: "2"}[session.i0]
        last = session.cur_flags
        self.lines.append(
            f"{answer:02} {session.pos:02x} {session.pos_begin:02x} {end} "
            f"{'--' if last is None else f'{last:02x}'} "
            f"{lent.hex()} {session.state.hex()}")

    def call(self, session, flags, more, data):
        """A call on these bytes; what they are after it."""
        answer, data = session.call(flags, more, data)
        self.outcome(answer, session, data)
        return data

    def numbered(self, session, flags, more, n):
        """A call by number on n counting bytes."""
        self.call(session, flags, more, counting(flags, n))

    def named(self, session, flags, more, n):
        """A call by name: there a ratchet has a count, and no bytes."""
        if flags & ~M == RATCHET:
            self.outcome(session.call(flags, more, bytes(n))[0], session, b"")
        else:
            self.numbered(session, flags, more, n)

    def row(self, numbers):
        """Numbers below 256."""
        self.lines.append(bytes(numbers).hex())

    def loads(self, forms):
        """Three rows: the answers of loads, and the positions and the last
        operations that they give."""
        loaded = [load(data) for data in forms]
        self.row(answer for answer, _ in loaded)
        self.row(session.pos for _, session in loaded)
        self.row(last_byte(session) for _, session in loaded)

    def fresh(self, level):
        """A creation."""
        session = fresh(NAME, level)
        self.outcome(DONE, session, NAME)
        return session
