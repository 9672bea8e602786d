"""The journal of docs/JOURNAL.md, as a function from bytes to bytes.

It splits the whole input at its newlines and holds each line to a pattern, so
it shares no method with the library under test, which takes the input in
pieces, a character at a time. test_journal compares it with the whole case.
"""
import re
import sys

sys.dont_write_bytecode = True  # a run leaves no file beside this one
from strobe import (
    DONE, M, NO_LEVEL, PRF, RATCHET, RATCHET_LIMIT, RECV_ENC, SEND_ENC,
    SEND_MAC, fresh)

# The journal's own answer, to a line that is out of shape.
BAD_LINE = 7

# The levels, by level byte.
LEVELS = {0x01: 128, 0x02: 256}

# A name or a payload has at most so many bytes; so does what is drawn.
LIMIT = 4096

# The shape of a line, of all operations.
FIRST_LINE = re.compile(
    rb"(?P<level>[0-9a-f]{2})(?P<name>(?:[0-9a-f]{2}){0,4096})")
LATER_LINE = re.compile(
    rb"(?P<flags>[0-9a-f]{2})0(?P<more>[01])"
    rb"(?P<payload>(?:[0-9a-f]{2}){0,4096})")

# The operations whose payload is a count; those whose buffer is shown.
COUNTED = (PRF, SEND_MAC, RATCHET)
SHOWN = (PRF, SEND_MAC, SEND_ENC, RECV_ENC)

# The whole case: each line and its answer.
WHOLE_CASE = [
    (b"0178", b"00"),
    (b"0200616263", b"00"),
    (b"0201", b"00"),
    (b"060178", b"03"),
    (b"040000010001", b"05"),
    (b"0a006869", b"00"),
    (b"0d01", b"04"),
    (b"2200", b"01"),
    (b"0500", b"02"),
    (b"02", b"07"),
    (b"0d00", b"00"),
]


def octets(digits):
    """What digits say."""
    return bytes.fromhex(digits.decode("ascii"))


def opened(line):
    """The answer to a first line, and the session, if there is one."""
    shape = FIRST_LINE.fullmatch(line)
    if shape is None:
        return BAD_LINE, None
    level = LEVELS.get(int(shape["level"], 16))
    if level is None:
        return NO_LEVEL, None
    return DONE, fresh(octets(shape["name"]), level)


def buffer(plain, payload):
    """The bytes to lend, or None if the payload is not a count as it should
    be. A ratchet of more than the strobe's limit is refused, however many."""
    if plain not in COUNTED:
        return octets(payload)
    count = int(payload, 16) if len(payload) == 8 else None
    if count is None or plain != RATCHET and count > LIMIT:
        return None
    return bytes(min(count, RATCHET_LIMIT + 1))


def answered(session, line):
    """The answer to a later line, and the bytes that are shown."""
    shape = LATER_LINE.fullmatch(line)
    if shape is None:
        return BAD_LINE, b""
    flags = int(shape["flags"], 16)
    plain = flags & ~M
    lent = buffer(plain, shape["payload"])
    if lent is None:
        return BAD_LINE, b""
    answer, lent = session.call(flags, shape["more"] == b"1", lent)
    return answer, lent if answer == DONE and plain in SHOWN else b""


def answers(lines):
    """The answers to lines, each with the bytes that are shown."""
    session = None
    for line in lines:
        if session is not None:
            yield answered(session, line)
            continue
        answer, session = opened(line)
        yield answer, b""
        if session is None:
            return


def journal(data):
    """What is written, of what is read."""
    lines = data.split(b"\n")
    if not lines[-1]:
        lines.pop()  # what stands behind the last newline is no line
    return b"".join(b"%02d%s\n" % (answer, shown.hex().encode("ascii"))
                    for answer, shown in answers(lines))


def test_journal():
    """Ends the script if the whole case is not answered as it should be."""
    lines, expected = zip(*WHOLE_CASE)
    if journal(b"\n".join(lines)) != b"\n".join(expected) + b"\n":
        sys.exit("the whole case has other answers")
