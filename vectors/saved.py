"""The saved form of a session of strobe.py, in both editions:
docs/FORMATS.md."""
import sys

sys.dont_write_bytecode = True  # a run leaves no file beside this one
from strobe import (
    DONE, I, NOT_A_SESSION, OPERATIONS, RATES, Strobe, blank)

BAD_SAVED, SHORT_BUFFER = 10, 11
SIZES = {1: 205, 2: 206}  # an edition's number, which is its first byte
SIZE = SIZES[2]  # a save writes edition 2
NO_LAST = 0xff
LEVELS = {1: 128, 2: 256}
DIRECTIONS = {0: None, 1: 0, 2: I}  # the byte, and the I of the first T


def key_of(table, value):
    """The byte that a table has for this value."""
    return next(byte for byte, other in table.items() if other == value)


def last_byte(session):
    """The flags of the last operation."""
    return NO_LAST if session.cur_flags is None else session.cur_flags


def form(session, edition):
    """The bytes of a session. Only edition 2 has a last operation."""
    level = key_of(RATES, session.rate)
    head = [edition, key_of(LEVELS, level), session.pos, session.pos_begin,
            key_of(DIRECTIONS, session.i0)]
    tail = [last_byte(session)] if edition == 2 else []
    return bytes([*head, *session.state, *tail])


def save(session, buf):
    """The answer, and the buffer after it."""
    if session.refusal(0x02, False, 0) == NOT_A_SESSION:
        return NOT_A_SESSION, buf
    if len(buf) < SIZE:
        return SHORT_BUFFER, buf
    return DONE, form(session, 2) + buf[SIZE:]


def fits(data):
    """Whether the bytes are a form of either edition."""
    if not data or len(data) != SIZES.get(data[0]) or data[1] not in LEVELS:
        return False
    return (data[3] <= data[2] < RATES[LEVELS[data[1]]]
            and data[4] in DIRECTIONS
            and (data[0] == 1 or data[205] in (NO_LAST, *OPERATIONS)))


def load(data):
    """The answer, and the session."""
    if not fits(data):
        return BAD_SAVED, blank()
    session = Strobe(data[5:205], RATES[LEVELS[data[1]]], data[2], data[3])
    session.i0 = DIRECTIONS[data[4]]
    if data[0] == 2 and data[205] != NO_LAST:
        session.cur_flags = data[205]
    return DONE, session
