#!/usr/bin/env python3
"""Makes the test vectors of STROBE v1.0.2 for the crate strobe_vectors.

It does with strobe.py what the program does with the library, and writes the
crate's stdout, or, with --check, compares it with what would be written.
"""
import copy
import sys
from pathlib import Path

sys.dont_write_bytecode = True  # a run leaves no file beside this one
import keccak
from strobe import (
    AD, DONE, I, K, KEY, M, MAC_UNEQUAL, NO_LEVEL, PRF, RATCHET,
    RATES, RECV_CLR, RECV_ENC, RECV_MAC, SEND_CLR, SEND_ENC, SEND_MAC, T,
    Strobe, blank, fresh, merlin, test_strobe)
from lines import NAME, Lines, counting
from saved import save
from saved_cases import forms

CRATE = Path(__file__).resolve().parent.parent / "crates" / "strobe_vectors"

# What the program does, call by call: the flags, `more`, how many bytes.

# The first call continues the name. With 166 and 134 bytes a block ends with
# the data of an operation that has C, at level 128 and at level 256. With one
# or two bytes less the next opening ends it.
ALL_TWENTY = [
    (M | AD, True, 4),
    (AD, False, 20),
    (M | AD, False, 200),
    (KEY, False, 32),
    (SEND_CLR, False, 10),
    (PRF, False, 166),
    (M | KEY, False, 134),
    (RECV_CLR, False, 0),
    (SEND_ENC, False, 165),
    (M | SEND_CLR, False, 3),
    (M | SEND_ENC, False, 133),
    (M | RECV_CLR, False, 5),
    (RECV_ENC, False, 164),
    (SEND_MAC, False, 16),
    (M | PRF, False, 132),
    (M | SEND_MAC, False, 9),
    (M | RECV_ENC, False, 255),
    (RATCHET, False, 32),
    (M | RATCHET, False, 167),
    (RECV_MAC, False, 16),
    (M | RECV_MAC, False, 0),
]
IN_PIECES = [
    (AD, False, 0),
    (AD, True, 7),
    (AD, True, 0),
    (AD, True, 190),
    (PRF, False, 133),
    (PRF, True, 1),
    (PRF, True, 31),
    (RATCHET, False, 5),
    (RATCHET, True, 0),
    (RATCHET, True, 128),
    (M | SEND_ENC, False, 1),
    (M | SEND_ENC, True, 164),
    (KEY, False, 0),
    (KEY, True, 133),
    (RECV_ENC, False, 3),
]

# In pieces: the flags, `more` of the first piece, the size of a piece.
CUT = [
    (M | AD, True, 0),
    (KEY, False, 1),
    (SEND_ENC, False, 99),
    (SEND_ENC, True, 166),
    (PRF, False, 200),
    (RATCHET, False, 1000),
    (RECV_ENC, True, 7),
    (RECV_MAC, False, 64),
]

# By number, each on the same session, whose last operation is ad. Where two
# tests fail the earlier one answers.
REFUSED = [
    (0x22, False, 3),
    (0xff, True, 3),
    (0x05, True, 3),
    (0x42, False, 3),
    (RECV_MAC, True, 65),
    (KEY, True, 3),
    (M | AD, True, 0),
    (RECV_MAC, False, 65),
    (M | RECV_MAC, False, 65),
]


def sequence(lines, level):
    """One session: all twenty operations whole, then some in pieces."""
    session = lines.fresh(level)
    for flags, more, n in ALL_TWENTY + IN_PIECES:
        lines.named(session, flags, more, n)


def ends(lines, level):
    """Two ends of a channel, up to a MAC that is changed on its way."""
    one = lines.fresh(level)
    other = copy.deepcopy(one)

    def passed(sender, receiver, send, data):
        receive = send | I if send & T else send
        sent = lines.call(sender, send, False, data)
        return lines.call(receiver, receive, False, sent)

    text = passed(one, other, KEY, counting(0, 150))
    text = passed(one, other, SEND_ENC, text)
    text = passed(one, other, M | SEND_CLR, text)
    mac = passed(one, other, SEND_MAC, bytes(64))
    text = passed(other, one, M | SEND_ENC, text)
    mac = passed(other, one, M | SEND_MAC, mac)
    mac = bytearray(lines.call(other, SEND_MAC, False, mac))
    mac[3] ^= 1
    lines.call(one, RECV_MAC, False, bytes(mac))
    passed(other, one, SEND_MAC, b"")


def numbered(lines):
    """Every flag byte that has no K."""
    session = fresh(NAME, 256)
    for flags in range(K):
        lines.numbered(session, flags, False, 5)


def cut(lines):
    """Calls of 200 bytes in pieces; a size of 0 is no cut."""
    session = fresh(NAME, 128)
    for flags, more, size in CUT:
        data = counting(flags, 200)
        size = size or len(data)
        given = b""
        for at in range(0, len(data), size):
            answer, piece = session.call(flags, more, data[at:at + size])
            given += piece
            more = True
            if answer not in (DONE, MAC_UNEQUAL):
                break
        lines.outcome(answer, session, given + data[len(given):])


def limits(lines, session):
    """The longest that are done, the shortest that are refused."""
    lines.named(copy.deepcopy(session), RATCHET, True, 65537)
    lines.named(copy.deepcopy(session), RATCHET, False, 65537)
    lines.named(copy.deepcopy(session), M | RATCHET, False, 65537)
    ratcheted = copy.deepcopy(session)
    lines.named(ratcheted, RATCHET, False, 65536)
    lines.named(ratcheted, RATCHET, True, 65537)
    lines.numbered(copy.deepcopy(session), RECV_MAC, False, 64)


def not_sessions(lines, state):
    """Three that are not well formed, and one that just is."""
    for pos, pos_begin, last, flags, more in (
            (134, 0, None, 0x22, True), (4, 5, None, AD, False),
            (5, 5, 0x05, 0x05, True), (133, 133, AD, AD, True)):
        session = Strobe(state, RATES[256], pos, pos_begin)
        session.cur_flags = last
        lines.numbered(session, flags, more, 3)


def refusals(lines):
    """Every refusal."""
    session = fresh(NAME, 128)
    lines.numbered(session, AD, False, 3)
    for flags, more, n in REFUSED:
        lines.numbered(copy.deepcopy(session), flags, more, n)
    limits(lines, session)
    not_sessions(lines, session.state)
    # Two creations with a number that is no level's.
    lines.outcome(NO_LEVEL, blank(), NAME)
    lines.outcome(NO_LEVEL, blank(), NAME)
    lines.numbered(blank(), AD, False, 3)
    lines.named(blank(), RECV_MAC, False, 0)


def turn(lines, session, flags, more, n, count=32, room=210):
    """A seat's turn: an event, an operation, dice, a ratchet, a save."""
    buf, data = counting(0, 70), bytes(210)
    noted, _ = session.call(AD, False, b"north won")
    called, lent = session.call(flags, more, buf[:n])
    drawn, dice = session.call(PRF, False, bytes(20))
    ratcheted, _ = session.call(RATCHET, False, bytes(count))
    saved, form = save(session, data[:room])
    lines.outcome(called, session, lent + buf[n:])
    answers = bytes([noted, called, drawn, ratcheted, saved])
    lines.lines.append(
        f"{answers.hex()} {dice.hex()} {(form + data[room:]).hex()}")


def turns(lines):
    """Turns on a lent session."""
    for level in (256, 128):
        session = fresh(NAME, level)
        for flags in range(K):
            turn(lines, session, flags, False, 20)
    turn(lines, session, AD, True, 70)
    turn(lines, copy.deepcopy(session), 0x22, False, 1)
    turn(lines, copy.deepcopy(session), SEND_ENC, True, 1)
    turn(lines, copy.deepcopy(session), RECV_MAC, False, 65)
    turn(lines, copy.deepcopy(session), RECV_MAC, False, 64, 65537, 205)
    turn(lines, blank(), SEND_ENC, False, 5)


def all_lines():
    """What the program writes."""
    lines = Lines()
    for level in RATES:
        lines.lines.append(f"Strobe-Keccak-{level}/1600-v1.0.2")
    for level in RATES:
        sequence(lines, level)
        ends(lines, level)
    numbered(lines)
    cut(lines)
    refusals(lines)
    lines.lines.append(merlin().hex())
    forms(lines)
    turns(lines)
    return lines.lines


def main():
    """Writes the file, or with --check compares it."""
    if sys.argv[1:] not in ([], ["--check"]):
        sys.exit("usage: strobe_vectors.py [--check]")
    keccak.test_permutation()
    test_strobe()
    lines = all_lines()
    text = "".join(line + "\n" for line in lines).encode("ascii")
    path = CRATE / "stdout"
    if sys.argv[1:] != ["--check"]:
        path.write_bytes(text)
    elif not path.is_file() or path.read_bytes() != text:
        sys.exit("crates/strobe_vectors/stdout is not what is computed")
    print(f"crates/strobe_vectors: {len(lines)} lines")


if __name__ == "__main__":
    main()
