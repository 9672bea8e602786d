"""STROBE v1.0.2 over Keccak-f[1600], to compute test vectors with.

It is written as its specification writes it, with one duplex for all
operations, so it shares no method with the library under test, which has a
loop for each. test_strobe compares it with a published output of Merlin,
whose transcripts are STROBE-128, and with the cases on positions of
docs/RULES.md.
"""
import sys

sys.dont_write_bytecode = True  # a run leaves no file beside this one
import keccak

# The bytes of a block, by level.
RATES = {128: 166, 256: 134}

# The flags, and the operations that they make up.
I, A, C, T, M, K = 1, 2, 4, 8, 16, 32
AD = A
RATCHET = C
KEY = A | C
PRF = I | A | C
SEND_CLR = A | T
RECV_CLR = I | A | T
SEND_MAC = C | T
RECV_MAC = I | C | T
SEND_ENC = A | C | T
RECV_ENC = I | A | C | T
PLAIN = (AD, RATCHET, KEY, PRF, SEND_CLR, RECV_CLR, SEND_MAC, RECV_MAC,
         SEND_ENC, RECV_ENC)
OPERATIONS = PLAIN + tuple(M | flags for flags in PLAIN)

# The limits of one call.
RATCHET_LIMIT = 65536
MAC_LIMIT = 64

# The answers that a call or a creation gives.
(DONE, KEY_FLAG, NO_OPERATION, NOT_THE_LAST, CUT_MAC, TOO_LONG,
 NO_LEVEL) = range(7)
NOT_A_SESSION, MAC_UNEQUAL = 8, 9

# The challenge of merlin's own test of its transcripts.
MERLIN_CHALLENGE = bytes.fromhex(
    "d5a21972d0d5fe320c0d263fac7fffb8145aa640af6e9bca177c03c7efcf0615")

# The cases of docs/RULES.md, 10: the level, the length of the name, then a
# call's flags, `more` and length, if there is one; the position and the begin
# position after it.
POSITIONS = [
    (128, 0, None, (2, 1)),
    (128, 163, None, (165, 1)),
    (128, 164, None, (0, 0)),
    (256, 131, None, (133, 1)),
    (256, 132, None, (0, 0)),
    (128, 163, (AD, False, 0), (1, 0)),
    (128, 162, (AD, False, 0), (0, 0)),
    (128, 162, (KEY, False, 0), (0, 0)),
    (128, 163, (KEY, False, 0), (0, 0)),
    (128, 0, (RATCHET, False, 0), (0, 0)),
    (128, 0, (AD, True, 0), (2, 1)),
    (128, 0, (M | AD, True, 164), (0, 0)),
]


# The permutation on lanes: keccak.py's, which is on single bits, is slow.

def rotations():
    """FIPS 202, Algorithm 2: the offset of each lane, by its walk."""
    offsets = {(0, 0): 0}
    x, y = 1, 0
    for t in range(24):
        offsets[x, y] = (t + 1) * (t + 2) // 2 % 64
        x, y = y, (2 * x + 3 * y) % 5
    return offsets


def constants():
    """FIPS 202, Algorithm 6: the round constants as numbers."""
    return [sum(keccak.rc(j + 7 * ir) << (2 ** j - 1) for j in range(7))
            for ir in range(24)]


OFFSETS = rotations()
CONSTANTS = constants()
LANES = [(x, y) for y in range(5) for x in range(5)]
MASK = 2 ** 64 - 1


def rotated(lane, n):
    """A lane with each bit n places further on."""
    return (lane << n | lane >> (64 - n)) & MASK


def permute(state):
    """KECCAK-f[1600] on bytes, as keccak.permute."""
    a = {(x, y): int.from_bytes(state[8 * (x + 5 * y):][:8], "little")
         for x, y in LANES}
    for constant in CONSTANTS:
        c = [a[x, 0] ^ a[x, 1] ^ a[x, 2] ^ a[x, 3] ^ a[x, 4] for x in range(5)]
        d = [c[x - 1] ^ rotated(c[(x + 1) % 5], 1) for x in range(5)]
        moved = {(y, (2 * x + 3 * y) % 5):
                 rotated(a[x, y] ^ d[x], OFFSETS[x, y]) for x, y in LANES}
        a = {(x, y): moved[x, y] ^ (~moved[(x + 1) % 5, y]
                                    & moved[(x + 2) % 5, y])
             for x, y in LANES}
        a[0, 0] ^= constant
    return b"".join(a[x, y].to_bytes(8, "little") for x, y in LANES)


class Strobe:
    """A session. Its methods have the specification's names."""

    def __init__(self, state, rate, pos, pos_begin):
        self.state = bytearray(state)
        self.rate = rate
        self.pos = pos
        self.pos_begin = pos_begin
        self.i0 = None         # the I of the first operation with T
        self.cur_flags = None  # of the last operation, as called

    def run_f(self):
        """Closes the block."""
        self.state[self.pos] ^= self.pos_begin
        self.state[self.pos + 1] ^= 0x04
        self.state[self.rate + 1] ^= 0x80
        self.state = bytearray(permute(self.state))
        self.pos = self.pos_begin = 0

    def duplex(self, data, cbefore, cafter, force_f):
        """Bytes through the state; what they have become."""
        data = bytearray(data)
        for j in range(len(data)):
            if cbefore:
                data[j] ^= self.state[self.pos]
            self.state[self.pos] ^= data[j]
            if cafter:
                data[j] = self.state[self.pos]
            self.pos += 1
            if self.pos == self.rate:
                self.run_f()
        if force_f and self.pos != 0:
            self.run_f()
        return bytes(data)

    def begin_op(self, flags):
        """Mixes in where the last operation began, and the flags."""
        if flags & T:
            if self.i0 is None:
                self.i0 = flags & I
            # The two ends of a channel mix the same byte.
            flags ^= self.i0
        old_begin, self.pos_begin = self.pos_begin, self.pos + 1
        self.duplex([old_begin, flags], False, False, bool(flags & C))

    def operate(self, flags, data, more):
        """One operation: its answer, and the lent bytes after it."""
        if not more:
            self.begin_op(flags)
            self.cur_flags = flags
        plain = flags & ~M
        # Operations that only give bytes, or have none, run over zeros.
        fed = bytes(len(data)) if plain in (PRF, SEND_MAC, RATCHET) else data
        cafter = plain & (C | I | T) == (C | T)
        cbefore = bool(plain & C) and not cafter
        processed = self.duplex(fed, cbefore, cafter, False)
        if plain == RECV_MAC and any(processed):
            return MAC_UNEQUAL, data
        gives = plain in (PRF, SEND_MAC, SEND_ENC, RECV_ENC)
        return DONE, processed if gives else data

    def refusal(self, flags, more, n):
        """docs/RULES.md, 7: the first test that fails, or DONE."""
        plain = flags & ~M
        tests = [
            (not (self.pos_begin <= self.pos < self.rate
                  and self.cur_flags in (None,) + OPERATIONS), NOT_A_SESSION),
            (flags & K, KEY_FLAG),
            (flags not in OPERATIONS, NO_OPERATION),
            (more and plain == RECV_MAC, CUT_MAC),
            (more and flags != self.cur_flags, NOT_THE_LAST),
            (plain == RATCHET and n > RATCHET_LIMIT, TOO_LONG),
            (plain == RECV_MAC and n > MAC_LIMIT, TOO_LONG),
        ]
        return next((answer for failed, answer in tests if failed), DONE)

    def call(self, flags, more, data):
        """One call: its answer, and the lent bytes after it."""
        refused = self.refusal(flags, more, len(data))
        if refused != DONE:
            return refused, data
        return self.operate(flags, data, more)


def fresh(name, level):
    """The session of a protocol's name."""
    rate = RATES[level]
    seed = bytes([1, rate + 2, 1, 0, 1, 0x60]) + b"STROBEv1.0.2"
    session = Strobe(permute(seed.ljust(200, b"\0")), rate, 0, 0)
    session.operate(M | AD, name, False)
    return session


def blank():
    """What a refused creation gives."""
    return Strobe(bytes(200), RATES[128], 166, 166)


# Merlin's transcripts.

def append(session, label, message):
    """A message with its label."""
    session.operate(M | AD, label, False)
    session.operate(M | AD, len(message).to_bytes(4, "little"), True)
    session.operate(AD, message, False)


def challenge(session, label, n):
    """n bytes from the transcript."""
    session.operate(M | AD, label, False)
    session.operate(M | AD, n.to_bytes(4, "little"), True)
    return session.operate(PRF, bytes(n), False)[1]


def merlin():
    """The challenge of merlin's own test."""
    session = fresh(b"Merlin v1.0", 128)
    append(session, b"dom-sep", b"test protocol")
    append(session, b"some label", b"some data")
    return challenge(session, b"challenge", 32)


def test_strobe():
    """Ends the script if something differs from what others give."""
    for state in (bytes(200), bytes(range(200)), b"\xff" * 200):
        if permute(state) != keccak.permute(state):
            sys.exit("the permutation on lanes is not that on bits")
    if merlin() != MERLIN_CHALLENGE:
        sys.exit("the challenge is not merlin's")
    for level, length, call, positions in POSITIONS:
        session = fresh(bytes(length), level)
        if call is not None:
            flags, more, n = call
            session.call(flags, more, bytes(n))
        if (session.pos, session.pos_begin) != positions:
            sys.exit(f"{level}/{length} and {call} do not give {positions}")
