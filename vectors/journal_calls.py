"""Journals on what the calls do: operations, `more`, MACs, two offices."""
import sys

sys.dont_write_bytecode = True  # a run leaves no file beside this one
from journal import WHOLE_CASE, answers
from journal_lines import (
    NAME, PROBE, START, Pen, counted, first, journal_of, later, operation,
    probed)
from strobe import (
    AD, K, KEY, M, OPERATIONS, PRF, RATCHET, RATES, RECV_ENC, RECV_MAC,
    SEND_ENC, SEND_MAC)

# Each answer that a later line can have: a line that has it just here.
EVERY_ANSWER = [
    later(AD, 0, b"abc"),               # 00
    later(K | AD, 0, b"abc"),           # 01
    later(0x05, 0, b"abc"),             # 02
    later(KEY, 1, b"abc"),              # 03
    later(RECV_MAC, 1, b"abc"),         # 04
    counted(RATCHET, 0, 65537),         # 05
    later(RECV_MAC, 0, bytes(65)),      # 05
    later(AD, 2, b"abc"),               # 07
    later(RECV_MAC, 0, b"abc"),         # 09
    later(AD, 1, b"abc"),               # 03, since a wrong MAC is done
]

# Lines that fail two tests, and which of them comes first.
ORDER = [
    later(K | 0x05, 0, b""),            # 1 before 2
    later(K | RECV_MAC, 1, b""),        # 1 before 4
    later(K | KEY, 1, b""),             # 1 before 3
    later(K | RECV_MAC, 0, bytes(65)),  # 1 before 5
    later(0x40 | RECV_MAC, 1, b""),     # 2 before 4
    later(0x05, 1, b""),                # 2 before 3
    later(RECV_MAC, 1, b""),            # 4 before 3
    later(RECV_MAC, 1, bytes(65)),      # 4 before 5
    counted(RATCHET, 1, 65537),         # 3 before 5
    later(K | AD, 2, b""),              # 7 before 1
    later(0x05, 2, b""),                # 7 before 2
    later(RECV_MAC, 1, bytes(4097)),    # 7 before 4
    counted(PRF, 1, 4097),              # 7 before 3
    later(RECV_MAC, 0, bytes(4097)),    # 7 before 5
]


def twenty(level, flags_in_turn):
    """Each operation with `more` off, and then on, over the block's limits."""
    rate = RATES[level]
    sizes = (0, 1, rate - 1, rate, rate + 1, 400)
    lines = [first(level)]
    for flags in flags_in_turn:
        for here, behind in zip(sizes, reversed(sizes)):
            lines += [operation(flags, 0, here), operation(flags, 1, behind)]
        lines.append(PROBE)
    return journal_of(lines)


def more():
    """Every operation with `more` on, when each has been the last."""
    for level in RATES:
        lines = [first(level)]
        lines += [operation(flags, 1, 1) for flags in OPERATIONS]
        for last in OPERATIONS:
            lines.append(operation(last, 0, 0))
            lines += [operation(flags, 1, 1) for flags in OPERATIONS]
        yield f"more_at_{level}", journal_of([*lines, PROBE])
    yield "name_whole", probed([])
    yield "name_in_pieces", journal_of(
        [first(128, NAME[:3]), later(M | AD, 1, NAME[3:7]),
         later(M | AD, 1, b""), later(M | AD, 1, NAME[7:]), PROBE])


def right_and_wrong():
    """A right MAC, and wrong ones, with what is drawn afterwards."""
    for what, wrong in (("right", 0), ("wrong", 1)):
        pen = Pen(START)
        pen.write(later(KEY, 0, b"a key"))
        mac = bytearray(pen.mac(RECV_MAC, 16))
        mac[-1] ^= wrong
        pen.write(later(RECV_MAC, 0, mac))
        pen.write(PROBE)
        yield "mac_" + what, pen.journal()
    pen = Pen(START)
    for bit in range(128):
        mac = bytearray(pen.mac(RECV_MAC, 16))
        mac[bit // 8] ^= 1 << bit % 8
        pen.write(later(RECV_MAC, 0, mac))
    pen.write(later(RECV_MAC, 0, pen.mac(RECV_MAC, 16)))
    pen.write(PROBE)
    yield "mac_with_each_bit_wrong", pen.journal()


def mac_lengths(level):
    """MACs of all lengths about the limit, some of them with `more`."""
    pen = Pen(first(level))
    for flags in (RECV_MAC, M | RECV_MAC):
        for n in (0, 1, 2, 16, 63, 64, 65, 66, 200):
            right = pen.mac(flags, n)
            pen.write(later(flags, 1, right))  # 04, changes nothing
            pen.write(later(flags, 0, right))  # 00, or 05 above 64
            wrong = bytearray(pen.mac(flags, n))
            wrong[-1:] = [wrong[-1] ^ 0x80] if n else []
            pen.write(later(flags, 0, wrong))  # 09, or 05; 00 if empty
        pen.write(PROBE)
    return pen.journal()


def offices():
    """One office sends an encrypted result with its MAC, another receives
    it, with a right MAC and with a wrong one."""
    start = first(128, b"results.example")
    key = later(KEY, 0, b"north-south 2026")
    draw = counted(PRF, 0, 4)
    sent = [start, key, later(SEND_ENC, 0, b"north 3, south 5"),
            counted(SEND_MAC, 0, 16), draw]
    yield "office_sends", journal_of(sent)
    hidden, mac = [shown for _, shown in answers(sent)][2:4]
    wrong = mac[:-1] + bytes([mac[-1] ^ 0x01])
    for what, given in (("", mac), ("_wrong", wrong)):
        yield "office_receives" + what, journal_of(
            [start, key, later(RECV_ENC, 0, hidden),
             later(RECV_MAC, 0, given), draw])


def cases():
    """The journals on calls, by name."""
    yield "whole_case", journal_of(line for line, _ in WHOLE_CASE)
    yield from offices()
    yield "every_answer", probed(EVERY_ANSWER)
    yield "order_of_tests", probed(ORDER)
    # At level 128 the first operation with T sends, at level 256 it receives.
    yield "twenty_at_128", twenty(128, OPERATIONS)
    yield "twenty_at_256", twenty(256, OPERATIONS[::-1])
    yield from more()
    yield from right_and_wrong()
    for level in RATES:
        yield f"mac_lengths_at_{level}", mac_lengths(level)
