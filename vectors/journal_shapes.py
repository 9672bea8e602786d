"""Journals with lines on both sides of each rule of shape."""
import sys

sys.dont_write_bytecode = True  # a run leaves no file beside this one
from journal import COUNTED, LEVELS, LIMIT
from journal_lines import (
    PROBE, START, counted, first, journal_of, later, operation, probed)
from lines import counting
from strobe import (
    AD, K, M, PLAIN, PRF, RATCHET, RECV_ENC, SEND_CLR, SEND_ENC, SEND_MAC)

# What is behind a line that ends the run, or behind a line that is skipped.
GOOD = [later(AD, 0, b"abc"), later(SEND_ENC, 0, b"seat 7"), PROBE]

# First lines that are out of shape, by what is wrong with them.
BAD_FIRST_LINES = {
    "": b"0178y9",
    "_empty": b"",
    "_one_digit": b"0",
    "_odd": b"01786",
    "_upper_case": b"014A",
    "_space": b"01 78",
    "_space_before": b" 0178",
    "_prefix": b"0x0178",
    "_cr": b"0178\r",
    "_nul": b"01780\x00",
    "_above_127": b"01780\xb9",
    "_overlong": b"01" * 5000,
}

# Lines with another character than the digits.
MISWRITTEN = [
    b"0x0200", b"0X0200", b" 0200", b"0200 ", b"02 00", b"\t0200", b"0200\t",
    b"02\t00", b"0200\r", b"\r0200", b"02_00", b"+200", b"-200", b"2:00",
    b"0200;", b"0200#", b"\x000200", b"0200\x00", b"02\x000", b"0200\xc3\xa9",
    b"\xef\xbb\xbf0200", b"02h0", b"\xb2200", b"02\x8030", b"\\x02\\x00",
    b"0200\x0b", b"0200\x0c", b"0200\r\r", b"0200\x85", b"0200\xe2\x80\xa8",
    b"x0200", b"xx0200", b"xxx0200", b"x00200", b"02x0200", b"02x00200",
    b"0200x000200", b"0200 0200", b"0200 00200", b"0200x",
]

# Flag bytes outside the twenty: with K, and other ones.
WITH_K = (K, K | AD, K | RATCHET, K | PRF, K | SEND_MAC, K | M | PRF, 0xff)
UNKNOWN = (0x00, 0x01, 0x05, 0x09, 0x10, 0x15, 0x40, 0x47, 0x80, 0xdf)

# Counts above the limit, some of which would not be above it if a byte of
# four were overlooked, or if they were read from the wrong end.
HIGH_COUNTS = (LIMIT + 1, 0x00010001, 0x00100000, 0x01000000, 0x01000001,
               0x7fffffff, 0x80000000, 2 ** 32 - 1)


def first_lines():
    """First lines that end the run, and names of the least and most bytes."""
    for byte in (0x00, 0x03, 0x10, 0x20, 0x80, 0xff):
        line = bytes([byte, *b"x"]).hex().encode("ascii")
        yield f"wrong_level_{byte:02x}", journal_of([line, *GOOD])
    yield "wrong_level_no_name", journal_of([b"00", START, *GOOD])
    for what, line in BAD_FIRST_LINES.items():
        yield "bad_first_line" + what, journal_of([line, START, *GOOD])
    for what, n in (("wrong_level_name_of_4096", LIMIT),
                    ("bad_first_line_and_level", LIMIT + 1)):
        line = bytes([0x03, *counting(0, n)]).hex().encode("ascii")
        yield what, journal_of([line, START, *GOOD])
    for level in LEVELS.values():
        for n in (0, 1, LIMIT, LIMIT + 1):
            line = first(level, counting(level % 251, n))
            yield f"name_of_{n}_at_{level}", journal_of([line, *GOOD])


def characters():
    """Every character at each place of a line that would have a digit."""
    every = [bytes([number]) for number in range(256)]
    yield "every_character_upper", probed(
        b"0200" + character + b"7" for character in every)
    yield "every_character_lower", probed(
        b"02007" + character for character in every)
    yield "every_character_of_flags", probed(
        character + b"200" for character in every)
    yield "every_character_of_more", probed(
        b"020" + character for character in every)
    yield "upper_case", probed(
        [b"02004" + bytes([letter]) for letter in b"ABCDEF"]
        + [b"0A006869", b"0200ABCD", b"0200aBcd", b"0200abcd"])
    yield "other_characters", probed(
        line for bad in MISWRITTEN for line in (bad, b"0200"))
    lines = [START, *GOOD, *GOOD]
    yield "crlf", journal_of(line + b"\r" for line in lines)
    yield "crlf_later", journal_of(
        line + b"\r" * (number in (2, 5)) for number, line in enumerate(lines))
    yield "empty_lines", probed(
        [b"", *GOOD, b"", b"", later(AD, 1, b"d"), later(PRF, 1, b""), b""])


def lengths():
    """Lines of few digits, of as many as there may be, and of more."""
    yield "few_digits", probed(
        b"02004142"[:n] for n in (0, 1, 2, 3, 4, 5, 6, 7, 8, 1, 8, 3, 8))
    digits = later(SEND_ENC, 0, counting(0, 5000))
    yield "overlong_lines", probed(
        line for n in (8194, 8195, 8196, 8197, 8198, 8199, 10000)
        for line in (digits[:n], *GOOD))
    # A part of a line of zeros would be in shape, if it were a line.
    yield "overlong_zeros", probed(
        line for n in (8197, 8198, 8200, 16394)
        for line in (b"0" * n, *GOOD))
    yield "overlong_of_200000_digits", probed([b"0" * 200000, *GOOD])
    yield "overlong_and_spoilt", probed(
        [b"x" + b"0" * 8201, *GOOD, b"0" * 8201 + b"x" + b"0" * 8, *GOOD])
    with_bytes = [flags for flags in PLAIN if flags not in COUNTED]
    yield "payload_limits", probed(
        later(flags, more, counting(flags, LIMIT + more))
        for flags in (*with_bytes, M | AD, M | SEND_ENC) for more in (0, 1))


def ends():
    """Inputs whose last line lacks its newline, and inputs with no line."""
    whole = journal_of([START, *GOOD])
    yield "no_input", b""
    yield "only_newline", b"\n"
    yield "only_newlines", b"\n\n\n"
    yield "first_line_only", START + b"\n"
    yield "no_newline_first", START
    yield "no_newline_bad_first", START + b"0"
    yield "no_newline_wrong_level", b"03"
    yield "no_newline_behind_bad_first", b"x\n" + START
    yield "no_newline_good", whole[:-1]
    yield "no_newline_bad", whole + b"0200g"
    yield "no_newline_odd", whole + b"02006"
    yield "no_newline_half", whole + b"0"
    yield "no_newline_flags", whole + b"02"
    yield "no_newline_cr", whole + b"\r"
    yield "no_newline_nul", whole + b"\x00"
    yield "no_newline_overlong", whole + b"0200" + b"61" * (LIMIT + 1)
    yield "no_newline_payload_limit", (
        whole + later(RECV_ENC, 0, counting(0, LIMIT)))
    yield "last_line_empty", whole + b"\n"


def bytes_before_payload():
    """Every flag byte and every `more` byte."""
    every = range(256)
    yield "every_flag_byte", probed(
        line for flags in every for more in (0, 1, 2)
        for line in (later(flags, more, b""), counted(flags, more, 3)))
    yield "every_more_byte", probed(
        operation(flags, more, 2) for flags in (AD, M | PRF, K | AD, 0x05)
        for more in every)
    payloads = [counting(7, n) for n in range(7)] + [b"\xff" * 4]
    lines = [later(flags, more, payload) for flags in UNKNOWN + WITH_K
             for more in (0, 1, 2) for payload in payloads]
    yield "unknown_flags", probed(lines)
    yield "unknown_flags_payload_limit", probed(
        later(flags, more, counting(flags, n))
        for flags in (0x47, K | PRF)
        for more, n in ((0, LIMIT), (1, LIMIT), (0, LIMIT + 1)))
    yield "unknown_flags_and_more", probed(
        [later(0x47, 2, counting(1, LIMIT)), later(K | SEND_CLR, 0xff, b"")])


def draws():
    """Payloads of prf and send_mac. The eight longest answers come one behind
    the other, so that together they are more than a large buffer takes."""
    drawing = (PRF, M | PRF, SEND_MAC, M | SEND_MAC)
    lines = [later(flags, more, bytes(n)) for flags in drawing
             for more in (0, 1) for n in (0, 1, 2, 3, 4, 5, 8, 400)]
    lines += [counted(flags, more, n) for flags in drawing
              for more in (0, 1) for n in (0, 1, 255, 256, *HIGH_COUNTS)]
    lines += [counted(flags, more, LIMIT) for flags in drawing
              for more in (0, 1)]
    yield "counts_of_draws", probed(lines)


def ratchets():
    """Payloads of ratchets, with what they have done."""
    both = (RATCHET, M | RATCHET)
    lines = [later(flags, more, bytes(n)) for flags in both
             for more in (0, 1) for n in (0, 1, 2, 3, 4, 5, 8)]
    for flags in both:
        for n in (0, 1, 256, LIMIT, 65536, 65537, *HIGH_COUNTS):
            lines += [counted(flags, 0, n), PROBE, counted(flags, 0, 1),
                      counted(flags, 1, n), PROBE]
    yield "counts_of_ratchets", probed(lines)


def cases():
    """The journals on shape, by name."""
    for group in (first_lines, characters, lengths, ends,
                  bytes_before_payload, draws, ratchets):
        yield from group()
