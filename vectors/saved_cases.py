"""The cases of the saved form that the program strobe_vectors runs."""
import copy
import sys

sys.dont_write_bytecode = True  # a run leaves no file beside this one
from lines import NAME, counting
from saved import SIZE, SIZES, form, load, save
from strobe import (
    AD, K, KEY, M, PRF, RATES, RECV_CLR, RECV_ENC, RECV_MAC, SEND_CLR,
    Strobe, blank, fresh)


def there_and_back(lines, session):
    """A save into a buffer of just the size, and a load of it."""
    answer, data = save(session, bytes(SIZE))
    lines.outcome(answer, session, data)
    answer, loaded = load(data)
    lines.outcome(answer, loaded, data)
    return loaded


def back_from_old(lines, session):
    """A load of a session's form in edition 1."""
    data = form(session, 1)
    answer, loaded = load(data)
    lines.outcome(answer, loaded, data)
    return loaded


def first_calls(lines, loaded):
    """With no last operation `more` has nothing to go on with before one is
    opened. With ad as the last one the first call goes on."""
    for flags, more in ((AD, True), (0x22, True), (0x05, True),
                        (RECV_MAC, True), (KEY, True), (RECV_MAC, False),
                        (M | RECV_CLR, False), (M | RECV_CLR, True)):
        lines.numbered(loaded, flags, more, 3)


def stream(lines, session):
    """A prf, and the same with a save and a load in its middle."""
    whole = copy.deepcopy(session)
    uncut = lines.call(whole, PRF, False, bytes(200))
    first = lines.call(session, PRF, False, bytes(77))
    loaded = there_and_back(lines, session)
    rest = lines.call(loaded, PRF, True, bytes(123))
    if first + rest != uncut or vars(loaded) != vars(whole):
        sys.exit("a prf with a load in its middle is not the prf uncut")


def values(lines, session):
    """Loads with every value of a byte, but for those of the state."""
    places = {1: range(5), 2: [*range(5), 205]}
    for edition in SIZES:
        data = form(session, edition)
        for place in places[edition]:
            lines.loads(data[:place] + bytes([value]) + data[place + 1:]
                        for value in range(256))


def at_level(lines, level):
    """A session and its forms."""
    session = fresh(NAME, level)
    lines.numbered(there_and_back(lines, session), M | AD, True, 3)
    lines.numbered(session, RECV_ENC, False, 100)
    session = there_and_back(lines, session)
    lines.numbered(session, AD, False, 3)
    old = back_from_old(lines, session)
    first_calls(lines, there_and_back(lines, old))
    loaded = there_and_back(lines, session)
    first_calls(lines, loaded)
    stream(lines, copy.deepcopy(loaded))
    values(lines, loaded)
    return loaded


def going_on(lines):
    """Every flag byte that has no K: a call, and one that goes on with it
    after a load of each edition. Edition 2 holds all that a session is, so
    there it goes on as if there had been no load."""
    session = fresh(NAME, 128)
    for flags in range(K):
        lines.numbered(session, flags, False, 5)
        lines.numbered(load(form(session, 1))[1], flags, True, 7)
        lines.numbered(session, flags, True, 7)


def lengths(lines, session):
    """Loads of the first n bytes, for each n, with bytes after the form:
    after that of edition 1 the byte of a last operation."""
    saved = save(session, counting(0, 256))[1]
    for edition in SIZES:
        data = bytes([edition]) + saved[1:]
        lines.loads(data[:n] for n in range(256))


def saves(lines, session):
    """Saves into the first n bytes of 256, for each n; what is kept, and
    the byte where the last operation stands."""
    buf = counting(0, 256)
    saved = [save(session, buf[:n]) for n in range(256)]
    after = [data + buf[n:] for n, (_, data) in enumerate(saved)]
    lines.row(answer for answer, _ in saved)
    lines.row(2 * (data == buf) + (data[SIZE:] == buf[SIZE:])
              for data in after)
    lines.row(data[205] for data in after)


def not_saved(lines):
    """Sessions that are not well formed."""
    saves(lines, blank())
    for pos, pos_begin, last in ((134, 0, None), (4, 5, None), (5, 5, 0x05),
                                 (5, 5, 0xff)):
        session = Strobe(bytes(200), RATES[256], pos, pos_begin)
        session.cur_flags = last
        saves(lines, session)


def refused(lines):
    """Refused loads, and a call on what each gave."""
    for edition, size in SIZES.items():
        answer, session = load(bytes([edition]) * (size + 256))
        lines.outcome(answer, session, b"")
        lines.numbered(session, AD, False, 3)


def forms(lines):
    """The saved form."""
    example = fresh(b"seat 7", 128)
    example.call(SEND_CLR, False, b"d6")
    there_and_back(lines, example)
    back_from_old(lines, example)
    for level in RATES:
        session = at_level(lines, level)
    going_on(lines)
    lengths(lines, session)
    saves(lines, session)
    not_saved(lines)
    refused(lines)
