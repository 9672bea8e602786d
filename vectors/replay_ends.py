#!/usr/bin/env python3
"""Makes the stored output of the crate replay_ends.

It does with strobe.py what the program does with the library, but takes each
operation whole, with no load in its middle. It writes the crate's stdout, or,
with --check, compares it with what would be written. It fails if the ends
disagree or the plan has gaps.
"""
import sys
from pathlib import Path

sys.dont_write_bytecode = True  # a run leaves no file beside this one
import keccak
from replay_plan import FIRST, LONGEST_MAC, SECOND, drawn, test_plan
from saved import form, load
from strobe import (
    AD, CUT_MAC, DONE, I, K, M, NOT_THE_LAST, PRF, RATCHET, RATES, RECV_MAC,
    SEND_MAC, T, fresh, test_strobe)

CRATE = Path(__file__).resolve().parent.parent / "crates" / "replay_ends"


class End:
    """One end: its session, and what its part of a line shows."""

    def __init__(self, level):
        self.session = fresh(b"replay.example", level)
        self.answer, self.given = DONE, b""
        self.went_on = self.refused = "-"

    def overnight(self, edition):
        """A save and a load."""
        last = self.session.cur_flags
        loaded, self.session = load(form(self.session, edition))
        if loaded != DONE:
            sys.exit("an end was not loaded")
        if edition == 1:
            self.go_on(last)

    def go_on(self, last):
        """More of the operation that was last before the save. A load of
        edition 1 sets none, so it is refused, and a received MAC always."""
        expected = CUT_MAC if last & ~M == RECV_MAC else NOT_THE_LAST
        self.went_on = self.session.refusal(last, True, LONGEST_MAC + 1)
        if self.went_on != expected:
            sys.exit(f"a loaded end that goes on is answered {self.went_on}")

    def attempt(self, which, flags):
        """What a call that is to be refused is answered."""
        last = self.session.cur_flags or AD
        mac = RECV_MAC | flags & M
        call = [(flags | K, False), (flags & (I | T | M), False),
                (last ^ M, True), (mac, True), (mac, False)][which]
        self.refused = self.session.refusal(*call, LONGEST_MAC + 1)
        if self.refused == DONE:
            sys.exit(f"a call with {call} is not refused")

    def operate(self, flags, more, lent):
        """One operation, whole."""
        self.answer, self.given = self.session.call(flags, more, lent)

    def shown(self, part):
        """Its part of a line."""
        middle = part.middle if part.middle == "-" else f"{part.middle}:2"
        return (f"{part.edition} {self.went_on} {self.refused} {middle} "
                f"{self.answer} {self.session.pos} {self.session.pos_begin} "
                f"{self.given.hex()}")


def before(end, number, step):
    """The save, the load and the refused call before an operation."""
    part = step.parts[number]
    end.went_on = end.refused = "-"
    if part.edition != "-":
        end.overnight(part.edition)
    if step.who == number:
        end.attempt(step.which, part.flags)


def play(step, first, second):
    """One operation at both ends."""
    before(first, FIRST, step)
    before(second, SECOND, step)
    here, there = (part.flags for part in step.parts.values())
    if not here & T:
        blind = here & ~M in (RATCHET, PRF)
        first.operate(here, step.opening, step.data)
        second.operate(there, step.opening,
                       bytes(len(step.data)) if blind else step.data)
    elif here & I:
        second.operate(there, step.opening, step.data)
        first.operate(here, step.opening, second.given)
    else:
        first.operate(here, step.opening, step.data)
        second.operate(there, step.opening, first.given)


def agree(step, first, second):
    """Whether both ends have what they should."""
    one, other = first.session, second.session
    plain = step.flags & ~M
    if plain == RATCHET:
        same = True  # its bytes do not count
    elif plain in (PRF, SEND_MAC, RECV_MAC):
        same = first.given == second.given
    else:
        same = (first if plain & I else second).given == step.data
    return (same and first.answer == second.answer == DONE
            and one.state == other.state and one.pos == other.pos
            and one.pos_begin == other.pos_begin)


def level_lines(level, steps):
    """The lines of a level."""
    first, second = End(level), End(level)
    yield f"Strobe-Keccak-{level}/1600-v1.0.2"
    for number, step in enumerate(steps):
        play(step, first, second)
        if not agree(step, first, second):
            sys.exit(f"{level}: the ends disagree after operation {number}")
        here, there = step.parts.values()
        yield (f"{number} {step.flags:02x} {len(step.data)}; "
               f"{first.shown(here)}; {second.shown(there)};")
    states = [end.session.state.hex() for end in (first, second)]
    yield f"states; {states[0]}; {states[1]};"


def main():
    """Writes the file, or with --check compares it."""
    if sys.argv[1:] not in ([], ["--check"]):
        sys.exit("usage: replay_ends.py [--check]")
    keccak.test_permutation()
    test_strobe()
    plans = {level: drawn(level) for level in RATES}
    test_plan(plans)
    lines = [line for level, steps in plans.items()
             for line in level_lines(level, steps)]
    text = "".join(line + "\n" for line in lines).encode("ascii")
    path = CRATE / "stdout"
    if sys.argv[1:] != ["--check"]:
        path.write_bytes(text)
    elif not path.is_file() or path.read_bytes() != text:
        sys.exit("crates/replay_ends/stdout is not what is computed")
    print(f"crates/replay_ends: {len(lines)} lines")


if __name__ == "__main__":
    main()
