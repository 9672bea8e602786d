"""The plan of the crate replay_ends: what the ends do, and what it must have.

The bytes that a session of its own gives are read as the crate's src/plan.rt
and src/meaning.rt read them. test_plan ends the script if the plan lacks
something that the ends are to meet.
"""
import sys

sys.dont_write_bytecode = True  # a run leaves no file beside this one
from strobe import (
    AD, I, M, OPERATIONS, PRF, RATES, RECV_MAC, SEND_MAC, T, fresh)

NAME = b"a plan for two ends, 2713"  # with this number it lacks nothing
LONGEST_MAC = 64  # the limit of one call that receives a MAC
FIRST, SECOND = 1, 2
ENDS = {FIRST: "first end", SECOND: "second end"}
ATTEMPTS = ("key flag", "no operation", "not the last", "cut MAC", "long MAC")
# A received MAC can't be cut.
CUT = [flags for flags in OPERATIONS if flags & ~M != RECV_MAC]


def mirror(flags):
    """The same operation at the other end."""
    return flags ^ I if flags & T else flags


class Part:
    """What the plan gives for one end of an operation."""

    def __init__(self, flags, opening, length, own):
        size, before, middle = own
        self.flags = flags
        # The size of a piece. Nothing is cut here, so whether suffices.
        self.cut = size >= 192 or size % 32
        # The opening continues the protocol name, so it needs a last
        # operation, which edition 1 does not have.
        editions = (2,) if opening else (1, 2)
        self.edition = before % 8 if before % 8 in editions else "-"
        # How many bytes come before the load in the middle.
        can_load = flags in CUT and middle >= 128
        self.middle = middle % (length + 1) if can_load else "-"


class Step:
    """What the plan gives for an operation."""

    def __init__(self, plan, opening):
        told = plan.call(PRF, False, bytes(11))[1]
        data = plan.call(PRF, False, bytes(400))[1]
        self.opening = opening
        self.flags = M | AD if opening else OPERATIONS[told[0] % 20]
        length = self.length(told[1], told[2])
        self.data = data[:length]
        self.who, self.which = told[3] % 8, told[4] % len(ATTEMPTS)
        self.parts = {
            FIRST: Part(self.flags, opening, length, told[5:8]),
            SECOND: Part(mirror(self.flags), opening, length, told[8:])}

    def length(self, high, low):
        """How many bytes it has."""
        if self.opening:
            return 399
        if self.flags & ~(M | I) == SEND_MAC:
            return low % (LONGEST_MAC + 1)
        if high % 4 == 0:
            return (high // 4 * 256 + low) % 400
        return low % 48


def drawn(level):
    """The operations of a level."""
    plan = fresh(NAME, level)
    return [Step(plan, number == 0) for number in range(200)]


def way(flags):
    """What the first end does in a transported operation."""
    return "receives" if flags & I else "sends"


def loads(step, level):
    """The loads before an operation and in its middle, in words."""
    for end, name in ENDS.items():
        part = step.parts[end]
        if step.opening and part.edition == 2:
            yield f"a load of the {name} before the opening"
        yield f"{level}: a load of the {name} in edition {part.edition}"
        # In the middle there are bytes before the load and after it.
        if part.middle != "-" and 0 < part.middle < len(step.data):
            if step.opening:
                yield f"a load of the {name} in the middle of the opening"
            else:
                yield (f"{level}: a load of the {name} in the middle of "
                       f"{part.flags:02x}")
    editions = [part.edition for part in step.parts.values()]
    yield f"{level}: loads of both ends in editions {editions}"


def tried(step, level):
    """The refused call before an operation, in words."""
    for end, name in ENDS.items():
        if step.who == end:
            yield f"{level}: a refused call of the {name}: " + \
                ATTEMPTS[step.which]
            if step.opening:
                yield "a refused call before the opening"


def features(steps, level):
    """What a level has, in words."""
    for step in steps:
        yield from loads(step, level)
        yield from tried(step, level)
        if step.opening:
            if all(part.cut for part in step.parts.values()):
                yield f"{level}: an opening that both ends cut"
            continue
        yield f"{level}: an operation {step.flags:02x}"
        if not step.data:
            yield f"{level}: an empty operation"
        # Two whole blocks cross two block ends, wherever they begin.
        if len(step.data) >= 2 * RATES[level]:
            yield f"{level}: an operation across two block ends"
        if step.flags & ~(M | I) == SEND_MAC and \
                len(step.data) == LONGEST_MAC:
            yield f"a longest MAC that the first end {way(step.flags)}"
    transports = [step.flags for step in steps if step.flags & T]
    yield f"a level whose first transport the first end {way(transports[0])}"


def wanted_loads(level):
    """The loads that a level must have."""
    for name in ENDS.values():
        for edition in (1, 2):
            yield f"{level}: a load of the {name} in edition {edition}"
        for flags in CUT:
            yield f"{level}: a load of the {name} in the middle of {flags:02x}"
    for editions in ([1, 1], [1, 2], [2, 1], [2, 2]):
        yield f"{level}: loads of both ends in editions {editions}"


def wanted():
    """What the plan must have."""
    yield "a refused call before the opening"
    for name in ENDS.values():
        yield f"a load of the {name} before the opening"
        yield f"a load of the {name} in the middle of the opening"
    for flags in (SEND_MAC, RECV_MAC):
        yield f"a longest MAC that the first end {way(flags)}"
        yield f"a level whose first transport the first end {way(flags)}"
    for level in RATES:
        yield f"{level}: an opening that both ends cut"
        yield f"{level}: an empty operation"
        yield f"{level}: an operation across two block ends"
        for flags in OPERATIONS:
            yield f"{level}: an operation {flags:02x}"
        yield from wanted_loads(level)
        for name in ENDS.values():
            for attempt in ATTEMPTS:
                yield f"{level}: a refused call of the {name}: {attempt}"


def test_plan(plans):
    """Ends the script if the plan lacks something."""
    seen = {text for level, steps in plans.items()
            for text in features(steps, level)}
    lacking = [text for text in wanted() if text not in seen]
    if lacking:
        sys.exit("the plan lacks " + "; ".join(lacking))
