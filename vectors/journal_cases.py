#!/usr/bin/env python3
"""Makes the journals of the crate journal_cases, and its stored output.

It answers with journal.py each journal that the program answers with the
library, and writes the journals to the crate's data/, their names to its args
and the answers, twice, to its stdout; or, with --check, compares all of them
with what would be written.
"""
import sys
from pathlib import Path

sys.dont_write_bytecode = True  # a run leaves no file beside this one
import journal_calls
import journal_random
import journal_shapes
import keccak
from journal import BAD_LINE, journal, test_journal
from strobe import MAC_UNEQUAL, NO_LEVEL, test_strobe

REPOSITORY = Path(__file__).resolve().parent.parent
CRATE = REPOSITORY / "crates" / "journal_cases"

# The answers that a journal can have: 8 is for what is not a session.
ANSWERS = {*range(NO_LEVEL + 1), BAD_LINE, MAC_UNEQUAL}


def gathered():
    """All journals by name."""
    journals = {}
    for part in (journal_calls, journal_shapes, journal_random):
        for name, data in part.cases():
            if name in journals:
                sys.exit(f"two journals have the name {name}")
            journals[name] = data
    return journals


def test_answers(answers):
    """Ends the script if the journals do not show what they are there for."""
    given = {int(line[:2]) for text in answers.values()
             for line in text.splitlines()}
    if given != ANSWERS:
        sys.exit(f"the journals have the answers {sorted(given)}")
    last = {name: text.splitlines()[-1] for name, text in answers.items()
            if text}
    for one, other in (("office_sends", "office_receives"),
                       ("name_whole", "name_in_pieces")):
        if last[one] != last[other]:
            sys.exit(f"{one} and {other} do not end in the same bytes")
    for one, other in (("office_receives", "office_receives_wrong"),
                       ("mac_right", "mac_wrong")):
        if last[one] == last[other]:
            sys.exit(f"{one} and {other} end in the same bytes")


def written(name, text):
    """What the program writes for a journal: the answers of its two runs."""
    heading = name.encode("ascii")
    return heading + b"\n" + text + heading + b", cut\n" + text


def files():
    """All files of the crate that are made here, by their path in it."""
    journals = gathered()
    answers = {name: journal(data) for name, data in journals.items()}
    test_answers(answers)
    made = {f"data/{name}": data for name, data in journals.items()}
    made["args"] = "".join(name + "\n" for name in journals).encode("ascii")
    made["stdout"] = b"".join(written(*both) for both in answers.items())
    return made


def write(made):
    """Writes the files, and removes journals that are no more."""
    (CRATE / "data").mkdir(exist_ok=True)
    for path in CRATE.glob("data/*"):
        path.unlink()
    for name, data in made.items():
        (CRATE / name).write_bytes(data)


def check(made):
    """Ends the script if a file is missing, other, or not one of these."""
    for name, data in made.items():
        path = CRATE / name
        if not path.is_file() or path.read_bytes() != data:
            sys.exit(f"crates/journal_cases/{name} is not what is computed")
    for path in sorted(CRATE.glob("data/**/*")):
        name = path.relative_to(CRATE).as_posix()
        if name not in made:
            sys.exit(f"crates/journal_cases/{name} is no journal made here")


def main():
    """Writes the files, or with --check compares them."""
    if sys.argv[1:] not in ([], ["--check"]):
        sys.exit("usage: journal_cases.py [--check]")
    keccak.test_permutation()
    test_strobe()
    test_journal()
    made = files()
    if sys.argv[1:] == ["--check"]:
        check(made)
    else:
        write(made)
    print(f"crates/journal_cases: {len(made) - 2} journals, "
          f"{sum(map(len, made.values()))} bytes in all")


if __name__ == "__main__":
    main()
