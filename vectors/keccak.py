#!/usr/bin/env python3
"""Makes the test vectors of Keccak-f[1600] for the crate keccak_vectors.

The permutation is written from FIPS 202, section 3, on single bits, so it
shares no method and no table with the library under test. It is compared with
hashlib and with a published output before the crate's stdin and stdout are
written, or, with --check, compared with what would be written.
"""
import hashlib
import sys
from pathlib import Path

W = 64  # bits in a lane
L = 6   # log2 of W
CRATE = Path(__file__).resolve().parent.parent / "crates" / "keccak_vectors"

# The permuted zero state: the vector zero_keccak of the strobe-rs crate.
ZERO_KECCAK = bytes.fromhex("""
    e7dde140798f25f18a47c033f9ccd584eea95aa61e2698d54d49806f304715bd57d05362
    054e288bd46f8e7f2da497ffc44746a4a0e5fe90762e19d60cda5b8c9c05191bf7a630ad
    64fc8fd0b75a933035d617233fa95aeb0321710d26e6a6a95f55cfdb167ca58126c84703
    cd31b8439f56a5111a2ff20161aed9215a63e505f270c98cf2febe641166c47b95703661
    cb0ed04f555a7cb8c832cf1c8ae83e8c14263aae22790c94e409c5a224f94118c26504e7
    2635f5163ba1307fe944f67549a2ec5c7bfff1ea""")

# A hash function by its name in hashlib, the byte after the message, the rate
# in bytes, and the lengths of messages: the last is the longest that fits.
HASHES = [
    ("shake_128", 0x1f, 168, (0, 3, 167)),
    ("shake_256", 0x1f, 136, (0, 64, 135)),
    ("sha3_224", 0x06, 144, (1, 143)),
    ("sha3_256", 0x06, 136, (0, 135)),
    ("sha3_384", 0x06, 104, (33, 103)),
    ("sha3_512", 0x06, 72, (0, 71)),
]


def array(bit):
    """Section 3.1: the state array with A[x][y][z] = bit(x, y, z)."""
    return [[[bit(x, y, z) for z in range(W)] for y in range(5)]
            for x in range(5)]


def bits_of(data):
    """Appendix B.1: the string S in which S[8j+i] is bit i of byte j."""
    return [byte >> i & 1 for byte in data for i in range(8)]


def bytes_of(s):
    """Appendix B.1: the bytes of a string."""
    return bytes(sum(s[j + i] << i for i in range(8))
                 for j in range(0, len(s), 8))


def to_array(s):
    """Section 3.1.2: the state array of a string."""
    return array(lambda x, y, z: s[W * (5 * y + x) + z])


def to_string(a):
    """Section 3.1.3: the string of a state array, plane after plane."""
    return [a[x][y][z] for y in range(5) for x in range(5) for z in range(W)]


def theta(a):
    """Algorithm 1: adds to each bit the parities of two columns."""
    c = [[a[x][0][z] ^ a[x][1][z] ^ a[x][2][z] ^ a[x][3][z] ^ a[x][4][z]
          for z in range(W)] for x in range(5)]
    d = [[c[(x - 1) % 5][z] ^ c[(x + 1) % 5][(z - 1) % W]
          for z in range(W)] for x in range(5)]
    return array(lambda x, y, z: a[x][y][z] ^ d[x][z])


def rho(a):
    """Algorithm 2: rotates each lane by its offset."""
    result = array(lambda x, y, z: a[x][y][z])
    x, y = 1, 0
    for t in range(24):
        for z in range(W):
            result[x][y][z] = a[x][y][(z - (t + 1) * (t + 2) // 2) % W]
        x, y = y, (2 * x + 3 * y) % 5
    return result


def pi(a):
    """Algorithm 3: moves the lanes."""
    return array(lambda x, y, z: a[(x + 3 * y) % 5][x][z])


def chi(a):
    """Algorithm 4: mixes each bit with two others of its row."""
    return array(lambda x, y, z: a[x][y][z] ^ (
        (a[(x + 1) % 5][y][z] ^ 1) & a[(x + 2) % 5][y][z]))


def rc(t):
    """Algorithm 5: bit t of the round constants' sequence."""
    if t % 255 == 0:
        return 1
    r = [1, 0, 0, 0, 0, 0, 0, 0]
    for _ in range(t % 255):
        r = [0] + r
        for i in (0, 4, 5, 6):
            r[i] ^= r[8]
        r = r[:8]
    return r[0]


def iota(a, ir):
    """Algorithm 6: adds the constant of round ir to lane (0, 0)."""
    constant = [0] * W
    for j in range(L + 1):
        constant[2 ** j - 1] = rc(j + 7 * ir)
    return array(lambda x, y, z:
                 a[x][y][z] ^ (constant[z] if x == y == 0 else 0))


def rnd(a, ir):
    """Section 3.3: one round."""
    return iota(chi(pi(rho(theta(a)))), ir)


def permute(state):
    """Algorithm 7 at b = 1600 and 24 rounds, KECCAK-f[1600], on bytes."""
    a = to_array(bits_of(state))
    for ir in range(12 + 2 * L):
        a = rnd(a, ir)
    return bytes_of(to_string(a))


def padded(message, suffix, rate):
    """Sections 5.1 and B.2: the state that holds a message of one block."""
    state = bytearray(message + bytes(200 - len(message)))
    state[len(message)] ^= suffix
    state[rate - 1] ^= 0x80
    return bytes(state)


def hash_cases():
    """Each hash function's name and rate, a message, and its padded state."""
    cases = []
    for name, suffix, rate, lengths in HASHES:
        for length in lengths:
            message = bytes(range(length))
            cases.append((name, rate, message, padded(message, suffix, rate)))
    return cases


def test_permutation():
    """Ends the script if permute differs from what others compute."""
    if permute(bytes(200)) != ZERO_KECCAK:
        sys.exit("the permuted zero state is not the published one")
    for name, rate, message, state in hash_cases():
        digest = hashlib.new(name, message).digest
        # Three blocks of an extendable output show three iterates.
        expected = digest(3 * rate) if name.startswith("shake") else digest()
        output = b""
        while len(output) < len(expected):
            state = permute(state)
            output += state[:rate]
        if output[:len(expected)] != expected:
            sys.exit(f"{name} of {len(message)} bytes is not hashlib's")


def all_states():
    """The states to permute."""
    zero = bytes(200)
    # The zero state and two iterates: the outputs are the first three.
    states = [zero, permute(zero), permute(permute(zero))]
    # The blocks that were compared with hashlib.
    states += [state for _, _, _, state in hash_cases()]
    # One byte everywhere: each bit, each byte's high bit, each byte's low bit.
    states += [b"\xff" * 200, b"\x80" * 200, b"\x01" * 200]
    # One bit: the first, the ends of lanes and bytes, inside lanes, the last.
    states += [(1 << n).to_bytes(200, "little")
               for n in (0, 63, 64, 391, 800, 1217, 1536, 1599)]
    # Bytes that all differ, so that a byte out of its place is seen.
    states.append(bytes(range(200)))
    # A state with no pattern.
    states.append(hashlib.shake_256(b"a state for Keccak-f[1600]").digest(200))
    # Neighbouring bits that differ.
    states.append(b"\xaa\x55" * 100)
    return states


def as_lines(states):
    """The states, one a line, in lower-case hexadecimal digits."""
    return "".join(state.hex() + "\n" for state in states).encode("ascii")


def main():
    """Writes the two files, or with --check compares them."""
    if sys.argv[1:] not in ([], ["--check"]):
        sys.exit("usage: keccak.py [--check]")
    test_permutation()
    states = all_states()
    permuted = [permute(state) for state in states]
    files = {"stdin": as_lines(states), "stdout": as_lines(permuted)}
    for name, lines in files.items():
        path = CRATE / name
        if sys.argv[1:] != ["--check"]:
            path.write_bytes(lines)
        elif not path.is_file() or path.read_bytes() != lines:
            sys.exit(f"crates/keccak_vectors/{name} is not what is computed")
    print(f"crates/keccak_vectors: {len(states)} states, and each permuted")


if __name__ == "__main__":
    main()
