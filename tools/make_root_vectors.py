#!/usr/bin/env python3
"""Writes crates/root_vectors/data/vectors: one line per vector, two 64-bit patterns in hexadecimal, a value and its root.

Run from the project's root; it takes no input, and each run writes the same file. A root is made with whole numbers
only: a finite value above zero is u units of 2^-1074, its root is the root of u * 2^1074 in those units, and isqrt with
a comparison of squares rounds that to 53 digits, to nearest. It is then compared with math.sqrt, which plays no other
part. NaN, -infinity and numbers below zero have no root: their line ends in the pattern of NaN.
"""
import math
import random
import struct

INFINITY = 0x7FF0000000000000
NAN = 0x7FF8000000000000
SIGN = 1 << 63
ONE = 1 << 52
PATH = "crates/root_vectors/data/vectors"


def units(bits):
    """The size of a finite value of this pattern, in units of 2^-1074."""
    exponent, digits = bits >> 52, bits & (ONE - 1)
    return digits if exponent == 0 else (ONE + digits) << (exponent - 1)


def pattern(digits, shift):
    """The pattern of digits * 2^shift units, for 53 digits (or 54, where they are 2^53)."""
    return (shift << 52) + digits


def root_above_zero(bits):
    square = units(bits) << 1074
    whole = math.isqrt(square)
    shift = whole.bit_length() - 53
    assert shift >= 1
    digits = whole >> shift
    middle = (2 * digits + 1) << (shift - 1)
    assert middle * middle != square
    if middle * middle < square:
        digits += 1
    return pattern(digits, shift)


def root(bits):
    if bits & ~SIGN == 0 or bits == INFINITY:
        return bits
    if bits & SIGN or bits > INFINITY:
        return NAN
    return root_above_zero(bits)


def checked(bits):
    want = root(bits)
    if 0 < bits < INFINITY:
        value = struct.unpack("<d", struct.pack("<Q", bits))[0]
        assert struct.unpack("<Q", struct.pack("<d", math.sqrt(value)))[0] == want
    return want


def neighbours(bits):
    return [b for b in (bits - 1, bits, bits + 1) if 0 < b < INFINITY]


def special():
    out = [0, SIGN, INFINITY, SIGN | INFINITY, NAN, SIGN | NAN, INFINITY + 1, SIGN | (INFINITY + 1), (1 << 64) - 1]
    out += [SIGN | b for b in (1, ONE - 1, ONE, ONE + 1, 0x3FF0000000000000, INFINITY - 1)]
    out += [INFINITY - 1 - k for k in range(16)] + [0x3FF0000000000000 + k for k in range(-16, 17)]
    return out


def subnormal(rng):
    out = [b for k in range(53) for b in neighbours(1 << k)]
    return out + [rng.randrange(1, 1 << rng.randint(1, 52)) for _ in range(300)]


def binade_edges():
    return [b for e in range(1, 2047, 7) for b in neighbours(e << 52)] + neighbours(2046 << 52)


def near_squares(rng):
    """Exact squares of numbers of up to 26 digits, at any even power of two, and the values next to them."""
    out = []
    for _ in range(300):
        square = rng.randrange(1, 1 << 26) ** 2
        lead = square.bit_length()
        exponent = 2 * rng.randint(20, 980)
        digits = square << (53 - lead)
        out += neighbours(((lead + exponent) << 52) + digits - ONE)
    return out


def near_middles(rng):
    """Values whose root is close to the middle of two neighbouring values."""
    out = []
    for _ in range(200):
        digits = rng.randrange(1 << 52, 1 << 53)
        middle = (2 * digits + 1) ** 2
        odd = middle.bit_length() % 2
        value = middle >> (middle.bit_length() - 53)
        exponent = 2 * rng.randint(4, 1000) + odd
        out += neighbours((exponent << 52) + value - ONE)
    return out


def anywhere(rng):
    out = [rng.randrange(1, INFINITY) for _ in range(300)]
    return out + [SIGN | rng.randrange(1, INFINITY) for _ in range(60)]


def main():
    rng = random.Random(754)
    inputs = special() + subnormal(rng) + binade_edges() + near_squares(rng) + near_middles(rng) + anywhere(rng)
    inputs = list(dict.fromkeys(inputs))
    with open(PATH, "w", encoding="ascii", newline="\n") as out:
        for bits in inputs:
            out.write("%016x %016x\n" % (bits, checked(bits)))
    print(len(inputs), "vectors")


if __name__ == "__main__":
    main()
