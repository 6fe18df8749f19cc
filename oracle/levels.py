#!/usr/bin/env python3
"""Levels by exact arithmetic: reads lines `d bits`, `h bits`, `L bits` and writes `COMMAND => ANSWER`.

The answer is the whole number of thousandths that the definition's rule gives, worked out here over Python's whole numbers. Each finite answer d
is then held against the exact bound 10^(d-1) <= v^p <= 10^(d+1), with v the exact fraction of the bits; a line that misses it is an error.
"""
import sys
from fractions import Fraction
from functools import cache
from math import inf, isnan
import struct

OFFSET = 90310
POWER = {"d": 20000, "h": 10000, "L": 20000}


@cache
def ten(k):
    return 10 ** k


def value(bits):
    return struct.unpack(">f", bits.to_bytes(4, "big"))[0]


def level(v, power):
    """The level of an exact fraction above 1: 13 digits of its binary logarithm, then the decimal one, rounded up."""
    whole = (v.numerator // v.denominator).bit_length() - 1
    x = v.numerator * 2 ** 31 // (v.denominator * 2 ** whole)
    digits = 0
    for _ in range(13):
        x = x * x >> 31
        bit = x >> 32
        x >>= bit
        digits = 2 * digits + bit
    return -(-power * (whole * 8192 + digits) * 643 // (8192 * 2136))


def within_one(v, power, d):
    top, bottom = v.numerator ** power, v.denominator ** power
    return ten(max(d - 1, 0)) * bottom <= top <= ten(d + 1) * bottom


def level_of(x, power):
    """d (power 20,000) or h (10,000) of the value of an f32: 0 at 1 or below, and infinity and not-a-number are their own."""
    if isnan(x) or x == inf:
        return x
    return level(Fraction(x), power) if x > 1 else 0


def answer(command, bits):
    x, power = value(bits), POWER[command]
    d = level_of(x, power)
    if isnan(x) or x == inf:
        return str(d)
    assert x <= 1 or within_one(Fraction(x), power, d), f"{command} {bits:08x}: {d} is not within one thousandth"
    return str(d - OFFSET if command == "L" else d)


def main():
    for line in sys.stdin:
        command, bits = line.split()
        print(f"{command} {bits} => {answer(command, int(bits, 16))}")


if __name__ == "__main__":
    main()
