#!/usr/bin/env python3
"""Writes the oracle's lines with one spelling of what counts as equal: any not-a-number is 7fc00000, and minus zero in an answer is 00000000."""
import re
import sys


def float_bits(m):
    bits = int(m.group(0), 16)
    if bits & 0x7FFFFFFF > 0x7F800000:
        return "7fc00000"
    return "00000000" if bits == 0x80000000 else m.group(0)


for line in sys.stdin:
    command, answer = line.rstrip("\n").split(" => ", 1)
    if command[0] in "mFD":
        answer = re.sub(r"(?<![0-9a-f])[0-9a-f]{8}(?![0-9a-f])", float_bits, answer)
    print(f"{command} => {answer}")
