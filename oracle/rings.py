#!/usr/bin/env python3
"""Random ring commands, most of them in range: `python3 oracle/rings.py [COUNT [SEED]]` writes them, for the Rust's driver, which passes over the counts, and for crates/replay. No count is refused,
since the Rust refuses none."""
import random
import struct
import sys

seed = int(sys.argv[2]) if len(sys.argv) > 2 else 3
rnd = random.Random(seed)
# by themselves, so that a seed draws the same commands with counts and without
counts = random.Random(seed)
SPECIAL = [0x7F800000, 0xFF800000, 0x7FC00000, 0x80000000, 0x00000000, 0x00000001, 0x7F7FFFFF]


def value():
    if rnd.random() < 0.05:
        return rnd.choice(SPECIAL)
    return struct.unpack(">I", struct.pack(">f", rnd.choice([rnd.uniform(0, 32768), rnd.uniform(0, 1e9), rnd.expovariate(1)])))[0]


capacity = 1
for k in range(int(sys.argv[1]) if len(sys.argv) > 1 else 1500):
    pick = rnd.random()
    if k == 0 or pick < 0.02:
        capacity = rnd.choice([1, 2, 3, 5, 10, 10, 33, 64])
        print("G", capacity)
    elif pick < 0.025:
        print("z")
    elif pick < 0.55:
        print(f"g {value():08x} {value():08x} {counts.choice([0, 480, counts.randint(0, 480)])}")
    elif pick < 0.97:
        delay = rnd.randrange(capacity)
        print("m", delay, rnd.randint(1, capacity - delay))
    else:
        print("m", rnd.choice([-1, 0, capacity, 2147483647, -2147483648]), rnd.choice([0, -1, 1, capacity + 1, 2147483647]))
