#!/usr/bin/env python3
"""Counts the bytes that the gain table takes in an archive or a program, section by section, and fails if they are more than 128 (document 02 (v)).

usage: table_bytes.py FILE     from the repository's root, once the driver's files are restored (README.md); needs objdump

The gains are read from the original. A byte counts if it belongs to a run of the table, in read-only data or inside code: neighbouring gains as numbers of 8, 16 or 32 bits, or the
differences of neighbours as numbers of 8 or of 2 bits. Bytes that only look like one count too.
"""
import re
import subprocess
import sys

SOURCE = "oracle/rust/pure/src/audio_processing/agc2/clipping_predictor.rs"
MOST = 128


def gains():
    with open(SOURCE) as f:
        return [int(n) for n in re.search(r"GAIN_MAP: \[i32; 256\] = \[([^\]]*)\]", f.read())[1].replace(",", " ").split()]


def runs(table):
    """The bytes of each run that is looked for."""
    steps = [b - a for a, b in zip(table, table[1:])] + [0]
    for size, count in (1, 16), (2, 8), (4, 4):
        for at in range(len(table) - count + 1):
            yield b"".join(g.to_bytes(size, "little", signed=True) for g in table[at : at + count])
    for at in range(len(steps) - 63):
        yield bytes(steps[at : at + 64])
    for at in range(0, len(steps) - 31, 4):
        yield sum(d << 2 * k for k, d in enumerate(steps[at : at + 32])).to_bytes(8, "little")


def sections(path):
    """Each section's name and bytes."""
    for part in subprocess.run(["objdump", "-s", path], check=True, capture_output=True, text=True).stdout.split("Contents of section ")[1:]:
        name, *lines = part.splitlines()
        yield name.rstrip(":"), b"".join(bytes.fromhex(line[line.index(" ", 1) :][:37]) for line in lines if re.match(r" [0-9a-f]+ ", line))


def covered(data, wanted):
    """How many bytes of the data belong to one of the runs."""
    found = set()
    for run in wanted:
        at = data.find(run)
        while at >= 0:
            found.update(range(at, at + len(run)))
            at = data.find(run, at + 1)
    return len(found)


def main():
    wanted = set(runs(gains()))
    counts = [(name, len(data), covered(data, wanted)) for name, data in sections(sys.argv[1])]
    for name, size, count in counts:
        if count:
            print(f"{count:6} of the {size} bytes of {name}")
    total = sum(count for _, _, count in counts)
    print(f"{total:6} in all")
    sys.exit(total > MOST)


if __name__ == "__main__":
    main()
