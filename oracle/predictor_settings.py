#!/usr/bin/env python3
"""A predictor's settings and the numbers that refuse them, from the words of documents 01 and 02 (ii), over whole numbers of any size.

usage: predictor_settings.py lines            prints `COMMAND => ANSWER` for the lines that crates/replay keeps: every triple of windows, the levels in turn
       predictor_settings.py stored           from the repository's root: every making of a predictor in crates/replay/stdout must have the answer of the words
       predictor_settings.py check REPLAY     every triple of windows with every pair of levels, against the program REPLAY of crates/replay

The windows are drawn from the ends of an i32 and from both sides of what is tested, the levels from both sides of both ends. The predictor is on and off, in all modes and with every count of channels, in turn;
`check` asks for each triple again with no channel or nine.
Exits with 1 if an answer differs.
"""
import itertools
import subprocess
import sys

from stored import stored_lines

WINDOWS = [-2**31, -1, 0, 1, 4, 5, 59, 60, 63, 64, 65, 2**31 - 1]
LEVELS = [200_000, -200_000, 200_001, -200_001]
# of the pairs that the lines in replay take in turn, half are in range
PAIRS = [(-1000, 3000), (200_000, -200_000), (200_001, 3000), (-1000, -200_001), (-200_000, 200_000), (0, 0), (-200_001, 0), (0, 200_001)]
PIECE = 5_000


def windows_faults(window, reference, delay):
    """The faults of windows, the sum above 64 last."""
    return [window < 1, reference < 1, delay < 0, delay + reference <= window, delay + reference > 64]


def answer(channels, on, mode, window, reference, delay, threshold, margin):
    faults = windows_faults(window, reference, delay)
    if not 1 <= channels <= 8:
        return "! 1"
    if faults == [False, False, False, False, True]:
        return "! 14"
    if any(faults):
        return "! 7"
    if not (-200_000 <= threshold <= 200_000 and -200_000 <= margin <= 200_000):
        return "! 15"
    return "ok" if on else "off"


def command(fields):
    return "P " + " ".join(map(str, fields))


def in_turn(channels, windows_and_levels):
    """Each with a count of channels, a switch and a mode, by turns of their own."""
    for k, (windows, levels) in enumerate(windows_and_levels):
        yield channels[k % len(channels)], int(k % 3 != 2), k % 5 % 3, *windows, *levels


def triples():
    return itertools.product(WINDOWS, repeat=3)


def with_pairs():
    """Every triple, with one pair of levels."""
    return ((w, PAIRS[k % len(PAIRS)]) for k, w in enumerate(triples()))


def lines():
    for fields in in_turn(range(1, 9), with_pairs()):
        print(f"{command(fields)} => {answer(*fields)}")


def stored():
    """The makings that are stored, and those whose answer is another."""
    makings = [line for line in stored_lines() if line[0].startswith("P ")]
    return makings, [(c, said, answer(*map(int, c.split()[1:]))) for c, said in makings if said != answer(*map(int, c.split()[1:]))]


def run(program, commands):
    out = subprocess.run([program], input=("\n".join(commands) + "\n").encode(), stdout=subprocess.PIPE).stdout
    return [line.split(" => ", 1) for line in out.decode().split("\n")[:-1]]


def check(program):
    """How often each number was expected, and what differs."""
    asked = [*in_turn(range(1, 9), itertools.product(triples(), itertools.product(LEVELS, repeat=2))), *in_turn((0, 9), with_pairs())]
    counts, wrong = {}, []
    for at in range(0, len(asked), PIECE):
        piece = asked[at:at + PIECE]
        said = run(program, [command(fields) for fields in piece])
        assert len(said) == len(piece)
        for fields, (asked_with, got) in zip(piece, said):
            expected = answer(*fields)
            counts[expected] = counts.get(expected, 0) + 1
            if (asked_with, got) != (command(fields), expected):
                wrong.append((command(fields), got, expected))
    return counts, wrong


def main():
    words = sys.argv[1:]
    wrong = []
    if words == ["lines"]:
        lines()
    elif words == ["stored"]:
        makings, wrong = stored()
        print(f"{len(makings)} makings, {len(wrong)} differ")
    elif len(words) == 2 and words[0] == "check":
        counts, wrong = check(words[1])
        print(f"{sum(counts.values())} settings, " + ", ".join(f"{k} {v}" for k, v in sorted(counts.items())) + f", differ {len(wrong)}")
    else:
        sys.exit(__doc__)
    for asked, got, expected in wrong[:40]:
        print(f"{asked}: got {got}, expected {expected}")
    sys.exit(bool(wrong))


main()
