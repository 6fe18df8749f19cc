#!/usr/bin/env python3
"""What an estimate compares, drops and marks, from the words of documents 01 and 02 (iii) and (x), over the levels of levels.py.

usage: marks.py lines     prints `COMMAND => ANSWER` for the lines that crates/replay keeps: each edge of each mode, with sides 6 and 7 apart, either way
       marks.py stored    every estimate in crates/replay/stdout must have the drop and the mark of the words

Document 01 has what an estimate tests, and what it drops; 02 (x) that a test is near with sides 6 apart or less; 02 (iii) that an estimate is marked exactly if near tests, one or several of them
turned, lead to another drop.

From the repository's root, once the driver's files are restored (README.md): the gains are read from the original. Exits with 1 if an answer differs.
"""
import ctypes
import math
import random
import struct

from counts import clipped
from levels import OFFSET, level_of, value
from stored import asked, stored_lines
from table_bytes import gains

NEAR = 6
EVENT, ADAPTIVE, FIXED = range(3)
NEVER = math.inf  # how far apart sides are that are never near


def rounded(x):
    """A double that is a sum or a quotient of two f32, rounded to one: as if it had been worked out in f32."""
    return ctypes.c_float(x).value


def bits(x):
    return struct.unpack(">I", struct.pack(">f", x))[0]


# ---- the metrics and the levels

def metrics(records, delay, count):
    """The mean and the largest peak over some records (mean square and peak, newest first), or none if there are too few."""
    part = records[delay : delay + count]
    if len(part) < count:
        return None
    total, peak = 0.0, 0.0
    for mean, top in part:
        total = rounded(total + mean)
        if top > peak:
            peak = top
    return rounded(total / count), peak


def d(v):
    return level_of(v, 20000)


def h(a):
    return level_of(a, 10000)


# ---- the estimate: a leaf is what is asked for (0, a default step, a ceiling in dB), a test its outcome, how far apart its sides are, and the two ways on

def test(outcome, left, right, held, failed):
    apart = abs(left - right)
    return outcome, NEVER if math.isnan(apart) else apart, held, failed


def ceiling(p):
    """A test of P against the nearest whole dB, which is never near above 14; an infinite P is held to 15, and one that is no number is above no threshold."""
    if not math.isfinite(p):
        return ("ceiling", 15) if p == math.inf else ("none",)
    k = max(0, (p + 500) // 1000)
    apart = abs(p - 1000 * k) if k <= 14 else NEVER
    return p <= 1000 * k, apart, ("ceiling", k), ("ceiling", k + 1)


def crest_factor(metrics):
    mean, peak = metrics
    return d(peak) - h(mean)


def projected(window, reference):
    """P"""
    return crest_factor(reference) + h(window[0]) - OFFSET


def tree(mode, threshold, margin, window, reference):
    peak = d(window[1]) - OFFSET
    if mode == EVENT:
        crest, wanted = crest_factor(window), crest_factor(reference) - margin
        second = test(crest < wanted, crest, wanted, ("step",), ("none",))
    else:
        threshold = math.trunc(threshold / 1000) * 1000
        p = projected(window, reference)
        second = test(threshold < p, threshold, p, ceiling(p) if mode == ADAPTIVE else ("step",), ("none",))
    return test(peak <= threshold, peak, threshold, ("none",), second)


def is_leaf(t):
    return isinstance(t[0], str)


def reached(t):
    while not is_leaf(t):
        t = t[2] if t[0] else t[3]
    return t


def path(t):
    """The outcome and the distance of each test that is reached."""
    found = []
    while not is_leaf(t):
        found, t = found + [t[:2]], t[2] if t[0] else t[3]
    return found


def is_near(t):
    """Whether the sides of a test are near."""
    return t[1] <= NEAR


def reaches_near(t):
    """Whether a test that is reached is near: what document 01 marked before 02 (iii)."""
    return any(apart <= NEAR for _, apart in path(t))


def leaves(t):
    """The leaves that turns of near tests can reach: a near test may go either way, every other goes its own."""
    if is_leaf(t):
        return [t]
    ways = t[2:] if is_near(t) else [t[2] if t[0] else t[3]]
    return [leaf for way in ways for leaf in leaves(way)]


def turned(t, dropped):
    """How far apart the sides must be that are turned, at least, for the estimate to come to a drop."""
    if is_leaf(t):
        return 0 if dropped(t) else NEVER
    taken, other = (t[2], t[3]) if t[0] else (t[3], t[2])
    return min(turned(taken, dropped), max(t[1], turned(other, dropped)))


# ---- the drop

GAINS = []


def walk(volume, change, least):
    """The volume where a fall by `change` dB stops."""
    if not GAINS:
        GAINS.extend(gains())
    to = volume
    while to > least and GAINS[volume] - GAINS[to] < change:
        to -= 1
    return to


def drop(leaf, level, step, least, most):
    if leaf[0] == "none":
        return 0
    if leaf[0] == "ceiling":
        step = max(step, level - walk(level, min(leaf[1], 15), least))
    return level - min(most, max(least, level - step))


class Predictor:
    """The rings of a predictor, and what its estimates test."""

    def __init__(self, fields):
        self.channels, self.on, self.mode, self.window, self.reference, self.delay, self.threshold, self.margin = fields
        self.reset()

    def reset(self):
        self.rings = [[] for _ in range(self.channels)]
        self.known = {}

    def push(self, records):
        """One record more, mean square and peak, for each ring."""
        for ring, entry in zip(self.rings, records):
            ring.insert(0, entry)
            del ring[self.delay + self.reference :]
        self.known = {}

    def tree(self, channel, level, least):
        """What an estimate tests: nothing at or below the minimum, and with metrics missing."""
        if level <= least or not self.on:
            return ("none",)
        if channel not in self.known:
            window, reference = metrics(self.rings[channel], 0, self.window), metrics(self.rings[channel], self.delay, self.reference)
            self.known[channel] = tree(self.mode, self.threshold, self.margin, window, reference) if window and reference else ("none",)
        return self.known[channel]


def newest(answer):
    """The newest record of each ring, as the answer to a frame has it."""
    for text in answer.split(" ")[1:]:
        _, mean, peak, _ = text.split(":")
        yield value(int(mean, 16)), value(int(peak, 16))


def is_marked(t, asked):
    """Whether turns of near tests lead to another drop."""
    own = drop(reached(t), *asked)
    return any(drop(leaf, *asked) != own for leaf in leaves(t))


def shown(t, *asked):
    """The answer in words."""
    to = drop(reached(t), *asked)
    return (str(to) if to else "none") + (" n" if is_marked(t, asked) else "")


# ---- lines at the edges

def record(samples):
    """Mean square and peak of a frame."""
    total, peak = 0.0, 0.0
    for s in map(value, samples):
        total = rounded(total + rounded(s * s))
        if abs(s) > peak:
            peak = abs(s)
    return rounded(total / len(samples)), peak


def frame(mean, crest):
    """Two samples with a mean square and a peak above it, both in dB."""
    mean = 10 ** (mean / 20)
    peak = mean * 10 ** (crest / 20)
    return [bits(peak), bits(math.sqrt(2 * mean * mean - peak * peak))]


def threshold_for(place):
    return -20000 if place == 2 else -1000


def drawn(rnd, mode, place, whole, most):
    """A reference's and a window's frame, in which the sides of the test at `place` (0, 1, and 2 for a ceiling) lie up to `most` dB apart, with a margin of 0."""
    by, full = rnd.uniform(-most, most), OFFSET / 1000
    reference, window = rnd.uniform(0.2, 2.8), rnd.uniform(0.2, 2.8)
    if place == 0:
        mean = full - 1 - window + by
    elif place == 2:
        mean = full + whole - reference + by
    elif mode == EVENT:
        window, mean = reference + by, full + 1
    else:
        mean = full - 1 - reference + by
    return frame(rnd.uniform(20, 90), reference), frame(mean, window)


def at_edge(rnd, mode, place, whole, side, apart):
    """Commands that lead to a test with that outcome and distance, where no other that is reached is near."""
    threshold = threshold_for(place)
    while True:
        frames = drawn(rnd, mode, place, whole, 0.02)
        reference, window = map(record, frames)
        tests = path(tree(mode, threshold, 0, window, reference))
        # a ceiling of 15 is at its distance and yet never near
        there = projected(window, reference) == 1000 * whole + (-apart if side else apart) if place == 2 else tests[place : place + 1] == [(side, apart)]
        if there and all(other > 100 for k, (_, other) in enumerate(tests) if k != place):
            return block(mode, threshold, 0, frames, (200, 1 if place == 2 else 15, 70, 255))


def block(mode, threshold, margin, frames, asked):
    """A predictor of windows 1, 1, 1, its two frames and an estimate, each with its answer."""
    reference, window = map(record, frames)
    yield f"P 1 1 {mode} 1 1 1 {threshold} {margin} => ok"
    for count, (samples, (mean, peak)) in enumerate(zip(frames, (reference, window)), 1):
        yield f"F {''.join(f'{s:08x}' for s in samples)} => ok {count}:{bits(mean):08x}:{bits(peak):08x}:{clipped(samples)}"
    yield f"E 0 {' '.join(map(str, asked))} => {shown(tree(mode, threshold, margin, window, reference), *asked)}"


# a mode, the place of a test in it, and the whole dB that a P lies at: the two comparisons of each mode, and the ceilings
EDGES = [(mode, place, None) for mode in (EVENT, ADAPTIVE, FIXED) for place in (0, 1)] + [(ADAPTIVE, 2, whole) for whole in range(16)]


def lines():
    """Silence, whose level is 0 exactly, and each edge."""
    rnd = random.Random(6)
    for apart in -11, -10, -7, -6, -5, 0, 5, 6, 7, 10, 11:
        yield from block(EVENT, -OFFSET - apart, -500, ([0], [0]), (200, 15, 70, 255))
    for edge in EDGES:
        for side in True, False:
            for apart in NEAR, NEAR + 1:
                yield from at_edge(rnd, *edge, side, apart)


# ---- the stored answers

def stored():
    """How many estimates there are in crates/replay/stdout that are not refused, marked ones, and such that differ from the words."""
    estimates = marked = differ = 0
    predictor = None
    for command, answer in stored_lines():
        kind, *fields = command.split(" ")
        if kind == "P" and not answer.startswith("!"):
            predictor = Predictor(list(map(int, fields)))
        elif kind == "F" and answer.startswith("ok"):
            predictor.push(newest(answer))
        elif kind == "X":
            predictor.reset()
        elif kind == "E" and not answer.startswith("!"):
            channel, *given = map(int, fields)
            estimates += 1
            marked += answer.endswith(" n")
            wanted = shown(predictor.tree(channel, given[0], given[2]), *given)
            if answer != wanted:
                differ += 1
                print(f"{command} => {answer}, by the words {wanted}")
    print(f"{estimates} estimates, {marked} marked, {differ} differ")
    return differ


if __name__ == "__main__":
    asked(__doc__, lines=lambda: print("\n".join(lines())), stored=stored)
