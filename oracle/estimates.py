#!/usr/bin/env python3
"""Random estimates of all modes and windows against the original Rust.

usage: estimates.py ORACLE REPLAY [COUNT [SEED [edges]]]

ORACLE is the driver over the unchanged Rust (`probe` of rust/), REPLAY the program of crates/replay. Both get the same commands: predictors of one to eight
channels, frames whose peaks lie around the threshold, with infinite and not-a-number samples among them, and estimates, some of them out of range. With `edges`: predictors of windows 1, 1, 1 and two frames
that bring the sides of a comparison, or a P and a whole dB, within 15 thousandths of each other.
An unmarked answer must be the Rust's; a refusal must be the one of document 01's table; drop and mark must be those of the words (marks.py), and no estimate may be marked that reaches no near test.
Records must be the Rust's, which has no counts, and their counts those of the words (counts.py). Prints what was compared, how many estimates reach a near test, which document 01 marked before 02
(iii), each line that differs, and how far from an edge, in thousandths, the sides of the port lay where the Rust's answer is on the other side of it.
"""
import collections
import random
import subprocess
import sys

from counts import Counts, without
from marks import EDGES, Predictor, bits, drawn, drop, newest, reaches_near, shown, threshold_for, turned

PIECE = 400_000  # bytes of commands for one run of the two programs; each piece starts with a new predictor


def predictor(rnd):
    while True:
        window, reference, delay = rnd.choice([(5, 5, 5), (rnd.randint(1, 12), rnd.randint(1, 12), rnd.randint(0, 12)), (rnd.randint(1, 63), rnd.randint(1, 40), rnd.randint(0, 24))])
        if window < delay + reference <= 64:
            break
    channels = rnd.choice([1, 1, 2, 3, 8])
    threshold = rnd.choice([-1000, -1000, 0, -3000, rnd.randint(-6000, 3000)])
    margin = rnd.choice([3000, 0, -2000, rnd.randint(-5000, 5000)])
    mode = rnd.randint(0, 2)
    return channels, delay + reference, threshold, f"P {channels} 1 {mode} {window} {reference} {delay} {threshold} {margin}"


def sample(rnd, scale):
    if rnd.random() < 0.004:
        return rnd.choice([0x7F800000, 0xFF800000, 0x7FC00000, 0xFFC00001, 0x00000001, 0x7F7FFFFF])
    if rnd.random() < 0.02:
        return bits(scale * rnd.choice([-1.0, 1.0]))
    return bits(rnd.uniform(-scale, scale))


def frame(rnd, channels, threshold, crest):
    size = rnd.choice([1, 2, 4, 6, 10])
    out = []
    for _ in range(channels):
        top = 10 ** ((threshold + 90310 + rnd.choice([0, 0, rnd.uniform(-3000, 9000), rnd.uniform(-30, 30)])) / 20000)
        part = [sample(rnd, top * crest) for _ in range(size)]
        if rnd.random() < 0.7:
            part[rnd.randrange(size)] = bits(top)
        out += part
    return "F " + "".join(f"{b:08x}" for b in out)


def estimate(rnd, channels):
    if rnd.random() < 0.02:
        odd = [-1, 256, 0, 255, 2147483647, -2147483648]
        return [rnd.choice([rnd.randrange(channels), channels, -1]), rnd.choice(odd + [100]), rnd.choice(odd + [15]), rnd.choice(odd + [70]), rnd.choice(odd)]
    least = rnd.randint(0, 255)
    most = rnd.choice([255, rnd.randint(least, 255)])
    return [rnd.randrange(channels), rnd.randint(0, most), rnd.choice([15, rnd.randint(1, 255)]), rnd.choice([70 if most >= 70 else least, least]), most]


def refusal(channels, e):
    """Document 01's table, causes 8 and 10."""
    channel, level, step, least, most = e
    if not 0 <= level <= 255:
        return "! 8"
    if not (0 <= channel < channels and 1 <= step <= 255 and 0 <= least <= 255 and 0 <= most <= 255 and least <= most and level <= most):
        return "! 10"
    return None


def piece(rnd):
    """Commands, and for each the refusal that the table gives, if any."""
    commands, refused, size = [], [], 0
    while size < PIECE:
        channels, capacity, threshold, made = predictor(rnd)
        block = [(made, None)]
        crest = rnd.choice([0.02, 0.1, 0.5, 1.0])
        for k in range(capacity + rnd.randint(5, 25)):
            block.append((frame(rnd, channels, threshold, crest if k < capacity // 2 else rnd.choice([crest, 1.0, 0.3])), None))
            if k + 2 >= capacity // 2:
                for _ in range(rnd.randint(3, 9)):
                    e = estimate(rnd, channels)
                    block.append(("E " + " ".join(map(str, e)), refusal(channels, e)))
            if rnd.random() < 0.01:
                block.append(("X", None))
        commands += [c for c, _ in block]
        refused += [r for _, r in block]
        size += sum(len(c) + 1 for c, _ in block)
    return commands, refused


def piece_of_edges(rnd):
    """The same at the edges: a step of 1, so that each ceiling has a drop of its own."""
    commands, size = [], 0
    while size < PIECE:
        mode, place, whole = rnd.choice(EDGES[:6] * 3 + EDGES[6:])
        frames = ["F " + "".join(f"{b:08x}" for b in samples) for samples in drawn(rnd, mode, place, whole, 0.015)]
        block = [f"P 1 1 {mode} 1 1 1 {threshold_for(place)} 0", *frames, "E 0 200 1 70 255"]
        commands += block
        size += sum(len(c) + 1 for c in block)
    return commands, [None] * len(commands)


def run(program, commands):
    out = subprocess.run([program], input=("\n".join(commands) + "\n").encode(), stdout=subprocess.PIPE, stderr=subprocess.DEVNULL).stdout
    return out.decode().split("\n")[:-1]


def same_record(a, b):
    """Two answers to a frame: any two not-a-numbers are equal."""
    def one(word):
        return ":".join("7fc00000" if len(x) == 8 and int(x, 16) & 0x7FFFFFFF > 0x7F800000 else x for x in word.split(":"))
    return [one(w) for w in a.split()] == [one(w) for w in b.split()]


def followed(predictor, command, answer):
    """The predictor that a command leaves which is no estimate."""
    if command[0] == "P":
        return Predictor(list(map(int, command.split(" ")[1:])))
    if command[0] == "F":
        predictor.push(newest(answer))
    else:
        predictor.reset()
    return predictor


def compared(counts, turns, predictor, command, cause, rust, port):
    """Whether an estimate is what it must be; and what it adds to the counts, and to those of the turns by their distance."""
    near = port.endswith(" n")
    answer = port[:-2] if near else port
    counts["estimates"] += 1
    counts["refused"] += cause is not None
    counts["marked"] += near
    counts["drops"] += answer not in ("none", cause)
    if cause:
        return port == cause
    channel, *asked = map(int, command.split(" ")[1:])
    tests = predictor.tree(channel, asked[0], asked[2])
    marked_before = reaches_near(tests)
    counts["reached_near"] += marked_before
    if answer != rust and near:
        counts["marked_apart"] += 1
        turns[turned(tests, lambda leaf: drop(leaf, *asked) == (0 if rust == "none" else int(rust)))] += 1
    return port == shown(tests, *asked) and (answer == rust or near) and (marked_before or not near)


def main():
    oracle, replay = sys.argv[1:3]
    wanted = int(sys.argv[3]) if len(sys.argv) > 3 else 1_000_000
    rnd = random.Random(int(sys.argv[4]) if len(sys.argv) > 4 else 1)
    counts = dict(estimates=0, frames=0, refused=0, drops=0, reached_near=0, marked=0, marked_apart=0, differ=0)
    turns = collections.Counter()
    draw = piece_of_edges if sys.argv[5:] == ["edges"] else piece
    while counts["estimates"] < wanted:
        commands, refused = draw(rnd)
        theirs, ours = run(oracle, commands), run(replay, commands)
        assert len(theirs) == len(ours) == len(commands)
        predictor, counted = None, Counts()
        for command, cause, rust, port in zip(commands, refused, theirs, ours):
            port = port.split(" => ", 1)[1]
            if command[0] == "E":
                fine = compared(counts, turns, predictor, command, cause, rust, port)
            else:
                counts["frames"] += command[0] == "F"
                fine = same_record(rust, without(port)) and port == counted.put(command, without(port))
                predictor = followed(predictor, command, port)
            if not fine:
                counts["differ"] += 1
                print(f"{command}: the Rust {rust}, the port {port}, the table {cause}")
    print(", ".join(f"{k} {v}" for k, v in counts.items()))
    print("turned " + ", ".join(f"{n} at {distance}" for distance, n in sorted(turns.items())))
    sys.exit(counts["differ"] != 0)


if __name__ == "__main__":
    main()
