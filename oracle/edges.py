#!/usr/bin/env python3
"""The cases at the edges that no theorem states, what a hurried port would do wrong, and examples of the claim `DependsOnEach`, as lines for crates/replay, answered by the original Rust.

usage: edges.py ORACLE     from the repository's root; ORACLE is the driver over the unchanged Rust (`probe` of rust/)

The cases stand in edges.txt, a step a line: a letter, two numbers of six columns, and a name. -999 stands for no number.

    N minimum wait             a controller of one channel; its settings are the default ones but for the minimum volume and the update wait
    A volume sample            a frame of four equal samples
    C switch   I               the capture switch; initialise
    R level expected name      a recommendation; with speech for certain at a level in tenths of a dB, or without speech
    W volume expected name     of 300 clipped frames at that volume, each with its recommendation, those that leave the controller's volume there
    V 0 expected name          the controller's volume
    O 0 expected name          the channel's own volume, which no minimum raises
    H 0 expected name          the highest volume that the channel may set
    K 0 expected name          the frames counted since clipping
    D place expected name      the peak of a stored record, counted from the newest as 0
    M count expected name      a ring of capacity 10 with the records 0, 1, 2 and so on, each with as many clipped samples: the mean square over a delay of 5 and 5 items
    P count expected name      the peak over the same
    Q level expected name      the speech error at a level in tenths of a dB, for targets -50 to -30

Prints `COMMAND => ANSWER` for each command of replay that the steps come to, with a line `# NAME: NUMBER => ` behind what shows the number. Fails where the Rust does not show it.
The counts of clipped samples, which the Rust has not, are those of the words (counts.py).
"""
import re
import struct
import subprocess
import sys

from counts import Counts

NONE = -999


def word(x):
    return f"{struct.unpack('>I', struct.pack('>f', x))[0]:08x}"


def number(bits):
    return round(struct.unpack(">f", struct.pack(">I", int(bits, 16)))[0])


def commands(letter, a):
    """The commands that a step comes to."""
    minimum, wait, volume, count, level = a[0], a[1], a[0], a[0], a[0]
    if letter == "N":
        return [f"N 1 {minimum} 70 15 3dcccccd 300 1 -30 -50 {wait} 3f333333 3f19999a"]
    if letter == "A":
        return [f"A {volume} {word(float(a[1])) * 4}"]
    if letter == "C":
        return [f"C {a[0]}"]
    if letter == "R":
        return ["R 00000000 -" if level == NONE else f"R 3f800000 {word(level / 10)}"]
    if letter == "W":
        return [f"A {volume} {word(40000.0) * 4}", "R 00000000 -"] * 300
    if letter in "MP":
        return ["G 10"] + [f"g {word(float(i))} {word(float(i))} {i}" for i in range(count)] + ["m 5 5"]
    if letter == "Q":
        return [f"Q {word(level / 10)} -50 -30"]
    return [letter] if letter in "ID" else []


def state(answer, pattern):
    return int(re.search(pattern, answer).group(1))


def shown(letter, a, answers):
    """The number that a step shows, from the answers up to its last command."""
    last = answers[-1]
    if letter in "RQ":
        return NONE if last.startswith("none") else int(last.split(" ")[0])
    if letter == "W":
        return sum(state(x, r" v=(\d+)") == a[0] for x in answers[-599::2])
    if letter in "MP":
        return NONE if last == "none" else number(last.split(" ")["MP".index(letter)])
    if letter == "D":
        records = re.search(r" r=\d+((?::[0-9a-f]{8})*)/", last).group(1).split(":")[1:]
        return NONE if len(records) < 2 * a[0] + 2 else number(records[len(records) - 1 - 2 * a[0]])
    return state(last, {"V": r" v=(\d+)", "O": r" m=(?:\d+,){5}(\d+)", "H": r" m=(\d+)", "K": r" k=(\d+)"}[letter])


def main():
    steps = []
    for line in open("oracle/edges.txt").read().split("\n"):
        if line and line[0] != "#":
            steps.append((line[0], (int(line[1:7]), int(line[7:13])), line[14:]))
    asked = [c for letter, a, _ in steps for c in commands(letter, a)]
    said = subprocess.run([sys.argv[1]], input="\n".join(asked) + "\n", capture_output=True, text=True).stdout.split("\n")
    # a P in front: the Rust panics in its statistics, which the port leaves out (docs/DIFFERENCES.md, 2)
    answers, wrong = [re.sub(r" e=\d", "", x).removeprefix("P") for x in said], 0
    print("V => ok")
    at, counts = 0, Counts()
    for letter, a, name in steps:
        for command in commands(letter, a):
            print(f"{command} => {counts.put(command, answers[at])}")
            at += 1
        if name:
            seen = shown(letter, a, answers[:at])
            print(f"# {name}: {'none' if a[1] == NONE else a[1]} => ")
            if seen != a[1]:
                wrong += 1
                print(f"{name}: expected {a[1]}, the Rust shows {seen}", file=sys.stderr)
    sys.exit(wrong != 0)


main()
