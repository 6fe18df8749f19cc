#!/usr/bin/env python3
"""Searches for what the claims `EqualChannels` and `DependsOnOne` rule out: channels that differ, and two controllers that agree in every part that a reply depends on and do not reply alike.

usage: one_channel.py PROGRAM [SETTINGS [SEED [WITHOUT]]]

PROGRAM is the driver over the unchanged Rust (`probe` of rust/) or the program of crates/replay. For each of so many settings, of one to eight channels, 80 controllers get short pasts of their own,
drawn from few calls, so that many come to the same place; with `replay` refused frames are among them, and half of the frames are sets of equal volumes, where every set with volumes that differ is
refused (document 02 (xiv)), and of the others half go through the word spotter's entry where they fit it (document 02 (viii)). After every call all channels must be equal and channel 0 must control. Two controllers that
agree in a channel's state, all records of the rings, the count since clipping and the pending volume then get the same calls, and must reply alike, whatever their volumes. Prints what was
compared, and in how many pairs the volumes differed; exits with 1 if a channel differed or a pair was told apart. WITHOUT is a letter of PLACE, a part that the two need not agree in: pairs that are
told apart are then to be expected, and none is a fault.
"""
import itertools
import os
import random
import sys

from calls import as_set, normal, over_limits, port_state, run, settings, some_spotters
from two_pasts import calls

PASTS = 80
LATER = 20
VOLUMES = [0, 5, 10, 60, 100]
SAMPLES = ["00000000", "00000000", "46ea6000", "46fffe00"]  # silence, loud, clipped
PLACE = "mrka"  # a channel's state, the rings, the count since clipping, the pending volume
REFUSED = ["B 256 1 00000000", "B 5 0 ", "B -1 0 "]


def refused(rnd, channels):
    """A frame that is refused: with one volume, or with a set whose volumes differ, too many, with a bad one among them, or without samples, or over the limits of the spotter's entry."""
    volumes = rnd.sample(range(256), channels)
    sets = [[1, channels + 1, *volumes, 7], [1, channels, *volumes[1:], 256], [0, channels, *volumes]]
    return rnd.choice(REFUSED + [over_limits(rnd, channels)] + [" ".join(map(str, ["V", *fields, "00000000" * channels])) for fields in sets])


def formed(rnd, channels, volume, call):
    """A frame for the port, in one of its forms."""
    if rnd.random() < 0.5:
        return as_set(call, channels, [volume] * channels)
    return some_spotters(rnd, call, channels)


def past(rnd, channels, port):
    """A few calls, in whose frames all channels hear the same or not; an initialise, once or twice, leaves the controller's volume raised or not."""
    out = []
    for _ in range(rnd.randint(0, 5)):
        kind = rnd.random()
        if kind < 0.5:
            heard = rnd.choices(SAMPLES, k=channels) if rnd.random() < 0.3 else [rnd.choice(SAMPLES)] * channels
            volume = rnd.choice(VOLUMES)
            call = f"A {volume} " + "".join(heard)
            out.append(formed(rnd, channels, volume, call) if port else call)
        elif port and kind < 0.55:
            out.append(refused(rnd, channels))
        else:
            out.append(rnd.choice(["I", "C 0", "C 1", "R 00000000 -"]))
    return out + ["I"] * rnd.choice([0, 0, 1, 2])


def read(line):
    """Of an answer the reply, with its mark, and all of the state by letter, in the driver's spelling: `e` is whether all channels are equal."""
    answer = normal(line.split(" => ", 1)[-1])
    marked = answer.endswith(" n")
    answer = answer[:-2] if marked else answer
    reply, state = (port_state(answer) if " => " in line else answer).split(" v=", 1)
    return (reply, marked), dict(word.split("=", 1) for word in ("v=" + state).split(" "))


def answers(program, port, commands):
    """The replies and states of some commands."""
    return [read(line) for line in run(program, ["V"] * port + commands)[port:]]


def unequal(states):
    """In how many of them a channel differs, or another than channel 0 controls."""
    return sum(state["e"] != "1" or state["g"] != "0" for state in states)


def twos(pasts, ends, place):
    """Pasts that end in the same place, by twos, and whether the controllers' volumes differ there."""
    places = {}
    for calls_had, state in zip(pasts, ends):
        places.setdefault(tuple(state[letter] for letter in place), {}).setdefault(state["v"], []).append(calls_had)
    for by_volume in places.values():
        volumes = list(by_volume.values())
        yield from ((one[0], other[0], True) for one, other in zip(volumes, volumes[1:]))
        yield from ((same[0], same[1], False) for same in volumes if len(same) > 1)


def main():
    program = sys.argv[1]
    port = os.path.basename(program) == "replay"
    count, seed, without = (sys.argv[2:] + ["300", "7", ""][len(sys.argv) - 2:])[:3]
    rnd = random.Random(int(seed))
    counts = dict(calls=0, unequal=0, pairs=0, other_volume=0, compared=0, told_apart=0)
    for _ in range(int(count)):
        channels, fields = settings(rnd)
        pasts = [["N " + " ".join(map(str, fields))] + past(rnd, channels, port) + ["D"] for _ in range(PASTS)]
        states = [state for _, state in answers(program, port, [call for calls_had in pasts for call in calls_had])]
        counts["calls"] += len(states)
        counts["unequal"] += unequal(states)
        ends = [states[end - 1] for end in itertools.accumulate(map(len, pasts))]
        for one, other, differs in twos(pasts, ends, PLACE.replace(without, "")):
            later = calls(rnd, channels, LATER)
            halves = [answers(program, port, half + later)[-LATER:] for half in (one, other)]
            replies = [[reply for reply, _ in half] for half in halves]
            counts["calls"] += 2 * LATER
            counts["unequal"] += sum(unequal(state for _, state in half) for half in halves)
            counts["pairs"] += 1
            counts["other_volume"] += differs
            counts["compared"] += LATER
            counts["told_apart"] += replies[0] != replies[1]
    print(", ".join(f"{name} {n}" for name, n in counts.items()))
    sys.exit(counts["unequal"] != 0 or counts["told_apart"] != 0 and not without)


main()
