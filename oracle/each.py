#!/usr/bin/env python3
"""A volume for each channel against the original Rust, which has one: a controller of several channels beside a controller of the Rust for each of them.

usage: each.py ORACLE REPLAY [CONTROLLERS [SEED]]

ORACLE is the driver over the unchanged Rust (`probe` of rust/), REPLAY the program of crates/replay. The port gets frames with sets of positive volumes, mostly uneven; each controller of the Rust gets its
channel's own volume and samples, with the same settings, recommendations and initialises. All frames are quiet, so that nothing is clipped or predicted, and capture stays on: then no channel hears of
another but by the lowest volume. Some frames have one volume for all channels, and go through the word spotter's entry where they fit it (document 02 (viii)). After each call every channel of the port, its figures and its ring, must be the one channel of its Rust controller; a recommendation must be the lowest of theirs,
and the controller's volume the lowest of theirs. With positive volumes raising the lowest to min_input_volume is taking the lowest of the raised. Prints what was compared; exits with 1 if something differs.
"""
import random
import sys

from calls import as_set, as_spotters, fits_spotter, normal, run, settings
from counts import without
from two_pasts import WAIT, Base, quiet, recommendation


def volumes(rnd, before):
    """The next set: as before, all equal, one changed a little or much, or all anew."""
    kind = rnd.random()
    if kind < 0.5:
        return before
    if kind < 0.6:
        return [rnd.randint(1, 255)] * len(before)
    if kind < 0.9:
        channel, changed = rnd.randrange(len(before)), list(before)
        changed[channel] = rnd.choice([rnd.randint(1, 255), max(1, min(255, before[channel] + rnd.randint(-30, 30)))])
        return changed
    return [rnd.randint(1, 255) for _ in before]


def session(rnd):
    """The commands for the port, and those for the Rust's controller of each channel."""
    channels, made = 1, None
    while channels == 1:
        channels, made = settings(rnd)
    made[4] = rnd.choice(["3dcccccd", "00000000", "3f000000"])  # a clipped ratio of zero or more
    made[WAIT] = rnd.choice([0, 1, 5, 300])
    making = " ".join(map(str, made[1:]))
    port, rust = [f"N {channels} {making}"], [[f"N 1 {making}"] for _ in range(channels)]
    given = [rnd.randint(1, 255) for _ in range(channels)]
    for _ in range(rnd.choice([20, 60, 300])):
        kind = rnd.random()
        if kind < 0.5:
            given = volumes(rnd, given)
            call = quiet(rnd, channels, given[0], Base())
            floats = call.split(" ")[2]
            size = len(floats) // channels
            alike = len(set(given)) == 1
            port.append(as_spotters(call, channels) if alike and fits_spotter(call, channels) else as_set(call, channels, given))
            for channel, commands in enumerate(rust):
                commands.append(f"A {given[channel]} {floats[channel * size:(channel + 1) * size]}")
        else:
            call = recommendation(rnd) if kind < 0.97 else "I"
            port.append(call)
            for commands in rust:
                commands.append(call)
    return port, rust


def parts(answer):
    """Of an answer with all of the state the reply, the controller's volume, and each channel with its ring."""
    head, rings = answer.split(" r=")
    words = head.split(" ")
    figures = [word[2:] for word in words if word.startswith("m=")]
    return words[0], int(words[1][2:]), list(zip(figures, rings.split("/"))) if "/" in rings else [(m, "") for m in figures]


def lowest(replies):
    """The lowest volume, or the one reply of all where it is none."""
    return str(min(map(int, replies))) if all(reply.isdigit() for reply in replies) else "/".join(sorted(set(replies)))


def main():
    oracle, replay = sys.argv[1:3]
    wanted = int(sys.argv[3]) if len(sys.argv) > 3 else 500
    rnd = random.Random(int(sys.argv[4]) if len(sys.argv) > 4 else 1)
    counts = dict(controllers=0, calls=0, sets=0, uneven=0, spotters=0, recommendations=0, raised=0, differ=0)
    for _ in range(wanted):
        commands, alone = session(rnd)
        counts["controllers"] += 1
        ours = [parts(without(normal(line.split(" => ", 1)[1]))) for line in run(replay, ["V"] + commands)[1:]]
        theirs = [[parts(normal(line.lstrip("P"))) for line in run(oracle, lines)] for lines in alone]
        least = int(commands[0].split(" ")[2])
        for k, (reply, volume, channels) in enumerate(ours):
            each = [lines[k] for lines in theirs]
            kind = commands[k].split(" ")
            counts["calls"] += 1
            counts["sets"] += kind[0] == "V"
            counts["uneven"] += kind[0] == "V" and len(set(kind[3:-1])) > 1
            counts["spotters"] += kind[0] == "W"
            counts["recommendations"] += kind[0] == "R" and reply.isdigit()
            counts["raised"] += kind[0] == "R" and reply == str(least) and min(int(m.split(",")[5]) for m, _ in channels) < least
            fine = reply == lowest([r for r, _, _ in each]) and volume == min(v for _, v, _ in each) and channels == [c for _, _, (c,) in each]
            if not fine:
                counts["differ"] += 1
                if counts["differ"] <= 10:
                    print(f"{commands[k][:160]}\n  the port {reply} {volume} {channels}\n  the Rust {each}")
    print(", ".join(f"{name} {n}" for name, n in counts.items()))
    sys.exit(counts["differ"] != 0)


if __name__ == "__main__":
    main()
