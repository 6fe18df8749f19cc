#!/usr/bin/env python3
"""The classroom profile, from the words of document 02 (xii): which makings it takes, and that clipping moves no channel below the minimum.

usage: classroom.py REPLAY [COUNT [SEED]]

REPLAY is the program of crates/replay. First the makings: every combination of values at the edges of the six conditions, on both sides; and every fault of document 01's table, alone and by twos, with
all conditions met and with each broken. The answer must be that of the words, 1 to 6 before 19, and a refused making must leave the controller that was there, with the frame that it has had.
Then calls: COUNT controllers of one to eight channels, made through the profile, get frames with one volume and with uneven sets, many of them clipped, at volumes that are low, near the minimum
and near the last one, recommendations, initialises and capture switches. After each frame every channel's own volume must be the applied one, which the frame gave it, or at least min_input_volume.
Then the same search over as many plain controllers, whose settings break one condition, clipped_level_min at least min_input_volume: it must find channels that a frame moved below the minimum.
Prints a line for each; exits with 1 if an answer differs, if a channel is moved below the minimum within the profile, or if none is found outside.
"""
import itertools
import random
import sys
from collections import Counter

from calls import as_set, classroom_settings, frame, in_classroom, run, some_spotters
from each import parts
from levels import value
from two_pasts import SHORT_WAITS, WAIT, recommendation

# ---- makings

DEFAULT = [1, 20, 70, 15, "3dcccccd", 300, 1, -30, -50, 100, "3f333333", "3f19999a"]  # the default settings, which the profile takes
# the least and the greatest of each range of the table, by the place of the setting; outside them, and outside 0 to 1 for the two thresholds, are its faults
RANGES = [(0, 1, 8), (1, 0, 255), (2, 0, 255), (3, 1, 255), (5, 0, 65535), (7, -90, 30), (8, -90, 30), (9, 0, 65535)]
FAULTS = [{place: fault} for place, low, high in RANGES for fault in (low - 1, high + 1, -2**31, 2**31 - 1)]
FAULTS += [{place: fault} for place in (10, 11) for fault in ("80000001", "3f800001", "7fc00000", "ff800000")]
# each condition of the profile broken, by one step where there are steps
BROKEN = [{6: 0}, {1: 19}, {1: 71, 2: 71}, {2: 19}, {8: -29}, {5: 99}, {9: 99}, {4: "80000001"}, {4: "3f800001"}, {4: "7fc00000"}]
# what stands at the edges: minimum and clipped_level_min, the upper target and the lower, a wait, a clipped-ratio threshold
VOLUMES = [(least, floor) for least in (0, 19, 20, 21, 69, 70, 71, 255) for floor in sorted({0, least - 1, least, least + 1, 255}) if 0 <= floor <= 255]
TARGETS = [(upper, lower) for upper in (-90, -30, 30) for lower in sorted({-90, upper - 1, upper, upper + 1, 30}) if -90 <= lower <= 30]
WAITS = [0, 99, 100, 65535]
RATIOS = ["00000000", "80000000", "00000001", "80000001", "3f7fffff", "3f800000", "3f800001", "7f800000", "ff800000", "7fc00000", "ffc00001"]


def in_unit(word):
    return 0 <= value(int(word, 16)) <= 1


def answer(fields):
    """What a making through the profile answers: the first cause of the table, then the profile's."""
    channels, least, floor, step, _, wait, _, upper, lower, update, probability, speech = fields
    causes = [(1, 1 <= channels <= 8), (2, 0 <= least <= 255 and 0 <= floor <= 255), (3, 1 <= step <= 255), (4, 0 <= wait <= 65535 and 0 <= update <= 65535),
              (5, -90 <= upper <= 30 and -90 <= lower <= 30), (6, in_unit(probability) and in_unit(speech)), (19, in_classroom(fields))]
    return next((f"! {cause}" for cause, in_order in causes if not in_order), "ok")


def with_changes(*changes):
    """The default settings with other values, by their places."""
    made = list(DEFAULT)
    for change in changes:
        for place, other in change.items():
            made[place] = other
    return made


def makings():
    """The default settings; all edges of the profile with each other, and one to eight channels in turn; the faults of the table, alone and by twos, with no condition broken and with each."""
    yield with_changes()
    edges = itertools.product((0, 1), VOLUMES, TARGETS, WAITS, WAITS, RATIOS)
    for k, (on, (least, floor), (upper, lower), wait, update, ratio) in enumerate(edges):
        yield with_changes({0: k % 8 + 1, 1: least, 2: floor, 4: ratio, 5: wait, 6: on, 7: upper, 8: lower, 9: update})
    twos = [*itertools.combinations(FAULTS, 1), *itertools.combinations(FAULTS, 2)]
    for broken in [{}, *BROKEN]:
        yield from (with_changes(broken, *faults) for faults in twos)


def asked(fields):
    """A making, a frame behind one that is taken, so that no controller is as it was made, and all that is then held."""
    behind = [f"A {fields[1] + 1} {'44fa0000' * fields[0]}"] if answer(fields) == "ok" else []
    return ["O " + " ".join(map(str, fields)), *behind, "D"]


def check_makings(replay):
    """Prints how often each answer was expected; whether one differs."""
    counts, differ, held = Counter(), 0, None
    said = iter(run(replay, ["V"] + [command for fields in makings() for command in asked(fields)])[1:])
    for fields in makings():
        expected = answer(fields)
        made, *_, shown = [next(said).split(" => ", 1)[1] for _ in asked(fields)]
        fine = made.startswith("ok v=0 ") if expected == "ok" else made == expected and shown == held
        held = shown
        counts[expected] += 1
        if not fine:
            differ += 1
            if differ <= 20:
                print(f"{asked(fields)[0]}: got {made}, expected {expected}; then {shown}")
    print(f"makings {counts.total()}, " + ", ".join(f"{name} {n}" for name, n in sorted(counts.items())) + f", differ {differ}")
    return differ != 0


# ---- clipping

OWN = 5  # the place of the own volume in a channel's state
HEARD = ["00000000", "46ea6000", "46fffe00", "c7000000"]  # silence, loud, and clipped either way


def classroom(rnd):
    """A making through the profile."""
    _, made = classroom_settings(rnd)
    made[0], made[WAIT] = rnd.randint(1, 8), rnd.choice(SHORT_WAITS)
    return "O", made


def low_floor(rnd):
    """A plain making from such settings, but that clipped_level_min lies below the minimum."""
    _, made = classroom(rnd)
    made[2] = rnd.randint(0, made[1] - 1)
    return "N", made


def volume(rnd, before, made):
    """A volume: the one before or near it, where clipping would leave that, low, near the minimum, or any."""
    least, step = made[1], made[3]
    drawn = rnd.choice([before, before, before + rnd.randint(-30, 30), before - step, rnd.randint(0, least), least + rnd.randint(-3, 3), rnd.randint(0, 255)])
    return max(0, min(255, drawn))


def volumes(rnd, before, made):
    """The volumes of a frame: as before, all alike, or each drawn by itself."""
    kind = rnd.random()
    if kind < 0.5:
        return before
    if kind < 0.7:
        return [volume(rnd, before[0], made)] * len(before)
    return [volume(rnd, each, made) for each in before]


def heard(rnd, given, silent):
    """A frame with the first of these volumes: silence, samples of a few kinds, or anything."""
    channels = len(given)
    if not silent and rnd.random() < 0.3:
        return frame(rnd, channels, given[0])
    return f"A {given[0]} " + "".join(rnd.choices(HEARD[:1] if silent else HEARD, k=channels))


def framed(rnd, given, silent=False):
    """A frame with these volumes: a set, or where they are alike one volume, and then some through the word spotter's entry."""
    channels, call = len(given), heard(rnd, given, silent)
    if len(set(given)) > 1 or rnd.random() < 0.2:
        return as_set(call, channels, given)
    return some_spotters(rnd, call, channels)


def session(rnd, making):
    """A controller and rounds of calls. A round starts with volumes that become the last ones where a check is due, goes on with any calls, and waits until clipping is tested again, mostly in
    silence, since a clipped frame at the end of the wait would start the next."""
    letter, made = making(rnd)
    given = [0] * made[0]
    out = [f"{letter} " + " ".join(map(str, made))]
    for _ in range(rnd.choice([1, 2, 4])):
        given = rnd.choice([volumes(rnd, given, made), [rnd.randint(0, 255)] * made[0], [rnd.randint(0, 255) for _ in given]])
        out += [rnd.choice(["I", "I", "C 1"]), framed(rnd, given, True), recommendation(rnd)]
        for _ in range(rnd.randint(1, 12)):
            kind = rnd.random()
            if kind < 0.6:
                given = volumes(rnd, given, made)
                out.append(framed(rnd, given))
            else:
                out.append(recommendation(rnd) if kind < 0.9 else rnd.choice(["I", "C 0", "C 1"]))
        out.append("C 1")
        silent = rnd.random() < 0.7
        for _ in range(made[WAIT]):
            given = volumes(rnd, given, made) if rnd.random() < 0.1 else given
            out += [framed(rnd, given, silent), recommendation(rnd)][:rnd.choice([1, 2])]
    return made, out


def applied(command, channels):
    """The volume that a frame gives each channel; none for other calls."""
    kind, *fields = command.split(" ")
    if kind == "V":
        return [int(word) for word in fields[2:-1]]
    return [int(fields[0])] * channels if kind in "AW" else []


def search(replay, rnd, count, making):
    """What so many controllers did: how often a frame moved a channel's own volume off the applied one, and whither."""
    counts = dict(controllers=count, calls=0, frames=0, uneven=0, moved=0, to_minimum=0, below=0)
    for _ in range(count):
        made, commands = session(rnd, making)
        answers = [line.split(" => ", 1)[1] for line in run(replay, ["V"] + commands)[1:]]
        assert len(answers) == len(commands) and all(said[0] != "!" for said in answers), commands[0]
        for command, said in zip(commands, answers):
            given = applied(command, made[0])
            counts["calls"] += 1
            counts["frames"] += given != []
            counts["uneven"] += len(set(given)) > 1
            moved = [int(own) for was, own in zip(given, (m.split(",")[OWN] for m, _ in parts(said)[2])) if int(own) != was]
            below = sum(own < made[1] for own in moved)
            counts["moved"] += len(moved)
            counts["to_minimum"] += moved.count(made[1])
            counts["below"] += below
            if below and making is classroom and counts["below"] <= 20:
                print(f"{commands[0]}\n  {command[:160]}\n  {said}")
    return counts


def told(name, counts):
    print(f"{name}: " + ", ".join(f"{what} {n}" for what, n in counts.items()))
    return counts["below"]


def main():
    replay = sys.argv[1]
    count = int(sys.argv[2]) if len(sys.argv) > 2 else 1000
    rnd = random.Random(int(sys.argv[3]) if len(sys.argv) > 3 else 1)
    differs = check_makings(replay)
    inside = told("within the profile", search(replay, rnd, count, classroom))
    outside = told("clipped_level_min below the minimum", search(replay, rnd, count, low_floor))
    sys.exit(differs or inside > 0 or outside == 0)


if __name__ == "__main__":
    main()
