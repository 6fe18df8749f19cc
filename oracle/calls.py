#!/usr/bin/env python3
"""Random calls on controllers against the original Rust, all of the state compared after each call.

usage: calls.py ORACLE REPLAY [COUNT [SEED]]

ORACLE is the driver over the unchanged Rust (`probe` of rust/), REPLAY the program of crates/replay. Both get the same commands: controllers of one to eight
channels with settings from all of the table's domain, frames of 1 to 480 samples a channel with infinite and not-a-number samples among them, recommendations,
initialises and capture switches. Half of the frames go to the port as a set of equal volumes (`V`, document 02 (xiv)), where the Rust gets its one volume; of the others, half of those that have at
most 2 channels and 160 samples each go through the word spotter's entry (`W`, document 02 (viii)), where the Rust gets the same frame. Many settings lie within the classroom profile (document 02 (xii)),
and half of these controllers the port makes through it (`O`). Frames, sets and settings that are refused go to the port alone: the refusal must be the table's, a set's 20 before 8 before 9, the spotter's
8 before 9 before 18, the profile's 1 to 6 before 19, and the state must stay.
After each call the two states must be equal: the volume, the pending volume, the capture switch, the count since clipping, the controlling channel, every figure
of every channel, and each ring's count and newest record; all records of all rings from time to time. The Rust's records have no count of clipped samples: the port's
are left out there, and must be those of the words (counts.py). A marked call may differ; the controller is then left, since
the states are no longer equal. Prints what was compared, and each line that differs.
"""
import random
import re
import struct
import subprocess
import sys
import tempfile

from counts import Counts, without
from levels import value

PIECE = 60_000  # calls for one run of the two programs


def bits(x):
    return struct.unpack(">I", struct.pack(">f", x))[0]


WILD = [0x7F800000, 0xFF800000, 0x7FC00000, 0xFFC00001, 0x00000001, 0x7F7FFFFF, 0x46FFFE00, 0xC7000000, 0x46FFFDFF, 0xC6FFFFFF, 0x80000000]
UNIT = ["00000000", "3f800000", "3f333333", "3f19999a", "3f000000", "80000000", "00000001"]


def settings(rnd):
    """The settings of a command `N`, each in the table's domain."""
    def either(*xs):
        return rnd.choice(xs)
    channels = either(1, 1, 2, 3, 5, 8)
    ratio = either("3dcccccd", "3dcccccd", "00000000", "3f000000", "bf800000", "7fc00000", "7f800000", f"{rnd.getrandbits(32):08x}")
    wait = either(0, 1, 3, 5, 12, 30, 300, rnd.randint(0, 65535))
    update = either(0, 1, 2, 3, 5, 10, 100, rnd.randint(0, 65535))
    return channels, [
        channels, either(20, 0, 1, 255, rnd.randint(0, 255)), either(70, 0, 255, rnd.randint(0, 255)), either(15, 1, 255, rnd.randint(1, 255)), ratio, wait, either(1, 1, 1, 0),
        either(-30, rnd.randint(-90, 30)), either(-50, rnd.randint(-90, 30)), update, either("3f333333", *UNIT), either("3f19999a", *UNIT),
    ]


def refused_settings(rnd, made):
    """Settings with a fault, and the first cause that holds."""
    odd = [-1, -2147483648, 2147483647]
    faults = [(1, 0, odd + [0, 9]), (2, 1, odd + [256]), (2, 2, odd + [256]), (3, 3, odd + [0, 256]), (4, 5, odd + [65536]), (4, 9, odd + [65536]), (5, 7, [-91, 31] + odd[1:]), (5, 8, [-91, 31] + odd[1:]),
              (6, 10, ["7fc00000", "bf800000", "80000001", "3f800001", "ffc00000"]), (6, 11, ["7fc00000", "bf800000", "80000001", "3f800001", "ff800000"])]
    chosen = rnd.sample(faults, rnd.choice([1, 1, 2, 3]))
    made = list(made)
    for _, place, values in chosen:
        made[place] = rnd.choice(values)
    return made, min(cause for cause, _, _ in chosen)


def in_classroom(fields):
    """Whether the settings of a command `N` lie within the classroom profile, from the words of document 02 (xii). A threshold that is not a number is in no order."""
    least, floor, wait, on, upper, lower, update = (int(fields[k]) for k in (1, 2, 5, 6, 7, 8, 9))
    ratio = value(int(fields[4], 16))
    return all([on == 1, 20 <= least <= 70, floor >= least, lower <= upper, wait >= 100 and update >= 100, 0 <= ratio <= 1])


def classroom_settings(rnd):
    """Settings within the classroom profile, each often at an edge of it."""
    def either(*xs):
        return rnd.choice(xs)
    channels, made = settings(rnd)
    least, upper = either(20, 70, rnd.randint(20, 70)), made[7]
    made[1], made[2] = least, either(least, least, 70, 255, rnd.randint(least, 255))
    made[4] = either("00000000", "80000000", "3f800000", "00000001", "3f7fffff", "3dcccccd", f"{bits(rnd.random()):08x}", f"{bits(rnd.random()):08x}")
    made[5], made[9] = (either(100, 100, 101, 130, 300, rnd.randint(100, 65535)) for _ in range(2))
    made[6], made[8] = 1, either(upper, -90, rnd.randint(-90, upper))
    return channels, made


def outside_classroom(rnd, made):
    """Settings within the profile, with one or more of its conditions broken, each often by one step."""
    made, upper = list(made), rnd.randint(-90, 29)
    faults = [{6: 0}, {1: rnd.choice([0, 19, 71, 255])}, {2: rnd.choice([0, made[1] - 1])}, {7: upper, 8: rnd.choice([upper + 1, 30])}, {5: rnd.choice([0, 99])}, {9: rnd.choice([0, 99])},
              {4: rnd.choice(["80000001", "bf800000", "3f800001", "7f800000", "ff800000", "7fc00000", "ffc00001"])}]
    for fault in rnd.sample(faults, rnd.choice([1, 1, 2, 3])):
        for place, broken in fault.items():
            made[place] = broken
    return made


def part(rnd, size, loud):
    """One channel's samples: silence, a tone of one magnitude with a peak, noise, or anything."""
    kind = rnd.random()
    if kind < 0.25:
        return "00000000" * size
    if kind < 0.75:
        low = 10 ** rnd.uniform(0, 4.4)
        a, b = f"{bits(low):08x}", f"{bits(-low):08x}"
        words = [a if rnd.getrandbits(1) else b for _ in range(size)] if size < 20 else [a, b] * (size // 2) + [a] * (size % 2)
        if rnd.random() < 0.7:
            words[rnd.randrange(size)] = f"{bits(rnd.choice([29203.7, 29203.7, rnd.uniform(26000, 32767)]) * loud):08x}"
        return "".join(words)
    if size > 20:
        word = "".join(f"{bits(rnd.uniform(-32768, 32767)):08x}" for _ in range(16))
        return (word * (size // 16 + 1))[:8 * size]
    return "".join(f"{rnd.choice(WILD) if rnd.random() < 0.12 else bits(rnd.uniform(-33000, 33000)):08x}" for _ in range(size))


def frame(rnd, channels, volume):
    size = rnd.choice([1, 2, 3, 5, 8]) if rnd.random() < 0.985 else rnd.choice([160, 480, rnd.randint(9, 480)])
    loud = rnd.choice([1.0, 1.0, 1.0, 1.1])
    return f"A {volume} " + "".join(part(rnd, size, loud) for _ in range(channels))


def as_set(command, channels, volumes):
    """A frame `A` with a set of volumes in place of its one."""
    floats = command.split(" ")[2]
    return " ".join(map(str, ["V", len(floats) // 8 // channels, len(volumes), *volumes, floats]))


def refused_set(rnd, channels):
    """A frame with a set that is refused, and the number: whatever else is wrong with it, a wrong count comes first, then a volume that is none, then the samples."""
    def good():
        return rnd.randint(0, 255)
    cause = rnd.choice([20, 8, 9])
    count = rnd.choice([n for n in (0, channels - 1, channels + 1, 1, 8, 9, 16, 17, 40) if n != channels]) if cause == 20 else channels
    volumes = [good() for _ in range(count)]
    if count and (cause == 8 or cause == 20 and rnd.random() < 0.5):
        volumes[rnd.randrange(count)] = rnd.choice([-1, 256, 300, 2147483647, -2147483648])
    size, lent = rnd.choice([(0, 0), (481, channels), (1, channels + 1), (2, channels), (0, channels), (-1, 0)])
    if cause != 9 and rnd.random() < 0.5:
        size, lent = 1, channels
    return " ".join(map(str, ["V", size, count, *volumes, "00000000" * lent])), cause


SPOTTER_CHANNELS, SPOTTER_SAMPLES = 2, 160  # the most that the word spotter's entry takes


def fits_spotter(command, channels):
    """Whether a frame `A` lies within the limits of the spotter's entry."""
    return channels <= SPOTTER_CHANNELS and len(command.split(" ")[2]) // 8 // channels <= SPOTTER_SAMPLES


def as_spotters(command, channels):
    """A frame `A` through the spotter's entry."""
    _, volume, floats = command.split(" ")
    return f"W {volume} {len(floats) // 8 // channels} {floats}"


def some_spotters(rnd, command, channels):
    """A frame `A`; if it fits the spotter's entry, half of them go through it."""
    return as_spotters(command, channels) if fits_spotter(command, channels) and rnd.random() < 0.5 else command


def over_limits(rnd, channels):
    """A frame through the spotter's entry that nothing is wrong with but its size: the port's answer is 18."""
    size = rnd.choice([161, 161, 162, 200, 480] + [1, 2, 160] * 3 * (channels > SPOTTER_CHANNELS))
    return f"W {rnd.randint(0, 255)} {size} {f'{bits(rnd.uniform(-33000, 33000)):08x}' * (size * channels)}"


def refused_spotters(rnd, channels):
    """A frame through the spotter's entry that is refused, and the number: whatever else is wrong with it, a volume that is none comes first, then the samples, then the limits."""
    cause = rnd.choice([8, 9, 18, 18])
    if cause == 18:
        return over_limits(rnd, channels), cause
    volume = rnd.choice([-1, 256, 300, 2147483647, -2147483648]) if cause == 8 else rnd.randint(0, 255)
    size, lent = rnd.choice([(0, 0), (481, channels), (1, channels + 1), (161, channels), (161, 161 * channels + 1), (480, 161 * channels), (-1, 0)])
    if cause == 8 and rnd.random() < 0.5:
        size, lent = rnd.choice([(1, channels), (161, 161 * channels)])
    return f"W {volume} {size} {'00000000' * lent}", cause


def refused_classroom(rnd, _):
    """A making within the classroom profile that is refused, and the number: whatever is wrong by the profile, the table's faults come first."""
    wrong = rnd.choice(["table", "both", "profile", "profile", "profile"])
    (_, made), cause = classroom_settings(rnd), 19
    if wrong != "table":
        made = outside_classroom(rnd, made)
    if wrong != "profile":
        made, cause = refused_settings(rnd, made)
    return "O " + " ".join(map(str, made)), cause


def with_forms(rnd, calls):
    """The calls with what goes to the Rust beside each, or None: half of the frames as sets of equal volumes, some through the spotter's entry, half of the controllers that may be made through the
    classroom profile so, and refused ones of each form between them, where the next call shows whether the state stayed."""
    channels = 1
    for command, cause in calls:
        makes = cause is None and command[0] == "N"
        if makes:
            channels = int(command.split(" ")[1])
        if rnd.random() < 0.045 and command[0] != "N":
            yield (*rnd.choice([refused_set, refused_spotters, refused_classroom])(rnd, channels), None)
        if makes and in_classroom(command.split(" ")[1:]) and rnd.random() < 0.5:
            yield "O" + command[1:], cause, command
        elif command[0] == "A" and rnd.random() < 0.5:
            volume = int(command.split(" ")[1])
            yield as_set(command, channels, [volume] * channels), cause, command
        elif command[0] == "A":
            yield some_spotters(rnd, command, channels), cause, command
        else:
            yield command, cause, command if cause is None else None


def session(rnd):
    """A controller and some calls on it: pairs of a command and the refusal's number, if the table refuses it. The waits of the classroom profile are at least 100, and end only in a long session."""
    classroom = rnd.random() < 0.25
    channels, made = (classroom_settings if classroom else settings)(rnd)
    out = []
    if rnd.random() < 0.3:
        bad, cause = refused_settings(rnd, made)
        out.append(("N " + " ".join(map(str, bad)), cause))
    out.append(("N " + " ".join(map(str, made)), None))
    volume = rnd.randint(0, 255)
    for _ in range(rnd.choice([20, 60, 150] + [400] * classroom)):
        kind = rnd.random()
        if kind < 0.50:
            if rnd.random() < 0.15:
                volume = rnd.choice([0, 255, rnd.randint(0, 255), max(0, min(255, volume + rnd.randint(-30, 30)))])
            out.append((frame(rnd, channels, volume), None))
        elif kind < 0.90:
            level = rnd.choice(["-", "-", f"{bits(rnd.uniform(-95, 35)):08x}", f"{bits(rnd.choice([-29.5, -29.75, -70.0, -30.0, -50.0])):08x}", "7fc00000", f"{rnd.getrandbits(32):08x}"])
            out.append((f"R {rnd.choice(['3f800000', '3f333333', '00000000', '7fc00000', f'{rnd.getrandbits(32):08x}'])} {level}", None))
        elif kind < 0.93:
            out.append(("I", None))
        elif kind < 0.97:
            out.append((f"C {rnd.choice([0, 1, 1])}", None))
        elif kind < 0.98:
            out.append(("D", None))
        else:
            bad = rnd.choice([-1, 256, 2147483647, -2147483648])
            if rnd.random() < 0.5:
                out.append((f"B {bad} {rnd.choice([0, 1, 3, 481])} {'00000000' * rnd.choice([0, 1, channels])}", 8))
            else:
                size, count = rnd.choice([(0, 0), (481, channels), (1, channels + 1), (2, channels), (0, channels), (-1, 0)])
                out.append((f"B {rnd.randint(0, 255)} {size} {'00000000' * count}", 9))
    return out


def run(program, commands):
    with tempfile.TemporaryFile() as text:
        text.write(("\n".join(commands) + "\n").encode())
        text.seek(0)
        out = subprocess.run([program], stdin=text, stdout=subprocess.PIPE, stderr=subprocess.DEVNULL).stdout
    return out.decode().split("\n")[:-1]


def one_spelling(word):
    value = int(word.group(0), 16)
    return "7fc00000" if value & 0x7FFFFFFF > 0x7F800000 else "00000000" if value == 0x80000000 else word.group(0)


def normal(text):
    return re.sub(r"(?<=:)[0-9a-f]{8}(?![0-9a-f])", one_spelling, text)


def port_state(answer):
    """The port writes every channel; the driver the first, and whether all are equal. A refused making has no state behind it."""
    if " r=" not in answer:
        return answer
    head, rings = answer.split(" r=")
    words = head.split(" m=")
    equal = len(set(words[1:])) == 1
    return f"{words[0]} e={int(equal)} m={words[1]} r={rings}"


def main():
    oracle, replay = sys.argv[1:3]
    wanted = int(sys.argv[3]) if len(sys.argv) > 3 else 2_000_000
    seed = int(sys.argv[4]) if len(sys.argv) > 4 else 1
    rnd, forms = random.Random(seed), random.Random(seed + 1)
    counts = dict(calls=0, controllers=0, classrooms=0, frames=0, sets=0, spotters=0, recommendations=0, none=0, initialises=0, switches=0, dumps=0, refused=0, refused_sets=0, refused_spotters=0, over_limits=0, refused_classrooms=0, outside_profile=0, statistics_panics=0, marked=0, marked_apart=0, left=0, differ=0)
    names = dict(A="frames", V="frames", W="frames", R="recommendations", I="initialises", C="switches", N="controllers", O="controllers")
    while counts["calls"] < wanted:
        commands = []
        while len(commands) < PIECE:
            commands += with_forms(forms, session(rnd))
        theirs = iter(run(oracle, [rust for _, _, rust in commands if rust is not None]))
        ours = run(replay, ["V"] + [command for command, _, _ in commands])[1:]
        assert len(ours) == len(commands), (len(ours), len(commands))
        apart, before, counted = False, None, Counts()
        for (command, cause, _), port in zip(commands, ours):
            port = port.split(" => ", 1)[1]
            by_words = counted.put(command, without(port))
            rust = normal(next(theirs)) if cause is None else None
            kind = command[0]
            apart = apart and (cause is not None or kind not in "NO")
            if apart:
                counts["left"] += 1
                continue
            counts["calls"] += 1
            if cause is not None:
                counts["refused"] += 1
                counts["refused_sets"] += kind == "V"
                counts["refused_spotters"] += kind == "W"
                counts["over_limits"] += cause == 18
                counts["refused_classrooms"] += kind == "O"
                counts["outside_profile"] += cause == 19
                fine = port == f"! {cause}" if kind in "NO" else port_state(normal(port)) == f"! {cause} {before}"
            else:
                counts[names.get(kind, "dumps")] += 1
                counts["classrooms"] += kind == "O"
                counts["sets"] += kind == "V"
                counts["spotters"] += kind == "W"
                near = port.endswith(" n")
                state = port_state(normal(port[:-2] if near else port))
                if rust.startswith("P"):
                    counts["statistics_panics"] += 1
                    rust = rust[1:]
                counts["none"] += rust.startswith("none")
                counts["marked"] += near
                same = without(state) == rust
                fine = same or near
                if near and not same:
                    counts["marked_apart"] += 1
                    apart = True
                if kind != "D":
                    before = state.split(" ", 1)[1]
            if not fine or port != by_words:
                counts["differ"] += 1
                if counts["differ"] <= 20:
                    print(f"{command[:200]}\n  the Rust {rust}\n  the port {port}\n  the counts {by_words}\n  the table {cause}")
                apart = True
    print(", ".join(f"{k} {v}" for k, v in counts.items()))
    sys.exit(counts["differ"] != 0)


if __name__ == "__main__":
    main()
