#!/usr/bin/env python3
"""Searches for two pasts that can be told apart: two controllers with equal settings, each with a past of its own, get the same lead-in and then the same calls.

usage: two_pasts.py PROGRAM [PAIRS [SEED [FEWER [WORDS]]]]

PROGRAM is the driver over the unchanged Rust (`probe` of rust/) or the program of crates/replay. The lead-in is that of document 01: capture switched on; as many quiet frames as it asks for,
with recommendations and initialises between them; an initialise; a quiet frame with a positive volume and its recommendation. With FEWER there are so many quiet frames less, and pairs that are told
apart are to be expected. The port's records have their counts of clipped samples, which are compared too (document 02 (xi)). WORDS are for the program of crates/replay alone. With `modes` each pair
has a predictor of its own, of any mode, on or off, and the lead-in is that of document 02 (iv). With `sets` most frames, in the pasts, in the lead-in and after it, have a volume for each channel
(document 02 (xiv)), and the closing quiet frame has positive volumes that differ. With `zero` as well one of these is 0, where there are several channels, and pairs that are told apart are to be
expected. With `spotter` half of the frames that fit it go through the word spotter's entry (document 02 (viii)), and frames that do not, which it refuses, come between the calls everywhere. With
`classroom` the controllers are made through the classroom profile (document 02 (xii)), with any clipped-ratio threshold that it takes; with `modes`, for which `O` has no fields, by `K`, from settings
within the profile. Prints how many calls after the lead-in were compared, and how many pairs were told apart, with `modes` of each mode; exits with 1 if there is one that is not to be expected.
"""
import random
import struct
import sys

from calls import as_set, bits, classroom_settings, frame, normal, over_limits, run, settings, some_spotters

WAIT = 5  # the place of clipped_wait_frames in the command N
SHORT_WAITS = [100, 100, 101, 130]  # of those that the classroom profile takes


class Base:
    """The base's predictor, and what document 01 asks of its lead-in: samples from -29,000 to 29,000, and frames as many as the larger of 14 and the clipping wait plus 4."""
    mode = 1
    command, fields = "N", []
    loudest = 29000.0

    def frames(self, wait):
        return max(14, wait + 4)


class Classroom(Base):
    """The base's predictor, in a controller that is made through the classroom profile."""
    command = "O"


def rounded(x):
    """The next 32-bit float below a number above 0, or the one that it is."""
    y = bits(x)
    return struct.unpack("<f", struct.pack("<I", y - (struct.unpack("<f", struct.pack("<I", y))[0] > x)))[0]


class Any:
    """A predictor of any mode that a making takes, and what document 02 (iv) asks: no clipped sample, no level above the threshold that the mode compares with, and frames as many as the larger of
    window - 1 + delay + reference and clipping wait + window - 1."""
    command = "K"

    def __init__(self, rnd):
        self.mode, self.window = rnd.randint(0, 2), rnd.choice([1, 1, 2, 3, 5, 9])
        self.reference, self.delay = rnd.choice([1, 2, 3, 5, 8]), rnd.choice([0, 1, 2, 5, 7])
        self.delay = max(self.delay, self.window + 1 - self.reference)
        threshold, margin = rnd.choice([-1000, -1000, -1999, -2500, -500, 0, 700, -6000, -20000, rnd.randint(-90000, 9000)]), rnd.choice([3000, 1000, 0, -4000, rnd.randint(-9000, 9000)])
        self.fields = [self.mode, self.window, self.reference, self.delay, threshold, margin]
        whole = abs(threshold) // 1000 * 1000 * (1 if threshold > 0 else -1)
        compared = threshold if self.mode == 0 else whole
        # two thousandths below it, since a level is within one of the exact one, and no sample is clipped
        self.loudest = rounded(min(32766.5, 10 ** ((compared + 90310 - 2) / 20000)))

    def frames(self, wait):
        return max(self.window - 1 + self.delay + self.reference, wait + self.window - 1)


def quiet(rnd, channels, volume, predictor):
    """Every sample is a number up to the loudest that is quiet."""
    size = rnd.choice([1, 2, 3, 5, 8, 160])
    loud = predictor.loudest * rnd.choice([0.0, 0.003, 0.7, 1.0])
    return f"A {volume} " + "".join(f"{bits(rnd.choice([-loud, loud, rnd.uniform(-loud, loud)])):08x}" for _ in range(size * channels))


def recommendation(rnd):
    level = rnd.choice(["-", f"{bits(rnd.uniform(-95, 35)):08x}", "7fc00000"])
    return f"R {rnd.choice(['3f800000', '3f333333', '00000000'])} {level}"


def calls(rnd, channels, count):
    """Any calls."""
    out = []
    for _ in range(count):
        kind = rnd.random()
        if kind < 0.55:
            out.append(frame(rnd, channels, rnd.randint(0, 255)))
        elif kind < 0.9:
            out.append(recommendation(rnd))
        else:
            out.append(rnd.choice(["I", "C 0", "C 1"]))
    return out


def lead_in(rnd, channels, frames, predictor):
    out = ["C 1"]
    while frames > 0:
        if rnd.random() < 0.3:
            out.append(rnd.choice([recommendation(rnd), recommendation(rnd), "I", "C 1"]))
        else:
            out.append(quiet(rnd, channels, rnd.randint(0, 255), predictor))
            frames -= 1
    return out + ["I", quiet(rnd, channels, rnd.randint(1, 255), predictor), recommendation(rnd)]


def spread(rnd, channels, commands):
    """Most frames with a volume for each channel."""
    def drawn():
        return [rnd.randint(0, 255) for _ in range(channels)]
    return [as_set(c, channels, drawn()) if c[0] == "A" and rnd.random() < 0.7 else c for c in commands]


def closing(rnd, channels, command, zero):
    """The closing quiet frame with positive volumes that differ; or one of several is 0."""
    volumes = rnd.sample(range(1, 256), channels)
    if zero and channels > 1:
        volumes[rnd.randrange(channels)] = 0
    return as_set(command, channels, volumes)


def narrowed(rnd, channels, commands):
    """Half of the frames that fit the word spotter's entry through it, and frames that it refuses between the calls."""
    out = []
    for c in commands:
        if rnd.random() < 0.1:
            out.append(over_limits(rnd, channels))
        out.append(some_spotters(rnd, c, channels) if c[0] == "A" else c)
    return out


def drawn_settings(rnd, words):
    """The settings of a pair. The lead-in is as long as the clipping wait, which is a short one."""
    if "classroom" in words:
        channels, made = classroom_settings(rnd)
        made[WAIT] = rnd.choice(SHORT_WAITS)
    else:
        channels, made = settings(rnd)
        made[4] = rnd.choice(["3dcccccd", "00000000", "3f000000"])  # a clipped ratio of zero or more
        made[WAIT] = rnd.choice([0, 1, 3, 5, 12, 30])
    return channels, made


def predictor_of(rnd, words):
    """The predictor of a pair, and the line that makes a controller with it."""
    if "modes" in words:
        return Any(rnd)
    return Classroom() if "classroom" in words else Base()


def pair(rnd, fewer, predictor, words):
    """The commands of a pair, and how many of the last of each half are compared."""
    channels, made = drawn_settings(rnd, words)
    before = lead_in(rnd, channels, predictor.frames(made[WAIT]) - fewer, predictor)
    after = [c for call in calls(rnd, channels, 30) for c in ([call, "D"] if rnd.random() < 0.3 else [call])]
    making = " ".join(map(str, [predictor.command, *made, *predictor.fields]))
    pasts = [calls(rnd, channels, rnd.choice([0, 3, 20, 60])) for _ in range(2)]
    if "sets" in words:
        *body, last, heard = before
        before = spread(rnd, channels, body) + [closing(rnd, channels, last, "zero" in words), heard]
        after, pasts = spread(rnd, channels, after), [spread(rnd, channels, past) for past in pasts]
    if "spotter" in words:
        before, after, *pasts = [narrowed(rnd, channels, part) for part in (before, after, *pasts)]
    return [[making] + past + before + after for past in pasts], len(after)


def answer(line):
    """What demand 3 calls an answer: of the driver's line, which has all of the state, the reply, the controller's volume and the rings."""
    if " => " in line:
        return line.split(" => ", 1)[1]
    words = line.split(" ")
    return " ".join([words[0]] + [w for w in words if w[:2] in ("v=", "r=")])


def main():
    program = sys.argv[1]
    pairs, seed, fewer = (int(x) for x in (sys.argv[2:5] + ["2000", "7", "0"][len(sys.argv) - 2:])[:3])
    words = sys.argv[5:]
    rnd = random.Random(seed)
    compared, apart, of_mode = 0, [0] * 3, [0] * 3
    for _ in range(pairs):
        predictor = predictor_of(rnd, words)
        halves, count = pair(rnd, fewer, predictor, words)
        said = [run(program, half) for half in halves]
        assert all(answer(lines[0]).startswith("ok") for lines in said), halves[0][0]  # a refused making would leave both halves the same controller
        answers = [[answer(normal(line)) for line in lines[-count:]] for lines in said]
        assert len(answers[0]) == len(answers[1]) == count
        compared += count
        of_mode[predictor.mode] += 1
        apart[predictor.mode] += answers[0] != answers[1]
    each = "".join(f", {name} {told} of {count}" for name, told, count in zip(("event", "adaptive", "fixed"), apart, of_mode)) if "modes" in words else ""
    print(f"pairs {pairs}, calls compared {compared}, told apart {sum(apart)}{each}")
    sys.exit(sum(apart) != 0 and fewer == 0 and "zero" not in words)


if __name__ == "__main__":
    main()
