#!/usr/bin/env python3
"""All turns of all near tests of drawn frames, by brute force, against the marks of the port.

usage: turns.py REPLAY [COUNT [SEED]]

Document 02 (iii): "a frame is marked exactly if putting a near comparison or ceiling on its other side, one or several at once, would change the frame's returned state. Near comparisons and ceilings
reached only after such a turn count too."

REPLAY is the program of crates/replay. It gets controllers of one to eight channels and of all three modes, and frames that bring comparisons and ceilings to and near their edges, in several channels
at once, with silence, clipped samples, users' volumes, waits and capture switches among them. Of a frame that is tested, the near tests of all channels, reached or not, are given both outcomes in every
combination. Each combination leads to a drop of all channels together, and that to a returned state, which is worked out here from the words of document 01 and from the state that the port wrote
before. The port must write the state that no turn returns, and a mark exactly if some combination returns another; a frame within the wait or with capture off has none. Prints what was compared, why
frames that reach a near test are not marked and how those that are marked come to another state, and each frame that differs; exits with 1 if one does. From the repository's root, once the driver's
files are restored (README.md).
"""
import collections
import itertools
import math
import random
import sys

from calls import run
from counts import clipped, parts
from levels import OFFSET, value
from marks import ADAPTIVE, EVENT, FIXED, Predictor, bits, drop, is_leaf, is_near, leaves, reached, reaches_near, record, rounded

PIECE = 20_000  # commands for one run of the program; each piece starts with a new controller
MOST_NEAR = 12  # a frame with more near tests has too many combinations: its mark is not tested
MAX_VOLUME = 255
SLACK = 25  # a volume that is farther from the last one is the user's

# ---- a controller's settings and state, as the port reads and writes them

Settings = collections.namedtuple("Settings", "channels least floor step ratio wait on")
Channel = collections.namedtuple("Channel", "ceiling last used check startup volume frames speech first")
State = collections.namedtuple("State", "volume applied used since controlling channels rings")
EMPTY = "0"  # a ring without records


def read_making(fields):
    """Those settings that a frame reads, and the predictor."""
    channels, least, floor, step, ratio, wait, on = fields[:7]
    settings = Settings(int(channels), int(least), int(floor), int(step), value(int(ratio, 16)), int(wait), int(on))
    return settings, Predictor([settings.channels, settings.on, *map(int, fields[12:])])


def read_state(text):
    """From `v=20 a=20 c=1 k=0 g=0 m=255,0,1,1,1,20,0,0,1 r=0/`, what stands behind the answer of a call."""
    volume, applied, used, since, controlling, *channels, rings = (word.split("=")[1] for word in text.split(" "))
    pending = None if applied == "-" else int(applied)
    return State(int(volume), pending, int(used), int(since), int(controlling), tuple(Channel(*map(int, m.split(","))) for m in channels), tuple(rings.split("/")[:-1]))


def spelled(state):
    """The same, written again."""
    pending = "-" if state.applied is None else state.applied
    channels = " ".join("m=" + ",".join(map(str, m)) for m in state.channels)
    return f"v={state.volume} a={pending} c={state.used} k={state.since} g={state.controlling} {channels} r={''.join(ring + '/' for ring in state.rings)}"


def spelled_ring(records, part):
    """How many records there are, and the newest, which is that of the part."""
    mean, peak = records[0]
    return f"{len(records)}:{bits(mean):08x}:{bits(peak):08x}:{clipped(part)}"


# ---- what a frame returns, by document 01

def aggregated(s, state):
    """The lowest volume of the channels, raised to the minimum if a volume above 0 is pending, and the first channel that has it."""
    volumes = [m.volume for m in state.channels]
    lowest = min(volumes)
    return state._replace(volume=max(lowest, s.least) if state.applied else lowest, controlling=volumes.index(lowest))


def with_volume_applied(s, state, volume):
    return aggregated(s, state._replace(applied=volume, channels=tuple(m._replace(volume=volume) for m in state.channels)))


def is_users(m):
    return abs(m.last - m.volume) > SLACK


def with_input_volume(m, new):
    """A channel with a new volume, held to the ceiling: a volume of 0 is left alone, and the user's is taken instead."""
    new = min(new, m.ceiling)
    if m.volume == 0:
        return m
    if is_users(m):
        return m._replace(ceiling=max(m.ceiling, m.volume), last=m.volume)
    return m if new == m.last else m._replace(last=new, volume=new)


def lowered(s, m, step):
    """A channel after clipping: the ceiling falls, and the volume too unless the last one is at the floor."""
    m = m._replace(ceiling=max(s.floor, m.ceiling - step))
    if m.last <= s.floor:
        return m
    return with_input_volume(m, max(s.floor, m.last - step))._replace(frames=0, speech=0, first=0)


def returned(s, state, clipped, to):
    """What a tested frame returns whose largest drop is `to`, 0 for none."""
    if not clipped and to == 0:
        return state
    channels = tuple(lowered(s, m, max(s.step, to)) for m in state.channels)
    return aggregated(s, state._replace(since=0, channels=channels, rings=(EMPTY,) * len(state.rings)))


def is_clipped(s, heard):
    """Whether the most clipped samples of a channel have a ratio above the threshold."""
    return rounded(max(map(clipped, heard)) / len(heard[0])) > s.ratio


# ---- turns

def near_tests(t):
    """How many tests of a tree are near, reached or not."""
    return 0 if is_leaf(t) else is_near(t) + near_tests(t[2]) + near_tests(t[3])


def turned_trees(t):
    """A tree with every combination of outcomes of its near tests, each with the number of turns; the first is without a turn."""
    if is_leaf(t):
        yield 0, t
        return
    outcome, apart, held, failed = t
    for (a, turned_held), (b, turned_failed) in itertools.product(turned_trees(held), turned_trees(failed)):
        yield a + b, (outcome, apart, turned_held, turned_failed)
        if is_near(t):
            yield a + b + 1, (not outcome, apart, turned_held, turned_failed)


def joined(ways):
    """The largest drop of all channels in every combination of their ways, each with the fewest turns that lead to it."""
    fewest = {}
    for way in itertools.product(*ways):
        to = max(to for _, to in way)
        fewest[to] = min(sum(turns for turns, _ in way), fewest.get(to, math.inf))
    return fewest


class Tested:
    """A tested frame: what its channels test, their ways (pairs of turns and drop), and the state that each drop of all channels returns."""

    def __init__(self, s, state, clipped, trees):
        self.s, self.state, self.trees = s, state, trees
        asked = state.volume, s.step, s.floor, MAX_VOLUME
        self.ways = [[(turns, drop(reached(turned), *asked)) for turns, turned in turned_trees(t)] for t in trees]
        self.fewest = joined(self.ways)
        self.states = {to: returned(s, state, clipped, to) for to in self.fewest}
        self.own = self.states[max(way[0][1] for way in self.ways)]
        self.others = [to for to in self.fewest if self.states[to] != self.own]

    def has_drops_apart(self):
        """Whether the turns of a channel change its drop."""
        return any(len({to for _, to in way}) > 1 for way in self.ways)

    def by_one_channel(self):
        """The drops that turns of a single channel lead to."""
        for k, way in enumerate(self.ways):
            rest = max((other[0][1] for other in self.ways[:k] + self.ways[k + 1 :]), default=0)
            yield from (max(to, rest) for _, to in way)

    def marked_kinds(self):
        """Whether the channels come out alike in all states, and how many turns another state takes: one, several of a channel, or several of several."""
        if all(self.states[to].channels == self.own.channels for to in self.others):
            yield "rings_alone"
        if min(self.fewest[to] for to in self.others) == 1:
            yield "one_turn"
        elif any(to in self.others for to in self.by_one_channel()):
            yield "turn_after_turn"
        else:
            yield "several_channels"

    def unmarked_kind(self):
        """Why the frame is not marked though a near test is reached."""
        if len(self.fewest) > 1:
            return self.alike_kind()
        if self.has_drops_apart():
            return "other_channel_drops_more"
        for t, way in zip(self.trees, self.ways):
            if len(set(leaves(t))) > 1:
                return self.one_drop_kind(way[0][1])
        return "no_drop_either_way"

    def one_drop_kind(self, to):
        """Why several ceilings ask a channel for one drop."""
        if to == self.state.volume - self.s.floor:
            return "drops_held_at_floor"
        return "drops_are_the_step" if to == self.s.step else "table_jumps"

    def alike_kind(self):
        """Why several drops return one state."""
        if max(self.fewest) <= self.s.step:
            return "clipped_anyway"
        m = self.state.channels[0]
        return "user_takes_over" if m.last > self.s.floor and is_users(m) else "volumes_at_floor"


# ---- following the port

class Followed:
    """A controller of the port: its settings, its predictor with the rings, and the state that was written last."""

    def __init__(self, command, answer):
        self.s, self.predictor = read_making(command.split(" ")[1:])
        self.after(answer)

    def after(self, answer):
        """The port's state after a call; rings that it emptied are empty."""
        self.state = read_state(answer.removesuffix(" n").split(" ", 1)[1])
        if EMPTY in self.state.rings:
            self.predictor.reset()

    def entered(self, state, heard):
        """With capture on every frame first enters the rings."""
        if not self.s.on:
            return state
        self.predictor.push(map(record, heard))
        return state._replace(rings=tuple(map(spelled_ring, self.predictor.rings, heard)))

    def framed(self, counts, kinds, command):
        """The state that a frame returns, and whether it is marked: None if that is not tested."""
        _, volume, samples = command.split(" ")
        state, heard = with_volume_applied(self.s, self.state, int(volume)), parts(samples, self.s.channels)
        if not state.used:
            counts["capture_off"] += 1
            return state, False
        state = self.entered(state, heard)
        if state.since < self.s.wait:
            counts["within_wait"] += 1
            return state._replace(since=state.since + 1), False
        return self.tested(counts, kinds, state, is_clipped(self.s, heard))

    def tested(self, counts, kinds, state, clipped):
        """The same of a frame that is asked about."""
        trees = [self.predictor.tree(channel, state.volume, self.s.floor) for channel in range(self.s.channels)]
        counts["tested"] += 1
        if sum(map(near_tests, trees)) > MOST_NEAR:
            counts["too_many"] += 1
            own = max(drop(reached(t), state.volume, self.s.step, self.s.floor, MAX_VOLUME) for t in trees)
            return returned(self.s, state, clipped, own), None
        frame = Tested(self.s, state, clipped, trees)
        near, marked = any(map(reaches_near, trees)), bool(frame.others)
        counts["reached_near"] += near
        counts["drops_apart"] += frame.has_drops_apart()
        counts["marked"] += marked
        # no frame is marked that was not before
        counts["differ"] += marked and not near
        if near:
            kinds.update(frame.marked_kinds() if marked else [frame.unmarked_kind()])
        return frame.own, marked


# ---- drawn controllers and frames

# window, reference, delay
WINDOWS = [(1, 1, 1)] * 6 + [(1, 2, 0), (1, 1, 2), (2, 2, 2), (1, 2, 1), (2, 1, 3), (3, 2, 3)]
# no ratio is above 1 or a not-a-number, every ratio above -1
RATIOS = ["3f800000"] * 4 + ["7fc00000", "3dcccccd", "3dcccccd", "00000000", "3f000000", "bf800000"]
THRESHOLDS = [-1000, -1000, 0, 0, 700, 3000, -1999, -3000, -20000, -20000, -6500]
# samples at the edge of clipping, and such as make a side that is never near
ODD = [32767.0, -32768.0, 32766.9, -32767.9, math.inf, -math.inf, math.nan]
FULL = OFFSET / 1000  # full scale, in dB
QUIET = -40  # where frames lie that are not silent, in dB below full scale, if the threshold is at silence

Drawn = collections.namedtuple("Drawn", "command channels floor mode windows edge margin")


def at_silence(rnd):
    """A threshold of event mode around the level of silence, and a margin around 0 or not."""
    return -OFFSET + rnd.randint(-9, 9), rnd.choice([rnd.randint(-9, 9), rnd.randint(-9, 9), 500, -500])


def controller(rnd):
    def either(*xs):
        return rnd.choice(xs)
    channels, mode, windows = either(1, 2, 2, 3, 4, rnd.randint(5, 8)), either(EVENT, FIXED, ADAPTIVE, ADAPTIVE, ADAPTIVE), either(*WINDOWS)
    floor, step = either(70, 70, 0, 200, 240, rnd.randint(0, 254)), either(15, 15, 1, 1, 40, 255, rnd.randint(1, 255))
    threshold, margin = either(*THRESHOLDS), either(3000, 0, 0, -2000, rnd.randint(-3000, 3000))
    if mode == EVENT and rnd.random() < 0.3:
        threshold, margin = at_silence(rnd)
    wait, on, update = either(*[0] * 6, 1, 2, 3, 7), either(*[1] * 30, 0), either(1, 3, 100)
    fields = [channels, either(20, 0, 100, 255), floor, step, either(*RATIOS), wait, on, -30, -50, update, "3f333333", "3f19999a", mode, *windows, threshold, margin]
    edge = threshold / 1000 if mode == EVENT else math.trunc(threshold / 1000)
    return Drawn("K " + " ".join(map(str, fields)), channels, floor, mode, windows, edge, margin / 1000)


def part(mean, crest, count):
    """Samples with a mean square and a peak above it, both in dB: one peak, and the rest alike."""
    mean = 10 ** (mean / 20)
    peak = mean * 10 ** (crest / 20)
    rest = math.sqrt(max(0.0, count * mean * mean - peak * peak) / max(1, count - 1))
    return [bits(peak)] + [bits(rest)] * (count - 1)


def beside(rnd, low, high):
    """A number of a range, and mostly one within 9 thousandths of 0, where an edge is."""
    return rnd.uniform(-0.009, 0.009) if low < 0 < high and rnd.random() < 0.7 else rnd.uniform(low, high)


# Three places for a channel: how far the window's peak lies above the threshold, and how far its crest factor below the reference's, in dB; no crest factor is above `most`.

def at_edges(rnd, c, most):
    """One or several tests near, often."""
    if c.mode == EVENT:
        return beside(rnd, -0.5, 4), beside(rnd, -2, 2) + c.margin
    # P above the threshold: at it, at a whole dB from 0 to 15, or anywhere
    whole = rnd.randint(max(0, c.edge), 15) - c.edge + beside(rnd, -1, 1)
    p = rnd.choice([beside(rnd, -1, 4), whole, whole, rnd.uniform(0, 20)])
    above = beside(rnd, max(-0.5, p - most), p + most)
    return above, p - above


def far_above(rnd, c, most):
    """A drop, if so many samples can have it."""
    above = rnd.uniform(0.1, 15)
    return above, rnd.uniform(0.1, 3) + c.margin if c.mode == EVENT else rnd.uniform(-above, most)


def far_below(rnd, c, most):
    """No drop."""
    return rnd.uniform(-9, -0.1), rnd.uniform(-most, most)


def pair(rnd, c, count, place):
    """The samples of a channel in the reference and in the window."""
    silent = c.edge < -80
    if rnd.random() < (0.7 if silent else 0.03):
        return [0] * count, [0] * count
    most = 10 * math.log10(count)
    above, more = place(rnd, c, most)
    more = max(-most, min(most, more))
    edge, crest = FULL + (QUIET if silent else c.edge), rnd.uniform(max(0, -more), min(most, most - more))
    # a reference below the threshold and not clipped leaves the rings as they are
    reference = min(edge, FULL) - rnd.uniform(0.5, 9) if rnd.random() < 0.95 else rnd.uniform(30, 95)
    return part(reference - crest - more, crest + more, count), part(edge + above - crest, crest, count)


def frames(rnd, c):
    """A reference in so many frames, and then a window, that both are in the rings: each channel at edges, far above or far below; sometimes all frames are alike."""
    count = rnd.choice([1, 2, 2, 2, 4, 8, 20])
    edges, above = rnd.choice([0.3, 0.6, 0.9]), rnd.choice([0, 0, 0.1, 0.6])
    places = [at_edges if rnd.random() < edges else far_above if rnd.random() < above else far_below for _ in range(c.channels)]
    references, windows = zip(*(pair(rnd, c, count, place) for place in places))
    if rnd.random() < 0.1:
        rnd.choice(windows)[0] = bits(rnd.choice(ODD))
    window, reference, delay = c.windows
    return [windows if rnd.random() < 0.1 else references] * max(1, reference + delay - window) + [windows] * window


def volume(rnd, c, last):
    """The volume that is applied: the last one, one around it or the floor, or any."""
    near_floor, near_last = c.floor + rnd.randint(-3, 25), last + rnd.randint(-40, 40)
    return max(0, min(MAX_VOLUME, rnd.choice([last, last, near_floor, near_last, MAX_VOLUME, rnd.randint(c.floor, MAX_VOLUME), rnd.randint(0, MAX_VOLUME)])))


def session(rnd):
    """A controller and calls on it."""
    c = controller(rnd)
    yield c.command
    recommended, last = rnd.choice([0, 0.2, 0.9]), rnd.randint(c.floor, MAX_VOLUME)
    for _ in range(rnd.choice([5, 15, 30])):
        last = volume(rnd, c, last)
        for heard in frames(rnd, c):
            yield f"A {last} " + "".join(f"{x:08x}" for words in heard for x in words)
        if rnd.random() < recommended:
            yield f"R 3f800000 {rnd.choice(['-', f'{bits(rnd.uniform(-90, 10)):08x}'])}"
        if rnd.random() < 0.2:
            yield rnd.choice(["I"] * 2 + ["C 0"] * 2 + ["C 1"] * 16)


def piece(rnd):
    """Commands, with all of the state behind each answer."""
    commands = ["V"]
    while len(commands) < PIECE:
        commands += session(rnd)
    return commands


def compared(counts, kinds, controller, command, answer):
    """Holds the answer to a frame against the words."""
    state, marked = controller.framed(counts, kinds, command)
    words, near = f"ok {spelled(state)}", answer.endswith(" n")
    counts["frames"] += 1
    if answer.removesuffix(" n") != words or marked not in (near, None):
        counts["differ"] += 1
        if counts["differ"] <= 20:
            print(f"{command[:200]}\n  the port  {answer}\n  the words {words}{' n' if marked else ''}")


def main():
    replay = sys.argv[1]
    wanted = int(sys.argv[2]) if len(sys.argv) > 2 else 300_000
    rnd = random.Random(int(sys.argv[3]) if len(sys.argv) > 3 else 1)
    counts = dict(frames=0, capture_off=0, within_wait=0, tested=0, too_many=0, reached_near=0, drops_apart=0, marked=0, differ=0)
    kinds = collections.Counter()
    while counts["frames"] < wanted:
        commands = piece(rnd)
        answers = run(replay, commands)
        assert len(answers) == len(commands)
        for command, line in list(zip(commands, answers))[1:]:
            answer = line.split(" => ", 1)[1]
            if command[0] == "K":
                controller = Followed(command, answer)
            elif command[0] == "A":
                compared(counts, kinds, controller, command, answer)
            controller.after(answer)
    print(", ".join(f"{k} {v}" for k, v in counts.items()))
    print(", ".join(f"{k} {v}" for k, v in sorted(kinds.items())))
    sys.exit(counts["differ"] != 0)


if __name__ == "__main__":
    main()
