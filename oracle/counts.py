#!/usr/bin/env python3
"""The clipped samples that records keep, from the words of document 02 (xi), over the lines of crates/replay.

usage: counts.py put       reads lines `COMMAND => ANSWER` as they are without counts, the Rust's and those from before request (xi), and writes them with counts; a push without one gets one, drawn
       counts.py stored    every count and total in crates/replay/stdout must be that of the words; from the repository's root

"Each ring record gains the number of clipped samples of that frame and channel, and metrics give their total over the items"; clipped is 32767 or above, or -32768 or below, and no not-a-number is. The
samples are those of the commands. Of the answers only that is read which has no count in it: what was refused, and how many records a ring shows, which are those of the frames that entered it last.
Exits with 1 if an answer differs.
"""
import random
import re
import sys

from levels import value
from stored import asked, stored_lines

MOST = 480  # the most samples that a channel has in a frame, and so the most that a record counts
CAPACITY = 64
# a ring that has records: its size, and the words of each record that is shown, the newest last
RING = re.compile(r"\d+(?::[0-9a-f]+)+")


def clipped(samples):
    """How many samples, in bits, are clipped."""
    return sum(x >= 32767 or x <= -32768 for x in map(value, samples))


def parts(samples, channels):
    """The bits of each channel's samples, of which a frame has as many in all channels."""
    words = [int(samples[k : k + 8], 16) for k in range(0, len(samples), 8)]
    size = len(words) // channels
    return [words[k : k + size] for k in range(0, len(words), size)]


# ---- the rings of an answer

def ring_without(ring):
    size, *words = ring.split(":")
    return ":".join([size, *(word for k, word in enumerate(words) if k % 3 < 2)])


def ring_with(ring, counts):
    """With the counts, which are given from the newest on."""
    size, *words = ring.split(":")
    shown = list(zip(words[::2], words[1::2]))
    return ":".join([size, *(f"{mean}:{peak}:{count}" for (mean, peak), count in zip(shown, counts[: len(shown)][::-1]))])


def without(answer):
    """An answer that shows records as `mean:peak:count`, without the counts: what is compared with the Rust."""
    return RING.sub(lambda ring: ring_without(ring[0]), answer)


# ---- what is followed from line to line

class Ring:
    """The counts of a ring, newest first."""

    def __init__(self, capacity):
        self.capacity, self.counts = capacity, []

    def push(self, count):
        self.counts = [count, *self.counts][: self.capacity]

    def pushed(self, count):
        """What a push answers."""
        if not 0 <= count <= MOST:
            return "! 11"
        self.push(count)
        return str(len(self.counts))

    def with_total(self, delay, items, answer):
        """The answer to a line `m`."""
        if answer == "none" or answer.startswith("!"):
            return answer
        return f"{answer} {sum(self.counts[delay : delay + items])}"


class Rings:
    """The rings of a predictor or of a controller, as far as frames enter them: if it is on, and while capture is. When they are emptied is read from the answers."""

    def __init__(self, channels, on):
        self.rings, self.on, self.used = [Ring(CAPACITY) for _ in range(channels)], on, True

    def enter(self, samples):
        if self.on and self.used:
            for ring, part in zip(self.rings, parts(samples, len(self.rings))):
                ring.push(clipped(part))

    def with_counts(self, answer):
        """All of them show records or none does, since a frame enters all, and all are emptied at once."""
        rings = iter(self.rings)
        return RING.sub(lambda shown: ring_with(shown[0], next(rings).counts), answer)


class Counts:
    """A ring, a predictor and a controller, followed over the lines of replay."""

    def __init__(self):
        self.ring, self.predictor, self.controller = Ring(1), Rings(1, False), Rings(1, True)

    def put(self, command, answer):
        """The answer with its counts, from the one without."""
        kind, *fields = command.split(" ")
        if kind in "Ggzm":
            return self.of_ring(kind, fields, answer)
        if kind in "PF":
            self.of_predictor(kind, fields, answer.startswith("!"))
            return self.predictor.with_counts(answer)
        self.of_controller(kind, fields, answer.startswith("!"))
        return self.controller.with_counts(answer)

    def of_ring(self, kind, fields, answer):
        if kind == "g":
            return self.ring.pushed(int(fields[2]))
        if kind == "m":
            return self.ring.with_total(int(fields[0]), int(fields[1]), answer)
        if kind == "z":
            self.ring = Ring(self.ring.capacity)
        elif not answer.startswith("!"):
            self.ring = Ring(int(answer))
        return answer

    def of_predictor(self, kind, fields, refused):
        if refused:
            return
        if kind == "P":
            self.predictor = Rings(int(fields[0]), fields[1] == "1")
        else:
            self.predictor.enter(fields[-1])

    def of_controller(self, kind, fields, refused):
        if refused:
            return
        if kind in "NKO":
            self.controller = Rings(int(fields[0]), fields[6] == "1")
        elif kind in "ABVW" and fields:
            self.controller.enter(fields[-1])
        elif kind in "IC":
            self.controller.used = kind == "I" or fields[0] == "1"


# ---- lines

def put():
    rnd, counts = random.Random(11), Counts()
    for line in sys.stdin:
        command, answer = line.rstrip("\n").split(" => ", 1)
        if re.fullmatch(r"g \S+ \S+", command):
            command += f" {rnd.choice([0, 1, MOST, rnd.randint(0, MOST)])}"
        print(f"{command} => {counts.put(command, answer)}")


def stored():
    """How many counts and totals are stored, and how many answers differ from the words."""
    counts, records, totals, differ = Counts(), 0, 0, 0
    for command, answer in stored_lines():
        is_total = command[0] == "m" and answer.count(" ") == 2 and not answer.startswith("!")
        wanted = counts.put(command, answer.rsplit(" ", 1)[0] if is_total else without(answer))
        totals += is_total
        records += sum(ring.count(":") // 3 for ring in RING.findall(answer))
        if answer != wanted:
            differ += 1
            print(f"{command} => {answer}, by the words {wanted}")
    print(f"{records} records, {totals} totals, {differ} differ")
    return differ


if __name__ == "__main__":
    asked(__doc__, put=put, stored=stored)
