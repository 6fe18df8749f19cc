#!/usr/bin/env python3
"""Frame lines: those that the gate runs beside document 01's example, and many for a measurement.

    lines.py gather CRATE DIR ..    writes CRATE/stdin and CRATE/stdout from the supplied frame-line files of the folders; one that has answers alone gives them in place of those of the folder before
    lines.py many LINES SEED     writes LINES lines of 480 samples to standard output
    lines.py measure TEXT PROGRAM ..   runs each PROGRAM on TEXT, in turns, 15 times: the least and the most seconds

What `gather` writes: the bytes of each file and behind them a byte 28, which no file has (it is ASCII's separator of files); and the expected answers of all files one after another, as they were supplied.
A file with a line for which several answers are supplied, one for each choice of levels that is allowed, is left out. Answers NAME.old.exp are from before request (iii), and are passed over; NAME.x.exp
are those after request (x), and are taken in place of NAME.exp.
"""
import os
import random
import struct
import subprocess
import sys
import time

SEPARATOR = bytes([28])


def texts_in(folder):
    """The names of a folder's files of frame lines."""
    return [name.removesuffix(".in") for name in os.listdir(folder) if name.endswith(".in") and not name.endswith(".replay.in")]


def answers_in(folder):
    """The path of the answers to each name."""
    names = [name.removesuffix(".exp") for name in os.listdir(folder) if name.endswith(".exp") and not name.endswith(".old.exp")]
    return {name.removesuffix(".x"): f"{folder}/{name}.exp" for name in sorted(names, key=lambda name: name.endswith(".x"))}


def supplied(folders):
    """The paths of each file of frame lines and of its answers, in order of their names; equal names, of several folders, in order of these."""
    texts, answers, place = {}, {}, 0
    for folder in folders:
        names = texts_in(folder)
        place += bool(names)
        texts.update({(name, place): f"{folder}/{name}.in" for name in names})
        answers.update({(name, place): path for name, path in answers_in(folder).items()})
    return [(texts[name], answers[name]) for name in sorted(texts)]


def gather(crate, folders):
    files = lines = marks = 0
    with open(crate + "/stdin", "wb") as texts, open(crate + "/stdout", "wb") as answers:
        for name, answers_name in supplied(folders):
            with open(name, "rb") as f:
                text = f.read()
            with open(answers_name, "rb") as f:
                expected = f.read()
            if b"/" not in expected:
                assert SEPARATOR not in text, name
                texts.write(text + SEPARATOR)
                answers.write(expected)
                files, lines, marks = files + 1, lines + expected.count(b"\n"), marks + expected.count(b" n\n")
    print(files, "files,", lines, "lines,", marks, "marked")


def many(count, seed):
    """Speech that swells and fades, clipped now and then; the applied volume wanders, so that the user moves it too."""
    draw = random.Random(seed)
    volume = 128
    for i in range(count):
        size = draw.choice((300, 3000, 12000, 30000, 36000 if draw.random() < 0.05 else 8000))
        samples = [max(-32768, min(32767, int(draw.gauss(0, 0.4) * size))) & 0xFFFF for _ in range(480)]
        if draw.random() < 0.02:
            volume = draw.randrange(20, 256)
        probability = struct.pack(">f", draw.random()).hex()
        level = "-" if draw.random() < 0.3 else struct.pack(">f", draw.uniform(-80, 0)).hex()
        print("%02x %s %s %s" % (volume, probability, level, "".join("%04x" % s for s in samples)))


def measure(text, programs):
    taken = {p: [] for p in programs}
    for _ in range(15):
        for p in programs:
            with open(text, "rb") as f:
                start = time.monotonic()
                subprocess.run([p], stdin=f, stdout=subprocess.DEVNULL, check=True)
                taken[p].append(time.monotonic() - start)
    for p in programs:
        print(f"{min(taken[p]):.3f} to {max(taken[p]):.3f} s: {p}")


def main():
    if len(sys.argv) > 3 and sys.argv[1] == "gather":
        gather(sys.argv[2], sys.argv[3:])
    elif len(sys.argv) == 4 and sys.argv[1] == "many":
        many(int(sys.argv[2]), int(sys.argv[3]))
    elif len(sys.argv) > 3 and sys.argv[1] == "measure":
        measure(sys.argv[2], sys.argv[3:])
    else:
        sys.exit(__doc__)


main()
