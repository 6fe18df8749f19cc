#!/usr/bin/env python3
"""The answer to a line comes before the next line is sent.

usage: two_pipes.py PROGRAM TEXT ANSWERS

Sends the lines of TEXT to PROGRAM one by one through a pipe and waits for each answer in another, at most ten seconds; each must be the line of ANSWERS. The third of every three lines is sent in two parts,
with nothing answered between them. Then the input ends, and so must the program. Exits with 1 if an answer does not come or is another.
"""
import os
import select
import subprocess
import sys

PATIENCE = 10
PAUSE = 0.02


def answer(out):
    """The bytes up to a line feed, or what came of them."""
    text = b""
    while not text.endswith(b"\n"):
        if not select.select([out], [], [], PATIENCE)[0]:
            break
        more = os.read(out, 4096)
        if not more:
            break
        text += more
    return text


def main():
    program, text, answers = sys.argv[1:]
    with open(text, "rb") as f:
        lines = f.read().splitlines(keepends=True)
    with open(answers, "rb") as f:
        expected = f.read().splitlines(keepends=True)
    run = subprocess.Popen([program], stdin=subprocess.PIPE, stdout=subprocess.PIPE, bufsize=0)
    sent, out = run.stdin.fileno(), run.stdout.fileno()
    for i, (line, right) in enumerate(zip(lines, expected)):
        if not line.endswith(b"\n"):
            line += b"\n"
        half = len(line) // 2 if i % 3 == 2 else 0
        os.write(sent, line[:half])
        if half and select.select([out], [], [], PAUSE)[0]:
            sys.exit(f"line {i + 1}: answered before it ended")
        os.write(sent, line[half:])
        got = answer(out)
        if got != right:
            sys.exit(f"line {i + 1}: got {got!r}, expected {right!r}")
    run.stdin.close()
    left = run.stdout.read()
    run.wait(PATIENCE)
    if left:
        sys.exit(f"after the end: {left!r}")
    print(len(expected), "lines, each answered before the next was sent")


main()
