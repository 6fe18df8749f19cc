"""What the scripts share that hold stored answers to words: the lines of crates/replay/stdout, and the one word that says what is to be done."""
import sys


def stored_lines():
    """Each stored command with its answer; from the repository's root."""
    with open("crates/replay/stdout") as f:
        for line in f:
            yield line.rstrip("\n").split(" => ", 1)


def asked(usage, **actions):
    """Does what the one word names, and exits with 1 if that says that answers differ."""
    if len(sys.argv) != 2 or sys.argv[1] not in actions:
        sys.exit(usage)
    sys.exit(bool(actions[sys.argv[1]]()))
