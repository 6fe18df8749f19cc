#!/usr/bin/env python3
"""Edits that a proof must refuse, those of the gate and many more: each makes a program or a definition wrong.

usage: edits.py [NAME ..]     from the repository's root; NAME is a crate, or CRATE/EDIT for one edit; all of them by default

Works in a copy of the tree: applies each edit of crates/NAME/must-fail and oracle/edits/NAME, asks `rt check` (which checks only what an edit touches), prints the fact that it is refused
for, and takes it back. An edit file is a sentence, and then lines `file:`, `old:` and `new:`. Exits with 1 if an edit is not refused, or is refused at no fact (wrong.py says what one is).
"""
import os
import sys
import tempfile

from wrong import check, copy_tree, in_short, refusal, replaced


def changes_of(folder, lines):
    """(path, old, new) of each replacement of an edit file."""
    path = old = None
    for line in lines:
        if line.startswith("file: "):
            path = folder + line[6:]
        elif line.startswith("old: "):
            old = line[5:]
        elif line.startswith("new:"):
            yield path, old, line[4:].removeprefix(" ")


def edits_of(root, name):
    """The edit files of a crate, the gate's first."""
    for folder in f"{root}/crates/{name}/must-fail", f"{root}/oracle/edits/{name}":
        if os.path.isdir(folder):
            yield from (f"{folder}/{edit}" for edit in sorted(os.listdir(folder)))


def verdict(proved, out):
    """Whether an edit is refused at a fact, and in what words."""
    if proved:
        return False, "NOT REFUSED"
    facts, others = refusal(out)
    if not facts:
        return False, "REFUSED AT NO FACT: " + in_short(others[0] if others else ("", "", out[-300:]))
    return True, "refused, " + in_short(facts[0])


def main():
    root = os.getcwd()
    asked = [name.split("/") for name in sys.argv[1:] or sorted(os.listdir("crates"))]
    copy_tree(tempfile.mkdtemp())
    failed = tried = 0
    for name, *only in asked:
        edits = [edit for edit in edits_of(root, name) if not only or os.path.basename(edit) == only[0] + ".edit"]
        if edits:
            proved, out = check(name)
            assert proved, (name, out[-3000:])
        for edit in edits:
            with open(edit) as f:
                changes = list(changes_of(f"crates/{name}/", f.read().split("\n")))
            with replaced(changes):
                at_fact, words = verdict(*check(name))
            print(f"{name}/{os.path.basename(edit)[:-5]}: {words}", flush=True)
            tried += 1
            failed += not at_fact
    print(f"{tried} edits, {tried - failed} refused at a fact")
    sys.exit(failed != 0)


main()
