#!/usr/bin/env python3
"""Times the bare volume step beside the original's.

usage: steps.py [ROUNDS]     from the repository's root, once the driver's files are restored (README.md)

The library has no call for a step alone, so a crate that hands `gain_map::walk_from` to C is added in a copy of the tree and proved there. Some half a minute.
"""
import os
import subprocess
import sys
import tempfile

from wrong import copy_tree

STEP = """// The bare volume step as a C function: it promises nothing but to return.
#[no_mangle]
pub extern "C" fn volume_step(wanted: i32, volume: u8, min: u8, max: u8) -> u8
{
    gain_map::walk_from(wanted, volume, min, max)
}
"""


def main():
    steps = os.path.abspath("oracle/steps")
    with tempfile.TemporaryDirectory() as root:
        copy_tree(root)
        os.makedirs("crates/volume_steps/src")
        with open("crates/volume_steps/src/lib.rt", "w") as f:
            f.write(STEP)
        with open("crates.txt", "a") as f:
            f.write("volume_steps: numbers gain_map\n")
        subprocess.run(["rt", "staticlib", "volume_steps"], check=True, capture_output=True)
        folder = {**os.environ, "VOLUME_STEPS_DIR": f"{root}/target/staticlib"}
        subprocess.run(["cargo", "run", "--offline", "-q", "--profile", "fast", "--", *sys.argv[1:]], cwd=steps, env=folder, check=True)


main()
