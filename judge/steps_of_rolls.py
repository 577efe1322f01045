#!/usr/bin/env python3
"""steps_of_rolls.py PROGRAM: how many steps (instructions, counted by valgrind) `PROGRAM roll` takes for one more segment
whose keys are all in the sums already, its opening and its removal with it, beside `PROGRAM measure` of the same
messages. It tells what it counted, and answers 1 where that is more than twice as many."""
import os
import subprocess
import sys
import tempfile

sys.path.insert(0, os.path.join(os.path.dirname(os.path.realpath(__file__)), "..", "bench"))

from roll_times import source
from steps_of_batches import counted

FEW, MANY = 8, 16
KEYS = 10_000


def rolled(program, count):
    """What a roll of so many segments takes."""
    one = source(KEYS)
    with tempfile.TemporaryDirectory() as place:
        folder, whole = os.path.join(place, "folder"), os.path.join(place, "whole")
        os.makedirs(folder)
        with open(whole, "wb") as file:
            file.write(one * count)
        subprocess.run([program, "create", folder, "300", "--limit", str(max(65_535, len(one)))], check=True)
        subprocess.run([program, "feed", folder, whole, "--keep", "4294967295"], stdout=subprocess.DEVNULL, check=True)
        return counted([program, "roll", folder, "0"], os.devnull)


def measured(program, count):
    """What `measure` of the messages of so many segments takes."""
    return counted([program, "measure", "300"], os.devnull, source(KEYS) * count)


def main(program):
    program = os.path.abspath(program)
    roll, measure = ((it(program, MANY) - it(program, FEW)) / (MANY - FEW) for it in (rolled, measured))
    print("rolls: a segment of %d keys takes %.0f steps, %.0f of measure" % (KEYS, roll, measure))
    return int(roll > 2 * measure)


if __name__ == "__main__":
    sys.exit(main(sys.argv[1]))
