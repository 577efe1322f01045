#!/usr/bin/env python3
"""steps_of_openings.py PROGRAM: how many steps (instructions, counted by valgrind) an opening (`PROGRAM check`) takes
for more messages in sealed segments, beside `PROGRAM measure` of the same messages, of Files of bench/generate.py. It
prints what it counted, and ends with status 1 where that is more than 0.75 times as many."""
import os
import subprocess
import sys
import tempfile

from steps_of_batches import counted

GENERATE = os.path.join(os.path.dirname(os.path.realpath(__file__)), "..", "bench", "generate.py")
FEW, MANY = 4_000_000, 12_000_000
MOST = 0.75


def steps(program, octets):
    """What an opening takes whose segments have so many octets of messages, and what `measure` of these takes."""
    whole = subprocess.run([sys.executable, GENERATE, str(octets)], stdout=subprocess.PIPE, check=True).stdout
    with tempfile.TemporaryDirectory() as place:
        folder, path = os.path.join(place, "folder"), os.path.join(place, "whole")
        os.makedirs(folder)
        with open(path, "wb") as file:
            file.write(whole)
        subprocess.run([program, "create", folder, "300"], check=True)
        subprocess.run([program, "feed", folder, path, "--keep", "4294967295"], stdout=subprocess.DEVNULL, check=True)
        return (counted([program, "check", folder], os.devnull),
                counted([program, "measure", "300"], os.devnull, whole))


def main(program):
    program = os.path.abspath(program)
    few, many = (steps(program, octets) for octets in (FEW, MANY))
    opening, measure = (of_many - of_few for of_few, of_many in zip(few, many))
    print("openings: %d octets more take %d steps, `measure` of them %d, %.2f of it" % (
        MANY - FEW, opening, measure, opening / measure))
    return int(opening > MOST * measure)


if __name__ == "__main__":
    sys.exit(main(sys.argv[1]))
