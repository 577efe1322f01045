#!/usr/bin/env python3
"""steps_of_changes.py PROGRAM: whether `PROGRAM measure 300` takes as many steps (instructions, counted by valgrind)
for a message that changes a template whatever templates are in force, and as many for each of N messages that
announce one template each, whatever N. It tells what it counted, and answers 1 where they grow."""
import io
import re
import subprocess
import sys

from attack_files import message, templates

CHANGES = 400


def steps(program, octets):
    """The instructions that the program takes for a File."""
    words = ["valgrind", "--tool=callgrind", "--callgrind-out-file=/dev/null", program, "measure", "300"]
    ran = subprocess.run(words, input=octets, stdout=subprocess.DEVNULL, stderr=subprocess.PIPE)
    told = re.search(rb"Collected\s*:\s*(\d+)", ran.stderr)
    if ran.returncode or not told:
        sys.exit("steps: %s was not counted: %s" % (program, ran.stderr.decode(errors="replace")))
    return int(told[1])


def changed(in_force, changes):
    """A domain with so many templates, and messages that each change one of them."""
    out = io.BytesIO()
    out.write(message(0, templates(0, in_force, 1)))
    for n in range(changes):
        out.write(message(0, templates(n % in_force, 1, 2)))
    return out.getvalue()


def announced(count):
    """So many templates, one a message."""
    return b"".join(message(0, templates(n, 1, 1)) for n in range(count))


def main(program):
    a_change = [(steps(program, changed(n, CHANGES)) - steps(program, changed(n, 0))) / CHANGES for n in (400, 7200)]
    counts = [steps(program, announced(n)) for n in (800, 1600, 3200)]
    an_announcement = [(more - few) / n for few, more, n in zip(counts, counts[1:], (800, 1600))]
    print("steps of a change: %.0f with 400 templates in force, %.0f with 7,200" % tuple(a_change))
    print("steps of an announcement: %.0f of the 801st to the 1,600th, %.0f of the next 1,600" % tuple(an_announcement))
    return int(a_change[1] > 1.5 * a_change[0] or an_announcement[1] > 1.5 * an_announcement[0])


sys.exit(main(sys.argv[1]))
