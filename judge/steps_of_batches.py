#!/usr/bin/env python3
"""steps_of_batches.py PROGRAM: whether `PROGRAM feed` takes as many steps (instructions, counted by valgrind) for a
message without templates whatever templates are in force, in batches of 64, and what of them `append_batch` takes
without the calls of its disk, beside `PROGRAM measure` of the same messages. It tells what it counted, and answers 1
where 7,200 templates take more than 1.1 times the steps of one, or `append_batch` more than 1.3 times those of
`measure`."""
import os
import re
import struct
import subprocess
import sys
import tempfile

from attack_files import message, templates

FEW, MANY = 3200, 6400
DISK = ("FolderDiskDisk::write_at", "FolderDiskDisk::sync")


def in_force(count):
    """A template of a start, a protocol, octets and packets, and so many in all, the others of one field."""
    fields = struct.pack(">HHHHHHHHHH", 256, 4, 150, 4, 4, 1, 1, 4, 2, 4)
    first = message(7, struct.pack(">HH", 2, 4 + len(fields)) + fields)
    return first + (message(7, templates(1, count - 1, 1)) if count > 1 else b"")


def data(count):
    """So many messages of 72 octets, each with four records."""
    record = struct.pack(">IBII", 1_700_000_000, 6, 1500, 10)
    return message(7, struct.pack(">HH", 256, 56) + record * 4) * count


def counted(words, into, octets=b""):
    """Runs these words under valgrind, with its counts in a file: how many instructions it took."""
    words = ["valgrind", "--tool=callgrind", "--callgrind-out-file=" + into, *words]
    ran = subprocess.run(words, input=octets, stdout=subprocess.DEVNULL, stderr=subprocess.PIPE)
    found = re.search(rb"Collected\s*:\s*(\d+)", ran.stderr)
    if ran.returncode or not found:
        sys.exit("batches: %s was not counted: %s" % (words[3], ran.stderr.decode(errors="replace")))
    return int(found[1])


def within(counts, name):
    """The instructions that a function took, with what it calls, by a file of counts."""
    words = ["callgrind_annotate", "--inclusive=yes", "--threshold=100", counts]
    text = subprocess.run(words, stdout=subprocess.PIPE, text=True, check=True).stdout
    found = re.search(r"^\s*([\d,]+) \([^)]*\)\s+\S*%s\b" % re.escape(name), text, re.MULTILINE)
    return int(found[1].replace(",", "")) if found else sys.exit("batches: %s was not counted" % name)


def fed(program, place, count, messages):
    """What feeding so many messages takes where so many templates are in force: in all, and by `append_batch` alone."""
    folder, before, after = (os.path.join(place, it) for it in ("folder", "templates", "messages"))
    os.makedirs(folder)
    for path, octets in ((before, in_force(count)), (after, data(messages))):
        with open(path, "wb") as file:
            file.write(octets)
    subprocess.run([program, "create", folder, "300", "--limit", "16777216"], check=True)
    subprocess.run([program, "feed", folder, before], stdout=subprocess.DEVNULL, check=True)
    counts = os.path.join(place, "counts")
    steps = counted([program, "feed", folder, after], counts)
    own = within(counts, "flow_archive::archive::Archive::append_batch") - sum(within(counts, it) for it in DISK)
    return steps, own


def a_message(program, count):
    """What one message takes, as `fed` has it."""
    found = []
    for messages in (FEW, MANY):
        with tempfile.TemporaryDirectory() as place:
            found.append(fed(program, place, count, messages))
    return [(many - few) / (MANY - FEW) for few, many in zip(*found)]


def main(program):
    program = os.path.abspath(program)
    (one, own), (many, _) = a_message(program, 1), a_message(program, 7200)
    few, most = (counted([program, "measure", "300"], os.devnull, in_force(1) + data(n)) for n in (FEW, MANY))
    measured = (most - few) / (MANY - FEW)
    print("batches: a message takes %.0f steps with 1 template in force, %.0f with 7,200" % (one, many))
    print("batches: append_batch takes %.0f of them without its disk, measure %.0f" % (own, measured))
    return int(many > 1.1 * one or own > 1.3 * measured)


if __name__ == "__main__":
    sys.exit(main(sys.argv[1]))
