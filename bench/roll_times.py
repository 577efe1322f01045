#!/usr/bin/env python3
"""roll_times.py PROGRAM [SOURCES [KEYS [FOLDER]]]: times `flowvault roll` of so many segments (400), each with flows of
the same keys (10,000), beside `flowvault measure` of the same messages, three times in turn: what merging the sums of a
source into those of a job costs beside reading it. The archive is made in FOLDER (the system's for temporary files),
which is left empty."""
import os
import shutil
import struct
import subprocess
import sys
import tempfile

from feed_times import spent

MOST_RECORDS = 2500


def message(sets):
    return struct.pack(">HHIII", 10, 16 + len(sets), 0, 0, 7) + sets


def source(keys):
    """The messages of one segment: a record for each key, of a start in seconds, a protocol, octets and packets."""
    template = struct.pack(">HHHHHHHHHHHH", 2, 24, 256, 4, 150, 4, 4, 1, 1, 8, 2, 8)
    records = [struct.pack(">IBQQ", key // 256 * 300, key % 256, 1500, 10) for key in range(keys)]
    out = message(template)
    for at in range(0, keys, MOST_RECORDS):
        data = b"".join(records[at : at + MOST_RECORDS])
        out += message(struct.pack(">HH", 256, 4 + len(data)) + data)
    return out


def main():
    program = os.path.realpath(sys.argv[1])
    sources = int(sys.argv[2]) if len(sys.argv) > 2 else 400
    keys = int(sys.argv[3]) if len(sys.argv) > 3 else 10_000
    place = tempfile.mkdtemp(prefix="roll_times.", dir=sys.argv[4] if len(sys.argv) > 4 else None)
    try:
        one = source(keys)
        whole, folder = os.path.join(place, "whole.ipfix"), os.path.join(place, "archive")
        with open(whole, "wb") as to:
            for _ in range(sources):
                to.write(one)
        for _ in range(3):
            shutil.rmtree(folder, ignore_errors=True)
            os.mkdir(folder)
            limit = str(max(65_535, len(one)))
            subprocess.run([program, "create", folder, "300", "--limit", limit], check=True)
            spent([program, "feed", folder, whole, "--keep", "4294967295"])
            took, lines = spent([program, "roll", folder, "0"])
            with open(whole, "rb") as of:
                measured, rows = spent([program, "measure", "300"], stdin=of)
            times = "%.2f s, %.2f times the %.2f s of measure" % (took, took / measured, measured)
            print("%s, of %d keys: %s" % (lines[0], len(rows), times), flush=True)
    finally:
        shutil.rmtree(place)


if __name__ == "__main__":
    main()
