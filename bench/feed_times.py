#!/usr/bin/env python3
"""feed_times.py PROGRAM [OCTETS [FOLDER]]: times `flowvault feed --keep 8` on a File of bench/generate.py of so many
octets (300 MB), as one File and as eight of an eighth of its messages each, and bench/feed_floor.c, which makes the
same writes and syncs as one File without rolling; each three times, in turn. Then, by segment limit, what `roll` takes
for each source: as long an append can wait for a turn of rolling. The archives are made in FOLDER (the system's for
temporary files), which is left empty."""
import os
import shutil
import subprocess
import sys
import tempfile
import time

HERE = os.path.dirname(os.path.realpath(__file__))
FLOOR_LIMIT = 1 << 20


def spent(words, **more):
    """The seconds that a command takes, and its lines."""
    begun = time.perf_counter()
    ran = subprocess.run(words, stdout=subprocess.PIPE, check=True, text=True, **more)
    return time.perf_counter() - begun, ran.stdout.splitlines()


def in_eight(octets):
    """The messages of a File in eight parts, one behind the other."""
    parts, at, share = [[] for _ in range(8)], 0, len(octets) / 8
    while at < len(octets):
        length = int.from_bytes(octets[at + 2 : at + 4], "big")
        parts[min(7, int(at / share))].append(octets[at : at + length])
        at += length
    return [b"".join(part) for part in parts]


def main():
    program = os.path.realpath(sys.argv[1])
    octets = int(sys.argv[2]) if len(sys.argv) > 2 else 300_000_000
    place = tempfile.mkdtemp(prefix="feed_times.", dir=sys.argv[3] if len(sys.argv) > 3 else None)
    try:
        whole = os.path.join(place, "whole.ipfix")
        with open(whole, "wb") as to:
            subprocess.run([sys.executable, HERE + "/generate.py", str(octets)], stdout=to, check=True)
        with open(whole, "rb") as of:
            parts = in_eight(of.read())
        files = [os.path.join(place, "part%d.ipfix" % n) for n in range(8)]
        for name, part in zip(files, parts):
            with open(name, "wb") as to:
                to.write(part)
        floor = os.path.join(place, "floor")
        subprocess.run(["cc", "-O2", HERE + "/feed_floor.c", "-o", floor], check=True)
        folder = os.path.join(place, "archive")

        def fed(given, limit=FLOOR_LIMIT, keep="8"):
            shutil.rmtree(folder, ignore_errors=True)
            os.mkdir(folder)
            subprocess.run([program, "create", folder, "300", "--limit", str(limit)], check=True)
            os.sync()
            took, _ = spent([program, "feed", folder, *given, "--keep", keep])
            _, lines = spent([program, "check", folder])
            return took, lines[0]

        for turn in range(3):
            print("one File     %6.2f s, %s" % fed([whole]), flush=True)
            print("eight Files  %6.2f s, %s" % fed(files), flush=True)
            print("nothing rolled %4.2f s, %s" % fed([whole], keep="4294967295"), flush=True)
            shutil.rmtree(folder, ignore_errors=True)
            os.mkdir(folder)
            os.sync()
            print("the C program %5.2f s" % spent([floor, str(FLOOR_LIMIT), folder, whole])[0], flush=True)
        for limit in (65_535, 1 << 18, 1 << 20, 1 << 22, 1 << 24):
            _, found = fed(files[:4], limit, "4294967295")
            sealed = int(found.split()[4])
            took, lines = spent([program, "roll", folder, "0"])
            said = (limit, lines[0], took, took * 1000 / sealed)
            print("limit %8d: %s in %.2f s, %.2f ms a source" % said, flush=True)
    finally:
        shutil.rmtree(place)


if __name__ == "__main__":
    main()
