#!/usr/bin/env python3
"""spans.py PROGRAM [SEGMENTS [FOLDER]]: what a question costs of a span of a long archive: an archive of so many
segments (4,000), four an hour, and in one run `shell` is asked `totals` of all, of one hour in the middle, and of an
hour without flows, and `flows` of these hours. Prints the steps (instructions, counted by valgrind where it is there)
of one question of `totals` each, and the least time of each. The archive is made in FOLDER (the system's for temporary
files), which is left empty."""
import os
import re
import shutil
import struct
import subprocess
import sys
import tempfile
import time

START, EVERY, LIMIT = 1_700_000_000, 900, 65_535
ALL, NONE = (0, 4_294_967_296), (4_000_000_000, 4_000_003_600)
RECORDS = 3_000
# How many questions are counted, and how often each is timed.
TIMES, TURNS = 4, 20
TEMPLATE = struct.pack(">HHHHHHHHHHHH", 2, 24, 256, 4, 150, 4, 4, 1, 1, 4, 2, 4)


def message(number, sequence):
    """One that fills a segment: 3,000 flows of some 200 seconds."""
    start = START + number * EVERY
    records = b"".join(struct.pack(">IBII", start + n % 200, (6, 17, 1)[n % 3], 40 + n, 1 + n % 9) for n in range(RECORDS))
    sets = TEMPLATE + struct.pack(">HH", 256, 4 + len(records)) + records
    return struct.pack(">HHIII", 10, 16 + len(sets), start + 300, sequence, 7) + sets


def steps(program, folder, span, times):
    """The steps of a shell that is asked so often."""
    words = ["valgrind", "--tool=callgrind", "--callgrind-out-file=/dev/null", program, "shell", folder]
    requests = "".join("totals %d %d\n" % span for _ in range(times)) + "quit\n"
    ran = subprocess.run(words, input=requests.encode(), stdout=subprocess.DEVNULL, stderr=subprocess.PIPE, check=True)
    return int(re.search(rb"Collected : (\d+)", ran.stderr).group(1))


def counted(program, folder, span):
    """The steps of one question: of several, without those of a shell that is asked none."""
    return (steps(program, folder, span, TIMES) - steps(program, folder, span, 0)) // TIMES


def answered(shell, request):
    """How long an answer takes."""
    begun = time.monotonic()
    shell.stdin.write(request.encode() + b"\n")
    shell.stdin.flush()
    while not shell.stdout.readline().startswith(b"done "):
        pass
    return time.monotonic() - begun


def timed(program, folder, spans):
    """The least time of one question of each span, asked in turn of one shell."""
    least = {}
    with subprocess.Popen([program, "shell", folder], stdin=subprocess.PIPE, stdout=subprocess.PIPE) as shell:
        answered(shell, "check")
        for _ in range(TURNS):
            for query in ("totals", "flows"):
                for name, span in spans.items():
                    if (query, name) != ("flows", "all"):
                        took = answered(shell, "%s %d %d" % (query, *span))
                        least[query, name] = min(took, least.get((query, name), took))
        answered(shell, "wait")
        shell.stdin.write(b"quit\n")
        shell.stdin.close()
    return least


def main():
    program = os.path.realpath(sys.argv[1])
    segments = int(sys.argv[2]) if len(sys.argv) > 2 else 4_000
    place = tempfile.mkdtemp(prefix="spans.", dir=sys.argv[3] if len(sys.argv) > 3 else None)
    try:
        folder, whole = os.path.join(place, "archive"), os.path.join(place, "whole.ipfix")
        os.mkdir(folder)
        with open(whole, "wb") as to:
            for number in range(segments):
                to.write(message(number, number * RECORDS))
        subprocess.run([program, "create", folder, "300", "--limit", str(LIMIT)], check=True)
        subprocess.run([program, "feed", folder, whole, "--keep", "4294967295"], check=True, stdout=subprocess.DEVNULL)
        middle = START + segments // 2 * EVERY
        spans = {"all": ALL, "an hour": (middle, middle + 3600), "an hour without flows": NONE}
        if shutil.which("valgrind"):
            took = {name: counted(program, folder, span) for name, span in spans.items()}
            for name, it in took.items():
                print("totals, %-22s %d steps, %.4f of all" % (name, it, it / took["all"]), flush=True)
        least = timed(program, folder, spans)
        for (query, name), it in least.items():
            print("%s, %-22s %.2f ms, %.4f of all totals" % (query, name, it * 1000, it / least["totals", "all"]))
    finally:
        shutil.rmtree(place)


if __name__ == "__main__":
    main()
