#!/usr/bin/env python3
"""several_times.py PROGRAM [ARCHIVES [OCTETS [FOLDER]]]: `totals` of several archives (4, of 100 MB of messages each,
nothing rolled, copies of one), of all together and of each with its number, and `check` of them, by one processor and
by four, which the program asks the system for; and of one alone. Prints the least wall time of several turns, the most
memory of each, and how many times as long it takes by one as by four; fails where these differ in what they write. The
archives are made in FOLDER (the system's for temporary files), which is left empty."""
import hashlib
import os
import shutil
import subprocess
import sys
import tempfile
import time

HERE = os.path.dirname(os.path.realpath(__file__))
SPAN, TURNS = ("0", "4294967296"), 5
PROCESSORS = sorted(os.sched_getaffinity(0))


def archive(program, folder, octets):
    """Makes an archive of so many octets of messages."""
    os.mkdir(folder)
    subprocess.run([program, "create", folder, "300"], check=True)
    words = [sys.executable, os.path.join(HERE, "generate.py"), str(octets)]
    with subprocess.Popen(words, stdout=subprocess.PIPE) as made:
        subprocess.run([program, "feed", folder, "-", "--keep", "4294967295"], stdin=made.stdout, check=True,
                       stdout=subprocess.DEVNULL)


def run(words, processors):
    """How long a run takes by so many processors, the most octets of memory, and the sum of what it wrote."""
    begun = time.monotonic()
    ran = subprocess.Popen(words, stdout=subprocess.PIPE,
                           preexec_fn=lambda: os.sched_setaffinity(0, PROCESSORS[:processors]))
    written = hashlib.sha256(ran.stdout.read()).hexdigest()
    ran.stdout.close()
    _, status, used = os.wait4(ran.pid, 0)
    took = time.monotonic() - begun
    if status:
        sys.exit("%s: status %d" % (" ".join(words), status))
    return took, used.ru_maxrss * 1024, written


def least(ways):
    """The least time of each way, in turns, with the most memory and what it wrote, which is the same in each turn."""
    best = {}
    for _ in range(TURNS):
        for name, (words, processors) in ways.items():
            took, memory, written = run(words, processors)
            before = best.get(name, (took, memory, written))
            if before[2] != written:
                sys.exit("%s: other lines" % name)
            best[name] = (min(took, before[0]), max(memory, before[1]), written)
    return best


def main():
    program = os.path.realpath(sys.argv[1])
    count = int(sys.argv[2]) if len(sys.argv) > 2 else 4
    octets = int(sys.argv[3]) if len(sys.argv) > 3 else 100_000_000
    place = tempfile.mkdtemp(prefix="several.", dir=sys.argv[4] if len(sys.argv) > 4 else None)
    try:
        folders = [os.path.join(place, "archive%d" % n) for n in range(count)]
        archive(program, folders[0], octets)
        for folder in folders[1:]:
            shutil.copytree(folders[0], folder)
        questions = {"together": ["totals", *folders, *SPAN], "each": ["totals", *folders, *SPAN, "--each"],
                     "check": ["check", *folders]}
        ways = {}
        for question, words in questions.items():
            for processors in (1, 4):
                ways[question, processors] = ([program, *words], processors)
        ways["one of them", 1] = ([program, "totals", folders[0], *SPAN, "--workers", "1"], 1)
        ways["check of one", 1] = ([program, "check", folders[0]], 1)
        best = least(ways)
        for (question, processors), (took, memory, _) in best.items():
            print("%-12s %d processors %7.3f s %7.1f MB" % (question, processors, took, memory / 1e6))
        for question in questions:
            if best[question, 1][2] != best[question, 4][2]:
                sys.exit("%s: other lines by four" % question)
            print("%-12s by one and by four: %.2f" % (question, best[question, 1][0] / best[question, 4][0]))
    finally:
        shutil.rmtree(place)


if __name__ == "__main__":
    main()
