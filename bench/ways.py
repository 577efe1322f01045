#!/usr/bin/env python3
"""ways.py PROGRAM [OCTETS [FOLDER]]: times the ways of the octets, each beside what it can't be faster than, in turn in
one run, and prints a table of the least time of each: `feed` beside bench/feed_floor.c, which makes the same writes
and syncs; `totals` by one worker, without its opening, and `roll` of all segments, beside `measure` of the same
octets, and `totals` by four workers beside by one; an opening (`check`) beside `cat`, `measure` and
bench/opening_floor.c, which reads the same files and judges nothing, by one thread and by four; and `feed` of one
message, which opens the archive to change it, beside `check`. The File is one of bench/generate.py of so many octets
(300 MB).

Then of an archive of a month (bench/month.py): an opening beside `totals` of all; an hour out of it, and `flows` of a
minute in which none starts, each as a command, with its opening, and asked of a `shell` that has it open; and where
nfdump is installed, the sums of the same flows by nfdump, which reads its files of that hour, or all. The archives are
made in FOLDER (the system's for temporary files), which is left empty."""
import os
import shutil
import subprocess
import sys
import tempfile

import month
from feed_times import FLOOR_LIMIT, HERE, spent
from spans import answered

TURNS = 3
ALL = "4294967295"
QUESTIONS = {"all": ("totals", month.ALL), "hour": ("totals", month.HOUR), "minute": ("flows", month.MINUTE)}


def turn(program, floor, reading, whole, folder, least):
    """Times each way once, and keeps the least time of each."""

    def timed(name, words, read=None):
        took = spent(words, stdin=open(read, "rb"))[0] if read else spent(words)[0]
        least[name] = min(took, least.get(name, took))

    def emptied():
        shutil.rmtree(folder, ignore_errors=True)
        os.mkdir(folder)
        os.sync()

    timed("cat", ["sh", "-c", "cat > /dev/null"], whole)
    timed("measure", [program, "measure", "300"], whole)
    emptied()
    timed("floor", [floor, str(FLOOR_LIMIT), folder, whole])
    emptied()
    subprocess.run([program, "create", folder, "300", "--limit", str(FLOOR_LIMIT)], check=True)
    timed("feed", [program, "feed", folder, whole, "--keep", ALL])
    timed("check", [program, "check", folder])
    for workers in ("1", "4"):
        timed("totals" + workers, [program, "totals", folder, "0", "4294967296", "--workers", workers])
        timed("reading" + workers, [reading, folder, workers])
    first = os.path.join(os.path.dirname(whole), "first.ipfix")
    with open(whole, "rb") as of, open(first, "wb") as to:
        octets = of.read(65_535)
        to.write(octets[: int.from_bytes(octets[2:4], "big")])
    timed("one", [program, "feed", folder, first, "--keep", ALL])
    timed("roll", [program, "roll", folder, "0"])


def month_asked(program, folder, collected, least):
    """Asks the archive of a month, by commands, by a shell and by nfdump, in turn, and keeps the least time of each."""

    def noted(name, took):
        least[name] = min(took, least.get(name, took))

    with subprocess.Popen([program, "shell", folder], stdin=subprocess.PIPE, stdout=subprocess.PIPE) as shell:
        answered(shell, "check")
        for _ in range(TURNS):
            for name, (query, span) in QUESTIONS.items():
                noted("shell " + name, min(answered(shell, "%s %d %d" % (query, *span)) for _ in range(5)))
        answered(shell, "quit")
    for _ in range(TURNS):
        noted("month", spent([program, "check", folder])[0])
        for name, (query, span) in QUESTIONS.items():
            noted(name, spent([program, query, folder, *map(str, span)])[0])
        for name, files in collected.items():
            noted("nfdump " + name, spent(month.nfdump(files))[0])


def row(what, took, beside, other, goal):
    words = (what, seconds(took), beside, seconds(other), took / other, goal)
    print("| %s | %s | %s %s | %.3g | %s |" % words, flush=True)


def seconds(took):
    return "%.2f s" % took if took >= 0.1 else "%.2f ms" % (took * 1000)


def month_told(program, place):
    """The rows of an archive of a month."""
    folder, least = os.path.join(place, "month"), {}
    month.archive(program, folder, place)
    spans = {"hour": month.HOUR, "all": month.ALL}
    collected = {name: os.path.join(place, "nfdump." + name) for name in spans}
    collected = {name: files for name, files in collected.items() if month.collected(files, spans[name])}
    month_asked(program, folder, collected, least)
    row("a month: an opening (`check`)", least["month"], "`totals` of all, with its opening,", least["all"], "")
    row("an hour of it: `totals`, asked of a shell", least["shell hour"], "of all", least["shell all"], "0.01")
    row("`flows` of a minute in which none starts, asked of a shell", least["shell minute"], "`totals` of all",
        least["shell all"], "5 ms")
    row("`totals` of an hour, with its opening", least["hour"], "`check`", least["month"], "")
    row("`flows` of such a minute, with its opening", least["minute"], "`check`", least["month"], "")
    for name in collected:
        what = "`totals` of %s, with its opening" % {"hour": "an hour", "all": "all"}[name]
        row(what, least[name], "nfdump, by its files of these flows,", least["nfdump " + name], "")


def main():
    program = os.path.realpath(sys.argv[1])
    octets = sys.argv[2] if len(sys.argv) > 2 else "300000000"
    place = tempfile.mkdtemp(prefix="ways.", dir=sys.argv[3] if len(sys.argv) > 3 else None)
    try:
        whole, floor, reading = (os.path.join(place, name) for name in ("whole.ipfix", "floor", "reading"))
        with open(whole, "wb") as to:
            subprocess.run([sys.executable, HERE + "/generate.py", octets], stdout=to, check=True)
        subprocess.run(["cc", "-O2", HERE + "/feed_floor.c", "-o", floor], check=True)
        subprocess.run(["cc", "-O2", "-pthread", HERE + "/opening_floor.c", "-o", reading], check=True)
        least = {}
        for _ in range(TURNS):
            turn(program, floor, reading, whole, os.path.join(place, "archive"), least)
        print("| What | Time | Beside it | Ratio | Goal |\n|---|---|---|---|---|")
        measured, asked, aside = (least["measure"], *(least["totals" + n] - least["check"] for n in ("1", "4")))
        row("`feed`, nothing rolled", least["feed"], "a C program's writes and syncs", least["floor"], "1.2")
        row("`totals` by one worker, without its opening", asked, "`measure`", measured, "1.2")
        row("the same by four workers", aside, "by one", asked, "0.5")
        row("`roll` of all segments", least["roll"], "`measure`", measured, "1.2")
        row("an opening (`check`)", least["check"], "`cat` %s, `measure`" % seconds(least["cat"]), measured, "")
        row("reading the same files by one thread", least["reading1"], "by four", least["reading4"], "")
        row("`feed` of one message to the same", least["one"], "`check`", least["check"], "")
        month_told(program, place)
    finally:
        shutil.rmtree(place)


if __name__ == "__main__":
    main()
