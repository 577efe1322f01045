#!/usr/bin/env python3
"""octets_read.py PROGRAM: how many octets `PROGRAM` reads where the files of an archive have many short messages, or
many messages of sums. A file is gone through by pieces of 262,144 octets, and the next piece begins where fewer octets
than a longest message may have are ahead: so each time that a file is gone through at most 4/3 of it are read, however
short its messages are. A program that reads a piece for each message answers the same, and takes thousands of times as
long for a full segment.

The system counts the octets that a process reads, in /proc/PID/io. It prints each run that reads more, and ends with 'N
cases of reads: M differ', where a case is a run; its status is 0 where M is 0, else 1."""
import os
import subprocess
import sys
import tempfile

from trials import ALL, DAY, KEEP_ALL, LONGEST, TIME, Given, in_memory

# What may be read beside the files: the libraries that the program begins with, the slots, and lists of files.
BESIDE = 65_536

LIMIT = 1 << 20

# How often a command goes through all files: an opening does once, and what is asked then, times of flows among it,
# once more. An export goes through the file of its first message twice more: for the templates before it, and to write.
# One by a span of time goes through all that may have flows of it before that, to find its messages.
RUNS = (
    (1, ("check", "a")),
    (2, ("check", "a", "--files")),
    (2, ("totals", "a", *ALL, "--workers", "1")),
    (2, ("totals", "a", *ALL, "--workers", "3")),
    (2, ("flows", "a", *ALL)),
    (2, ("records", "a", *ALL)),
    (3, ("export", "a")),
    (4, ("export", "a", "--since", "1970-01-01")),
    (1, ("templates", "a")),
    (2, ("shell", "a")),
    (2, ("roll", "a", "0")),
)
RUNS_ON_SUMS = (
    (1, ("check", "a")),
    (2, ("totals", "a", *ALL, "--workers", "1")),
    (2, ("totals", "a", *ALL, "--workers", "3")),
    (2, ("merge", "a", "0")),
)


def short_messages():
    """Messages of one flow or of none, up to a segment's limit, and how many there are."""
    given = Given()
    given.add(7, [(TIME, 6)])
    one, none = Given(), Given()
    one.known.add((7, 256))
    one.add(7, [(TIME, 6)])
    none.add(7, [])
    pair = one.file() + none.file()
    count = (LIMIT - given.octets()) // len(pair)
    return given.file() + pair * count, 1 + 2 * count


def sums_of_seconds(count):
    """Messages with flows of so many seconds, a flow each."""
    given = Given()
    for at in range(0, count, 1500):
        given.add(7, [(TIME + second, 6) for second in range(at, min(at + 1500, count))])
    return given.file()


def has_read(words, place, given):
    """Runs these words: how many octets the process has read, and its status."""
    asked = os.path.join(place, "asked")
    with open(asked, "wb") as file:
        file.write(given)
    with open(asked, "rb") as file, subprocess.Popen(words, stdin=file, stdout=subprocess.DEVNULL, cwd=place) as ran:
        os.waitid(os.P_PID, ran.pid, os.WEXITED | os.WNOWAIT)
        with open("/proc/%d/io" % ran.pid, encoding="ascii") as counts:
            octets = int(dict(line.split(": ") for line in counts)["rchar"])
    return octets, ran.returncode


def archive(program, place, octets, width):
    """An archive of these messages in one sealed segment, and a longest one after it."""
    os.mkdir(os.path.join(place, "a"))
    subprocess.run([program, "create", "a", width, "--limit", str(max(LIMIT, len(octets)))], cwd=place, check=True)
    for file in (octets, LONGEST):
        subprocess.run([program, "feed", "a", "-", *KEEP_ALL], input=file, stdout=subprocess.DEVNULL, cwd=place,
                       check=True)


def octets_of_files(place):
    folder = os.path.join(place, "a")
    return sum(os.path.getsize(os.path.join(folder, name)) for name in os.listdir(folder))


def is_within(program, place, what, times, words, given):
    """Whether a run reads no more than it may. An opening reads the active segment twice."""
    most = times * octets_of_files(place) * 4 // 3 + 2 * len(LONGEST) + BESIDE
    octets, status = has_read([program, *words], place, given)
    if status or octets > most:
        print("%s: %s: status %d, %d octets read, at most %d wanted" % (what, " ".join(words), status, octets, most))
    return status == 0 and octets <= most


def played(program, what, octets, width, runs, given=b"", rolls=False):
    """Whether each run over an archive of these messages reads no more than it may."""
    with tempfile.TemporaryDirectory(dir=in_memory()) as place:
        archive(program, place, octets, width)
        if rolls:
            subprocess.run([program, "roll", "a", "0"], stdout=subprocess.DEVNULL, cwd=place, check=True)
        return [is_within(program, place, what, times, words, given) for times, words in runs]


def main(program):
    program = os.path.abspath(program)
    octets, count = short_messages()
    asked = b"message %d\nmessage %d\n" % (count // 3, count // 2)
    good = played(program, "short messages", octets, "300", RUNS, asked)
    good += played(program, "sums", sums_of_seconds(DAY), "1", RUNS_ON_SUMS, rolls=True)
    print("%d cases of reads: %d differ" % (len(good), good.count(False)))
    return int(not all(good))


if __name__ == "__main__":
    sys.exit(main(sys.argv[1]))
