#!/usr/bin/env python3
"""grows.py PROGRAM [--long]: what grows with an archive while it is open.

Steps: how many instructions, counted by valgrind, `PROGRAM feed` takes for a message, with its share of seals, where
the archive has 4,000 sealed segments, beside one of 40. Each seal writes the whole manifest, 32 octets for each file.
Beside that, what the roller's turns take in which it has nothing to do: how many they are depends on the threads.

Memory, with `--long`: a shell that stays open is asked 5,000 questions while 2,000 segments are sealed, which are
rolled by 200; what it holds of the system's memory at the end is compared with what it held after 500 questions. The
same where nothing is rolled, and where nothing is sealed.

Memory is looked at twice: as it is, and with MALLOC_ARENA_MAX=1, as the units of contrib/systemd have it, where the C
library keeps no room for each thread.

It prints what it counted, and answers 1 where a message takes more than MOST_STEPS times as many steps. The goal for
memory, 1.1 times, is met with MALLOC_ARENA_MAX=1, but not while 2,000 segments are named: docs/SPEED.md has by what."""
import os
import random
import struct
import subprocess
import sys
import tempfile
import time

from steps_of_batches import counted, within
from trials import DAY, LEAST, MOST_KEPT as NOTHING, TIME, a_message, a_set, in_memory, padded

MOST_STEPS, GOAL = 1.2, 1.1
FEW, MANY = 40, 4_000
LIMIT = 1 << 20
COUNTED = ("flow_feed::giving::give", "flow_shared::shared::SharedArchive::roll_turn")
GENERATE = os.path.join(os.path.dirname(os.path.realpath(__file__)), "..", "bench", "generate.py")

# How many questions a shell is asked, and how many segments are sealed meanwhile.
LONG = 5_000, 2_000
FIRST, JOB, KEPT = 500, 200, 8
SECONDS = 300
TEMPLATE = struct.pack(">10H", 256, 4, 150, 4, 4, 1, 1, 4, 2, 4)


# ---- Steps ----

def archive_of(folder, count):
    """An archive of so many sealed segments, each of one message of 20 octets, as docs/FORMATS.md has it."""
    os.mkdir(folder)
    one, active = padded(20), 3 + count
    entries = b"".join(struct.pack(">IIQQQ", 2, 0, 3 + n, len(one), 1) for n in range(count))
    entries += struct.pack(">IIQQQ", 3, 0, active, 0, 0)
    for slot, generation in ((1, 2), (2, 1)):
        head = struct.pack(">HQIIIQQQI", 2, generation, 300, DAY, LIMIT, active + 1, 0, 0, count + 1)
        kept(folder, "%d.slot" % slot, b"\xa5" + head + entries)
    for n in range(count):
        kept(folder, "%d.ipfix" % (3 + n), one, 0o440)
    kept(folder, "%d.ipfix" % active, b"\0\0")


def kept(folder, name, octets, mode=0o640):
    path = os.path.join(folder, name)
    with open(path, "wb") as file:
        file.write(octets)
    os.chmod(path, mode)
    return path


def messages_in(octets):
    """How many messages a File has."""
    count = at = 0
    while at < len(octets):
        count, at = count + 1, at + int.from_bytes(octets[at + 2 : at + 4], "big")
    return count


def of_a_message(program, place, count):
    """What a message takes of some 1,400 octets, where so many segments are sealed before, and three more then."""
    folder, counts = os.path.join(place, "of%d" % count), os.path.join(place, "counts")
    archive_of(folder, count)
    octets = subprocess.run([sys.executable, GENERATE, str(3 * LIMIT)], stdout=subprocess.PIPE, check=True).stdout
    counted([program, "feed", folder, kept(place, "file", octets), "--keep", str(NOTHING)], counts)
    return [within(counts, it) / messages_in(octets) for it in COUNTED]


def steps(program, place):
    (few, few_turns), (many, many_turns) = (of_a_message(program, place, count) for count in (FEW, MANY))
    print("grows: a message takes %.0f steps where %d segments are sealed, %.0f where %d are: %.2f times, goal %.1f; "
          "idle turns of the roller %.0f and %.0f more"
          % (few, FEW, many, MANY, many / few, MOST_STEPS, few_turns, many_turns), flush=True)
    return many <= MOST_STEPS * few


# ---- Memory ----

def sealing(number):
    """A message that seals the one before it: a few flows, and so many octets that no two fit a segment."""
    start = TIME + 900 * number
    records = b"".join(struct.pack(">IBII", start + 20 * n, (6, 17, 1)[n % 3], 40 + n, 1) for n in range(10))
    sets = a_set(2, TEMPLATE) + a_set(256, records)
    return a_message(7, sets + a_set(4, bytes(LEAST // 2 - len(sets))))


class Shell:
    """A shell that is fed by a named pipe, and asked line by line."""

    def __init__(self, program, place, environment):
        folder, pipe = os.path.join(place, "shell"), os.path.join(place, "pipe")
        os.mkdir(folder)
        os.mkfifo(pipe)
        subprocess.run([program, "create", folder, "300", "--limit", str(LEAST)], check=True)
        self.run = subprocess.Popen([program, "shell", folder], stdin=subprocess.PIPE, stdout=subprocess.PIPE,
                                    env={**os.environ, **environment})
        self.ask("feed " + pipe)
        self.messages, self.to = 0, open(pipe, "wb", buffering=0)

    def ask(self, request):
        """The lines of an answer but for its end."""
        self.run.stdin.write(request.encode() + b"\n")
        self.run.stdin.flush()
        lines = []
        while not lines or not lines[-1].startswith(b"done "):
            lines.append(self.run.stdout.readline())
            if not lines[-1]:
                sys.exit("grows: the shell has ended")
        return lines[:-1]

    def until(self, holds):
        """Asks for the counts of `check` until they are as wanted."""
        end = time.monotonic() + SECONDS
        while not holds(*map(int, self.ask("check")[0].split()[1:])):
            if time.monotonic() > end:
                sys.exit("grows: nothing more comes of it")
            time.sleep(0.01)

    def feed(self, until):
        """Feeds messages up to a number."""
        while self.messages < until:
            self.to.write(sealing(self.messages))
            self.messages += 1

    def roll(self):
        self.until(lambda position, *_: position == self.messages)
        self.ask("keep %d" % KEPT)
        self.until(lambda position, cut, rolled, sealed: sealed <= KEPT)
        self.ask("keep %d" % NOTHING)

    def holds(self):
        """How many octets of memory it holds, and how many it held at most."""
        with open("/proc/%d/status" % self.run.pid, encoding="ascii") as lines:
            words = dict(line.split(":", 1) for line in lines)
        return [1024 * int(words[name].split()[0]) for name in ("VmRSS", "VmHWM")]

    def end(self):
        self.to.close()
        self.ask("wait")
        self.ask("quit")
        self.run.wait()


def held(program, place, environment, questions, seals, job):
    """What a shell holds after FIRST of so many questions, and at the end, while so many segments are sealed."""
    shell, chosen, first = Shell(program, place, environment), random.Random(1), None
    rolled = 0
    for number in range(1, questions + 1):
        shell.feed(1 + number * seals // questions)
        if job and shell.messages - rolled > job:
            shell.roll()
            rolled = shell.messages
        start = TIME + 900 * chosen.randrange(shell.messages)
        shell.ask(("totals %d %d" % (start, start + 3600), "flows %d %d" % (start, start + 900), "check", "losses",
                   "message %d" % shell.messages)[number % 5])
        first = shell.holds() if number == FIRST else first
    last = shell.holds()
    shell.end()
    return first, last


def memory(program, how, questions, seals, job):
    for environment in ({}, {"MALLOC_ARENA_MAX": "1"}):
        with tempfile.TemporaryDirectory(prefix="grows.", dir=in_memory()) as place:
            (first, first_most), (last, last_most) = held(program, place, environment, questions, seals, job)
        words = " ".join("%s=%s" % it for it in environment.items()) or "as it is"
        print("grows: a shell, %d questions, %d seals%s, %s: %d kB after %d questions, %d kB at the end: %.2f times, goal"
              " %.1f; at most %d and %d kB" % (questions, seals, how, words, first // 1024, FIRST, last // 1024,
                                               last / first, GOAL, first_most // 1024, last_most // 1024), flush=True)


def main(program, *words):
    program, long = os.path.abspath(program), words == ("--long",)
    with tempfile.TemporaryDirectory(prefix="grows.", dir=in_memory()) as place:
        good = steps(program, place)
    if long:
        questions, seals = LONG
        memory(program, ", rolled by %d" % JOB, questions, seals, JOB)
        memory(program, ", none rolled", questions, seals, 0)
        memory(program, "", questions, 0, 0)
    return int(not good)


if __name__ == "__main__":
    sys.exit(main(*sys.argv[1:]))
