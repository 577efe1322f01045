#!/usr/bin/env python3
"""long_streams.py PROGRAM [--long]: feeds a stream of segments of one message each to a `shell --keep 0 --merge 8`, and
waits after each message until the segments before it are rolled, by `check`. So there are many rolled files, and they
are merged whenever there are 1,024 more than 8. It goes on until they were merged twice. At no time more files are
named than the merges, these 1,032 and those of a round; each message is there, once; the totals are those of what was
sent, by wide intervals of what is merged and by the width of the rest. The same then of `feed --merge`, which merges
what a shell that doesn't merge has left, and says how much of it is over wide intervals, and of `feed` without it,
which doesn't.

--long sends 20,000 segments, and shows that without --merge `41 ManifestFull` comes before 4,100 of them.

A shell that doesn't answer within SECONDS, or doesn't roll a segment within them, and a `feed` that doesn't end, is
ended, and differs. It prints each difference, and ends with 'N cases of long streams: M differ'; its status is 0 where
M is 0, else 1."""
import argparse
import os
import subprocess
import sys
import tempfile
import threading
import time

from trials import ALL, LEAST, PREFIX, TIME, Given, Hung, Trial, a_set, in_memory, interleaved

SECONDS = 120

# How long it waits before it asks again how much is rolled.
BETWEEN = 0.001

# How many rolled files are kept, how many more there are when they are merged, and how many a round may add before it
# looks.
KEPT, MANY, ROUND = 8, 1_024, 8

# The width, and the wide one.
WIDTH, WIDE = 300, 900

# How many octets a record has, and the Sets' headers of a message with one and with what fills it.
RECORD, HEADERS = 21, 16 + 4 + 4


class Stream:
    """Messages of one flow, each of which fills a segment."""

    def __init__(self):
        self.given = Given()

    def next(self):
        """One message more."""
        number = len(self.given.messages)
        templates = 0 if number else PREFIX - 16
        filler = LEAST - HEADERS - RECORD - templates
        self.given.add(7, [(TIME + WIDTH * (number % 50), 6)], after=a_set(4, bytes(filler)))
        return self.given.messages[-1]

    def sums(self, wide):
        """The lines of the totals where so many of the first messages are over wide intervals."""
        old, new = Given(), Given()
        old.flows, new.flows = self.given.flows[:wide], self.given.flows[wide:]
        return interleaved(new.sums(WIDTH), old.sums(WIDE, " %d" % WIDE))


class Shell:
    """A shell of the program, asked a line at a time."""

    def __init__(self, trial, *words):
        self.process = subprocess.Popen([trial.program, "shell", "a", *map(str, words)], cwd=trial.place,
                                        stdin=subprocess.PIPE, stdout=subprocess.PIPE, text=True)
        self.asked = time.monotonic()
        threading.Thread(target=self.watches, daemon=True).start()

    def watches(self):
        """Ends a shell that doesn't answer."""
        while self.process.poll() is None:
            time.sleep(1)
            if time.monotonic() > self.asked + SECONDS:
                self.process.kill()

    def asks(self, line):
        """The lines of the answer."""
        self.asked = time.monotonic()
        self.process.stdin.write(line + "\n")
        self.process.stdin.flush()
        lines = []
        for answer in self.process.stdout:
            if answer.startswith("done"):
                return lines
            lines.append(answer.rstrip("\n"))
        raise Hung

    def ends(self):
        """Ends it, and answers its status."""
        self.asked = time.monotonic()
        self.process.stdin.close()
        self.process.wait()
        return self.process.returncode


def states(shell):
    """The four numbers of `check`: how many messages, how many rolled, how many files of sums, how many segments."""
    for line in shell.asks("check"):
        if line.startswith("ok "):
            return [int(word) for word in line.split()[1:]]
    raise Hung


def write(pipe, octets):
    """Writes all octets."""
    octets = memoryview(octets)
    while octets:
        octets = octets[pipe.write(octets) :]


def rolled_after(shell, sent):
    """How many files of sums there are once so many messages are in, and no segment but one is left."""
    late = time.monotonic() + SECONDS
    while time.monotonic() < late:
        position, _, rolled, sealed = states(shell)
        if position == sent and sealed <= 1:
            return rolled
        time.sleep(BETWEEN)
    raise Hung


def sends(trial, stream, shell, pipe, merging, goes_on):
    """Sends messages into a pipe while `goes_on` says so of how many were sent, how many merges there were and how many
    files of sums there are, and answers how many merges."""
    merges, before, first = 0, 0, len(stream.given.messages)
    while goes_on(len(stream.given.messages) - first, merges, before):
        write(pipe, stream.next())
        sent = len(stream.given.messages)
        rolled = rolled_after(shell, sent)
        merges += rolled < before - MANY // 2
        before = rolled
        if merging and rolled > merges + KEPT + MANY + ROUND:
            trial.compare("files of sums after %d segments" % sent, "few", str(rolled))
            break
    return merges


def streams(trial, stream, words, goes_on):
    """Sends messages while `goes_on` says so, and answers how many merges there were; compares how the File ended."""
    os.mkfifo(trial.at("in"))
    shell = Shell(trial, *words)
    try:
        trial.compare("feed", "began 1", "\n".join(shell.asks("feed in")))
        first = len(stream.given.messages)
        with open(trial.at("in"), "wb", buffering=0) as pipe:
            merges = sends(trial, stream, shell, pipe, "--merge" in words, goes_on)
        sent = len(stream.given.messages) - first
        trial.compare("wait", "fed 1 %d" % sent, "\n".join(shell.asks("wait")))
        trial.compare("end", "0", str(shell.ends()))
    finally:
        shell.process.kill()
        os.remove(trial.at("in"))
    return merges


def entries(trial):
    """The lines of `check --files`, by their first word."""
    ran = subprocess.run([trial.program, "check", "a", "--files"], cwd=trial.place, capture_output=True, text=True,
                         timeout=SECONDS)
    lines = [line.split() for line in ran.stdout.splitlines()]
    return {word: [line for line in lines if line[0] == word] for word in ("ok", "wide", "rolled", "sealed")}


def settled(trial, stream, merges):
    """What is there in the end: files over wide intervals, few others, and all that was sent."""
    has = entries(trial)
    trial.compare("wide files", str(merges), str(len(has["wide"])))
    trial.compare("rolled files", "few", "few" if len(has["rolled"]) < KEPT + MANY else str(len(has["rolled"])))
    trial.compare("messages", str(len(stream.given.messages)), has["ok"][0][1])
    wide = sum(int(line[3]) for line in has["wide"])
    trial.runs(["totals", "a", *ALL], stream.sums(wide))
    return wide


def merged_twice(trial, long):
    """A stream, until its rolled files were merged twice, or 20,000 segments of it."""
    stream = Stream()
    trial.makes(WIDTH, LEAST, "--wide", WIDE)
    goes_on = (lambda sent, merges, rolled: sent < 20_000) if long else (lambda sent, merges, rolled: merges < 2)
    merges = streams(trial, stream, ("--keep", 0, "--merge", KEPT), goes_on)
    settled(trial, stream, merges)


def by_feed(trial, long):
    """What a shell has rolled and not merged is merged by `feed --merge`, and not by `feed`."""
    stream = Stream()
    trial.makes(WIDTH, LEAST, "--wide", WIDE)
    streams(trial, stream, ("--keep", 0), lambda sent, merges, rolled: rolled < KEPT + MANY)
    for words, merges in ((), 0), (("--merge", KEPT), 1):
        with open(trial.at("file"), "wb") as file:
            file.write(stream.next())
        sent = len(stream.given.messages)
        ran = subprocess.run([trial.program, "feed", "a", "file", "--keep", "0", "--warn", *map(str, words)],
                             cwd=trial.place, capture_output=True, text=True, timeout=SECONDS)
        trial.compare("feed", "fed 1 1\n", ran.stdout)
        wide = settled(trial, stream, merges) if merges else 0
        over = ", %d of them over wide intervals" % wide if merges else ""
        trial.compare("warned", "flowvault: %d of %d messages are in sums alone now%s\n" % (sent - 1, sent, over),
                      ran.stderr)


def stopped_after(shell, sent):
    """The line of the File that stopped, if any, once so many messages are in, and no segment but one is left."""
    late = time.monotonic() + SECONDS
    while time.monotonic() < late:
        answer = shell.asks("check")
        stopped = [line for line in answer if line.startswith("stopped")]
        position, _, _, sealed = [int(word) for word in answer[-1].split()[1:]]
        if stopped or (position == sent and sealed <= 1):
            return stopped
        time.sleep(BETWEEN)
    raise Hung


def full_without(trial, long):
    """Without --merge the manifest is full before 4,100 segments are rolled."""
    stream = Stream()
    trial.makes(WIDTH, LEAST, "--wide", WIDE)
    os.mkfifo(trial.at("in"))
    shell = Shell(trial, "--keep", 0)
    shell.asks("feed in")
    ended = []
    try:
        with open(trial.at("in"), "wb", buffering=0) as pipe:
            while len(stream.given.messages) < 8_200 and not ended:
                write(pipe, stream.next())
                ended = stopped_after(shell, len(stream.given.messages))
    except BrokenPipeError:
        pass
    finally:
        trial.compare("without --merge", "41 ManifestFull", " ".join(ended[0].split()[3:]) if ended else "none")
        shell.process.kill()
        os.remove(trial.at("in"))


def main():
    words = argparse.ArgumentParser(description=__doc__)
    words.add_argument("program")
    words.add_argument("--long", action="store_true")
    words = words.parse_args()
    with tempfile.TemporaryDirectory(dir=in_memory()) as place:
        trial = Trial(os.path.abspath(words.program), os.path.join(place, "t"))
        os.mkdir(trial.place)
        for case in (merged_twice, by_feed, *((full_without,) if words.long else ())):
            trial.begin("long streams", case.__name__)
            try:
                case(trial, words.long)
            except (Hung, BrokenPipeError, subprocess.TimeoutExpired):
                trial.compare("a run", "an end", "none in %d seconds" % SECONDS)
        trial.end()
    print("%d cases of long streams: %d differ" % (trial.cases, trial.differ))
    return 1 if trial.differ else 0


sys.exit(main())
