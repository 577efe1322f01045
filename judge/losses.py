#!/usr/bin/env python3
"""losses.py PROGRAM: asks `PROGRAM shell` for `losses` while Files are under way: two named pipes, of messages and of
datagrams, that stay open. What was written to them is counted before they end, each count goes up and never down, and
after the end of one of them its counts are still there.

Beside it `PROGRAM feed` reads pipes that stay open, of messages and of datagrams, with `--warn` and without: more than a
minute after they were begun the next message brings a line of what they lack so far, and of flows that are summed
otherwise, where warnings are asked for, and none before; a minute without more brings none.

It prints each difference, and ends with 'N cases of losses: M differ'; its status is 0 where M is 0, else 1."""
import os
import struct
import subprocess
import sys
import tempfile
import threading
import time

SECONDS = 30
TIME = 1_700_000_000
NONE = ["sets 0", "gaps 0", "records 0", "placed 0", "uncounted 0", "sampled 0", "done 0"]


def message(domain, sequence, sets):
    return struct.pack(">HHIII", 10, 16 + len(sets), TIME, sequence, domain) + sets


FLOW = struct.pack(">HHIBII", 256, 17, TIME, 6, 1500, 10)
TEMPLATE = struct.pack(">12H", 2, 24, 256, 4, 150, 4, 4, 1, 1, 4, 2, 4)
# Of two flows: without a start, octets in octetTotalCount alone, and a sampling interval.
OTHERWISE = struct.pack(">8H", 2, 16, 257, 2, 85, 4, 34, 4) + struct.pack(">HHIIII", 257, 20, 1500, 10, 1500, 10)


class Shell:
    """A shell, asked line by line."""

    def __init__(self, program, folder):
        subprocess.run([program, "create", folder, "300"], check=True)
        self.run = subprocess.Popen([program, "shell", folder], stdin=subprocess.PIPE, stdout=subprocess.PIPE, text=True)

    def ask(self, request):
        """The lines of an answer, with its end."""
        self.run.stdin.write(request + "\n")
        self.run.stdin.flush()
        lines = []
        while not lines or not lines[-1].startswith("done "):
            line = self.run.stdout.readline()
            if not line:
                return lines + ["no more is answered"]
            lines.append(line.rstrip("\n"))
        return lines

    def until(self, wanted):
        """Asks for losses until they are these, or the time is over; what came last, and whether a count went down."""
        end, last, fell = time.time() + SECONDS, {}, False
        while True:
            lines = self.ask("losses")
            counts = counts_of(lines)
            fell = fell or any(counts.get(name, 0) < count for name, count in last.items())
            last = counts
            if lines == wanted or time.time() > end:
                return lines, fell
            time.sleep(0.02)


def counts_of(lines):
    """Each count of an answer by what it is of."""
    counts = {}
    for words in (line.split() for line in lines):
        if words[0] == "datagrams":
            counts[" ".join(words[2:])] = int(words[1])
        elif words[0] in ("sets", "gaps", "records", "placed", "uncounted", "sampled"):
            counts[words[0]] = int(words[1])
    return counts


def asked(shell, folder):
    """What was answered, what was wanted, and whether counts went down, step by step."""
    yield "at first", shell.ask("losses"), NONE, False
    ends = []
    for number, (name, words) in enumerate((("stream", ""), ("packets", " datagrams")), 1):
        os.mkfifo(os.path.join(folder, name))
        path = os.path.join(folder, name)
        yield "feed " + name, shell.ask("feed " + path + words), ["began %d" % number, "done 0"], False
        ends.append(os.open(path, os.O_WRONLY))
    stream, packets = ends
    os.write(stream, message(7, 0, FLOW))
    wanted = ["sets 1", "domain 7", *NONE[1:]]
    yield "after one message", *both(shell.until(wanted), wanted)
    # In domain 7, 1 is due, and 5 comes.
    os.write(stream, message(7, 0, TEMPLATE + FLOW))
    os.write(stream, message(7, 5, FLOW))
    wanted[2:4] = ["gaps 1", "records 4"]
    yield "after a gap", *both(shell.until(wanted), wanted)
    os.write(packets, b"\x00")
    wanted[7:] = ["datagrams 1 1 Short", "done 0"]
    yield "after a datagram", *both(shell.until(wanted), wanted)
    os.write(stream, message(7, 6, OTHERWISE))
    wanted[4:7] = ["placed 2", "uncounted 2", "sampled 2"]
    yield "after flows that are summed otherwise", *both(shell.until(wanted), wanted)
    os.write(packets, message(8, 0, FLOW))
    wanted[0] = "sets 2"
    yield "after a message of another domain", *both(shell.until(wanted), wanted)
    os.close(packets)
    lines, end = [], time.time() + SECONDS
    while not lines and time.time() < end:
        lines = [line for line in shell.ask("check") if line.startswith(("fed", "stopped"))]
    yield "the end of one", lines, ["fed 2 1"], False
    yield "after the end of one", shell.ask("losses"), wanted, False
    os.write(stream, message(9, 0, FLOW))
    wanted[0] = "sets 3"
    yield "after more of the other", *both(shell.until(wanted), wanted)
    os.close(stream)
    yield "the end of both", shell.ask("wait"), ["fed 1 5", "done 0"], False
    yield "after the end of both", shell.ask("losses"), wanted, False
    yield "quit", shell.ask("quit"), ["done 0"], False


def both(came, wanted):
    lines, fell = came
    return lines, list(wanted), fell


class Feeding:
    """`feed` of a pipe that stays open, and the lines that it wrote on standard error."""

    def __init__(self, program, place, name, words):
        folder = os.path.join(place, name)
        os.mkdir(folder)
        subprocess.run([program, "create", folder, "300"], check=True)
        self.began, self.lines = time.time(), []
        self.run = subprocess.Popen(
            [program, "feed", folder, "-", *words],
            stdin=subprocess.PIPE,
            stdout=subprocess.PIPE,
            stderr=subprocess.PIPE,
            bufsize=0,
        )
        self.reader = threading.Thread(target=self.read)
        self.reader.start()

    def read(self):
        for line in self.run.stderr:
            self.lines.append(line.decode().rstrip("\n"))

    def write(self, octets):
        self.run.stdin.write(octets)

    def lines_at(self, second, wanted):
        """The lines at this second after the beginning, or up to 30 later, until they are these."""
        while time.time() < self.began + second or (self.lines != wanted and time.time() < self.began + second + SECONDS):
            time.sleep(0.05)
        return list(self.lines)

    def ended(self):
        """All lines, once the pipe has ended."""
        self.run.stdin.close()
        written = self.run.stdout.read().decode()
        self.run.wait()
        self.reader.join()
        return [written, *self.lines]


# When a message is written that may bring a line, and when it has come, in seconds after the beginning.
LATE = 62
LATER = 63


def begun(program, place):
    """Feeds that are under way: each has a message that lacks a template, a datagram that is refused, a message that
    lacks nothing, or flows that are summed otherwise."""
    feeds = {
        "warned": Feeding(program, place, "warned", ["--warn"]),
        "not warned": Feeding(program, place, "quiet", []),
        "datagrams": Feeding(program, place, "datagrams", ["--warn", "--datagrams"]),
        "nothing lacks": Feeding(program, place, "whole", ["--warn"]),
        "summed otherwise": Feeding(program, place, "otherwise", ["--warn"]),
    }
    for name in ("warned", "not warned"):
        feeds[name].write(message(7, 0, FLOW))
    feeds["datagrams"].write(b"\x00")
    feeds["nothing lacks"].write(message(7, 0, TEMPLATE + FLOW))
    feeds["summed otherwise"].write(message(7, 0, OTHERWISE))
    return feeds


def warned(feeds):
    """What came, and what was wanted, of feeds that began at least a minute ago, after one message more each."""
    first = "flowvault: warning: file 1 (-)"
    for feed in feeds.values():
        yield "no line before a minute is over", feed.lines_at(1, []), []
    time.sleep(max(0, max(feed.began for feed in feeds.values()) + LATE - time.time()))
    for name in ("warned", "not warned"):
        feeds[name].write(message(8, 0, FLOW))
    feeds["datagrams"].write(message(7, 0, TEMPLATE + FLOW))
    feeds["nothing lacks"].write(message(7, 1, FLOW))
    feeds["summed otherwise"].write(message(7, 2, OTHERWISE))
    flows = ("4 flows have no start time of their own; 4 flows have octets or packets only in elements that aren't summed; "
             "4 flows have a sampling rate")
    lacks = ": 1 data sets of domain 7 had no template, and 1 of other domains"
    wanted = {
        "warned": [first + " so far" + lacks],
        "datagrams": [first + " so far: datagrams passed over: 1 by 1 Short"],
        "not warned": [],
        "nothing lacks": [],
        "summed otherwise": [first + " so far: " + flows],
    }
    for name, lines in wanted.items():
        yield name, feeds[name].lines_at(LATER, lines), lines
    for name in ("warned", "not warned"):
        feeds[name].write(message(8, 0, FLOW))
    at_end = {
        "warned": ["fed 1 3\n", *wanted["warned"], first + lacks.replace("1 of other", "2 of other")],
        "datagrams": ["fed 1 1\n", *wanted["datagrams"], first + ": datagrams passed over: 1 by 1 Short"],
        "not warned": ["fed 1 3\n"],
        "nothing lacks": ["fed 1 2\n"],
        "summed otherwise": ["fed 1 2\n", *wanted["summed otherwise"], first + ": " + flows],
    }
    for name, lines in at_end.items():
        yield name + ", at the end", feeds[name].ended(), lines


def asked_in(shell, place):
    """The same of a shell, which is ended whatever comes."""
    try:
        yield from asked(shell, place)
    finally:
        shell.run.kill()
        shell.run.wait()


def main(program):
    differ = count = 0
    program = os.path.abspath(program)
    with tempfile.TemporaryDirectory() as place:
        folder = os.path.join(place, "archive")
        feeds = begun(program, place)
        os.mkdir(folder)
        for name, came, wanted, fell in asked_in(Shell(program, folder), place):
            count += 1
            if came != wanted or fell:
                differ += 1
                print("%s: wanted %s, came %s%s" % (name, wanted, came, ", and a count went down" if fell else ""))
        for name, came, wanted in warned(feeds):
            count += 1
            if came != wanted:
                differ += 1
                print("%s: wanted %s, came %s" % (name, wanted, came))
    print("%d cases of losses: %d differ" % (count, differ))
    return int(differ > 0)


if __name__ == "__main__":
    sys.exit(main(sys.argv[1]) if len(sys.argv) == 2 else print(__doc__) or 2)
