#!/usr/bin/env python3
"""files_asked.py PROGRAM: which files a shell reads for a question: those that may have flows of its span, and no
other, whether the shell's opening found when their flows start, or its own sealing or rolling did. Each question is of
an hour, of an hour in which no flow starts, or of all; the system counts the octets that the shell reads for it, in
/proc/PID/io. And which files `check --files` reads beside what `check` does: the files of sums, and no sealed segment,
of which the opening knows when their flows start. A program that reads each file for each question answers the same.

It prints each question that reads more, or less than the files that have such flows, and ends with 'N cases of files
asked: M differ', where a case is a question; its status is 0 where M is 0, else 1."""
import os
import subprocess
import sys
import tempfile
import time

from trials import END, KEEP_ALL, LEAST, TIME, WITH, a_message, a_set

HOUR = 3_600
FIRST = TIME - TIME % HOUR
# How many flows a message has: so many that each one fills a segment; and what may be read beside files.
FLOWS, BESIDE = 3_000, 1_024
NONE = (FIRST - 2 * HOUR, FIRST - HOUR)
# The width, and the start of an hour's last interval that has flows, from the hour on.
WIDTH = 300
LAST = (FLOWS - 1) * HOUR // FLOWS // WIDTH * WIDTH
# What is asked, and how many lines an hour has.
QUERIES = (("totals", 12), ("flows", FLOWS))
SECONDS = 60


def hour(number):
    return (FIRST + number * HOUR, FIRST + (number + 1) * HOUR)


def flow(start, octets):
    return start.to_bytes(4, "big") + b"\x06" + octets.to_bytes(8, "big") + (1).to_bytes(8, "big")


def messages(numbers):
    """A message for each hour, whose flows start all over it."""
    def one(number):
        flows = b"".join(flow(FIRST + number * HOUR + n * HOUR // FLOWS, 40) for n in range(FLOWS))
        return a_message(7, a_set(2, WITH) + a_set(256, flows))
    return b"".join(one(number) for number in numbers)


def octets_of(process):
    """How many octets a process has read."""
    with open("/proc/%d/io" % process, encoding="ascii") as counts:
        return int(dict(line.split(": ") for line in counts)["rchar"])


class Shell:
    """A shell over an archive, and how many octets it has read."""

    def __init__(self, program, folder):
        self.ran = subprocess.Popen([program, "shell", folder], stdin=subprocess.PIPE, stdout=subprocess.PIPE)
        self.asked("check")

    def asked(self, request):
        """The lines of an answer, and how many octets were read for it."""
        before, lines = octets_of(self.ran.pid), []
        self.ran.stdin.write(request.encode() + b"\n")
        self.ran.stdin.flush()
        while not lines or not lines[-1].startswith(b"done "):
            lines.append(self.ran.stdout.readline())
            if not lines[-1]:
                sys.exit("files asked: the shell ended")
        return lines, octets_of(self.ran.pid) - before

    def end(self):
        self.ran.stdin.write(b"quit\n")
        self.ran.stdin.close()
        self.ran.wait()


def counted(*command):
    """The lines of a run that ended well, and how many octets it read."""
    ran = subprocess.Popen(command, stdout=subprocess.PIPE)
    lines = ran.stdout.read().decode().splitlines()
    # Until it is waited for, its counts are there.
    os.waitid(os.P_PID, ran.pid, os.WEXITED | os.WNOWAIT)
    octets = octets_of(ran.pid)
    return lines if ran.wait() == 0 else [], octets


class Cases:
    def __init__(self):
        self.count = self.differ = 0

    def ask(self, shell, what, query, span, rows, least, most):
        """Whether a question has so many rows or flows, or some, and reads from so many octets up to so many."""
        lines, octets = shell.asked("%s %d %d" % (query, *span))
        self.count += 1
        right = lines[-1] == b"done 0\n" and (len(lines) - 1 == rows or rows is None and len(lines) > 1)
        if not right or not least <= octets <= most + BESIDE:
            self.differ += 1
            print("%s: %s %d %d: %d lines, %d octets read, not %d to %d" % (what, query, *span, len(lines) - 1, octets,
                                                                            least, most))

    def ask_hours(self, shell, what, numbers, query, rows, octets):
        """Each of these hours reads one file alone, of so many octets."""
        for number in numbers:
            self.ask(shell, what, query, hour(number), rows, octets // 2, octets * 4 // 3)

    def list_files(self, program, folder, what, numbers, least, most):
        """Whether the sealed segments are listed with the starts of these hours, and so many octets, from one number up
        to another, read for that beside those of `check`."""
        _, opened = counted(program, "check", folder)
        lines, octets = counted(program, "check", "--files", folder)
        self.count += 1
        listed = [tuple(map(int, line.split()[4:])) for line in lines if line.startswith("sealed ")]
        starts = [(hour(number)[0], hour(number)[0] + LAST) for number in numbers]
        if listed != starts or not least <= octets - opened <= most + BESIDE:
            self.differ += 1
            print("%s: check --files: %r, %d octets read, not %d to %d" % (what, listed, octets - opened, least, most))


def sizes(folder):
    return {name: os.path.getsize(os.path.join(folder, name)) for name in os.listdir(folder)}


def main(program):
    cases = Cases()
    with tempfile.TemporaryDirectory() as place:
        folder, more = os.path.join(place, "a"), os.path.join(place, "more")
        os.mkdir(folder)
        subprocess.run([program, "create", folder, str(WIDTH), "--limit", str(LEAST)], check=True)
        feed = [program, "feed", folder, "-", *KEEP_ALL]
        subprocess.run(feed, input=messages(range(8)), stdout=subprocess.DEVNULL, check=True)
        with open(more, "wb") as file:
            file.write(messages(range(8, 12)))
        one = len(messages([0]))
        cases.list_files(program, folder, "opened", range(7), 0, 0)
        shell = Shell(program, folder)
        for query, rows in QUERIES:
            cases.ask_hours(shell, "opened", range(7), query, rows, one)
            cases.ask(shell, "opened", query, NONE, 0, 0, 0)
            # The active segment is in memory.
            cases.ask(shell, "active", query, hour(7), rows, 0, 0)
        cases.ask(shell, "opened", "totals", (0, END), 8 * 12, 7 * one // 2, 7 * one * 4 // 3)
        shell.asked("feed " + more)
        shell.asked("wait")
        for query, rows in QUERIES:
            cases.ask_hours(shell, "sealed", range(7, 11), query, rows, one)
            cases.ask(shell, "sealed", query, NONE, 0, 0, 0)
        before = set(sizes(folder))
        shell.asked("keep 3")
        until = time.monotonic() + SECONDS
        while len(before - set(sizes(folder))) < 8 and time.monotonic() < until:
            time.sleep(0.1)
        rolled = sum(size for name, size in sizes(folder).items() if name not in before)
        cases.ask(shell, "rolled", "totals", NONE, 0, 0, 0)
        cases.ask(shell, "rolled", "totals", hour(2), 12, 1, rolled)
        cases.ask(shell, "rolled", "totals", hour(9), 12, one // 2, one * 4 // 3)
        shell.end()
        again = Shell(program, folder)
        cases.ask(again, "opened again", "totals", NONE, 0, 0, 0)
        cases.ask(again, "opened again", "totals", hour(2), 12, 1, rolled)
        again.end()
        cases.list_files(program, folder, "opened again", range(8, 11), rolled // 2, rolled * 4 // 3)
    print("%d cases of files asked: %d differ" % (cases.count, cases.differ))
    return int(cases.differ != 0)


if __name__ == "__main__":
    sys.exit(main(os.path.realpath(sys.argv[1])))
