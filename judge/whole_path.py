#!/usr/bin/env python3
"""whole_path.py PROGRAM: the whole path, from exporters to a bill. Three exporters send for two days, each into an
archive for each day, by the commands of the units of contrib/systemd, with small segments. Two send over UDP, to a
socket that stays open for both days and is the standard input of `feed .. --datagrams`, as systemd passes it on; what
comes while none runs waits in it. Between their messages come datagrams that aren't accepted, which are counted. The
third one sends over TCP; on the first day its connection ends within a message, and it sends the rest by another one.
Messages are lost on their way, and on the second day some come before their template.

What each `feed` answers is compared with what was sent, to the line; what `totals` answers of all archives, of each, and
of each date, with the exporters' own counts, whose sums pass 64 bits; so are those of new archives, to which each of
these is fed as it is exported, in two parts; and so are the totals once the first day is rolled and merged, and those
of the second day once the first one is removed.

It prints each difference, and ends with 'N cases of the whole path: M differ'; its status is 0 where M is 0, else 1."""
import concurrent.futures
import contextlib
import os
import random
import shlex
import shutil
import socket
import struct
import subprocess
import sys
import tempfile

from sockets import BAD, BAD_COUNTS, SECONDS, Gone, all_read, refused, tcp, udp
from trials import ALL, DAY, FIELD, KEEP_ALL, LEAST, LONGEST, Given, Hung, Trial, in_memory

UNITS = os.path.join(os.path.dirname(os.path.abspath(__file__)), "..", "contrib", "systemd")

# The words of the units that aren't as they are there: the folder of an archive, and the octets of a segment.
FOLDERS = ("/var/lib/flowvault/udp/%i", "/var/lib/flowvault/tcp/${REMOTE_ADDR}")
CREATED, WIDTH = {"16777216": str(LEAST)}, 300

# The beginnings of two days, and their dates.
DATES = ("2023-11-14", "2023-11-15", "2023-11-16")
DAYS = (1_699_920_000, 1_700_006_400)

# How many messages an exporter sends in a day, how many datagrams come before anything reads them, and after how many
# messages those come that aren't accepted.
MESSAGES, WAITING, EVERY = 240, 30, 40
HALF = MESSAGES // 2

# How long a socket waits for the last datagram of a day, in seconds.
PATIENCE = 2


# ---- What is sent ----

class Counted(Given):
    """The messages of an exporter's day, with its count: flows of its day and some that began before it, of three
    protocols and of none, and one of as many octets as a field holds. As many messages as are late have flows whose
    template comes after them, and one may be lost on its way: these aren't counted."""

    def __init__(self, name, day, late=0, lost=None):
        super().__init__()
        chosen = random.Random("%s %d" % (name, day))
        self.late, self.missing = late, 0
        self.known.add((7, 256))
        for number in range(late):
            self.add(7, [(DAYS[day] + number, 6)])
        self.flows.clear()
        self.known.clear()
        self.add(7, [(DAYS[day] + 60, 6, FIELD, 1)])
        for number in range(1, MESSAGES):
            if name == "east" and number == HALF:
                # (by a new connection the templates come again)
                self.known.clear()
            before = len(self.flows)
            self.add(9 if name == "east" and number % 3 == 0 else 7, [
                (DAYS[day] + chosen.randrange(-900, DAY), chosen.choice((6, 17, 1, None)), chosen.randrange(1, 1 << 40),
                 chosen.randrange(1, 1 << 20)) for _ in range(chosen.randrange(20, 60))])
            if number == lost:
                self.missing = len(self.flows) - before
                del self.messages[-1], self.flows[before:]

    def said(self):
        """What is said of what isn't read."""
        parts = ["%d data sets of domain 7 had no template" % self.late] if self.late else []
        parts += ["%d records are missing, in 1 gaps of sequence numbers" % self.missing] if self.missing else []
        return "flowvault: warning: file 1 (-): %s\n" % "; ".join(parts) if parts else ""


def all_of(counts):
    """What several exporters and days count together."""
    given = Given()
    given.flows = [flow for each in counts for flow in each.flows]
    return given


def of_date(day):
    return DAYS[day], DAYS[day] + DAY


# ---- Services ----

class Service:
    """The commands of a unit, over an archive."""

    def __init__(self, program, unit, folder):
        with open(os.path.join(UNITS, unit)) as file:
            lines = [line.strip().split("=", 1) for line in file if line.startswith("Exec")]
        self.before = [self.words(line, program, folder) for name, line in lines if name == "ExecStartPre"]
        self.feed, = [self.words(line, program, folder) for name, line in lines if name == "ExecStart"]

    @staticmethod
    def words(line, program, folder):
        words = shlex.split(line.lstrip("-").replace("/usr/bin/flowvault", program))
        return [CREATED.get(word, folder if word in FOLDERS else word) for word in words]

    def start(self, end):
        """It begins, with a socket as its standard input; what is refused before it is passed over, as by systemd."""
        for words in self.before:
            subprocess.run(words, stdin=subprocess.DEVNULL, stdout=subprocess.DEVNULL, stderr=subprocess.DEVNULL,
                           timeout=SECONDS)
        return subprocess.Popen(self.feed, stdin=end, stdout=subprocess.PIPE, stderr=subprocess.PIPE, text=True)


def ended(feed):
    """How a service ended: its status, and what it wrote."""
    try:
        out, err = feed.communicate(timeout=SECONDS)
    except subprocess.TimeoutExpired:
        feed.kill()
        out, err = feed.communicate()
    return "status %d\n%s%s" % (feed.returncode, err, out)


def stopped(messages, why, more="", status=3):
    return "status %d\n%sflowvault: warning: file 1 (-): stopped after %d messages: %s\nstopped 1 %d %s\n" % (
        status, more, messages, why, messages, why.split(" at ")[0])


# ---- Exporters ----

def patience(end, seconds):
    """A read that nothing comes for ends after so many seconds, or never."""
    end.setsockopt(socket.SOL_SOCKET, socket.SO_RCVTIMEO, struct.pack("ll", seconds, 0))


def with_others(messages):
    """Messages as datagrams, with others and an empty one between them; and how many times these come."""
    datagrams, times = [], 0
    for number, message in enumerate(messages):
        if number % EVERY == 0:
            datagrams += [b"", *BAD]
            times += 1
        datagrams.append(message)
    return datagrams, times


class ByDatagrams:
    """An exporter over UDP, and its port, which is held for both days."""

    def __init__(self, name, *counts):
        self.name, self.counts = name, counts
        self.ours, self.theirs = udp()

    def day(self, day, program, folder):
        """Sends a day's datagrams: yields what a service must answer, and what it did."""
        messages = self.counts[day].messages
        datagrams, times = with_others(messages)
        patience(self.theirs, 0)
        for datagram in datagrams[:WAITING]:
            self.ours.send(datagram)
        feed = Service(program, "flowvault-udp@.service", folder).start(self.theirs)
        with contextlib.suppress(Gone):
            for datagram in datagrams[WAITING:]:
                self.ours.send(datagram)
                all_read(feed, self.ours, self.theirs)
        # (a read that began before this has no end by itself, and so an empty datagram ends it)
        patience(self.theirs, PATIENCE)
        self.ours.send(b"")
        said = refused((times, BAD_COUNTS), (times + 1, {"1 Short": 1})) + self.counts[day].said()
        yield stopped(len(messages), "31 Read", said), ended(feed)

    def close(self):
        self.ours.close()
        self.theirs.close()


class ByStream:
    """An exporter over TCP, whose first connection ends within a message."""

    def __init__(self, name, *counts):
        self.name, self.counts = name, counts

    def day(self, day, program, folder):
        """Sends a day's messages, likewise."""
        messages = self.counts[day].messages
        if day == 0:
            octets = b"".join(messages[:HALF])
            yield stopped(HALF, "15 Cut at octet %d" % len(octets), status=1), connection(
                program, folder, octets + messages[HALF][:20])
            messages = messages[HALF:]
        yield "status 0\nfed 1 %d\n" % len(messages), connection(program, folder, b"".join(messages))

    def close(self):
        """Each connection is closed."""


def connection(program, folder, octets):
    """How a service ends that has a connection over which these come."""
    ours, theirs = tcp()
    feed = Service(program, "flowvault-tcp@.service", folder).start(theirs)
    theirs.close()
    with ours, contextlib.suppress(OSError):
        ours.sendall(octets)
    return ended(feed)


# ---- The path ----

def collected(trial, exporters, day):
    """A day of all exporters at once: a case of each."""
    def collect(exporter):
        folder = trial.at("%s/%s" % (DATES[day], exporter.name))
        os.makedirs(folder)
        return list(exporter.day(day, trial.program, folder))

    with concurrent.futures.ThreadPoolExecutor(len(exporters)) as side_by_side:
        found = list(side_by_side.map(collect, exporters))
    for exporter, answers in zip(exporters, found):
        trial.go_on(DATES[day], exporter.name)
        for wanted, came in answers:
            trial.compare("the service", wanted, came)


def folders(exporters, *days):
    return ["%s/%s" % (DATES[day], exporter.name) for day in days for exporter in exporters]


def asked(trial, exporters):
    """What is asked of the archives of both days, a case each."""
    every = [exporter.counts[day] for day in range(2) for exporter in exporters]
    trial.go_on("totals", "of all")
    trial.runs(["totals", *folders(exporters, 0, 1), *ALL], all_of(every).sums(WIDTH))
    trial.go_on("totals", "of each")
    trial.runs(["totals", *folders(exporters, 0, 1), *ALL, "--each"], "".join(
        "%d %s\n" % (number, line) for number, given in enumerate(every, 1) for line in given.sums(WIDTH).splitlines()))
    for day in range(2):
        trial.go_on("totals", "of " + DATES[day])
        trial.runs(["totals", *folders(exporters, 0, 1), "--since", DATES[day], "--until", DATES[day + 1]],
                   all_of(every).sums(WIDTH, span=(DAYS[day], DAYS[day] + DAY)))


def octets_of(trial, folder, first, last):
    """The octets of messages of an archive, exported."""
    words = [trial.program, "export", trial.at(folder), "--from", str(first), "--to", str(last)]
    return subprocess.run(words, stdout=subprocess.PIPE, timeout=SECONDS).stdout


def divided(octets):
    """The messages of a File."""
    messages = []
    while octets:
        end = max(16, int.from_bytes(octets[2:4], "big"))
        messages.append(octets[:end])
        octets = octets[end:]
    return messages


def exported(trial, exporters):
    """Each archive is exported in two parts, whose octets end with those of its messages, and two new archives that
    they are fed to have its totals."""
    every = [exporter.counts[day] for day in range(2) for exporter in exporters]
    for folder, given in zip(folders(exporters, 0, 1), every):
        trial.go_on("export", folder)
        parts, names = (given.messages[:HALF], given.messages[HALF:]), []
        for number, part in enumerate(parts):
            octets = octets_of(trial, folder, 1 + HALF * number, HALF * number + len(part))
            messages = divided(octets)
            trial.compare("export", str(part), str(messages[len(messages) - len(part):]))
            names.append("%s-%d" % (folder.replace("/", "-"), number))
            os.mkdir(trial.at(names[-1]))
            trial.runs(["create", names[-1], WIDTH, "--limit", LEAST])
            trial.runs(["feed", names[-1], "-", *KEEP_ALL], "fed 1 %d\n" % len(messages), given=octets)
        trial.runs(["totals", *names, *ALL], given.sums(WIDTH))


def sealed(trial, folder):
    """How many segments of an archive are sealed: of one that a stream was fed to, it depends on its reads."""
    ran = subprocess.run([trial.program, "check", trial.at(folder)], stdout=subprocess.PIPE, timeout=SECONDS)
    return int((ran.stdout.split() or [0])[-1])


def kept(trial, exporters):
    """What is left of the first day when its flows are summed, and when it is removed."""
    every = [exporter.counts[day] for day in range(2) for exporter in exporters]
    trial.go_on("totals", "of all, the first day rolled and merged")
    for folder, given in zip(folders(exporters, 0), every):
        # (what fills a segment by itself seals the one before)
        trial.runs(["feed", folder, "-", *KEEP_ALL], "fed 1 1\n", given=LONGEST)
        count, segments = len(given.messages), sealed(trial, folder)
        trial.runs(["check", folder], "ok %d 0 0 %d\n" % (count + 1, segments))
        trial.runs(["roll", folder, "0"], "rolled %d\n" % segments)
        trial.runs(["merge", folder, "0"], "merged 1\n")
        trial.runs(["check", folder], "ok %d %d 1 0\n" % (count + 1, count))
        trial.runs(["flows", folder, *ALL], "")
    trial.runs(["totals", *folders(exporters, 0, 1), *ALL], all_of(every).sums(WIDTH))
    trial.go_on("totals", "of the second day, the first one removed")
    shutil.rmtree(trial.at(DATES[0]))
    trial.runs(["totals", *folders(exporters, 1), *ALL], all_of(every[len(exporters):]).sums(WIDTH))


def main(program):
    exporters = (
        ByDatagrams("north", Counted("north", 0, lost=HALF), Counted("north", 1)),
        ByDatagrams("south", Counted("south", 0), Counted("south", 1, late=3, lost=HALF)),
        ByStream("east", Counted("east", 0), Counted("east", 1)),
    )
    with tempfile.TemporaryDirectory(dir=in_memory()) as place:
        trial = Trial(os.path.abspath(program), place)
        try:
            for day in range(2):
                collected(trial, exporters, day)
            asked(trial, exporters)
            exported(trial, exporters)
            kept(trial, exporters)
        except Hung:
            pass
        finally:
            for exporter in exporters:
                exporter.close()
        trial.end()
    print("%d cases of the whole path: %d differ" % (trial.cases, trial.differ))
    return int(trial.differ > 0)


if __name__ == "__main__":
    sys.exit(main(sys.argv[1]) if len(sys.argv) == 2 else print(__doc__) or 2)
