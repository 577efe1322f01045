"""What scripts of judge/ share that run the program over archives: limits, messages with their flows and the sums of
these, as docs/FORMATS.md has them, and runs of the program beside what they must answer."""
import os
import shutil
import struct
import subprocess

SECONDS = 120

MEMORY = "/dev/shm"

# The greatest number of 8 octets, and of a KEEP.
FIELD, MOST_KEPT = (1 << 64) - 1, (1 << 32) - 1

# A time, and all of time.
TIME = 1_700_000_000
END = 1 << 32
ALL = ("0", str(END))
KEEP_ALL = ("--keep", str(MOST_KEPT))

# The limits: of a segment's messages in octets, of a wide interval in seconds, of domains with templates, of octets of
# template records in a domain, of files that a manifest names, and how many rows a message of a file of sums has.
LEAST, GREATEST = 65_535, 16_777_216
DAY = 86_400
DOMAINS, TEMPLATES, ENTRIES, ROWS = 64, 60_000, 4_096, 1_000

# A Template of elements 150, 4, 1 and 2, with counters of 8 octets, and one without a protocol; how many octets the
# message has that restates them both, or the first alone.
WITH = struct.pack(">10H", 256, 4, 150, 4, 4, 1, 1, 8, 2, 8)
WITHOUT = struct.pack(">8H", 257, 3, 150, 4, 1, 8, 2, 8)
PREFIX = 16 + 4 + len(WITH)


def around(most, *others):
    """One less, as many and one more than each power of two up to a number, and others."""
    powers = [1 << k for k in range(most.bit_length() + 1)]
    return sorted({n for power in powers for n in (power - 1, power, power + 1) if 1 <= n <= most} | set(others))


# ---- Messages ----

def a_set(number, octets):
    return struct.pack(">HH", number, 4 + len(octets)) + octets


def a_message(domain, sets, sequence=0):
    return struct.pack(">HHIII", 10, 16 + len(sets), TIME, sequence, domain) + sets


def padded(octets, domain=7):
    """A message of so many octets, of one Set of ID 4, which is passed over; of 16 octets there is none."""
    return a_message(domain, a_set(4, bytes(octets - 20)) if octets > 16 else b"")


LONGEST = padded(65_535)


class Given:
    """Messages, and the flows in them: each a start, a domain, a protocol or none, octets and packets."""

    def __init__(self):
        self.messages, self.flows, self.known, self.due, self.summed = [], [], set(), {}, {}

    def add(self, domain, flows, before=b"", after=b""):
        """Adds a message of a domain with these flows, each a start and a protocol, perhaps octets and packets, and
        other Sets beside them; the templates that they need are in it, where none of the domain had them."""
        octets = {256: b"", 257: b""}
        for start, protocol, *counts in flows:
            number = len(self.flows)
            flow = (start, domain, protocol, *(counts or (1000 + number % 997, 1 + number % 7)))
            self.flows.append(flow)
            if protocol is None:
                octets[257] += struct.pack(">IQQ", start, *flow[3:])
            else:
                octets[256] += struct.pack(">IBQQ", start, protocol, *flow[3:])
        wanted = [(number, record) for number, record in ((256, WITH), (257, WITHOUT))
                  if octets[number] and (domain, number) not in self.known]
        self.known.update((domain, number) for number, _ in wanted)
        templates = a_set(2, b"".join(record for _, record in wanted)) if wanted else b""
        data = b"".join(a_set(number, octets[number]) for number in octets if octets[number])
        due = self.due.get(domain, 0)
        self.messages.append(a_message(domain, before + templates + data + after, due))
        self.due[domain] = (due + len(flows)) % END

    def file(self):
        return b"".join(self.messages)

    def octets(self):
        return sum(map(len, self.messages))

    def rows(self, width):
        """The sums by intervals of this width, by start, domain and protocol; -1 is none."""
        count, rows = self.summed.get(width, (-1, {}))
        if count == len(self.flows):
            return rows
        rows = {}
        for start, domain, protocol, octets, packets in self.flows:
            row = rows.setdefault((start - start % width, domain, -1 if protocol is None else protocol), [0, 0, 0])
            row[0], row[1], row[2] = row[0] + 1, row[1] + octets, row[2] + packets
        self.summed[width] = len(self.flows), rows
        return rows

    def sums(self, width, wide="", span=(0, END)):
        """The lines of these sums, each with another word at its end."""
        rows = sorted(row for row in self.rows(width).items() if span[0] <= row[0][0] < span[1])
        return "".join("%d %d %s %d %d %d%s\n" % (start, domain, "-" if protocol < 0 else protocol, *row, wide)
                       for (start, domain, protocol), row in rows)

    def lines(self, span=(0, END)):
        """The lines of the flows."""
        return "".join("%d %d %s %d %d\n" % (flow[0], flow[1], "-" if flow[2] is None else flow[2], *flow[3:])
                       for flow in self.flows if span[0] <= flow[0] < span[1])


def times_of(rows):
    """The first and the last start of rows, as `check --files` has them."""
    return "%d %d" % (min(rows)[0], max(rows)[0]) if rows else "- -"


def octets_of(rows):
    """How many octets the file of these rows has: of one with more octets or packets than a field holds there are as
    many rows as these take."""
    domains = {}
    for (_, domain, protocol), (_, *counts) in rows.items():
        fields = max(1, *(-(-count // FIELD) for count in counts))
        domains.setdefault(domain, []).extend([protocol < 0] * fields)
    octets = 0
    for kinds in domains.values():
        kinds.sort()
        octets += 100
        for at in range(0, len(kinds), ROWS):
            bare = sum(kinds[at : at + ROWS])
            full = len(kinds[at : at + ROWS]) - bare
            octets += 16 + (4 + 41 * full if full else 0) + (4 + 40 * bare if bare else 0)
    return octets


def grown(given, first, to):
    """Adds messages with these numbers, one of a flow and one of the longest in turn: in the least segments no two of
    them fit together."""
    for number in range(first, to):
        if number % 2 == 0:
            given.add(7, [(TIME + 300 * (number % 50), 6)])
        else:
            given.messages.append(LONGEST)


def interleaved(*texts):
    """The lines of several sums by their keys, of one key those of the first sums first."""
    lines = [line for text in texts for line in text.splitlines(True)]
    return "".join(sorted(lines, key=lambda line: [-1 if word == "-" else int(word) for word in line.split()[:3]]))


# ---- Runs ----

class Hung(Exception):
    """A run doesn't end."""


class Trial:
    """Runs of the program in a folder, and what differs in them."""

    def __init__(self, program, place):
        self.program, self.place, self.case, self.cases, self.differ, self.differs = program, place, "", 0, 0, False

    def begin(self, sweep, size):
        """A new case, in an empty folder."""
        shutil.rmtree(self.place)
        os.mkdir(self.place)
        self.go_on(sweep, size)

    def go_on(self, sweep, size):
        """A new case, in the folder as it is."""
        self.end()
        self.case, self.differs = "%s: %s" % (sweep, size), False
        self.cases += 1

    def end(self):
        self.differ += self.differs
        self.differs = False

    def at(self, name):
        return os.path.join(self.place, name)

    def compare(self, what, wanted, came):
        """Says where two texts first differ."""
        if wanted == came:
            return
        self.differs = True
        lines = zip(wanted.split("\n") + [None] * came.count("\n"), came.split("\n") + [None] * wanted.count("\n"))
        number, (one, other) = next((n, pair) for n, pair in enumerate(lines, 1) if pair[0] != pair[1])
        print("%s: %s: line %d: wanted %.200r, came %.200r" % (self.case, what, number, one, other), flush=True)

    def runs(self, words, out="", refusal="", status=0, given=b""):
        """Runs the program on octets, or what a stream has, and compares what it answers. A refusal is all that is on
        standard error."""
        words = [str(word) for word in words]
        how = {"input": given} if isinstance(given, bytes) else {"stdin": given}
        try:
            ran = subprocess.run([self.program, *words], capture_output=True, cwd=self.place, timeout=SECONDS, **how)
        except subprocess.TimeoutExpired:
            self.compare(" ".join(words), "an end", "none in %d seconds" % SECONDS)
            raise Hung from None
        err = "".join("flowvault: %s\n" % line for line in (refusal, "see: flowvault explain " + refusal.split()[0])
                      ) if refusal else ""
        came = "status %d\n%s%s" % (ran.returncode, ran.stderr.decode(errors="replace"), ran.stdout.decode())
        self.compare(" ".join(words), "status %d\n%s%s" % (status, err, out), came)

    def feeds(self, octets, count):
        """Feeds a File of so many messages to the archive `a`, and rolls nothing."""
        with open(self.at("file"), "wb") as file:
            file.write(octets)
        self.runs(["feed", "a", "file", *KEEP_ALL], "fed 1 %d\n" % count)

    def makes(self, width, limit, *words):
        os.mkdir(self.at("a"))
        self.runs(["create", "a", width, "--limit", limit, *words])

    def seals(self, given, width, *words):
        """Makes an archive of one sealed segment with all these messages, and a longest one after it."""
        self.makes(width, max(LEAST, given.octets()), *words)
        self.feeds(given.file(), len(given.messages))
        self.feeds(LONGEST, 1)

    def rolls(self, given, width, wide):
        """Rolls and merges all sealed segments of an archive of one, and compares what is left."""
        count, rows = len(given.messages), given.rows(width)
        self.runs(["roll", "a", 0], "rolled 1\n")
        self.runs(["check", "a", "--files"], "ok %d %d 1 0\nrolled 5 %d %d %s\nactive 4 %d 1 - -\n" % (
            count + 1, count, octets_of(rows), count, times_of(rows), self.prefix(given) + len(LONGEST)))
        self.runs(["totals", "a", *ALL], given.sums(width))
        self.runs(["merge", "a", 0], "merged 1\n")
        self.runs(["totals", "a", *ALL], given.sums(wide, "" if wide == width else " %d" % wide))

    def prefix(self, given):
        """How many octets the prefix has after these messages."""
        sizes = {256: len(WITH), 257: len(WITHOUT)}
        return 20 * len({domain for domain, _ in given.known}) + sum(sizes[number] for _, number in given.known)


def by_shell(trial, asked, answers):
    """Asks requests of a shell on the archive `a`, and compares its answers."""
    wanted = "".join(answers)
    trial.runs(["shell", "a"], wanted, given="".join(line + "\n" for line in asked).encode())


def in_memory():
    """A folder of a file system in memory with room for all, where there is one: syncs take most of the time else."""
    is_one = os.access(MEMORY, os.W_OK) and shutil.disk_usage(MEMORY).free > 1 << 30
    return MEMORY if is_one else None
