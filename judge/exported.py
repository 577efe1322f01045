#!/usr/bin/env python3
"""exported.py PROGRAM [--archives N] [--readers]: makes archives of random messages, of several Observation Domains
whose templates are defined, defined otherwise, withdrawn and restated, in small segments, some of which are rolled, and
exports spans of messages of each. What comes must be, to the octet, the templates that an independent reader of
archives (examples/read_archive.py) has in force before the first message, restated, and then the messages as they were
fed. It is fed to a new archive, which must take all of it in, and whose flows and totals must be those of just these
messages. `templates` must be the export of no message, after all. Messages that are rolled must be refused by 52.

Spans of time are exported likewise: what comes must be the messages of which some flow starts in the span, by the same
reader, and between the first and the last of these those with Sets of templates, after the templates in force before
the first. 52 must come exactly where an interval of the sums of rolled messages, which are merged in the end, meets the
span.

With --readers, other readers of IPFIX are given the Files too: tshark, libfixbuf's ipfixDump, and python3-ipfix, as
many of them as are installed; they must find as many messages as the independent reader, and nothing malformed. Where
ipfixDump comes to no end, that is printed, and is no difference.

It prints each difference, and ends with 'N cases of exports: M differ', where a case is an export; its status is 0
where M is 0, else 1."""
import argparse
import os
import random
import re
import shutil
import struct
import subprocess
import sys
import tempfile
import time

sys.path.insert(0, os.path.join(os.path.dirname(os.path.abspath(__file__)), "..", "examples"))
import read_archive  # noqa: E402

SECONDS, WIDTH, WIDE, LEAST = 120, 300, 86_400, 65_535

# How long another reader may take.
PATIENCE = 20

HEADER = 16
ALL = ("0", "4294967296")
TIME = 1_700_000_000

# The elements of templates: start, protocol, octets, packets, and one that counts for nothing.
ELEMENTS = ((150, 4), (4, 1), (1, 8), (2, 4), (12, 4))


# ---- Messages ----

def a_set(number, octets):
    return struct.pack(">HH", number, 4 + len(octets)) + octets


class Exporter:
    """Messages of random domains and templates. It knows no more of templates than what it sent."""

    def __init__(self, seed):
        self.chosen, self.known, self.due = random.Random(seed), {}, {}

    def template(self, domain, number):
        """A template record, and that it is known: some elements, in some order."""
        elements = self.chosen.sample(ELEMENTS, self.chosen.randrange(1, len(ELEMENTS) + 1))
        self.known[domain, number] = elements
        return struct.pack(">HH", number, len(elements)) + b"".join(struct.pack(">HH", *each) for each in elements)

    def options(self, domain, number):
        self.known[domain, number] = [(145, 4), (41, 4)]
        return struct.pack(">HHHHHHH", number, 2, 1, 145, 4, 41, 4)

    def withdrawal(self, domain, number):
        self.known.pop((domain, number), None)
        return struct.pack(">HH", number, 0)

    def record(self, domain, number):
        return b"".join(
            struct.pack(">I", TIME + self.chosen.randrange(100_000)) if element == 150
            else self.chosen.randbytes(length) for element, length in self.known[domain, number])

    def message(self):
        chosen = self.chosen
        domain = chosen.choice((0, 7, 9, 4_294_967_295))
        sets, count = b"", 0
        for _ in range(chosen.randrange(5)):
            number, kind = chosen.randrange(256, 262), chosen.randrange(12)
            if kind == 0 and (domain, number) in self.known and number < 261:
                sets += a_set(2, self.withdrawal(domain, number))
            elif kind == 1:
                sets += a_set(3, self.options(domain, 261))
            elif kind < 4 or (domain, number) not in self.known:
                sets += a_set(2, self.template(domain, min(number, 260)))
            if (domain, number) in self.known:
                records = chosen.randrange(1, 40)
                sets += a_set(number, b"".join(self.record(domain, number) for _ in range(records)))
                count += records
        if chosen.randrange(8) == 0:
            sets += a_set(4, bytes(chosen.randrange(20_000)))
        due = self.due.get(domain, 0)
        self.due[domain] = (due + count) % 2**32
        return struct.pack(">HHIII", 10, 16 + len(sets), TIME + chosen.randrange(100_000), due, domain) + sets


class Model:
    """What the independent reader makes of messages: before each the templates in force, restated; its flows."""

    def __init__(self, messages):
        carry, self.before, self.flows, self.records = read_archive.Carry(), [], [], []
        for message in messages:
            self.before.append(carry.prefix())
            flows, count = carry.take(message)
            self.flows.append(flows)
            self.records.append(count)
        self.before.append(carry.prefix())


def lines_of(flows):
    return "".join("%d %d %s %d %d\n" % (f[0], f[1], "-" if f[2] < 0 else f[2], *f[3:]) for f in flows)


def sums_of(flows):
    rows = {}
    for start, domain, protocol, octets, packets in flows:
        row = rows.setdefault((start - start % WIDTH, domain, protocol), [0, 0, 0])
        row[:] = row[0] + 1, row[1] + octets, row[2] + packets
    return "".join("%d %d %s %d %d %d\n" % (*key[:2], "-" if key[2] < 0 else key[2], *row)
                   for key, row in sorted(rows.items()))


def meets(flows, width, span):
    """Whether an interval of the sums of these flows has a second of a span."""
    starts = (flow[0] - flow[0] % width for flow in flows)
    return any(max(span[0], start) < min(span[1], start + width) for start in starts)


def sets_of(message):
    """The Set IDs of a message."""
    at = HEADER
    while at < len(message):
        number, length = struct.unpack(">HH", message[at:at + 4])
        yield number
        at += length


def has_templates(message):
    """Whether a message has a Template Set or an Options Template Set."""
    return any(number in (2, 3) for number in sets_of(message))


def has_sets(message):
    """Whether a message has a Set other than those whose IDs are reserved, which collectors pass over."""
    return any(number in (2, 3) or number >= 256 for number in sets_of(message))


def moment(second):
    return time.strftime("%Y-%m-%dT%H:%M:%SZ", time.gmtime(second))


def messages_of(octets):
    found, at = [], 0
    while at < len(octets):
        end = at + int.from_bytes(octets[at + 2:at + 4], "big")
        found.append(octets[at:end])
        at = end
    return found


# ---- Other readers ----

def by_tshark(path):
    """How many messages tshark finds; 'malformed' where it says so. It takes datagrams, so each is given as one."""
    pcap = path + ".pcap"
    with open(path, "rb") as file, open(pcap, "wb") as out:
        out.write(struct.pack("<IHHIIII", 0xA1B2C3D4, 2, 4, 0, 0, 1 << 18, 228))
        for message in messages_of(file.read()):
            udp = struct.pack(">HHHH", 4739, 4739, 8 + len(message), 0) + message
            here = b"\x7f\0\0\1"
            packet = struct.pack(">BBHHHBBH", 0x45, 0, 20 + len(udp), 0, 0, 64, 17, 0) + here + here + udp
            if len(packet) <= 65_535:
                out.write(struct.pack("<IIII", 0, 0, len(packet), len(packet)) + packet)
    words = ["-d", "udp.port==4739,cflow", "-T", "fields", "-e", "cflow.version", "-e", "_ws.malformed"]
    got = subprocess.run(["tshark", "-r", pcap, *words], capture_output=True, text=True, timeout=SECONDS)
    lines = got.stdout.splitlines()
    return "malformed" if any("alformed" in line for line in lines) else sum(line.startswith("10") for line in lines)


def by_fixbuf(path):
    """How many messages libfixbuf's ipfixDump finds, or what it says; nothing where it comes to no end, which is
    printed. It prints none of those that it reads no Set of, so these count as found."""
    try:
        got = subprocess.run(["ipfixDump", "--in", path], capture_output=True, text=True, timeout=PATIENCE)
    except subprocess.TimeoutExpired:
        print("ipfixDump comes to no end at %d octets" % os.path.getsize(path))
        return None
    if got.returncode:
        return got.stderr
    with open(path, "rb") as file:
        unprinted = sum(not has_sets(message) for message in messages_of(file.read()))
    return unprinted + len(re.findall("^--- Message Header ---$", got.stdout, re.M))


def by_python(path):
    """How many messages python3-ipfix reads to the end of the File, or what it raises."""
    import ipfix
    ipfix.ie.use_iana_default()
    with open(path, "rb") as file:
        reader = ipfix.reader.from_stream(file)
        try:
            for _ in reader.tuple_iterator() if hasattr(reader, "tuple_iterator") else reader.namedict_iterator():
                pass
        except EOFError:
            pass
        return reader.msg.msgcount if hasattr(reader.msg, "msgcount") else None


def readers():
    """The other readers that are installed."""
    found = [("tshark", by_tshark)] if shutil.which("tshark") else []
    found += [("ipfixDump", by_fixbuf)] if shutil.which("ipfixDump") else []
    try:
        import ipfix  # noqa: F401
        found.append(("python3-ipfix", by_python))
    except ImportError:
        pass
    return found


# ---- Trials ----

class Trials:
    def __init__(self, program, others):
        self.program, self.cases, self.differ, self.readers = program, 0, 0, others

    def run(self, *words, given=b""):
        return subprocess.run([self.program, *map(str, words)], input=given, capture_output=True, timeout=SECONDS)

    def answers(self, what, got, octets, status=0, said=b""):
        """Holds what came against what was wanted."""
        if (got.returncode, got.stdout, got.stderr) == (status, octets, said):
            return True
        self.differ += 1
        print("%s: wanted status %d and %d octets, came status %d and %d octets, %r" % (
            what, status, len(octets), got.returncode, len(got.stdout), got.stderr[:200]))
        return False

    def make(self, folder, messages):
        os.mkdir(folder)
        self.run("create", folder, WIDTH, "--limit", LEAST)
        got = self.run("feed", folder, "-", "--keep", 2**32 - 1, given=b"".join(messages))
        return got.stdout == b"fed 1 %d\n" % len(messages)

    def feeds_again(self, what, octets, flows, span=ALL):
        """What was exported is taken in by a new archive, whose flows are those of the messages."""
        with tempfile.TemporaryDirectory() as folder:
            again = os.path.join(folder, "again")
            if not self.make(again, messages_of(octets)):
                self.differ += 1
                return print("%s: isn't taken in" % what)
            self.answers(what + ", flows", self.run("flows", again, *ALL), lines_of(flows).encode())
            self.answers(what + ", totals", self.run("totals", again, *ALL), sums_of(flows).encode())
            within = [flow for flow in flows if int(span[0]) <= flow[0] < int(span[1])]
            self.answers(what + ", of the span", self.run("flows", again, *span), lines_of(within).encode())
            path = os.path.join(folder, "part")
            with open(path, "wb") as file:
                file.write(octets)
            for name, count in self.readers:
                came = count(path)
                if came not in (None, len(messages_of(octets))):
                    self.differ += 1
                    print("%s: %s reads %s of %d messages" % (what, name, came, len(messages_of(octets))))

    def exports(self, archive, seed, messages, model, cut, first, last):
        """Messages with these numbers, or those of none."""
        self.cases += 1
        words = ["export", archive] + ["--from", first] * (first is not None) + ["--to", last] * (last is not None)
        what = "archive %d: %s" % (seed, " ".join(map(str, words[2:])))
        got = self.run(*words)
        if first is not None and first <= cut:
            said = b"flowvault: 52 Rolled %d\nflowvault: see: flowvault explain 52\n" % cut
            return self.answers(what, got, b"", 1, said)
        begin = min(cut if first is None else first - 1, len(messages))
        end = max(begin, len(messages) if last is None else min(last, len(messages)))
        wanted = model.before[begin] + b"".join(messages[begin:end])
        if self.answers(what, got, wanted):
            self.feeds_again(what, wanted, [flow for flows in model.flows[begin:end] for flow in flows])

    def exports_by_time(self, archive, seed, messages, model, cuts, span):
        """The messages of a span of time; `cuts` are how many are in sums over wide intervals, and in sums at all."""
        self.cases += 1
        words = ["--since", moment(span[0])] * (span[0] > 0) + ["--until", moment(span[1])] * (span[1] < 2**32)
        what = "archive %d: %s" % (seed, " ".join(words))
        got = self.run("export", archive, *words)
        wide, summed = ([flow for flows in model.flows[a:b] for flow in flows] for a, b in ((0, cuts[0]), cuts))
        if meets(wide, WIDE, span) or meets(summed, WIDTH, span):
            said = b"flowvault: 52 Rolled %d\nflowvault: see: flowvault explain 52\n" % cuts[1]
            return self.answers(what, got, b"", 1, said)
        has = [i for i in range(cuts[1], len(messages)) if any(span[0] <= flow[0] < span[1] for flow in model.flows[i])]
        taken = [i for i in range(has[0], has[-1] + 1) if i in has or has_templates(messages[i])] if has else []
        wanted = model.before[has[0] if has else -1] + b"".join(messages[i] for i in taken)
        if self.answers(what, got, wanted):
            self.feeds_again(what, wanted, [flow for i in taken for flow in model.flows[i]], span)

    def rolls(self, archive, keep, merged):
        """Rolls all segments but so many, after all that is rolled was merged, where that is asked for. It answers how
        many messages are in sums over wide intervals then, and in sums at all."""
        cut = int(self.run("check", archive).stdout.split()[2])
        if merged:
            self.run("merge", archive, 0)
        self.run("roll", archive, keep)
        return (cut if merged else 0), int(self.run("check", archive).stdout.split()[2])

    def archive(self, seed, folder):
        """An archive of random messages, exported by numbers and by time, before some segments are rolled, after it,
        and once these are merged."""
        chosen, exporter = random.Random(-seed), Exporter(seed)
        messages = [exporter.message() for _ in range(chosen.choice((1, 2, 40, 150)))]
        model, archive = Model(messages), os.path.join(folder, "a")
        if not self.make(archive, messages):
            self.differ += 1
            return print("archive %d: isn't fed" % seed)
        wide, cut = 0, 0
        for merged in (False, True, None):
            self.exports(archive, seed, messages, model, cut, None, None)
            self.exports(archive, seed, messages, model, cut, len(messages) + 1, None)
            for _ in range(5):
                first = chosen.randrange(1, len(messages) + 2)
                last = chosen.choice((None, first - 1, chosen.randrange(first, len(messages) + 3)))
                self.exports(archive, seed, messages, model, cut, chosen.choice((first, first, None)), last)
            for _ in range(5):
                first = chosen.choice((0, TIME + chosen.randrange(-20_000, 120_000)))
                last = chosen.choice((2**32, max(first, TIME) + chosen.choice((1, 30, 300, 3_000, 100_000))))
                if (first, last) != (0, 2**32):
                    self.exports_by_time(archive, seed, messages, model, (wide, cut), (first, last))
            self.answers("archive %d: templates" % seed, self.run("templates", archive), model.before[-1])
            if merged is not None:
                wide, cut = self.rolls(archive, chosen.randrange(3), merged)


def main():
    words = argparse.ArgumentParser(description=__doc__, formatter_class=argparse.RawDescriptionHelpFormatter)
    words.add_argument("program")
    words.add_argument("--archives", type=int, default=12)
    words.add_argument("--readers", action="store_true")
    given = words.parse_args()
    others = readers() if given.readers else []
    if given.readers:
        print("other readers: %s" % (", ".join(name for name, _ in others) or "none is installed"))
    trials = Trials(os.path.abspath(given.program), others)
    for seed in range(1, given.archives + 1):
        with tempfile.TemporaryDirectory() as folder:
            trials.archive(seed, folder)
    print("%d cases of exports: %d differ" % (trials.cases, trials.differ))
    return int(trials.differ > 0)


if __name__ == "__main__":
    sys.exit(main())
