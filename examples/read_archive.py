#!/usr/bin/env python3
"""read_archive.py: an independent reader of flowvault's archives, by what docs/FORMATS.md says and no more.

  read_archive.py check DIR             looks for what an opening refuses, and writes `ok POSITION CUT ROLLED SEALED`
  read_archive.py totals DIR FROM TO    writes the sums of the intervals that start from FROM on and before TO
  read_archive.py flows DIR FROM TO     writes the flows that aren't rolled and start from FROM on and before TO

FROM and TO are seconds since 1970-01-01 00:00 UTC, 0 to 4294967296. The lines are flowvault's own. Nothing in DIR is
changed. The folder's lock is held shared meanwhile, so no flowvault runs there; where one runs already, the answer is
30 Fault. A refusal is a line on standard error. The status is 0, or 2 for wrong words, 3 for 30, 5 for 20 to 24.
"""
import fcntl, os, re, struct, sys
from collections import namedtuple

Entry = namedtuple("Entry", "kind prefix file length messages")
Manifest = namedtuple("Manifest", "generation width wide limit next rolled messages_wide entries")
WIDE, ROLLED, SEALED, ACTIVE = ORDER = [4, 1, 2, 3]
NONE = -1  # the protocol of flows without one, which come first in the order of lines
MOST_MESSAGES, FULL = 2**48 - 1, 2**64 - 1
HEAD = bytes.fromhex("00020038 0100000600980008009900080004000101780008 0001000800020008 010100050098000800990008"
                     "0178000800010008 00020008 00030012 01020002000100910002 01800001 0102000A 010001 010101")

class Refused(Exception):
    """A refusal: its number, its name and its places. Within a file: its place, or none, where it is the message's."""

def need(holds, *refusal):
    if not holds:
        raise Refused(*refusal)

def number_at(octets, at, count):
    return int.from_bytes(octets[at:at + count], "big")

def end_of_message(octets, at, end):
    """The end of the message at a place, cut off by its Length as in a File that ends there."""
    length = number_at(octets, at + 2, 2)
    need(end - at >= 16 and number_at(octets, at, 2) == 10 and 16 <= length <= end - at)
    return at + length

def template_record(octets, at, end, kind):
    """A template record: its octets, and its fields as (element, length), None for an enterprise's element."""
    count, place, fields = number_at(octets, at + 2, 2), at + (4 if kind == 2 else 6), []
    need(kind == 2 or end - at >= 6 and 1 <= number_at(octets, at + 4, 2) <= count)
    for _ in range(count):
        element, length = number_at(octets, place, 2), number_at(octets, place + 2, 2)
        fields.append((element if element < 2**15 else None, length))
        place += 4 if element < 2**15 else 8
        need(place <= end)
    return octets[at:place], fields

def data_records(octets, at, end, fields):
    """The records of a Data Set, each a list of (element, octets)."""
    least = sum(1 if length == 65535 else length for _, length in fields)
    while 0 < least <= end - at:
        record = []
        for element, length in fields:
            if length == 65535:
                length, at = number_at(octets, at, 1), at + 1
                if length == 255:
                    length, at = number_at(octets, at, 2), at + 2
            need(at + length <= end)
            record.append((element, octets[at:at + length]))
            at += length
        yield record

def flow_of(record, domain, time):
    """The flow that a data record of a Template is: its start, domain, protocol, octets and packets."""
    def first(element, lengths, otherwise):
        return next((number_at(o, 0, 8) for e, o in record if e == element and len(o) in lengths), otherwise)
    start = first(152, [8], 2**64) // 1000
    if start >= 2**32:
        start = first(150, [4], time)
    return start, domain, first(4, [1], NONE), first(1, range(1, 9), 0), first(2, range(1, 9), 0)

class Carry:
    """What a segment's messages hand on: the definitions in force by domain, Set ID (2 or 3) and Template ID; each
    domain's next Sequence Number; and the last Export Time."""
    def __init__(self):
        self.domains, self.due, self.time = {}, {}, 0

    def template_set(self, domain, kind, octets, at, end):
        while end - at >= 4 and number_at(octets, at, 2) != 0:
            number, count = struct.unpack_from(">HH", octets, at)
            need(number >= 256 or (number, count) == (kind, 0))
            kinds = self.domains.setdefault(domain, {2: {}, 3: {}})
            for withdrawn in list(kinds[kind]) if number == kind else [number] * (count == 0):
                kinds[kind].pop(withdrawn, None)
            if count > 0:
                kinds[kind][number] = template_record(octets, at, end, kind)
                kinds[5 - kind].pop(number, None)
            at += len(kinds[kind][number][0]) if count > 0 else 4
            if not kinds[2] and not kinds[3]:
                del self.domains[domain]

    def take(self, octets):
        """Takes in a message: its flows, and how many data records it has."""
        time, sequence, domain = struct.unpack_from(">III", octets, 4)
        at, flows, count = 16, [], 0
        while at < len(octets):
            number, length = number_at(octets, at, 2), number_at(octets, at + 2, 2)
            need(4 <= length <= len(octets) - at)
            if number in (2, 3):
                self.template_set(domain, number, octets, at + 4, at + length)
            for kind, definitions in self.domains.get(domain, {}).items():
                for record in data_records(octets, at + 4, at + length, definitions.get(number, (b"", []))[1]):
                    count += 1
                    flows += [flow_of(record, domain, time)] if kind == 2 else []
            at += length
        sizes = [len(record) for kind in self.domains.get(domain, {}).values() for record, _ in kind.values()]
        need(sum(sizes) <= 60000 and len(self.domains) <= 64)
        self.due[domain], self.time = (sequence + count) % 2**32, time
        return flows, count

    def prefix(self):
        """The octets of the next segment's prefix."""
        octets = b""
        for domain, kinds in self.domains.items():
            records = [(kind, b"".join(record for record, _ in kinds[kind].values())) for kind in (2, 3)]
            sets = b"".join(struct.pack(">HH", kind, 4 + len(r)) + r for kind, r in records if r)
            octets += struct.pack(">HHIII", 10, 16 + len(sets), self.time, self.due[domain], domain) + sets
        return octets

def decode(body, slot):
    """The manifest that the body of a slot holds."""
    need(len(body) >= 2, 23, "Cut", slot)
    layout = {1: ">2xQIIQQI", 2: ">2xQIIIQQQI"}.get(number_at(body, 0, 2))
    need(layout, 21, "Format", slot)
    size = struct.calcsize(layout)
    need(len(body) >= size, 23, "Cut", slot)
    *head, count = struct.unpack_from(layout, body)
    if size == 38:
        head = [*head[:2], 86400 // max(head[1], 1) * head[1], *head[2:], 0]
    need(1 <= head[1] <= head[2] <= 86400 and head[2] % head[1] == 0 and 65535 <= head[3] <= 2**24
         and 1 <= count <= 4096, 22, "Entries", slot)
    need(len(body) == size + 32 * count, 23, "Cut", slot)
    manifest = Manifest(*head, [Entry(*entry) for entry in struct.iter_unpack(">IIQQQ", body[size:])])
    need(is_valid(manifest), 22, "Entries", slot)
    return manifest

def is_valid(m):
    """Whether entries are in order, each by its kind, and add up to what the fields before them say."""
    *others, last = m.entries
    kinds = [e.kind for e in m.entries]
    counts = [sum(e.messages for e in others if e.kind == kind) for kind in ORDER]
    return (set(kinds) <= set(ORDER) and kinds == sorted(kinds, key=ORDER.index) and kinds.count(ACTIVE) == 1
            and (last.length, last.messages) == (0, 0) and all(e.messages >= 1 for e in others)
            and all(3 <= e.file < m.next for e in m.entries) and len({e.file for e in m.entries}) == len(kinds)
            and all(e.prefix == 0 for e in others if e.kind != SEALED)
            and all(e.prefix + 16 <= e.length <= e.prefix + m.limit for e in others if e.kind == SEALED)
            and counts[0] == m.messages_wide and counts[0] + counts[1] == m.rolled and sum(counts) <= MOST_MESSAGES)

def in_force(slots):
    """The manifest in force, of the octets of slot 1 and slot 2."""
    need(any(octets[:1] == b"\xa5" for octets in slots), 24, "NoArchive")
    found = []
    for slot, octets in enumerate(slots, 1):
        need(octets, 23, "Cut", slot)
        found += [decode(octets[1:], slot)] if octets[0] == 0xA5 else []
    need(len({manifest.generation for manifest in found}) == len(found), 20, "Damaged", 2, 3)
    return max(found)

def rows_of(sets, width, domain):
    """The rows of a message of a rolled file: each its key, flows, octets and packets. A head has none."""
    rows, at = [], 0
    for number, layout in ((256, ">QQBQQQ"), (257, ">QQQQQ")):
        if number_at(sets, at, 2) == number:
            end = at + number_at(sets, at + 2, 2)
            need(at + 4 < end <= len(sets) and (end - at - 4) % struct.calcsize(layout) == 0)
            for first, last, *rest in struct.iter_unpack(layout, sets[at + 4:end]):
                start = first // 1000
                need(first % 1000 == 0 and start < 2**32 and start % width == 0 and last == (start + width) * 1000 - 1)
                rows.append(((start, domain, rest[0] if number == 256 else NONE), *rest[-3:]))
            at = end
    need(sets == HEAD or at == len(sets) and 1 <= len(rows) <= 1000)
    return rows

def follows(row, last):
    """Whether a row may come after another of its domain, or first of all."""
    key, flows, octets, packets = row
    if last and key == last[0]:
        full = (before == FULL or now == 0 for before, now in zip(last[2:], row[2:]))
        return flows == 0 and octets + packets > 0 and all(full)
    places = [(key[2] == NONE, key[0], key[2]) for key in ([last[0], key] if last else [key])]
    return flows > 0 and places == sorted(places)

class Archive:
    """What an opening finds: the manifest in force, the rows of rolled and wide files, and the kept flows."""
    def __init__(self, folder):
        self.folder, self.rows, self.flows, self.called = folder, [], [], None
        self.manifest = in_force([self.octets_of("1.slot"), self.octets_of("2.slot")])
        self.position = sum(entry.messages for entry in self.manifest.entries)
        for entry in self.manifest.entries:
            try:
                self.read(entry, self.octets_of(f"{entry.file}.ipfix"))
            except Refused as refused:
                raise Refused(20, "Damaged", entry.file, *(refused.args or [self.at])) from None

    def octets_of(self, name):
        path = os.path.join(self.folder, name)
        return open(path, "rb").read() if os.path.lexists(path) else b""

    def read(self, entry, octets):
        """Reads the file of an entry. `at` is the place of the message that is looked at."""
        need(len(octets) >= (entry.prefix if entry.kind == ACTIVE else entry.length), len(octets))
        if entry.kind in (WIDE, ROLLED):
            self.add_rows(octets[:entry.length], self.manifest.wide if entry.kind == WIDE else self.manifest.width)
        elif entry.kind == SEALED:
            need(self.segment(octets, entry.prefix, entry.length) == entry.messages, entry.length)
        else:
            end = self.end_of_list(octets, entry.prefix)
            self.position += self.segment(octets, entry.prefix, end)
            need(end <= entry.prefix + self.manifest.limit and self.position <= MOST_MESSAGES, entry.prefix)

    def add_rows(self, octets, width):
        """Reads a rolled file: each message is one that such a file can have after those before it."""
        self.at, domain, due, count, last = 0, -1, 0, None, None
        while self.at < len(octets):
            end = end_of_message(octets, self.at, len(octets))
            time, sequence, here = struct.unpack_from(">III", octets, self.at + 4)
            rows = rows_of(octets[self.at + 16:end], width, here)
            need(time == number_at(octets, 4, 4))
            if rows == []:
                need(sequence == 0 and count != 0 and domain < here)
                due, last = 2, None
            else:
                need(here == domain and sequence == due % 2**32 and count in (0, 1000))
                need(all(follows(row, before) for before, row in zip([last] + rows, rows)))
                due, last = due + len(rows), rows[-1]
            self.rows += [(width, row) for row in rows]
            self.at, domain, count = end, here, len(rows)
        need(count != 0)

    def end_of_list(self, octets, at):
        """The place of the closed gate that ends a list of messages."""
        self.at = at
        while octets[self.at:self.at + 2] == b"\x00\x0a":
            self.at = end_of_message(octets, self.at, len(octets) - 2)
        need(len(octets) - self.at >= 2 and octets[self.at] == 0)
        return self.at

    def segment(self, octets, prefix, end):
        """Reads a segment up to its end, and counts the messages after its prefix."""
        carry, total, self.at = Carry(), 0, 0
        need(prefix > 0 or not self.called)
        while self.at < end:
            after = end_of_message(octets, self.at, prefix if self.at < prefix else end)
            flows, count = carry.take(octets[self.at:after])
            need(self.at >= prefix or count == 0)
            self.flows += flows
            self.at, total = after, total + (self.at >= prefix)
            need(after != prefix or self.called in (None, octets[:prefix]), 0)
        self.called = carry.prefix()
        return total

def totals(archive, start, end):
    """The rows of sums: of two of one key the narrow one is first, and a wide one ends with its width."""
    width, sums = archive.manifest.width, {}
    kept = [(width, ((t - t % width, domain, protocol), 1, *counts)) for t, domain, protocol, *counts in archive.flows]
    for own, (key, *counts) in archive.rows + kept:
        sums[key, own] = [a + b for a, b in zip(sums.get((key, own), (0, 0, 0)), counts)]
        need(sums[key, own][0] <= FULL, 20, "Damaged", archive.manifest.entries[0].file, 0)
    return [(*key, *counts, *[own] * (own != width)) for (key, own), counts in sorted(sums.items())
            if start <= key[0] < end]

def flows(archive, start, end):
    """The flows that aren't rolled, in the order in which they were taken in."""
    return [flow for flow in archive.flows if start <= flow[0] < end]

def check(archive):
    """How many messages there are, and how many are in sums alone; how many files of sums, and sealed segments."""
    sealed = sum(entry.kind == SEALED for entry in archive.manifest.entries)
    return [["ok", archive.position, archive.manifest.rolled, len(archive.manifest.entries) - sealed - 1, sealed]]

def lock(folder):
    """Takes the folder's lock, shared, until this program ends. A name of a file is to be that of a file."""
    handle = os.open(folder, os.O_RDONLY | os.O_DIRECTORY)
    fcntl.flock(handle, fcntl.LOCK_SH | fcntl.LOCK_NB)
    for entry in os.scandir(handle):
        if re.fullmatch(r"[12]\.slot|(0|[3-9]|[1-9][0-9]+)\.ipfix", entry.name, re.ASCII):
            need(entry.is_file(follow_symlinks=False), 30, "Fault", f"({entry.name} isn't a file)")

def main(words):
    if words in (["-h"], ["--help"]):
        return print(__doc__, end="")
    command = {"check 2": check, "totals 4": totals, "flows 4": flows}.get(f"{''.join(words[:1])} {len(words)}")
    span = [int(word) for word in words[2:] if re.fullmatch("[0-9]{1,20}", word, re.ASCII) and int(word) <= 2**32]
    if command is None or len(span) != len(words[2:]):
        print("read_archive.py: a word isn't understood; --help has the commands", file=sys.stderr)
        return 2
    try:
        lock(words[1])
        lines = command(Archive(words[1]), *span)
    except (Refused, OSError) as error:
        refusal = error.args if isinstance(error, Refused) else (30, "Fault", f"({error})")
        print("read_archive.py:", *refusal, file=sys.stderr)
        return 3 if refusal[0] == 30 else 5
    sys.stdout.writelines(" ".join("-" if part == NONE else str(part) for part in line) + "\n" for line in lines)

if __name__ == "__main__":
    sys.exit(main(sys.argv[1:]))
