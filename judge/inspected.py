"""inspected.py PROGRAM [COUNT]: makes so many Files of random messages, 1,000 where no count is given, and compares
what `inspect --csv` says of each with a count of its own, which knows docs/FORMATS.md and RFC 7011 and none of the
program. Files that are refused are passed over; a tenth of all at least are accepted. Prints how many agree, or the
first File that doesn't, and then ends with status 1."""
import random
import struct
import subprocess
import sys

# The elements that say when a flow starts and ends, in the octets that they are encoded in.
MOMENTS = ((150, 4), (151, 4), (152, 8), (153, 8))
FIELDS = 5 * MOMENTS + 2 * ((1, 8), (2, 4)) + ((151, 2), (4, 1), (82, 65535), (22, 4), (154, 8), (150, 2), (152, 4))
# What a flow's octets and packets are summed by, and the elements that count them otherwise.
SUMMED = ((1, {23, 85, 352}), (2, {24, 86}))
RATES = {34, 50, *range(305, 312)}
FIELDS += ((23, 4), (85, 8), (352, 65535), (24, 4), (86, 8), (34, 4), (50, 1), (305, 4), (311, 8), (304, 2), (312, 2))
TEMPLATES = (256, 257, 258, 259)
SETS = TEMPLATES + (260, 9, 255)
HALF = 1 << 31


# ---- Files ----

def made_template(rng, kind):
    """A template record of a Set of this kind (2 or 3): a definition, a withdrawal, or one of all."""
    chance, template = rng.random(), rng.choice(TEMPLATES)
    if chance < 0.2:
        return struct.pack(">HH", template if chance < 0.15 else kind, 0)
    count = rng.randint(1, 4)
    octets = struct.pack(">HH", template, count) + (struct.pack(">H", 1) if kind == 3 else b"")
    for _ in range(count):
        element, length = rng.choice(FIELDS)
        of_enterprise = rng.random() < 0.1
        octets += struct.pack(">HH", element | (0x8000 if of_enterprise else 0), length)
        octets += struct.pack(">I", 9) if of_enterprise else b""
    return octets


def made_set(rng):
    """A Set: of template records, or of octets under an ID."""
    if rng.random() < 0.4:
        number = rng.choice((2, 2, 3))
        octets = b"".join(made_template(rng, number) for _ in range(rng.randint(1, 2)))
    else:
        number = rng.choice(SETS)
        octets = bytes(rng.choice((0, 0, 0, 1, 2, 3, 200)) for _ in range(rng.choice((0, 0, 1, 8, 12, 16, 24, 40, 60))))
    return struct.pack(">HH", number, 4 + len(octets)) + octets


def made_file(rng):
    """A File of some messages of three domains."""
    octets = b""
    for _ in range(rng.randint(1, 12)):
        sets = b"".join(made_set(rng) for _ in range(rng.randint(0, 6)))
        sequence = rng.choice((rng.randint(0, 9), rng.randint(0, 2**32 - 1)))
        header = (10, 16 + len(sets), rng.randint(0, 2**32 - 1), sequence, rng.choice((1, 2, 7)))
        octets += struct.pack(">HHIII", *header) + sets
    return octets


# ---- The count ----

def take_templates(octets, kind, here):
    """Takes template records into the definitions of a domain, a kind, scope fields and fields by ID. It answers how
    many of them replace a different one."""
    at = replaced = 0
    while len(octets) - at >= 4:
        template, count = struct.unpack_from(">HH", octets, at)
        if template == 0:
            break
        at += 4
        if count == 0:
            gone = [each for each in here if here[each][0] == kind and template in (each, kind)]
            for each in gone:
                del here[each]
            continue
        (scope,) = struct.unpack_from(">H", octets, at) if kind == 3 else (0,)
        at += 2 if kind == 3 else 0
        fields = []
        for _ in range(count):
            element, length = struct.unpack_from(">HH", octets, at)
            of_enterprise = element >= 0x8000
            (enterprise,) = struct.unpack_from(">I", octets, at + 4) if of_enterprise else (None,)
            at += 8 if of_enterprise else 4
            fields.append((enterprise, element & 0x7FFF, length))
        replaced += here.get(template, (kind, scope, fields)) != (kind, scope, fields)
        here[template] = kind, scope, fields
    return replaced


def moments_of(octets, at, fields):
    """The first number of each moment in the record at a place, and the place after it."""
    found = {}
    for enterprise, element, length in fields:
        if length == 65535:
            length, at = octets[at], at + 1
            if length == 255:
                (length,), at = struct.unpack_from(">H", octets, at), at + 2
        if enterprise is None and (element, length) in MOMENTS:
            found.setdefault(element, int.from_bytes(octets[at : at + length], "big"))
        at += length
    return found, at


def seconds_of(found, milliseconds, seconds):
    return found[milliseconds] // 1000 if milliseconds in found else found.get(seconds)


def take_caveats(row, found, elements):
    """Counts a flow whose sums may be other than its exporter means."""
    row["placed"] += found.get(152, 2**63) // 1000 >= 2**32 and 150 not in found
    row["uncounted"] += any(number not in elements and others & elements for number, others in SUMMED)
    row["sampled"] += bool(RATES & elements)


def take_flow(row, time, found):
    """Counts a flow: when it starts, and how long it lasts."""
    start = found.get(152, 2**63) // 1000
    start = start if start < 2**32 else found.get(150, time)
    row["first"], row["last"] = min(row.get("first", start), start), max(row.get("last", start), start)
    start, end = seconds_of(found, 152, 150), seconds_of(found, 153, 151)
    if start is not None and end is not None:
        lasts = max(0, end - start)
        row["longest"] = max(row.get("longest", 0), lasts)
        row["long"] += lasts > 300


def take_set(row, time, number, octets, here):
    """Counts a Set, and answers how many data records it has."""
    if number in (2, 3):
        row["replaced"] += take_templates(octets, number, here)
        return 0
    if number < 256:
        return 0
    if number not in here:
        row["unread_sets"], row["unread_octets"] = row["unread_sets"] + 1, row["unread_octets"] + 4 + len(octets)
        return 0
    kind, _, fields = here[number]
    smallest, at, count = sum(1 if length == 65535 else length for _, _, length in fields), 0, 0
    while smallest and len(octets) - at >= smallest:
        found, at = moments_of(octets, at, fields)
        count += 1
        row["options" if kind == 3 else "records"] += 1
        if kind == 2:
            take_flow(row, time, found)
            take_caveats(row, found, {element for enterprise, element, _ in fields if enterprise is None})
    return count


def take_sequence(row, sequence):
    """Counts a gap, or a message that is backwards."""
    far = (sequence - row["due"]) % 2**32
    row["gaps"] += 0 < far < HALF
    row["missing"] += far if far < HALF else 0
    row["backwards"] += far >= HALF


def counted(octets):
    """What there is of each domain, in the order of their first messages."""
    rows, templates, at = {}, {}, 0
    names = ("messages", "records", "options", "unread_sets", "unread_octets", "replaced", "gaps", "missing", "backwards")
    names += ("long", "placed", "uncounted", "sampled")
    while at < len(octets):
        _, length, time, sequence, domain = struct.unpack_from(">HHIII", octets, at)
        if domain in rows:
            take_sequence(rows[domain], sequence)
        row = rows.setdefault(domain, {"domain": domain, **dict.fromkeys(names, 0)})
        row["messages"] += 1
        row["from"], row["to"] = min(row.get("from", time), time), max(row.get("to", time), time)
        records, to, at = 0, at + length, at + 16
        while at < to:
            number, length = struct.unpack_from(">HH", octets, at)
            records += take_set(row, time, number, octets[at + 4 : at + length], templates.setdefault(domain, {}))
            at += length
        row["due"] = sequence + records
    return rows.values()


# ---- Comparing ----

def said(program, octets):
    """The names and the lines of `inspect --csv`; nothing where the File is refused."""
    it = subprocess.run([program, "inspect", "--csv"], input=octets, capture_output=True, timeout=60)
    if it.returncode == 1:
        return None
    names, *lines = it.stdout.decode().splitlines()
    return names.split(","), [line.split(",") for line in lines]


def main(program, count):
    agree = 0
    for seed in range(count):
        octets = made_file(random.Random(seed))
        found = said(program, octets)
        if found is None:
            continue
        names, lines = found
        wanted = [[str(row.get(name, "")) for name in names] for row in counted(octets)]
        if lines != wanted:
            return "File %d, %s: wanted %s, came %s" % (seed, octets.hex(), wanted, lines)
        agree += 1
    if agree * 10 < count:
        return "%d of %d Files are accepted" % (agree, count)
    print("%d random Files that are accepted: inspect says what an independent count does" % agree)
    return 0


if __name__ == "__main__":
    sys.exit(main(sys.argv[1], int(sys.argv[2]) if len(sys.argv) > 2 else 1000))
