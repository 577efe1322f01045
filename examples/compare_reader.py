#!/usr/bin/env python3
"""compare_reader.py PROGRAM [SEED]: compares examples/read_archive.py with flowvault, whose built program is PROGRAM.

It makes the archive of which docs/FORMATS.md has dumps, and compares its octets with these. Then it makes archives in a
temporary folder, whole ones, ones whose program was killed as it fed, and damaged ones. For each it asks the reader and
then the program for `check`, and for `totals` and `flows` over several spans, and compares what they write, line by
line, and their statuses. It prints what was compared; the status is 0 where all agree, else 1.
"""
import fcntl, glob, os, random, re, shutil, signal, struct, subprocess, sys, tempfile, time

HERE = os.path.dirname(os.path.abspath(__file__))
READER = os.path.join(HERE, "read_archive.py")
TIME = 1700000000
WITHDRAW_ALL = (2, struct.pack(">HH", 2, 0)), (3, struct.pack(">HH", 3, 0))
FIELDS = [(150, 4), (152, 8), (152, 8), (152, 4), (4, 1), (4, 1), (4, 2), (1, 8), (1, 4), (1, 3), (1, 65535), (2, 4),
          (2, 9), (2, 8), (210, 65535), (8, 4), (85, 8), (33000, 4), (32769, 8), (32772, 65535)]


class Compared:
    """Runs of the reader and of the program, and how many agreed."""
    def __init__(self, program):
        self.program, self.asked, self.lines, self.differ = program, 0, 0, 0

    def run(self, *words, program=None):
        program = program or [self.program]
        return subprocess.run([*program, *words], stdout=subprocess.PIPE, stderr=subprocess.PIPE, timeout=300)

    def make(self, *words):
        done = self.run(*words)
        if done.returncode != 0:
            sys.exit(f"flowvault {' '.join(words)}: {done.stderr.decode()}{done.stdout.decode()}")

    def ask(self, *words):
        """Asks the reader, and then the program: its opening may cut and remove files."""
        ours = self.run(*words, program=[sys.executable, READER])
        theirs = self.run(*words)
        told = [done.stderr.decode().split("\n")[0].partition(": ")[2] for done in (ours, theirs)]
        told[0] = "30 Fault" if told[0].startswith("30 ") else told[0]
        self.asked += 1
        self.lines += theirs.stdout.count(b"\n")
        if (ours.stdout, ours.returncode, told[0]) != (theirs.stdout, theirs.returncode, told[1]):
            self.differ += 1
            wrong = [pair for pair in zip(ours.stdout.split(b"\n"), theirs.stdout.split(b"\n")) if pair[0] != pair[1]]
            print(f"DIFFERS: {' '.join(words)}: {ours.returncode} {told}, {theirs.returncode}; {wrong[:3]}")
        return theirs.stdout.decode().split("\n")[:-1]

    def compare(self, name, folder):
        """Asks for all of an archive."""
        before = (self.asked, self.lines, self.differ)
        state = " ".join(self.ask("check", folder))
        begins = [int(line.split()[0]) for line in self.ask("flows", folder, "0", "4294967296")] or [TIME]
        flow = begins[len(begins) // 2]
        starts = [int(line.split()[0]) for line in self.ask("totals", folder, "0", "4294967296")]
        starts = sorted(set(starts)) or [TIME]
        middle, last = starts[len(starts) // 2], starts[-1]
        spans = (("totals", starts[0] + 1, last), ("totals", middle, middle + 1), ("totals", middle - 1, middle),
                 ("flows", flow, flow + 1), ("flows", flow - 1, flow), ("totals", middle + 1, middle))
        for command, start, end in spans:
            self.ask(command, folder, str(start), str(end))
        asked, lines, differ = (now - then for now, then in zip((self.asked, self.lines, self.differ), before))
        print(f"{name}: {state}; {asked} answers, {lines} lines, {differ} differ", flush=True)


def message(domain, sequence, now, sets):
    octets = b"".join(struct.pack(">HH", number, 4 + len(body)) + body for number, body in sets)
    return struct.pack(">HHIII", 10, 16 + len(octets), now, sequence, domain) + octets


def template(chance, number, kind):
    """A template record of random fields, and these."""
    fields = [chance.choice(FIELDS) for _ in range(chance.randint(1, 7))]
    octets = struct.pack(">HH", number, len(fields))
    octets += struct.pack(">H", chance.randint(1, len(fields))) if kind == 3 else b""
    for element, length in fields:
        octets += struct.pack(">HH", element, length) + (struct.pack(">I", 29305) if element >= 2**15 else b"")
    return octets, fields


def value(chance, element, length):
    """A field of a record: times that are near each other, few protocols, small counts and the greatest."""
    now = TIME + chance.randrange(20000)
    if (element, length) == (152, 8):
        return struct.pack(">Q", chance.choice([now * 1000 + chance.randrange(1000)] * 9 + [2**64 - 1 - now]))
    if (element, length) == (150, 4):
        return struct.pack(">I", now)
    if element == 4:
        return chance.choice([6, 17]).to_bytes(length, "big")
    octets = chance.choice([bytes(length - 1) + b"\x64", chance.randbytes(length)] * 4 + [b"\xff" * length])
    return octets


def record(chance, fields):
    octets = b""
    for element, length in fields:
        if length == 65535:
            body = value(chance, element, chance.choice([1, 4, 8, 9]))
            octets += bytes([len(body)]) + body if chance.random() < 0.7 else struct.pack(">BH", 255, len(body)) + body
        else:
            octets += value(chance, element, length)
    return octets


def messages(chance, count, domains):
    """Random messages: templates of both kinds that change and are withdrawn, data, padding and other Sets."""
    known, due, octets = {}, {}, b""
    for n in range(count):
        domain, sets, records = chance.choice(domains), [], 0
        here = known.setdefault(domain, {})
        if not here or chance.random() < 0.2:
            kind, number = chance.choice([2, 2, 2, 3]), chance.randint(256, 260)
            body, here[number] = template(chance, number, kind)
            sets.append((kind, body + bytes(chance.choice([0, 0, 2]))))
        for number in chance.sample(sorted(here), min(len(here), 2)):
            some = [record(chance, here[number]) for _ in range(chance.randint(0, 25))]
            sets.append((number, b"".join(some)))
            records += len(some)
        if chance.random() < 0.05:
            sets.append(chance.choice([(5, b"\x01\x02\x03"), (999, b"\x01" * 9)]))
        if here and chance.random() < 0.05:
            number = chance.choice(sorted(here))
            sets += [(kind, struct.pack(">HH", number, 0)) for kind in (2, 3)]
            del here[number]
        octets += message(domain, due.get(domain, 0), TIME + n, sets)
        due[domain] = due.get(domain, 0) + records
    return octets


def great_rows(domains, keys):
    """Messages of many domains, which have no template after them, and of a key whose sums take several rows."""
    octets, body = b"", struct.pack(">HHHHHHHH", 256, 3, 150, 4, 1, 8, 4, 1)
    for domain in range(domains):
        records = b"".join(struct.pack(">IQB", TIME + 300 * n, 2**64 - 1 - (n % 3), 6) * 3 for n in range(keys))
        for at in range(0, len(records), 13 * 4000):
            sets = (2, body), (256, records[at:at + 13 * 4000]), *WITHDRAW_ALL
            octets += message(domain, at // 13, TIME, sets)
    return octets


def damage(compared, chance, folder, copy, count):
    """Compares what is reported of copies of an archive in which octets are changed, cut off or added."""
    before, differ = compared.asked, compared.differ
    kinds = {}
    for _ in range(count):
        shutil.rmtree(copy, ignore_errors=True)
        shutil.copytree(folder, copy)
        path = os.path.join(copy, chance.choice(sorted(os.listdir(copy))))
        os.chmod(path, 0o640)
        octets = bytearray(open(path, "rb").read())
        how = chance.randrange(5)
        at = min(chance.choice([chance.randrange(len(octets)), chance.randrange(150)]), len(octets) - 1)
        if how == 0:
            del octets[at:]
        elif how == 1:
            octets += chance.randbytes(chance.randint(1, 40))
        elif how == 2:  # two rows of a rolled file, or two domains of two rows with three each, are exchanged
            begin, size = chance.choice([(120, 41), (120, 40), (0, 362), (0, 366)])
            begin += size * chance.randrange(1 + len(octets) // size)
            octets[begin:begin + 2 * size] = octets[begin + size:begin + 2 * size] + octets[begin:begin + size]
        else:
            octets[at] = chance.choice([0, 1, octets[at] ^ 1, octets[at] ^ 128, chance.randrange(256)])
        open(path, "wb").write(octets)
        compared.ask("check", copy)
        told = compared.ask("totals", copy, "0", "4294967296")
        kinds[bool(told)] = kinds.get(bool(told), 0) + 1
    print(f"damaged copies of {os.path.basename(folder)}: {kinds.get(True, 0)} read, {kinds.get(False, 0)} refused or "
          f"without sums; {compared.asked - before} answers, {compared.differ - differ} differ", flush=True)


def dumps(compared, folder, big):
    """Makes the page's archive, and compares each file with the page's dump of it."""
    page = open(os.path.join(HERE, "..", "docs", "FORMATS.md"), encoding="utf-8").read()
    found = dict(re.findall(r"^```\n(\d+\.(?:slot|ipfix))\n at  octets.*\n((?:.+\n)+?)```$", page, re.MULTILINE))
    steps = [(["create", folder, "300", "--wide", "900", "--limit", "65535"], "1.slot"),
             (["feed", folder, os.path.join(HERE, "plain.ipfix")], "3.ipfix"), (["feed", folder, big], "4.ipfix"),
             (["roll", folder, "0"], "5.ipfix"), (["merge", folder, "0"], "6.ipfix"), (["check", folder], "2.slot")]
    for words, name in steps:
        compared.make(*words)
        octets = open(os.path.join(folder, name), "rb").read()
        lines = re.findall(r"^ *(\d+)  ([0-9A-F]+(?: [0-9A-F]+)*)  +\S", found.get(name, ""), re.MULTILINE)
        wrong = [at for at, text in lines if not octets[int(at):].startswith(bytes.fromhex(text))]
        compared.asked += 1
        compared.differ += bool(wrong or not lines)
        print(f"the page's dump of {name}: {len(lines)} lines, {len(wrong)} differ {wrong or ''}", flush=True)


# An archive of the first format: a message in a sealed segment, whose template the active one's prefix restates.
FIRST_FORMAT = {
    "1.slot": "A5 0001 0000000000000001 0000012C 00100000 0000000000000004 0000000000000000 00000001"
              "00000003 00000000 0000000000000003 0000000000000000 0000000000000000",
    "2.slot": "A5 0001 0000000000000002 0000012C 00100000 0000000000000005 0000000000000000 00000002"
              "00000002 00000000 0000000000000003 0000000000000039 0000000000000001"
              "00000003 00000028 0000000000000004 0000000000000000 0000000000000000",
    "3.ipfix": "000A0039 6553F100 00000000 00000007 00020018 01000004 00960004 00040001 00010004 00020004"
               "01000011 6553F100 06 000005DC 0000000A",
    "4.ipfix": "000A0028 6553F100 00000001 00000007 00020018 01000004 00960004 00040001 00010004 00020004 0000"}

# Changes of its files: from which octet on these are written, or all is cut off, and what is answered then.
EXCHANGED = FIRST_FORMAT["2.slot"].replace(" ", "")[142:] + FIRST_FORMAT["2.slot"].replace(" ", "")[78:142]
CHANGES = [
    ("2.slot", 102, None, "23 Cut 2"), ("2.slot", 1, "0003", "21 Format 2"), ("2.slot", 0, None, "23 Cut 2"),
    ("2.slot", 39, EXCHANGED, "22 Entries 2"), ("1.slot", 10, "02", "20 Damaged 2 3"), ("1.slot", 0, "00", ""),
    ("4.ipfix", 40, None, "20 Damaged 4 40"), ("4.ipfix", 40, "01", "20 Damaged 4 40"), ("4.ipfix", 41, "FF", ""),
    ("4.ipfix", 40, "000A0010" + "00" * 12, "20 Damaged 4 40"), ("4.ipfix", 42, "000A0010", ""),
    ("4.ipfix", 39, None, "20 Damaged 4 39"), ("4.ipfix", 21, "01", "20 Damaged 4 0"),
    ("4.ipfix", 4, "00", "20 Damaged 4 0"), ("3.ipfix", 56, None, "20 Damaged 3 56"),
    ("3.ipfix", 19, "03", "20 Damaged 3 0"), ("2.slot", 70, "02", "20 Damaged 3 57"), ("3.ipfix", 57, "0000", "")]


def few(compared, at, file):
    """An archive of the first format, and changes of it; folders that hold none or can't be had."""
    before = compared.differ
    for name, place, octets, wanted in [("2.slot", 0, "A5", ""), *CHANGES]:
        shutil.rmtree(at("first"), ignore_errors=True)
        os.mkdir(at("first"))
        for other, text in FIRST_FORMAT.items():
            file(os.path.join("first", other), bytes.fromhex(text))
        with open(os.path.join(at("first"), name), "r+b") as out:
            out.seek(place)
            out.write(bytes.fromhex(octets or ""))
            out.truncate() if octets is None else None
        reported = compared.run("check", at("first"), program=[sys.executable, READER]).stderr.decode()
        compared.differ += wanted not in reported or bool(wanted) != bool(reported)
        compared.ask("check", at("first"))
    print(f"the first format, and {len(CHANGES)} changes of it: {compared.differ - before} differ", flush=True)
    before = compared.differ
    compared.ask("check", at("absent"))
    os.mkdir(at("none"))
    compared.ask("check", at("none"))
    os.symlink("nowhere", os.path.join(at("none"), "9.ipfix"))
    compared.ask("check", at("none"))
    handle = os.open(at("first"), os.O_RDONLY)
    fcntl.flock(handle, fcntl.LOCK_EX)
    compared.ask("check", at("first"))
    fcntl.flock(handle, fcntl.LOCK_SH)
    beside = compared.run("check", at("first"), program=[sys.executable, READER])
    wrong = (beside.returncode, compared.run("check", at("first")).returncode) != (0, 3)
    os.close(handle)
    compared.differ += wrong
    print(f"no folder, no archive, a link, the lock held by another: {compared.differ - before} differ", flush=True)


def main(program, seed="1"):
    chance, compared = random.Random(int(seed)), Compared(os.path.abspath(program))
    with tempfile.TemporaryDirectory(prefix="compare-reader-") as top:
        def at(name):
            return os.path.join(top, name)

        def archive(name, *words):
            os.mkdir(at(name))
            compared.make("create", at(name), *words)
            return at(name)

        def file(name, octets):
            with open(at(name), "wb") as out:
                out.write(octets)
            return at(name)

        os.mkdir(at("flows"))
        big = message(7, 1, 0x6553F13C, [(4, bytes(65515))])
        dumps(compared, at("flows"), file("big.ipfix", big))
        compared.compare("the page's archive", at("flows"))
        few(compared, at, file)
        samples = sorted(glob.glob(os.path.join(HERE, "*.ipfix")))
        some = file("some.ipfix", messages(chance, 250, [0, 7, 4294967295]))
        more = file("more.ipfix", messages(chance, 200, [7, 8]))
        many = file("many.ipfix", great_rows(200, 2))
        long = file("long.ipfix", great_rows(2, 400))
        for name, words in (("equal", ["300", "--wide", "300"]), ("wide", ["300", "--wide", "3600"]), ("seven", ["7"])):
            folder = archive(name, *words, "--limit", "65535")
            compared.compare(f"{name}, empty", folder)
            for command in (["feed", *samples, some], ["roll", "1"], ["merge", "0"], ["feed", many],
                            ["feed", more, long], ["roll", "0"], ["feed", some], ["roll", "1"], ["merge", "1"]):
                compared.make(command[0], folder, *command[1:], *(["--keep", "99"] if command[0] == "feed" else []))
                compared.compare(f"{name}, {command[0]}", folder)
        damage(compared, chance, at("wide"), at("copy"), 60)
        killed = archive("killed", "300", "--wide", "900", "--limit", "65535")
        for n in range(6):
            feeding = subprocess.Popen([compared.program, "feed", killed, some, more, long, "--keep", "1"],
                                       stdout=subprocess.DEVNULL, stderr=subprocess.DEVNULL)
            time.sleep(chance.uniform(0.3, 4))
            feeding.send_signal(signal.SIGKILL)
            feeding.wait()
            compared.compare(f"killed {n + 1} times", killed)
        damage(compared, chance, killed, at("copy"), 60)
    print(f"{compared.asked} answers and {compared.lines} lines compared, {compared.differ} answers differ")
    return 1 if compared.differ else 0


if __name__ == "__main__":
    if not 2 <= len(sys.argv) <= 3 or sys.argv[1].startswith("-"):
        sys.exit(__doc__)
    sys.exit(main(*sys.argv[1:]))
