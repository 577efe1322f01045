#!/usr/bin/env python3
"""rolling_refused.py PROGRAM: damages a sealed segment while `feed` or `shell` of PROGRAM runs, in the octets that its
thread of rolling reads next, and takes messages in meanwhile. The refusal of the rolling is reported at the end, with
its place and its status; all messages are taken in all the same, and are there once the damage is mended, each once. It
tries an octet of a message's header, of a Set's, a message that is two, a 65th domain with templates, and a file that
is cut, which can't be read; and archives that nothing happens to, which are rolled while messages come.

What the archive has at a moment is read from its slots, as docs/FORMATS.md has them, so nothing hangs on the time that
a run takes. A run that doesn't end in SECONDS is ended, and differs. It prints each difference, and ends with 'N cases
of rolling: M differ'; its status is 0 where M is 0, else 1."""
import collections
import concurrent.futures
import contextlib
import os
import struct
import subprocess
import sys
import tempfile
import threading
import time

from trials import ALL, DOMAINS, LONGEST, TIME, WITH, Given, a_message, a_set, in_memory

SECONDS = 60

# The kinds of a manifest's entries that are asked for.
ROLLED, SEALED = 1, 2

# How many messages a segment of short ones has.
SHORT = 200

# How many segments that came last may wait for more octets, while a pipe is open, before they are rolled.
LATEST = 8


# ---- What is fed ----

class Segments:
    """Messages by segments: one of short messages with a flow each, one of a longest message, in turn, which fit no
    segment together with the one before. The first segment may have a message for each domain in place of short
    ones."""

    def __init__(self, count, with_domains=False):
        self.given, self.segments, self.flows = Given(), [], []
        for number in range(count):
            before, flows = len(self.given.messages), len(self.given.flows)
            if number == 0 and with_domains:
                self.given.messages += [a_message(1 + n % DOMAINS, a_set(2, WITH)) for n in range(DOMAINS + 1)]
            elif number % 2 == 0:
                for each in range(SHORT):
                    self.given.add(7, [(TIME + 300 * (each % 7), 6)])
            else:
                self.given.messages.append(LONGEST)
            self.segments.append(self.given.messages[before:])
            self.flows.append(self.given.flows[flows:])

    def file(self, first=0, to=None):
        """The octets of some of the segments."""
        return b"".join(message for segment in self.segments[first:to] for message in segment)

    def count(self, first=0, to=None):
        return sum(map(len, self.segments[first:to]))

    def sums(self, to):
        """The lines of the sums of the first segments."""
        given = Given()
        given.flows = sum(self.flows[:to], [])
        return given.sums(300)


# ---- The archive ----

Entry = collections.namedtuple("Entry", "kind prefix file length messages")


def slot(octets):
    """The generation of an open slot, and its entries."""
    if octets[:1] != b"\xa5" or len(octets) < 51:
        return -1, []
    count = struct.unpack_from(">I", octets, 47)[0]
    if len(octets) != 51 + 32 * count:
        return -1, []
    entries = [Entry._make(struct.unpack_from(">IIQQQ", octets, 51 + 32 * n)) for n in range(count)]
    return struct.unpack_from(">Q", octets, 3)[0], entries


def entries_of(folder, kind):
    """The entries of a kind that the manifest in force has."""
    slots = []
    for name in ("1.slot", "2.slot"):
        with open(os.path.join(folder, name), "rb") as file:
            slots.append(slot(file.read()))
    return [entry for entry in max(slots)[1] if entry.kind == kind]


def path_of(folder, entry):
    return os.path.join(folder, "%d.ipfix" % entry.file)


def is_settled(folder, entry):
    """Whether a sealed segment's file is read-only already: from then on it isn't changed."""
    return not os.stat(path_of(folder, entry)).st_mode & 0o200


@contextlib.contextmanager
def writable(path):
    """A file that may be read-only, to be changed, and is that afterwards."""
    mode = os.stat(path).st_mode
    os.chmod(path, mode | 0o200)
    try:
        with open(path, "r+b") as file:
            yield file
    finally:
        os.chmod(path, mode)


# ---- Damage ----

class Damage:
    """Damage of the file of a sealed segment: what there is in place of some octets of a message, or the file's end."""

    def __init__(self, name, segment, message, at, octets, *, place="message", text=None, status=5,
                 with_domains=False):
        self.name, self.segment, self.message, self.at, self.octets = name, segment, message, at, octets
        self.place, self.text, self.status, self.with_domains = place, text, status, with_domains

    def done_to(self, folder, entry, segments):
        """Damages the file of an entry: what is reported of it, while it is rolled and while it is opened, and what
        mends it."""
        path, prefix = path_of(folder, entry), entry.prefix
        start = prefix + sum(map(len, segments.segments[self.segment][: self.message]))
        with open(path, "rb") as file:
            before = file.read()
        with writable(path) as file:
            if self.octets is None:
                file.truncate(start + self.at)
            else:
                file.seek(start + self.at)
                file.write(self.octets)
        place = {"message": start, "length": entry.length, "end": start + self.at}[self.place]
        found = "20 Damaged %d %d" % (entry.file, place)
        return self.text or found, found, lambda: mended(path, before)


def mended(path, octets):
    with writable(path) as file:
        file.write(octets)
        file.truncate(len(octets))


SHORTEST = len(Segments(1).segments[0][1])

DAMAGES = (
    Damage("the Version of the first message", 0, 0, 1, b"\x0b"),
    Damage("the Version of a longest message", 1, 0, 0, b"\xff"),
    Damage("the Length of a message", 0, 100, 2, b"\0\0"),
    Damage("the Length of a Set", 0, 150, 18, b"\0\1"),
    Damage("a message that is two", 2, 20, 2, struct.pack(">H", 2 * SHORTEST), place="length"),
    Damage("a 65th domain with templates", 0, DOMAINS, 12, struct.pack(">I", DOMAINS + 1), with_domains=True),
    Damage("the file's end", 0, 30, 5, None, place="end", text="30 Fault", status=3),
)


# ---- Runs ----

class Late(Exception):
    """This didn't come."""


class Running:
    """A run of the program, which is ended after some time."""

    def __init__(self, words):
        self.process = subprocess.Popen(words, stdin=subprocess.PIPE, stdout=subprocess.PIPE, stderr=subprocess.PIPE)
        self.timer = threading.Timer(SECONDS, self.process.kill)
        self.timer.start()

    def __enter__(self):
        return self

    def __exit__(self, *_):
        self.timer.cancel()
        if self.process.poll() is None:
            self.process.kill()
            self.process.wait()

    def gives(self, octets):
        with contextlib.suppress(BrokenPipeError):
            self.process.stdin.write(octets)
            self.process.stdin.flush()

    def asks(self, request, lines):
        """Asks a shell, and answers so many lines, or fewer where there are no more."""
        self.gives(request.encode() + b"\n")
        return "".join(self.process.stdout.readline().decode() for _ in range(lines))

    def until(self, what):
        """Waits until something is so."""
        while not what():
            if self.process.poll() is not None:
                raise Late("what is waited for")
            time.sleep(0.002)

    def ended(self):
        """Its status, what was left of its standard output, and its standard error."""
        with contextlib.suppress(BrokenPipeError):
            self.process.stdin.close()
        self.process.stdin = None
        out, err = self.process.communicate()
        return self.process.returncode, out.decode(), err.decode()


def ran(*words):
    """What a command answers."""
    try:
        it = subprocess.run(words, stdin=subprocess.DEVNULL, capture_output=True, text=True, timeout=SECONDS)
    except subprocess.TimeoutExpired:
        raise Late("an end of " + words[1]) from None
    return it.returncode, it.stdout, it.stderr


def refused(text):
    """What standard error has of a refusal."""
    return "flowvault: %s\nflowvault: see: flowvault explain %s\n" % (text, text.split()[0])


def are_sealed(folder, count):
    """Whether so many segments are sealed, and settled."""
    entries = entries_of(folder, SEALED)
    return len(entries) == count and all(is_settled(folder, entry) for entry in entries)


# ---- Cases: each yields what is to be the same, as (what, wanted, came) ----

def mended_archive(program, folder, found, mend, segments, nothing_rolled):
    """What an archive answers while it is damaged, and all that it has once it is mended."""
    yield "check of damage", (5, "", refused(found)), ran(program, "check", folder)
    mend()
    status, out, err = ran(program, "check", folder)
    counts = out.split()
    yield "check", (0, ["ok", str(segments.count())], ""), (status, counts[:2], err)
    if nothing_rolled:
        yield "check", ["0", "0", str(len(segments.segments) - 1)], counts[2:]
    sums, left = segments.given.sums(300), int(counts[4]) if len(counts) == 5 else 0
    yield "totals", (0, sums, ""), ran(program, "totals", folder, *ALL)
    yield "roll", (0, "rolled %d\n" % (left - 1), ""), ran(program, "roll", folder, "1")
    yield "totals of what is rolled", (0, sums, ""), ran(program, "totals", folder, *ALL)


def fed(program, place, damage, ending=b""):
    """`feed` of standard input, with this damage; the File ends with these octets after its messages."""
    folder, segments = os.path.join(place, "a"), Segments(10, damage.with_domains)
    yield "create", (0, "", ""), created(program, folder)
    with Running([program, "feed", folder, "-", "--keep", "4"]) as run:
        run.gives(segments.file(0, 5))
        run.until(lambda: are_sealed(folder, 4))
        text, found, mend = damage.done_to(folder, entries_of(folder, SEALED)[damage.segment], segments)
        run.gives(segments.file(5) + ending)
        if ending:
            yield "feed", (1, "stopped 1 %d 15 Cut\n" % segments.count(), ""), run.ended()
        else:
            yield "feed", (damage.status, "fed 1 %d\n" % segments.count(), refused(text)), run.ended()
    yield from mended_archive(program, folder, found, mend, segments, damage.segment == 0)


def fed_cut(program, place, damage):
    """The same, of a File that ends within a message: it stopped, so its status is that of the run."""
    yield from fed(program, place, damage, LONGEST[:999])


def asked(program, place, damage):
    """`shell`, of Files, with this damage before a request `keep`."""
    folder, segments = os.path.join(place, "a"), Segments(10, damage.with_domains)
    yield "create", (0, "", ""), created(program, folder)
    files = [(segments.file(0, 5), segments.count(0, 5)), (segments.file(5), segments.count(5))]
    for number, (octets, _) in enumerate(files, 1):
        with open(os.path.join(place, "file%d" % number), "wb") as file:
            file.write(octets)
    with Running([program, "shell", folder]) as run:
        file = os.path.join(place, "file")
        yield "feed", "began 1\ndone 0\n", run.asks("feed %s1" % file, 2)
        yield "wait", "fed 1 %d\ndone 0\n" % files[0][1], run.asks("wait", 2)
        run.until(lambda: are_sealed(folder, 4))
        text, found, mend = damage.done_to(folder, entries_of(folder, SEALED)[damage.segment], segments)
        yield "keep", "done 0\n", run.asks("keep 1", 1)
        # (a segment that has no flows isn't read for sums)
        answer = "refused %s\ndone %d\n" % (text, damage.status)
        if not segments.flows[damage.segment]:
            answer = segments.sums(5) + "done 0\n"
        yield "totals", answer, run.asks("totals %s %s" % ALL, answer.count("\n"))
        yield "feed", "began 2\ndone 0\n", run.asks("feed %s2" % file, 2)
        yield "wait", "fed 2 %d\ndone 0\n" % files[1][1], run.asks("wait", 2)
        last = "message %d" % segments.count()
        yield last, "%s\ndone 0\n" % segments.given.messages[-1].hex(), run.asks(last, 2)
        yield "quit", "done 0\n", run.asks("quit", 1)
        yield "the end", (damage.status, "", refused(text)), run.ended()
    yield from mended_archive(program, folder, found, mend, segments, damage.segment == 0)


def opened_pipe(run, path):
    """A named pipe, once the program has opened it to be read."""
    found = []

    def is_open():
        with contextlib.suppress(OSError):
            found.append(os.open(path, os.O_WRONLY | os.O_NONBLOCK))
        return found

    run.until(is_open)
    os.set_blocking(found[0], True)
    return open(found[0], "wb", buffering=0)


def piped(program, place, damage):
    """`shell --keep 4` of a named pipe, with this damage; its input ends without a `quit`."""
    folder, segments = os.path.join(place, "a"), Segments(10, damage.with_domains)
    yield "create", (0, "", ""), created(program, folder)
    path = os.path.join(place, "pipe")
    os.mkfifo(path)
    with Running([program, "shell", folder, "--keep", "4"]) as run:
        yield "feed", "began 1\ndone 0\n", run.asks("feed " + path, 2)
        with contextlib.suppress(BrokenPipeError), opened_pipe(run, path) as pipe:
            write_all(pipe, segments.file(0, 5))
            run.until(lambda: are_sealed(folder, 4))
            text, found, mend = damage.done_to(folder, entries_of(folder, SEALED)[damage.segment], segments)
            write_all(pipe, segments.file(5))
        yield "wait", "fed 1 %d\ndone 0\n" % segments.count(), run.asks("wait", 2)
        yield "the end", (damage.status, "", refused(text)), run.ended()
    yield from mended_archive(program, folder, found, mend, segments, damage.segment == 0)


def have_come(folder, segments, to, most):
    """Whether of the first segments all are sealed but the last, and all of these rolled but so many at most."""
    try:
        sealed, rolled = (entries_of(folder, kind) for kind in (SEALED, ROLLED))
        count = sum(entry.messages for entry in sealed + rolled)
        return count == segments.count(0, to - 1) and len(sealed) <= most and all(
            is_settled(folder, entry) for entry in sealed)
    except FileNotFoundError:
        return False


def goes_on(program, place, _):
    """`feed` of standard input that waits for more, once and again: segments are rolled meanwhile, but perhaps those of
    the octets that were read last."""
    folder, segments, before = os.path.join(place, "a"), Segments(28), 0
    yield "create", (0, "", ""), created(program, folder)
    with Running([program, "feed", folder, "-", "--keep", "2"]) as run:
        for to in (14, 28):
            run.gives(segments.file(before, to))
            run.until(lambda to=to: have_come(folder, segments, to, 2 + LATEST))
            before = to
        yield "feed", (0, "fed 1 %d\n" % segments.count(), ""), run.ended()
    yield from rolled_well(program, folder, segments, 2)


def rolled_well(program, folder, segments, keep):
    """What an archive answers of which all was rolled but the newest segments."""
    status, out, err = ran(program, "check", folder)
    counts = out.split()
    wanted = ["ok", str(segments.count()), str(segments.count(0, -1 - keep)), str(keep)]
    yield "check", (0, wanted, ""), (status, counts[:3] + counts[4:], err)
    yield "totals", (0, segments.given.sums(300), ""), ran(program, "totals", folder, *ALL)


def goes_on_asked(program, place, _):
    """`shell`, of a named pipe that waits for more, with a request `keep` after each part of it."""
    folder, segments, before = os.path.join(place, "a"), Segments(18), 0
    yield "create", (0, "", ""), created(program, folder)
    path = os.path.join(place, "pipe")
    os.mkfifo(path)
    with Running([program, "shell", folder]) as run:
        yield "feed", "began 1\ndone 0\n", run.asks("feed " + path, 2)
        with contextlib.suppress(BrokenPipeError), opened_pipe(run, path) as pipe:
            for to, keep in ((5, 4), (9, 3), (14, 2), (18, 1)):
                write_all(pipe, segments.file(before, to))
                run.until(lambda to=to: have_come(folder, segments, to, to))
                yield "keep", "done 0\n", run.asks("keep %d" % keep, 1)
                run.until(lambda to=to, keep=keep: have_come(folder, segments, to, keep))
                before = to
        yield "wait", "fed 1 %d\ndone 0\n" % segments.count(), run.asks("wait", 2)
        yield "quit", "done 0\n", run.asks("quit", 1)
        yield "the end", (0, "", ""), run.ended()
    yield from rolled_well(program, folder, segments, 1)


CASES = (
    *(("feed, " + damage.name, fed, damage) for damage in DAMAGES),
    ("feed of a File that is cut, " + DAMAGES[0].name, fed_cut, DAMAGES[0]),
    *(("shell, " + damage.name, asked, damage) for damage in DAMAGES),
    *(("shell of a pipe, " + damage.name, piped, damage) for damage in (DAMAGES[0], DAMAGES[3], DAMAGES[-1])),
    ("feed that goes on", goes_on, None),
    ("shell that goes on", goes_on_asked, None),
)


def created(program, folder):
    os.mkdir(folder)
    return ran(program, "create", folder, "300", "--limit", "65535")


def write_all(pipe, octets):
    left = memoryview(octets)
    while left:
        left = left[pipe.write(left) :]


def differs(case, program):
    """Plays a case in a folder of its own: each difference, as a line."""
    name, played, damage = case
    lines, what = [], "it began"
    with tempfile.TemporaryDirectory(dir=in_memory()) as place:
        try:
            for what, wanted, came in played(program, place, damage):
                if wanted != came:
                    lines.append("%s: %s: wanted %.500r, came %.500r" % (name, what, wanted, came))
        except (Late, OSError, IndexError) as error:
            lines.append("%s: after %s: wanted what is to come, came %r" % (name, what, error))
    return lines


def main(program):
    with concurrent.futures.ThreadPoolExecutor(4) as side_by_side:
        found = list(side_by_side.map(differs, CASES, [os.path.abspath(program)] * len(CASES)))
    for lines in found:
        for line in lines:
            print(line)
    differ = sum(bool(lines) for lines in found)
    print("%d cases of rolling: %d differ" % (len(CASES), differ))
    return int(differ > 0)


if __name__ == "__main__":
    sys.exit(main(sys.argv[1]) if len(sys.argv) == 2 else print(__doc__) or 2)
