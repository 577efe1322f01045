"""interrupted.py PROGRAM INTERRUPT.SO: runs commands whose reads of standard input, or writes to standard output, are
interrupted, move few octets, or fail (judge/interrupt.c):

- a run bears 999,999 interrupted calls of one kind, those before all of its lines together, and the millionth ends it;
- Files that come, and lines that go, by one octet, by seven and by many, interrupted each time or not;
- a read that fails after each number of octets of a File: what was read before it counts, and it is told from a cut;
- lines for which there is room up to each of some octets.

Then runs some where no lock is to be had, by each error that the system has for that, and some where the system makes
no threads, or few: Files are taken in one after the other then, and what is rolled beside them is rolled at the end.
Prints how many runs there were, or what one of them answered else, and then ends with status 1."""
import errno
import os
import struct
import subprocess
import sys
import tempfile

# A template of elements 150, 4, 1 and 2, and a flow; a message without Sets; the longest one, which has no flow.
PLAIN = bytes.fromhex(
    "000A0039 6553F100 00000000 00000007 00020018 0100 0004 00960004 00040001 00010004 00020004"
    "01000011 6553F100 06 000005DC 0000000A"
)
BARE = bytes.fromhex("000A0010 6553F100 00000000 00000007")
LONGEST = bytes.fromhex("000AFFFF 6553F100 00000000 00000007 0004FFEF") + bytes(65_515)

LINE = "1699999800 7 6 1 1500 10\n"
CSV = "start,domain,protocol,flows,octets,packets,width\n1699999800,7,6,1,1500,10,300\n"
JSON_DATES = ('{"start":"2023-11-14T22:10:00Z","domain":7,"protocol":6,"flows":1,"octets":1500,"packets":10,'
              '"width":300}\n')
DUMPED = ("message 57 1700000000 0 7\nrecord 256 flowStartSeconds=1700000000 protocolIdentifier=6 octetDeltaCount=1500 "
          "packetDeltaCount=10\n")

UNREAD = "flowvault: 31 Read\nflowvault: see: flowvault explain 31\n"
UNWRITTEN = "flowvault: 32 Write\nflowvault: see: flowvault explain 32\n"

# The words of a run, the calls that fail, and what it answers: its status, standard output and standard error.
RUNS = (
    ("measure 300", {"READS": 999_999}, 0, LINE, ""),
    ("measure 300", {"READS": 1_000_000}, 3, "", UNREAD),
    ("measure 300", {"READS": 500_000, "READS_LATER": 499_999}, 0, LINE, ""),
    ("measure 300", {"READS": 500_000, "READS_LATER": 500_000}, 3, "", UNREAD),
    ("dump", {"READS": 500_000, "READS_LATER": 500_000}, 3, DUMPED, UNREAD),
    ("measure 300", {"WRITES": 999_999}, 0, LINE, ""),
    ("measure 300", {"WRITES": 1_000_000}, 3, "", UNWRITTEN),
    ("dump", {"READS": 1_000_000}, 3, "", UNREAD),
    ("inspect", {"READS": 1_000_000}, 3, "", UNREAD),
    ("inspect", {"WRITES": 1_000_000}, 3, "", UNWRITTEN),
    ("create a 300", {}, 0, "", ""),
    ("feed a plain plain", {"WRITES": 499_999, "WRITES_LATER": 499_999}, 0, "fed 1 1\nfed 2 1\n", ""),
    ("feed a plain plain", {"WRITES": 500_000, "WRITES_LATER": 500_000}, 3, "fed 1 1\n", UNWRITTEN),
    ("feed a -", {"READS": 1_000_000}, 3, "stopped 1 0 31 Read\n", ""),
    ("check a", {"WRITES": 999_999}, 0, "ok 4 0 0 0\n", ""),
    ("check a", {"WRITES": 1_000_000}, 3, "", UNWRITTEN),
    ("totals a 0 4294967296", {"WRITES": 1_000_000}, 3, "", UNWRITTEN),
    ("flows a 0 4294967296", {"WRITES": 1_000_000}, 3, "", UNWRITTEN),
)

# Two messages of 4,000 records of a field of one octet, and one of 7,000 flows that start one second after the other.
RECORDS = bytes.fromhex("000A0FC0 6553F100 00000000 00000007 0002000C 0100 0001 00040001 01000FA4").ljust(4_032, b"\6")
START, MANY = 1_700_000_000, 7_000
SECONDS = bytes.fromhex("000A6D80 6553F100 00000000 00000007 0002000C 0100 0001 00960004 01006D64") + struct.pack(
    ">%dI" % MANY, *range(START, START + MANY))

# The words of a run with many lines, what is given to it, how many octets it writes, and in how many writes.
LONG_RUNS = (
    ("dump", RECORDS * 2, 256_056, 4),
    ("measure 1", SECONDS, 147_000, 3),
    ("create b 1", b"", 0, 0),
    ("feed b -", SECONDS, 8, 1),
    ("totals b 0 4294967296", b"", 147_000, 3),
    ("flows b 0 4294967296", b"", 133_000, 3),
)

# Runs that write, their lines, and of how many octets a write takes how many, for how many in all there is room.
WRITING = (
    ("dump", DUMPED),
    ("measure 300", LINE),
    ("measure 300 --csv", CSV),
    ("measure 300 --json --utc", JSON_DATES),
)
PIECES_AND_ROOM = ((1, 1_000), (7, 1_000), (7, 0), (7, 40), (1, 120), (1, 24), (1, 25), (1, 1))

# How many octets a read gives, and before how many of them one is interrupted.
GIVEN_BY = ((1, 0), (1, 1), (7, 0), (7, 1), (65_536, 0), (65_536, 1))


NOT_LOCKED = (
    "flowvault: 30 Fault\nflowvault: the system can't lock the folder: has its file system locks?\n"
    "flowvault: see: flowvault explain 30\nflowvault: the system said: %s (os error %d)\n"
)

# The numbers of errors that a lock fails by: no locks to be had, no such call, none on this file system.
LOCK_ERRORS = (37, 38, 95)

# Commands that lock a folder, alone or with others.
LOCKING = ("feed a plain", "check a", "totals a 0 4294967296")


class Runs:
    """Runs of the program under a library, how many there were, and what one of them answered that isn't wanted."""

    def __init__(self, program, library):
        self.program, self.library, self.count, self.found = program, library, 0, []

    def answered(self, words, calls, given=PLAIN):
        """The status, standard output and standard error of a run whose calls fail so."""
        more = {"LD_PRELOAD": self.library, **{name: str(number) for name, number in calls.items()}}
        it = subprocess.run(
            [self.program, *words.split()], input=given, capture_output=True, timeout=60, env={**os.environ, **more}
        )
        self.count += 1
        return it.returncode, it.stdout.decode(), it.stderr.decode()

    def judge(self, good, words, calls, came):
        if not good:
            self.found.append("%s, %s: came %s" % (words, calls, came))

    def answers(self, words, calls, *wanted, given=PLAIN):
        """Runs it, and compares what it answers."""
        came = self.answered(words, calls, given)
        self.judge(came == wanted, words, calls, came)


def long_runs(runs):
    """Interrupts before the first of several writes, and before each later one, count together."""
    for words, given, octets, writes in LONG_RUNS:
        plain = runs.answered(words, {}, given)
        runs.judge(plain[0] == 0 and len(plain[1]) == octets, words, {}, plain[:1] + (len(plain[1]),))
        if writes < 2:
            continue
        first, each = (400_000, 300_000) if writes == 3 else (250_000, 250_000)
        for calls, is_borne in (
            ({"WRITES": 999_999}, True),
            ({"WRITES": 1_000_000}, False),
            ({"WRITES": first, "WRITES_LATER": each - 1}, True),
            ({"WRITES": first, "WRITES_LATER": each}, False),
        ):
            status, out, err = runs.answered(words, calls, given)
            good = (status, out, err) == plain if is_borne else (
                (status, err) == (3, UNWRITTEN) and out != plain[1] and plain[1].startswith(out))
            runs.judge(good, words, calls, (status, len(out), err))


def pieces(runs):
    """Files that come by pieces, and lines that go by pieces, up to the room that there is for them."""
    file = LONGEST + PLAIN + BARE + PLAIN
    runs.answers("create c 300", {}, 0, "", "")
    for fed, (piece, each) in enumerate(GIVEN_BY):
        calls = {"PIECE": piece, "READS": each, "READS_LATER": each}
        runs.answers("measure 300", calls, 0, "1699999800 7 6 2 3000 20\n", "", given=file)
        runs.answers("feed c -", calls, 0, "fed 1 4\n", "", given=file)
        runs.answers("check c", {}, 0, "ok %d 0 0 0\n" % (4 * fed + 4), "")
    for piece, room in PIECES_AND_ROOM:
        calls = {"PIECE": piece, "ROOM": room, "WRITES": 1, "WRITES_LATER": 1}
        for words, lines in WRITING:
            ends = (3, lines[:room], UNWRITTEN) if room < len(lines) else (0, lines, "")
            runs.answers(words, calls, *ends)


def failed_reads(runs):
    """After each number of octets of a File of two messages: `dump` writes the lines of the whole messages before the
    failed read, `feed` takes them in, `measure` writes nothing. A read that the system has no memory for is such a one,
    too."""
    runs.answers("create d 300", {}, 0, "", "")
    for count in range(len(PLAIN) * 2 + 1):
        whole, error = count // len(PLAIN), (errno.EIO, errno.ENOMEM)[count % 2]
        calls = {"GIVEN": count, "ERROR": error, "PIECE": 7, "READS": 1, "READS_LATER": 1}
        runs.answers("dump", calls, 3, DUMPED * whole, UNREAD, given=PLAIN * 2)
        runs.answers("measure 300", calls, 3, "", UNREAD, given=PLAIN * 2)
        runs.answers("feed d -", calls, 3, "stopped 1 %d 31 Read\n" % whole, "", given=PLAIN * 2)
    runs.answers("totals d 0 4294967296", {}, 0, "1699999800 7 6 59 88500 590\n", "")


def unlocked(runs):
    """Runs that no lock is given to."""
    for words in LOCKING:
        for error in LOCK_ERRORS:
            runs.answers(words, {"LOCKS": error}, 3, "", NOT_LOCKED % (os.strerror(error), error))


def without_threads(runs):
    """Runs that few threads are made for: two Files, of a segment each or more, and questions between."""
    with open("longer", "wb") as file:
        file.write(LONGEST * 5 + PLAIN)
    for number, threads in enumerate((0, 1, 2, 3, 4, 9)):
        folder, calls = "threads%d" % number, {"THREADS": threads}
        os.mkdir(folder)
        runs.answers("create %s 300 --limit 65535" % folder, {}, 0, "", "")
        runs.answers("feed %s plain longer --keep 1" % folder, calls, 0, "fed 1 1\nfed 2 6\n", "")
        runs.answers("totals %s 0 4294967296 --workers 3" % folder, calls, 0, "1699999800 7 6 2 3000 20\n", "")
        words, given = "shell %s --keep 0" % folder, b"feed longer\nfeed plain\nwait\n"
        status, out, err = runs.answered(words, calls, given)
        wanted = ["began 1", "began 2", "done 0", "done 0", "done 0", "fed 1 6", "fed 2 1"]
        runs.judge((status, sorted(out.split("\n")[:-1]), err) == (0, wanted, ""), words, calls, (status, out, err))
        came = runs.answered("check " + folder, {})
        # (all that is sealed is rolled by then)
        is_rolled = came[1].startswith("ok 14 ") and came[1].endswith(" 0\n")
        runs.judge(came[0] == 0 and is_rolled, "check", calls, came)


def play(runs):
    """Plays all of them, in a folder with a File."""
    with open("plain", "wb") as file:
        file.write(PLAIN)
    os.mkdir("a")
    for words, calls, *wanted in RUNS:
        runs.answers(words, calls, *wanted)
    for name in "bcd":
        os.mkdir(name)
    for part in (long_runs, pieces, failed_reads, unlocked, without_threads):
        part(runs)


if __name__ == "__main__":
    runs = Runs(*map(os.path.abspath, sys.argv[1:3]))
    with tempfile.TemporaryDirectory() as place:
        os.chdir(place)
        play(runs)
        os.chdir("/")
    if runs.found:
        sys.exit("\n".join(runs.found))
    print("%d runs whose calls are interrupted, move few octets or fail, or that get no lock or no threads: each answers "
          "as it must" % runs.count)
