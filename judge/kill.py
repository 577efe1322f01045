"""kill.py FLOWVAULT [KILLS]: feeds eight Files at once to an archive in a folder, kills the program at a random moment,
and opens the archive again, until it was killed so many times (100). Each time it is compared with what was given to
it: all messages of a File whose line came are there; of each other File, which has a domain of its own, as many as its
domain's flows say; and the totals are those of `measure` of exactly the first so many of each. The archive is rolled
as it is fed."""
import os
import random
import struct
import subprocess
import sys
import tempfile
import time

program = os.path.abspath(sys.argv[1])
kills = int(sys.argv[2]) if len(sys.argv) > 2 else 100
random.seed(7)


def file_of(number, count):
    """A File of so many messages of 20 flows each, of a domain of its own, with its template in front."""
    domain, messages = 1 + number % 8, []
    template = struct.pack(">12H", 2, 24, 256, 4, 150, 4, 4, 1, 1, 4, 2, 4)
    for n in range(count):
        start = 1700000000 + random.randrange(3000)
        flows = b"".join(struct.pack(">IBII", start, 6, random.randrange(1500), 1) for _ in range(20))
        sets = (template if n == 0 else b"") + struct.pack(">2H", 256, 4 + len(flows)) + flows
        messages.append(struct.pack(">HHIII", 10, 16 + len(sets), start, 20 * n, domain) + sets)
    return messages


def asked(*words, octets=b""):
    told = subprocess.run([program, *words], input=octets, stdout=subprocess.PIPE, stderr=subprocess.PIPE)
    if told.returncode:
        sys.exit("%s: status %d, %s" % (" ".join(words), told.returncode, told.stderr.decode().strip()))
    return told.stdout.decode()


def fed_until(folder, paths, seconds):
    """The lines that were told before the program was killed."""
    feeding = subprocess.Popen([program, "feed", folder, *paths, "--keep", "1"], stdout=subprocess.PIPE)
    time.sleep(seconds)
    feeding.kill()
    lines = feeding.communicate()[0].decode().splitlines()
    return [int(line.split()[2]) for line in lines if line.startswith("fed ")], feeding.returncode


with tempfile.TemporaryDirectory(dir=os.environ.get("TMPDIR", ".")) as place:
    folder = os.path.join(place, "archive")
    os.mkdir(folder)
    asked("create", folder, "300", "--limit", "65535")
    history, counts, rounds, killed, longest = [], [0] * 8, 0, 0, 0.2
    while killed < kills:
        rounds += 1
        files = [file_of(n, 150) for n in range(8)]
        paths = []
        for n, messages in enumerate(files):
            paths.append(os.path.join(place, "%d.ipfix" % n))
            with open(paths[-1], "wb") as it:
                it.write(b"".join(messages))
        told, status = fed_until(folder, paths, random.uniform(0, longest))
        killed += status != 0
        longest = longest * 1.2 if status else longest / 1.2
        position = int(asked("check", folder).split()[1])
        totals = asked("totals", folder, "0", "4294967296")
        flows = [0] * 8
        for line in totals.splitlines():
            flows[int(line.split()[1]) - 1] += int(line.split()[3])
        for n, messages in enumerate(files):
            taken, rest = divmod(flows[n] - counts[n], 20)
            if rest or not (told[n] if n < len(told) else 0) <= taken <= len(messages):
                sys.exit("round %d: File %d has %d flows of %d messages more" % (rounds, n, flows[n] - counts[n], taken))
            history += messages[:taken]
        counts = flows
        if position != len(history):
            sys.exit("round %d: %d messages are there, and flows of %d" % (rounds, position, len(history)))
        if totals != asked("measure", "300", octets=b"".join(history)):
            sys.exit("round %d: the totals aren't those of the first messages of each File" % rounds)
    told = asked("check", folder).strip()
    print("%d rounds, %d of them killed; %d messages, %s" % (rounds, killed, len(history), told))
