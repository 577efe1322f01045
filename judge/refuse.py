"""refuse.py FLOWVAULT REFUSE.SO [COMMAND..]: runs each command, or those, over an archive in a folder with each of its
requests for memory refused, one a run, until a run comes to none. Such a run ends with status 4 and `11
OutOfMemory`; with status 3 and `30 Fault` where a folder's call that changes a file needed the memory, since a
disk's changes have no other refusal; or as if nothing had been refused (what is kept may be done without). The
archive then has a front of what it was given, each message once, and the command given again does all of it."""
import os
import struct
import subprocess
import sys
import tempfile

program, library = (os.path.abspath(word) for word in sys.argv[1:3])
commands = sys.argv[3:]


def message(number, domain, with_template):
    template = struct.pack(">12H", 2, 24, 256, 4, 150, 4, 4, 1, 1, 4, 2, 4) if with_template else b""
    flows = b"".join(struct.pack(">IBII", 1700000000 + 97 * n, 6, n, 1) for n in range(900))
    sets = template + struct.pack(">2H", 256, 4 + len(flows)) + flows
    return struct.pack(">HHIII", 10, 16 + len(sets), 1700000000 + number, 900 * number, domain) + sets


def run(*words, refuse=0, place=None, octets=b""):
    more = {"LD_PRELOAD": library, "REFUSE": str(refuse), "REFUSED": place + "/refused"} if refuse else {}
    return subprocess.run([program, *words], input=octets, stdout=subprocess.PIPE, stderr=subprocess.PIPE,
                          env={**os.environ, **more})


def told(*words, octets=b""):
    ran = run(*words, octets=octets)
    if ran.returncode:
        sys.exit("%s: status %d, %s" % (" ".join(words), ran.returncode, ran.stderr.decode().strip()))
    return ran.stdout.decode()


def fresh(place, before):
    folder = os.path.join(place, "archive")
    subprocess.run(["rm", "-rf", folder], check=True)
    os.mkdir(folder)
    for words in before:
        told(words[0], folder, *words[1:])
    return folder


def each_refused(place, before, words, history):
    """How many requests a command makes, each of which was refused in a run of its own, and how many ended in a
    fault."""
    wanted, count, faults = None, 0, 0
    while True:
        folder = fresh(place, before)
        ran = run(words[0], folder, *words[1:], refuse=count + 1, place=place)
        refused = os.path.exists(place + "/refused")
        if not refused:
            return count, faults
        os.remove(place + "/refused")
        count += 1
        line = ran.stdout.decode() + ran.stderr.decode()
        told_as = {4: "11 OutOfMemory", 3: "30 Fault"}
        if ran.returncode and told_as.get(ran.returncode, "?") not in line:
            sys.exit("%s, request %d: status %d, %s" % (words[0], count, ran.returncode, line))
        faults += ran.returncode == 3
        if words[0] == "create" and ran.returncode:
            if ran.returncode == 4:
                told("create", folder, *words[1:])
            continue
        position = int(told("check", folder).split()[1])
        if told("totals", folder, "0", "4294967296") != told("measure", "300", octets=b"".join(history[:position])):
            sys.exit("%s, request %d: other totals than those of %d messages" % (words[0], count, position))
        if words[0] == "feed":
            with open(place + "/rest.ipfix", "wb") as it:
                it.write(b"".join(history[position:]))
            told("feed", folder, place + "/rest.ipfix", *words[2:])
        elif ran.returncode:
            told(words[0], folder, *words[1:])
        line = told("check", folder)
        if wanted is None:
            wanted = line
        if words[0] == "feed" and line.split()[1] != str(len(history)) or words[0] != "feed" and line != wanted:
            sys.exit("%s, request %d, given again: %s" % (words[0], count, line.strip()))


with tempfile.TemporaryDirectory(dir=os.environ.get("TMPDIR", ".")) as place:
    history = [message(n, 7, n % 5 == 0) for n in range(12)]
    with open(place + "/all.ipfix", "wb") as it:
        it.write(b"".join(history))
    made = ["create", "300", "--limit", "65535"]
    fed = ["feed", place + "/all.ipfix", "--keep", "4294967295"]
    for before, words in (([], made), ([made], ["feed", place + "/all.ipfix", "--keep", "0"]),
                          ([made, fed], ["check"]), ([made, fed], ["totals", "0", "4294967296"]),
                          ([made, fed], ["totals", "0", "4294967296", "--each"]),
                          ([made, fed], ["flows", "0", "4294967296"]), ([made, fed], ["roll", "0"]),
                          ([made, fed, ["roll", "1"], ["roll", "0"]], ["totals", "0", "4294967296"])):
        if commands and words[0] not in commands:
            continue
        print("%s: %d requests for memory, each refused in turn; %d told as a fault"
              % (words[0], *each_refused(place, before, words, history)), flush=True)
