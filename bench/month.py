"""month.py: an archive of a month, for ways.py: 2,880 segments, a quarter of an hour each, with 1,000 flows in each;
and the same flows collected by nfdump's nfcapd, where it is installed."""
import os
import shutil
import signal
import socket
import struct
import subprocess
import time

START, QUARTER, SEGMENTS, RECORDS, LIMIT = 1_700_000_100, 900, 2_880, 1_000, 65_535
ALL = (0, 4_294_967_296)
HOUR = (START + SEGMENTS // 2 * QUARTER, START + (SEGMENTS // 2 + 4) * QUARTER)
MINUTE = (START + SEGMENTS * QUARTER + 86_400, START + SEGMENTS * QUARTER + 86_460)
FIELDS = ((152, 8), (153, 8), (8, 4), (12, 4), (7, 2), (11, 2), (4, 1), (1, 8), (2, 8))
PORT, SECONDS = 49_739, 60


def message(number):
    """One that fills a segment: flows that start within its quarter of an hour."""
    template = struct.pack(">HH", 256, len(FIELDS)) + b"".join(struct.pack(">HH", *field) for field in FIELDS)
    records = b"".join(flow(START + number * QUARTER, n) for n in range(RECORDS))
    sets = struct.pack(">HH", 2, 4 + len(template)) + template + struct.pack(">HH", 256, 4 + len(records)) + records
    time_of, sequence = START + (number + 1) * QUARTER, number * RECORDS
    return struct.pack(">HHIII", 10, 16 + len(sets), time_of, sequence, 7) + sets


def flow(start, n):
    begun = (start + n % QUARTER) * 1000
    return struct.pack(">QQIIHHBQQ", begun, begun + 5000, 0x0A000000 + n, 0xC0A80000 + n % 250, 1024 + n, 443,
                       (6, 17, 1)[n % 3], 40 + n, 1 + n % 9)


def messages_of(span):
    """The messages whose flows start in a span."""
    return [message(n) for n in range(SEGMENTS) if span[0] <= START + n * QUARTER < span[1]]


def archive(program, folder, place):
    """Makes the archive, with nothing rolled."""
    whole = os.path.join(place, "month.ipfix")
    with open(whole, "wb") as to:
        to.writelines(messages_of(ALL))
    os.mkdir(folder)
    subprocess.run([program, "create", folder, "300", "--limit", str(LIMIT)], check=True)
    subprocess.run([program, "feed", folder, whole, "--keep", "4294967295"], check=True, stdout=subprocess.DEVNULL)
    os.unlink(whole)


def collected(folder, span):
    """Whether nfcapd has the flows of a span in files of this folder: not where nfdump isn't installed, or lost any."""
    if not shutil.which("nfcapd") or not shutil.which("nfdump"):
        return False
    os.mkdir(folder)
    words = ["nfcapd", "-w", folder, "-b", "127.0.0.1", "-p", str(PORT), "-B", "8388608"]
    given = messages_of(span)
    with subprocess.Popen(words, stdout=subprocess.DEVNULL, stderr=subprocess.DEVNULL) as collector:
        time.sleep(1)
        with socket.socket(socket.AF_INET, socket.SOCK_DGRAM) as to:
            for one in given:
                to.sendto(one, ("127.0.0.1", PORT))
                time.sleep(0.002)
        time.sleep(1)
        collector.send_signal(signal.SIGTERM)
        collector.wait(SECONDS)
    counts = subprocess.run([*nfdump(folder), "-o", "fmt:%fl"], stdout=subprocess.PIPE, text=True, check=False).stdout
    return sum(int(word) for word in counts.split() if word.isdigit()) == RECORDS * len(given)


def nfdump(folder):
    """The words that have nfdump sum the flows in its files of a folder, by protocol."""
    return ["nfdump", "-R", folder, "-q", "-A", "proto"]
