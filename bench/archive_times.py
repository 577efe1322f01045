"""archive_times.py PLACE FLOWVAULT: the runs of archive.sh, the best of three each."""
import resource
import struct
import subprocess
import sys
import time

place, program = sys.argv[1], sys.argv[2]
bench = place + "/crates/archive_bench/out/archive_bench"
once = open(place + "/once.ipfix", "rb").read()


def places(octets):
    found, at = [], 0
    while at < len(octets):
        found.append(at)
        at += int.from_bytes(octets[at + 2:at + 4], "big")
    return found


def run(command, octets):
    best = None
    for _ in range(3):
        begun = time.perf_counter()
        subprocess.run(command, input=octets, stdout=subprocess.PIPE, check=True)
        spent = time.perf_counter() - begun
        best = spent if best is None else min(best, spent)
    return best


def archive(segments, messages, batch, openings=0, rolled=0, octets=once):
    words = [segments, -(-messages // batch), batch, openings, rolled]
    return run([bench] + [str(word) for word in words], octets)


def message(number, sets):
    return struct.pack(">HHIII", 10, 16 + len(sets), 1700000000, number, 7) + sets


def announcing(count):
    """A File of so many templates of one domain, 60 a message, and behind them 700 messages of 105 flows each."""
    fields = struct.pack(">8H", 150, 4, 4, 1, 1, 4, 2, 4)
    templates = [struct.pack(">2H", 256 + n, 4) + fields for n in range(count)]
    messages = []
    for at in range(0, count, 60):
        octets = b"".join(templates[at:at + 60])
        messages.append(message(0, struct.pack(">2H", 2, 4 + len(octets)) + octets))
    flows = struct.pack(">IBII", 1700000000, 6, 1500, 10) * 105
    for n in range(700):
        messages.append(message(105 * n, struct.pack(">2H", 256, 4 + len(flows)) + flows))
    return b"".join(messages)


messages = len(places(once))
print("%d messages of %d octets in a segment" % (messages, len(once) // messages))
for batch in (1, 64):
    few, many = (archive(segments, messages, batch) for segments in (10, 60))
    print("append by %2d: %.2f us a message" % (batch, (many - few) / 50 / messages * 1e6))
for segments in (25, 50, 100):
    none, some = (archive(segments, messages, 64, openings=n) for n in (0, 4))
    print("opening of %3d segments of 1 MiB: %.1f ms" % (segments, (some - none) / 4 * 1e3))
for count in (1, 500, 2900):
    octets = announcing(count)
    all_messages = len(places(octets))
    few, many, some = (archive(n, all_messages, 64, openings=m, octets=octets) for n, m in ((5, 0), (25, 0), (25, 4)))
    print("%d templates in force: append by 64 %.2f us a message, opening of 25 segments %.1f ms"
          % (count, (many - few) / 20 / all_messages * 1e6, (some - many) / 4 * 1e3))
none, some = archive(100, messages, 64), archive(100, messages, 64, rolled=100)
measured = run([program, "measure", "300"], once * 100)
print("a roll of 100 segments of 1 MiB: %.0f ms; measure 300 of the same octets: %.0f ms"
      % ((some - none) * 1e3, measured * 1e3))
small = once[:places(once)[1]]
for segments in (1000, 2000, 4000):
    sealed = archive(segments, 1, 1, octets=small)
    opened = archive(segments, 1, 1, openings=1, octets=small)
    rolled = archive(segments, 1, 1, rolled=segments, octets=small)
    print("%d entries: %.0f us a seal on the way, opening %.0f ms, a roll of all %.0f ms"
          % (segments, sealed / segments * 1e6, (opened - sealed) * 1e3, (rolled - sealed) * 1e3))
print("most memory of a run: %.0f MB" % (resource.getrusage(resource.RUSAGE_CHILDREN).ru_maxrss / 1e3))
