#!/usr/bin/env python3
"""generate.py OCTETS [SECONDS] > FILE: an IPFIX File of at least so many octets, the same for the same numbers, whose
messages are sent within so many seconds, or 200 of them in each second.

Four Observation Domains send messages of some 1,400 octets, as over UDP: three Templates (IPv4 with 12 fields, IPv6
with 14, IPv4 with 16), sent again every 500 messages of a domain, and some 20 data records a message."""
import struct
import sys

PLAIN4 = [(8, 4), (12, 4), (7, 2), (11, 2), (4, 1), (1, 8), (2, 8), (152, 8), (153, 8), (10, 4), (14, 4), (136, 1)]
PLAIN6 = [(27, 16), (28, 16), (7, 2), (11, 2), (4, 1), (1, 8), (2, 8), (152, 8), (153, 8), (10, 4), (14, 4), (136, 1),
          (60, 1), (5, 1)]
WIDE4 = PLAIN4 + [(16, 4), (17, 4), (60, 1), (5, 1)]
TEMPLATES = {256: PLAIN4, 257: PLAIN6, 258: WIDE4}
ROOM = 1400


class Numbers:
    """A linear congruential generator: the same numbers on every machine."""

    def __init__(self, seed):
        self.state = seed

    def next(self):
        self.state = (self.state * 6364136223846793005 + 1442695040888963407) % 2 ** 64
        return self.state >> 33


def template_set():
    records = b"".join(
        struct.pack(">HH", number, len(fields)) + b"".join(struct.pack(">HH", *field) for field in fields)
        for number, fields in TEMPLATES.items())
    return struct.pack(">HH", 2, 4 + len(records)) + records


def flow(number, numbers, time):
    a, b, c = numbers.next(), numbers.next(), numbers.next()
    start = time * 1000 - a % 60000
    protocol = (6, 6, 6, 17, 17, 1)[b % 6]
    packets = 1 + c % 40
    common = struct.pack(">HHBQQQQIIB", a % 65536, (443, 53, 80, 8080)[c % 4], protocol, packets * (40 + b % 1400),
                         packets, start, start + c % 30000, a % 48, b % 48, 1 + c % 5)
    if number == 257:
        address = struct.pack(">QQQQ", 0x20010DB8 << 32 | a, b, 0x20010DB8 << 32 | c, a ^ b)
        return address + common + struct.pack(">BB", 6, a % 4)
    address = struct.pack(">II", (10 << 24 | a & 0xFFFFFF), (192 << 24 | 168 << 16 | b & 0xFFFF))
    wide = struct.pack(">IIBB", 64500 + a % 500, 64500 + b % 500, 4, c % 4) if number == 258 else b""
    return address + common + wide


def main():
    wanted, written, index = int(sys.argv[1]), 0, 0
    # (a message has some 1,390 octets)
    span, messages = (int(sys.argv[2]), wanted // 1390) if len(sys.argv) > 2 else (1, 200)
    numbers, out = Numbers(7), sys.stdout.buffer
    sequences, sent = [0] * 4, [0] * 4
    while written < wanted:
        domain, time = index % 4, 1700000000 + index * span // messages
        sets = template_set() if sent[domain] % 500 == 0 else b""
        records = 0
        while True:
            number = 256 + numbers.next() % 3
            size = sum(length for _, length in TEMPLATES[number])
            count = min(1 + numbers.next() % 12, (ROOM - 16 - len(sets) - 4) // size)
            if count < 1:
                break
            body = b"".join(flow(number, numbers, time) for _ in range(count))
            sets += struct.pack(">HH", number, 4 + len(body)) + body
            records += count
        message = struct.pack(">HHIII", 10, 16 + len(sets), time, sequences[domain], domain + 1) + sets
        out.write(message)
        sequences[domain] = (sequences[domain] + records) % 2 ** 32
        sent[domain] += 1
        written += len(message)
        index += 1


main()
