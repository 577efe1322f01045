#!/usr/bin/env python3
"""attack_files.py one|domains|announced|plain N > FILE: Files whose messages change templates, and one to compare with.

one: a domain with 7,500 templates, then N messages of 28 octets that each change one of them.
domains: 64 domains of 7,500 templates (60,000 octets) each, then N such messages, one domain after the other.
announced: N templates, one a message, of 65,280 IDs at most 7,500 in force.
plain: one template, of a protocol, octets and packets, then N messages of 28 octets with a record each."""
import struct
import sys


def message(domain, sets):
    return struct.pack(">HHIII", 10, 16 + len(sets), 0, 0, domain) + sets


def template(number, length):
    return struct.pack(">HHHH", 256 + number, 1, 4, length)


def templates(first, count, length):
    records = b"".join(template(n, length) for n in range(first, first + count))
    return struct.pack(">HH", 2, 4 + len(records)) + records


def plain(out, count):
    fields = struct.pack(">HHHHHH", 4, 1, 1, 4, 2, 3)
    out.write(message(0, struct.pack(">HHHH", 2, 20, 256, 3) + fields))
    record = struct.pack(">BI", 6, 1500) + bytes([0, 0, 10])
    out.write(message(0, struct.pack(">HH", 256, 12) + record) * count)


def main(kind, count):
    out = sys.stdout.buffer
    if kind == "plain":
        return plain(out, count)
    domains = {"one": 1, "domains": 64, "announced": 0}[kind]
    for domain in range(domains):
        out.write(message(domain, templates(0, 7500, 1)))
    for n in range(count):
        if kind == "announced":
            out.write(message(0, templates(n % 7500, 1, 1 + n // 7500 % 4)))
        else:
            out.write(message(n % domains, templates(n // domains % 7500, 1, 2 + n // domains // 7500 % 2)))


if __name__ == "__main__":
    main(sys.argv[1], int(sys.argv[2]))
