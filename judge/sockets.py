#!/usr/bin/env python3
"""sockets.py PROGRAM: runs `PROGRAM feed` with a socket as standard input: of datagrams, in UDP and in SEQPACKET, and
of a stream, in TCP, which ends well, within a message, by a reset, or comes by pieces of 7 octets. A read of a socket
of datagrams takes one of them, and what it has no room for is lost: so each read must have room for the longest
message.

By `--datagrams` other datagrams come between the messages, empty ones too: what one octet is, NetFlow, SNMP, a Length
that is none, a datagram that is longer than any message. They are passed over, and counted by their refusals. A pipe
of packets (O_DIRECT) ends where its writer closes it. A socket of datagrams has no end: one that gave nothing for
a while (SO_RCVTIMEO) ends by 31 here, and one that systemd holds, or that socat hands on, where these are there, by a
signal.

The messages are made here. What `feed` answers, what `check` says of the archive then, and its totals are compared with
what was sent, to the line. Nothing is lost on the way: more is sent only once what was sent is read. It prints each
difference, and ends with 'N cases of sockets: M differ'; its status is 0 where M is 0, else 1."""
import array
import collections
import concurrent.futures
import contextlib
import fcntl
import functools
import os
import shutil
import signal
import socket
import struct
import subprocess
import sys
import tempfile
import termios
import time

SECONDS = 60

# An interval of 300 seconds, and a time in it.
INTERVAL = 1_699_999_800
TIME = 1_700_000_000
WIDTH = 300

# A template of elements 150, 4, 1 and 2, with counters of 8 octets, and a flow of it.
TEMPLATE = struct.pack(">12H", 2, 24, 256, 4, 150, 4, 4, 1, 1, 8, 2, 8)
FLOW = struct.Struct(">IBQQ")
PROTOCOL = 6
HEADS = 16 + len(TEMPLATE) + 4

# Datagrams that are no messages, each with the refusal that it is counted by.
SHORT_OF_16 = b"\x00"
NETFLOW_5 = struct.pack(">HHIIIIBBH", 5, 1, 1, TIME, 0, 1, 0, 0, 0) + bytes(48)
NETFLOW_9 = struct.pack(">HHIIIIHH", 9, 1, 1, TIME, 1, 7, 0, 12) + struct.pack(">HHHH", 256, 1, 1, 4)
SNMP = bytes.fromhex("302602010104067075626c6963a019020411223344020100020100300b300906052b060102010500")
LENGTH_65535 = struct.pack(">HHIII", 10, 65535, TIME, 0, 7) + bytes(20)
SET_TOO_LONG = struct.pack(">HHIIIHH", 10, 20, TIME, 0, 7, 2, 400)
BAD = (SHORT_OF_16, NETFLOW_5, NETFLOW_9, SNMP, LENGTH_65535, SET_TOO_LONG)
BAD_COUNTS = {"1 Short": 1, "2 Version": 3, "3 Length": 1, "4 SetLength": 1}

# Longer than any message: a packet of a Unix socket, whose first 65,535 octets are one.
TOO_LONG = struct.pack(">HHIIIHH", 10, 65535, TIME, 0, 7, 4, 65519) + bytes(65515) + bytes(10)

# How the answer ends where a File ended well, within a message, or could no longer be read, and the status.
WELL, CUT, UNREAD = ("", 0), (" 15 Cut", 1), (" 31 Read", 3)


class Sent:
    """Messages, and the sums of the flows in them."""

    def __init__(self, counts, octets=None, packets=10):
        self.messages, self.flows, self.octets, self.packets = [], 0, 0, 0
        for count in counts:
            of_flow = octets or 1000 + len(self.messages)
            flows = FLOW.pack(TIME, PROTOCOL, of_flow, packets) * count
            sets = TEMPLATE + struct.pack(">HH", 256, 4 + len(flows)) + flows
            self.messages.append(struct.pack(">HHIII", 10, 16 + len(sets), TIME, self.flows, 7) + sets)
            self.flows, self.octets = self.flows + count, self.octets + count * of_flow
            self.packets += count * packets

    def totals(self):
        return "%d 7 %d %d %d %d\n" % (INTERVAL, PROTOCOL, self.flows, self.octets, self.packets)


def of_octets(number, octets):
    """So many messages of some so many octets each: each third one has one flow more, each third one less."""
    count = (octets - HEADS) // FLOW.size
    return Sent(count + number % 3 - 1 for number in range(number))


# ---- Sending ----

class Gone(Exception):
    """The program ended, or reads no more."""


def waiting(end, what):
    """A number that the system has of a socket."""
    found = array.array("i", [0])
    fcntl.ioctl(end, what, found)
    return found[0]


def has_datagram(end):
    """Whether one waits there, an empty one too, of which FIONREAD knows nothing."""
    try:
        end.recv(1, socket.MSG_PEEK | socket.MSG_DONTWAIT)
    except BlockingIOError:
        return False
    return True


def is_queued(port):
    """Whether a datagram waits at a port of UDP, by the system's table. (Who peeks at a socket moves what came to another
    queue of it, and a read that just begins may miss it there, and sleep until the next one comes.)"""
    with open("/proc/net/udp") as table:
        rows = [row.split() for row in table][1:]
    return any(int(row[1].split(":")[1], 16) == port and int(row[4].split(":")[1], 16) > 0 for row in rows)


def is_unread(ours, theirs):
    """Whether something that was sent waits in either end."""
    if theirs.family == socket.AF_INET and theirs.type == socket.SOCK_DGRAM:
        return is_queued(theirs.getsockname()[1])
    if theirs.type == socket.SOCK_DGRAM:
        return has_datagram(theirs)
    return waiting(theirs, termios.FIONREAD) or (ours.type == socket.SOCK_STREAM and waiting(ours, termios.TIOCOUTQ))


def all_read(feed, ours, theirs):
    """Waits until what was sent is read."""
    until = time.monotonic() + SECONDS
    while is_unread(ours, theirs):
        if feed.poll() is not None or time.monotonic() > until:
            raise Gone
        time.sleep(0.0002)


def by_datagrams(feed, ours, theirs, messages):
    """A message a datagram; an empty one is the end."""
    for message in [*messages, b""]:
        ours.send(message)
        all_read(feed, ours, theirs)


def by_other_datagrams(feed, ours, theirs, messages):
    """An empty one before, and the others between them, twice; nothing more ends it."""
    for at, message in enumerate(messages):
        for other in [b"", *BAD] if at in (0, len(messages) // 2) else []:
            ours.send(other)
        ours.send(message)
        all_read(feed, ours, theirs)


def by_pipe(feed, ours, theirs, messages):
    """Each write is a packet, which one read takes."""
    theirs.close()
    for at, message in enumerate(messages):
        for other in BAD if at in (0, len(messages) // 2) else []:
            ours.write(other)
        ours.write(message)
    ours.close()


def with_long_ones(feed, ours, theirs, messages):
    for message in messages:
        ours.send(TOO_LONG)
        ours.send(message)
        all_read(feed, ours, theirs)


def by_packets(feed, ours, theirs, messages):
    theirs.close()
    for message in messages:
        ours.send(message)
    ours.close()


def by_stream(feed, ours, theirs, messages):
    theirs.close()
    ours.sendall(b"".join(messages))
    ours.close()


def by_sevens(feed, ours, theirs, messages):
    ours.setsockopt(socket.IPPROTO_TCP, socket.TCP_NODELAY, 1)
    octets = b"".join(messages)
    for at in range(0, len(octets), 7):
        ours.sendall(octets[at : at + 7])
        all_read(feed, ours, theirs)
    ours.close()


def by_reset(feed, ours, theirs, messages):
    """All is read, and then the peer resets."""
    ours.sendall(b"".join(messages))
    all_read(feed, ours, theirs)
    ours.setsockopt(socket.SOL_SOCKET, socket.SO_LINGER, struct.pack("ii", 1, 0))
    ours.close()


# ---- The two ends ----

def udp():
    theirs, ours = (socket.socket(socket.AF_INET, socket.SOCK_DGRAM) for _ in range(2))
    theirs.bind(("127.0.0.1", 0))
    ours.connect(theirs.getsockname())
    ours.setsockopt(socket.SOL_SOCKET, socket.SO_SNDBUF, 1 << 18)
    return ours, theirs


def impatient(ends):
    """A read of it fails where nothing came for 3 seconds."""
    def made():
        ours, theirs = ends()
        theirs.setsockopt(socket.SOL_SOCKET, socket.SO_RCVTIMEO, struct.pack("ll", 3, 0))
        return ours, theirs
    return made


def packets():
    return socket.socketpair(socket.AF_UNIX, socket.SOCK_SEQPACKET)


def letters():
    """What socat's EXEC with socktype=2 gives its program."""
    ours, theirs = socket.socketpair(socket.AF_UNIX, socket.SOCK_DGRAM)
    ours.setsockopt(socket.SOL_SOCKET, socket.SO_SNDBUF, 1 << 18)
    return ours, theirs


def pipe_of_packets():
    theirs, ours = os.pipe2(os.O_DIRECT)
    return os.fdopen(ours, "wb", buffering=0), os.fdopen(theirs, "rb", buffering=0)


def tcp():
    with socket.create_server(("127.0.0.1", 0)) as server:
        ours = socket.create_connection(server.getsockname())
        return ours, server.accept()[0]


# ---- The cases ----

SHORT = of_octets(600, 1370)
LONG = of_octets(20, 60_000)
BILL = Sent([60] * 400, 1500)
FEW = of_octets(100, 1370)
THREE = of_octets(3, 1370)

MANY = of_octets(10_000, 150)
TEN = of_octets(10, 1370)
BY_DATAGRAMS = ("--datagrams",)


def refused(*counts):
    """What is said of datagrams that weren't accepted: so many times these."""
    total = {}
    for times, of_these in counts:
        for name, count in of_these.items():
            total[name] = total.get(name, 0) + times * count
    by = ", ".join("%d by %s" % (count, name) for name, count in sorted(total.items(), key=lambda it: int(it[0][0])))
    return "flowvault: warning: file 1 (-): datagrams passed over: %s\n" % by


# Each case: its name, the two ends, how it is sent, what is taken in, what is sent after it, how the answer ends, the
# words of the command besides, and what is said on standard error of what wasn't taken in.
Case = collections.namedtuple("Case", "name ends send sent more ending words said", defaults=((), ""))
CASES = (
    Case("600 datagrams of UDP, of some 1,370 octets", udp, by_datagrams, SHORT, b"", WELL),
    Case("20 datagrams of UDP, of 60,000 octets", udp, by_datagrams, LONG, b"", WELL),
    Case("the sums of 400 datagrams of UDP, of 60 flows of 1,500 octets", udp, by_datagrams, BILL, b"", WELL),
    Case("600 packets of SEQPACKET, of some 1,370 octets", packets, by_packets, SHORT, b"", WELL),
    Case("TCP, closed", tcp, by_stream, SHORT, b"", WELL),
    Case("TCP, closed within a message", tcp, by_stream, FEW, FEW.messages[0][:700], CUT),
    Case("TCP, reset by the peer after a pause", tcp, by_reset, FEW, b"", UNREAD),
    Case("TCP, by pieces of 7 octets", tcp, by_sevens, THREE, b"", WELL),
    Case("10,000 datagrams of UDP, others between them", impatient(udp), by_other_datagrams, MANY, b"", UNREAD,
         BY_DATAGRAMS, refused((2, {"1 Short": 1}), (2, BAD_COUNTS))),
    Case("100 datagrams of a Unix socket, others between them", impatient(letters), by_other_datagrams, FEW, b"",
         UNREAD, BY_DATAGRAMS, refused((2, {"1 Short": 1}), (2, BAD_COUNTS))),
    Case("100 packets of a pipe, others between them", pipe_of_packets, by_pipe, FEW, b"", WELL, BY_DATAGRAMS,
         refused((2, BAD_COUNTS))),
    Case("10 datagrams of a Unix socket, longer ones between them", impatient(letters), with_long_ones, TEN, b"",
         UNREAD, BY_DATAGRAMS, refused((10, {"3 Length": 1}))),
)


def ran(words):
    """What a command answers: its status, and what it wrote."""
    it = subprocess.run(words, stdin=subprocess.DEVNULL, capture_output=True, text=True, timeout=SECONDS)
    return it.returncode, it.stdout, it.stderr


def played(case, program, folder):
    """Yields what differs in a case, as (what, wanted, came)."""
    ending, status = case.ending
    yield "create", (0, "", ""), ran([program, "create", folder, str(WIDTH), "--limit", "16777216"])
    ours, theirs = case.ends()
    with contextlib.closing(ours), contextlib.closing(theirs):
        words = [program, "feed", folder, "-", "--warn", *case.words]
        feed = subprocess.Popen(words, stdin=theirs, stdout=subprocess.PIPE, stderr=subprocess.PIPE, text=True)
        try:
            case.send(feed, ours, theirs, [*case.sent.messages, *([case.more] if case.more else [])])
        except (Gone, OSError):
            pass
    try:
        out, err = feed.communicate(timeout=SECONDS)
    except subprocess.TimeoutExpired:
        feed.kill()
        out, err = feed.communicate()
    count = len(case.sent.messages)
    yield "feed", (status, "%s 1 %d%s\n" % ("stopped" if status else "fed", count, ending)), (feed.returncode, out)
    said = case.said
    if status:
        said += "flowvault: warning: file 1 (-): stopped after %d messages:%s\n" % (count, ending)
    if case.said or not status:
        yield "feed's warnings", said, err
    yield from held(case.sent, program, folder)


def held(sent, program, folder):
    """Yields what differs in an archive from what was sent."""
    yield "check", (0, "ok %d 0 0 0\n" % len(sent.messages), ""), ran([program, "check", folder])
    yield "totals", (0, sent.totals(), ""), ran([program, "totals", folder, "0", "4294967296"])


def queued(port):
    """How many octets wait in the UDP socket of a port of this machine."""
    with open("/proc/net/udp") as sockets:
        for line in list(sockets)[1:]:
            words = line.split()
            if int(words[1].split(":")[1], 16) == port:
                return int(words[4].split(":")[1], 16)
    raise Gone


def by_systemd(port, command):
    """It holds the socket, and the first datagram starts the program."""
    return ["systemd-socket-activate", "-d", "-l", "127.0.0.1:%d" % port, "--inetd", *command]


def by_socat(port, command):
    """It hands datagrams on, but for empty ones."""
    return ["socat", "-b", "65536", "-u", "UDP4-RECV:%d,bind=127.0.0.1" % port,
            "EXEC:%s,socktype=2" % " ".join(command)]


def played_beside(words_of, sent, program, folder):
    """The same where another program has the socket; a signal ends both."""
    yield "create", (0, "", ""), ran([program, "create", folder, str(WIDTH), "--limit", "16777216"])
    ours, theirs = udp()
    port = theirs.getsockname()[1]
    theirs.close()
    words = words_of(port, [program, "feed", folder, "-", *BY_DATAGRAMS])
    feed = subprocess.Popen(words, stdin=subprocess.DEVNULL, stdout=subprocess.DEVNULL, stderr=subprocess.DEVNULL,
                            start_new_session=True)
    until = time.monotonic() + SECONDS
    with contextlib.closing(ours):
        for datagram in [*BAD, *(it for message in sent.messages for it in (b"", message))]:
            while time.monotonic() < until:
                try:
                    queued(port)
                    ours.send(datagram)
                    break
                except (Gone, OSError):
                    time.sleep(0.01)
            while queued(port) and time.monotonic() < until:
                time.sleep(0.0002)
    time.sleep(1)
    os.killpg(feed.pid, signal.SIGTERM)
    feed.wait(SECONDS)
    yield from held(sent, program, folder)


def differs(name, play, program):
    """Plays a case in a folder of its own: each difference, as a line."""
    with tempfile.TemporaryDirectory() as folder:
        try:
            found = list(play(program, folder))
        except (OSError, Gone) as error:
            return ["%s: not played: %s" % (name, error)]
        return ["%s: %s: wanted %s, came %s" % (name, *it) for it in found if it[1] != it[2]]


def main(program):
    plays = [(case.name, functools.partial(played, case)) for case in CASES]
    for other, words_of in (("systemd-socket-activate", by_systemd), ("socat", by_socat)):
        if shutil.which(other):
            plays.append(("100 datagrams of UDP by %s" % other, functools.partial(played_beside, words_of, FEW)))
    with concurrent.futures.ThreadPoolExecutor(len(plays)) as side_by_side:
        found = list(side_by_side.map(differs, *zip(*plays), [os.path.abspath(program)] * len(plays)))
    for lines in found:
        for line in lines:
            print(line)
    differ = sum(bool(lines) for lines in found)
    print("%d cases of sockets: %d differ" % (len(plays), differ))
    return int(differ > 0)


if __name__ == "__main__":
    sys.exit(main(sys.argv[1]) if len(sys.argv) == 2 else print(__doc__) or 2)
