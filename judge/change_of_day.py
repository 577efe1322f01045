#!/usr/bin/env python3
"""change_of_day.py PROGRAM: examples/change_of_day.sh with senders that never pause, over a pipe, a TCP connection and a
UDP socket that stays open: while they send, the file is made at which the feed of the old archive ends. Messages are of
16 to 60,000 octets, so that reads end within them; a datagram is one.

Whatever was sent must be in one of the two archives, once: the messages that `export` writes of the old one, and then
those of the new one, after the templates that it began with, are those that were sent, in their order, to the octet;
each feed reports as many as its archive has; and the sums of `totals` of both are the sender's own. Of UDP the kernel
must have dropped nothing. In some cases the file is there from the beginning on, or comes while nothing is read yet, or
the input ends before it is there.

It prints each difference, and ends with 'N cases of the change of day: M differ'; its status is 0 where M is 0, else 1."""
import concurrent.futures
import os
import random
import socket
import struct
import subprocess
import sys
import tempfile
import threading
import time

from trials import ALL, END, TIME, WITH, a_message, a_set, in_memory

SCRIPT = os.path.join(os.path.dirname(os.path.abspath(__file__)), "..", "examples", "change_of_day.sh")
SECONDS = 120

# How long is sent before the file is made, and after it; and how long a datagram waits for its turn.
BEFORE, AFTER, PACE = 1.0, 1.0, 0.0005

# The room of the socket, and how long it waits for another datagram.
ROOM, PATIENCE = 64 << 20, 3

DOMAIN, PROTOCOL, WIDTH = 7, 6, 300
INTERVAL = TIME - TIME % WIDTH
FLOW = struct.Struct(">IBQQ")
TEMPLATE = a_message(DOMAIN, a_set(2, WITH))


class Sender:
    """Messages, made as they are sent: the template is in the first one alone."""

    def __init__(self, name, most):
        self.random, self.most = random.Random(name), most
        self.messages, self.flows, self.octets, self.packets = [], 0, 0, 0

    def next(self):
        if not self.messages:
            self.messages.append(TEMPLATE)
            return TEMPLATE
        room = self.random.choice([60, 300, 1400, self.most])
        flows = b""
        for _ in range(self.random.randrange(1 + (room - 20) // FLOW.size)):
            octets, packets = 1 + len(self.messages), 1 + self.flows % 9
            flows += FLOW.pack(TIME, PROTOCOL, octets, packets)
            self.octets, self.packets = self.octets + octets, self.packets + packets
        message = a_message(DOMAIN, a_set(256, flows) if flows else b"", self.flows % END)
        self.flows += len(flows) // FLOW.size
        self.messages.append(message)
        return message

    def totals(self):
        """Of messages of which the first has the template, where there is a flow."""
        if not self.flows:
            return ""
        return "%d %d %d %d %d %d\n" % (INTERVAL, DOMAIN, PROTOCOL, self.flows, self.octets, self.packets)


def divided(octets):
    """The messages of a File."""
    messages, at = [], 0
    while at < len(octets):
        length = struct.unpack_from(">H", octets, at + 2)[0]
        messages.append(octets[at : at + length])
        at += length
    return messages


# ---- The ways to send ----

class Pipe:
    most = 60_000

    def __init__(self):
        self.theirs, self.ours = os.pipe()

    def send(self, message):
        while message:
            message = message[os.write(self.ours, message) :]

    def begun(self):
        os.close(self.theirs)

    def ended(self):
        os.close(self.ours)

    def dropped(self):
        return 0


class Tcp(Pipe):
    def __init__(self):
        with socket.create_server(("127.0.0.1", 0)) as listener:
            self.sending = socket.create_connection(listener.getsockname())
            self.receiving = listener.accept()[0]
        self.theirs = self.receiving.fileno()

    def send(self, message):
        self.sending.sendall(message)

    def begun(self):
        self.receiving.close()

    def ended(self):
        self.sending.close()


class Udp(Pipe):
    """The socket stays open here, as systemd holds it; it has no end, so a feed of it ends by 31 in the end."""
    most = 1_400

    def __init__(self):
        self.receiving, self.sending = (socket.socket(socket.AF_INET, socket.SOCK_DGRAM) for _ in range(2))
        try:
            self.receiving.setsockopt(socket.SOL_SOCKET, 33, ROOM)  # SO_RCVBUFFORCE
        except OSError:
            self.receiving.setsockopt(socket.SOL_SOCKET, socket.SO_RCVBUF, ROOM)
        self.receiving.setsockopt(socket.SOL_SOCKET, socket.SO_RCVTIMEO, struct.pack("ll", PATIENCE, 0))
        self.receiving.bind(("127.0.0.1", 0))
        self.sending.connect(self.receiving.getsockname())
        self.theirs = self.receiving.fileno()
        self.next = time.monotonic()

    def send(self, message):
        self.next = max(self.next + PACE, time.monotonic() - 10 * PACE)
        time.sleep(max(0, self.next - time.monotonic()))
        self.sending.send(message)

    def begun(self):
        pass

    def ended(self):
        pass

    def dropped(self):
        port = self.receiving.getsockname()[1]
        with open("/proc/net/udp") as table:
            rows = [row.split() for row in table][1:]
        return sum(int(row[-1]) for row in rows if int(row[1].split(":")[1], 16) == port)


WAYS = {"a pipe": (Pipe, [], 0), "TCP": (Tcp, [], 0), "UDP": (Udp, ["--datagrams"], 3)}

# When the file is made: while it is sent; before anything is; at once; never.
WHEN = ("meanwhile", "before", "at once", "never")


def changed(program, way, when, number):
    """What differs in one change of day."""
    end, words, status = WAYS[way]
    ends = end()
    sender, stop, differ = Sender("%s %s %d" % (way, when, number), ends.most), threading.Event(), []

    def compare(what, wanted, came):
        if wanted != came:
            differ.append("%s, %s, %d: %s: wanted %.300r, came %.300r" % (way, when, number, what, wanted, came))

    def sends():
        while not stop.is_set():
            ends.send(sender.next())
        ends.ended()

    with tempfile.TemporaryDirectory(dir=in_memory()) as place:
        os.mkdir(os.path.join(place, "bin"))
        os.symlink(os.path.abspath(program), os.path.join(place, "bin", "flowvault"))
        words_of = {**os.environ, "PATH": os.path.join(place, "bin") + ":" + os.environ["PATH"], "LC_ALL": "C"}

        def asked(*words):
            return subprocess.run([program, *words], capture_output=True, cwd=place, timeout=SECONDS)

        def touch():
            open(os.path.join(place, "end"), "w").close()

        os.mkdir(os.path.join(place, "old"))
        made = asked("create", "old", str(WIDTH), "--limit", "16777216", "--wide", str(WIDTH))
        compare("create", (0, b""), (made.returncode, made.stderr))
        if when == "before":
            touch()
        script = subprocess.Popen(["sh", SCRIPT, "old", "new", "end", *words], stdin=ends.theirs, cwd=place, env=words_of,
                                  stdout=subprocess.PIPE, stderr=subprocess.PIPE)
        ends.begun()
        sending = threading.Thread(target=sends)
        sending.start()
        if when == "meanwhile":
            time.sleep(BEFORE + 0.05 * number)
        if when in ("meanwhile", "at once"):
            touch()
        time.sleep(AFTER)
        stop.set()
        sending.join()
        told, errors = script.communicate(timeout=SECONDS)
        compare("dropped by the kernel", 0, ends.dropped())
        compare("status", status, script.returncode)
        compare("standard error", b"", errors)
        names = ["old"] if when == "never" else ["old", "new"]
        compare("archives", names, [name for name in ("old", "new") if os.path.isdir(os.path.join(place, name))])
        parts = [divided(asked("export", name).stdout) for name in names]
        came = [message for part in parts for message in part]
        if when != "never" and parts[0]:
            # (the new archive begins with the templates, in a message of their own, which was fed to it before)
            compare("the new archive's first message", a_set(2, WITH), parts[1][0][16:])
            del came[len(parts[0])]
        compare("how many messages", len(sender.messages), len(came))
        compare("messages", True, came == sender.messages)
        ending = b" 31 Read" if status else b""
        lines = [b"fed 1 %d" % len(parts[0])]
        if when != "never":
            lines.append(b"%s 1 %d%s" % (b"stopped" if status else b"fed", len(came) - len(parts[0]), ending))
        elif status:
            lines = [b"stopped 1 %d 31 Read" % len(parts[0])]
        compare("what the feeds report", lines, told.splitlines())
        sums = asked("totals", *names, *ALL)
        compare("totals", sender.totals().encode(), sums.stdout)
        if when == "meanwhile":
            compare("messages in both archives", [True, True], [len(part) > 1 for part in parts])
    return differ


def main():
    program = os.path.abspath(sys.argv[1])
    cases = [(way, when, number) for way in WAYS for when in WHEN for number in range(5 if when == "meanwhile" else 1)]
    with concurrent.futures.ThreadPoolExecutor(2) as at_once:
        differs = list(at_once.map(lambda case: changed(program, *case), cases))
    for differ in differs:
        for line in differ:
            print(line)
    bad = sum(map(bool, differs))
    print("%d cases of the change of day: %d differ" % (len(cases), bad))
    sys.exit(bad > 0)


if __name__ == "__main__":
    main()
