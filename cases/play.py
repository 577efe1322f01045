#!/usr/bin/env python3
"""play.py PROGRAM FILE..: plays cases of the command line, as docs/CASES.md has them, each in a new folder. It prints
each difference, and ends with `N cases, M runs: D differ`, where D counts cases. Its status is 0 where D is 0, 1 where
it isn't, and 2 where a file of cases can't be read."""
import contextlib
import ctypes
import fcntl
import os
import re
import resource
import shlex
import shutil
import subprocess
import sys
import tempfile
import threading
import time
import tty

SECONDS = 60

# What `prctl` takes to give a capability up for good, and the two by which root passes rights: CAP_DAC_OVERRIDE and
# CAP_DAC_READ_SEARCH.
PR_CAPBSET_DROP = 24
PASSING = (1, 2)
LIBC = ctypes.CDLL(None)

# Kept beside what a case holds, where runs have no more rights than the owner of a file.
DENIED = "denied"


class Bad(Exception):
    """A line that no case can have."""


class Lacking(Exception):
    """What a run needs, and this machine hasn't got."""


class Run:
    """A run of the program: its words, its input, and what it must answer."""

    def __init__(self, place, words, given):
        self.place, self.words, self.given = place, words, given
        self.out, self.err, self.status = [], [], 0
        self.begins, self.columns, self.by, self.lines = None, None, None, []
        self.is_full, self.is_gone, self.is_unread, self.shown, self.wrote = False, False, False, None, None

    def ran(self, words, before):
        """Runs these words, and answers how the run ended, and what it wrote."""
        how = {"input": self.given, "stdout": subprocess.PIPE, "stderr": subprocess.PIPE}
        if self.is_full and not os.access("/dev/full", os.W_OK):
            raise Lacking("no /dev/full")
        with contextlib.ExitStack() as opened:
            if self.is_full:
                how["stdout"] = opened.enter_context(open("/dev/full", "wb"))
            if self.is_gone:
                reader, how["stdout"] = os.pipe()
                os.close(reader)
                opened.callback(os.close, how["stdout"])
            if self.is_unread:
                del how["input"]
                how["stdin"] = os.open(".", os.O_RDONLY)
                opened.callback(os.close, how["stdin"])
            screen = Screen() if self.shown is not None else None
            if screen:
                how["stderr"] = screen.end
                opened.callback(screen.close)
            got = subprocess.run(words, timeout=SECONDS, preexec_fn=before, **how)
            got.stdout = got.stdout or b""
            got.stderr = screen.close() if screen else got.stderr
        return got

    def told(self):
        """What is wanted on standard error."""
        if self.shown is not None:
            return self.shown
        return "".join(line + "\n" for line in self.errors()).encode()

    def sorted(self, octets):
        """Lines in the order of the word that they are sorted by, if any; those with one such word stay in order."""
        if self.by is None:
            return octets
        return b"".join(sorted(octets.splitlines(True), key=lambda line: line.split()[self.by - 1]))

    def errors(self):
        """The lines on standard error, with those of refusals that cases leave out: each is the last one of its
        refusal, but for what the system said."""
        refused = [re.match(r"flowvault: (\d+) [A-Z]", line) for line in self.err]
        if not self.err or not refused[0]:
            return self.err
        last = len(self.err) - int(self.err[-1].startswith("flowvault: the system said: "))
        lines = []
        for at in range(last):
            if at and refused[at]:
                lines.append("flowvault: see: flowvault explain " + number)
            number = refused[at][1] if refused[at] else number
            lines.append(self.err[at])
        return lines + ["flowvault: see: flowvault explain " + number] + self.err[last:]

    def differs(self, got):
        """Yields each difference of what came, as (what, wanted, came)."""
        if got.returncode != self.status:
            yield "status", self.status, got.returncode
        if self.wrote is not None:
            if got.stdout != self.wrote:
                yield "wrote", self.wrote.hex(), got.stdout.hex()
        elif self.begins is None:
            wanted = "".join(line + "\n" for line in self.out).encode()
            if self.sorted(got.stdout) != wanted:
                yield "out", wanted, self.sorted(got.stdout)
        elif not got.stdout.startswith(self.begins.encode()) or not got.stdout:
            yield "out, from its start", self.begins.encode(), got.stdout
        wanted = self.told()
        if self.err == ["*"]:
            if not re.match(rb"flowvault: [^\n]+\n", got.stderr):
                yield "err", b"a line of flowvault", got.stderr
        elif got.stderr != wanted:
            yield "err", wanted, got.stderr
        lines = got.stdout.decode(errors="replace").split("\n")
        for line in lines:
            if self.columns is not None and len(line) > self.columns:
                yield "columns", self.columns, line
        for wanted in self.lines:
            if wanted.split() not in [line.split() for line in lines]:
                yield "has", wanted, "no such line"


class Screen(threading.Thread):
    """A terminal, and what is shown on it."""

    def __init__(self):
        super().__init__()
        try:
            (self.begin, self.end), self.octets = os.openpty(), b""
        except OSError:
            raise Lacking("no terminal") from None
        tty.setraw(self.end)
        self.start()

    def run(self):
        with contextlib.suppress(OSError):
            while octets := os.read(self.begin, 4096):
                self.octets += octets

    def close(self):
        """Closes it, and answers what was shown."""
        if self.end is not None:
            os.close(self.end)
            self.end = None
            self.join()
            os.close(self.begin)
        return self.octets


class Case:
    """A case: its name, its steps, each a place, a function and its words, and how many runs it has."""

    def __init__(self, place, name):
        self.place, self.name, self.steps, self.runs = place, name, [], 0


def octets_of(words, named):
    """The octets of words: hexadecimal digits, `XX*N`, `A..B`, a text in double quotes, a name, or `NAME*N`."""
    octets = b""
    for word in words:
        if word == "|":
            continue
        if word in named:
            octets += named[word]
        elif re.fullmatch(r"[^*]+\*[0-9]+", word) and word.split("*")[0] in named:
            name, count = word.split("*")
            octets += named[name] * int(count)
        elif word.startswith('"') and word.endswith('"') and len(word) > 1:
            octets += word[1:-1].encode()
        elif re.fullmatch(r"[0-9]+\.\.[0-9]+", word):
            first, last = map(int, word.split(".."))
            octets += b"".join(number.to_bytes(4, "big") for number in range(first, last + 1))
        elif re.fullmatch(r"(?:[0-9A-Fa-f]{2})+\*[0-9]+", word):
            digits, count = word.split("*")
            octets += bytes.fromhex(digits) * int(count)
        elif re.fullmatch(r"(?:[0-9A-Fa-f]{2})+", word):
            octets += bytes.fromhex(word)
        else:
            raise Bad("'%s' is neither a name nor pairs of hexadecimal digits" % word)
    return octets


# ---- What a step does; each answers its differences ----

def make_file(held, name, octets):
    with open(name, "wb") as file:
        file.write(octets)
    return []


def make_folder(held, name):
    os.mkdir(name)
    return []


def make_link(held, name, target):
    os.symlink(target, name)
    return []


def make_pipe(held, name):
    os.mkfifo(name)
    return []


def remove(held, name):
    if os.path.isdir(name):
        shutil.rmtree(name)
    else:
        os.remove(name)
    return []


def cut(held, name):
    """The last octet is cut off. The file is made anew, since a frozen one is read-only."""
    with open(name, "rb") as file:
        octets = file.read()
    os.remove(name)
    return make_file(held, name, octets[:-1])


def hold(held, name, how=fcntl.LOCK_EX):
    handle = os.open(name, os.O_RDONLY)
    fcntl.flock(handle, how | fcntl.LOCK_NB)
    held.append(handle)
    return []


def share(held, name):
    return hold(held, name, fcntl.LOCK_SH)


def let_go(held):
    for handle in [each for each in held if isinstance(each, int)]:
        held.remove(handle)
        os.close(handle)
    return []


def look_at_names(held, name, wanted):
    came = sorted(os.listdir(name))
    return [] if came == sorted(wanted) else [("listed", sorted(wanted), came)]


def look_at_octets(held, name, at, wanted):
    with open(name, "rb") as file:
        file.seek(at)
        came = file.read(len(wanted))
    return [] if came == wanted else [("holds", wanted.hex(), came.hex())]


def remember_names(held, name):
    """The names of a folder, in a file beside it."""
    return make_file(held, name + ".names", "\n".join(sorted(os.listdir(name))).encode())


def look_at_kept_names(held, name):
    with open(name + ".names", "rb") as file:
        wanted = file.read().decode().split("\n")
    return look_at_names(held, name, wanted)


class Pour(threading.Thread):
    """Writes octets to a pipe, and closes it when a file has so many octets, or after ten seconds."""

    def __init__(self, pipe, path, count, octets):
        super().__init__()
        self.pipe, self.path, self.count, self.octets, self.seen = pipe, path, count, octets, False
        self.start()

    def run(self):
        with open(self.pipe, "wb", buffering=0) as pipe:
            pipe.write(self.octets)
            for _ in range(1000):
                if os.path.exists(self.path) and os.path.getsize(self.path) >= self.count:
                    self.seen = True
                    return
                time.sleep(0.01)


def pour(held, *words):
    held.append(Pour(*words))
    return []


def poured(held):
    """Whether each file had its octets while its pipe was open."""
    came = []
    for each in [each for each in held if isinstance(each, Pour)]:
        held.remove(each)
        each.join()
        if not each.seen:
            came.append(("pour", "%s of %d octets before the pipe is closed" % (each.path, each.count), "none"))
    return came


def deny(held, name):
    """No right is left to a file or a folder, nor to the runs that follow, root's among them, to pass that."""
    os.chmod(name, 0)
    held.append(DENIED)
    return []


class Memory:
    """How many octets of memory the runs that follow have for their data."""

    def __init__(self, octets):
        self.octets = octets


def give_memory(held, octets):
    held.append(Memory(octets))
    return []


def bound(held):
    """What a run gives up before it begins, if anything."""
    limits = [each.octets for each in held if isinstance(each, Memory)]
    if not limits and DENIED not in held:
        return None

    def give_up():
        if DENIED in held:
            for each in PASSING:
                LIBC.prctl(PR_CAPBSET_DROP, each, 0, 0, 0)
        if limits:
            resource.setrlimit(resource.RLIMIT_DATA, (limits[-1], resource.getrlimit(resource.RLIMIT_DATA)[1]))

    return give_up


def run(held, program, wanted):
    words, before = [program, *wanted.words], bound(held)
    try:
        got = wanted.ran(words, before)
    except subprocess.TimeoutExpired:
        return [("end", "within %d seconds" % SECONDS, "none")]
    return list(wanted.differs(got)) + poured(held)


# The steps that a name alone follows.
STEPS = {
    "folder": make_folder,
    "pipe": make_pipe,
    "remove": remove,
    "cut": cut,
    "hold": hold,
    "share": share,
    "deny": deny,
    "names": remember_names,
    "kept": look_at_kept_names,
}


# ---- Reading ----

class Reader:
    """Reads a file of cases."""

    def __init__(self, path, program):
        self.path, self.program, self.cases, self.named, self.run = path, program, [], {}, None

    def read(self):
        with open(self.path, encoding="utf-8") as file:
            for number, line in enumerate(file, 1):
                try:
                    self.take("%s:%d" % (self.path, number), line.rstrip("\n"))
                except (Bad, ValueError, IndexError) as error:
                    raise Bad("%s:%d: %s" % (self.path, number, error or line)) from None
        return self.cases

    def take(self, place, line):
        word, _, rest = line.strip().partition(" ")
        if not word or word.startswith("#"):
            return
        if word == "octets":
            name, _, text = rest.partition(" = ")
            self.named[name] = octets_of(text.split(), self.named)
        elif word == "case":
            self.cases.append(Case(place, rest))
            self.run = None
        elif not self.cases:
            raise Bad("'%s' stands before the first case" % word)
        elif word in ("out", "out*", "lines", "has", "err", "status", "columns", "by", "full", "gone", "unread",
                      "shown", "wrote"):
            self.expect(word, rest)
        else:
            self.step(place, word, rest)

    def expect(self, word, rest):
        """Takes what the run before must answer."""
        if self.run is None:
            raise Bad("'%s' stands after no run" % word)
        if word == "out":
            self.run.out.append(rest)
        elif word == "out*":
            self.run.begins = rest
        elif word == "lines":
            count, _, line = rest.partition(" ")
            self.run.out += [line] * int(count)
        elif word == "has":
            self.run.lines.append(rest)
        elif word == "err":
            self.run.err.append(rest)
        elif word == "status":
            self.run.status = int(rest)
        elif word == "by":
            self.run.by = int(rest)
        elif word == "full":
            self.run.is_full = True
        elif word == "gone":
            self.run.is_gone = True
        elif word == "unread":
            self.run.is_unread = True
        elif word == "wrote":
            self.run.wrote = octets_of(rest.split(), self.named)
        elif word == "shown":
            self.run.shown = octets_of(rest.split(), self.named)
        else:
            self.run.columns = int(rest)

    def step(self, place, word, rest):
        """Takes a step of the case."""
        self.run = None
        words = shlex.split(rest)
        steps = self.cases[-1].steps
        if word == "run":
            words, _, given = rest.partition(" < ")
            self.run = Run(place, shlex.split(words), octets_of(given.split(), self.named))
            self.cases[-1].runs += 1
            steps.append((place, run, [self.program, self.run]))
        elif word == "file":
            name, _, text = rest.partition("=")
            steps.append((place, make_file, [name.strip(), octets_of(text.split(), self.named)]))
        elif word == "holds":
            name, at, *text = rest.split()
            steps.append((place, look_at_octets, [name, int(at), octets_of(text, self.named)]))
        elif word == "pour":
            pipe, path, count, *text = rest.split()
            steps.append((place, pour, [pipe, path, int(count), octets_of(text, self.named)]))
        elif word == "memory":
            steps.append((place, give_memory, [int(rest)]))
        elif word == "listed":
            steps.append((place, look_at_names, [words[0], words[2:]]))
        elif word == "link":
            steps.append((place, make_link, [words[0], words[1]]))
        elif rest == "go" and word == "let":
            steps.append((place, let_go, []))
        elif word in STEPS:
            steps.append((place, STEPS[word], [words[0]]))
        else:
            raise Bad("the word '%s' isn't known" % word)


def done(does, held, given):
    """The differences of a step: one that can't be done, as on a file that isn't there, is one."""
    try:
        return list(does(held, *given))
    except OSError as error:
        return [("step", "done", error)]


def play(case):
    """Plays a case in a new folder. Answers whether nothing differed."""
    held, good = [], True
    with tempfile.TemporaryDirectory() as folder:
        before = os.getcwd()
        os.chdir(folder)
        try:
            for place, does, given in case.steps:
                for what, wanted, came in done(does, held, given):
                    good = False
                    print("%s: case %s: %s: wanted %s, came %s" % (place, case.name, what, wanted, came))
        except Lacking as what:
            print("%s: case %s: not played from here on: this machine has %s" % (place, case.name, what))
        finally:
            let_go(held)
            os.chdir(before)
    return good


def main():
    if len(sys.argv) < 3:
        print(__doc__)
        return 2
    program = os.path.abspath(sys.argv[1])
    try:
        cases = [case for path in sys.argv[2:] for case in Reader(path, program).read()]
    except (Bad, OSError) as error:
        print("cases: %s" % error)
        return 2
    differ = [case for case in cases if not play(case)]
    print("%d cases, %d runs: %d differ" % (len(cases), sum(case.runs for case in cases), len(differ)))
    return int(bool(differ))


if __name__ == "__main__":
    sys.exit(main())
