#!/usr/bin/env python3
"""failing_drive.py PROGRAM [--every N]: shows on a real ext4 that no message is lost, and none is counted twice, where
the drive fails writes of files' octets. It needs root, ext4 in a loop mount, and mkfs.ext4, and says so where there is
one that lacks.

The drive is a file in a folder in memory (tmpfs), of which the blocks that ext4 uses for itself, its journal and its
tables, are there, and each other block is a hole. The folder in memory has a limit: a hole that is written once the
limit is reached stays one, and the loop device fails that write. So ext4 says EIO at the next fsync of the file, marks
its pages clean, and reads them as they were meant to be, until they are dropped from the page cache: what docs/DISK.md
says of failed syncs. What the drive has is in the file at each moment.

What is run: `create`, `feed`, `feed` with rolling, one of files that a group may write, `roll` and `merge`
(judge/failed_syncs.py) are process 1, with room for so many blocks of 4,096 octets: for none, one, and so on up to as
many as they take (of these every Nth, 1 if not said). Then there is room again, in every other run after the page cache
was dropped. Process 2 opens the archive by a roll that rolls nothing, checks it, goes on with the same job, and feeds
five messages more. After each process the machine stops: the file is copied as it is, mounted (ext4 plays its journal),
and the archive in it must open and hold all that was acknowledged, each message once, as judge/failed_syncs.py has it.

Each write is of one block: of a longer one, of which the first blocks can be made and the next not, Linux's loop driver
says that it was good, so that the drive would lie.

What it doesn't show: writes that fail of the journal or the tables, which make ext4 read-only; reads that fail; a drive
that loses or reorders what it has acknowledged.

A line is printed for each failure and each case; last `N runs on a failing drive, of which M met a fault: F failed`.
The status is 0 where F is 0 and M isn't, else 1; 2 for wrong words; 77 where it can't be run here."""
import argparse
import os
import re
import shutil
import subprocess
import sys
import tempfile

import failed_syncs
from failed_syncs import Judge, Seen

BLOCK = 4096
BLOCKS = 10_240
ROOMY = 2 * BLOCKS * BLOCK
NEEDED = ("mkfs.ext4", "dumpe2fs", "mount", "umount", "unshare", "fallocate")
INSIDE = "FAILING_DRIVE_INSIDE"


def called(*words):
    """Runs a command of the system: what it printed, nothing where it failed."""
    if not shutil.which(words[0]):
        return None
    ran = subprocess.run(words, stdout=subprocess.PIPE, stderr=subprocess.DEVNULL, text=True)
    return None if ran.returncode else ran.stdout


def must(*words):
    printed = called(*words)
    if printed is None:
        raise OSError("it failed: " + " ".join(words))
    return printed


class Drive:
    """A drive whose writes fail past a limit, and an ext4 on it."""

    def __init__(self, place):
        self.back, self.at = os.path.join(place, "back"), os.path.join(place, "mounted")
        self.image = os.path.join(self.back, "image")
        os.mkdir(self.back)
        os.mkdir(self.at)
        must("mount", "-t", "tmpfs", "-o", "size=%d" % ROOMY, "tmpfs", self.back)

    def format(self):
        """An empty file system: all blocks that it uses are there, and no other."""
        with open(self.image, "wb") as file:
            file.truncate(BLOCK * BLOCKS)
        must("mkfs.ext4", "-q", "-F", "-b", str(BLOCK), "-J", "size=4", "-E",
             "nodiscard,lazy_itable_init=0,lazy_journal_init=0", self.image)
        with open(self.image, "r+b") as file:
            octets = file.read()
            file.seek(0)
            file.write(octets)
        self.punch()

    def punch(self):
        """Makes holes of the blocks that are free."""
        for first, last in re.findall(r"(\d+)-(\d+)", " ".join(re.findall(
                r"^ +Free blocks: (.*)$", must("dumpe2fs", self.image), re.MULTILINE))):
            must("fallocate", "--punch-hole", "--offset", str(int(first) * BLOCK), "--length",
                 str((int(last) + 1 - int(first)) * BLOCK), self.image)

    def mount(self):
        # (it writes what is dirty only where it is asked to, for as long as a run takes)
        must("mount", "-o", "loop,errors=continue,noatime,commit=300", self.image, self.at)
        with open("/proc/self/mounts") as lines:
            devices = [line.split()[0] for line in lines if line.split()[1] == self.at]
        if not devices:
            raise OSError("what was mounted isn't found")
        with open("/sys/block/%s/queue/max_sectors_kb" % os.path.basename(devices[-1]), "w") as file:
            file.write(str(BLOCK // 1024))

    def unmount(self):
        must("umount", self.at)

    def used(self):
        """How many blocks of it are there."""
        return os.stat(self.image).st_blocks * 512 // BLOCK

    def limit(self, room=None):
        """Writes of new blocks fail once so many more are there; none fails from now on where it isn't said."""
        size = ROOMY if room is None else (self.used() + room) * BLOCK
        must("mount", "-o", "remount,size=%d" % size, self.back)

    def put(self, image):
        """Makes it what it was when its file was copied."""
        self.limit()
        copied(image, self.image)

    def end(self):
        called("umount", self.at)
        must("umount", self.back)


def drop_pages():
    """Drops from the page cache what is clean."""
    with open("/proc/sys/vm/drop_caches", "w") as file:
        file.write("1")


def copied(source, target):
    """Copies a file with its holes, and no others."""
    with open(source, "rb") as old, open(target, "wb") as new:
        size = os.fstat(old.fileno()).st_size
        new.truncate(size)
        at = hole = 0
        while hole < size:
            try:
                at = os.lseek(old.fileno(), hole, os.SEEK_DATA)
            except OSError:
                break  # (there is nothing after it)
            hole = os.lseek(old.fileno(), at, os.SEEK_HOLE)
            os.lseek(old.fileno(), at, os.SEEK_SET)
            os.lseek(new.fileno(), at, os.SEEK_SET)
            while at < hole:
                at += os.sendfile(new.fileno(), old.fileno(), at, hole - at)


class Run:
    """Runs of one case over drives that fail at another block each."""

    def __init__(self, judge, place, case):
        self.judge, self.case = judge, case
        self.drive, self.other = (Drive(made(os.path.join(place, it))) for it in ("drive", "other"))
        self.base, self.folder = os.path.join(place, "base"), os.path.join(self.drive.at, "a")
        self.expected, self.number, self.faults = None, 0, 0

    def begin(self):
        """The archive before the faults, on a drive without any: how many blocks process 1 takes then."""
        self.drive.format()
        self.drive.mount()
        base = self.case.base(self.judge, self.folder)
        self.drive.unmount()
        self.drive.punch()
        copied(self.drive.image, self.base)
        self.before = base.expected
        self.number = 1
        self.drive.mount()
        used = self.drive.used()
        self.runs(self.case.kind, self.case.options, self.case.files)
        self.drive.unmount()
        return self.drive.used() - used

    def runs(self, kind, options=(), files=()):
        """Runs a command, and notes what is expected after it: its status, and its refusal."""
        before, paths = self.expected or self.before, []
        for n, numbers in enumerate(files):
            paths.append(os.path.join(self.judge.place, "%d.ipfix" % n))
            failed_syncs.write_file(paths[-1], failed_syncs.file_of(numbers))
        status, printed, refused = self.judge.ask(kind, self.folder, *paths, *options)
        self.expected = before.after(kind, files, printed.splitlines(), status)
        return status, refused

    def stop(self):
        """The machine stops: what is wrong with what the drive has, nothing where it is as it must be."""
        copied(self.drive.image, self.other.image)
        self.other.mount()
        try:
            folder = os.path.join(self.other.at, "a")
            if os.path.isdir(folder) or self.expected.made:
                failed = self.judge.opened(folder, self.expected)
                if failed:
                    raise Seen("after a stop: " + failed)
        finally:
            self.other.unmount()

    def goes_on(self):
        """A new process: an opening, a check, the same job, and five messages more."""
        self.number = 2
        status, refused = self.runs("roll", failed_syncs.NOTHING)
        if status == 5 and not self.expected.made:
            for name in os.listdir(self.folder):
                os.remove(os.path.join(self.folder, name))
            status, refused = self.runs("create", self.case.creation)
        elif not status:
            status, refused = self.runs("check")
        if not status and self.case.kind in ("roll", "merge"):
            status, refused = self.runs(self.case.kind, self.case.options)
        if not status:
            status, refused = self.runs(**self.case.more(self))
        if status:
            raise Seen("process 2 is refused: " + refused)

    def with_room(self, room, drops):
        """A run with room for so many blocks: what was seen wrong, or nothing."""
        self.drive.put(self.base)
        self.drive.mount()
        self.expected, self.number = None, 1
        try:
            self.drive.limit(room)
            status, _ = self.runs(self.case.kind, self.case.options, self.case.files)
            self.faults += status != 0
            self.stop()
            self.drive.limit()
            if drops:
                drop_pages()
            self.goes_on()
            self.stop()
        except Seen as it:
            return str(it)
        finally:
            self.drive.unmount()
        return None

    def end(self):
        self.drive.end()
        self.other.end()


def made(folder):
    os.makedirs(folder)
    return folder


def cases():
    """Those of judge/failed_syncs.py, of which the ones that feed take more blocks."""
    longer = {"feed": failed_syncs.threes(3, 16), "feed with rolling": failed_syncs.threes(12, 24)}
    found = failed_syncs.all_cases()
    for case in found:
        case.files = longer.get(case.name, case.files)
    return found


def played(program, place, every):
    """All runs: how many there were, how many failed, and how many met a fault."""
    runs = failed = faults = 0
    for n, case in enumerate(cases()):
        own = made(os.path.join(place, str(n)))
        run = Run(Judge(program, own, None, 1), own, case)
        try:
            needed = run.begin()
            for room in range(0, needed + 1, every):
                runs += 1
                seen = run.with_room(room, runs % 2 == 0)
                if seen:
                    failed += 1
                    print("%s, room for %d of %d blocks%s: %s" % (
                        case.name, room, needed, ", the page cache dropped" if runs % 2 == 0 else "", seen), flush=True)
            faults += run.faults
            print("%s: room for up to %d blocks, faults in %d runs" % (case.name, needed, run.faults), flush=True)
        finally:
            run.end()
    return runs, failed, faults


def lacking():
    """What isn't there to run it by, or nothing."""
    if os.geteuid():
        return "it takes root"
    for name in NEEDED:
        if not shutil.which(name):
            return "there is no " + name
    with tempfile.TemporaryDirectory() as place:
        try:
            drive = Drive(os.path.realpath(place))
            try:
                drive.format()
                drive.mount()
                drop_pages()
            finally:
                drive.end()
        except OSError as it:
            return str(it)
    return None


def main():
    parser = argparse.ArgumentParser(description=__doc__.split("\n\n")[0])
    parser.add_argument("program", metavar="PROGRAM")
    parser.add_argument("--every", type=int, default=1, metavar="N", help="every Nth number of blocks")
    asked = parser.parse_args()
    if not os.access(asked.program, os.X_OK) or asked.every < 1:
        parser.error("PROGRAM is a program, N is 1 or more")
    if not os.geteuid() and INSIDE not in os.environ and called("unshare", "--mount", "true") is not None:
        # (its mounts are its own, and end with it)
        os.execvpe("unshare", ["unshare", "--mount", sys.executable, *sys.argv], {**os.environ, INSIDE: "1"})
    why = lacking() if INSIDE in os.environ else "root may mount nothing here, or this isn't root"
    if why:
        print(why)
        return 77
    os.umask(0o022)
    with tempfile.TemporaryDirectory(prefix="failing_drive_") as place:
        runs, failed, faults = played(os.path.abspath(asked.program), os.path.realpath(place), asked.every)
    print("%d runs on a failing drive, of which %d met a fault: %d failed" % (runs, faults, failed))
    return int(failed > 0 or not faults)


if __name__ == "__main__":
    sys.exit(main())
