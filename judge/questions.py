#!/usr/bin/env python3
"""questions.py PROGRAM: shows that `check`, `check --files`, `totals`, `flows`, `records`, `export` and `templates`
only read an archive. Archives that are settled, that a killed `feed` left, and of which files are longer than they are
to be or no longer named, are asked: as they are, without any permission to write, by another user, on a read-only
mount, and beside others that ask. Each time the folder must be the same afterwards (names, octets, modes, times), and
the answers those that come after the archive was opened to be changed (by a `roll` that rolls nothing). Where strace
may trace, no call that changes a file may be made, none that syncs, and no file opened for more than reading. A damaged
archive is refused as that roll refuses it. While a `feed` runs, questions are refused; while a question runs, `feed`
is. And what a command has left that ended is opened to be changed without a write.

A line is printed for each difference, and one for each case that can't be played here, which begins with `skipped`;
the last line is `N cases of questions: D differ`, and the status is 0 where D is 0, else 1."""
import fcntl
import glob
import os
import random
import re
import shutil
import signal
import struct
import subprocess
import sys
import tempfile
import time

SECONDS = 120
ALL = ("0", "4294967296")
QUESTIONS = (("check",), ("check", "--files"), ("totals", *ALL), ("totals", *ALL, "--workers", "1"), ("records", *ALL),
             ("export",), ("export", "--until", "2023-11-14"), ("templates",), ("flows", *ALL))
NOTHING = "4294967295"
IN_USE = ("flowvault: 30 Fault\nflowvault: the folder is in use, by a flowvault that still runs\n"
          "flowvault: see: flowvault explain 30\n")
NOBODY = ("setpriv", "--reuid", "65534", "--regid", "65534", "--clear-groups")

# The calls that change a file or sync it; of `write` those to another descriptor than the standard ones.
CHANGING = ("write pwrite64 writev pwritev pwritev2 ftruncate truncate fallocate fsync fdatasync sync_file_range "
            "syncfs sync msync creat unlink unlinkat rename renameat renameat2 link linkat symlink symlinkat mkdir "
            "mkdirat mknod mknodat rmdir chmod fchmod fchmodat fchmodat2 chown fchown fchownat lchown utime utimes "
            "utimensat futimesat setxattr fsetxattr lsetxattr copy_file_range sendfile splice")
OPENING = "open openat openat2"

# Those of them that write or cut a file.
WRITING = "write pwrite64 writev pwritev pwritev2 ftruncate truncate fallocate copy_file_range sendfile splice"


class Lacking(Exception):
    """What a case needs, and this machine hasn't got."""


def file_of(domain, count, seed):
    """A File of so many messages of a domain, of 20 flows each, with its template before them."""
    chosen, messages = random.Random(seed), []
    template = struct.pack(">12H", 2, 24, 256, 4, 150, 4, 4, 1, 1, 4, 2, 4)
    for n in range(count):
        start = 1700000000 + chosen.randrange(300000)
        flows = b"".join(struct.pack(">IBII", start, 6, chosen.randrange(1500), 1) for _ in range(20))
        sets = (template if n == 0 else b"") + struct.pack(">2H", 256, 4 + len(flows)) + flows
        messages.append(struct.pack(">HHIII", 10, 16 + len(sets), start, 20 * n, domain) + sets)
    return b"".join(messages)


def ran(*words, given=b"", within=()):
    """What a command answers: its status, and what it wrote, each octet as a character."""
    it = subprocess.run([*within, *words], input=given, capture_output=True, timeout=SECONDS)
    return it.returncode, it.stdout.decode("latin-1"), it.stderr.decode("latin-1")


def seen(folder):
    """All that a folder is, but for the times of access."""
    found = {}
    for name in [".", *sorted(os.listdir(folder))]:
        path = os.path.join(folder, name)
        it = os.lstat(path)
        octets = b""
        if os.path.isfile(path):
            with open(path, "rb") as file:
                octets = file.read()
        found[name] = (it.st_mode, it.st_ino, it.st_nlink, it.st_uid, it.st_mtime_ns, it.st_ctime_ns, octets)
    return found


def changed(before, after):
    """The names of what isn't the same."""
    return sorted(name for name in {*before, *after} if before.get(name) != after.get(name))


class Trial:
    """The program, and a folder for what is made."""

    def __init__(self, program, place):
        self.program, self.place, self.kept_answers = os.path.join(place, "flowvault"), place, {}
        shutil.copyfile(program, self.program)
        os.chmod(self.program, 0o755)
        self.more = self.kept("more", file_of(9, 3, 1))

    def path(self, name):
        return os.path.join(self.place, name)

    def kept(self, name, octets):
        with open(self.path(name), "wb") as file:
            file.write(octets)
        return self.path(name)

    def runs(self, *words):
        """Runs the program, which must answer well."""
        status, out, err = ran(self.program, *words)
        if status or err:
            raise OSError("%s: status %d: %s" % (" ".join(words), status, err.strip()))
        return out

    def copied(self, folder, name):
        """A copy of a folder, with its modes and times."""
        if os.path.isdir(self.path(name)):
            os.chmod(self.path(name), 0o755)
            shutil.rmtree(self.path(name))
        shutil.copytree(folder, self.path(name))
        return self.path(name)

    def opened(self, folder):
        """A copy of an archive that was opened to be changed."""
        copy = self.copied(folder, "opened")
        return copy, ran(self.program, "roll", copy, NOTHING)

    def asked(self, folder, within=()):
        """What each question answers, and what of the folder isn't the same after it."""
        answers, before = {}, seen(folder)
        for words in QUESTIONS:
            answers[words] = ran(self.program, words[0], folder, *words[1:], within=within)
            answers[words, "changed"] = changed(before, seen(folder))
        return answers

    def wanted(self, folder):
        """What each question answers once the archive was opened to be changed, or the refusal of that."""
        copy, (status, _, err) = self.opened(folder)
        answers = {} if status else self.asked(copy)
        wanted = {}
        for words in QUESTIONS:
            wanted[words] = (status, "", err) if status else answers[words]
            wanted[words, "changed"] = []
        return wanted


    def always(self, folder):
        """The same of an archive that stays as it is, kept."""
        if folder not in self.kept_answers:
            self.kept_answers[folder] = self.wanted(folder)
        return self.kept_answers[folder]


def paired(what, wanted, came):
    """Yields what was wanted and what came, question by question."""
    for key in wanted:
        words, of = (key[0], ", the folder afterwards") if key[-1] == "changed" else (key, "")
        yield "%s: %s%s" % (what, " ".join(words), of), wanted[key], came[key]


# Archives

def settled(trial, folder):
    """Files were fed, and `feed` ended well."""
    os.mkdir(folder)
    trial.runs("create", folder, "300", "--limit", "65535", "--wide", "86400")
    trial.runs("feed", folder, trial.kept("first", file_of(1, 900, 2)), "--keep", NOTHING)


def merged(trial, folder):
    """Files were fed, rolled and merged."""
    settled(trial, folder)
    for seed in (3, 4):
        trial.runs("roll", folder, "1")
        trial.runs("feed", folder, trial.kept("next", file_of(seed, 500, seed)), "--keep", NOTHING)
    trial.runs("roll", folder, "2")
    trial.runs("merge", folder, "1")


def changes_of_slots(folder):
    """When the slots of an archive were changed last."""
    return [os.stat(path).st_ctime_ns for path in sorted(glob.glob(os.path.join(folder, "*.slot")))]


def killed(trial, folder):
    """`feed` was killed while it took Files in and rolled."""
    settled(trial, folder)
    path, wait = trial.kept("long", file_of(5, 4000, 5)), 0.3
    for _ in range(20):
        before = changes_of_slots(folder)
        feeding = subprocess.Popen([trial.program, "feed", folder, path, "--keep", "1"], stdout=subprocess.DEVNULL)
        # (on a busy machine it may take long to begin)
        while changes_of_slots(folder) == before and feeding.poll() is None:
            time.sleep(0.01)
        time.sleep(wait)
        feeding.kill()
        if feeding.wait() == -signal.SIGKILL:
            return
        wait /= 2
    raise Lacking("feed ends before it is killed")


def numbered(folder):
    return sorted(int(name[:-6]) for name in os.listdir(folder) if name.endswith(".ipfix"))


def lengthened(trial, folder):
    """Files are longer than they are to be, as a stop within a seal leaves them; others are no longer named."""
    merged(trial, folder)
    for name in sorted(os.listdir(folder)):
        if name.endswith(".ipfix"):
            path = os.path.join(folder, name)
            os.chmod(path, 0o640)
            with open(path, "ab") as file:
                file.write(b"\0\0" if name != "%d.ipfix" % numbered(folder)[-1] else bytes(5000))
    for name, octets in (("7000.ipfix", b"\0" * 300), ("7001.ipfix", b""), ("7002.ipfix", file_of(1, 3, 7))):
        with open(os.path.join(folder, name), "wb") as file:
            file.write(octets)
    with open(os.path.join(folder, "kept.txt"), "wb") as file:
        file.write(b"no file of the archive\n")


def empty(trial, folder):
    """An archive without messages."""
    os.mkdir(folder)
    trial.runs("create", folder, "300")


ARCHIVES = (("settled", settled), ("merged", merged), ("killed", killed), ("lengthened", lengthened), ("empty", empty))


# How they are asked

def as_is(trial, folder):
    return (), trial.copied(folder, "asked")


def unwritable(trial, folder):
    """Nobody may write it."""
    copy = trial.copied(folder, "asked")
    for path in [copy, *(os.path.join(copy, name) for name in os.listdir(copy))]:
        os.chmod(path, os.stat(path).st_mode & ~0o222)
    return (), copy


def by_another(trial, folder):
    """Who asks may only read it."""
    if os.geteuid() or not shutil.which("setpriv"):
        raise Lacking("it takes root and setpriv")
    copy = trial.copied(folder, "asked")
    os.chmod(copy, 0o755)
    for name in os.listdir(copy):
        os.chmod(os.path.join(copy, name), 0o644)
    if ran(trial.program, "--version", within=NOBODY)[0] or ran("ls", copy, within=NOBODY)[0]:
        raise Lacking("another user can't come to %s" % trial.place)
    if not ran("touch", os.path.join(copy, "1.slot"), within=NOBODY)[0]:
        raise Lacking("another user may write what is root's")
    return NOBODY, copy


def mounted(trial, folder):
    """It is on a read-only mount."""
    copy = trial.copied(folder, "asked")
    script = 'mount --bind "$0" "$0" && mount -o remount,bind,ro "$0" && exec "$@"'
    within = ("unshare", "-m", "sh", "-c", script, copy)
    if not shutil.which("unshare") or ran("true", within=within)[0]:
        raise Lacking("nothing can be mounted")
    if not ran("touch", os.path.join(copy, "1.slot"), within=within)[0]:
        raise Lacking("what is mounted isn't read-only")
    return within, copy


WAYS = (("as it is", as_is), ("without permission to write", unwritable), ("by another user", by_another),
        ("on a read-only mount", mounted))


def asked(trial, folder, way):
    """An archive that is asked in some way answers as one that was opened to be changed, and stays as it is."""
    within, copy = way(trial, folder)
    yield from paired("asked", trial.always(folder), trial.asked(copy, within))


def traced(trial, folder):
    """No call changes a file, or syncs one."""
    trace = trial.path("trace")
    if not shutil.which("strace") or ran("strace", "-o", trace, "-e", "trace=fsync", "true")[0]:
        raise Lacking("there is no strace that may trace")
    copy = trial.copied(folder, "asked")
    names = ",".join("?" + name for name in (CHANGING + " " + OPENING).split())
    for words in QUESTIONS:
        status = ran("strace", "-f", "-qq", "-o", trace, "-e", "trace=" + names, "-e", "signal=none", trial.program,
                     words[0], copy, *words[1:])[0]
        with open(trace, errors="replace") as file:
            calls = [re.sub(r"^\d+ +", "", line.rstrip()) for line in file]
        yield " ".join(words), (0, []), (status, [call for call in calls if is_changing(call)])
        yield "%s: calls were recorded" % " ".join(words), True, any("asked" in call for call in calls)


def reopened(trial, folder):
    """An archive that was left by a command that ended is opened to be changed without a write: by a roll of nothing,
    and by another one after it, of which the first writes where the archive was killed. After each of them nobody may
    write a file of it, but where others than its owner might before."""
    trace, copy = trial.path("trace"), trial.copied(folder, "asked")
    if not shutil.which("strace") or ran("strace", "-o", trace, "-e", "trace=fsync", "true")[0]:
        raise Lacking("there is no strace that may trace")
    shared = os.path.join(copy, "2.slot")
    for way in ("first", "second", "shared"):
        if way == "shared":
            os.chmod(shared, 0o660)
        names = ",".join("?" + name for name in WRITING.split())
        status = ran("strace", "-f", "-qq", "-o", trace, "-e", "trace=" + names, "-e", "signal=none", trial.program,
                     "roll", copy, NOTHING)[0]
        with open(trace, errors="replace") as file:
            calls = [re.sub(r"^\d+ +", "", line.rstrip()) for line in file]
        writes = [call for call in calls if not re.match(r"writev?\([12],", call)]
        is_killed = way == "first" and os.path.basename(folder) == "killed"
        if way != "shared":
            yield "%s: writes" % way, (0, is_killed), (status, bool(writes))
        writable = [name for name in sorted(os.listdir(copy)) if os.stat(os.path.join(copy, name)).st_mode & 0o222]
        yield "%s: writable files" % way, ["2.slot"] if way == "shared" else [], writable


def is_changing(call):
    """Whether a call changes a file, syncs one, or opens one for more than reading."""
    name = call.split("(", 1)[0]
    if name in OPENING.split():
        return bool(re.search(r"O_(WRONLY|RDWR|CREAT|TRUNC|APPEND|TMPFILE)", call))
    if name in ("write", "writev"):
        return not re.match(r"writev?\([12],", call)
    return name in CHANGING.split()


# Damage

def damaged(trial, folder):
    """Damaged archives are refused as an opening refuses them, and stay as they are."""
    numbers = numbered(folder)
    for what, damage in (
        ("a sealed segment's version", lambda copy: changed_octet(copy, "%d.ipfix" % numbers[0], 1)),
        ("a file is gone", lambda copy: os.remove(os.path.join(copy, "%d.ipfix" % numbers[0]))),
        ("the active one is short", lambda copy: os.truncate(os.path.join(copy, "%d.ipfix" % numbers[-1]), 9)),
        ("the slots are empty", lambda copy: [os.truncate(os.path.join(copy, "%d.slot" % n), 0) for n in (1, 2)]),
        ("the slots are gone", lambda copy: [os.remove(os.path.join(copy, "%d.slot" % n)) for n in (1, 2)]),
        ("the folder is empty", lambda copy: [os.remove(os.path.join(copy, name)) for name in os.listdir(copy)]),
    ):
        copy = trial.copied(folder, "damaged")
        for at in numbers[:1] + numbers[-1:]:
            os.chmod(os.path.join(copy, "%d.ipfix" % at), 0o640)
        for at in (1, 2):
            os.chmod(os.path.join(copy, "%d.slot" % at), 0o640)
        damage(copy)
        wanted = trial.wanted(copy)
        yield "%s: it is refused" % what, 5, wanted[QUESTIONS[0]][0]
        yield from paired(what, wanted, trial.asked(copy))


def changed_octet(folder, name, place):
    with open(os.path.join(folder, name), "r+b") as file:
        file.seek(place)
        octet = file.read(1)
        file.seek(place)
        file.write(bytes([octet[0] ^ 0x55]))


def unreadable(trial, folder):
    """Who may not read it has 30, and the system's reason."""
    within, copy = by_another(trial, folder)
    os.chmod(os.path.join(copy, "%d.ipfix" % numbered(folder)[0]), 0o600)
    before = seen(copy)
    for words in QUESTIONS:
        status, out, err = ran(trial.program, words[0], copy, *words[1:], within=within)
        yield " ".join(words), (3, "", "flowvault: 30 Fault"), (status, out, err.split("\n", maxsplit=1)[0])
        yield "%s: the system's reason" % " ".join(words), True, "Permission denied" in err
    yield "the folder", [], changed(before, seen(copy))


# Beside others

def ten_at_once(trial, folder):
    """Ten ask at once, and all are answered."""
    copy = trial.copied(folder, "asked")
    wanted, before = trial.runs("totals", copy, *ALL), seen(copy)
    runs = [subprocess.Popen([trial.program, "totals", copy, *ALL], stdout=subprocess.PIPE, stderr=subprocess.PIPE)
            for _ in range(10)]
    for n, run in enumerate(runs):
        out, err = run.communicate(timeout=SECONDS)
        yield "totals %d of 10" % (n + 1), (0, wanted, ""), (run.returncode, out.decode(), err.decode())
    yield "the folder", [], changed(before, seen(copy))


def beside_a_reader(trial, folder):
    """While a question isn't done others are answered, and what changes the archive is refused."""
    copy = trial.copied(folder, "asked")
    wanted, before = trial.always(folder), seen(copy)
    with subprocess.Popen([trial.program, "flows", copy, *ALL], stdout=subprocess.PIPE) as asking:
        head = asking.stdout.read(1)
        yield from paired("beside a question", wanted, trial.asked(copy))
        for words in (("feed", copy, trial.more), ("roll", copy, "0"), ("merge", copy, "0"), ("shell", copy),
                      ("create", copy, "300")):
            yield "%s beside a question" % words[0], (3, "", IN_USE), ran(trial.program, *words)
        yield "the folder", [], changed(before, seen(copy))
        yield "the question", wanted[QUESTIONS[-1]][1], (head + asking.stdout.read()).decode()
    yield "feed after it", (0, "fed 1 3\n", ""), ran(trial.program, "feed", copy, trial.more)


def beside_a_writer(trial, folder):
    """While `feed` runs questions are refused, and answered once it has ended."""
    copy = trial.copied(folder, "asked")
    with subprocess.Popen([trial.program, "feed", copy, "-"], stdin=subprocess.PIPE, stdout=subprocess.PIPE) as feeding:
        until_locked(copy)
        for words in QUESTIONS:
            yield "%s while feed runs" % " ".join(words), (3, "", IN_USE), ran(
                trial.program, words[0], copy, *words[1:])
        with open(trial.more, "rb") as file:
            out = feeding.communicate(file.read(), timeout=SECONDS)[0]
        yield "feed", (0, b"fed 1 3\n"), (feeding.returncode, out)
    yield from paired("after feed", trial.wanted(copy), trial.asked(copy))


def until_locked(folder):
    handle = os.open(folder, os.O_RDONLY)
    try:
        for _ in range(SECONDS * 20):
            try:
                fcntl.flock(handle, fcntl.LOCK_SH | fcntl.LOCK_NB)
                fcntl.flock(handle, fcntl.LOCK_UN)
                time.sleep(0.05)
            except BlockingIOError:
                return
    finally:
        os.close(handle)
    raise OSError("no feed has locked %s" % folder)


def cases(trial):
    """Each case: its name, and what yields what was wanted in it, and what came."""
    made = {}
    for name, make in ARCHIVES:
        made[name] = trial.path(name)
        try:
            make(trial, made[name])
        except Lacking as it:
            yield name, None, str(it)
            continue
        for way_name, way in WAYS:
            yield "%s, %s" % (name, way_name), asked, (made[name], way)
        yield "%s, traced" % name, traced, (made[name],)
        if name != "lengthened":
            yield "%s, opened to be changed" % name, reopened, (made[name],)
    yield "damaged", damaged, (made["settled"],)
    yield "unreadable", unreadable, (made["settled"],)
    yield "ten at once", ten_at_once, (made["merged"],)
    yield "beside a question", beside_a_reader, (made["settled"],)
    yield "beside feed", beside_a_writer, (made["settled"],)


def differences(trial, name, play, words):
    """What differs in a case, a line each; none where it can't be played here."""
    if play is None:
        return print("skipped: %s: %s" % (name, words))
    try:
        found = list(play(trial, *words))
    except Lacking as it:
        return print("skipped: %s: %s" % (name, it))
    except (OSError, subprocess.TimeoutExpired) as it:
        return ["not played: %s" % it]
    return ["%s: wanted %s, came %s" % (it[0], short(it[1]), short(it[2])) for it in found if it[1] != it[2]]


def short(it):
    text = str(it)
    return text if len(text) < 400 else "%s .. (%d)" % (text[:400], len(text))


def main(program):
    count = differ = 0
    with tempfile.TemporaryDirectory() as place:
        os.chmod(place, 0o755)
        trial = Trial(program, place)
        for case in cases(trial):
            lines = differences(trial, *case)
            if lines is not None:
                count, differ = count + 1, differ + bool(lines)
            for line in lines or ():
                print("%s: %s" % (case[0], line))
    print("%d cases of questions: %d differ" % (count, differ))
    return int(differ > 0)


if __name__ == "__main__":
    sys.exit(main(sys.argv[1]) if len(sys.argv) == 2 else print(__doc__) or 2)
