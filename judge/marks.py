#!/usr/bin/env python3
"""marks.py PROGRAM: shows that an archive is opened to be changed without a write where the modes of its files can't
say that they are settled: files that a group may write, and files of another user, which are marked by names beside
them (docs/DISK.md). After a command that ended well the next opening writes nothing before its own first write; after a
`feed` that was killed it writes again, and no mark is left of a file that was being changed. A mark counts for nothing
once its file was changed without it, or where it isn't an empty file; one that can't be taken away refuses the change,
and one that others couldn't take away isn't made.

And it changes the active file while a `feed` waits for its next batch: another thing under its name, or a right that is
taken away, refuses the batch, and another file there is the one that is written, though the file stays open from one
batch to the next: a batch opens no file.

A line is printed for each difference, and one for each case that can't be played here, which begins with `skipped`:
without strace that may trace none can, and those of another user take root. The last line is `N cases of marks: D
differ`, and the status is 0 where D is 0, else 1."""
import os
import re
import shutil
import signal
import subprocess
import sys
import tempfile
import time

import questions
from questions import Lacking, NOBODY, NOTHING, Trial, file_of, ran

USER = 65534
CALLS = questions.WRITING + " openat unlink unlinkat"


def may_trace(trial):
    return shutil.which("strace") and not ran("strace", "-o", trial.path("trace"), "-e", "trace=fsync", "true")[0]


def traced(trial, *words, within=()):
    """Status, output and error of a command, and its calls that make, write, cut or remove a file."""
    trace = trial.path("trace")
    if os.path.exists(trace):
        os.remove(trace)
    open(trace, "w").close()
    os.chmod(trace, 0o666)
    names = ",".join("?" + name for name in CALLS.split())
    answer = ran("strace", "-f", "-qq", "-o", trace, "-e", "trace=" + names, "-e", "signal=none", trial.program, *words,
                 within=within)
    with open(trace, errors="replace") as file:
        return answer, [re.sub(r"^\d+ +", "", line.rstrip()) for line in file]


def is_write(call):
    """Whether a call writes or cuts a file; what goes to standard output and error is none."""
    name = call.split("(", 1)[0]
    return name in questions.WRITING.split() and not re.match(r"writev?\([12],", call)


def marks(folder):
    """The names that mark files."""
    return sorted(name for name in os.listdir(folder) if name.endswith(".settled"))


def files(folder):
    return sorted(name for name in os.listdir(folder) if name.endswith((".ipfix", ".slot")))


def file_of_mark(folder, name):
    number = name[: -len(".settled")]
    return os.path.join(folder, number + (".slot" if number in ("1", "2") else ".ipfix"))


def counting(folder):
    """The marks that count: their files have their time of change."""
    return [name for name in marks(folder) if os.path.exists(file_of_mark(folder, name))
            and os.stat(file_of_mark(folder, name)).st_mtime_ns == os.stat(os.path.join(folder, name)).st_mtime_ns]


def newest(folder):
    """The active file: the one of the greatest number."""
    return "%d.ipfix" % max(int(name[:-6]) for name in files(folder) if name.endswith(".ipfix"))


def wanted_marks(folder):
    """Those of the slots and of the active file."""
    return sorted(["1.settled", "2.settled", newest(folder).replace(".ipfix", ".settled")])


def made(trial, name):
    """An archive with sealed segments, which a command left."""
    folder = trial.path(name)
    if os.path.exists(folder):
        shutil.rmtree(folder)
    questions.settled(trial, folder)
    return folder


def shared(folder, group=None):
    """A group may change the folder and its slots and active file, as far as their modes say so."""
    os.chmod(folder, 0o770)
    for name in files(folder):
        if name.endswith(".slot") or name == newest(folder):
            os.chmod(os.path.join(folder, name), 0o660)
    if group is not None:
        for path in [folder, *(os.path.join(folder, name) for name in os.listdir(folder))]:
            os.chown(path, 0, group)


def of_a_group(trial):
    """What a group may write stays so, and is marked by names: the second opening writes nothing, and a roll and a feed
    write no more than of an archive of one user."""
    folder = made(trial, "group")
    shared(folder)
    before = {name: os.stat(os.path.join(folder, name)).st_mode for name in files(folder)}
    answer, calls = traced(trial, "roll", folder, NOTHING)
    yield "first opening: writes", (0, True), (answer[0], any(map(is_write, calls)))
    yield "first opening: marks", wanted_marks(folder), counting(folder)
    for way in ("second", "third"):
        answer, calls = traced(trial, "roll", folder, NOTHING)
        yield way + " opening: writes", (0, []), (answer[0], list(filter(is_write, calls)))
        yield way + " opening: modes", before, {name: os.stat(os.path.join(folder, name)).st_mode
                                                for name in files(folder)}
    answers = trial.asked(folder)
    yield "asked: the folder", [], [key for key, value in answers.items() if key[-1] == "changed" and value]
    alone = made(trial, "alone")
    for words in (("feed", trial.more, "--keep", NOTHING), ("feed", trial.more, "--keep", "0"), ("roll", "0")):
        own, calls = traced(trial, words[0], alone, *words[1:])
        answer, others = traced(trial, words[0], folder, *words[1:])
        yield " ".join(words) + ": answers", own, answer
        yield " ".join(words) + ": writes", sum(map(is_write, calls)), sum(map(is_write, others))
    for words in questions.QUESTIONS:
        yield " ".join(words), ran(trial.program, words[0], alone, *words[1:]), ran(
            trial.program, words[0], folder, *words[1:])


def killed(trial):
    """A feed that is killed leaves no mark that counts of what it changed, and the next opening writes that again."""
    folder = made(trial, "killed")
    shared(folder)
    trial.runs("roll", folder, NOTHING)
    yield "marks before", wanted_marks(folder), counting(folder)
    active = os.path.join(folder, newest(folder))
    pipes = {"stdin": subprocess.PIPE, "stdout": subprocess.PIPE}
    with subprocess.Popen([trial.program, "feed", folder, "-"], **pipes) as feeding:
        size = os.path.getsize(active)
        feeding.stdin.write(file_of(9, 3, 1))
        feeding.stdin.flush()
        for _ in range(questions.SECONDS * 100):
            if os.path.getsize(active) > size:
                break
            time.sleep(0.01)
        yield "marks while it runs", ["1.settled", "2.settled"], marks(folder)
        feeding.kill()
        feeding.wait()
    yield "killed", -signal.SIGKILL, feeding.returncode
    yield "marks after it", ["1.settled", "2.settled"], marks(folder)
    answer, calls = traced(trial, "roll", folder, NOTHING)
    yield "next opening: writes", (0, True), (answer[0], any(map(is_write, calls)))
    yield "next opening: marks", wanted_marks(folder), counting(folder)
    answer, calls = traced(trial, "roll", folder, NOTHING)
    yield "opening after it: writes", (0, []), (answer[0], list(filter(is_write, calls)))
    yield "check", True, trial.runs("check", folder)[:6] in ("ok 900", "ok 903")


def changed_without_it(trial):
    """A program that knows of no marks changes a file: its mark doesn't count, and goes once the file is opened to be
    changed; nor do marks of a copy count whose times are others."""
    folder = made(trial, "changed")
    shared(folder)
    trial.runs("roll", folder, NOTHING)
    with open(os.path.join(folder, newest(folder)), "r+b") as file:
        first = file.read(1)
        file.seek(0)
        file.write(first)
    mark = newest(folder).replace(".ipfix", ".settled")
    yield "marks that count", ["1.settled", "2.settled"], counting(folder)
    answer, calls = traced(trial, "roll", folder, NOTHING)
    yield "opening: writes", (0, True), (answer[0], any(map(is_write, calls)))
    yield "opening: the mark is taken away", True, any("unlink" in call and mark in call for call in calls)
    yield "opening: marks", wanted_marks(folder), counting(folder)
    for way in ("-r", "-a"):
        copy = trial.path("copy" + way)
        subprocess.run(["cp", way, folder, copy], check=True)
        if way == "-r":
            # (within one step of the clock marks might have the times of their files)
            time.sleep(0.05)
            for name in marks(copy):
                os.utime(os.path.join(copy, name))
        yield "cp %s: marks that count" % way, wanted_marks(folder) if way == "-a" else [], counting(copy)
        answer, calls = traced(trial, "roll", copy, NOTHING)
        yield "cp %s, opening: writes" % way, (0, way == "-r"), (answer[0], any(map(is_write, calls)))


def made_again(trial):
    """A mark that is left of a file that isn't there is taken away before the file is made."""
    folder = made(trial, "again")
    shared(folder)
    trial.runs("roll", folder, NOTHING)
    number = int(newest(folder)[:-6]) + 1
    left = os.path.join(folder, "%d.settled" % number)
    for n in range(number, number + 4):
        open(os.path.join(folder, "%d.settled" % n), "w").close()
    answer, calls = traced(trial, "feed", folder, trial.kept("long", file_of(3, 900, 3)), "--keep", NOTHING)
    yield "feed", (0, "fed 1 900\n", ""), answer
    own = [call for call in calls if "/%d." % number in call]
    yield "the mark goes first", True, bool(own) and "unlink" in own[0] and left[-9:] in own[0]
    yield "the new files are there", True, os.path.exists(os.path.join(folder, "%d.ipfix" % number))
    yield "no mark is left of them", [], [name for name in marks(folder) if name not in counting(folder)
                                         and os.path.exists(file_of_mark(folder, name))]
    trial.runs("roll", folder, "0")
    yield "rolled: no mark of a removed file", [], [name for name in marks(folder)
                                                    if int(name.split(".")[0]) <= number
                                                    and not os.path.exists(file_of_mark(folder, name))]


def other_things(trial):
    """What has the name of a mark and isn't an empty file stays, and marks nothing."""
    folder = made(trial, "things")
    shared(folder)
    active = os.path.join(folder, newest(folder))
    mark = active.replace(".ipfix", ".settled")
    os.mkdir(os.path.join(folder, "1.settled"))
    os.symlink("2.slot", os.path.join(folder, "2.settled"))
    with open(mark, "wb") as file:
        file.write(b"kept\n")
    os.utime(mark, ns=(os.stat(active).st_mtime_ns,) * 2)
    for way in ("first", "second"):
        answer, calls = traced(trial, "roll", folder, NOTHING)
        yield way + ": answers, and writes", ((0, "rolled 0\n", ""), True), (answer, any(map(is_write, calls)))
    yield "a feed", "fed 1 3\n", trial.runs("feed", folder, trial.more)
    yield "what was there", (True, True, True), (
        os.path.isdir(os.path.join(folder, "1.settled")), os.path.islink(os.path.join(folder, "2.settled")),
        os.path.exists(mark) and os.path.getsize(mark) == 5)


def not_marked(trial):
    """No mark is made that others who may write the file couldn't take away: where names are their owner's alone, and
    where the folder isn't theirs to change."""
    for mode in (0o1770, 0o755, 0o2750):
        folder = made(trial, "sticky")
        shared(folder)
        os.chmod(folder, mode)
        for way in ("first", "second"):
            answer, calls = traced(trial, "roll", folder, NOTHING)
            yield "%o, %s: answers, and writes" % (mode, way), ((0, "rolled 0\n", ""), True), (
                answer, any(map(is_write, calls)))
        yield "%o: marks" % mode, [], marks(folder)


def before_another(trial):
    if os.geteuid() or not shutil.which("setpriv"):
        raise Lacking("it takes root and setpriv")
    if ran(trial.program, "--version", within=NOBODY)[0]:
        raise Lacking("another user can't come to %s" % trial.place)


def of_another(trial):
    """The files are another user's, and a group may write them: sealed ones are marked too. Each user may go on."""
    before_another(trial)
    folder = made(trial, "another")
    for name in files(folder):
        os.chmod(os.path.join(folder, name), 0o660)
    shared(folder, USER)
    answer, calls = traced(trial, "roll", folder, NOTHING, within=NOBODY)
    yield "first opening: writes", ((0, "rolled 0\n", ""), True), (answer, any(map(is_write, calls)))
    yield "first opening: marks", len(files(folder)), len(counting(folder))
    answer, calls = traced(trial, "roll", folder, NOTHING, within=NOBODY)
    yield "second opening: writes", (0, []), (answer[0], list(filter(is_write, calls)))
    answer, calls = traced(trial, "feed", folder, trial.more, "--keep", NOTHING, within=NOBODY)
    yield "feed", (0, "fed 1 3\n", ""), answer
    yield "feed: one file is written", 1, len({call.split("(")[1].split(",")[0] for call in calls if is_write(call)})
    yield "feed: marks", len(files(folder)), len(counting(folder))
    answer, calls = traced(trial, "roll", folder, NOTHING)
    yield "its owner, opening: writes", (0, []), (answer[0], list(filter(is_write, calls)))
    yield "its owner, feed", "fed 1 3\n", trial.runs("feed", folder, trial.more)
    answer, calls = traced(trial, "roll", folder, "0", within=NOBODY)
    yield "roll", 0, answer[0]
    yield "roll: no mark of a removed file", [], [name for name in marks(folder)
                                                  if not os.path.exists(file_of_mark(folder, name))]
    answer, calls = traced(trial, "roll", folder, NOTHING, within=NOBODY)
    yield "after the roll: writes", (0, []), (answer[0], list(filter(is_write, calls)))


def not_taken_away(trial):
    """A mark that can't be taken away refuses what would change its file, and nothing is written."""
    before_another(trial)
    folder = made(trial, "refused")
    shared(folder, USER)
    trial.runs("roll", folder, NOTHING)
    os.chmod(folder, 0o750)
    octets = {name: open(os.path.join(folder, name), "rb").read() for name in files(folder)}
    answer, calls = traced(trial, "feed", folder, trial.more, within=NOBODY)
    yield "feed: status", 3, answer[0]
    yield "feed: lines", True, "30 Fault" in answer[1] + answer[2]
    yield "feed: writes", [], list(filter(is_write, calls))
    yield "the files", octets, {name: open(os.path.join(folder, name), "rb").read() for name in files(folder)}
    os.chmod(folder, 0o770)
    answer, calls = traced(trial, "feed", folder, trial.more, within=NOBODY)
    yield "feed, once it may", (0, "fed 1 3\n", ""), answer


def between_batches(trial, folder, change, within=()):
    """What a feed answers that takes in three messages, and then, after a change of the active file, two more; and
    whether what has the file's name then differs from the file before the change, and what was put beside the folder,
    of those of the two that are files."""
    active, beside = os.path.join(folder, newest(folder)), trial.path("beside")
    size, pipes = os.path.getsize(active), {name: subprocess.PIPE for name in ("stdin", "stdout", "stderr")}
    with subprocess.Popen([*within, trial.program, "feed", folder, "-", "--keep", NOTHING], **pipes) as feeding:
        feeding.stdin.write(file_of(9, 3, 1))
        feeding.stdin.flush()
        for _ in range(questions.SECONDS * 100):
            if os.path.getsize(active) > size:
                break
            time.sleep(0.01)
        # (the gate is opened, and synced, after the file has its length)
        time.sleep(0.3)
        with open(active, "rb") as file:
            before = file.read()
        change(active, beside)
        out, err = feeding.communicate(file_of(9, 2, 2), questions.SECONDS)
    changed = []
    for path in (active, beside):
        if os.path.isfile(path) and not os.path.islink(path):
            with open(path, "rb") as file:
                changed.append(file.read() != before)
    return (feeding.returncode, out.decode(), err.decode()), changed


def a_link(active, beside):
    os.rename(active, beside)
    os.symlink(beside, active)


def a_folder(active, beside):
    os.rename(active, beside)
    os.mkdir(active)


def a_pipe(active, beside):
    os.rename(active, beside)
    os.mkfifo(active)


def a_copy(active, beside):
    os.rename(active, beside)
    shutil.copy2(beside, active)


def no_right(active, _):
    os.chmod(active, 0o040)


def while_a_feed_waits(trial):
    """Something else has the active file's name after a batch: the next one is refused, and the file that had the name
    stays as it was. A copy of it is written in its place."""
    beside = trial.path("beside")
    for change in (a_link, a_folder, a_pipe):
        folder = made(trial, "waits")
        answer, changed = between_batches(trial, folder, change)
        yield change.__name__ + ": answers", (3, "stopped 1 3 30 Fault\n"), answer[:2]
        yield change.__name__ + ": the file", [False], changed
        active = os.path.join(folder, newest(folder))
        (os.rmdir if change is a_folder else os.remove)(active)
        os.rename(beside, active)
        yield change.__name__ + ": check, once it has its name", "ok 903 ", trial.runs("check", folder)[:7]
    folder = made(trial, "waits")
    answer, changed = between_batches(trial, folder, a_copy)
    yield "a copy: answers", (0, "fed 1 5\n", ""), answer
    yield "a copy: it, and the file", [True, False], changed
    os.remove(beside)


def rights_while_a_feed_waits(trial):
    """The active file's owner loses the right to write it after a batch: the next one is refused."""
    before_another(trial)
    folder = made(trial, "rights")
    for path in (folder, *(os.path.join(folder, name) for name in os.listdir(folder))):
        os.chown(path, USER, USER)
    answer, changed = between_batches(trial, folder, no_right, NOBODY)
    yield "answers", (3, "stopped 1 3 30 Fault\n"), answer[:2]
    yield "the file", [False], changed


def opened_once(trial):
    """A feed of ten batches opens its active file as often as a feed of one."""
    counts = []
    for messages in (64, 640):
        folder = trial.path("once")
        if os.path.exists(folder):
            shutil.rmtree(folder)
        os.mkdir(folder)
        trial.runs("create", folder, "300")
        name = newest(folder)
        answer, calls = traced(trial, "feed", folder, trial.kept("many", file_of(9, messages, 1)), "--keep", NOTHING)
        yield "%d messages" % messages, (0, "fed 1 %d\n" % messages, ""), answer
        counts.append(sum("openat(" in call and "/%s" % name in call for call in calls))
    yield "openings", counts[0], counts[1]


CASES = (("files of a group", of_a_group), ("a feed that is killed", killed),
         ("files that were changed without their marks", changed_without_it), ("files made again", made_again),
         ("other things of these names", other_things), ("marks that aren't made", not_marked),
         ("files of another user", of_another), ("marks that can't be taken away", not_taken_away),
         ("a name that changes between two batches", while_a_feed_waits),
         ("a right that changes between two batches", rights_while_a_feed_waits), ("files opened once", opened_once))


def main(program):
    count = differ = 0
    os.umask(0o022)
    with tempfile.TemporaryDirectory() as place:
        os.chmod(place, 0o755)
        trial = Trial(program, place)
        for name, play in CASES:
            if not may_trace(trial):
                print("skipped: %s: there is no strace that may trace" % name)
                continue
            lines = questions.differences(trial, name, play, ())
            if lines is not None:
                count, differ = count + 1, differ + bool(lines)
            for line in lines or ():
                print("%s: %s" % (name, line))
    print("%d cases of marks: %d differ" % (count, differ))
    return int(differ > 0)


if __name__ == "__main__":
    sys.exit(main(sys.argv[1]) if len(sys.argv) == 2 else print(__doc__) or 2)
