#!/usr/bin/env python3
"""sizes.py PROGRAM [--long] [--only SWEEP]: runs `PROGRAM` by sizes: of how many messages, sums, domains, segments,
files, workers, answers and octets there are, one less, as many and one more than each power of two and each limit that
docs/FORMATS.md has, and where few runs do, each number. What it must answer is reckoned here, from the messages that
are made here and by that page: counts, sums, flows, how many octets a file has, and which size is refused by what. So
an answer that is wrong for some size differs, and a refusal for want of memory does.

The sweeps are those of SWEEPS. --long plays more sizes of each, up to files of sums of 100 MB and Files of more than
4 GiB; --only plays one sweep. After a run that doesn't end in SECONDS nothing more is played. It prints each
difference, and ends with 'N cases of sizes: M differ', where a case is a size of a sweep; its status is 0 where M is 0,
else 1."""
import argparse
import contextlib
import os
import shutil
import struct
import subprocess
import sys
import tempfile
import threading

from trials import (
    ALL, DAY, DOMAINS, END, ENTRIES, FIELD, GREATEST, Given, Hung, KEEP_ALL, LEAST, LONGEST, MOST_KEPT, PREFIX, ROWS,
    SECONDS, TEMPLATES, TIME, Trial, WITH, a_message, a_set, around, by_shell, grown, in_memory, interleaved, padded,
    times_of,
)

# ---- Sweeps ----

def messages(trial, size):
    """So many messages of one flow: as a File, in the active segment, sealed and rolled."""
    given = Given()
    for number in range(size):
        given.add(7, [(TIME + 300 * (number % 5), 6 + number % 3)])
    trial.runs(["measure", 300], given.sums(300), given=given.file())
    trial.makes(300, max(LEAST, given.octets()))
    trial.feeds(given.file(), size)
    trial.runs(["flows", "a", *ALL], given.lines())
    trial.feeds(LONGEST, 1)
    trial.runs(["check", "a", "--files"], "ok %d 0 0 1\nsealed 3 %d %d %s\nactive 4 %d 1 - -\n" % (
        size + 1, given.octets(), size, times_of(given.rows(300)), PREFIX + len(LONGEST)))
    trial.runs(["roll", "a", 0], "rolled 1\n")
    trial.runs(["totals", "a", *ALL], given.sums(300))
    trial.runs(["check", "a"], "ok %d %d 1 0\n" % (size + 1, size))


def keys_of(trial, kinds):
    """Sums of flows of these kinds, a domain, a start and a protocol: measured, rolled and merged."""
    given, domains = Given(), {}
    for domain, start, protocol in kinds:
        domains.setdefault(domain, []).append((start, protocol))
    for domain, flows in domains.items():
        for at in range(0, len(flows), 1500):
            given.add(domain, flows[at : at + 1500])
    trial.runs(["measure", 300], given.sums(300), given=given.file())
    trial.seals(given, 300)
    trial.rolls(given, 300, DAY)
    trial.runs(["flows", "a", *ALL], "")


def intervals(trial, size):
    """Sums of so many intervals, each of one key."""
    keys_of(trial, [(7, TIME + 300 * number, 6) for number in range(size)])


def keys(trial, size):
    """So many sums of some intervals, three domains, and three protocols or none."""
    keys_of(trial, [(1 + number % 3, TIME + 300 * (number // 12), (6, None, 17, 255)[number // 3 % 4])
                    for number in range(size)])


def starts_given(others):
    """Messages of flows that start at these times, and around each power of two."""
    given, times = Given(), [0, *others, *around(END - 1)]
    for at in range(0, len(times), 1500):
        given.add(7, [(time, 6) for time in times[at : at + 1500]])
    return given


def widths(trial, size):
    """Sums by intervals of so many seconds, of flows in each week from 1970 to 2106."""
    given = starts_given(range(0, END, 7 * DAY))
    trial.runs(["measure", size], given.sums(size), given=given.file())


def factors(trial, size):
    """Wide intervals of so many of 1 second, and of 300 where they are a day at most."""
    for width in (1, 300):
        wide = width * size
        if wide > DAY:
            continue
        given = Given()
        for at in (0, wide, 7 * DAY, TIME, END - 1):
            times = (at - width, at - 1, at, at + width, at + wide - 1, at + wide)
            given.add(7, [(time, 6) for time in times if 0 <= time < END])
        trial.seals(given, width, *(() if wide + width > DAY else ("--wide", wide)))
        trial.rolls(given, width, wide)
        shutil.rmtree(trial.at("a"))


def spans(trial, size):
    """Sums and flows from around so many seconds on, and before them, by a shell and by commands."""
    given = starts_given([7 * DAY])
    trial.makes(300, GREATEST)
    trial.feeds(given.file(), len(given.messages))
    asked, answers = [], []
    for at in (size - 1, size, size + 1):
        for span in ((at, END), (0, at), (at, min(at + 1, END)), (at, at)):
            words, of = "%d %d" % span, (given.sums(300, "", span), given.lines(span))
            asked += ["totals " + words, "flows " + words]
            answers += [lines + "done 0\n" for lines in of]
    by_shell(trial, asked, answers)
    span = (size, END)
    trial.runs(["totals", "a", *span], given.sums(300, "", span))
    trial.runs(["flows", "a", *span], given.lines(span))


def domains(trial, size):
    """So many domains with templates: all of them in a prefix, or refused from the 65th on."""
    given = Given()
    for number in range(size):
        given.add(1 + number, [(TIME, 6)])
    if size > DOMAINS:
        trial.runs(["measure", 300], "", "10 DomainsFull message %d" % (DOMAINS + 1), 1, given.file())
        trial.makes(300, LEAST)
        with open(trial.at("file"), "wb") as file:
            file.write(given.file())
        trial.runs(["feed", "a", "file"], "stopped 1 %d 10 DomainsFull\n" % DOMAINS, "", 1)
        trial.runs(["check", "a"], "ok %d 0 0 0\n" % DOMAINS)
        return
    trial.runs(["measure", 300], given.sums(300), given=given.file())
    trial.seals(given, 300)
    trial.runs(["check", "a", "--files"], "ok %d 0 0 1\nsealed 3 %d %d %s\nactive 4 %d 1 - -\n" % (
        size + 1, given.octets(), size, times_of(given.rows(300)), trial.prefix(given) + len(LONGEST)))
    trial.rolls(given, 300, DAY)


def gone(trial, size):
    """So many domains, whose templates are withdrawn at once: their sums are in one file."""
    given = Given()
    for number in range(size):
        given.add(1 + number, [(TIME, 6)], after=a_set(2, struct.pack(">HH", 2, 0)))
    given.known.clear()
    trial.runs(["measure", 300], given.sums(300), given=given.file())
    trial.seals(given, 300)
    trial.rolls(given, 300, DAY)


def template_octets(count, domain=7):
    """Messages that define templates of so many octets in all, 8 to 16 each."""
    sizes = [8] * (count // 8)
    sizes[-1:] = [8 + count % 8]
    records = [struct.pack(">HH", 256 + number, size // 4 - 1) + struct.pack(">HH", 4, 1) * (size // 4 - 1)
               for number, size in enumerate(sizes)]
    return [a_message(domain, a_set(2, b"".join(records[at : at + 4000]))) for at in range(0, len(records), 4000)]


def templates(trial, size):
    """Template records of so many octets in force: all of them in a prefix, or refused above 60,000."""
    given = template_octets(size)
    count = len(given)
    trial.makes(300, GREATEST if size > TEMPLATES else max(LEAST, size + 20 * count))
    if size > TEMPLATES:
        trial.runs(["measure", 300], "", "9 TemplatesFull 7 message %d" % count, 1, b"".join(given))
        with open(trial.at("file"), "wb") as file:
            file.write(b"".join(given))
        trial.runs(["feed", "a", "file"], "stopped 1 %d 9 TemplatesFull\n" % (count - 1), "", 1)
        return
    trial.runs(["measure", 300], given=b"".join(given))
    trial.feeds(b"".join(given), count)
    trial.feeds(LONGEST, 1)
    trial.runs(["check", "a", "--files"], "ok %d 0 0 1\nsealed 3 %d %d - -\nactive 4 %d 1 - -\n" % (
        count + 1, size + 20 * count, count, 20 + size + len(LONGEST)))


def changed(trial, name, at, octets):
    """Changes octets of a file, which may be read-only, and is that afterwards."""
    mode = os.stat(trial.at(name)).st_mode
    os.chmod(trial.at(name), mode | 0o200)
    with open(trial.at(name), "r+b") as file:
        file.seek(at)
        file.write(octets)
    os.chmod(trial.at(name), mode)


def stored(trial, size):
    """A segment that is damaged so that it has one domain with templates more than may be, or too many octets of
    template records, in the active segment (1) or in a sealed one (2)."""
    place = 0
    for what in ("domains", "templates"):
        if what == "domains":
            given = [a_message(1 + number % DOMAINS, a_set(2, WITH)) for number in range(DOMAINS + 1)]
            place, octets = len(given[0]) * DOMAINS + 12, struct.pack(">I", DOMAINS + 1)
        else:
            given = [*template_octets(TEMPLATES), a_message(7, a_set(2, struct.pack(">4H", 256, 1, 4, 1)))]
            place, octets = sum(map(len, given[:-1])) + 20, struct.pack(">H", 60_000)
        at = sum(map(len, given[:-1]))
        trial.makes(300, max(LEAST, sum(map(len, given))))
        trial.feeds(b"".join(given), len(given))
        if size == 2:
            trial.feeds(LONGEST, 1)
        changed(trial, "a/3.ipfix", place, octets)
        for words in (["check", "a"], ["totals", "a", *ALL], ["roll", "a", 0]):
            trial.runs(words, "", "20 Damaged 3 %d" % at, 5)
        shutil.rmtree(trial.at("a"))


def workers(trial, size):
    """1 to so many workers over 70 sealed segments and a file of the sums of 10 others."""
    given = Given()
    grown(given, 0, 81)
    trial.makes(300, LEAST)
    trial.feeds(given.file(), 81)
    trial.runs(["roll", "a", 70], "rolled 10\n")
    for number in range(1, size + 1):
        trial.runs(["totals", "a", *ALL, "--workers", number], given.sums(300))


def segments(trial, most):
    """Sealed segments, up to so many: at each size the archive is checked, and a copy of it rolled."""
    trial.makes(300, LEAST)
    given, sealed = Given(), -1
    for size in around(most):
        more = size - sealed
        before = len(given.messages)
        grown(given, sealed + 1, size + 1)
        trial.feeds(b"".join(given.messages[before:]), more)
        sealed = size
        trial.runs(["check", "a"], "ok %d 0 0 %d\n" % (size + 1, size))
        rolled_copy(trial, given, size)


def rolled_copy(trial, given, size):
    """Rolls half of the segments of a copy, and then all of them."""
    copy, half = "b", size // 2
    shutil.copytree(trial.at("a"), trial.at(copy))
    files = 0
    for keep, rolled in ((half, size - half), (0, half)):
        files += rolled > 0
        trial.runs(["roll", copy, keep], "rolled %d\n" % rolled)
        trial.runs(["check", copy], "ok %d %d %d %d\n" % (size + 1, size - keep, files, keep))
    trial.runs(["totals", copy, *ALL], given.sums(300))
    shutil.rmtree(trial.at(copy))


def entries(trial, size):
    """As many files as a manifest may name: the next seal is refused, and a roll makes room."""
    trial.makes(300, LEAST)
    given = Given()
    grown(given, 0, size)
    trial.feeds(given.file(), size)
    trial.runs(["check", "a"], "ok %d 0 0 %d\n" % (size, size - 1))
    with open(trial.at("file"), "wb") as file:
        file.write(LONGEST + LONGEST)
    trial.runs(["feed", "a", "file", *KEEP_ALL], "stopped 1 0 41 ManifestFull\n", "", 1)
    trial.runs(["roll", "a", 1], "rolled %d\n" % (size - 2))
    trial.runs(["totals", "a", *ALL], given.sums(300))


def rolled_one_by_one(trial, most):
    """Files of sums, up to so many: segment after segment is rolled into a file of its own. At each size around a power
    of two half of these files are merged in a copy, and then all."""
    trial.makes(300, LEAST)
    given = Given()
    grown(given, 0, most + 1)
    trial.feeds(given.file(), most + 1)
    for size in range(1, most + 1):
        trial.runs(["roll", "a", most - size], "rolled 1\n")
        if size in around(most):
            trial.runs(["check", "a"], "ok %d %d %d %d\n" % (most + 1, size, size, most - size))
            trial.runs(["totals", "a", *ALL], given.sums(300))
            merged_copy(trial, given, size)


def merged_copy(trial, given, size):
    """Merges half of so many rolled files of a copy, and then all of them. Every second of them has a flow."""
    shutil.copytree(trial.at("a"), trial.at("b"))
    count = len(given.messages)
    wide_files = 0
    for keep, merged in ((size // 2, size - size // 2), (0, size // 2)):
        wide_files += merged > 0
        trial.runs(["merge", "b", keep], "merged %d\n" % merged)
        trial.runs(["check", "b"], "ok %d %d %d %d\n" % (count, size, wide_files + keep, count - 1 - size))
        wide, narrow = Given(), Given()
        at = (size - keep + 1) // 2
        wide.flows, narrow.flows = given.flows[:at], given.flows[at:]
        trial.runs(["totals", "b", *ALL], interleaved(narrow.sums(300), wide.sums(DAY, " %d" % DAY)))
    shutil.rmtree(trial.at("b"))


@contextlib.contextmanager
def copied(trial, folder):
    """A copy `b` of an archive."""
    shutil.copytree(trial.at(folder), trial.at("b"))
    yield
    shutil.rmtree(trial.at("b"))


def keeps(trial, count):
    """Of so many sealed segments, and of as many rolled files, as many are left as KEEP says."""
    given = Given()
    grown(given, 0, count + 1)
    trial.makes(300, LEAST)
    shutil.copytree(trial.at("a"), trial.at("empty"))
    trial.feeds(given.file(), count + 1)
    shutil.copytree(trial.at("a"), trial.at("rolled"))
    for keep in reversed(range(count)):
        trial.runs(["roll", "rolled", keep], "rolled 1\n")
    around_count = sorted({*range(10), *around(count), count - 1, count, count + 1})
    for keep in (*around_count, 65_535, 65_536, 1 << 31, MOST_KEPT):
        kept(trial, given, count, keep)


def kept(trial, given, count, keep):
    """Of so many files as many are left as KEEP says: by `roll`, `merge`, `shell` and `feed`, which says nothing of how
    many files it has made."""
    gone, left = max(0, count - keep), min(keep, count)
    checked = "ok %d %d %d %d\n" % (count + 1, gone, gone > 0, left)
    with copied(trial, "a"):
        trial.runs(["roll", "b", keep], "rolled %d\n" % gone)
        trial.runs(["check", "b"], checked)
    with copied(trial, "a"):
        trial.runs(["shell", "b", "--keep", keep], "done 0\n", given=b"quit\n")
        trial.runs(["check", "b"], checked)
    with copied(trial, "rolled"):
        trial.runs(["merge", "b", keep], "merged %d\n" % gone)
        trial.runs(["check", "b"], "ok %d %d %d 0\n" % (count + 1, count, (gone > 0) + left))
    with copied(trial, "empty"):
        trial.runs(["feed", "b", "-", "--keep", keep], "fed 1 %d\n" % (count + 1), given=given.file())
        trial.runs(["roll", "b", left], "rolled 0\n")
        trial.runs(["roll", "b", max(0, left - 1)], "rolled %d\n" % (left > 0))
        trial.runs(["totals", "b", *ALL], given.sums(300))


def stream(trial, size):
    """A stream of so many segments, which are rolled meanwhile but for the newest 8."""
    given = Given()
    grown(given, 0, size + 1)
    trial.makes(300, LEAST)
    trial.runs(["feed", "a", "-"], "fed 1 %d\n" % (size + 1), given=given.file())
    trial.runs(["totals", "a", *ALL], given.sums(300))
    trial.runs(["roll", "a", 8], "rolled 0\n")
    trial.runs(["roll", "a", 0], "rolled %d\n" % min(size, 8))
    trial.runs(["totals", "a", *ALL], given.sums(300))


def filling(octets):
    """Messages of so many octets in all."""
    count, left = divmod(octets, 65_535)
    if not left:
        return [LONGEST] * count
    if left < 16:
        return [LONGEST] * (count - 1) + [padded(32_000), padded(33_535 + left)]
    return [LONGEST] * count + [padded(left)]


def full(trial, limit):
    """A segment of this limit, filled but for one octet, to the last octet, and one octet past it; where it is full, so
    is the next one, which has a prefix."""
    for past in (-1, 0, 1):
        given = Given()
        given.add(7, [(TIME, 6)])
        first = [*given.messages, *filling(limit - given.octets() - 100)]
        trial.makes(300, limit)
        trial.feeds(b"".join(first), len(first))
        trial.feeds(padded(100 + past), 1)
        count, times = len(first), times_of(given.rows(300))
        trial.runs(["check", "a", "--files"], "ok %d 0 0 %d\n" % (count + 1, past > 0) + (
            "sealed 3 %d %d %s\nactive 4 %d 1 - -\n" % (limit - 100, count, times, PREFIX + 100 + past) if past > 0
            else "active 3 %d %d %s\n" % (limit + past, count + 1, times)))
        if past == 0:
            fills_next(trial, limit, count + 1, times)
        trial.runs(["totals", "a", *ALL], given.sums(300))
        trial.runs(["flows", "a", *ALL], given.lines())
        shutil.rmtree(trial.at("a"))


def fills_next(trial, limit, count, times):
    """Fills the segment after a full one of so many messages."""
    second = filling(limit)
    trial.feeds(b"".join(second), len(second))
    sealed = "sealed 3 %d %d %s\n" % (limit, count, times)
    trial.runs(["check", "a", "--files"], "ok %d 0 0 1\n%sactive 4 %d %d - -\n" % (
        count + len(second), sealed, PREFIX + limit, len(second)))
    trial.feeds(padded(16), 1)
    trial.runs(["check", "a", "--files"], "ok %d 0 0 2\n%ssealed 4 %d %d - -\nactive 5 %d 1 - -\n" % (
        count + len(second) + 1, sealed, PREFIX + limit, len(second), PREFIX + 16))


def places(trial, size):
    """A segment in which a longest message ends at this octet, and others begin there."""
    given = Given()
    given.add(7, [(TIME, 6)])
    given.messages += [*filling(size - given.octets() - len(LONGEST)), LONGEST]
    for number in range(3):
        given.add(7, [(TIME + 300 * number, 17)])
    trial.seals(given, 300)
    trial.runs(["totals", "a", *ALL], given.sums(300))
    trial.runs(["flows", "a", *ALL], given.lines())
    numbers = range(1, len(given.messages) + 1)
    by_shell(trial, ["message %d" % number for number in numbers],
             [given.messages[number - 1].hex() + "\ndone 0\n" for number in numbers])
    trial.rolls(given, 300, DAY)


def records(trial, size):
    """A message of so many records, of one octet each."""
    octets = a_message(7, a_set(2, struct.pack(">4H", 256, 1, 4, 1)))
    octets += a_message(7, a_set(256, b"\x06" * size))
    sums = "%d 7 6 %d 0 0\n" % (TIME - TIME % 300, size)
    trial.runs(["measure", 300], sums, given=octets)
    trial.makes(300, 2 * LEAST)
    trial.feeds(octets, 2)
    trial.runs(["flows", "a", *ALL], "%d 7 6 0 0\n" % TIME * size)
    trial.feeds(LONGEST + LONGEST, 2)
    trial.runs(["totals", "a", *ALL], sums)
    trial.runs(["roll", "a", 0], "rolled 1\n")
    trial.runs(["totals", "a", *ALL], sums)


def octets_of_messages(trial, most):
    """Messages of so many octets each, in the active segment and in a sealed one."""
    sizes = [size for size in around(most) if size == 16 or size >= 20]
    given = [padded(size) for size in sizes]
    lines = "".join("message %d %d 0 7\n" % (size, TIME) for size in sizes)
    trial.runs(["dump"], lines, given=b"".join(given))
    trial.makes(300, 1 << 20)
    trial.feeds(b"".join(given), len(given))
    numbers = range(1, len(given) + 1)
    asked = ["message %d" % number for number in numbers]
    answers = [given[number - 1].hex() + "\ndone 0\n" for number in numbers]
    by_shell(trial, asked, answers)
    trial.feeds(LONGEST * 16, 16)
    trial.runs(["check", "a"], "ok %d 0 0 1\n" % (len(given) + 16))
    by_shell(trial, asked, answers)


def great_sums(trial, size):
    """So many flows of one sum, each with as many octets as a field holds: the file of sums has a row for each field
    that they fill."""
    given = Given()
    for at in range(0, size, 1500):
        given.add(7, [(TIME, 6, FIELD, number) for number in range(at, min(at + 1500, size))])
    given.add(8, [(TIME, None, 1, FIELD)])
    trial.runs(["measure", 300], given.sums(300), given=given.file())
    trial.seals(given, 300)
    trial.rolls(given, 300, DAY)


def octets_of_bare(count):
    """How many octets a file has of so many sums of one domain without a protocol."""
    whole, left = divmod(count, ROWS)
    return 100 + whole * (20 + 40 * ROWS) + (20 + 40 * left if left else 0)


def many_sums(trial, size):
    """So many sums in one file, one of each second: rolled, and merged over intervals of a second too."""
    template = a_set(2, struct.pack(">4H", 256, 1, 150, 4))
    given = []
    for at in range(0, size, 16_000):
        seconds = range(at, min(at + 16_000, size))
        given.append(a_message(7, template + a_set(256, struct.pack(">%dI" % len(seconds), *seconds))))
    octets, count = b"".join(given), len(given)
    sums = "".join("%d 7 - 1 0 0\n" % second for second in range(size))
    trial.makes(1, max(LEAST, len(octets)), "--wide", 1)
    trial.feeds(octets, count)
    trial.feeds(LONGEST, 1)
    for word, done, line in (("roll", "rolled 1\n", "rolled 5"), ("merge", "merged 1\n", "wide 6")):
        trial.runs([word, "a", 0], done)
        trial.runs(["check", "a", "--files"], "ok %d %d 1 0\n%s %d %d 0 %d\nactive 4 %d 1 - -\n" % (
            count + 1, count, line, octets_of_bare(size), count, size - 1, 28 + len(LONGEST)))
        trial.runs(["totals", "a", *ALL], sums)


def first_messages(trial, count):
    """A File of so many messages, of which `--from` passes over the first ones."""
    given, taken = Given(), Given()
    for number in range(count):
        given.add(7, [(TIME + 300 * number, 6)])
    trial.makes(300, GREATEST)
    trial.feeds(given.file(), count)
    taken.flows += given.flows
    for passed in (0, *around(count, count - 1, count)):
        trial.runs(["feed", "a", "file", "--from", passed], "fed 1 %d\n" % count)
        trial.runs(["feed", "a", "-", "--from", passed], "fed 1 %d\n" % count, given=given.file())
        taken.flows += 2 * given.flows[passed:]
        trial.runs(["check", "a"], "ok %d 0 0 0\n" % len(taken.flows))
    trial.runs(["totals", "a", *ALL], taken.sums(300))


@contextlib.contextmanager
def by_pipe(count, last):
    """A pipe by which a longest message comes so often, and these octets after it."""
    begin, end = os.pipe()

    def pour():
        with contextlib.suppress(BrokenPipeError), open(end, "wb") as pipe:
            for _ in range(count):
                pipe.write(LONGEST)
            pipe.write(last)

    pouring = threading.Thread(target=pour)
    pouring.start()
    with open(begin, "rb") as pipe:
        yield pipe
    pouring.join()


def long_files(trial, size):
    """A File of more octets than so many, which comes by a pipe, and whose last message is cut."""
    count, cut = size // len(LONGEST) + 1, LONGEST[:-1]
    refused = "15 Cut %d" % (count * len(LONGEST))
    lines = "message 65535 %d 0 7\n" % TIME * count
    for words, out in ((["measure", 300], ""), (["inspect"], ""), (["dump"], lines)):
        with by_pipe(count, cut) as pipe:
            trial.runs(words, out, refused, 1, given=pipe)
    trial.makes(300, GREATEST)
    with by_pipe(count, cut) as pipe:
        trial.runs(["feed", "a", "-"], "stopped 1 %d 15 Cut\n" % count, "", 1, given=pipe)
    trial.runs(["feed", "a", "-", "--from", 0], "fed 1 1\n", given=LONGEST)


def files_at_once(trial, most):
    """1 to so many Files side by side."""
    for count in range(1, most + 1):
        whole = Given()
        trial.makes(300, LEAST)
        for number in range(count):
            given = Given()
            for _ in range(100 * (number + 1)):
                given.add(number + 1, [(TIME, 6)])
            whole.flows += given.flows
            with open(trial.at("file%d" % number), "wb") as file:
                file.write(given.file())
        names = ["file%d" % number for number in range(count)]
        trial.runs(["feed", "a", *names], "".join("fed %d %d\n" % (number, 100 * number)
                                                  for number in range(1, count + 1)))
        trial.runs(["totals", "a", *ALL], whole.sums(300))
        shutil.rmtree(trial.at("a"))


def steps(trial, size):
    """A shell that takes in so many Files of one message, and answers after each."""
    given = Given()
    trial.makes(300, GREATEST)
    asked, answers = [], []
    for number in range(1, size + 1):
        given.messages, given.known = [], set()
        given.add(7, [(TIME, 6)])
        with open(trial.at("file%d" % number), "wb") as file:
            file.write(given.file())
        asked += ["feed file%d" % number, "wait", "check", "totals %s %s" % ALL, "message %d" % number]
        answers += ["began %d\ndone 0\nfed %d 1\ndone 0\nok %d 0 0 0\ndone 0\n" % (number, number, number),
                    given.sums(300), "done 0\n", given.file().hex(), "\ndone 0\n"]
    by_shell(trial, asked, answers)
    trial.runs(["check", "a"], "ok %d 0 0 0\n" % size)


def damaged_place(place):
    """Where a file of the sums of two domains, of one row each, is refused with the octet at this place raised by one;
    nothing where it is another file's: where the octet counts in a row, or is its protocol. A head has 100 octets, and
    the message of its row 61."""
    if 4 <= place < 8 or 12 <= place < 16:
        return 100
    if 173 <= place < 177:
        return 261
    if 136 <= place < 161 or 297 <= place < 322:
        return None
    return next(at for at in (261, 161, 100, 0) if at <= place)


def sums_raised(trial, size):
    """A file of the sums of two domains with each of its octets, so many, raised by one in turn."""
    given = Given()
    for domain in (7, 8):
        given.add(domain, [(TIME, 6)])
    trial.seals(given, 300)
    trial.runs(["roll", "a", 0], "rolled 1\n")
    path = trial.at("a/5.ipfix")
    os.chmod(path, 0o600)
    with open(path, "rb") as file:
        whole = file.read()
    trial.compare("octets", size, len(whole))
    for place in range(size):
        with open(path, "wb") as file:
            file.write(whole[:place] + bytes([(whole[place] + 1) % 256]) + whole[place + 1 :])
        at = damaged_place(place)
        if at is None:
            trial.runs(["check", "a"], "ok 3 2 1 0\n")
        else:
            trial.runs(["check", "a"], "", "20 Damaged 5 %d" % at, 5)


def poured(path, messages, turn, other):
    """Writes messages to a named pipe, each after one was written to the other."""
    with open(path, "wb", buffering=0) as pipe:
        for message in messages:
            other.wait()
            other.clear()
            pipe.write(message)
            turn.set()


def beside(trial, size):
    """Two threads of a shell take in so many messages each, from pipes that are written by turns, while a third
    answers: each answer counts each message once, and none has fewer than one before it."""
    trial.makes(300, GREATEST)
    given = {}
    for name in "pq":
        given[name] = Given()
        for _ in range(size):
            given[name].add(ord(name), [(TIME, 6)])
        os.mkfifo(trial.at(name))
    turns = {"p": threading.Event(), "q": threading.Event()}
    turns["q"].set()
    pouring = [threading.Thread(target=poured, args=(trial.at(name), given[name].messages, turns[name], turns[other]),
                                daemon=True) for name, other in ("pq", "qp")]
    shell = subprocess.Popen([trial.program, "shell", "a"], cwd=trial.place, stdin=subprocess.PIPE,
                             stdout=subprocess.PIPE, text=True, bufsize=1)
    ending = threading.Timer(SECONDS, shell.kill)
    ending.start()

    def answered(request):
        """What a request is answered by, without the lines of Files that have ended meanwhile."""
        shell.stdin.write(request + "\n")
        lines = []
        for line in shell.stdout:
            if line.startswith("done "):
                return lines, line
            if not line.startswith("fed "):
                lines.append(line)
        return lines, "no end"

    trial.compare("feed p", (["began 1\n"], "done 0\n"), answered("feed p"))
    trial.compare("feed q", (["began 2\n"], "done 0\n"), answered("feed q"))
    for it in pouring:
        it.start()
    last, end = 0, 2 * size
    while last < end:
        before = int(answered("check")[0][0].split()[1])
        rows, done = answered("totals %s %s" % ALL)
        after = int(answered("check")[0][0].split()[1])
        counted = sum(int(row.split()[3]) for row in rows)
        if done != "done 0\n" or not last <= before <= counted <= after <= end:
            trial.compare("totals", "between %d and %d" % (before, after), "%s, after %d" % (rows, last))
            break
        last = after
    for it in pouring:
        it.join(SECONDS)
    out, _ = shell.communicate("wait\nquit\n")
    ending.cancel()
    trial.compare("status", 0, shell.returncode)
    trial.runs(["totals", "a", *ALL], given["p"].sums(300) + given["q"].sums(300))


# The elements of a record of `lengths`, with their enterprise and their name in a dump.
ELEMENTS = ((210, None, "paddingOctets"), (1, None, "octetDeltaCount"), (95, None, "e95"), (77, 9, "e9.77"))


def length_octets(size, long):
    return bytes([size]) if size < 255 and not long else struct.pack(">BH", 255, size)


def fields_of(elements, size):
    """Octets of fields of this size, and what a dump has of them."""
    values = [bytes((7 * n + size + element) % 256 for n in range(size)) for element, _, _ in elements]
    words = ["%s=%s" % (name, int.from_bytes(octets, "big") if element == 1 and 1 <= size <= 8 else octets.hex())
             for (element, _, name), octets in zip(elements, values)]
    return values, " ".join(words)


def a_template(number, elements, length):
    """A template of these elements, each of this length."""
    specifiers = b"".join(struct.pack(">HH", element | (0x8000 if enterprise else 0), length) + (
        struct.pack(">I", enterprise) if enterprise else b"") for element, enterprise, _ in elements)
    return a_set(2, struct.pack(">HH", number, len(elements)) + specifiers)


def lengths(trial, size):
    """Fields of so many octets: of a variable length, in the short form where there is one, in the long one, and of a
    fixed length."""
    elements = ELEMENTS if 4 * size < 60_000 else ELEMENTS[:1]
    values, words = fields_of(elements, size)
    sets, lines = [(a_template(number, elements, length), None) for number, length in ((300, 65_535), (301, size))], []
    for number, before in ((300, length_octets(size, False)), (300, length_octets(size, True)), (301, b"")):
        if number == 300 or size:
            sets.append((a_set(number, b"".join(before + octets for octets in values)), number))
    octets, records = b"", 0
    for each, number in sets:
        octets += a_message(7, each, records)
        lines.append("message %d %d %d 7\n" % (16 + len(each), TIME, records))
        if number:
            lines.append("record %d %s\n" % (number, words))
            records += 1
    trial.runs(["dump"], "".join(lines), given=octets)
    counted = ("messages %d records %d options 0 unread 0 0 replaced 0 gaps 0 missing 0 backwards 0 from %d to %d "
               "starts %d %d longest - long 0 placed %d uncounted 0 sampled 0\n"
               % (len(sets), records, *[TIME] * 4, records))
    trial.runs(["inspect"], "domain 7 %sall domains 1 %s" % (counted, counted), given=octets)
    summed = records * int.from_bytes(values[1], "big") if 1 <= size <= 8 else 0
    trial.runs(["measure", 300], "%d 7 - %d %d 0\n" % (TIME - TIME % 300, records, summed), given=octets)


def each_length(trial, most):
    """A File with fields of each length up to so many octets, as text."""
    messages = [a_message(7, a_template(300, ELEMENTS, 65_535))]
    lines = ["message %d %d 0 7\n" % (len(messages[0]), TIME)]
    for size in range(most + 1):
        values, words = fields_of(ELEMENTS, size)
        fields = b"".join(length_octets(size, False) + octets for octets in values)
        messages.append(a_message(7, a_set(300, fields), size))
        lines.append("message %d %d %d 7\nrecord 300 %s\n" % (len(messages[-1]), TIME, size, words))
    trial.runs(["dump"], "".join(lines), given=b"".join(messages))


def fields(trial, size):
    """A template of so many fields, of an octet each, and a record of it: refused above 60,000 octets."""
    given = [a_message(7, a_template(256, ELEMENTS[:1] * size, 1))]
    if 4 + 4 * size > TEMPLATES:
        trial.runs(["measure", 300], "", "9 TemplatesFull 7 message 1", 1, given[0])
        return
    values = bytes(number % 256 for number in range(size))
    given.append(a_message(7, a_set(256, values)))
    octets, sums = b"".join(given), "%d 7 - 1 0 0\n" % (TIME - TIME % 300)
    words = " ".join("paddingOctets=%02x" % octet for octet in values)
    trial.runs(["dump"], "message %d %d 0 7\nmessage %d %d 0 7\nrecord 256 %s\n" % (
        len(given[0]), TIME, len(given[1]), TIME, words), given=octets)
    trial.runs(["measure", 300], sums, given=octets)
    trial.makes(300, max(LEAST, len(octets)))
    trial.feeds(octets, 2)
    trial.feeds(LONGEST, 1)
    trial.runs(["check", "a"], "ok 3 0 0 1\n")
    trial.runs(["totals", "a", *ALL], sums)
    trial.runs(["roll", "a", 0], "rolled 1\n")
    trial.runs(["totals", "a", *ALL], sums)


# The octets of template records in force that are around their limit.
AROUND_TEMPLATES = range(TEMPLATES - 4, TEMPLATES + 9, 4)

# Each sweep: its name, what it plays of a size, and the sizes; with --long these.
SWEEPS = (
    ("messages", messages, around(8_193, *range(1, 131)), around(16_385, *range(1, 1_100))),
    ("intervals", intervals, around(65_537, 999, 1_000, 1_001, 2_000, 2_001), around(262_145, *range(990, 1_010))),
    ("keys", keys, around(16_385, 999, 1_000, 1_001, 2_000, 2_001), around(131_073, *range(1, 300))),
    ("widths", widths, around(65_537, 300, 900, 3_600, 86_399, DAY), around(65_537, *range(1, DAY + 1, 60))),
    ("factors", factors, around(65_537, 287, 288, 3_600, 86_399, DAY), around(65_537, *range(1, 289), DAY)),
    ("spans", spans, [1 << k for k in range(32)] + [7 * DAY, END - 1], around(END - 1, *range(DAY, END, 997 * DAY))),
    ("domains", domains, range(1, 67), range(1, 130)),
    ("domains withdrawn", gone, around(1_025), around(65_537)),
    ("templates", templates, (8, 16, 1_024, 4_096, 32_768, *AROUND_TEMPLATES),
     (*range(8, 59_992, 124), *AROUND_TEMPLATES)),
    ("stored past a limit", stored, (1, 2), (1, 2)),
    ("workers", workers, (64,), (64,)),
    ("segments", segments, (1_025,), (2_049,)),
    ("files of a manifest", entries, (ENTRIES,), (ENTRIES,)),
    ("files of sums", rolled_one_by_one, (131,), (1_031,)),
    ("keeps", keeps, (70,), (300,)),
    ("streams", stream, (*around(16), 255, 256, 257, 5_000), around(8_193)),
    ("full segments", full, (LEAST, 65_536, 65_537, 262_144, 1_048_576, GREATEST), around(GREATEST)[-26:]),
    ("places", places, around(1 << 21)[-14:], around(GREATEST)[-22:-2]),
    ("records", records, around(65_515, 65_515), around(65_515, *range(1, 300))),
    ("octets of messages", octets_of_messages, (LEAST,), (LEAST,)),
    ("great sums", great_sums, around(2_049, 999, 1_000, 1_001), around(16_385, *range(990, 1_010))),
    ("many sums", many_sums, (419_218,), (419_217, 419_218, 2_500_000)),
    ("first messages", first_messages, (300,), (3_000,)),
    ("Files at once", files_at_once, (8,), (8,)),
    ("long Files", long_files, (GREATEST,), (GREATEST, END)),
    ("steps", steps, (300,), (3_000,)),
    ("side by side", beside, (8, 200), (5_000,)),
    ("octets of sums", sums_raised, (322,), (322,)),
    ("fields", fields, around(15_001, 14_998, 14_999, 15_000), around(15_001, *range(1, 300))),
    ("each length", each_length, (300,), (2_048,)),
    ("lengths", lengths, around(16_385, *range(0, 18), 32_768, 65_000, 65_512), range(0, 65_513, 61)),
)


def play(trial, only, is_long):
    """Plays all sweeps, or one."""
    for name, played, sizes, more in SWEEPS:
        if only in (None, name):
            for size in more if is_long else sizes:
                trial.begin(name, size)
                played(trial, size)


def main(words):
    parser = argparse.ArgumentParser(usage=__doc__)
    parser.add_argument("program")
    parser.add_argument("--long", action="store_true")
    parser.add_argument("--only", choices=[sweep[0] for sweep in SWEEPS])
    asked = parser.parse_args(words)
    with tempfile.TemporaryDirectory(dir=in_memory()) as place:
        trial = Trial(os.path.abspath(asked.program), os.path.join(place, "case"))
        os.mkdir(trial.place)
        with contextlib.suppress(Hung):
            play(trial, asked.only, asked.long)
        trial.end()
    print("%d cases of sizes: %d differ" % (trial.cases, trial.differ))
    return int(trial.differ > 0)


if __name__ == "__main__":
    sys.exit(main(sys.argv[1:]))
