#!/usr/bin/env python3
"""damaged_parts.py PROGRAM: damages each file of an archive in turn while `PROGRAM shell` has it open: one over wide
intervals, a rolled one, and 70 sealed segments, which the shell's threads share among them. Each has flows, so a
question of all reads it. Whichever file is damaged, `totals` reports it, and of two one of them; `flows` and `message`
report a sealed segment's, and go on answering where a file of sums is damaged. Once it is mended the answers are those
of all messages. What is answered is reckoned from the messages that are fed.

It prints each difference, and ends with 'N cases of damage: M differ', where a case is a damaged file; its status is 0
where M is 0, else 1."""
import contextlib
import os
import subprocess
import sys
import tempfile

from rolling_refused import ROLLED, SEALED, Running, entries_of, path_of, writable
from trials import ALL, DAY, KEEP_ALL, LEAST, TIME, Given, a_set, in_memory, interleaved

WIDE = 4

# How many messages, each in a segment of its own, are in each of the two files of sums; how many segments are sealed.
SUMMED, COUNT = 5, 70

TOTALS, FLOWS = "totals %s %s" % ALL, "flows %s %s" % ALL


class Part:
    """A file of an archive, and what is reported of it where its first message is damaged."""

    def __init__(self, folder, entry):
        self.path, self.place = path_of(folder, entry), entry.prefix
        self.refused = "refused 20 Damaged %d %d\ndone 5\n" % (entry.file, entry.prefix)

    @contextlib.contextmanager
    def damaged(self):
        """Another Version in its first message, for a while."""
        self.put(b"\x0b")
        yield
        self.put(b"\x0a")

    def put(self, octet):
        with writable(self.path) as file:
            file.seek(self.place + 1)
            file.write(octet)


class Answers:
    """What a shell must answer of the archive: each of its messages has a flow."""

    def __init__(self, given):
        wide, narrow, kept = Given(), Given(), Given()
        wide.flows, narrow.flows = given.flows[:SUMMED], given.flows[SUMMED:]
        kept.flows = given.flows[2 * SUMMED :]
        self.messages = given.messages
        self.totals = interleaved(narrow.sums(300), wide.sums(DAY, " %d" % DAY)) + "done 0\n"
        self.flows = kept.lines() + "done 0\n"

    def message(self, number):
        return self.messages[number - 1].hex() + "\ndone 0\n"


def archive(program, folder):
    """Makes the archive, and answers the messages that it has."""
    given = Given()
    for number in range(2 * SUMMED + COUNT + 1):
        given.add(7, [(TIME + 300 * (number % 50), 6)], after=a_set(4, bytes(LEAST * 9 // 10)))
    os.mkdir(folder)
    subprocess.run([program, "create", folder, "300", "--limit", str(LEAST)], check=True)
    for words in (["feed", folder, "-", *KEEP_ALL], ["roll", folder, str(SUMMED + COUNT)], ["merge", folder, "0"],
                  ["roll", folder, str(COUNT)]):
        subprocess.run([program, *words], input=given.file(), stdout=subprocess.DEVNULL, check=True)
    return given


def over_damage(part, number, answers):
    """What is asked while a part is damaged, and answered; a sealed segment has the message with this number."""
    yield TOTALS, part.refused
    if number is None:
        yield FLOWS, answers.flows
    else:
        yield FLOWS, part.refused
        yield "message %d" % number, part.refused
    other = 2 * SUMMED + COUNT - (number == 2 * SUMMED + COUNT)
    yield "message %d" % other, answers.message(other)


def differing(run, questions):
    """What differs in the answers to these questions, as lines. Each has an answer, or several of as many lines, of
    which one must come."""
    for request, *wanted in questions:
        came = run.asks(request, wanted[0].count("\n"))
        if came not in wanted:
            yield "%s: wanted %.200r, came %.200r" % (request, wanted[0], came)


def damaged_in_turn(run, parts, answers):
    """Damages each part in turn, alone and with the last one: yields what differs of it, as a list of lines."""
    sums, whole = len(parts) - COUNT, [(TOTALS, answers.totals), (FLOWS, answers.flows)]
    # (once it answers, it has the archive open)
    lines = list(differing(run, whole))
    for at, part in enumerate(parts):
        number = 2 * SUMMED + 1 + at - sums if at >= sums else None
        with part.damaged():
            lines += differing(run, over_damage(part, number, answers))
            if part is not parts[-1]:
                with parts[-1].damaged():
                    lines += differing(run, [(TOTALS, part.refused, parts[-1].refused)])
        lines += differing(run, whole)
        yield ["%s: %s" % (os.path.basename(part.path), line) for line in lines]
        lines = []


def main(program):
    program = os.path.abspath(program)
    with tempfile.TemporaryDirectory(dir=in_memory()) as place:
        folder = os.path.join(place, "a")
        answers = Answers(archive(program, folder))
        parts = [Part(folder, entry) for kind in (WIDE, ROLLED, SEALED) for entry in entries_of(folder, kind)]
        with Running([program, "shell", folder]) as run:
            found = list(damaged_in_turn(run, parts, answers))
            found[-1] += differing(run, [("quit", "done 0\n")])
            ended = run.ended()
    if ended != (0, "", ""):
        found[-1].append("the end: wanted (0, '', ''), came %r" % (ended,))
    for line in sum(found, []):
        print(line)
    differ = sum(bool(lines) for lines in found)
    print("%d cases of damage: %d differ" % (len(found), differ))
    return int(differ > 0)


if __name__ == "__main__":
    sys.exit(main(sys.argv[1]) if len(sys.argv) == 2 else print(__doc__) or 2)
