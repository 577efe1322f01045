#!/usr/bin/env python3
"""Writes what is known of archives as a text file for a metrics collector, in the format of Prometheus (its
node_exporter reads such files by --collector.textfile.directory, where their names end in .prom).

metrics.py TEXTFILE DIR..
    asks `flowvault check` of each archive, once. Of one that is in use, as by a service that feeds it, no more is known
    than that, how many files it has and of how many octets. For a timer.
metrics.py TEXTFILE DIR --feed FILE.. [--datagrams] [--keep KEEP] [--seconds 60]
    feeds FILEs, or named pipes, by `flowvault shell`, each minute writes what it answers to `check` and `losses`, and
    ends when they have ended. Their lines are written to standard output; the status is 1 where one of them stopped.

--program PROGRAM is what to run in place of flowvault. TEXTFILE is replaced as a whole."""
import argparse
import collections
import os
import re
import subprocess
import sys
import time

# Each metric: its name, its type, and what it says.
METRICS = (
    ("flowvault_check_status", "gauge", "Exit status of check: 0 well, 3 in use or not to be read, 5 damaged."),
    ("flowvault_check_refusal", "gauge", "Number of the refusal of check, as flowvault explain has it, or 0."),
    ("flowvault_in_use", "gauge", "1 where another flowvault has the archive open, so that check is refused."),
    ("flowvault_messages_total", "counter", "Messages that were taken in."),
    ("flowvault_messages_in_sums_total", "counter", "Messages of which sums alone are left."),
    ("flowvault_sum_files", "gauge", "Files of sums."),
    ("flowvault_sealed_segments", "gauge", "Sealed segments."),
    ("flowvault_files", "gauge", "Files of messages or sums in the folder, of which 4,096 may be named."),
    ("flowvault_size_bytes", "gauge", "Octets of the files in the folder."),
    ("flowvault_sets_without_template_total", "counter", "Data Sets without a template in force, which aren't read."),
    ("flowvault_sequence_gaps_total", "counter", "Messages whose Sequence Number is past the one that was due."),
    ("flowvault_missing_records_total", "counter", "Records that Sequence Numbers leave out."),
    ("flowvault_placed_flows_total", "counter", "Flows without a start time of their own, summed at the Export Time."),
    ("flowvault_uncounted_flows_total", "counter", "Flows whose octets or packets are only in elements not summed."),
    ("flowvault_sampled_flows_total", "counter", "Flows with a sampling rate, which no sum is multiplied by."),
    ("flowvault_refused_datagrams_total", "counter", "Datagrams that were passed over, by their refusal."),
    ("flowvault_ended_files_total", "counter", "FILEs that ended: fed, or by the refusal that stopped them."),
)
OF_CHECK = [name for name, _, _ in METRICS[3:7]]
OF_LOSSES = dict(zip(("sets", "gaps", "records", "placed", "uncounted", "sampled"), [it[0] for it in METRICS[9:15]]))


class Samples:
    """The values of metrics, by their labels."""

    def __init__(self):
        self.values = {name: {} for name, _, _ in METRICS}

    def set(self, name, value, **labels):
        text = ",".join('%s="%s"' % (label, it.replace("\\", "\\\\").replace('"', '\\"').replace("\n", "\\n"))
                        for label, it in labels.items())
        self.values[name][text] = value

    def write(self, path):
        """Writes them to a file, which is replaced as a whole."""
        new = path + ".new"
        with open(new, "w") as file:
            for name, kind, what in METRICS:
                if self.values[name]:
                    file.write("# HELP %s %s\n# TYPE %s %s\n" % (name, what, name, kind))
                for labels, value in self.values[name].items():
                    file.write("%s{%s} %d\n" % (name, labels, value))
        os.chmod(new, 0o644)
        os.replace(new, path)


def of_folder(samples, folder):
    """How many files there are and how long they are, which anybody may see who may read the folder."""
    files = octets = 0
    try:
        for entry in os.scandir(folder):
            octets += entry.stat(follow_symlinks=False).st_size
            files += entry.name.endswith(".ipfix")
    except OSError as error:
        return print("metrics.py: %s" % error, file=sys.stderr)
    samples.set("flowvault_files", files, archive=folder)
    samples.set("flowvault_size_bytes", octets, archive=folder)


def of_check(samples, folder, line):
    """The line `ok POSITION CUT ROLLED SEALED`."""
    for name, count in zip(OF_CHECK, line.split()[1:]):
        samples.set(name, int(count), archive=folder)


def of_losses(samples, folder, lines):
    """The lines of counts, as `sets N`, and `datagrams N NUMBER NAME`."""
    for kind, count, *refusal in map(str.split, lines):
        if kind in OF_LOSSES:
            samples.set(OF_LOSSES[kind], int(count), archive=folder)
        elif kind == "datagrams":
            samples.set("flowvault_refused_datagrams_total", int(count), archive=folder, refusal=" ".join(refusal))


# ---- Once ----

def checked(program, folders):
    """What `check` says of each archive."""
    samples = Samples()
    for folder in folders:
        ran = subprocess.run([program, "check", folder], stdin=subprocess.DEVNULL, capture_output=True, text=True)
        refusal = re.match(r"flowvault: (\d+) ", ran.stderr)
        samples.set("flowvault_check_status", ran.returncode, archive=folder)
        samples.set("flowvault_check_refusal", int(refusal[1]) if refusal else 0, archive=folder)
        samples.set("flowvault_in_use", "the folder is in use" in ran.stderr, archive=folder)
        if ran.returncode == 0:
            of_check(samples, folder, ran.stdout)
        of_folder(samples, folder)
    return samples


# ---- While Files are fed ----

class Shell:
    """A shell over an archive, and the lines of FILEs that have ended, which come between answers."""

    def __init__(self, program, folder, keep):
        words = [program, "shell", folder, *(["--keep", keep] if keep else [])]
        self.run = subprocess.Popen(words, stdin=subprocess.PIPE, stdout=subprocess.PIPE, text=True)
        self.endings = []

    def ask(self, request):
        """The lines of an answer, without its end."""
        try:
            self.run.stdin.write(request + "\n")
            self.run.stdin.flush()
        except BrokenPipeError:
            pass
        lines = []
        for line in map(str.rstrip, self.run.stdout):
            if line.startswith("done "):
                return lines
            if line.startswith(("fed ", "stopped ")):
                print(line, flush=True)
                self.endings.append(line)
            else:
                lines.append(line)
        sys.exit("metrics.py: the shell has ended: status %d" % self.run.wait())

    def idle(self, seconds):
        """Lets so many seconds pass, or fewer where a FILE ends."""
        until, ended = time.monotonic() + seconds, len(self.endings)
        while len(self.endings) == ended and time.monotonic() < until:
            time.sleep(min(0.5, seconds))
            self.ask("check")


def ending_of(line):
    """Of `fed N MESSAGES`, or `stopped N MESSAGES NUMBER NAME`."""
    return "fed" if line.startswith("fed ") else " ".join(line.split()[3:])


def fed(asked, folder):
    """Feeds FILEs, and writes what is known meanwhile: whether all of them were fed."""
    shell = Shell(asked.program, folder, asked.keep)
    for path in asked.feed:
        answer = shell.ask("feed %s%s" % (path, " datagrams" if asked.datagrams else ""))
        if not answer or not answer[0].startswith("began "):
            sys.exit("metrics.py: %s isn't fed: %s" % (path, " ".join(answer)))
    while True:
        ended = len(shell.endings)
        samples = Samples()
        for line in shell.ask("check"):
            of_check(samples, folder, line)
        of_losses(samples, folder, shell.ask("losses"))
        for ending, count in collections.Counter(map(ending_of, shell.endings)).items():
            samples.set("flowvault_ended_files_total", count, archive=folder, ending=ending)
        of_folder(samples, folder)
        samples.write(asked.textfile)
        if ended == len(asked.feed):
            shell.ask("quit")
            return all(ending_of(line) == "fed" for line in shell.endings)
        if ended == len(shell.endings):
            shell.idle(asked.seconds)


def main():
    parser = argparse.ArgumentParser(description=__doc__, formatter_class=argparse.RawDescriptionHelpFormatter)
    parser.add_argument("textfile", metavar="TEXTFILE")
    parser.add_argument("folders", metavar="DIR", nargs="+")
    parser.add_argument("--feed", metavar="FILE", nargs="+")
    parser.add_argument("--datagrams", action="store_true")
    parser.add_argument("--keep")
    parser.add_argument("--seconds", type=float, default=60)
    parser.add_argument("--program", default="flowvault")
    asked = parser.parse_args()
    if not asked.feed:
        checked(asked.program, asked.folders).write(asked.textfile)
        return 0
    if len(asked.folders) > 1:
        parser.error("--feed is of one DIR")
    return int(not fed(asked, asked.folders[0]))


if __name__ == "__main__":
    try:
        sys.exit(main())
    except OSError as it:
        sys.exit("metrics.py: %s" % it)
