#!/usr/bin/env python3
"""recipes.py PROGRAM: runs recipes of docs/OPERATING.md, as that page has them, over an archive of a month with a flow
in each interval of 300 seconds but some: the bill of the month, and the 95th percentile, which is compared with one
reckoned here. They are run on single flows, after `roll`, and after `merge`, when the percentile has no answer and the
recipe has to say so. Then examples/days.sh: the month in three archives of a day each, their sums as files, and the
bill of these; what an archive lacks; and two days, the second of which has its templates from the first. And
examples/metrics.py over archives that are well, in use, damaged and not there, and while Files are fed that lack
records. And who sent most in an hour, by awk, and by jq and sqlite3 where they are there. Prints each difference, and
ends with 'N cases of recipes: M differ'; its status is 0 where M is 0, else 1."""
import json
import os
import re
import shutil
import struct
import subprocess
import sys
import tempfile

from questions import until_locked

TOP = os.path.join(os.path.dirname(os.path.abspath(__file__)), "..")
PAGE = os.path.join(TOP, "docs", "OPERATING.md")
METRICS, DAYS = (os.path.abspath(os.path.join(TOP, "examples", name)) for name in ("metrics.py", "days.sh"))

# What a metrics collector reads.
EXPOSED = re.compile(r"# HELP [a-z_]+ .*|# TYPE [a-z_]+ (counter|gauge)|[a-z_]+\{(,?[a-z]+=\"[^\"\n]*\")+\} \d+")

# 2023-11-01 and 2023-12-01, 00:00 UTC.
FROM, TO = 1698796800, 1701388800
INTERVALS = (TO - FROM) // 300

# What is taken in at once: the messages of a File.
FLOWS = 100


def recipe(word):
    """The first block of the page that has this word."""
    with open(PAGE) as page:
        blocks = re.findall(r"^```\n(.*?)^```$", page.read(), re.MULTILINE | re.DOTALL)
    return next(block for block in blocks if word in block)


def month():
    """How many octets each interval has: none in each 50th one."""
    return [0 if i % 50 == 0 else 3000 * (i * 7919 % INTERVALS + 1) for i in range(INTERVALS)]


def messages_of(octets):
    """Messages of domain 7 with a flow in each interval that has octets."""
    template = struct.pack(">HHHHHHHHHHHH", 2, 24, 256, 4, 150, 4, 4, 1, 1, 8, 2, 4)
    flows = [struct.pack(">IBQI", FROM + 300 * i, 6, count, 1) for i, count in enumerate(octets) if count]
    messages = []
    for at in range(0, len(flows), FLOWS):
        part = flows[at : at + FLOWS]
        body = (b"" if at else template) + struct.pack(">HH", 256, 4 + sum(map(len, part))) + b"".join(part)
        messages.append(struct.pack(">HHIII", 10, 16 + len(body), FROM, at, 7) + body)
    return messages


class Trial:
    def __init__(self, program, place):
        self.place, self.cases, self.differ = place, 0, 0
        os.mkdir(os.path.join(place, "bin"))
        os.symlink(program, os.path.join(place, "bin", "flowvault"))
        self.words = {**os.environ, "PATH": os.path.join(place, "bin") + ":" + os.environ["PATH"], "LC_ALL": "C"}

    def run(self, text):
        return subprocess.run(["sh", "-c", text], cwd=self.place, env=self.words, stdin=subprocess.DEVNULL,
                              capture_output=True, text=True, timeout=120)

    def compare(self, what, wanted, came):
        self.cases += 1
        if wanted != came:
            self.differ += 1
            print("%s: wanted %r, came %r" % (what, wanted, came))


def days(trial, octets):
    """Three parts of a month, each fed on a day of its own to an archive of that day, with another exporter's archive
    that is damaged: what is left once days are closed, and the bill of their sums."""
    def closes(today, *files):
        came = trial.run("TODAY=%s '%s' close udp sums 10; echo $?; ls -d udp/*/* sums/*/*" % (today, DAYS))
        wanted = ["1", *sorted([*files, "udp/4739/2023-11-10"])]
        trial.compare("days.sh close, on " + today, wanted, came.stdout.split())
        trial.compare("what it says on " + today, True, "days.sh: no sums of udp/4739/2023-11-10" in came.stderr)

    dates, part = ("2023-11-10", "2023-11-20", "2023-11-30"), INTERVALS // 3
    sums, kept = (["%s/4740/%s%s" % (of, it, end) for it in dates] for of, end in (("sums", ".csv"), ("udp", "")))
    for at, date in enumerate(dates):
        with open(os.path.join(trial.place, "part"), "wb") as file:
            file.write(b"".join(messages_of([count if i // part == at else 0 for i, count in enumerate(octets)])))
        came = trial.run("TODAY=%s '%s' feed udp/4740 < part" % (date, DAYS))
        trial.compare("days.sh feed", (0, ""), (came.returncode, came.stderr))
    trial.run("mkdir -p udp/4739 && cp -r udp/4740/2023-11-10 udp/4739 && rm udp/4739/*/*.slot")
    closes("2023-11-30", *sums[:2], *kept[1:])
    closes("2023-12-01", *sums, kept[2])
    came = trial.run(recipe("FNR > 1 && $1 >= from"))
    trial.compare("the bill of sums by days", (0, "7 %d\n" % sum(octets)), (came.returncode, came.stdout))


def lacks(trial, messages):
    """What an archive lacks of which a message was lost, as it is exported, is what the File lacks that was fed."""
    with open(os.path.join(trial.place, "lost"), "wb") as file:
        file.write(b"".join(messages[:40] + messages[41:]))
    trial.run("mkdir day && flowvault create day 300 --limit 65535 && flowvault feed day lost --keep 4294967295")
    of_file, of_archive = (trial.run(it).stdout for it in ("flowvault inspect < lost", recipe("flowvault export day")))
    trial.compare("what a day lacks", of_file, of_archive)
    trial.compare("that a day lacks records", True, " gaps 1 missing %d " % FLOWS in of_archive)


def change_of_day(trial, messages):
    """Messages of which only the first has the template, fed on two days by days.sh: the second day's archive has the
    template from the first one, and both have all flows; and it lacks what was lost between the days."""
    for name, part in (("all", messages), ("first", messages[:40]), ("second", messages[40:]), ("late", messages[41:])):
        with open(os.path.join(trial.place, name), "wb") as file:
            file.write(b"".join(part))
    lacking = "flowvault: warning: file 1 (-): %d records are missing, in 1 gaps of sequence numbers\n" % FLOWS
    for port, second, said in ((4741, "second", ""), (4742, "late", lacking)):
        for date, part, warned in (("2023-11-14", "first", ""), ("2023-11-15", second, said)):
            came = trial.run("TODAY=%s '%s' feed udp/%d < %s" % (date, DAYS, port, part))
            trial.compare("days.sh feed on " + date, (0, warned), (came.returncode, came.stderr))
    wanted = trial.run("flowvault measure 300 < all").stdout
    trial.compare("all flows of two days", wanted, trial.run("flowvault totals udp/4741/* 0 4294967296").stdout)
    lacked = trial.run("flowvault export udp/4742/2023-11-15 | flowvault inspect").stdout
    trial.compare("what is lost between two days", True, " gaps 1 missing %d " % FLOWS in lacked)


def measured(trial, words):
    """What metrics.py writes of an archive: its status, what it says, and the values of metrics that aren't 0 by their
    names, without `flowvault_`, and by their last labels, where there are several."""
    ran = trial.run("python3 '%s' text.prom %s" % (METRICS, words))
    with open(os.path.join(trial.place, "text.prom")) as file:
        lines = file.read().splitlines()
    values = {}
    for line in lines:
        if not EXPOSED.fullmatch(line):
            return "no line of metrics: " + line
        name, _, value = line.rpartition(" ")
        name = re.sub(r"flowvault_(\w+)\{archive=\"[a-z]+\",?", r"\1{", name).replace("{}", "")
        if value != "0" and line[0] != "#" and not name.startswith("size_bytes"):
            values[name] = int(value)
    return ran.returncode, ran.stdout, values


def metrics(trial, messages):
    """What metrics.py writes, in turn of archives that are well, in use, damaged and not there, and of one to which
    Files are fed that lack a template and a message, and what is none, and two flows without a start, whose octets are in
    octetTotalCount alone, with a sampling interval."""
    sets = struct.pack(">8H", 2, 16, 257, 2, 85, 4, 34, 4) + struct.pack(">HHIIII", 257, 20, 1500, 10, 1500, 10)
    otherwise = struct.pack(">HHIII", 10, 16 + len(sets), FROM, 0, 8) + sets
    for name, octets in (("three", b"".join(messages[:3])), ("lacking", messages[1] + messages[0] + messages[2]),
                         ("octet", b"\x00"), ("cut", messages[0][:20]), ("otherwise", otherwise)):
        with open(os.path.join(trial.place, name), "wb") as file:
            file.write(octets)
    trial.run("for it in watched lossy; do mkdir $it && flowvault create $it 300; done && flowvault feed watched three"
              " && cp -r watched damaged && chmod u+w damaged/3.ipfix && printf x |"
              " dd of=damaged/3.ipfix conv=notrunc")
    well = {"messages_total": 3, "files": 1}
    trial.compare("metrics", (0, "", well), measured(trial, "watched"))
    with subprocess.Popen(["bin/flowvault", "feed", "watched", "-"], cwd=trial.place, stdin=subprocess.PIPE,
                          stdout=subprocess.DEVNULL) as feed:
        until_locked(os.path.join(trial.place, "watched"))
        trial.compare("metrics, in use", (0, "", {"check_status": 3, "check_refusal": 30, "in_use": 1, "files": 1}),
                      measured(trial, "watched"))
        feed.stdin.close()
    for name, wanted in (("damaged", {"check_status": 5, "check_refusal": 20, "files": 1}),
                         ("none", {"check_status": 3, "check_refusal": 30})):
        trial.compare("metrics, " + name, (0, "", wanted), measured(trial, name))
    for words, status, line, ending, lost in (
        ("lacking", 0, "fed 1 3", "fed",
         {"sets_without_template_total": 1, "sequence_gaps_total": 1, "missing_records_total": FLOWS}),
        ("octet --datagrams", 0, "fed 1 0", "fed", {'refused_datagrams_total{refusal="1 Short"}': 1}),
        ("cut", 1, "stopped 1 0 15 Cut", "15 Cut", {}),
        ("otherwise", 0, "fed 1 1", "fed", {"messages_total": 4, "placed_flows_total": 2, "uncounted_flows_total": 2,
                                            "sampled_flows_total": 2}),
    ):
        wanted = {**well, **lost, 'ended_files_total{ending="%s"}' % ending: 1}
        trial.compare("metrics, fed " + words, (status, line + "\n", wanted), measured(trial, "lossy --feed " + words))


def talkers(trial):
    """Who sent most in an hour, by the data records of flows: 14 addresses, of IPv4 and IPv6, each with several flows in
    the hour, and a greater one before it and after it."""
    start, end = 1700000400, 1700004000
    sent, sets = {}, b""
    for number, (element, width) in ((256, (8, 4)), (257, (27, 16))):
        sets += struct.pack(">HHHHHHHHHH", 2, 20, number, 3, 150, 4, element, width, 1, 8)
        flows = b""
        for last in range(1, 8):
            octets = bytes([192, 0, 2, last]) if width == 4 else bytes.fromhex("20010db8" + "00" * 11) + bytes([last])
            text = (".".join(map(str, octets)) if width == 4 else
                    ":".join(octets[i : i + 2].hex() for i in range(0, width, 2)))
            for at in (start - 1, start, start + 1800, end - 1, end):
                count = (last * 1009 + width) * (at % 97 + 1) + (10**12 if at in (start - 1, end) else 0)
                flows += struct.pack(">I", at) + octets + struct.pack(">Q", count)
                if start <= at < end:
                    sent[text] = sent.get(text, 0) + count
        sets += struct.pack(">HH", number, 4 + len(flows)) + flows
    os.mkdir(os.path.join(trial.place, "talk"))
    with open(os.path.join(trial.place, "talk", "one"), "wb") as file:
        file.write(struct.pack(">HHIII", 10, 16 + len(sets), start, 0, 7) + sets)
    made = trial.run("cd talk && mkdir flows && flowvault create flows 300 && flowvault feed flows one")
    trial.compare("talkers, fed", (0, "fed 1 1\n"), (made.returncode, made.stdout))
    most = sorted(((count, text) for text, count in sent.items()), reverse=True)[:10]
    came = trial.run("cd talk && " + recipe("records.txt"))
    trial.compare("who sent most, by awk", (0, "".join("%d %s\n" % it for it in most)), (came.returncode, came.stdout))
    if shutil.which("sqlite3"):
        came = trial.run("cd talk && " + recipe("records.csv"))
        trial.compare("who sent most, by sqlite3", (0, "".join("%d %s\n" % it for it in most)),
                      (came.returncode, came.stdout))
    if shutil.which("jq"):
        came = trial.run("cd talk && " + recipe("records.json"))
        trial.compare("who sent most, by jq", (0, [{"from": text, "octets": count} for count, text in most]),
                      (came.returncode, [json.loads(line) for line in came.stdout.splitlines()]))


def main(program):
    octets = month()
    rows, bill, peak = recipe("rows() {"), recipe('"%s %.0f\\n", d, octets[d]'), recipe("all * 95")
    rate = sorted(count * 8 // 300 for count in octets)[(INTERVALS * 95 + 99) // 100 - 1]
    with tempfile.TemporaryDirectory() as place:
        trial = Trial(program, place)
        with open(os.path.join(place, "month.ipfix"), "wb") as file:
            file.write(b"".join(messages_of(octets)))
        made = trial.run("mkdir flows && flowvault create flows 300 --limit 65535 && "
                         "flowvault feed flows month.ipfix --keep 4294967295")
        trial.compare("feed", (0, ""), (made.returncode, made.stderr))
        for what in ("true", "flowvault roll flows 0", "flowvault roll flows 0 && flowvault merge flows 0"):
            trial.compare(what, 0, trial.run(what).returncode)
            came = trial.run(rows + bill)
            trial.compare("the bill after " + what, (0, "7 %d\n" % sum(octets)), (came.returncode, came.stdout))
            came = trial.run(rows + peak)
            if "merge" in what:
                trial.compare("no percentile after " + what, True, "no answer" in came.stderr and came.stdout == "")
                continue
            trial.compare("the percentile after " + what, (0, "%d\n" % rate), (came.returncode, came.stdout))
        days(trial, octets)
        lacks(trial, messages_of(octets))
        change_of_day(trial, messages_of(octets))
        metrics(trial, messages_of(octets))
        talkers(trial)
    print("%d cases of recipes: %d differ" % (trial.cases, trial.differ))
    return int(trial.differ > 0)


if __name__ == "__main__":
    sys.exit(main(os.path.abspath(sys.argv[1])) if len(sys.argv) == 2 else print(__doc__) or 2)
