#!/usr/bin/env python3
"""weight.py COMMAND..: runs a command that proves crates (./verify, rt ci NAME) and samples its processes: prints how
many processor seconds each crate took, by what for, and those of all else, and then those of each script of judge/, of
each file of cases, and of each way in which scripts of archives are played. Status is the command's.

What for: `proof` (a crate's first check and its library), `tests` (their proofs and their program), `seed` and `edits`
(what wrong bodies are tried over, and each of them), `code` (LLVM and linking). A process that ends between two samples
(a fifth of a second) is counted up to its last one; so the sum is less than what the system counted for all children,
which comes after it, with the machine's load (a mean of its one-minute averages) and how long it took. What is played
is counted with all processes that it waited for, however short. Run it on a machine that kept nothing, with nothing
beside it: proofs side by side slow each other.

The last line says how fast the machine was meanwhile: the processor time of a million additions in Python, measured
once a minute. Virtual processors that share a machine with others differ twofold and more, from one hour to the next:
compare figures of two runs only with this beside them."""
import os
import re
import resource
import statistics
import subprocess
import sys
import time

EVERY = 0.2
TICKS = os.sysconf("SC_CLK_TCK")
KINDS = ("proof", "tests", "seed", "edits", "code")
MINUTE = 60


def read(path):
    try:
        with open(path, "rb") as file:
            return file.read()
    except OSError:
        return b""


class Process:
    """A process: which one started it, and the processor seconds of it, and of it with all that it has waited for."""

    def __init__(self, fields):
        own, waited = (sum(map(int, fields[at:at + 2])) / TICKS for at in (11, 13))
        self.parent, self.own, self.whole = int(fields[1]), own, own + waited


def descendants(root):
    """The processes that a process started, and those that they started."""
    every = {}
    for name in filter(str.isdigit, os.listdir("/proc")):
        fields = read("/proc/%s/stat" % name).rpartition(b")")[2].split()
        if fields:
            every[int(name)] = Process(fields)
    found, last = {root}, set()
    while found != last:
        last, found = found, found | {pid for pid, it in every.items() if it.parent in found}
    return {pid: every[pid] for pid in found - {root} if pid in every}


def played(pid):
    """What a process plays: a script of judge/, a file of cases, or scripts of archives in a way; nothing where it is
    none of these."""
    words = read("/proc/%d/cmdline" % pid).decode(errors="replace").rstrip("\0").split("\0")
    if os.path.basename(words[0]) == "flow_replay":
        return " ".join(["flow_replay", *words[1:2]])
    script = next((it for it in words[1:2] if it.startswith(("judge/", "cases/"))), None)
    return words[-1] if script == "cases/play.py" else script if script != "judge/wrong_bodies.py" else None


def add_played(processes, names, spent):
    """Notes the seconds of what is played: of each process that plays something and that none such one started, with
    those that it started."""
    wholes = {}
    for pid, it in processes.items():
        names[pid] = names.get(pid) or played(pid)
        at, top = pid, None
        while at in processes:
            top, at = at if names.get(at) else top, processes[at].parent
        if top:
            wholes[top] = wholes.get(top, 0) + it.whole
    for pid, seconds in wholes.items():
        spent[pid] = names[pid], max(seconds, spent.get(pid, (None, 0))[1])


def what_for(pid):
    """The crate that a process is for, and what it does with it; nothing where it proves and builds none."""
    words = read("/proc/%d/cmdline" % pid).decode(errors="replace").split("\0")
    program = os.path.basename(words[0])
    try:
        place = os.readlink("/proc/%d/cwd" % pid)
    except OSError:
        return None
    crate = words[words.index("--crate-name") + 1] if "--crate-name" in words[:-1] else None
    if crate is None:
        of = re.search(r"/crates/(\w+)", " ".join([place, *words]))
        return (of[1] if of else "", "code") if program.startswith(("clang", "llvm", "ld", "rattle-link")) else None
    if "--test" in words:
        return crate, "tests"
    if "/rt-edit-" in place:
        return crate, "edits" if "/seed" not in " ".join(words) else "seed"
    return crate, "edits" if "--only" in words else "proof"


def additions():
    """The processor time of a million additions, in milliseconds."""
    began, count = time.process_time(), 0
    while count < 1_000_000:
        count += 1
    return (time.process_time() - began) * 1000


def sampled(command):
    """Runs a command: its status, the seconds of each process with what it was for, those of what was played, the
    loads, and how fast the machine was."""
    spent, kinds, names, parts, loads, speeds = {}, {}, {}, {}, [], []
    began = time.time()
    ran = subprocess.Popen(command)
    while ran.poll() is None:
        if time.time() >= began + MINUTE * len(speeds):
            speeds.append(additions())
        processes = descendants(ran.pid)
        for pid, it in processes.items():
            kinds[pid] = kinds.get(pid) or what_for(pid)
            spent[pid] = max(it.own, spent.get(pid, 0))
        add_played(processes, names, parts)
        loads.append(os.getloadavg()[0])
        time.sleep(EVERY)
    return ran.returncode, [(kinds[pid], seconds) for pid, seconds in spent.items()], parts.values(), loads, speeds


def table(processes):
    """Prints the seconds of each crate, those that took most first."""
    crates, rest = {}, 0.0
    for kind, seconds in processes:
        if kind:
            crate = crates.setdefault(kind[0] or "(any)", dict.fromkeys(KINDS, 0.0))
            crate[kind[1]] += seconds
        else:
            rest += seconds
    print("%-22s" % "crate" + "".join("%8s" % it for it in KINDS) + "%8s" % "all")
    for name, crate in sorted(crates.items(), key=lambda it: -sum(it[1].values())):
        print("%-22s" % name + "".join("%8.0f" % crate[it] for it in KINDS) + "%8.0f" % sum(crate.values()))
    sums = [sum(crate[it] for crate in crates.values()) for it in KINDS]
    print("%-22s" % "all crates" + "".join("%8.0f" % it for it in sums) + "%8.0f" % sum(sums))
    print("%-22s%48.0f" % ("all else", rest))


def table_of_played(parts):
    """Prints the seconds of what was played, what took most first, where anything was."""
    sums = {}
    for name, seconds in parts:
        sums[name] = sums.get(name, 0) + seconds
    for name, seconds in sorted(sums.items(), key=lambda it: -it[1]):
        print("%-62s%8.0f" % (name, seconds))
    if sums:
        print("%-62s%8.0f" % ("all that was played", sum(sums.values())))


def main():
    if len(sys.argv) < 2:
        print(__doc__)
        return 2
    began = time.time()
    status, processes, parts, loads, speeds = sampled(sys.argv[1:])
    table(processes)
    table_of_played(parts)
    used = resource.getrusage(resource.RUSAGE_CHILDREN)
    print("the system counted %.0f s for it (%.0f user); it took %.0f s, under a load of %.1f"
          % (used.ru_utime + used.ru_stime, used.ru_utime, time.time() - began, sum(loads) / max(1, len(loads))))
    print("a million additions took %.0f ms in the middle, %.0f to %.0f"
          % (statistics.median(speeds), min(speeds), max(speeds)))
    return status


if __name__ == "__main__":
    sys.exit(main())
