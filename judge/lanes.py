#!/usr/bin/env python3
"""lanes.py: how many crates are proved side by side on this machine, each by one process: prints the number. Several
processes over one crate would each read its libraries, and take more processor time in all."""
import os


def limit(file, otherwise):
    """A limit of the control group: the first number in a file of it, or another number where there is none."""
    try:
        with open("/sys/fs/cgroup/" + file) as text:
            return int(text.read().split()[0])
    except (OSError, ValueError, IndexError):
        return otherwise


def processors():
    """How many processors there are to use."""
    # (a quota of processor time is of 100 ms)
    return max(1, min(len(os.sched_getaffinity(0)), limit("cpu.max", 1 << 60) // 100_000))


def lanes():
    """As many as there are processors, with 4 GiB of memory each."""
    memory = min(os.sysconf("SC_PAGE_SIZE") * os.sysconf("SC_PHYS_PAGES"), limit("memory.max", 1 << 60))
    return max(1, min(processors(), memory // (4 << 30)))


if __name__ == "__main__":
    print(lanes())
