#!/usr/bin/env python3
"""completions.py PROGRAM: holds the completions of completions/ against the help of the program: each command, and each
option of the program and of each command, is completed, and no other. That of bash is run, where there is a bash, and
that of zsh is read (and its form checked by zsh, where there is one). Prints each difference, and ends with
'N cases of completions: M differ'; its status is 0 where M is 0, else 1."""
import os
import re
import shutil
import subprocess
import sys

FOLDER = os.path.join(os.path.dirname(os.path.abspath(__file__)), "..", "completions")
BASH, ZSH = os.path.join(FOLDER, "flowvault.bash"), os.path.join(FOLDER, "_flowvault")

# Completes a line, its words one argument each, and prints what it may become, a line each.
COMPLETE = """
. "$1"
shift
COMP_WORDS=("$@")
COMP_CWORD=$(($# - 1))
_flowvault
printf '%s\\n' "${COMPREPLY[@]}"
"""


def help_of(program, *words):
    """The commands and the options in the program's help, by its lines."""
    text = subprocess.run([program, *words, "--help"], capture_output=True, text=True, timeout=60, check=True).stdout
    commands, options, part = [], [], ""
    for line in text.split("\n"):
        if line and not line.startswith(" "):
            part = line
        elif part == "Commands:" and re.match(r"  \w", line):
            commands.append(line.split()[0])
        elif part == "Options:" and re.match(r"  (-|    --)", line):
            options += re.findall(r"(?:^|, )\s*(--?[\w-]+)", line.split("  ", 1)[1].strip().split("  ")[0])
    return sorted(commands), sorted(options)


def by_bash(*words):
    """What bash completes a line to."""
    ran = subprocess.run(["bash", "-c", COMPLETE, "bash", BASH, "flowvault", *words], capture_output=True, text=True,
                         timeout=60, check=True)
    return sorted(ran.stdout.split())


def options_in(text):
    """The options that arguments of `_arguments` have."""
    braces = [name for names in re.findall(r"\{(-[^}]*)\}", text) for name in names.split(",")]
    return braces + re.findall(r"'(--?[\w-]+)\[", text)


def by_zsh():
    """The commands that zsh completes, the options of the program, and those of each command, by what its file says."""
    with open(ZSH) as file:
        text = file.read()
    commands = re.search(r"commands=\((.*?)\n    \)", text, re.DOTALL)[1]
    listed = re.findall(r"^        '([\w-]+):", commands, re.MULTILINE)
    lists = dict(re.findall(r"^    (\w+)=\((.*?)\)$", text, re.DOTALL | re.MULTILINE))
    lists["help"] = re.search(r"^    help=(.*)$", text, re.MULTILINE)[1]
    ours = re.search(r"^    _arguments -C (.*?)&& return", text, re.DOTALL | re.MULTILINE)[1]
    found = {}
    for name, block in re.findall(r"^        ([\w-]+)\) (.*?);;", text, re.DOTALL | re.MULTILINE):
        whole = block + " ".join(lists[it] for it in re.findall(r"\$(\w+)", block) if it in lists)
        found[name] = sorted(options_in(whole))
    return sorted(listed), sorted(options_in(ours)), found


def differences(program):
    """How many cases there are, and each difference, as a line."""
    cases, found = 0, []

    def compare(what, wanted, came):
        nonlocal cases
        cases += 1
        if wanted != came:
            found.append("%s: the help has %s, the completion %s" % (what, wanted, came))

    commands, options = help_of(program)
    of_each = {name: help_of(program, name)[1] for name in commands if name != "help"}
    if shutil.which("bash"):
        compare("bash: commands", commands, [it for it in by_bash("") if not it.startswith("-")])
        compare("bash: options", options, by_bash("-"))
        compare("bash: help", commands, by_bash("help", ""))
        for name, wanted in of_each.items():
            compare("bash: " + name, wanted, by_bash(name, "-"))
    else:
        print("that of bash is not run, since there is no bash")
    listed, ours, theirs = by_zsh()
    compare("zsh: commands", commands, listed)
    compare("zsh: options", options, ours)
    for name, wanted in of_each.items():
        compare("zsh: " + name, wanted, theirs.get(name))
    compare("zsh: all that have options", sorted(of_each), sorted(it for it in theirs if it != "help"))
    if shutil.which("zsh"):
        ran = subprocess.run(["zsh", "-n", ZSH], capture_output=True, text=True)
        compare("zsh: its form", "", ran.stderr)
    return cases, found


def main(program):
    cases, found = differences(program)
    for line in found:
        print(line)
    print("%d cases of completions: %d differ" % (cases, len(found)))
    return int(bool(found))


if __name__ == "__main__":
    sys.exit(main(os.path.abspath(sys.argv[1])) if len(sys.argv) == 2 else print(__doc__) or 2)
