#!/usr/bin/env python3
"""over_kept.py CRATE [FUNCTION..] [FLAG..]: checks these functions of a crate, as walk::scan, or all of it, over the
libraries of the crates below that `rt ci` proved last on this machine, in whichever checkout: seconds, where `rt check`
makes libraries of its own first, for a crate of the program some ten minutes. FLAGs are the prover's, as --allow-holes.

over_kept.py --alone CRATE [FUNCTION..]: checks these functions so, and none that they call, whose contracts are taken:
the bodies and proofs of these take most of the first form's time. It prints what isn't proved, and ends with 'N of M
proved, by the contracts of what they call' and status 0 where that is all. Where none is named it checks those that the
wrong bodies of the gate change, as they are: the check that refuses these must prove them.

over_kept.py --edits CRATE [NAME..]: tries wrong bodies of crates/CRATE/edits/ so, or of its gate/, one by one, all of
edits/ where none is named: prints what the prover says of each, as judge/wrong_bodies.py does, and ends with status 0
where each is refused, and none only where a proof names what is gone.

over_kept.py --times CRATE [FUNCTION..]: checks all of it so, or these functions and those that they call, and prints
how many processor seconds each took, the longest first, counted from the end of the one before it to its own; those of
the first to end, which is marked, are also what loading took. Stopped by Ctrl-C, it prints those of what has ended.

over_kept.py --parts CRATE [FUNCTION..]: checks all of it so, or these functions as --alone does, and prints how many
processor seconds each part of a function took, the longest first: its `body` as a system of steps, which grows with its
exits and with the large values that it owns at each; its goals found by `search` and those answered by `hand`; and
`other`. Where FUNCTIONs are named, goals come one by one. What each part took in all comes last, and what all else did.

It is for whoever writes proofs, and is no proof of a crate: a library that was proved of another text than this
checkout has is taken too. The first form prints all but what is proved, and ends with the prover's status. It reads
what the kit keeps (13f) as it is laid out there."""
import collections
import contextlib
import json
import os
import re
import shutil
import subprocess
import sys
import tempfile

sys.path.insert(0, os.path.dirname(os.path.abspath(__file__)))
import wrong_bodies  # noqa: E402

# Where libraries are put for the prover.
LIBRARIES = "built/kept"


def kit():
    return os.path.dirname(os.path.dirname(os.path.realpath(shutil.which("rt"))))


def newest(crate):
    """The folder of what `rt ci` kept last of a crate, with the list of what is in it; None where it kept nothing."""
    store = os.path.join(os.path.dirname(kit()), "rattle-kept")
    names = [it for it in os.listdir(store) if re.fullmatch("proof-%s-[0-9a-f]{64}" % crate, it)]
    whole = [it for it in names if os.path.exists(os.path.join(store, it, "made.json"))]
    return os.path.join(store, max(whole, key=lambda it: os.path.getmtime(os.path.join(store, it)))) if whole else None


def put(crate):
    """Puts a crate's library where the prover reads it: whether there is one."""
    kept, to = newest(crate), os.path.join(LIBRARIES, crate + ".rlib")
    if not kept:
        return False
    shutil.rmtree(to, ignore_errors=True)
    with open(os.path.join(kept, "made.json")) as made:
        files = json.load(made)["files"]
    for number, (path, _) in enumerate(files):
        inside = path.removeprefix("rlib/%s.rlib/" % crate)
        os.makedirs(os.path.dirname(os.path.join(to, inside)), exist_ok=True)
        shutil.copyfile(os.path.join(kept, str(number)), os.path.join(to, inside))
    return True


def words(crates, crate):
    """The words for the prover."""
    uses, below, folder = crates.uses[crate], crates.below(crate), os.path.abspath(LIBRARIES)
    root = "src/main.rt" if os.path.exists("crates/%s/src/main.rt" % crate) else "src/lib.rt"
    found = [kit() + "/bin/rattle", "check", "--crate-name", crate, root]
    for name in ["std", *uses]:
        place = folder if name in below else kit() + "/rlibs"
        found += ["--extern", "%s=%s/%s.rlib" % (name, place, name)]
    found += ["-L", "dependency=%s/rlibs" % kit(), "-L", "dependency=" + folder]
    found += ["--antt-project", kit() + "/rattle/logic/antt-project.json", "--logic-built", kit() + "/logic_built"]
    return [*found, "--links", crate + "=", "--jobs", "1"]


def only(functions):
    """The prover's words by which it checks these functions, and what they call."""
    return [word for it in functions for word in ("--only", it)]


def judged(all_words, crate, folder, places):
    """Checks a crate with a wrong body in it: the functions that it changes, or all where it is in none."""
    if places:
        paths = sorted(wrong_bodies.path_of(folder, *it) for it in places)
        return wrong_bodies.check_only(all_words, crate, folder, paths)
    return wrong_bodies.checked(all_words, folder)


def edits_tried(crates, crate, names):
    """Tries wrong bodies of a crate, each alone in a copy of its folder: whether each is refused by a clause."""
    own = "crates/%s/edits" % crate
    edits = [it for place in (own, own + "/gate") if os.path.isdir(place) for it in wrong_bodies.edits_in(crate, place)]
    chosen = [it for it in edits if it.name in names] if names else wrong_bodies.edits_in(crate, own)
    well = len(chosen) == len(names) or not names
    for edit in chosen:
        with copied(crate) as folder:
            places = edit.functions(folder)
            said = (wrong_bodies.BAD, "")
            if edit.apply(folder):
                said = wrong_bodies.verdict(edit, places, judged(words(crates, crate), crate, folder, places).stdout)
            well = well and said[0] == wrong_bodies.REFUSED and said[1] != wrong_bodies.ONLY_GONE
            print("%s/%s: %s%s" % (crate, edit.name, said[0], said[1] and " (%s)" % said[1]), flush=True)
    return 0 if well else 1


@contextlib.contextmanager
def copied(crate):
    """A copy of a crate's folder, while it lasts."""
    with tempfile.TemporaryDirectory() as room:
        folder = os.path.join(room, crate)
        shutil.copytree("crates/" + crate, folder, ignore=shutil.ignore_patterns("out"))
        yield folder


def alone(all_words, crate, paths):
    """Checks some functions of a crate, or those of some modules, by the contracts of those that they call."""
    with copied(crate) as folder:
        printed = wrong_bodies.check_only(all_words, crate, folder, paths).stdout
    said = []
    for line in printed.splitlines():
        own = re.match(r"fn (\S+): (.*)", line)
        if own:
            said.append(("::%s::" % own[1], bool(wrong_bodies.HOLDS.match(own[2]))))
        if own and not said[-1][1] or ": error" in line or "is not proved that" in line:
            print(line)
    found = [[holds for name, holds in said if "::%s::" % path in name] for path in paths]
    proved = sum(bool(it) and all(it) for it in found)
    print("%d of %d proved, by the contracts of what they call" % (proved, len(paths)))
    return int(proved < len(paths))


def changed(crate):
    """The functions of a crate that the wrong bodies of the gate change."""
    folder = "crates/" + crate
    places = (edit.functions(folder) for edit in wrong_bodies.edits_in(crate, folder + "/edits/gate"))
    return sorted({wrong_bodies.path_of(folder, *it) for its_own in places for it in its_own})


def spent(process):
    """The processor seconds of a process so far."""
    with open("/proc/%d/stat" % process) as stat:
        fields = stat.read().rpartition(")")[2].split()
    return (int(fields[11]) + int(fields[12])) / os.sysconf("SC_CLK_TCK")


def timed(crates, crate, functions):
    """Checks a crate, or some functions of it, and prints what each took. A line comes as each proof ends."""
    took, before = [], 0.0
    with subprocess.Popen([*words(crates, crate), *functions, "--progress"], cwd="crates/" + crate, stdout=subprocess.PIPE,
                          stderr=subprocess.STDOUT, text=True) as ran:
        try:
            for line in ran.stdout:
                ended = re.match(r"checked (\S+), \d+ of \d+", line)
                if ended:
                    now = spent(ran.pid)
                    took.append((now - before, ended[1] + ("" if took else " (with loading)")))
                    before = now
        except KeyboardInterrupt:
            ran.kill()
    for seconds, name in sorted(took, reverse=True):
        print("%7.1f %s" % (seconds, name))
    print("%7.1f in all, of %d functions" % (before, len(took)))
    return ran.returncode


# What the prover's own words for parts of a function are called here, and how it names the part that it is at.
PARTS = {"Lts": "body", "Proof": "search", "Answers": "hand"}
AT = re.compile(r"antt: cache: Rattle-(\S+?)-proofs\.(\S+)\.(\w+): (?:(\S+): not reused)?")

# Lines of the prover that say nothing but what is well.
QUIET = re.compile(r"(fn|struct|enum|trait|impl) .*: proved|statements |axioms |logic /")

# Parts of less than so many seconds aren't printed.
LEAST = 0.1


def part_of(crate, line):
    """The function, part and goal that a line of the prover says it is at; none of another crate, or no function."""
    at = AT.match(line)
    if not at or at[1] != crate:
        return None
    function, part, goal = at[2], at[3], at[4] or ""
    owner, _, last = function.rpartition(".")
    if last in (*PARTS, "Code"):
        # (a module of a part)
        function, part = owner, last
    return function.replace(".", "::"), PARTS.get(part, "other"), goal


def parted(crates, crate, paths):
    """Checks a crate, or some functions of it by the contracts of those that they call, and prints what each part of a
    function took. The prover says which part it is at as it begins it, and which goal where it may keep goals; none are
    kept here."""
    took, besides, before, at = collections.Counter(), 0.0, 0.0, None
    with contextlib.ExitStack() as places:
        folder, keeps = "crates/" + crate, []
        if paths:
            folder = places.enter_context(copied(crate))
            places.enter_context(wrong_bodies.taken_by_contract(crate, folder, paths))
            keeps = ["--allow-holes", *only(paths), "--incremental", places.enter_context(tempfile.TemporaryDirectory())]
        with subprocess.Popen([*words(crates, crate), *keeps], cwd=folder, stdout=subprocess.PIPE,
                              stderr=subprocess.STDOUT, text=True, env={**os.environ, "ANTT_CACHE_DEBUG": "1"}) as ran:
            for line in ran.stdout:
                if line.startswith("antt: cache: "):
                    now = spent(ran.pid)
                    if at:
                        took[at] += now - before
                    else:
                        besides += now - before
                    before, at = now, part_of(crate, line)
                elif not paths and not QUIET.match(line):
                    print(line, end="")
    for (function, part, goal), seconds in took.most_common(60):
        if seconds >= LEAST:
            print("%7.1f %-6s %s" % (seconds, part, " ".join(filter(None, (function, goal)))))
    for part in (*PARTS.values(), "other"):
        print("%7.1f %s in all" % (sum(it for (_, own, _), it in took.items() if own == part), part))
    print("%7.1f besides: loading, definitions, lemmas; %.1f in all" % (besides, before))
    return ran.returncode


def main():
    form = sys.argv[1] if sys.argv[1:2] in (["--alone"], ["--edits"], ["--times"], ["--parts"]) else ""
    given = sys.argv[2:] if form else sys.argv[1:]
    if not given or given[0].startswith("-"):
        print(__doc__)
        return 2
    os.chdir(os.path.join(os.path.dirname(os.path.abspath(__file__)), ".."))
    crates, crate, rest = wrong_bodies.Crates(), given[0], given[1:]
    lacking = [it for it in crates.below(crate) if not put(it)]
    if lacking:
        print("rt ci has kept nothing of: %s" % " ".join(lacking))
        return 1
    if form == "--alone":
        return alone(words(crates, crate), crate, rest or changed(crate))
    if form == "--edits":
        return edits_tried(crates, crate, rest)
    if form == "--parts":
        return parted(crates, crate, rest)
    functions = only(it for it in rest if not it.startswith("-"))
    if form == "--times":
        return timed(crates, crate, functions)
    flags = [it for it in rest if it.startswith("-")]
    ran = subprocess.run([*words(crates, crate), *functions, *flags], cwd="crates/" + crate, stdout=subprocess.PIPE,
                         stderr=subprocess.STDOUT, text=True)
    for line in ran.stdout.split("\n"):
        if not QUIET.match(line):
            print(line)
    return ran.returncode


if __name__ == "__main__":
    sys.exit(main())
