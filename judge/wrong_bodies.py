#!/usr/bin/env python3
"""wrong_bodies.py [CRATE..]: tries the wrong bodies of crates/CRATE/edits/, of all crates where none is named, in
copies: the prover must refuse each. `./verify --edits` calls it.

wrong_bodies.py --gate CRATE: the same of those in crates/CRATE/edits/gate/; the gate calls it.

Many are tried in one check of their crate, at most one of each function: what is proved of a function rests on the
contracts of those that it calls, and not on their bodies, so each is judged by its own function's verdict. One whose
function couldn't be judged beside the others is tried again, and one that is in no function alone. Where `./verify` has
proved the crates below in this clone as they are now, the functions that are changed are checked over the libraries that
it left, and checks of one crate keep work for each other; the other functions of the crate have a body that does
nothing, and a hole in place of a proof, which the prover takes by the contract. Else, but not with `--gate`, libraries
and work that earlier checks kept are used, or made first, which takes as long as proving the crates.
Prints a line for each, and ends with 'N refused, K only where a proof names what is gone, M not refused': the K aren't
among the N, since a proof that names what a body took away says nothing of the contract; status 0 only where M is 0,
and with `--gate` K too."""
import concurrent.futures
import contextlib
import glob
import hashlib
import os
import re
import shutil
import subprocess
import sys
import tempfile

REFUSED, PROVED, UNJUDGED, BAD = "refused", "NOT REFUSED", "unjudged", "BAD EDIT"

# Why a body is refused that a proof alone refuses.
ONLY_GONE = "only where its proof names what is gone"

# What a function's line says where it wasn't judged, since one that it calls is refused.
BLOCKED = re.compile(r"(no proof: |not proved; )?(it calls |it waits |it passes )")

# How a function's line begins where it is proved, or would be if each hole that it rests on were filled; of a closure,
# where what it asks is given.
HOLDS = re.compile(r"proved(, | where its callers give what it asks|$)|no holes|depends on a hole in ")

# A proof that is a hole, of a function by its path's parts and its name.
HOLE = """use Rattle.%s.Statement.{statement}

pub %s_spec : {M : Type 1} → statement M
%s_spec = ?
"""

# How antt says that a proof names what an edit took away: that refuses the body too, but says little of its contract.
GONE = re.compile(r"has no field|is not in scope|has no `|was not admitted")


class Edit:
    """A wrong body: pairs of an old and a new text, each in a file of its crate."""

    def __init__(self, crate, path):
        self.crate, self.name, self.pairs = crate, os.path.basename(path)[: -len(".edit")], []
        file = old = None
        with open(path) as lines:
            for line in lines.read().split("\n"):
                if line.startswith("file: "):
                    file = line[len("file: ") :].strip()
                elif line.startswith("old: "):
                    old = line[len("old: ") :]
                elif line.startswith("new:"):
                    self.pairs.append((file, old, line[len("new:") :].removeprefix(" ")))

    def apply(self, folder):
        """Changes the files of the crate in this folder: nothing, and False, where a text isn't there just once."""
        texts = {}
        for file, old, new in self.pairs:
            if file not in texts:
                with open(os.path.join(folder, file)) as text:
                    texts[file] = text.read()
            if texts[file].count(old) != 1:
                return False
            texts[file] = texts[file].replace(old, new)
        for file, text in texts.items():
            with open(os.path.join(folder, file), "w") as to:
                to.write(text)
        return bool(texts)

    def functions(self, folder):
        """The functions that it changes, each as its module, whose it is and its name; none where a change is outside of
        functions."""
        found = set()
        for file, old, _ in self.pairs:
            with open(os.path.join(folder, file)) as text:
                text = text.read()
            line = text.count("\n", 0, text.find(old) + len(old) - len(old.lstrip()))
            inside = [(owner, name) for owner, name, first, last in functions_in(text) if first <= line <= last]
            if not file.startswith("src/") or not inside:
                return set()
            module = file[len("src/") : -len(".rt")].replace("/", "::")
            found.add((module.removesuffix("::mod"), *inside[-1]))
        return found


def functions_in(text):
    """Each function of a text: whose it is, its name, and its first and last line, counted from 0. Whose it is: the type
    of the `impl` that it is in, with the trait's name after it where there is one; nothing for one in no `impl`."""
    lines, found, owner = text.split("\n"), [], ""
    for first, line in enumerate(lines):
        if line.startswith("impl"):
            owner = owner_of(line)
        elif line.startswith("}"):
            owner = ""
        head = re.match(r"(\s*)(?:pub(?:\([a-z]+\))? )?(?:const )?fn (\w+)", line)
        if head:
            last = first
            while last + 1 < len(lines) and lines[last] not in (head[1] + "}", head[1] + "{}"):
                last += 1
            found.append((owner if head[1] else "", head[2], first, last))
    return found


def owner_of(head):
    """The type of an `impl` by its first line, with the name of the trait after it where there is one."""
    head, inner = head.removeprefix("impl").split("{")[0], re.compile(r"<[^<>]*>")
    while inner.search(head):
        head = inner.sub("", head)
    trait, parted, of_it = head.partition(" for ")
    names = [it.strip().split("::")[-1] for it in ((of_it, trait) if parted else (head,))]
    # (a trait's name has its own types after it)
    return "".join(re.sub(r"\W.*", "", it.removeprefix("&")) for it in names) + (r"\w*" if parted else "")


def verdict(edit, places, said):
    """What a check says of a wrong body, by the lines of the functions that it changes, and why it is refused."""
    lines = said.rstrip("\n").split("\n")
    ends = [it for it in lines if it.startswith(("logic=", "only="))]
    if not ends or not lines[-1].startswith(("logic=", "only=", "rt: ")):
        return UNJUDGED, ""
    if not places:
        return (REFUSED, "alone") if "logic=not-proved" in ends else (PROVED, "")
    all_of_them = dict(it.groups() for it in map(re.compile(r"fn (\S+): (.*)").match, lines) if it)
    found = []
    for module, owner, name in places:
        # (a method is named by its type's module, which needn't be that of the `impl`; a function's closures are its own)
        before = r"(?:\w+::)*%s" % owner if owner else module
        of_it = r"fn %s::(?:%s::%s|%s::fn::(?:\w+::)*%s::\S+): (.*)" % (edit.crate, before, name, module, name)
        own = [it[1] for it in map(re.compile(of_it).match, lines) if it]
        bad = [it for it in own if not HOLDS.match(it)]
        if [it for it in bad if not is_blocked(it, all_of_them)]:
            in_proof = re.compile(r"(\./)?proofs/(\S*/)?%s/.*: error" % name)
            errors = [it for it in lines if in_proof.match(it)]
            only = bool(errors) and all(map(GONE.search, errors)) and not any("did not prove" in it for it in bad)
            found.append((REFUSED, ONLY_GONE if only else ""))
        elif bad or not own:
            found.append((UNJUDGED, ""))
        else:
            found.append((PROVED, ""))
    return min(found, key=lambda it: (REFUSED, UNJUDGED, PROVED).index(it[0]))


def is_blocked(line, all_of_them):
    """Whether a function's line says no more than that one that it calls is refused; one with a hole isn't."""
    named = [it for it in re.findall("`([^`]+)`", line) if it in all_of_them]
    return BLOCKED.match(line) and not (named and all(HOLDS.match(all_of_them[it]) for it in named))


def sets_of(edits, folder):
    """Divides wrong bodies into sets with at most one of each function."""
    sets = []
    for edit in edits:
        places = edit.functions(folder)
        for names, members in sets:
            if places and names and not places & names:
                names |= places
                members.append((edit, places))
                break
        else:
            sets.append((set(places), [(edit, places)]))
    return [members for _, members in sets]


@contextlib.contextmanager
def taken_by_contract(crate, folder, proved):
    """While it lasts each function of a crate, in a copy of its folder, has a body that does nothing, and a hole in place
    of a proof, but those that are to be proved, methods of traits, and functions that call one another."""
    parts = [os.path.join(folder, it) for it in ("src", "proofs")]
    os.makedirs(parts[1], exist_ok=True)
    for part in parts:
        shutil.copytree(part, part + ".aside")
    try:
        for file, functions in functions_of(folder).items():
            with open(file) as text:
                lines = text.read().split("\n")
            for path, first, last in reversed(functions):
                if path not in proved:
                    lines[first + 1 : last] = ["loop {}"]
                    give_hole(crate, folder, path)
            with open(file, "w") as to:
                to.write("\n".join(lines))
        yield
    finally:
        for part in parts:
            shutil.rmtree(part)
            os.rename(part + ".aside", part)


def give_hole(crate, folder, path):
    """Puts a hole in place of the proof of a function."""
    own, name = os.path.join(folder, "proofs", *path.split("::")), path.split("::")[-1]
    for file in ("Answers.antt", "Invariants.antt"):
        if os.path.exists(os.path.join(own, file)):
            os.remove(os.path.join(own, file))
    os.makedirs(own, exist_ok=True)
    with open(os.path.join(own, "Proof.antt"), "w") as to:
        to.write(HOLE % (".".join([crate, "proofs", *path.split("::")]), name, name))


def functions_of(folder):
    """The functions and types' own methods of a crate, but for those of its root, those that call one another, and
    tests: of each file, in its order, their paths, and the lines between which their bodies are."""
    found = {}
    for at, _, files in os.walk(os.path.join(folder, "src")):
        for file in (os.path.join(at, it) for it in files if it.endswith(".rt")):
            with open(file) as text:
                text = text.read()
            lines, module = text.split("\n"), os.path.relpath(file, os.path.join(folder, "src"))
            module = module[: -len(".rt")].replace("/", "::").removesuffix("::mod")
            for owner, name, head, last in functions_in(text) if module not in ("lib", "main") else []:
                before, indent = lines[head - 1].strip(), re.match(" *", lines[head])[0]
                is_of_trait = not owner.isalnum() if owner else indent
                opened = re.compile(indent + r"(\S.*)?\{")
                first = next((it for it in range(head, last) if opened.fullmatch(lines[it])), None)
                if first is not None and not is_of_trait and not before.startswith(("#[cycle", "#[test")):
                    found.setdefault(file, []).append((path_of(folder, module, owner, name), first, last))
    return found


def check_kept(folder, _):
    """Checks a crate in a copy of the repository, over what earlier checks kept: what is printed."""
    words = ["rt", "check", "--jobs", "1"]
    return subprocess.run(words, cwd=folder, stdout=subprocess.PIPE, stderr=subprocess.STDOUT, text=True).stdout


class Crates:
    """The crates of crates.txt, and what was proved of them."""

    # The sum of each crate's text, and of those below, when `rt ci` left its library.
    PROVED = "built/libraries"

    def __init__(self):
        with open("crates.txt") as lines:
            named = (it.partition(":") for it in lines if re.match(r"\w+:", it))
            self.uses = {name: uses.split() for name, _, uses in named}

    def below(self, crate):
        """The libraries of the repository that a crate uses, and those that these use."""
        found = []
        for name in self.uses[crate]:
            found += [it for it in [*self.below(name), name] if it not in found] if name in self.uses else []
        return found

    def sum_of(self, crate):
        """A sum of what the proof of a crate reads in the repository."""
        total = hashlib.sha256()
        for name in [*self.below(crate), crate]:
            total.update(repr((name, self.uses[name])).encode())
            for part in ("src", "specs", "proofs"):
                for path in sorted(glob.glob("crates/%s/%s/**" % (name, part), recursive=True)):
                    if os.path.isfile(path):
                        with open(path, "rb") as text:
                            total.update(repr((path, text.read())).encode())
        return total.hexdigest()

    def note_proved(self):
        """Notes that `rt ci` has proved all crates, and left their libraries; not of a crate whose library `rt check` had
        made before, since that one is put back at the end."""
        os.makedirs(os.path.dirname(self.PROVED), exist_ok=True)
        its_own = [it for it in self.uses if not os.path.exists("crates/%s/out/rlib/stamp" % it)]
        with open(self.PROVED, "w") as lines:
            lines.writelines("%s %s\n" % (name, self.sum_of(name)) for name in its_own)

    def are_proved_below(self, crate):
        """Whether `rt ci` left the libraries of all crates below, as they are now."""
        try:
            with open(self.PROVED) as lines:
                proved = dict(line.split() for line in lines)
        except OSError:
            return False
        is_there = "crates/{0}/out/rlib/{0}.rlib".format
        return all(os.path.isdir(is_there(it)) and proved.get(it) == self.sum_of(it) for it in self.below(crate))


class OverProved:
    """Checks of a crate over the libraries that `rt ci` left."""

    def __init__(self, crates, crate, work):
        """`work` is a folder for what checks keep for each other."""
        self.crates, self.crate, self.work = crates, crate, work

    def words(self):
        """The words for the prover."""
        kit = os.path.dirname(os.path.dirname(os.path.realpath(shutil.which("rt"))))
        uses, of_all = self.crates.uses[self.crate], self.crates.uses
        libraries = {it: os.path.abspath("crates/%s/out/rlib" % it) for it in self.crates.below(self.crate)}
        words = [kit + "/bin/rattle", "check", "--crate-name", self.crate]
        words += ["src/main.rt" if os.path.exists("crates/%s/src/main.rt" % self.crate) else "src/lib.rt"]
        for name in ["std", *(it for it in uses if it not in of_all)]:
            words += ["--extern", "%s=%s/rlibs/%s.rlib" % (name, kit, name)]
        words += ["-L", "dependency=%s/rlibs" % kit]
        for name in (it for it in uses if it in of_all):
            words += ["--extern", "%s=%s/%s.rlib" % (name, libraries[name], name)]
        for folder in libraries.values():
            words += ["-L", "dependency=" + folder]
        words += ["--antt-project", kit + "/rattle/logic/antt-project.json", "--logic-built", kit + "/logic_built"]
        return [*words, "--links", self.crate + "=", "--jobs", "1", "--incremental", self.work]

    def __call__(self, folder, members):
        """Checks the functions that these wrong bodies change, or the whole crate where one is in no function: what is
        printed."""
        if all(places for _, places in members):
            paths = sorted({path_of(folder, *it) for _, places in members for it in places})
            ran = check_only(self.words(), self.crate, folder, paths)
            if ran.returncode != 2:
                return ran.stdout
        return checked(self.words(), folder).stdout


def checked(words, folder):
    """Runs the prover in a copy of a crate's folder."""
    return subprocess.run(words, cwd=folder, stdout=subprocess.PIPE, stderr=subprocess.STDOUT, text=True)


def check_only(words, crate, folder, paths):
    """Checks some functions of a crate, in a copy of its folder, by the contracts of those that they call."""
    only = [word for it in paths for word in ("--only", it)]
    with taken_by_contract(crate, folder, paths):
        return checked([*words, "--allow-holes", "--short-goals", *only], folder)


def path_of(folder, module, owner, name):
    """A function's path as the prover takes it: a method has its type's module; one of a trait is had by its module."""
    if not owner:
        return "%s::%s" % (module, name)
    if not owner.isalnum():
        return module
    for at, _, files in os.walk(os.path.join(folder, "src")):
        for file in sorted(it for it in files if it.endswith(".rt")):
            path = os.path.join(at, file)
            with open(path) as text:
                if re.search(r"^\s*(pub(\(\w+\))? )?(struct|enum) %s\b" % owner, text.read(), re.MULTILINE):
                    module = os.path.relpath(path, os.path.join(folder, "src"))[: -len(".rt")].replace("/", "::")
    return "%s::%s::%s" % (module.removesuffix("::mod"), owner, name)


def tried(members, folder, check):
    """Checks a crate with these wrong bodies in place, and puts its text back: what is said of each, and which didn't fit
    beside the others."""
    aside, placed, late = folder + ".aside", [], []
    shutil.copytree(os.path.join(folder, "src"), aside)
    try:
        for edit, places in members:
            (placed if edit.apply(folder) else late).append((edit, places))
        printed = check(folder, placed)
    finally:
        shutil.rmtree(os.path.join(folder, "src"))
        os.rename(aside, os.path.join(folder, "src"))
    said = [(edit, *verdict(edit, places, printed)) for edit, places in placed]
    return said, [edit for edit, _ in late]


def edits_in(crate, folder):
    """The wrong bodies of a crate that are in a folder."""
    return [Edit(crate, os.path.join(folder, it)) for it in sorted(os.listdir(folder)) if it.endswith(".edit")]


def crate_tried(crate, folder, left, check):
    """Tries wrong bodies of a crate in a copy of its folder: how many are refused, how many only where a proof names
    what is gone, and how many not."""
    all_of_them = len(left)
    refused = by_name = 0
    while left:
        again, ended = [], 0
        sets = sets_of(left, folder)
        for members in sets:
            said, late = tried(members, folder, check)
            again += late
            for edit, what, why in said:
                is_alone = len(members) == 1
                if what == UNJUDGED and not is_alone:
                    again.append(edit)
                    continue
                ended += 1
                refused += what == REFUSED and why != ONLY_GONE
                by_name += what == REFUSED and why == ONLY_GONE
                what = BAD if what == UNJUDGED else what
                print("%s/%s: %s%s" % (crate, edit.name, what, why and " (%s)" % why), flush=True)
        if again and not ended:
            # none could be judged beside another one
            first, again = again[0], again[1:]
            said, _ = tried([(first, first.functions(folder))], folder, check)
            what, why = said[0][1:] if said else (BAD, "")
            refused += what == REFUSED and why != ONLY_GONE
            by_name += what == REFUSED and why == ONLY_GONE
            print("%s/%s: %s%s" % (crate, first.name, BAD if what == UNJUDGED else what, why and " (%s)" % why), flush=True)
        left = again
    return refused, by_name, all_of_them - refused - by_name


def without_work(keeping):
    """What a copy of the repository leaves out: the history, and what checks kept but the libraries, and one crate's work."""

    def ignored(folder, names):
        if os.path.basename(folder) == "out":
            kept = ("rlib", "incremental") if os.path.basename(os.path.dirname(folder)) == keeping else ("rlib",)
            return [name for name in names if name not in kept]
        return [name for name in names if name in (".git", "built")]

    return ignored


def copied(source, target):
    """Copies a file; one of a library is shared, since it is never changed in place."""
    if "/out/rlib/" in source:
        try:
            return os.link(source, target)
        except OSError:
            pass
    return shutil.copy2(source, target)


def tried_in_copy(crate):
    """Tries all wrong bodies of a crate but those of the gate, in a copy of its own."""
    crates = Crates()
    if crates.are_proved_below(crate):
        return tried_over_proved(crates, crate, edits_in(crate, os.path.join("crates", crate, "edits")))
    with tempfile.TemporaryDirectory() as place:
        root = os.path.join(place, "flowvault")
        shutil.copytree(".", root, ignore=without_work(crate), copy_function=copied)
        folder = os.path.join(root, "crates", crate)
        return crate_tried(crate, folder, edits_in(crate, os.path.join(folder, "edits")), check_kept)


def tried_over_proved(crates, crate, edits):
    """Tries wrong bodies of a crate over the libraries that `rt ci` left."""
    source = os.path.join("crates", crate)
    with tempfile.TemporaryDirectory() as place:
        folder, work = os.path.join(place, crate), os.path.join(place, "work")
        os.makedirs(work)
        for part in ("src", "specs", "proofs"):
            if os.path.isdir(os.path.join(source, part)):
                shutil.copytree(os.path.join(source, part), os.path.join(folder, part))
        return crate_tried(crate, folder, edits, OverProved(crates, crate, work))


def tried_in_gate(crate):
    """Tries the wrong bodies of a crate that the gate has: the status."""
    crates = Crates()
    if not crates.are_proved_below(crate):
        print("%s: `rt ci` hasn't left the libraries below, as they are now: ./verify in a clean clone does" % crate)
        return 1
    counts = tried_over_proved(crates, crate, edits_in(crate, os.path.join("crates", crate, "edits", "gate")))
    say_counts(*counts)
    return int(sum(counts[1:]) > 0)


def say_counts(refused, by_name, others):
    print("%d refused, %d only where a proof names what is gone, %d not refused" % (refused, by_name, others))


def main(names, lanes=1):
    if names[:1] == ["--gate"] and len(names) == 2:
        return tried_in_gate(names[1])
    all_names = sorted(it for it in os.listdir("crates") if os.path.isdir(os.path.join("crates", it, "edits")))
    for name in names:
        if name not in all_names:
            print("wrong_bodies: %s is no crate that has edits; these have: %s" % (name, " ".join(all_names)))
            return 2
    with concurrent.futures.ThreadPoolExecutor(lanes) as pool:
        counts = list(pool.map(tried_in_copy, names or all_names))
    refused, by_name, others = map(sum, zip(*counts))
    say_counts(refused, by_name, others)
    return int(others > 0)


if __name__ == "__main__":
    os.chdir(os.path.join(os.path.dirname(os.path.abspath(__file__)), ".."))
    sys.exit(main(sys.argv[1:]))
