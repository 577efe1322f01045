#!/usr/bin/env python3
"""handed_over.py PROGRAM: tries what hands the program over, in a copy of the sources with a release/ of PROGRAM, and
without the kit:

- `./flowvault` unpacks the released program and runs it, within 2 seconds; a second call only runs it; where one octet
  of a source, or of a file of release/, is changed, it doesn't run it, and says so;
- `./flowvault --prove` proves and builds the program by one call of `rt ci`, in a copy of the crates that it uses and
  no others, and takes over what was built; it says which crate isn't proved, and ends rt then; however it is ended,
  nothing half made and no process is left; a program whose sources are changed meanwhile isn't run as one of these (all
  with a script in the place of rt);
- `./renew-release` makes a release of programs that stand for the built ones, twice the same, and none where one isn't
  built, or a source was changed since;
- `./package` makes the same packages twice; each is unpacked, and cases are played on the program in it. (The .deb only
  where there is dpkg-deb.)

It prints each difference, and ends with 'N cases of the release: M differ'; its status is 0 where M is 0, else 1."""
import filecmp
import glob
import os
import shutil
import signal
import subprocess
import sys
import tempfile
import time

NAMES = ("flowvault", "flow_replay")
LINE = "1699999800 7 6 1 1500 10\n"
CASES = "cases/messages.txt"
SECONDS = 2

# A program in the place of the built ones: it prints the version that it was built with.
STAND_IN = "#!/bin/sh\necho 'flowvault 1.9.7 (sources %s)'\n"

# A script in the place of the kit's rt: it notes how it was called, and in what, begins two crates and proves one. Then
# it does what the file `does` beside it has, while a process of its own runs.
RT = r"""#!/bin/sh
here=$(dirname "$0")
{
    echo "rt $* by $RT_JOBS"
    echo crates/*
    sed 's/:.*//' crates.txt | LC_ALL=C sort | tr '\n' ' '
    ls -d .git HANDLES crates/*/out crates/*/edits crates/flow_cli/stdout 2>/dev/null
} >>"$here/calls"
[ "$*" = ci ] || exit 2
mkdir crates/flow_disk/out crates/flow_codec/out
printf '== flow_disk\nnote: no error of flow_disk\nrt: flow_disk proved\n'
sleep 300 &
echo $! >"$here/beside"
# (as all that rt started ends with it)
(while kill -0 $$ 2>/dev/null; do sleep 0.1; done; kill "$(cat "$here/beside")") &
. "$here/does"
"""

# What it does where all is proved; where a crate isn't; and where that takes long.
PROVED = """mkdir -p crates/flow_cli/out && cp "$here/built" crates/flow_cli/out/flow_cli
printf 'rt: flow_cli proved\n26 passed, 0 failed\n'
"""
NOT_PROVED = """printf '== flow_codec\nfn flow_codec::window::next: no proof\nrt: flow_codec NOT PROVED\n'
exec sleep 100
"""
LONG = "exec sleep 100\n"

# By which signals a process is ended.
SIGNALS = (signal.SIGHUP, signal.SIGINT, signal.SIGPIPE, signal.SIGTERM)


def heed_signals():
    """Has a process end by these signals, also where whoever runs this ignores them."""
    for it in SIGNALS:
        signal.signal(it, signal.SIG_DFL)


def without_work(folder, names):
    """What the copy leaves out."""
    return [it for it in names if it in (".git", "out", "built", "packages", "release", "edits")]


class Trial:
    """A copy of the sources, with a release of a program."""

    def __init__(self, program, place):
        self.program, self.place, self.top, self.cases, self.found = program, place, os.path.join(place, "copy"), 0, []
        shutil.copytree(".", self.top, ignore=without_work, copy_function=shutil.copy)
        # (the kit's command rt isn't there, wherever it is)
        self.environment = {**os.environ, "RT": self.path("nowhere", "rt"), "SOURCE_DATE_EPOCH": "1700000000"}

    def ran(self, *words, **more):
        return subprocess.run(words, cwd=self.top, env={**self.environment, **more}, stdin=subprocess.DEVNULL,
                              capture_output=True, text=True, timeout=120)

    def compare(self, what, wanted, came):
        self.cases += 1
        if wanted != came:
            self.found.append("%s: wanted %s, came %s" % (what, wanted, came))

    def path(self, *names):
        return os.path.join(self.top, *names)

    # -- release/ and ./flowvault --

    def release(self):
        """A release of the program, which is in the place of the other two too."""
        shutil.rmtree(self.path("release"), ignore_errors=True)
        os.mkdir(self.path("release"))
        unpacked = os.path.join(self.place, "unpacked")
        shutil.rmtree(unpacked, ignore_errors=True)
        os.mkdir(unpacked)
        for name in NAMES:
            shutil.copy(self.program, os.path.join(unpacked, name))
            with open(self.path("release", name + ".gz"), "wb") as file:
                subprocess.run(["gzip", "-1nc", self.program], stdout=file, check=True)
        self.write("release/KIT", "none\n")
        self.write("release/SOURCES", self.ran("judge/sources.sh").stdout)
        self.write("release/SHA256SUMS", self.ran("judge/unpack.sh", "--sums", unpacked).stdout)

    def write(self, path, text):
        with open(self.path(path), "w") as file:
            file.write(text)

    def measured(self):
        """What ./flowvault answers, where nothing is built: status, standard output and standard error."""
        shutil.rmtree(self.path("built"), ignore_errors=True)
        return self.again()

    def again(self):
        with open("examples/plain.ipfix", "rb") as file:
            it = subprocess.run(["./flowvault", "measure", "300"], cwd=self.top, env=self.environment, stdin=file,
                                capture_output=True, timeout=120)
        return it.returncode, it.stdout.decode(), it.stderr.decode()

    def change(self, path):
        """Changes an octet in the middle of a file, and answers what puts it back."""
        with open(self.path(path), "rb") as file:
            octets = file.read()
        at = len(octets) // 2
        # (a file in a text stays a text)
        with open(self.path(path), "wb") as file:
            file.write(octets[:at] + bytes([octets[at] ^ 1]) + octets[at + 1 :])

        def put_back():
            with open(self.path(path), "wb") as file:
                file.write(octets)

        return put_back

    def run_at_once(self):
        self.release()
        took = []
        for _ in range(3):
            began = time.monotonic()
            came = self.measured()
            took.append(time.monotonic() - began)
        unpacked = "flowvault: unpacked the program of release/, which is of these sources; later calls only run it\n"
        self.compare("the first call", (0, LINE, unpacked), came)
        self.compare("its time", True, min(took) < SECONDS)
        self.compare("the second call", (0, LINE, ""), self.again())
        for path in ("crates/flow_codec/src/window.rt", "crates/flow_replay/src/main.rt", "crates.txt", "HANDLES"):
            # (as it is once built, and where nothing is built)
            put_back = self.change(path)
            for came in (self.again(), self.measured()):
                self.compare("an octet of %s" % path, (125, ""), came[:2])
                self.compare("an octet of %s is reported" % path, True, "release/ isn't of these sources" in came[2])
            put_back()
        self.compare("no change is left", (0, LINE), self.measured()[:2])
        for path in sorted(os.listdir(self.path("release"))):
            put_back = self.change("release/" + path)
            status, out, err = self.measured()
            wanted = "release/ isn't " + ("of these sources" if path == "SOURCES" else "as its SHA256SUMS has it")
            self.compare("an octet of release/%s" % path, (125, ""), (status, out))
            self.compare("an octet of release/%s is reported" % path, True, wanted in err)
            put_back()
        shutil.rmtree(self.path("release"))
        self.compare("no release", (125, ""), self.measured()[:2])

    # -- ./flowvault --prove --

    def proves(self, does):
        """Has the script in the place of rt do this, and nothing built."""
        shutil.rmtree(self.path("built"), ignore_errors=True)
        self.write("kit/does", does)
        self.write("kit/calls", "")

    def begun(self, *words):
        """A call of ./flowvault by that script, and what it printed, once it ends."""
        more = {**self.environment, "RT": self.path("kit", "rt"), "TMPDIR": self.path("kit", "tmp")}
        more.pop("RT_JOBS", None)
        with open("examples/plain.ipfix", "rb") as file:
            return subprocess.Popen(["./flowvault", *words], cwd=self.top, env=more, stdin=file, text=True,
                                    stdout=subprocess.PIPE, stderr=subprocess.PIPE, preexec_fn=heed_signals)

    def proved(self):
        """What `./flowvault --prove measure 300` answers, on the sample."""
        call = self.begun("--prove", "measure", "300")
        out, err = call.communicate(timeout=120)
        return call.returncode, out, err

    def text(self, *names):
        with open(self.path(*names)) as file:
            return file.read()

    def nothing_left(self, what):
        """Holds that no copy, nothing half made and no process is left, soon."""
        found = None
        for _ in range(50):
            names = os.listdir(self.path("kit", "tmp")) + [it for it in os.listdir(self.path("built")) if "." in it]
            found = names + [it for it in (self.text("kit", "beside").strip(),) if os.path.exists("/proc/" + it)]
            if not found:
                break
            time.sleep(0.2)
        self.compare(what + ": what is left", [], found)

    def prove(self):
        self.release()
        for names in (("kit", "tmp"), ("crates", "flow_disk", "out"), ("crates", "flow_disk", "edits")):
            os.makedirs(self.path(*names))
        self.write("kit/rt", RT)
        os.chmod(self.path("kit", "rt"), 0o755)
        shutil.copy(self.program, self.path("kit", "built"))
        self.prove_well()
        self.prove_badly()
        self.prove_and_end()
        self.prove_what_changes()

    def prove_well(self):
        self.proves(PROVED)
        status, out, err = self.proved()
        crates = sorted(self.ran("judge/sources.sh", "--crates", "flow_cli").stdout.split())
        words = (int(self.ran("judge/lanes.py").stdout), " ".join("crates/" + it for it in crates), " ".join(crates))
        calls = "rt ci by %d\n%s\n%s .git\nHANDLES\ncrates/flow_cli/stdout\n" % words
        self.compare("--prove", (0, LINE), (status, out))
        self.compare("one call of rt", calls, self.text("kit", "calls"))
        self.compare("--prove says of octets", True, "flowvault: its octets are those of release/\n" in err)
        self.nothing_left("--prove")
        self.compare("the call after --prove", (0, LINE, ""), self.again())
        self.write("kit/built", STAND_IN % ("0" * 12))
        os.chmod(self.path("kit", "built"), 0o755)
        self.compare("other octets", True, "its octets aren't those of release/" in self.proved()[2])
        shutil.copy(self.program, self.path("kit", "built"))

    def prove_badly(self):
        self.proves(NOT_PROVED)
        began = time.monotonic()
        status, out, err = self.proved()
        self.compare("not proved", (125, ""), (status, out))
        self.compare("it isn't waited for others", True, time.monotonic() - began < 90)
        why = "the crate flow_codec isn't proved:\n    fn flow_codec::window::next: no proof\n"
        self.compare("the reason is shown", True, why in err and "no error of flow_disk" not in err)
        self.compare("all is in built/log", True, "flow_disk proved" in self.text("built", "log"))
        self.nothing_left("not proved")
        self.proves("exit 2\n")
        self.compare("rt stops", 125, self.proved()[0])
        self.nothing_left("rt stops")

    def prove_and_end(self):
        for number in (signal.SIGKILL, *SIGNALS):
            self.proves(LONG)
            call = self.begun("--prove", "measure", "300")
            for _ in range(600):
                if self.text("kit", "calls").endswith("stdout\n"):
                    break
                time.sleep(0.1)
            time.sleep(0.2)
            call.send_signal(number)
            err = call.communicate(timeout=60)[1]
            self.compare(number.name, (-number, True), (call.returncode, "0 of " in err or "1 of " in err))
            self.nothing_left(number.name)
        self.proves(LONG)
        call = self.begun("--prove", "measure", "300")
        call.stderr.close()
        self.compare("nobody reads what it says", -signal.SIGPIPE, call.wait(timeout=60))
        self.nothing_left("nobody reads what it says")

    def prove_what_changes(self):
        """A source that is changed while all is proved: the program isn't of these sources then."""
        path = "crates/flow_codec/src/window.rt"
        self.proves("printf ' ' >>\"$here/../%s\"\n%s" % (path, PROVED))
        was = self.text(path)
        self.proved()
        self.write("kit/does", "exit 2\n")
        call = self.begun("measure", "300")
        call.communicate(timeout=120)
        self.compare("a source that is changed meanwhile", 125, call.returncode)
        self.write(path, was)

    # -- ./renew-release --

    def renewed(self):
        return self.ran("./renew-release", RT=self.path("rt")).returncode

    def build(self, text):
        """Puts programs at the places of built ones."""
        for name in ("flow_cli", "flow_replay"):
            os.makedirs(self.path("crates", name, "out"), exist_ok=True)
            self.write("crates/%s/out/%s" % (name, name), text)
            os.chmod(self.path("crates", name, "out", name), 0o755)

    def octets(self):
        """The octets of release/, by name."""
        found = {}
        for path in glob.glob(self.path("release", "*")):
            with open(path, "rb") as file:
                found[os.path.basename(path)] = file.read()
        return found

    def renew(self):
        self.write("rt", "#!/bin/sh\necho a kit\n")
        os.chmod(self.path("rt"), 0o755)
        digits = self.ran("judge/sources.sh").stdout[:12]
        self.compare("what isn't built isn't released", 1, self.renewed())
        self.compare("a stamp", 0, self.ran("./renew-release", "--stamp").returncode)
        self.compare("a stamp is no change", digits, self.ran("judge/sources.sh").stdout[:12])
        self.build(STAND_IN % digits)
        self.compare("a release", 0, self.renewed())
        first = self.octets()
        self.build(STAND_IN % digits)
        self.compare("a second release", (0, True), (self.renewed(), first == self.octets()))
        wanted = ["KIT", "SHA256SUMS", "SOURCES", *(it + ".gz" for it in NAMES)]
        self.compare("its files", sorted(wanted), sorted(first))
        self.build(STAND_IN % ("0" * 12))
        self.compare("a program of other sources", 1, self.renewed())
        self.build(STAND_IN % digits)
        put_back = self.change("crates/flow_disk/src/lib.rt")
        self.compare("a source that is changed", 1, self.renewed())
        self.ran("./renew-release", "--stamp")
        self.compare("a program that was built before", 1, self.renewed())
        put_back()

    # -- ./package --

    def play(self, what, program):
        ran = subprocess.run([sys.executable, "cases/play.py", program, CASES], capture_output=True, text=True)
        self.compare(what + ": cases", (0, ""), (ran.returncode, "".join(ran.stdout.splitlines(True)[:-1])))

    def package(self):
        self.release()
        folders = [os.path.join(self.place, name) for name in ("first", "second")]
        for folder in folders:
            it = self.ran("./package", folder)
            self.compare("./package", (0, ""), (it.returncode, it.stderr))
        names = sorted(os.listdir(folders[0]))
        same = filecmp.cmpfiles(*folders, names, shallow=False)[0]
        self.compare("packages that are made twice", names, sorted(same))
        for name in names:
            unpacked = os.path.join(self.place, "of_" + name)
            os.mkdir(unpacked)
            if name.endswith(".deb"):
                words, program = ["dpkg-deb", "-x", os.path.join(folders[0], name), unpacked], "usr/bin/flowvault"
            else:
                words, program = ["tar", "-C", unpacked, "-xf", os.path.join(folders[0], name)], "*/flowvault"
            self.compare(name, 0, subprocess.run(words).returncode)
            found = glob.glob(os.path.join(unpacked, program))
            self.compare(name + ": its program", 1, len(found))
            for path in found:
                self.play(name, path)
        self.compare("as many packages as there are ways", 2 if shutil.which("dpkg-deb") else 1, len(names))


def main(program):
    os.chdir(os.path.join(os.path.dirname(os.path.abspath(__file__)), ".."))
    with tempfile.TemporaryDirectory() as place:
        trial = Trial(program, place)
        trial.run_at_once()
        trial.prove()
        trial.package()
        trial.renew()
    for line in trial.found:
        print(line)
    print("%d cases of the release: %d differ" % (trial.cases, len(trial.found)))
    return int(bool(trial.found))


if __name__ == "__main__":
    sys.exit(main(os.path.abspath(sys.argv[1])) if len(sys.argv) == 2 else print(__doc__) or 2)
