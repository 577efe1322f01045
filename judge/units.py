#!/usr/bin/env python3
"""units.py PROGRAM: has systemd-analyze verify the units of contrib/systemd, with PROGRAM as the program that they
start: each name of a unit, of a setting and of a value, and each program; what changes another unit, with that one. It
prints what systemd says, and ends with 'N units: M differ', where one differs of which anything is said. Its status is
0 where M is 0, else 1, and 77 where systemd isn't installed."""
import glob
import os
import shutil
import subprocess
import sys
import tempfile

TOP = os.path.abspath(os.path.join(os.path.dirname(os.path.abspath(__file__)), ".."))
UNITS = os.path.join(TOP, "contrib", "systemd")
INSTALLED, LIBRARY = "/usr/bin/flowvault", "/usr/local/lib/flowvault/"
NOT_RUN = 77

# A file that isn't a unit, and the one that it changes.
DROP_IN, CHANGED = "flowvault-udp-days.conf", "flowvault-udp@4739.service"


def instance_of(name):
    """The name of a unit, of a template one of port 4739."""
    return name.replace("@.", "@4739.")


def copied(path, place, name, program):
    """A copy of a unit, which starts the programs that are here."""
    os.makedirs(place, exist_ok=True)
    with open(path) as unit:
        text = unit.read().replace(INSTALLED, program).replace(LIBRARY, TOP + "/examples/")
    with open(os.path.join(place, name), "w") as copy:
        copy.write(text)


def main(program):
    if not shutil.which("systemd-analyze"):
        print("systemd isn't installed")
        return NOT_RUN
    program, differ, paths = os.path.abspath(program), 0, sorted(glob.glob(os.path.join(UNITS, "*.*")))
    with tempfile.TemporaryDirectory() as place:
        plain, changed = os.path.join(place, "plain"), os.path.join(place, "changed")
        for path in paths:
            for name in {os.path.basename(path), instance_of(os.path.basename(path))} - {DROP_IN}:
                copied(path, plain, name, program)
                copied(path, changed, name, program)
        copied(os.path.join(UNITS, DROP_IN), os.path.join(changed, CHANGED + ".d"), "days.conf", program)
        for path in paths:
            name = instance_of(os.path.basename(path))
            unit = os.path.join(changed, CHANGED) if name == DROP_IN else os.path.join(plain, name)
            ran = subprocess.run(["systemd-analyze", "verify", "--man=no", unit],
                                 stdout=subprocess.PIPE, stderr=subprocess.STDOUT, text=True, timeout=60)
            differ += int(bool(ran.returncode or ran.stdout))
            if ran.returncode or ran.stdout:
                print("%s: %s" % (name, ran.stdout))
    print("%d units: %d differ" % (len(paths), differ))
    return int(differ > 0)


if __name__ == "__main__":
    sys.exit(main(sys.argv[1]) if len(sys.argv) == 2 else print(__doc__) or 2)
