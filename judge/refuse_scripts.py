"""refuse_scripts.py PLAYER REFUSE.SO [--every N] FILE..: plays files of scripts with requests for memory refused: each,
or one of N, one a run, until a run comes to none. What is refused by 11 is given once more (the way `memory` of
docs/SCRIPTS.md), and all answers are those that are wanted. Requests that are made to read the scripts may end a run
before it plays anything."""
import os
import re
import subprocess
import sys
import tempfile

PLAYED = re.compile(rb"([01]) given once more\n\d+ scripts, \d+ answers: 0 differ\n")


def ran(player, library, number, path, mark):
    """One run, whose request of this number is refused: how it ended, and whether it came to that request."""
    environment = {**os.environ, "LD_PRELOAD": library, "REFUSE": str(number), "REFUSED": mark}
    with open(path, "rb") as scripts:
        it = subprocess.run([player, "memory"], stdin=scripts, capture_output=True, timeout=60, env=environment)
    if not os.path.exists(mark):
        return it, False
    os.remove(mark)
    return it, True


def refused(player, library, path, every):
    """How many runs refused a request, and of how many of these something was given once more; or what went wrong."""
    runs, again, number = 0, 0, every
    with tempfile.TemporaryDirectory() as place:
        while True:
            it, is_refused = ran(player, library, number, path, os.path.join(place, "refused"))
            played = PLAYED.fullmatch(it.stdout)
            if played and it.returncode == 0:
                again += played[1] == b"1"
            elif again or it.returncode != 1 or it.stdout.count(b"\n") != 1:
                return "request %d: status %d, %s" % (number, it.returncode, (it.stdout + it.stderr).decode())
            if not is_refused:
                return (runs, again) if again else "nothing was given once more"
            runs, number = runs + 1, number + every


def main(words):
    every = 1
    if "--every" in words:
        at = words.index("--every")
        every = int(words[at + 1])
        del words[at:at + 2]
    player, library, *paths = words
    for path in paths:
        found = refused(os.path.abspath(player), os.path.abspath(library), path, every)
        if isinstance(found, str):
            sys.exit("%s: %s" % (path, found))
        print("%s: one of %d requests for memory refused in each of %d runs, %d times given once more: the same answers"
              % (path, every, *found), flush=True)


if __name__ == "__main__":
    main(sys.argv[1:])
