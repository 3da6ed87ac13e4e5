"""Tries the wrong bodies that the gate does not try, each of which the prover must refuse.

    python3 wrong_bodies.py [CRATE..]

wrong_bodies/CRATE/ has them, in the form of those of crates/CRATE/must-fail. They are put into a clone of the last commit, in the place of the
gate's own, and `rt must-fail` tries them there, a crate at a time, beginning with what `rt check` kept in other clones on this machine. It prints
what `rt` says of each, and how many were refused; the status is 1 where one was not."""

import pathlib
import re
import shutil
import subprocess
import sys
import tempfile

HERE = pathlib.Path(__file__).resolve().parent
EDITS = HERE / "wrong_bodies"
VERDICT = re.compile(r"must-fail \S+\.edit: (refused|[A-Z]+)")


def wanted(names):
    """The crates to try: those named, or all that have edits here."""
    found = sorted(it.name for it in EDITS.iterdir() if it.is_dir())
    lacking = [it for it in names if it not in found]
    if lacking:
        sys.exit(f"no wrong bodies of {lacking[0]}: there are those of {' '.join(found)}")
    return names or found


def put(clone, crate):
    """Puts the edits of a crate into the clone, in the place of the gate's own, and returns how many they are."""
    to = clone / "crates" / crate / "must-fail"
    shutil.rmtree(to, ignore_errors=True)
    shutil.copytree(EDITS / crate, to)
    return len(list(to.glob("*.edit")))


def refused(clone, crate):
    """Tries the edits of a crate, and returns how many were refused."""
    ran = subprocess.run(["rt", "must-fail", crate], cwd=clone, stdout=subprocess.PIPE, stderr=subprocess.STDOUT, text=True)
    told = [line for line in ran.stdout.splitlines() if VERDICT.search(line)]
    print("\n".join(told or ran.stdout.splitlines()[-5:]), flush=True)
    return sum(VERDICT.search(line)[1] == "refused" for line in told)


def main(names):
    crates = wanted(names)
    with tempfile.TemporaryDirectory() as room:
        clone = pathlib.Path(room) / "clone"
        subprocess.run(["git", "clone", "-q", str(HERE.parent), str(clone)], check=True)
        tried = [(put(clone, crate), refused(clone, crate)) for crate in crates]
    edits, well = (sum(it) for it in zip(*tried))
    print(f"{edits} wrong bodies of {len(crates)} crates: {well} refused")
    return well != edits


if __name__ == "__main__":
    sys.exit(main(sys.argv[1:]))
