#!/usr/bin/env python3
"""Runs parts of `rt ci` for some crates and keeps what passed, for a kit whose `rt ci` takes no names.

    python3 bench/prove.py proof [--lanes N] [CRATE..]   proves these crates and those below them, or all, lowest first
    python3 bench/prove.py tests [--lanes N] CRATE..     proves the tests of these crates, and runs them
    python3 bench/prove.py edits [--lanes N] CRATE..     tries the wrong bodies of these crates
    python3 bench/prove.py check CRATE [rattle's flags]  checks one crate over those below as they were proved, and keeps its work
    python3 bench/prove.py stale                         names the crates that are not proved as they stand
    python3 bench/prove.py table                         prints what each part that passed took, in processor seconds, and the sums

Each part is what `rt ci` runs for it, from nothing, one processor a crate where several wait. What passed is kept in the crate's out/ under a sum of
the text of the crate and of all below it, and is not run again while that stays. It is no verdict on the whole: that is a plain `rt ci`."""

import contextlib
import hashlib
import os
import shutil
import subprocess
import sys
import time
from concurrent.futures import FIRST_COMPLETED, ThreadPoolExecutor, wait
from importlib.machinery import SourceFileLoader

KIT_BIN = os.path.dirname(os.path.realpath(shutil.which("rt")))
sys.path.insert(0, KIT_BIN)
rt = SourceFileLoader("rt", f"{KIT_BIN}/rt").load_module()
rtlib = rt.rtlib
ROOT = os.path.dirname(os.path.dirname(os.path.abspath(__file__)))


def crates_of(root):
    """The repository's crates, lowest first, set up as `rt ci` sets them up, over what earlier runs kept."""
    rtlib.stop, rtlib.Crate, rt.Crate.allowed = rt.stop, rt.Crate, rt.handles_of(root)
    rt.Crate.cuts_libraries = True
    made = rt.Crate.__init__

    def make(crate, *given, **named):
        made(crate, *given, **named)
        rt.read_files(crate)

    rt.Crate.__init__ = make
    rtlib.guarded()
    return rtlib.crates_below(root)


class Kept:
    """What passed of each crate, by a sum of its text and of all below."""

    def __init__(self):
        self.sums = {}

    def sum(self, crate):
        if crate.name not in self.sums:
            found = hashlib.sha256(repr(crate.said).encode())
            for file in rtlib.files_of(crate.folder):
                with open(file, "rb") as it:
                    found.update(repr((os.path.relpath(file, crate.folder), it.read())).encode())
            found.update(repr([self.sum(it) for it in crate.deps]).encode())
            self.sums[crate.name] = found.hexdigest()
        return self.sums[crate.name]

    def seconds(self, crate, part):
        """The processor seconds that a part took when it passed, or None where it has not passed as the text stands."""
        found = (rtlib.text_of(f"{crate.folder}/out/passed-{part}") or "").split()
        is_there = part != "proof" or crate.is_program or os.path.isdir(crate.rlib)
        return float(found[1]) if is_there and found[:1] == [self.sum(crate)] else None

    def has(self, crate, part):
        return self.seconds(crate, part) is not None

    def note(self, crate, part, seconds):
        with open(f"{crate.folder}/out/passed-{part}", "w", encoding="utf-8") as it:
            it.write(f"{self.sum(crate)} {seconds:.1f}\n")


def say(text):
    print(time.strftime("%H:%M:%S"), text, flush=True)


def proved(crate, jobs):
    return not rtlib.fmt(crate.folder, "--check", crate.out) and not crate.ci(["--jobs", str(jobs)], False)


def tested(crate, jobs):
    return not crate.has_tests() or (not crate.ci(["--jobs", str(jobs)], True) and rt.run(crate, True, ""))


def refused(crate, _):
    good, bad = rt.edits_of(crate)
    tried = rt.must_fail_all(crate, good, ["--jobs", "1"])
    for _, text in tried:
        print(text, file=crate.out)
    return not bad and all(well for well, _ in tried)


PARTS = {"proof": proved, "tests": tested, "edits": refused}


def passes(kept, crate, part, jobs):
    """Runs a part of a crate in a process of its own, tells how it went and what it took, and keeps it where it passed."""
    if kept.has(crate, part):
        return True
    began, log = time.time(), f"{crate.folder}/out/{part}.log"
    os.makedirs(f"{crate.folder}/out", exist_ok=True)
    with open(log, "w", encoding="utf-8") as out:
        ran = subprocess.Popen([sys.executable, __file__, "one", part, crate.name, str(jobs)], stdout=out, stderr=subprocess.STDOUT)
        _, status, used = os.wait4(ran.pid, 0)
    seconds = used.ru_utime + used.ru_stime
    told = "FAILED, see " + log if status else "passed"
    say(f"{crate.name}: {part} {told} in {time.time() - began:.0f} s, {seconds:.0f} s of processors")
    if not status:
        kept.note(crate, part, seconds)
    return not status


def run_one(crate, part, jobs):
    """Runs a part of a crate in this process."""
    crate.out = sys.stdout
    with contextlib.suppress(SystemExit):
        return PARTS[part](crate, jobs)
    return False


def table(kept, crates):
    """Prints what each part that passed took."""
    sums = dict.fromkeys(PARTS, 0)
    print(f"{'crate':24}" + "".join(f"{it:>8}" for it in PARTS))
    for crate in crates:
        found = {it: kept.seconds(crate, it) for it in PARTS}
        print(f"{crate.name:24}" + "".join(f"{'-' if it is None else round(it):>8}" for it in found.values()))
        sums = {it: sums[it] + (found[it] or 0) for it in PARTS}
    print(f"{'processor minutes':24}" + "".join(f"{it / 60:8.0f}" for it in sums.values()))


def with_below(crates, names):
    wanted = [it for it in crates if not names or it.name in names]
    return [it for it in crates if it in wanted or any(it in above.below() for above in wanted)]


def prove(kept, crates, lanes):
    """Proves crates side by side, each behind those below it, and first those with the most text that waits for them."""
    ended = {it.name: True for it in crates if kept.has(it, "proof")}
    left = [it for it in crates if it.name not in ended]
    lines = {it.name: it.count(rb"\n") for it in left}
    waiting = {it.name: sum(lines[above.name] for above in left if it in above.below()) for it in left}
    left.sort(key=lambda it: -waiting[it.name] - lines[it.name])
    running = {}
    with ThreadPoolExecutor(lanes) as pool:
        while left or running:
            ready = [it for it in left if all(ended.get(below.name, below not in crates) for below in it.below())]
            idle = lanes - sum(jobs for _, jobs in running.values())
            for at, crate in enumerate(ready[:idle]):
                left.remove(crate)
                jobs = max(1, min(4, (idle - at) // (len(ready) - at)))
                running[pool.submit(passes, kept, crate, "proof", jobs)] = crate, jobs
            if not running:
                break
            for it in wait(running, return_when=FIRST_COMPLETED).done:
                ended[running.pop(it)[0].name] = it.result()
    for it in left:
        say(f"{it.name}: not proved, since a crate below is not")
    return not left and all(ended.values())


def check(kept, crate, flags):
    """Checks a crate over those below it as they were proved."""
    lacking = [it.name for it in crate.below() if not kept.has(it, "proof")]
    if lacking:
        rtlib.stop(f"prove these first: {' '.join(lacking)}")
    os.chdir(crate.folder)
    os.makedirs("out", exist_ok=True)
    crate.out = sys.stdout
    return crate.call(rtlib.RATTLE, "check", *crate.words(flags or ["--jobs", "1"]), *rtlib.KEPT, "--progress") == 0


def main(verb="", *words):
    words = list(words)
    if verb not in (*PARTS, "check", "stale", "table", "one"):
        sys.exit(__doc__)
    os.chdir(ROOT)
    lanes = int(words.pop(words.index("--lanes") + 1)) if "--lanes" in words else len(os.sched_getaffinity(0))
    words = [it for it in words if it != "--lanes"]
    crates, kept = crates_of(ROOT), Kept()
    if verb == "stale":
        print(" ".join(it.name for it in crates if not kept.has(it, "proof")))
        return True
    if verb == "table":
        table(kept, crates)
        return True
    if verb == "one":
        return run_one(next(it for it in crates if it.name == words[1]), words[0], int(words[2]))
    if verb == "check":
        return check(kept, next(it for it in crates if it.name == words[0]), words[1:])
    if not prove(kept, with_below(crates, words), lanes):
        return False
    with ThreadPoolExecutor(lanes) as pool:
        named = [it for it in crates if it.name in words] * (verb != "proof")
        return all([*pool.map(lambda it: passes(kept, it, verb, 1), named)])


if __name__ == "__main__":
    sys.exit(0 if main(*sys.argv[1:]) else 1)
