"""What `rt ci` costs, crate by crate, in processor seconds.

    python3 bench/gate.py run RECORDS [NAME..]                    starts `rt ci NAME..`, watches it, and prints the table
    python3 bench/gate.py watch RECORDS                           watches each `rt ci` that begins within an hour, until none runs, and does so too
    python3 bench/gate.py table RECORDS [--last N] [--paid]       prints the table of what was watched

RECORDS is a file that grows by a line for each check that ended and for each run, so that several runs, with names or without, go into one table:
of each part of a crate the newest run that did it counts. With `--last` only the N last runs count, which is what a landing cost; with `--paid` all
that they did. A part is the proof, the tests, the base of the wrong bodies (with its second check once they are tried), or a wrong body.

Seconds are those of a check and of all that it started, as they stood at most a third of a second before it ended. What is left of a run's own count
is 'the rest': compilers, linkers, programs and tests that ran, those last moments, and what ended before the watching began."""

import collections
import json
import os
import re
import subprocess
import sys
import time

EVERY = 0.3
PATIENCE = 3600
TICKS = os.sysconf("SC_CLK_TCK")
PAGE = os.sysconf("SC_PAGE_SIZE")
TOP = os.path.dirname(os.path.dirname(os.path.abspath(__file__)))
KINDS = {"proof": "proofs", "tests": "crates of tests", "base": "bases of wrong bodies", "edit": "wrong bodies"}
Process = collections.namedtuple("Process", "state parent began seconds memory")


def speed():
    """Processor seconds of ten million turns of a loop, which tell one machine from another."""
    began, total = time.process_time(), 0
    for turn in range(10_000_000):
        total += turn
    return round(time.process_time() - began, 2)


def processes():
    """Each process by its number, with the seconds of it and of those that it waited for, and those that it started."""
    found, below = {}, collections.defaultdict(list)
    for name in os.listdir("/proc"):
        if name.isdigit():
            try:
                with open(f"/proc/{name}/stat", errors="replace") as it:
                    part = it.read().rpartition(")")[2].split()
            except OSError:
                continue
            took = sum(int(it) for it in part[11:15]) / TICKS
            found[int(name)] = Process(part[0], int(part[1]), int(part[19]) / TICKS, took, int(part[21]) * PAGE)
            below[int(part[1])].append(int(name))
    return found, below


def words_of(number):
    try:
        with open(f"/proc/{number}/cmdline", errors="replace") as it:
            return it.read().split("\0")[:-1]
    except OSError:
        return []


def names_of(number):
    """The words of a process after `rt ci`, or None where it is another."""
    words = words_of(number)
    at = next((at for at, it in enumerate(words[:2]) if os.path.basename(it) == "rt"), len(words))
    return words[at + 2 :] if words[at + 1 : at + 2] == ["ci"] else None


def part_of(number):
    """What a process checks: its crate, the part of it, and the number of the wrong body. None where it is no check, or none yet."""
    words = words_of(number)
    if os.path.basename(words[0] if words else "") != "rattle" or words[1] not in ("check", "build") or "--crate-checked" in words:
        return None
    try:
        folder = os.path.basename(os.readlink(f"/proc/{number}/cwd"))
    except OSError:
        return None
    # (words that are read while a process turns into another may be cut)
    if "--crate-name" not in words[:-1]:
        return None
    crate = words[words.index("--crate-name") + 1]
    if not folder.startswith("rt-edit-"):
        return crate, "tests" if "--test" in words else "proof", None
    over = os.path.basename(words[words.index("--incremental") + 1]) if "--incremental" in words else ""
    return crate, "base" if over == "seed" else "edit", int(over) if over.isdigit() else None


class Gate:
    """One run of `rt ci`, and the checks of it that go on."""

    def __init__(self, number, began, names, records):
        self.number, self.began, self.records, self.checks, self.seconds, self.wall = number, began, records, {}, 0, 0
        self.name = f"{time.strftime('%F %T')} {number}"
        self.note(run=self.name, names=names, processors=len(os.sched_getaffinity(0)), loop=speed())

    def note(self, **line):
        with open(self.records, "a", encoding="utf-8") as it:
            it.write(json.dumps(line) + "\n")

    def look(self, found, below, now):
        """Notes what each check has taken by now, and which of them ended."""
        self.seconds, self.wall = found[self.number].seconds, now - self.began
        for child in below[self.number]:
            key = child, found[child].began
            part = self.checks[key]["part"] if key in self.checks else part_of(child)
            if part:
                tree = [child]
                for it in tree:
                    tree += below[it]
                check = self.checks.setdefault(key, {"part": part, "seconds": 0, "memory": 0})
                check["seconds"] = max(check["seconds"], sum(found[it].seconds for it in tree))
                check["memory"] = max(check["memory"], sum(found[it].memory for it in tree))
                check["wall"] = now - found[child].began
        for key in [it for it in self.checks if it[0] not in found or found[it[0]].began != it[1]]:
            self.end(self.checks.pop(key))

    def end(self, check):
        crate, kind, number = check["part"]
        took = {"seconds": round(check["seconds"], 2), "wall": round(check["wall"], 1), "memory": check["memory"]}
        self.note(of=self.name, crate=crate, kind=kind, number=number, **took)

    def close(self):
        for check in self.checks.values():
            self.end(check)
        self.note(ended=self.name, seconds=round(self.seconds, 1), wall=round(self.wall, 1), loop=speed())


def watch(records, only=None):
    """Watches until no run is left, and waits an hour for the first."""
    gates, until = {}, time.time() + PATIENCE
    try:
        while gates or time.time() < until:
            (found, below), now = processes(), time.clock_gettime(time.CLOCK_BOOTTIME)
            if only and not gates and (only not in found or found[only].state == "Z"):
                break
            for number in [only] if only else found:
                names = names_of(number)
                if names is not None and number not in gates:
                    gates[number], until = Gate(number, found[number].began, names, records), 0
            for it in list(gates.values()):
                goes_on = it.number in found and found[it.number].began == it.began
                if goes_on:
                    it.look(found, below, now)
                if not goes_on or found[it.number].state == "Z":
                    gates.pop(it.number).close()
            time.sleep(EVERY)
    finally:
        for it in gates.values():
            it.close()


def read(records, last):
    """The runs and the checks of a file of records."""
    with open(records, encoding="utf-8") as it:
        lines = [json.loads(line) for line in it]
    runs = {it["run"]: {**it, "order": at} for at, it in enumerate(lines) if "run" in it}
    for it in lines:
        if "ended" in it:
            runs[it["ended"]].update(seconds=it["seconds"], wall=it["wall"], loops=[runs[it["ended"]]["loop"], it["loop"]])
    for name in list(runs)[: -last or None] if last else []:
        del runs[name]
    return runs, [it for it in lines if it.get("of") in runs]


def newest(runs, checks):
    """Of each part those checks that the newest run with it made. A wrong body that is no longer there falls out."""
    part = lambda it: (it["crate"], it["kind"], it["number"])
    latest = {}
    for it in checks:
        latest[part(it)] = max(latest.get(part(it), 0), runs[it["of"]]["order"])
    folder = lambda crate: f"{TOP}/crates/{crate}/must-fail"
    there = {it["crate"]: sum(name.endswith(".edit") for name in os.listdir(folder(it["crate"]))) for it in checks if os.path.isdir(folder(it["crate"]))}
    return [it for it in checks if runs[it["of"]]["order"] == latest[part(it)] and (it["number"] is None or it["number"] < there.get(it["crate"], 0))]


def rests(runs, checks):
    """The seconds of each run that ended which belong to no check."""
    named = collections.Counter()
    for it in checks:
        named[it["of"]] += it["seconds"]
    return [max(it["seconds"] - named[name], 0) for name, it in runs.items() if "seconds" in it]


def table(records, last=0, is_paid=False):
    """Prints a row for each crate, the dearest first, and what all come to."""
    runs, every = read(records, last)
    checks = every if is_paid or last else newest(runs, every)
    crates, memory = collections.defaultdict(lambda: collections.defaultdict(list)), collections.Counter()
    for it in checks:
        crates[it["crate"]][it["kind"]].append(it["seconds"])
        memory[it["crate"]] = max(memory[it["crate"]], it["memory"] / 2**30)
    sums = {crate: sum(map(sum, kinds.values())) for crate, kinds in crates.items()}
    print("| Crate | Proof | Tests | Base | Edits | Sum | GiB |\n|---|---|---|---|---|---|---|")
    for crate in sorted(crates, key=sums.get, reverse=True):
        kinds, edits = crates[crate], crates[crate]["edit"]
        row = [f"{sum(kinds[it]):.0f}" if kinds[it] else "" for it in ("proof", "tests", "base")]
        row.append(f"{len(edits)} x {sum(edits) / len(edits):.0f}" if edits else "")
        print(f"| {crate} | {' | '.join(row)} | {sums[crate]:,.0f} | {memory[crate]:.1f} |")
    minutes = lambda took: f"{took / 60:.1f}"
    parts = [f"{text} {minutes(sum(sum(it[kind]) for it in crates.values()))}" for kind, text in KINDS.items()]
    # (each run compiles and runs again, so the rest of one is what a run from nothing has)
    rest = (sum if is_paid or last else max)(rests(runs, every) or [0])
    print(f"\nProcessor minutes: {minutes(sum(sums.values()) + rest)}. {', '.join(parts)}, the rest {minutes(rest)}.")
    for it in runs.values():
        took = f"{it['wall'] / 60:.0f} minutes by the clock, {minutes(it['seconds'])} of processors" if "seconds" in it else "its end was not seen"
        loops = " to ".join(f"{loop:.2f}" for loop in sorted({*it.get("loops", [it["loop"]])}))
        print(f"rt ci {' '.join(it['names'])}, {it['run']}: {took}; {it['processors']} processors, ten million turns of a Python loop take {loops} s")


def main(words):
    verb, records, *rest = words if len(words) > 1 else ["", ""]
    if verb == "run":
        started = subprocess.Popen(["rt", "ci", *rest])
        watch(records, started.pid)
        table(records, last=1)
        return started.wait()
    if verb == "watch":
        watch(records)
        table(records)
    elif verb == "table":
        table(records, int(rest[rest.index("--last") + 1]) if "--last" in rest else 0, "--paid" in rest)
    else:
        print(__doc__)
        return 2
    return 0


if __name__ == "__main__":
    sys.exit(main(sys.argv[1:]))
