#!/usr/bin/env python3
"""Ends runs that migrate a folder of the first format by `kill -9` at random moments.

usage: kill_migration.py PROGRAM ZITILOOK [MOMENTS [IDENTITIES [SEED]]]

The runs are `replay` without input, `replay` with commands, and `compact`, by turns. Of each two stops of one, the first comes at any moment of
the whole run, the second behind the making of the other slot, most often soon. Whatever format the folder then has, it must be shipped as the very
rows that it had, behind them the changes of the first commands, of each that was answered and of at most one more, and `audit` must count them.
Of each 20th folder `zitilook` must name each record. Where a stop fell within the migration, and behind each fourth stop, a run without input
migrates the folder, if none did, or compacts it: the rows stay.
"""

import collections
import os
import random
import shutil
import struct
import subprocess
import sys
import tempfile
import time

import frames
import old_folders

SERVICES = 512
ATTRIBUTES = [f"{k:064}" for k in range(4096)]
EACH = 40
COMMANDS = 40
WORDS = ["replay", "replay with commands", "compact"]
PATIENCE = 60


def first_batches(identities):
    """The rows that each batch of the folder puts: identities and services one by one, and a policy by which the first may dial all."""
    batches = []
    for i in range(1, identities + 1):
        own = [ATTRIBUTES[(EACH * i + k) % len(ATTRIBUTES)] for k in range(EACH)]
        batches.append(old_folders.made(old_folders.IDENTITY, i, f"identity-{i}", own))
    batches += [old_folders.made(old_folders.SERVICE, j, f"service-{j}") for j in range(1, SERVICES + 1)]
    policy = old_folders.policy(old_folders.SERVICE_POLICY, 1, "first", [1, 1], old_folders.named("identity-1"))
    counts = [old_folders.count(old_folders.DIAL, 1, j) for j in range(1, SERVICES + 1)]
    return batches + [[old_folders.next_number(old_folders.SERVICE_POLICY, 1), policy] + counts]


def later(identities, i):
    """The rows that the i-th command puts, from 1 on, with the serial i."""
    return old_folders.made(old_folders.IDENTITY, identities + i, f"late-{i}") + [(b"\x11", struct.pack("<Q", i))]


def shipped(program, folder):
    """The batches that `ship 0` says."""
    status, said, noted = frames.run(program, "ship 0", b"", folder, PATIENCE)
    assert status == 0, (status, noted)
    return [batch for _, batch in frames.shipped(said)]


def counted(program, folder, identities):
    """Whether `audit` counts so many identities, and what else the folder has."""
    found = frames.counts(program, folder)
    want = dict.fromkeys(found, 0) | {"identities": identities, "services": SERVICES, "policies": 1, "grants": SERVICES}
    return found == want


def stage(folder):
    """Where in the migration the folder was left, by its files."""
    zero, one, mark = old_folders.sizes(folder)
    if mark == 1:
        return "before" if one == 0 else "within: other slot begun"
    with open(os.path.join(folder, "ziti.0"), "rb") as file:
        front = file.read(5)
    return "within: other slot stands, first not cut" if mark == 2 and front == b"ZCTL\1" else "behind"


def killed_run(program, folder, words, stdin, delay, waits):
    """Runs the program and kills it after some seconds, counted from the making of the other slot if it waits. Gives how many replies it wrote."""
    with open(folder + ".in", "wb") as file:
        file.write(stdin)
    with open(folder + ".in", "rb") as source, open(folder + ".out", "wb") as replies:
        child = subprocess.Popen([program, words], stdin=source, stdout=replies, stderr=subprocess.DEVNULL, cwd=folder)
        while waits and child.poll() is None and not os.path.exists(os.path.join(folder, "ziti.1")):
            time.sleep(0.0005)
        time.sleep(delay)
        child.kill()
        child.wait()
    with open(folder + ".out", "rb") as file:
        return len(frames.whole_frames(file.read()))


def whole_run(program, base, words, stdin):
    """How long a run takes, and how long of it is behind the making of the other slot."""
    with tempfile.TemporaryDirectory(dir=os.path.dirname(base)) as top:
        folder = shutil.copytree(base, os.path.join(top, "folder"))
        begun = time.monotonic()
        child = subprocess.Popen([program, words], stdin=subprocess.PIPE, stdout=subprocess.DEVNULL, cwd=folder)
        child.stdin.write(stdin)
        child.stdin.close()
        while not os.path.exists(os.path.join(folder, "ziti.1")):
            time.sleep(0.0005)
        middle = time.monotonic()
        assert child.wait() == 0
        return time.monotonic() - begun, time.monotonic() - middle


def kept_of(batches, rows, identities, words):
    """How many commands the shipped batches have, which are the rows of the folder, and behind them those that the commands put."""
    if words == "compact":
        assert batches == [old_folders.put_rows(rows.items())]
        return 0
    assert batches[0] == old_folders.put_rows(rows.items())
    for i, batch in enumerate(batches[1:], 1):
        assert batch == old_folders.put_rows(later(identities, i)), i
    return len(batches) - 1


def goes_on(program, folder, rows, identities, kept, words):
    """Migrates the folder, if no run did, or compacts it: the rows stay."""
    assert frames.run(program, words, b"", folder, PATIENCE) == (0, b"", b"")
    assert old_folders.sizes(folder)[2] > 1
    now = dict(rows)
    for i in range(1, kept + 1):
        now.update(later(identities, i))
    batches = shipped(program, folder)
    if words == "compact":
        assert batches == [old_folders.put_rows(now.items())]
    else:
        assert kept_of(batches, rows, identities, words) == kept
    assert counted(program, folder, identities + kept)


def names_all(look, folder, identities, kept):
    """Each record is named: `zitilook` lists the identities and the services."""
    for kind, names in (
        ("identities", [f"identity-{i}" for i in range(1, identities + 1)] + [f"late-{i}" for i in range(1, kept + 1)]),
        ("services", [f"service-{j}" for j in range(1, SERVICES + 1)]),
    ):
        status, said, noted = frames.run(look, "list " + kind, b"", folder, PATIENCE)
        assert status == 0, noted
        assert [line.split(" ")[:2] for line in said.decode().splitlines()] == [[str(no), name] for no, name in enumerate(names, 1)], kind


class Trial:
    """The folder that is migrated, what the runs on it are given, and what was found by the stops so far."""

    def __init__(self, programs, identities, rand, top):
        self.program, self.look = programs
        self.identities, self.rand, self.base = identities, rand, os.path.join(top, "base")
        batches = first_batches(identities)
        self.rows = dict(old_folders.narrowed([row for batch in batches for row in batch]))
        os.mkdir(self.base)
        self.size = old_folders.write(self.base, [old_folders.put_rows(batch) for batch in batches])
        stdin = b"".join(frames.frame(frames.CREATE_IDENTITY, {"name": f"late-{i}"}, i) for i in range(1, COMMANDS + 1))
        self.inputs = dict(zip(WORDS, (b"", stdin, b"")))
        self.whole = {how: whole_run(self.program, self.base, how.split(" ")[0], given) for how, given in self.inputs.items()}
        self.tally, self.ahead = collections.Counter(), 0

    def stop(self, at, folder):
        """One stop, and what the folder then has."""
        how, waits = WORDS[at % len(WORDS)], at // len(WORDS) % 2 == 1
        words, delay = how.split(" ")[0], self.rand.random() ** (3 if waits else 1) * self.whole[how][waits] * 1.05
        answered = killed_run(self.program, folder, words, self.inputs[how], delay, waits)
        where = stage(folder)
        self.tally[how, where] += 1
        kept = kept_of(shipped(self.program, folder), self.rows, self.identities, words)
        assert answered <= kept <= answered + 1, (answered, kept)
        assert counted(self.program, folder, self.identities + kept)
        self.ahead += kept - answered
        if at % 20 == 0:
            names_all(self.look, folder, self.identities, kept)
        if at % 4 == 0 or where.startswith("within"):
            goes_on(self.program, folder, self.rows, self.identities, kept, "compact" if at % 8 == 0 else "replay")

    def tell(self, moments):
        for how, (run, rest) in self.whole.items():
            told = ", ".join(f"{count} {where}" for (word, where), count in sorted(self.tally.items()) if word == how)
            print(f"{how}, {run:.2f} s whole, {rest:.2f} s of it behind the making of the other slot: {told}")
        print(f"{moments} stops on a folder of {self.size} bytes: {self.ahead} with one command more than replies, none lost")


def main():
    programs = [os.path.abspath(word) for word in sys.argv[1:3]]
    moments, identities, seed = (int(word) for word in (sys.argv[3:] + ["500", "1000", "1"][len(sys.argv[3:]):]))
    with tempfile.TemporaryDirectory(dir=os.getcwd()) as top:
        trial = Trial(programs, identities, random.Random(seed), top)
        for at in range(moments):
            folder = shutil.copytree(trial.base, os.path.join(top, "folder"))
            trial.stop(at, folder)
            shutil.rmtree(folder)
        trial.tell(moments)


main()
