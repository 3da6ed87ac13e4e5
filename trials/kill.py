#!/usr/bin/env python3
"""Ends the built program by `kill -9` at random moments of a run of 1,000 commands over a real folder.

usage: kill.py PROGRAM [MOMENTS [SEED]]

Each time the folder is opened again. Every command whose reply was read whole must be in it, and besides at most the next one: `audit`
counts them; sent once more, each of the first commands must be refused as it was made already, and each of the others must be done.
"""

import random
import subprocess
import sys
import tempfile
import time

import frames

COMMANDS = 1000


def command(i):
    """Identities and services by turns, each of its own name."""
    kind = frames.CREATE_IDENTITY if i % 2 == 0 else frames.CREATE_SERVICE
    return frames.frame(kind, {"name": f"n{i}", "attributes": [f"a{i % 7}"]}, i + 1)


def is_expected(counts, kept):
    """Whether counts are those behind so many commands."""
    want = dict.fromkeys(counts, 0)
    want["identities"], want["services"] = (kept + 1) // 2, kept // 2
    return counts == want


def killed_run(program, folder, stdin, delay):
    """Runs the program and kills it after some seconds. Gives the bytes of the replies that it wrote."""
    with open(folder + "/in", "wb") as file:
        file.write(stdin)
    with open(folder + "/in", "rb") as source, open(folder + "/out", "wb") as replies:
        child = subprocess.Popen([program, "replay"], stdin=source, stdout=replies, stderr=subprocess.DEVNULL, cwd=folder)
        time.sleep(delay)
        child.kill()
        child.wait()
    with open(folder + "/out", "rb") as file:
        return file.read()


def trial(program, stdin, delay):
    """One stop. Gives how many replies were acknowledged, and how many commands were kept."""
    with tempfile.TemporaryDirectory() as folder:
        acknowledged = len(frames.whole_frames(killed_run(program, folder, stdin, delay)))
        found = frames.counts(program, folder)
        kept = found["identities"] + found["services"]
        assert is_expected(found, kept), found
        assert acknowledged <= kept <= acknowledged + 1, (acknowledged, kept)
        status, said, noted = frames.run(program, "replay", stdin, folder)
        assert status == 0, (status, noted)
        replies = [body for _, body in frames.whole_frames(said)]
        assert len(replies) == COMMANDS
        for i, body in enumerate(replies):
            assert (b'"code":20' in body) == (i < kept), (i, kept, body)
        assert is_expected(frames.counts(program, folder), COMMANDS)
        return acknowledged, kept


def main():
    program = sys.argv[1]
    moments = int(sys.argv[2]) if len(sys.argv) > 2 else 1000
    rand = random.Random(int(sys.argv[3]) if len(sys.argv) > 3 else 1)
    stdin = b"".join(command(i) for i in range(COMMANDS))
    with tempfile.TemporaryDirectory() as folder:
        begun = time.monotonic()
        assert frames.run(program, "replay", stdin, folder)[0] == 0
        whole = time.monotonic() - begun
    ahead, middle = 0, 0
    for number in range(moments):
        acknowledged, kept = trial(program, stdin, rand.uniform(0, whole * 1.05))
        ahead += kept - acknowledged
        middle += 0 < kept < COMMANDS
    print(f"{moments} stops of a run of {COMMANDS} commands, {whole:.2f} s whole: {middle} in its middle, {ahead} with one command more than replies, none lost")


main()
