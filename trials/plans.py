#!/usr/bin/env python3
"""Compares what `zitilook plan` says with what then happens, as the independent model has it.

usage: plans.py ZITILOOK ZITILINE [PLANS [SEED [SIZE]]]

The folder is a random one of either format, as model.py has them, and the commands are random ones that go on from it, told as lines by `zitiline decode`. The lines of
changes must be those between the model's states before and after the commands, and a command must be told as refused, with the same body, exactly where the model refuses
it. The status must be 3 where one is refused, else 2 where a line comes, and else 0. The folder must stay as it is. By times a line that says no frame is put among the
others: then nothing is said, its note is the one of `zitiline encode`, and the status is 2. Plans with a command whose body no line tells, or several do,
are left out, and others come in their place.
"""

import collections
import os
import random
import sys
import tempfile
import time

import diffs
import frames
import model_damage as damage
import model_folder as folders
import model_inputs as inputs


def told(program, data):
    """The lines that `decode` tells of some frames, up to one that none tells. A body with a newline takes several."""
    with tempfile.TemporaryDirectory() as place:
        return frames.run(program, "decode", data, place)[1].decode().split("\n")[:-1]


def planned(program, files, text):
    """Runs `plan` on a text in a folder of some files, which has to stay: the status, what is said and noted."""
    with tempfile.TemporaryDirectory() as place:
        folder = os.path.join(place, "folder")
        diffs.put(folder, files)
        status, said, noted = frames.run(program, "plan", text.encode(), folder)
        assert diffs.files_in(folder) == files
        return status, said.decode(), noted.decode()


def at_fault(zitilook, zitiline, rand, files, lines):
    """A line that says no frame is told with its place, and nothing else is."""
    at = rand.randrange(len(lines) + 1)
    text = "".join(line + "\n" for line in lines[:at] + [rand.choice(["Helo", "CreateIdentity", "07 Hello", "{"])] + lines[at:])
    with tempfile.TemporaryDirectory() as place:
        status, said, noted = frames.run(zitiline, "encode", text.encode(), place)
    if status != 2:
        return "a line that says a frame"
    assert planned(zitilook, files, text) == (2, "", noted.decode().replace("zitiline: ", "zitilook: "))
    return "a line at fault"


def compare(zitilook, zitiline, rand, size, tally):
    form = rand.choice([1, 2])
    old, files = damage.history(rand, rand.randint(1, size), form)
    files = diffs.without_empty(files)
    before, kept = folders.Look(files).state, folders.Kept(files)
    scene = inputs.behind(rand, old.pools, kept, rand.choice([1, 2, 3, rand.randint(1, size)]))
    lines = told(zitiline, b"".join(scene.requests))
    if len(lines) != len(scene.requests):
        tally["left out"] += 1
        return False
    if rand.random() < 0.1:
        tally[at_fault(zitilook, zitiline, rand, files, lines)] += 1
    replies = [line.split(" ", 2)[1:] for line in told(zitiline, b"".join(scene.replies))]
    refused = "".join(f"refused {at} {reply[1]}\n" for at, reply in enumerate(replies, 1) if reply[0] == "refused")
    changes = diffs.expected(before, kept.state, collections.Counter())
    status = 3 if refused else 2 if changes else 0
    assert planned(zitilook, files, "".join(line + "\n" for line in lines)) == (status, changes + refused, "")
    tally[f"format {form}", "status", status] += 1
    tally["commands"] += len(lines)
    return True


def main(zitilook, zitiline, most=1000, seed=1, size=60):
    begun, tally = time.monotonic(), collections.Counter()
    zitilook, zitiline = os.path.abspath(zitilook), os.path.abspath(zitiline)
    at = compared = 0
    while compared < int(most):
        try:
            compared += compare(zitilook, zitiline, random.Random(f"plans {seed} {at}"), int(size), tally)
        except AssertionError:
            print(f"seed {seed}, plan {at}")
            raise
        at += 1
    for what, count in sorted(tally.items(), key=str):
        print(f"{what}: {count}")
    print(f"{most} plans, {time.monotonic() - begun:.0f} s, no difference")


if __name__ == "__main__":
    main(*sys.argv[1:])
