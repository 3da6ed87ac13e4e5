#!/usr/bin/env python3
"""Refuses memory to the built program at one allocation after the other, for runs under each of its words.

usage: memory.py PROGRAM

A library that is loaded before the system's (refuse.c, compiled here) refuses one allocation of a run, and no other. Such a run must end
with status 8 or do what the whole run does. What it said must be a front of what the whole run says, and its folder must open.
"""

import os
import shutil
import subprocess
import sys
import tempfile

import frames
import old_folders

HERE = os.path.dirname(os.path.abspath(__file__))
ANN = frames.frame(frames.CREATE_IDENTITY, {"name": "ann"}, 7)
BOB = frames.frame(frames.CREATE_IDENTITY, {"name": "bob", "attributes": ["a", "b"]}, 8)
WEB = frames.frame(frames.CREATE_SERVICE, {"name": "web", "attributes": ["w"]}, 9)
POLICY = frames.frame(frames.CREATE_SERVICE_POLICY, {"name": "p", "type": "Dial", "semantic": "AnyOf", "identity_roles": ["#a"], "service_roles": ["#all"]}, 10)
GONE = frames.frame(frames.DELETE_SERVICE, {"name": "web"}, 11)
COUNTS = frames.frame(frames.SHOW_COUNTS, {}, 12)
COMPACT = frames.frame(frames.COMPACT, {}, 13)
CLAIM = frames.frame(frames.SET_INTERCEPT, {"service": "web", "protocols": ["tcp", "udp"], "addresses": ["10.1.2.9/16", "*.a.b"], "ports": [[22, 22], [80, 90]]}, 14)
UNCLAIM = frames.frame(frames.CLEAR_INTERCEPT, {"service": "web"}, 15)
PICK = frames.frame(frames.PICK, {"identity": "bob", "protocol": "tcp", "address": "10.1.2.3", "port": 22}, 16)
CLASHES = frames.frame(frames.LIST_CLASHES, {"identity": "bob", "service": "web"}, 17)
TRACE = frames.opened(0) + frames.data_record(0, ANN) + frames.opened(1, 2, "ann") + frames.data_record(1, COUNTS) + frames.data_record(0, BOB) + frames.data_record(0, WEB[:30])

# A frame whose headers part is too long, one whose header passes its end, and a trace that opens a session twice: refused.
LONG_HEADERS = bytes.fromhex("0306090c e8030000 07000000 01000100 00000000")
ENDLESS_HEADER = bytes.fromhex("0306090c e8030000 07000000 08000000 00000000 05000000 ffffffff")
OPENED_TWICE = frames.opened(0) + frames.opened(0)

# A Hello with the longest header, a body of lists in lists, and costs that are no whole numbers from 0 to 65,535: answered.
LONGEST_HEADER = bytes.fromhex("0306090c 00000000 07000000 00000100 00000000 09000000 f8ff0000") + b"a" * 65528
NESTED = frames.frame(frames.CREATE_IDENTITY, b"[" * 200 + b"]" * 200, 7)
COSTS = [frames.frame(frames.CREATE_ROUTER, b'{"name":"r1","cost":' + cost + b"}") for cost in (b"1.0", b"1e3", b"-1", b"65536", b"null")]

# At most so many runs a row: where there are more allocations, every second one is refused, or every third, and so on.
MOST = 1000

# The words, the input, and the folder before: none, one of one identity, or one of the first format with a record of most kinds.
NONE, KEPT, OLD = "none", "kept", "old"
ROWS = [
    ("dry", ANN + BOB + WEB + POLICY + COUNTS + GONE, NONE),
    ("dry", ANN + b"\0" * 20, NONE),
    ("dry", frames.frame(frames.CREATE_IDENTITY, b'{"name":', 1) + ANN[:20], NONE),
    ("load 0", b"", NONE),
    ("load 3", b"", NONE),
    ("replay", ANN + BOB + WEB + POLICY + COUNTS + GONE, NONE),
    ("replay", BOB + COMPACT + WEB, KEPT),
    ("replay --sessions", TRACE, NONE),
    ("audit", b"", KEPT),
    ("audit", b"", NONE),
    ("advise ann web", b"", KEPT),
    ("compact", b"", KEPT),
    ("compact", b"", NONE),
    ("dry", BOB + WEB + POLICY + CLAIM + PICK + CLASHES + UNCLAIM, NONE),
    ("replay", BOB + WEB + POLICY + CLAIM + PICK + CLASHES + UNCLAIM, KEPT),
    ("replay", b"", OLD),
    ("replay", BOB + CLAIM + PICK + COMPACT + GONE, OLD),
    ("audit", b"", OLD),
    ("advise ann web", b"", OLD),
    ("compact", b"", OLD),
    ("ship 0", b"", NONE),
    ("ship 0", b"", KEPT),
    ("ship 0", b"", OLD),
    ("no such words", b"", NONE),
    ("dry", LONG_HEADERS, NONE),
    ("dry", ENDLESS_HEADER, NONE),
    ("replay --sessions", OPENED_TWICE, NONE),
    ("dry", LONGEST_HEADER, NONE),
    ("dry", NESTED, NONE),
] + [("dry", cost, NONE) for cost in COSTS]


def rows():
    """All rows: those above, and the frames of `examples/network.lines` under `dry` and under `replay`."""
    network = b"".join(frames.example("network")[0])
    return ROWS + [("dry", network, NONE), ("replay", network, NONE)]


def refused_run(program, library, words, stdin, before, number):
    """Runs with one allocation refused. Gives status, output, the number of allocations, and what `audit` says behind it."""
    with tempfile.TemporaryDirectory() as top:
        folder, count = os.path.join(top, "folder"), os.path.join(top, "count")
        shutil.copytree(before, folder)
        env = {"LD_PRELOAD": library, "REFUSE": str(number), "REFUSE_COUNT": count}
        done = subprocess.run([program] + words.split(), input=stdin, capture_output=True, cwd=folder, env=env, timeout=60)
        with open(count, encoding="ascii") as file:
            made = int(file.read())
        return done.returncode, done.stdout, made, frames.run(program, "audit", b"", folder)


def trial(program, library, words, stdin, before):
    """Refuses each allocation of one run in turn."""
    status, said, made, behind = refused_run(program, library, words, stdin, before, 0)
    starved = 0
    step = -(-made // MOST)
    for number in range(1, made + 1, step):
        found, part, _, later = refused_run(program, library, words, stdin, before, number)
        assert found in (8, status), (words, number, found)
        assert said.startswith(part) and later[0] == 0, (words, number, part, later)
        assert found == 8 or (part == said and later == behind), (words, number)
        if words.startswith("ship"):
            frames.shipped(part)
        starved += found == 8
    which = "each" if step == 1 else f"every {step}th"
    runs = len(range(1, made + 1, step))
    print(f"{words}, {len(stdin)} bytes{', first format' if before.endswith(OLD) else ''}: status {status}, {made} allocations, {which} refused: {starved} of {runs} runs with status 8, the others as the whole run", flush=True)
    return runs


def main():
    program = os.path.abspath(sys.argv[1])
    with tempfile.TemporaryDirectory() as top:
        library, folders = os.path.join(top, "refuse.so"), {name: os.path.join(top, name) for name in (NONE, KEPT, OLD)}
        subprocess.run(["cc", "-shared", "-fPIC", "-O2", "-o", library, os.path.join(HERE, "refuse.c"), "-ldl"], check=True)
        for folder in folders.values():
            os.mkdir(folder)
        assert frames.run(program, "replay", ANN, folders[KEPT])[0] == 0
        old_folders.write(folders[OLD], old_folders.small())
        runs = sum(trial(program, library, words, stdin, folders[before]) for words, stdin, before in rows())
    print(f"{runs} runs with one allocation refused")


main()
