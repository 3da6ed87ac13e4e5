"""Measures the built program, and one beside it, on the inputs of docs/SPEED.md: `python3 speed.py [--instructions FOLDER] PROGRAM [--beside PLAIN] [NAME..]`.

Each program answers each input in one run, under `dry` where the row of INPUTS names no other words. A row of the table that is printed has the commands, and of each
program the processor seconds and the most memory that was resident in MiB, or with --instructions the millions of instructions by callgrind, of smaller inputs where
INPUTS has one; FOLDER then has the profiles. What the two said must be the same bytes. The last cell is the ratio, and the last line the geometric mean of the ratios;
what the first program alone keeps in a folder is left out of it."""

import json
import math
import os
import re
import resource
import subprocess
import sys
import tempfile

import networks

LIMIT = 3600
# What takes less seconds is measured by the least of so many runs.
SHORT, RUNS = 0.3, 5


def run(program, words, data, ahead=()):
    """Runs the program to its end. Gives what it wrote, and the processor seconds that it took."""
    with tempfile.TemporaryDirectory() as folder:
        before = resource.getrusage(resource.RUSAGE_CHILDREN)
        done = subprocess.run([*ahead, program, *words], input=data, capture_output=True, cwd=folder, timeout=LIMIT)
        after = resource.getrusage(resource.RUSAGE_CHILDREN)
        took = after.ru_utime + after.ru_stime - before.ru_utime - before.ru_stime
    assert done.returncode == 0, (done.returncode, done.stderr[-200:])
    return done, took


def weighed(program, words, data, _):
    """What a run said, its processor seconds less those of a run that reads nothing, and the most memory that was resident, in MiB."""
    done, took = run(program, words, data, ("/usr/bin/time", "-f", "%M"))
    if took < SHORT:
        took = least(program, words, data) - least(program, ["dry"], b"")
    return done.stdout, took, int(done.stderr.split()[-1]) / 1024


def least(program, words, data):
    """The least processor seconds of some runs."""
    return min(run(program, words, data)[1] for _ in range(RUNS))


def counted(program, words, data, profile):
    """What a run said, and its instructions in millions, by callgrind."""
    done, _ = run(program, words, data, ("valgrind", "--tool=callgrind", f"--callgrind-out-file={profile}"))
    return done.stdout, int(re.search(rb"Collected : (\d+)", done.stderr)[1]) / 1e6


def claims(program):
    """One claim over the mesh: its explanation is asked for first."""
    done, _ = run(program, ["dry"], networks.frames(networks.explained()))
    return networks.claimed(json.loads(networks.replies(done.stdout)[-1]), 1)


# Each input, and a smaller one where instructions are counted.
INPUTS = {
    "all_to_all": (lambda _: networks.all_to_all(2048, 512), lambda _: networks.all_to_all(512, 128)),
    "updates": (lambda _: networks.updates(500, 10_000), lambda _: networks.updates(20, 500)),
    "churn": (lambda _: networks.churn(100_000), lambda _: networks.churn(500)),
    "attributes": (lambda _: networks.attributes(1000), lambda _: networks.attributes(128)),
    "full_table": (lambda _: networks.full_table(16_384), lambda _: networks.full_table(512)),
    "revocation": (lambda _: networks.revocation(),),
    "mesh": (lambda _: networks.mesh(),),
    "mesh_circuits": (lambda _: networks.mesh_circuits(1000), lambda _: networks.mesh_circuits(20)),
    "line_circuits": (lambda _: networks.line_circuits(),),
    "ring_moves": (lambda _: networks.ring_moves(100), lambda _: networks.ring_moves(2)),
    "claims": (claims,),
    "mixed": (lambda _: networks.mixed(5000), lambda _: networks.mixed(300)),
    "small_frames": (lambda _: networks.small_frames(1_000_000), lambda _: networks.small_frames(2000)),
    "realistic": (lambda _: networks.example("realistic"),),
    "load": (lambda _: None,),
    "sessions": (lambda _: networks.sessions(5000), lambda _: networks.sessions(200)),
}
# Those of which the programs do not do the same, so that no ratio of them counts.
UNLIKE = ("sessions",)


def asked(name, program, counts):
    """The words of an input for the first program and for the one beside it, its bytes, and how many commands it has."""
    made = INPUTS[name][-1 if counts else 0](program)
    if made is None:
        return ["load", "7"], ["load", "7"], b"", 1364
    if isinstance(made, bytes):
        return ["replay", "--sessions"], ["sessions"], made, made.count(networks.MARKER)
    return ["dry"], ["dry"], networks.frames(made), len(made)


def measured(name, program, beside, profiles):
    """The cells of an input's row, and the ratio of the two programs."""
    words, plain_words, data, commands = asked(name, program, profiles is not None)
    measure = weighed if profiles is None else counted
    said, *ours = measure(program, words, data, f"{profiles}/{name}.program")
    if beside is None:
        return [commands, *ours], None
    plainly, *plain = measure(beside, plain_words, data, f"{profiles}/{name}.beside")
    assert said == plainly, f"{name}: the two programs do not say the same"
    return [commands, *ours, *plain, ours[0] / plain[0]], ours[0] / plain[0]


def spelled(cell):
    return str(cell) if isinstance(cell, int) else f"{cell:.3f}" if cell < 1 else f"{cell:.1f}" if cell < 100 else f"{cell:,.0f}"


def taken(words, option):
    """The path behind an option, if it is there; both are taken out of the words."""
    if option not in words:
        return None
    at = words.index(option)
    words.pop(at)
    return os.path.abspath(words.pop(at))


def main(words):
    profiles, beside = taken(words, "--instructions"), taken(words, "--beside")
    program, *names = words
    ratios = []
    for name in names or INPUTS:
        cells, ratio = measured(name, os.path.abspath(program), beside, profiles)
        print(f"| {name} | " + " | ".join(map(spelled, cells)) + " |", flush=True)
        if ratio is not None and name not in UNLIKE:
            ratios.append(ratio)
    if ratios:
        print(f"geometric mean of {len(ratios)}: {math.exp(sum(map(math.log, ratios)) / len(ratios)):.1f}")


if __name__ == "__main__":
    main(sys.argv[1:])
