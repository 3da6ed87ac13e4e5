"""What a Next costs a follower: `python3 following.py PROGRAM [NETWORK..]`.

A leader keeps a network in one batch, and then takes changes of the least router cost, each of which is shipped as a Next of 26 bytes. Measured are runs of
`follow` on a copy of it: without input, with the Nexts, and with them once more, where each is Repeat; and runs of `replay` on the leader, without input and with
the changes. What is said of one Next, one Repeat or one change is the difference of two runs, divided by how many there are. The seconds are processor seconds,
the least of some runs; the memory is the most that was resident."""

import os
import shutil
import subprocess
import sys
import tempfile

sys.path.insert(0, os.path.join(os.path.dirname(os.path.abspath(__file__)), "..", "trials"))

import frames
import migration
import networks
import old_folders as old

SET_LEAST_ROUTER_COST = 1210


def example(name):
    """Makes a leader of the commands of an example's lines, and compacts it."""
    return lambda program, folder: [run(program, *it) for it in (("replay", folder, b"".join(frames.example(name)[0])), ("compact", folder))]


def limits(program, folder):
    """Makes the leader of migration.py: 2,048 identities, 512 services, 16,384 circuits and 1,058,816 counts."""
    old.write(folder, [old.put_rows(migration.lasts() + migration.records() + migration.counts())])
    run(program, "replay", folder)


# How a leader is made, how many Nexts are measured, and in how many runs.
NETWORKS = {"small": (example("network"), 200, 3), "realistic": (example("realistic"), 200, 3), "limits": (limits, 2, 1)}


def run(program, words, folder, data=b""):
    """What a run says, which has to end with status 0, its processor seconds and the KiB of its memory that were resident at most."""
    with tempfile.TemporaryFile() as source, tempfile.TemporaryFile() as said:
        source.write(data)
        source.seek(0)
        child = subprocess.Popen([program, *words.split()], stdin=source, stdout=said, cwd=folder)
        peak = frames.Peak(child.pid)
        _, status, used = os.wait4(child.pid, 0)
        assert status == 0, (words, status)
        said.seek(0)
        return said.read(), used.ru_utime + used.ru_stime, peak.most


def measured(program, runs, words, folder, data, name, many):
    """The least processor seconds and the most MiB of some runs, each on a folder of its own as it was before, of which the last one stays behind; the name of an
    answer has to come so many times."""
    found = []
    for _ in range(runs):
        shutil.rmtree(folder + " behind", ignore_errors=True)
        shutil.copytree(folder, folder + " behind")
        said, *used = run(program, words, folder + " behind", data)
        assert said.count(name) == many, (words, name, said[-200:])
        found.append(used)
    return min(row[0] for row in found), max(row[1] for row in found) / 1024


def measure(program, name):
    made, many, runs = NETWORKS[name]
    with tempfile.TemporaryDirectory() as top:
        leader, copy = (os.path.join(top, it) for it in ("leader", "copy"))
        os.mkdir(leader), os.mkdir(copy)
        made(program, leader)
        whole = run(program, "ship 0", leader)[0]
        _, took, memory = run(program, "follow", copy, whole)
        print(f"{name}: a Whole of {len(whole)} bytes: {took:.3f} s, {memory / 1024:.0f} MiB", flush=True)
        changes = networks.frames([(SET_LEAST_ROUTER_COST, {"cost": 20 + at % 2}) for at in range(many)])
        found = {"replay of nothing": measured(program, runs, "replay", leader, b"", b"{", 0)}
        found["replay"] = measured(program, runs, "replay", leader, changes, b"{}", many)
        nexts = run(program, f"ship {frames.shipped(whole)[-1][0] + 1}", leader + " behind")[0]
        found["follow of nothing"] = measured(program, runs, "follow", copy, b"", b"{", 0)
        found["follow"] = measured(program, runs, "follow", copy, nexts, b'"Took"', many)
        found["follow once more"] = measured(program, runs, "follow", copy + " behind", nexts, b'"Repeat"', many)
        for row, (seconds, memory) in found.items():
            base = "replay of nothing" if row == "replay" else "follow of nothing"
            each = "" if row.endswith("nothing") else f", each of {many}: {(seconds - found[base][0]) / many * 1000:.3f} ms"
            print(f"  {row}: {seconds:.3f} s, {memory:.0f} MiB{each}", flush=True)


if __name__ == "__main__":
    for word in sys.argv[2:] or NETWORKS:
        measure(os.path.abspath(sys.argv[1]), word)
