"""The functions that one more circuit passes from its frame to its reply: `python3 passed.py PROGRAM [--names] [--replay]`.

The program is run under callgrind on two inputs, of which the second has one CreateCircuit more at its end. The functions that are called
more often in the second run are those that it passes. A function is of the crate that its path begins with, and the instances of a generic
one are one. Drops, clones, closures and what is not of a crate of the repository are left out. A program that is optimised calls only what
is not inlined: `unproved.py` makes one at -O0, in which all are seen. Says how many functions of how many crates there are, and how many
calls; with --names each function, behind its calls."""

import collections
import os
import re
import subprocess
import sys
import tempfile

import networks

CRATES = {line.split(":")[0].split()[0] for line in open(os.path.join(os.path.dirname(__file__), "..", "crates.txt")) if ":" in line and not line.startswith("#")}
CALLED = re.compile(r"c?fn=\((\d+)\)(?: (.*))?")
# A closure's body has a path `fn::NAME`, and its call a trait's name behind a plus. Of a drop or a clone the last word tells.
LEFT_OUT = re.compile(r"\+Fn|::fn::|(drop|clone)[^:]*$", re.IGNORECASE)


def calls(program, word, commands):
    """How often each function is called in a run, by its path."""
    found, names, callee = collections.Counter(), {}, None
    with tempfile.TemporaryDirectory() as folder:
        out = os.path.join(folder, "calls")
        subprocess.run(["valgrind", "--tool=callgrind", f"--callgrind-out-file={out}", program, word], input=networks.frames(commands), capture_output=True, cwd=folder, check=True)
        for line in open(out, errors="replace"):
            if line.startswith(("cfn=", "fn=")):
                number, name = CALLED.match(line.rstrip("\n")).groups()
                names[number] = name or names[number]
                callee = path_of(names[number]) if line.startswith("cfn=") else callee
            elif line.startswith("calls="):
                found[callee] += int(line[6:].split()[0])
    return found


def path_of(name):
    """The path of a function, without the types that it is an instance at."""
    return re.sub(r"::<.*", "", name)


def crate_of(path):
    """The crate that a function is of."""
    return path.split("::")[0]


def main(words):
    program, word = os.path.abspath(words[0]), "replay" if "--replay" in words else "dry"
    before, after = (calls(program, word, networks.ring_circuits(count)) for count in (3, 4))
    more = {path: count - before[path] for path, count in after.items() if count > before[path]}
    ours = {path: count for path, count in more.items() if crate_of(path) in CRATES and not LEFT_OUT.search(path)}
    if "--names" in words:
        for path in sorted(ours):
            print(f"{ours[path]:6} {path}")
    print(f"{len(ours)} functions of {len({crate_of(path) for path in ours})} crates, {sum(ours.values())} calls ({len(more)} with what is left out)")


if __name__ == "__main__":
    main(sys.argv[1:])
