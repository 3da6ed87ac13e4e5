#!/usr/bin/env python3
"""Compacts the folder of the realistic network with the built program, and goes on with the same replies.

usage: compaction.py PROGRAM

The lines of examples/realistic.lines are answered up to each tenth of them. The folder is then compacted by the word in one copy, by the
command in another, and left alone in a third; the rest of the lines must get the same replies in all, and `audit` must say the same.
"""

import os
import shutil
import sys
import tempfile

import frames

FILES = ("ziti.0", "ziti.1", "ziti.mark")


def sizes(folder):
    return [os.path.getsize(os.path.join(folder, name)) if os.path.exists(os.path.join(folder, name)) else 0 for name in FILES]


def trial(program, all_requests, count):
    """Compacts behind so many requests. Prints the sizes of the folder before and after."""
    first, rest = b"".join(all_requests[:count]), b"".join(all_requests[count:])
    with tempfile.TemporaryDirectory() as top:
        plain, word, command = (os.path.join(top, name) for name in ("plain", "word", "command"))
        os.mkdir(plain)
        assert frames.run(program, "replay", first, plain)[0] == 0
        before, state = sizes(plain), frames.counts(program, plain)
        shutil.copytree(plain, word)
        shutil.copytree(plain, command)
        assert frames.run(program, "compact", b"", word) == (0, b"", b"")
        assert frames.run(program, "replay", frames.frame(frames.COMPACT, {}), command)[0] == 0
        after = sizes(word)
        assert after == sizes(command) and frames.counts(program, word) == frames.counts(program, command) == state
        runs = [frames.run(program, "replay", rest, folder) for folder in (plain, word, command)]
        assert runs[0] == runs[1] == runs[2] and runs[0][0] == 0
        assert frames.counts(program, plain) == frames.counts(program, word) == frames.counts(program, command)
        print(f"behind {count} of {len(all_requests)} commands: {before} bytes, compacted {after}")


def main():
    all_requests, _ = frames.example("realistic")
    for tenth in range(11):
        trial(sys.argv[1], all_requests, len(all_requests) * tenth // 10)


main()
