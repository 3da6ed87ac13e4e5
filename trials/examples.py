"""Answers the lines of examples/: python3 examples.py [ZITICTL ZITILINE].

Alone it says whether examples/story.frames are the frames of story.lines, as this script spells them by docs/FORMATS.md. With the programs,
what `encode`, `dry` and `decode` give of the lines must be the replies beside them, story.frames what `encode` gives, and of `answers` each
request must be written with its reply, with status 3 exactly where one is refused."""
import os
import subprocess
import sys

from frames import TOP, example

FOLDER = os.path.join(TOP, "examples")
NAMES = ("ann", "network", "story", "claims", "realistic")


def read(name):
    with open(os.path.join(FOLDER, name), "rb") as file:
        return file.read()


def passed(program, word, given, status=0):
    done = subprocess.run([program, word], input=given, capture_output=True)
    assert done.returncode == status, (word, done.returncode, done.stderr)
    return done.stdout


def asked(line):
    """A line from its NAME on."""
    first, _, rest = line.partition(b" ")
    return rest if first.isdigit() else line


def paired(lines, replies):
    """Each request beside the reply in its place. The replies of a plain input stand in the order of the requests."""
    requests = [(number, line) for number, line in enumerate(lines.split(b"\n"), 1) if line.strip() and not line.lstrip().startswith(b"#")]
    told = [reply.split(b" ", 1)[1] for reply in replies.splitlines()]
    assert len(requests) == len(told)
    return b"".join(b"%d %s -> %s\n" % (number, asked(line), reply) for (number, line), reply in zip(requests, told))


def main(zitictl=None, zitiline=None):
    assert read("story.frames") == b"".join(example("story")[0]), "story.frames"
    for name in NAMES if zitictl else ():
        lines, replies = read(name + ".lines"), read(name + ".replies")
        frames = passed(zitiline, "encode", lines)
        assert name != "story" or frames == read("story.frames"), name
        assert passed(zitiline, "decode", passed(zitictl, "dry", frames)) == replies, name
        refused = 3 if b" refused" in replies else 0
        assert passed(zitiline, "answers", lines + b"\n---\n" + replies, refused) == paired(lines, replies), name
        print(f"{name}: {len(replies.splitlines())} replies, status {refused}")


main(*sys.argv[1:])
