#!/usr/bin/env python3
"""Input in pieces: a session that sends one byte at a time, the realistic network in pieces, the change of ten thousand grants, 100,000
frames, and the peak memory of a run over 1 GiB of frames.

usage: pieces.py PROGRAM [MIB]

One byte at a time, each reply must be there once the last byte of its frame was sent, and before one byte more is.
"""

import os
import select
import subprocess
import sys
import tempfile

import frames

PATIENCE = 20


def one_byte_at_a_time(program, words):
    """Sends three frames byte by byte over a pipe, and takes each reply when its frame is whole."""
    requests = [frames.frame(frames.CREATE_IDENTITY, {"name": "ann"}, 7), frames.frame(frames.CREATE_IDENTITY, {"name": "ann"}, 8), frames.frame(frames.SHOW_COUNTS, {}, 9)]
    replies = []
    with tempfile.TemporaryDirectory() as folder:
        child = subprocess.Popen([program] + words.split(), stdin=subprocess.PIPE, stdout=subprocess.PIPE, cwd=folder, bufsize=0)
        for request in requests:
            for i in range(len(request)):
                assert not select.select([child.stdout], [], [], 0)[0], "a reply before its frame was whole"
                child.stdin.write(request[i:i + 1])
            said = b""
            while not frames.whole_frames(said):
                assert select.select([child.stdout], [], [], PATIENCE)[0], "no reply to a whole frame"
                said += os.read(child.stdout.fileno(), 65536)
            replies += [body for _, body in frames.whole_frames(said)]
        child.stdin.close()
        assert child.wait() == 0
    assert replies[0] == b'{"no":1}' and b'"code":20' in replies[1] and b'"identities":1' in replies[2], replies
    print(f"{words}: {len(requests)} replies, each once its frame was whole and before a byte more was sent")


def replies_in_pieces(program, stdin, size):
    """Runs `dry` over an input that comes over a pipe in pieces of so many bytes. Gives the bodies of the replies."""
    child = subprocess.Popen([program, "dry"], stdin=subprocess.PIPE, stdout=subprocess.PIPE, bufsize=0)
    if os.fork() == 0:
        child.stdout.close()
        for at in range(0, len(stdin), size):
            child.stdin.write(stdin[at:at + size])
        child.stdin.close()
        os._exit(0)
    child.stdin.close()
    said = child.stdout.read()
    assert child.wait() == 0
    return [body for _, body in frames.whole_frames(said)]


def realistic_in_pieces(program):
    """The realistic network in pieces of 1, 7 and 4,096 bytes: the replies are those of examples/realistic.replies."""
    requests, bodies = frames.example("realistic")
    for size in (1, 7, 4096):
        assert replies_in_pieces(program, b"".join(requests), size) == bodies, size
    print(f"dry: {len(requests)} commands of the realistic network in pieces of 1, 7 and 4096 bytes, with their replies")


def ten_thousand_grants(program):
    """One policy that grants 100 identities 100 services each, and its deletion, as one run: ShowCounts tells all grants, and then none."""
    made = [frames.frame(frames.CREATE_IDENTITY, {"name": f"i{i}"}) for i in range(100)] + [frames.frame(frames.CREATE_SERVICE, {"name": f"s{i}"}) for i in range(100)]
    everyone = {"name": "p", "type": "Dial", "semantic": "AnyOf", "identity_roles": ["#all"], "service_roles": ["#all"]}
    counts = frames.frame(frames.SHOW_COUNTS, {})
    run = made + [frames.frame(frames.CREATE_SERVICE_POLICY, everyone), counts, frames.frame(frames.DELETE_SERVICE_POLICY, {"name": "p"}), counts]
    bodies = replies_in_pieces(program, b"".join(run), 4096)
    assert len(bodies) == len(run) and b'"grants":10000,' in bodies[-3] and b'"grants":0,' in bodies[-1], bodies[-4:]
    print("dry: ten thousand grants come and go by one command each")


def many_frames(program, pairs):
    """Makes and deletes an identity so many times in one run: want of memory does not come."""
    made, gone = frames.frame(frames.CREATE_IDENTITY, {"name": "guest"}), frames.frame(frames.DELETE_IDENTITY, {"name": "guest"})
    bodies = replies_in_pieces(program, (made + gone) * pairs, 65536)
    assert len(bodies) == 2 * pairs and bodies[0::2] == [b'{"no":%d}' % (i + 1) for i in range(pairs)] and set(bodies[1::2]) == {b"{}"}
    print(f"dry: {2 * pairs} frames in one run, each done")


def peak_memory(program, size):
    """Runs so many MiB of frames of 1 MiB each through `dry`, and prints the peak of its resident memory."""
    body = b"x" * (2**20 - 20)
    child = subprocess.Popen([program, "dry"], stdin=subprocess.PIPE, stdout=subprocess.PIPE)
    if os.fork() == 0:
        child.stdout.close()
        for i in range(size):
            child.stdin.write(frames.frame(0, body, i))
        child.stdin.close()
        os._exit(0)
    child.stdin.close()
    said, peak = b"", 0
    while some := os.read(child.stdout.fileno(), 65536):
        said, peak = said + some, max(peak, frames.resident(child.pid))
    assert child.wait() == 0 and len(frames.whole_frames(said)) == size
    print(f"dry: {size} frames, {size} MiB in all: a peak of {peak / 1024:.1f} MiB of resident memory")


def main():
    for words in ("dry", "replay"):
        one_byte_at_a_time(sys.argv[1], words)
    realistic_in_pieces(sys.argv[1])
    ten_thousand_grants(sys.argv[1])
    many_frames(sys.argv[1], 50_000)
    peak_memory(sys.argv[1], int(sys.argv[2]) if len(sys.argv) > 2 else 1024)


main()
