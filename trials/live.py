#!/usr/bin/env python3
"""Lines as they come: replies that are sent one byte at a time, and the lines that tell them.

usage: live.py ZITILINE

The line of each reply must be there once its last byte was sent, and before one byte more is.
"""

import os
import select
import struct
import subprocess
import sys

PATIENCE = 20


def reply(request, body):
    """The bytes of a reply that had success."""
    headers = struct.pack("<IIIIIB", 1, 4, request, 2, 1, 1)
    return bytes([3, 6, 9, 12]) + struct.pack("<IIII", 2, 0, len(headers), len(body)) + headers + body


def told_in_time(program, word, replies, lines):
    """Sends the replies byte by byte over a pipe, and takes each line when its reply is whole."""
    child = subprocess.Popen([program, word], stdin=subprocess.PIPE, stdout=subprocess.PIPE, bufsize=0)
    for sent, line in zip(replies, lines):
        for i in range(len(sent)):
            assert not select.select([child.stdout], [], [], 0)[0], "a line before its reply was whole"
            child.stdin.write(sent[i:i + 1])
        said = b""
        while said != line:
            assert select.select([child.stdout], [], [], PATIENCE)[0], "no line of a whole reply"
            said += os.read(child.stdout.fileno(), 65536)
            assert line.startswith(said), said
    child.stdin.close()
    assert child.wait() == 0 and child.stdout.read() == b""
    print(f"{word}: {len(lines)} lines, each once its reply was whole and before a byte more was sent")


def main(program):
    bodies = [(7, b'{"no":1}'), (8, b"{}"), (9, b"")]
    frames = [reply(request, body) for request, body in bodies]
    lines = [b"%d ok%s\n" % (request, b" " + body if body else b"") for request, body in bodies]
    told_in_time(program, "decode", frames, lines)
    told_in_time(program, "replies", [bytes([4, 3]) + frame for frame in frames], [b"3 " + line for line in lines])


if __name__ == "__main__":
    main(sys.argv[1])
