#!/usr/bin/env python3
"""Runs the built program on hostile inputs and folders: bytes flipped, cut, repeated, and out of order.

usage: hostile.py PROGRAM [RUNS [SEED]]

Each run must end with a status of its words, within its bounds of memory and time, and a look must leave every file as it was.
"""

import collections
import os
import random
import resource
import sys
import tempfile

import frames
import old_folders

FILES = old_folders.FILES
LOOKS = ("audit", "advise ann web", "ship 0", "ship 5")
MEMORY = 512 * 2**20
SECONDS = 20


def good_inputs():
    """A plain input of many kinds of commands, and a trace of it in two sessions."""
    requests = [
        (frames.CREATE_IDENTITY, {"name": "ann", "attributes": ["a", "b"]}),
        (frames.CREATE_SERVICE, {"name": "web", "attributes": ["a"]}),
        (frames.CREATE_ROUTER, {"name": "r", "cost": 3}),
        (frames.CONNECT_ROUTER, {"name": "r"}),
        (frames.CREATE_SERVICE_POLICY, {"name": "p", "type": "Dial", "semantic": "AnyOf", "identity_roles": ["#a"], "service_roles": ["#all"]}),
        (frames.CREATE_EDGE_ROUTER_POLICY, {"name": "q", "semantic": "AllOf", "identity_roles": ["@ann"], "router_roles": ["#all"]}),
        (frames.CREATE_SERVICE_EDGE_ROUTER_POLICY, {"name": "s", "semantic": "AnyOf", "service_roles": ["#all"], "router_roles": ["@r"]}),
        (frames.CREATE_TERMINATOR, {"service": "web", "router": "r"}),
        (frames.CREATE_CIRCUIT, {"identity": "ann", "service": "web"}),
        (frames.SHOW_COUNTS, {}),
        (frames.SET_INTERCEPT, {"service": "web", "protocols": ["tcp"], "addresses": ["10.1.2.9/16", "*.a.b", "a.b"], "ports": [[22, 22], [80, 90]]}),
        (frames.COMPACT, {}),
        (frames.CREATE_SERVICE, {"name": "api"}),
        (frames.SET_INTERCEPT, {"service": "api", "protocols": ["udp", "tcp"], "addresses": ["10.1.0.0/16"], "ports": [[22, 22]]}),
        (frames.PICK, {"identity": "ann", "protocol": "tcp", "address": "10.1.2.3", "port": 22}),
        (frames.LIST_CLASHES, {"identity": "ann", "service": "web"}),
        (frames.CLEAR_INTERCEPT, {"service": "api"}),
        (frames.DELETE_SERVICE, {"name": "web"}),
        (frames.DELETE_IDENTITY, {"name": "ann"}),
    ]
    spelled = [frames.frame(content, body, i) for i, (content, body) in enumerate(requests)]
    records = [frames.opened(0), frames.opened(7, 2, "ann")]
    for i, data in enumerate(spelled):
        cut = len(data) // 2
        records += [frames.data_record(0, data[:cut]), frames.data_record(7, data), frames.data_record(0, data[cut:])]
    return b"".join(spelled), b"".join(records + [frames.closed(7), frames.closed(0)])


def spoiled(rand, data):
    """Some bytes, spoiled one to four times."""
    data = bytearray(data)
    for _ in range(rand.randint(1, 4)):
        if not data:
            data = bytearray(rand.randbytes(rand.randint(1, 64)))
        a, b = sorted(rand.randrange(len(data) + 1) for _ in range(2))
        how = rand.randrange(6)
        if how == 0:
            data[min(a, len(data) - 1)] ^= 1 << rand.randrange(8)
        elif how == 1:
            del data[a:]
        elif how == 2:
            data[a:a] = data[a:b]
        elif how == 3:
            data = data[b:] + data[a:b] + data[:a]
        elif how == 4:
            data[a:min(a + 4, len(data))] = rand.choice([0, 1, 20, 2**16, 2**20, 2**31, 2**32 - 1]).to_bytes(4, "little")
        else:
            data[a:b] = rand.randbytes(b - a)
    return bytes(data)


def bounded():
    """Bounds the memory of the program that is run."""
    resource.setrlimit(resource.RLIMIT_AS, (MEMORY, MEMORY))


def read_folder(folder):
    """The bytes of each file that is there."""
    return {name: open(os.path.join(folder, name), "rb").read() for name in FILES if os.path.exists(os.path.join(folder, name))}


def write_folder(folder, files):
    for name in FILES:
        path = os.path.join(folder, name)
        if os.path.exists(path):
            os.remove(path)
    for name, data in files.items():
        with open(os.path.join(folder, name), "wb") as file:
            file.write(data)


def good_folders(program, plain):
    """A folder in its first slot, and one in its second; and both in the first format."""
    old = old_folders.slot_of(old_folders.small())
    found = [{"ziti.0": old, "ziti.mark": b"\0"}, {"ziti.0": b"", "ziti.1": old, "ziti.mark": b"\0\0"}]
    for words in ([], ["compact"]):
        with tempfile.TemporaryDirectory() as folder:
            assert frames.run(program, "replay", plain, folder)[0] == 0
            for word in words:
                assert frames.run(program, word, b"", folder)[0] == 0
            found.append(read_folder(folder))
    return found


def is_of_the_second_format(files):
    """Whether the slot that stands begins with the header of the second format."""
    return files[FILES[(len(files["ziti.mark"]) - 1) % 2]].startswith(b"ZCTL\2")


def judge(words, ended, before, after):
    """What has to hold of a run: its status, what a look leaves and says, and the format that a folder has once it was opened."""
    status, said, noted = ended
    assert status in frames.STATUSES[words], (status, noted)
    assert status != 8, "memory"
    if words in LOOKS:
        assert after == before
        assert status == 0 or not said
    if words.startswith("ship") and status == 0:
        frames.shipped(said)
    if words.split(" ")[0] in ("replay", "compact") and status != 7:
        assert is_of_the_second_format(after)


def main():
    program = sys.argv[1]
    runs = int(sys.argv[2]) if len(sys.argv) > 2 else 100_000
    rand = random.Random(int(sys.argv[3]) if len(sys.argv) > 3 else 1)
    plain, trace = good_inputs()
    folders = good_folders(program, plain)
    tally = collections.Counter()
    with tempfile.TemporaryDirectory() as folder:
        for number in range(runs):
            words = rand.choice(sorted(frames.STATUSES))
            files = dict(rand.choice(folders + [{}]))
            for name in files:
                if rand.random() < 0.5:
                    files[name] = spoiled(rand, files[name])
            write_folder(folder, files)
            stdin = spoiled(rand, trace if words == "replay --sessions" else plain) if rand.random() < 0.8 else b""
            ended = frames.run(program, words, stdin, folder, SECONDS, bounded)
            try:
                judge(words, ended, files, read_folder(folder))
            except AssertionError as fault:
                raise AssertionError(number, words, files, stdin, ended) from fault
            tally[words, ended[0]] += 1
    for (words, status), count in sorted(tally.items()):
        print(f"{words}: status {status}: {count}")
    print(f"{runs} runs, each within {MEMORY >> 20} MiB and {SECONDS} s")


main()
