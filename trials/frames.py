"""Frames, traces and runs of the built program, for the trials of this folder (docs/TRIALS.md)."""

import contextlib
import json
import os
import re
import struct
import subprocess
import threading
import time

TOP = os.path.join(os.path.dirname(os.path.abspath(__file__)), "..")

MARKER = bytes.fromhex("0306090c")
REPLY = 2
CREATE_IDENTITY, DELETE_IDENTITY = 1000, 1002
CREATE_SERVICE, DELETE_SERVICE = 1010, 1012
CREATE_ROUTER, CONNECT_ROUTER = 1020, 1023
CREATE_SERVICE_POLICY, DELETE_SERVICE_POLICY = 1100, 1102
CREATE_EDGE_ROUTER_POLICY = 1110
CREATE_SERVICE_EDGE_ROUTER_POLICY = 1120
CREATE_TERMINATOR = 1300
CREATE_CIRCUIT = 1400
SHOW_COUNTS = 1502
COMPACT = 1510
SET_INTERCEPT, CLEAR_INTERCEPT = 1600, 1601
PICK, LIST_CLASHES = 1610, 1611

STATUSES = {
    "dry": {0, 2, 3, 4, 5, 8, 9},
    "replay": {0, 2, 3, 4, 5, 6, 7, 8, 9, 10},
    "replay --sessions": {0, 2, 3, 4, 5, 6, 7, 8, 9, 10},
    "audit": {0, 5, 6, 7, 8},
    "advise ann web": {0, 5, 6, 7, 8},
    "ship 0": {0, 5, 6, 7, 8},
    "ship 5": {0, 5, 6, 7, 8},
    "compact": {0, 6, 7, 8, 10},
}


def frame(content, body, sequence=0):
    """The bytes of a request without headers; a body that is not bytes is written as compact JSON."""
    if not isinstance(body, bytes):
        body = json.dumps(body, separators=(",", ":"), sort_keys=True).encode()
    return MARKER + struct.pack("<IIII", content, sequence, 0, len(body)) + body


def shipped(said):
    """The batches that `ship` said: the serial of each, and its pieces joined. Each frame has to be whole, and each piece the next one."""
    batches, at = [], 0
    while at < len(said):
        front, content, place, headers, body = struct.unpack_from("<IIIII", said, at)
        assert (front, headers) == (int.from_bytes(MARKER, "little"), 40) and content in (1900, 1901) and 0 < body <= 2**20, (at, content, headers, body)
        serial, = struct.unpack_from("<8xQ", said, at + 20)
        piece, pieces = struct.unpack_from("<8xI8xI", said, at + 36)
        data = said[at + 60:at + 60 + body]
        assert len(data) == body, at
        batches = batches + [(serial, data)] if piece == 0 else batches[:-1] + [(serial, batches[-1][1] + data)]
        assert piece < pieces and batches[-1][0] == serial
        at += 60 + body
    return batches


def whole_frames(data):
    """The whole frames at the front of some bytes: content type and body of each."""
    found, at = [], 0
    while len(data) - at >= 20:
        headers, body = struct.unpack_from("<II", data, at + 12)
        end = at + 20 + headers + body
        if end > len(data):
            break
        found.append((struct.unpack_from("<I", data, at + 4)[0], data[at + 20 + headers:end]))
        at = end
    return found


def opened(session, role=0, name=""):
    """A record that opens a session: of an administrator (0), a router (1) or an identity (2) by its name."""
    return bytes([1, session, role, len(name)]) + name.encode()


def data_record(session, data):
    """A record that brings bytes of a session."""
    return bytes([2, session]) + struct.pack("<H", len(data)) + data


def closed(session):
    """A record that closes a session."""
    return bytes([3, session])


def example(name):
    """The frames of the lines of examples/NAME.lines, and the bodies of the replies to them."""
    with open(os.path.join(TOP, "docs", "FORMATS.md"), encoding="utf-8") as file:
        types = {name: int(number) for number, name in re.findall(r"^\| (\d+) \| (\w+) \|", file.read(), re.M)}
    with open(os.path.join(TOP, "examples", name + ".lines"), encoding="utf-8") as file:
        lines = [line.rstrip("\n") for line in file if line.strip() and not line.lstrip().startswith("#")]
    with open(os.path.join(TOP, "examples", name + ".replies"), encoding="utf-8") as file:
        bodies = [line.rstrip("\n").split(" ", 2)[2].encode() for line in file]
    requests, number = [], 0
    for line in lines:
        first, _, rest = line.partition(" ")
        number, line = (int(first), rest) if first.isdigit() else (number + 1, line)
        name, _, body = line.partition(" ")
        requests.append(frame(types[name], body.encode(), number))
    return requests, bodies


def run(program, words, stdin, folder, seconds=600, limit=None):
    """Runs the program to its end in a folder. Gives its status, standard output and standard error."""
    done = subprocess.run([program] + words.split(), input=stdin, capture_output=True, cwd=folder, timeout=seconds, preexec_fn=limit)
    return done.returncode, done.stdout, done.stderr


def resident(number):
    """The peak so far of a process's resident memory, in KiB; 0 once it has ended. What its parent held when it was made is not counted."""
    with open(f"/proc/{number}/status", encoding="ascii") as file:
        return sum(int(line.split()[1]) for line in file if line.startswith("VmHWM:"))


class Peak(threading.Thread):
    """Looks at the peak of a process's resident memory again and again until it has ended."""

    def __init__(self, number):
        super().__init__(daemon=True)
        self.number, self.most = number, 0
        self.start()

    def run(self):
        with contextlib.suppress(FileNotFoundError, ProcessLookupError):
            while found := resident(self.number):
                self.most = max(self.most, found)
                time.sleep(0.01)


def counts(program, folder):
    """What `audit` says of a folder, which has to open."""
    status, said, noted = run(program, "audit", b"", folder)
    assert status == 0, (status, noted)
    return json.loads(said)
