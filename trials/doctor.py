#!/usr/bin/env python3
"""What `zitilook doctor` says of random folders, beside a reading of their bytes (docs/TRIALS.md).

usage: doctor.py ZITILOOK [FOLDERS [SEED]]

The folders are of both formats, in either slot, stopped, damaged in bytes, records, operations and rows, with gates of one flipped bit, cut and without
a mark. The reading is written from docs/FORMATS.md, 'Findings of a folder'. Where a line tells a byte to be written, the byte is written, and the slot
must be found to have so many records and a closed gate behind them; where a compaction is told behind it, nothing may be wrong behind that. No file may
change.
"""

import collections
import os
import random
import sys
import tempfile

import frames
import model_damage as damage
import model_folder as folders

CAUSES = {"the header": "no-header", "the size of a record": "no-gate", "no gate": "no-gate", "a batch": "no-batch", "a difference": "no-next", "a serial": "no-next", "the rows": "no-state"}
COPY_BACK = "put a copy of the files in their place"


def size_behind(data, at):
    """How long the record behind a gate is with its gate, if it is whole."""
    if len(data) < at + 5:
        return None
    size = 5 + int.from_bytes(data[at + 1:at + 5], "little")
    return size if at + size <= len(data) else None


def span(data, at):
    """Whole records from a gate on: how many, and the place and the state of the gate at which they end."""
    records = 0
    while True:
        if at >= len(data):
            return records, at, "missing"
        if data[at] != 1:
            return records, at, "closed"
        size = size_behind(data, at)
        if size is None:
            return records, at, "cut"
        records, at = records + 1, at + size


def hidden(data, at):
    """How many records a slot would have more if its closed gate were open."""
    records, _, gate = span(data[:at] + b"\1" + data[at + 1:], at)
    return records if gate == "closed" else 0


class Slot:
    """What a slot has."""

    def __init__(self, data):
        self.form = next((form for form, header in folders.HEADERS.items() if data[:8] == header), None)
        self.records, self.at, self.gate = span(data, 8) if self.form else (0, 0, "none")
        self.hidden = hidden(data, self.at) if self.gate == "closed" else 0
        self.text = f"bytes={len(data)} format=none"
        if self.form:
            self.text = f"bytes={len(data)} format={self.form} records={self.records} gate={self.gate} at={self.at} hidden={self.hidden}"

    def line(self, name, stands):
        wrong = stands and (self.form is None or self.gate != "closed" or self.hidden > 0)
        back = COPY_BACK if self.form is None else f"copy the files, and write a byte {1 if self.gate == 'closed' else 0} at {self.at}"
        return f"found {name} {self.text}: {back}" if wrong else f"ok {name} {self.text}"


def mark_line(mark, slots):
    """The line of the mark."""
    if mark:
        return f"ok {folders.MARK} bytes={mark} stands={folders.SLOTS[(mark - 1) % 2]}"
    first, second = (slot.records + slot.hidden > 0 for slot in slots)
    if not first and not second:
        return f"ok {folders.MARK} bytes=0"
    many = "1 byte to ziti.mark for ziti.0, or 2 for ziti.1" if first and second else "1 byte to ziti.mark" if first else "2 bytes to ziti.mark"
    return f"found {folders.MARK} bytes=0: run nothing here, copy the files, and write {many}"


def state_line(files):
    """The line of the state."""
    try:
        folders.Look(files)
        return "ok state"
    except folders.Damaged as found:
        slot, place = found.args
        cause = CAUSES[found.what]
        back = COPY_BACK if cause in ("no-header", "no-state") else f"copy the files, and write a byte 0 at {place}"
        if cause in ("no-batch", "no-next"):
            back = f"copy the files, write a byte 0 at {place}, and run zitictl compact"
        return f"found state file={folders.SLOTS[slot]} at={place} cause={cause}: {back}"


def lines_of(files):
    """All lines."""
    slots = [Slot(files.get(name, b"")) for name in folders.SLOTS]
    mark = len(files.get(folders.MARK, b""))
    stands = [mark > 0 and (mark - 1) % 2 == it for it in range(2)]
    return [mark_line(mark, slots)] + [slot.line(name, it) for slot, name, it in zip(slots, folders.SLOTS, stands)] + [state_line(files)]


def gates(data):
    """The places of the gates of a slot."""
    found, at = [8], 8
    while data[at:at + 1] == b"\1" and size_behind(data, at) is not None:
        at += size_behind(data, at)
        found.append(at)
    return found


def spoil(rand, files):
    """A folder with a gate of another byte, cut, with another header or without its mark."""
    files, way = dict(files), rand.randrange(6)
    name = rand.choice([name for name in folders.SLOTS if files.get(name)] or [folders.SLOTS[0]])
    data = files.get(name, b"")
    if way == 0 and data:
        at = rand.choice([it for it in gates(data) if it < len(data)] or [0])
        files[name] = data[:at] + bytes([data[at] ^ 1 << rand.randrange(8)]) + data[at + 1:]
    elif way == 1:
        files[name] = data[:rand.randint(0, len(data))]
    elif way == 2 and data:
        at = rand.randrange(min(8, len(data)))
        files[name] = data[:at] + bytes([data[at] ^ 1 << rand.randrange(8)]) + data[at + 1:]
    elif way == 3:
        files[folders.MARK] = b""
    elif way == 4:
        files[folders.MARK] = files.get(folders.MARK, b"") + b"\0"
    return files


def folder(rand):
    """A folder of some kind."""
    _, files = damage.history(rand, rand.randint(1, 40), rand.choice([1, 2]))
    if rand.random() < 0.5 and files.get(folders.MARK):
        files = damage.placed(rand, files)
    if rand.random() < 0.3 and files.get(folders.MARK):
        files = damage.damaged(rand, files)
    return spoil(rand, files)


def look(program, files):
    """What `doctor` says of a folder, its status and its note; the files have to stay."""
    with tempfile.TemporaryDirectory() as place:
        for name, data in files.items():
            with open(os.path.join(place, name), "wb") as file:
                file.write(data)
        status, said, noted = frames.run(program, "doctor", b"", place)
        for name in folders.FILES:
            path = os.path.join(place, name)
            kept = open(path, "rb").read() if os.path.exists(path) else None
            assert kept == files.get(name), ("a file changed", name)
        return status, said.decode().splitlines(), noted.decode()


def mended(files, line):
    """The folder with the byte written that a slot's line tells, and how many records the slot then has."""
    name, back = line.split()[1], line.split(": ")[1].split()
    byte, at, data = int(back[-3]), int(back[-1]), files[line.split()[1]]
    keys = dict(it.split("=") for it in line.split(": ")[0].split()[2:])
    return dict(files, **{name: data[:at] + bytes([byte]) + data[at + 1:]}), name, int(keys["records"]) + int(keys["hidden"])


def given_up(files, line):
    """The folder behind the byte and the compaction that a line of damage tells, as the model carries them out; none where that opens to no state."""
    keys = dict(it.split("=") for it in line.split(": ")[0].split()[2:])
    name, at = keys["file"], int(keys["at"])
    files = dict(files, **{name: files[name][:at] + b"\0" + files[name][at + 1:]})
    try:
        kept = folders.Kept(files)
    except folders.Damaged:
        return None
    kept.rewrite()
    return kept.files


def main():
    program, many, seed = os.path.abspath(sys.argv[1]), int((sys.argv + ["", "700"])[2] or 700), int((sys.argv + ["", "", "1"])[3] or 1)
    tally, rand = collections.Counter(), random.Random(seed)
    for case in range(many):
        files = folder(rand)
        expected = lines_of(files)
        status, said, noted = look(program, files)
        wrong = any(line.startswith("found") for line in expected)
        assert said == expected, (case, said, expected)
        assert status == (2 if wrong else 0) and noted == ("zitilook: something is wrong with the folder\n" if wrong else ""), (case, status, noted)
        tally["wrong" if wrong else "well"] += 1
        for line in said:
            tally[line.split()[0] + " " + line.split()[1] + (" " + line.split("cause=")[1].split(":")[0] if "cause=" in line else "")] += 1
        for line in said[1:3]:
            if line.startswith("found") and "write a byte" in line:
                files, name, records = mended(files, line)
                again = look(program, files)[1][1 + folders.SLOTS.index(name)]
                assert f"records={records} gate=closed" in again, (case, line, again)
                tally["ways back"] += 1
        behind = given_up(files, said[3]) if said[3].endswith("zitictl compact") else None
        if behind:
            assert look(program, behind)[0] == 0, (case, said[3])
            tally["records given up"] += 1
    print(f"{many} folders of seed {seed}:", ", ".join(f"{count} {what}" for what, count in sorted(tally.items())))


if __name__ == "__main__":
    main()
