#!/usr/bin/env python3
"""Feeds the word `follow` of the built program what a leader ships, lost, repeated, out of order, cut and changed, and compares with an independent model.

usage: follow.py ZITICTL [COUNT [SEED]]
       follow.py compacted ZITICTL [LEADERS [SEED]]
       follow.py kill ZITICTL [MOMENTS [SEED]]
       follow.py room ZITICTL [MIB [NAME [MEMORY]]]
       follow.py journal ZITICTL

The first form makes leaders by `replay` and `compact`, ships them by `ship 0` and `ship N`, and feeds streams of these frames to copies until COUNT frames were
taken, 20,000 if none is given. Each reply, the status, the notes and each file behind the run have to be those of model_follow.py, which is written from
docs/RULES.md and docs/FORMATS.md alone. Of a stream of one leader without changed bytes, the rows have to be none or some that the leader had, never earlier ones
than before, and no reply is BadShip, BadBatch or Differs. A difference leaves the folder and the input in a new folder, which is named.

The second form compacts leaders between two ships: behind it a copy takes all that is shipped from the serial behind its own on, and is as the leader then. The
third one ends a run of `follow` by `kill -9` at random moments. The fourth one takes long streams by a pipe within 512 MiB of memory, or as many as are
given. The last one compares copies whose slot of 2^30 bytes leaves just room for a batch, or just none.
"""

import collections
import contextlib
import functools
import itertools
import os
import random
import re
import resource
import struct
import subprocess
import sys
import tempfile
import threading
import time

import frames
import model_damage as damage
import model_folder as folders
import model_follow as following
import model_inputs as scenes
import model_rows as rows
import model_runs as runs

NAMED = re.compile(rb'"(?:taken|name)":"([A-Za-z]+)"')
NEVER = {"BadShip", "BadBatch", "Differs"}


# Leaders.


def must_run(program, words, files, stdin=b""):
    """What a run said that has to end with status 0, and the files behind it."""
    status, said, noted, behind = runs.run_on(program, words, files, stdin)
    assert status == 0, (words, status, noted)
    return said, behind


class Leader:
    """The frames that a leader shipped in its life, and the rows that it had, by serials."""

    def __init__(self):
        self.frames, self.rows, self.folders = [], {}, []

    def ship(self, program, files, start):
        """Adds what is shipped of the leader's folder from a serial on, and all rows that the folder tells."""
        found, status, _ = following.read_frames(must_run(program, f"ship {start}", files)[0])
        assert status == 0
        self.frames.append(found)
        present = {}
        for frame in found if start == 0 else []:
            piece = following.piece_in(frame)
            if piece.count > 1:
                return
            listed = folders.operations(piece.body)
            present = following.behind({} if frame.content == folders.WHOLE else present, listed)
            assert self.rows.setdefault(piece.serial, present) == present


def random_leader(program, rand):
    """A leader of random commands: shipped in its middle, behind a compaction, and at its end; by times from a folder of the first format on."""
    leader, files, kind = Leader(), {}, rand.random()
    size = rand.choice([20, 60, 150])
    if kind < 0.3:
        old, files = damage.history(rand, size, 1)
        leader.ship(program, files, 0)
        requests = scenes.behind(rand, old.pools, folders.Kept(files), size).requests
    else:
        requests = scenes.play(rand, size).requests
    for part in (requests[:len(requests) // 2], requests[len(requests) // 2:]):
        leader.folders.append(files)
        files = must_run(program, "replay", files, b"".join(part))[1]
        leader.ship(program, files, 0)
        leader.ship(program, files, rand.choice([0, 1, 5, rand.randrange(1, 60)]))
        if rand.random() < 0.7:
            files = must_run(program, "compact", files)[1]
            leader.ship(program, files, 0)
    leader.folders.append(files)
    return leader


def large_leader(program, rand):
    """A leader whose batches come in pieces, before and behind a compaction."""
    leader = Leader()
    files = damage.sized_folder(2, folders.PIECE * rand.choice([1, 2]) + rand.choice([-1, 0, 1]))
    for words in ("", "compact"):
        files = must_run(program, words, files)[1] if words else files
        leader.ship(program, files, 0)
    leader.folders = [{}]
    return leader


# Changed frames.


def altered_number(rand, data):
    """Another number in as many bytes."""
    size, value = len(data), int.from_bytes(data, "little")
    value = rand.choice([0, 1, 2, value + 1, value + 1, value - 1, value + 2, 1024, 1025, 2**32, 2**63, 2**63 + 1, rand.getrandbits(64)])
    return (value % 2**(8 * size)).to_bytes(size, "little")


def with_headers(rand, headers):
    """Headers, of which there is one at least, of which one is another, lost, longer or repeated, or which stand in another order."""
    found, at, way = list(headers), rand.randrange(len(headers)), rand.randrange(8)
    key, value = found[at]
    if way <= 2:
        found[at] = key, altered_number(rand, value)
    elif way == 3:
        del found[at]
    elif way == 4:
        found[at] = key, value[:rand.randrange(len(value) + 1)] + rand.choice([b"", b"\0"])
    elif way == 5:
        found.insert(rand.randrange(len(found) + 1), (key, rand.choice([value, altered_number(rand, value), b"", value + b"\0"])))
    elif way == 6:
        found.insert(rand.randrange(len(found) + 1), (rand.choice([1, 999, 1003, rand.getrandbits(32)]), rand.randbytes(rand.randrange(20))))
    else:
        rand.shuffle(found)
    return found


def with_operations(rand, batch):
    """Another batch: operations that are lost, repeated, swapped, deletions or of another row; or the bytes themselves where they spell none."""
    listed = folders.operations(batch)
    if not listed:
        return batch
    at, way = rand.randrange(len(listed)), rand.randrange(7)
    key, row = listed[at]
    if way == 0:
        del listed[at]
    elif way == 1:
        listed.insert(at, listed[at])
    elif way == 2:
        listed[at] = key, None
    elif way == 3 and row:
        place = rand.randrange(len(row))
        listed[at] = key, row[:place] + bytes([row[place] ^ 1 << rand.randrange(8)]) + row[place + 1:]
    elif way == 4:
        listed = sorted(dict(listed + [(bytes([2]), rows.number(rand.choice([10, 20, 0, 65_535, 65_536])))]).items())
    elif way == 5:
        listed = damage.with_serial(listed, rand.choice([None, 0, 1, 5, 2**63, 2**63 + 1, rand.randrange(60), b"", b"\1" * 7, b"\1" * 9]))
    else:
        listed = sorted(dict(listed + [(rand.choice([b"", b"\1\1", b"\3\0\0\0\1", b"\x10\0\0\0\1", b"\x12", b"\xff" * 255]), rand.randbytes(rand.randrange(6)))]).items())
    return damage.batch_text(listed)


def with_bytes(rand, data):
    """Bytes that are cut, longer, or others at a place."""
    at, way = rand.randrange(len(data) + 1), rand.randrange(4)
    if way == 0:
        return data[:at]
    if way == 1:
        return data[:at] + rand.randbytes(rand.randint(1, 6)) + data[at:]
    if way == 2:
        return data[:at] + data[at + rand.randint(1, 6):]
    return data[:at] + bytes([data[at] ^ 1 << rand.randrange(8)]) + data[at + 1:] if at < len(data) else data


def higher(rand, frame):
    """A batch that goes by another serial, in its header and in its rows."""
    serial = max(0, int.from_bytes(dict(frame.headers).get(1000, b""), "little") % 2**63 + rand.choice([-1, 1, 1, 2, 3, 2**62]))
    listed = damage.with_serial(folders.operations(frame.body) or [], serial or None)
    headers = [(key, struct.pack("<Q", serial) if key == 1000 else value) for key, value in frame.headers]
    return following.Frame(frame.content, frame.sequence, headers, damage.batch_text(listed)[:folders.PIECE])


def altered(rand, frame):
    """The bytes of a frame with some change that leaves it a whole frame, most times."""
    content, headers, body, way = frame.content, frame.headers, frame.body, rand.randrange(100)
    if way < 25 and headers:
        headers = with_headers(rand, headers)
    elif way < 55:
        body = with_operations(rand, body)
    elif way < 70:
        body = with_bytes(rand, body)[:folders.PIECE]
    elif way < 80:
        return higher(rand, frame).bytes()
    elif way < 88:
        content = 3801 - content
    elif way < 92:
        content = rand.choice([0, 1899, 1902, 1000, 2, rand.getrandbits(32)])
    elif way < 96:
        return split(rand, frame)
    elif headers:
        return altered(rand, following.Frame(content, frame.sequence ^ rand.getrandbits(32), with_headers(rand, headers), body))
    return following.Frame(content, frame.sequence, headers, body).bytes()


def split(rand, frame):
    """The two pieces of a whole that begins with bytes of no batch, or a first piece alone: as large ones do, in which other frames come between."""
    filler = bytes([rand.choice([0, 1, 2])]) * folders.PIECE if rand.random() < 0.05 else frame.body
    heads = [[(1000, dict(frame.headers).get(1000, b"")), (1001, struct.pack("<I", at)), (1002, struct.pack("<I", 2))] for at in (0, 1)]
    pieces = [following.Frame(frame.content, frame.sequence + at, heads[at], body) for at, body in enumerate((filler, frame.body))]
    return b"".join(piece.bytes() for piece in pieces)


# Streams.


def drawn(rand, leader, size):
    """Frames of a leader: in their order with losses and repeats, in another order nearby, or any at all."""
    whole = [frame for part in leader.frames for frame in part]
    start = rand.choice([0, 0, 0, 0, rand.randrange(len(whole))])
    lost, found = rand.choice([0, 0, 0.02, 0.2]), []
    while len(found) < size:
        for frame in whole[start:]:
            if rand.random() >= lost:
                found += [frame] * rand.choices([1, 2, 4], [20, 2, 1])[0]
        if rand.random() < 0.5:
            whole = list(rand.choice(leader.frames)) or whole
        start = rand.choice([0, rand.randrange(len(whole))])
    found, width = found[:size], rand.choice([0, 0, 3, 20])
    if width:
        places = sorted(range(len(found)), key=lambda at: at + rand.uniform(0, width))
        found = [found[at] for at in places]
    elif rand.random() < 0.15:
        rand.shuffle(found)
    return found


def stream(rand, leader, other, size, tally):
    """The bytes of a stream, and whether it is of one leader and no byte is changed."""
    changing, foreign = rand.choice([(0, 0)] * 6 + [(0.05, 0), (0.3, 0), (0.3, 0), (0.02, 0.02), (0, 0.1), (0.9, 0)])
    said, is_pure = [], True
    for frame in drawn(rand, leader, size):
        if rand.random() < foreign:
            frame, is_pure = rand.choice(rand.choice([part for part in other.frames if part])), False
        if rand.random() < changing:
            said.append(altered(rand, frame))
            is_pure = False
            tally["changed frames"] += 1
            if rand.random() < 0.5:
                said.append(frame.bytes())
        else:
            said.append(frame.bytes())
    data = b"".join(said)
    if rand.random() < 0.1:
        data = data[:len(data) - rand.randint(1, min(len(data), 150))] if rand.random() < 0.6 else with_bytes(rand, data)
        is_pure = False
        tally["streams with cut or changed bytes"] += 1
    return data, is_pure


# Comparing.


def compare(program, word, files, data):
    """Compares a run with the model's, and ends the trial where it is another one."""
    run = following.Run(files, data)
    found, expected = runs.run_on(program, "follow", files, data), runs.told(run)
    if found == expected:
        return run
    print(f"{word}: another run of `follow`")
    runs.tell_difference(expected, found)
    theirs = runs_of(found[1])
    place = next((at for at, pair in enumerate(zip(runs_of(run.said), theirs)) if pair[0] != pair[1]), None)
    print("the first reply that differs:", place, place is not None and (run.answers[place], theirs[place]))
    kept = tempfile.mkdtemp(prefix="difference")
    for name, held in dict(files, stdin=data).items():
        with open(os.path.join(kept, name), "wb") as file:
            file.write(held)
    print(f"the folder before it, and the input: {kept}")
    sys.exit(1)


def runs_of(said):
    return [body for _, body in frames.whole_frames(said)]


def check_one_history(word, leader, before, run):
    """What holds of a stream of one leader, whatever is lost, repeated or out of order."""
    last = before
    for name, own in run.answers:
        assert name not in NEVER and own >= last, (word, name, own, last)
        last = own
    found = run.copy.rows
    assert not found or not leader.rows or found == leader.rows[last], (word, last)


def follow_leader(program, word, rand, leader, other, tally):
    """Feeds some streams to a copy, run by run. Gives how many frames were taken."""
    start = rand.random()
    files = {} if start < 0.7 else rand.choice(leader.folders) if start < 0.9 else damage.history(rand, 10, rand.choice([1, 2]))[1]
    taken, is_pure = 0, start < 0.9
    for number in range(rand.choice([1, 2, 4])):
        size = rand.choice([5, 60, 150]) if leader.rows else rand.choice([3, 8, 12])
        data, is_clean = stream(rand, leader, other, size, tally)
        before = folders.Look(files).state.serial
        run = compare(program, f"{word}, run {number}", files, data)
        is_pure = is_pure and is_clean
        if is_pure:
            check_one_history(f"{word}, run {number}", leader, before, run)
            tally["frames of one leader"] += len(run.answers)
        for name, _ in run.answers:
            tally["answer " + name] += 1
        tally[f"status {run.status}"] += 1
        files, taken = run.files, taken + len(run.answers)
        if rand.random() < 0.2:
            must_run(program, "audit", files)
    return taken


def compare_edges(program, seed):
    """Copies whose mark is full, and folders that open to no state."""
    rand = random.Random(f"edges {seed}")
    leader = random_leader(program, rand)
    listed = [frame for part in leader.frames for frame in part]
    wholes = [whole_of(serial, listed[0].body) for serial in range(1, 6)]
    data = b"".join(wholes + [frame.bytes() for frame in listed] * 2)
    files, answers = following.Run({}, data).files, collections.Counter()
    for size in (folders.MARK_BOUND, folders.MARK_BOUND - 1, folders.MARK_BOUND - 2):
        early = {"ziti.0": folders.HEADERS[2] + b"\0", "ziti.1": folders.HEADERS[2] + b"\0", "ziti.mark": b"\0" * size}
        run = compare(program, f"a mark of {size} bytes", early, data)
        answers.update(name for name, _ in run.answers)
        run = compare(program, f"a mark of {size} bytes, once more", run.files, data)
    statuses = collections.Counter()
    for number in range(100):
        spoiled = damage.damaged(rand, damage.placed(rand, rand.choice([files, damage.history(rand, 10, rand.choice([1, 2]))[1]])))
        statuses[compare(program, f"damaged folder {number}", spoiled, data[:5000]).status] += 1
    print(f"edges: full marks {dict(answers)}; damaged folders by status {dict(statuses)}", flush=True)


def main_compare(program, most=20_000, seed=1):
    program, most, begun, taken, number, tally = os.path.abspath(program), int(most), time.monotonic(), 0, 0, collections.Counter()
    compare_edges(program, seed)
    other = random_leader(program, random.Random(f"first {seed}"))
    while taken < most:
        rand = random.Random(f"follow {seed} {number}")
        leader = large_leader(program, rand) if number % 8 == 3 else random_leader(program, rand)
        if any(leader.frames) and any(other.frames):
            for copy in range(40 if leader.rows else 10):
                taken += follow_leader(program, f"seed {seed}, leader {number}, copy {copy}", rand, leader, other, tally)
                tally["copies"] += 1
        if leader.rows:
            other = leader
        number += 1
        if number % 5 == 0:
            print(f"{taken} frames, {number} leaders, {time.monotonic() - begun:.0f} s", flush=True)
    print(", ".join(f"{what} {count}" for what, count in sorted(tally.items())))
    print(f"{taken} frames of {number} leaders, {time.monotonic() - begun:.0f} s, no difference")


# Behind compactions.


class Following:
    """A leader that changes and is compacted, and three copies of it."""

    def __init__(self, program, rand, tally):
        self.program, self.rand, self.tally = program, rand, tally
        self.leader, self.copies, self.shipped, self.is_compacted = {}, [{}, {}, {}], [], [False] * 3

    def change(self, requests):
        """The leader takes some commands, and is compacted by times before them, behind them or both."""
        for words, many in (("compact", 0.3), ("replay", 1), ("compact", 0.4)):
            if self.rand.random() < many:
                self.leader = must_run(self.program, words, self.leader, b"".join(requests) if words == "replay" else b"")[1]
                if words == "compact":
                    self.is_compacted = [True] * 3

    def ship(self, start):
        """The frames of the leader from a serial on."""
        found, status, _ = following.read_frames(must_run(self.program, f"ship {start}", self.leader)[0])
        assert status == 0
        self.shipped.append(found)
        return found

    def take(self, word, at, listed):
        """A copy takes some frames: it is as before or as a state of the leader, and never falls back."""
        before = folders.Look(self.copies[at]).state.serial
        run = compare(self.program, word, self.copies[at], b"".join(frame.bytes() for frame in listed))
        assert run.status == 0 and run.copy.own() >= before and not NEVER & {name for name, _ in run.answers}, (word, run.answers)
        self.copies[at] = run.files
        return [name for name, _ in run.answers]

    def go_on(self, word, at):
        """A copy takes what is shipped from the serial behind its own, or from 0 where it has no record: all of it, and then it is as the leader."""
        records, present = records_of(self.copies[at])
        start = folders.serial_in(present.get(following.SERIAL_KEY)) + 1 if records else 0
        listed = self.ship(start)
        names = self.take(word, at, listed)
        assert set(names) <= {"Took", "Piece"}, (word, start, names)
        assert records_of(self.copies[at])[1] == records_of(self.leader)[1], word
        if records and self.is_compacted[at]:
            self.tally["went on behind a compaction by " + ("a Whole" if listed and listed[0].content == folders.WHOLE else "Nexts" if listed else "nothing")] += 1
        self.is_compacted[at] = False
        self.tally["went on"] += 1

    def turn(self, word, at):
        """What a copy takes by times before it goes on: all from 0, from one serial too far, frames of earlier ships, and a ship that is cut off."""
        way = self.rand.randrange(6)
        own = folders.Look(self.copies[at]).state.serial
        listed = self.ship(0) if way == 0 else self.ship(own + self.rand.choice([2, 2, 3])) if way == 1 else []
        if way == 2:
            listed = self.rand.choice(self.shipped or [[]])
        elif way == 3:
            listed = self.ship(own + 1)
            listed = listed[:self.rand.randrange(len(listed) + 1)]
        elif way == 4:
            early = self.rand.choice(self.shipped or [[]])
            listed = early[:self.rand.randrange(len(early) + 1)] + self.ship(self.rand.choice([0, own, own + 1]))
        for name in self.take(f"{word}, way {way}", at, listed):
            self.tally[f"{('all from 0', 'one too far', 'an earlier ship', 'a ship cut off', 'a ship cut off, and one more')[way]}: {name}"] += 1


def main_compacted(program, many=100, seed=1):
    """Leaders that are compacted between two ships, and copies that go on behind it by the serial behind their own."""
    program, begun, tally = os.path.abspath(program), time.monotonic(), collections.Counter()
    for number in range(int(many)):
        rand = random.Random(f"compacted {seed} {number}")
        trial = Following(program, rand, tally)
        if rand.random() < 0.2:
            old, trial.leader = damage.history(rand, 20, 1)
            requests = scenes.behind(rand, old.pools, folders.Kept(trial.leader), 80).requests
        elif rand.random() < 0.2:
            trial.leader, requests = damage.sized_folder(2, folders.PIECE * rand.choice([1, 2]) + rand.choice([-1, 0, 1])), damage.probes(rand)
        else:
            requests = scenes.play(rand, 80).requests
        for part in range(0, len(requests), 8):
            word = f"seed {seed}, leader {number}, part {part}"
            trial.change(requests[part:part + 8])
            for at in range(3):
                if rand.random() < 0.5:
                    trial.turn(word, at)
                if rand.random() < (0.9, 0.5, 0.2)[at]:
                    trial.go_on(word, at)
        if number % 20 == 19:
            print(f"{number + 1} leaders, {time.monotonic() - begun:.0f} s", flush=True)
    print("\n".join(f"{what}: {count}" for what, count in sorted(tally.items())))
    print(f"{many} leaders of seed {seed}, {time.monotonic() - begun:.0f} s, no difference")


# Stops.


def long_stream(program, size):
    """Frames of a leader of so many commands, of which each is taken: its changes, and by times, in the place of some of them, its rows behind a compaction."""
    found, files = [], {}
    for part in range(4):
        kept = [frames.frame(frames.CREATE_IDENTITY, {"name": f"n{part}x{i}", "attributes": [f"a{i % 7}"]}, i) for i in range(size // 4)]
        files = must_run(program, "compact", must_run(program, "replay", files, b"".join(kept[:size // 20]))[1])[1]
        found += following.read_frames(must_run(program, "ship 0", files)[0])[0]
        files = must_run(program, "replay", files, b"".join(kept[size // 20:]))[1]
        found += following.read_frames(must_run(program, "ship 0", files)[0])[0][1:]
    return found


def killed_run(program, folder, delay):
    """Runs `follow` and kills it after some seconds. Gives how many replies it wrote whole."""
    with open(folder + "/in", "rb") as source, open(folder + "/out", "wb") as replies:
        child = subprocess.Popen([program, "follow"], stdin=source, stdout=replies, stderr=subprocess.DEVNULL, cwd=folder)
        time.sleep(delay)
        child.kill()
        child.wait()
    with open(folder + "/out", "rb") as file:
        return len(frames.whole_frames(file.read()))


def files_of(folder):
    found = {}
    for name in folders.FILES:
        if os.path.exists(os.path.join(folder, name)):
            with open(os.path.join(folder, name), "rb") as file:
                found[name] = file.read()
    return found


def records_of(files):
    """The payloads and the rows of a folder."""
    mark = len(files.get(folders.MARK, b""))
    if mark == 0:
        return [], {}
    slot = (mark - 1) % 2
    _, present, payloads, _ = folders.read_slot(slot, files[folders.SLOTS[slot]])
    return [payload for payload, _ in payloads], present


def fronts(listed):
    """The payloads of the copy behind each front of some frames, none of which is refused."""
    found, present = [[]], []
    for frame in listed:
        present = [frame.body] if frame.content == folders.WHOLE else present + [frame.body]
        found.append(present)
    return found


def main_kill(program, moments=500, seed=1):
    program, rand = os.path.abspath(program), random.Random(int(seed))
    listed = long_stream(program, 400)
    data, behind = b"".join(frame.bytes() for frame in listed), fronts(listed)
    begun = time.monotonic()
    assert must_run(program, "follow", {}, data)[0].count(b'"Took"') == len(listed)
    whole, ahead, middle = time.monotonic() - begun, collections.Counter(), 0
    for number in range(int(moments)):
        with tempfile.TemporaryDirectory() as folder:
            with open(folder + "/in", "wb") as file:
                file.write(data)
            answered = killed_run(program, folder, rand.uniform(0, whole * 1.05))
            frames.counts(program, folder)
            payloads, _ = records_of(files_of(folder))
            kept = next((at for at in range(answered, len(behind)) if behind[at] == payloads), None)
            assert kept is not None, (number, answered, len(payloads))
            ahead[kept - answered] += 1
            middle += 0 < kept < len(listed)
            status, said, noted = frames.run(program, "follow", data, folder)
            names = [body.split(b'taken":"')[1][:-2] for body in runs_of(said)]
            assert status == 0 and len(names) == len(listed) and set(names[kept:]) <= {b"Took"} and set(names[:kept]) <= {b"Old", b"Repeat"}, (number, noted)
            assert records_of(files_of(folder))[0] == behind[-1]
        if number % 50 == 49:
            print(f"{number + 1} stops: {middle} in the middle, frames kept without a reply: {dict(sorted(ahead.items()))}", flush=True)
    print(f"{moments} stops of a run of {len(listed)} frames, {whole:.2f} s whole: {middle} in its middle; frames kept without a reply: {dict(sorted(ahead.items()))}; none lost")


# Room and time.


def count_answers(replies, answers):
    """Counts the names of the answers of some replies as they come, and keeps none of them."""
    rest = b""
    while data := replies.read1(2**20):
        rest += data
        end = rest.rfind(frames.MARKER)
        answers.update(NAMED.findall(rest[:end]) if end > 0 else [])
        rest = rest[max(end, 0):]
    answers.update(NAMED.findall(rest))


def fed(program, parts, folder, bound):
    """A run within some bytes of memory that gets some parts by a pipe, none of which is kept: MiB sent, status, processor seconds, all seconds, MiB resident, answers, notes."""
    sent, answers, begun = 0, collections.Counter(), time.monotonic()
    bounded = functools.partial(resource.setrlimit, resource.RLIMIT_AS, (bound, bound))
    with open(folder + "/err", "wb") as noted:
        child = subprocess.Popen([program, "follow"], stdin=subprocess.PIPE, stdout=subprocess.PIPE, stderr=noted, cwd=folder, preexec_fn=bounded)
    reader = threading.Thread(target=count_answers, args=(child.stdout, answers))
    reader.start()
    peak = frames.Peak(child.pid)
    with contextlib.suppress(BrokenPipeError):
        for part in parts:
            child.stdin.write(part)
            sent += len(part)
    with contextlib.suppress(BrokenPipeError):
        child.stdin.close()
    _, ended, used = os.wait4(child.pid, 0)
    child.returncode = os.waitstatus_to_exitcode(ended)
    reader.join()
    with open(folder + "/err", encoding="utf-8") as noted:
        told = {name.decode(): count for name, count in answers.items()}
        return sent / 2**20, child.returncode, used.ru_utime + used.ru_stime, time.monotonic() - begun, peak.most / 1024, told, noted.read().strip()


def whole_of(serial, payload):
    """A Whole of a batch under another serial, in pieces."""
    body = damage.batch_text(damage.with_serial(folders.operations(payload), serial))
    parts = [body[at:at + folders.PIECE] for at in range(0, len(body), folders.PIECE)]
    heads = [[(1000, struct.pack("<Q", serial)), (1001, struct.pack("<I", at)), (1002, struct.pack("<I", len(parts)))] for at in range(len(parts))]
    return b"".join(following.Frame(folders.WHOLE, at, head, part).bytes() for at, (head, part) in enumerate(zip(heads, parts)))


def nexts(serial, at):
    """A Next that changes the least router cost."""
    body = folders.put(b"\2", rows.number(20 + at % 2)) + folders.put(bytes([rows.SERIAL]), struct.pack("<Q", serial))
    return following.Frame(folders.NEXT, at, [(1000, struct.pack("<Q", serial)), (1001, b"\0" * 4), (1002, b"\1\0\0\0")], body).bytes()


def room_streams(program, rand, size):
    """Long streams by their names: functions that give their parts, each of which is some bytes."""
    listed = long_stream(program, 400)
    once = b"".join(frame.bytes() for frame in listed)
    payload = damage.payloads_of(damage.sized_folder(2, 3 * folders.PIECE // 2)["ziti.0"])[0]
    large = b"".join(frame.bytes() for frame in [following.Frame(1900, 0, [(1000, b"\1" + b"\0" * 7), (1001, b"\0" * 4), (1002, b"\1\0\0\0")], rand.randbytes(2**20))])
    ill = [frame.bytes() for frame in listed]
    yield "repeats of small batches", (once for _ in range(size // len(once) + 1))
    yield "a Whole of 1.5 MiB again and again", (whole_of(1, payload) for _ in range(size * 2 // (3 * 2**20) + 1))
    yield "Wholes of 1.5 MiB, each of the next serial", (whole_of(serial + 1, payload) for serial in range(size * 2 // (3 * 2**20) + 1))
    yield "garbage in frames of 1 MiB", (large for _ in range(size // 2**20))
    yield "garbage in small frames", (b"".join(altered_whole(rand, rand.choice(listed)) for _ in range(1000)) for _ in range(size // (1000 * len(ill[-1])) + 1))
    yield "garbage in the place of frames", (rand.randbytes(2**20) for _ in range(size // 2**20))
    yield "pieces of a batch that never ends", (following.Frame(1900, at, [(1000, b"\1" * 8), (1001, struct.pack("<I", at)), (1002, struct.pack("<I", 1024))], b"\1" * 2**20).bytes()
                                                for at in range(min(size // 2**20, 1023)))


def altered_whole(rand, frame):
    """A frame with random bytes in the place of its body, or of another content type."""
    content = frame.content if rand.random() < 0.7 else rand.getrandbits(32)
    return following.Frame(content, frame.sequence, frame.headers, rand.randbytes(len(frame.body))).bytes()


@functools.lru_cache(maxsize=2)
def attributed(other):
    """The rows of 250 identities with 63 attributes each, some 1 MiB; the other ones have none in common with them."""
    named = [{"name": f"n{no}", "attributes": [f"{'a' * 59}{no % 64:02}{other}{k:02}" for k in range(63)]} for no in range(1, 251)]
    return {struct.pack(">BI", 3, no): rows.value("identity", it) for no, it in enumerate(named, 1)}


def large_nexts(first, size):
    """A small Whole, and behind it Nexts that give 250 identities other attributes, a little more than such a size in all; the first one makes them."""
    yield first
    sent, serial = 0, 2
    while sent < size + 3 * 2**20:
        made = {b"\1\1": rows.number(251)} if serial == 2 else {}
        body = folders.batch_between({}, {**made, **attributed(serial % 2), following.SERIAL_KEY: struct.pack("<Q", serial)})
        frame = following.Frame(folders.NEXT, serial, [(1000, struct.pack("<Q", serial)), (1001, b"\0" * 4), (1002, b"\1\0\0\0")], body).bytes()
        sent, serial = sent + len(frame), serial + 1
        yield frame


def main_room(program, mebibytes=64, only="", memory=512):
    program, size, rand = os.path.abspath(program), int(mebibytes) * 2**20, random.Random(1)
    streams = list(room_streams(program, rand, size))
    first = whole_of(1, folders.batch_between({}, {b"\2": rows.number(30), bytes([rows.SERIAL]): struct.pack("<Q", 1)}))
    streams.append(("Nexts of 1 MiB, each of the next serial", large_nexts(first, size)))
    streams.append(("20,000 Nexts of a small state", itertools.chain([first], (nexts(2 + at, at) for at in range(20_000)))))
    for name, parts in streams:
        if not name.startswith(only):
            continue
        with tempfile.TemporaryDirectory() as folder:
            length, status, processor, seconds, peak, answers, noted = fed(program, parts, folder, int(memory) * 2**20)
            print(f"{name}: {length:.1f} MiB: status {status}, {processor:.1f} processor s, {seconds:.1f} s, {peak:.0f} MiB resident, {answers} {noted}", flush=True)


def main_journal(program):
    for room in (26, 25):
        files = damage.full_journal(2, room)
        records, present = records_of(files)
        own = folders.serial_in(present[following.SERIAL_KEY])
        whole = folders.batch_between({}, {b"\2": rows.number(30), following.SERIAL_KEY: struct.pack("<Q", own + 2)})
        run = compare(os.path.abspath(program), f"a slot with room for {room} bytes", files, nexts(own + 1, 0) + nexts(own + 2, 1) + whole_of(own + 2, whole) + nexts(own + 3, 1))
        print(f"a slot of {len(files['ziti.0'])} bytes and {len(records)} records with room for {room}: {[name for name, _ in run.answers]}", flush=True)


def main():
    forms = {"compacted": main_compacted, "kill": main_kill, "room": main_room, "journal": main_journal}
    words = sys.argv[1:]
    forms.get(words[0], lambda *rest: main_compare(*words))(*words[1:])


if __name__ == "__main__":
    main()
