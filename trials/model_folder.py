"""Folders as docs/FORMATS.md describes them, and the runs on them of docs/RULES.md, 'The controller with a folder' and 'How a run ends': a part of the independent model
(docs/TRIALS.md)."""

import copy
import json
import struct

import frames
import model_bodies as bodies
import model_commands as commands
import model_rows as rows
import model_rules as rules
import model_sessions as sessions

SLOTS, MARK = ("ziti.0", "ziti.1"), "ziti.mark"
FILES = SLOTS + (MARK,)
HEADERS = {form: b"ZCTL" + bytes([form, 0, 0, 0]) for form in (1, 2)}
SLOT_BOUND, MARK_BOUND = 2**30, 2**20
USAGE = "zitictl: usage: zitictl dry | replay [--sessions] | audit | compact | load N | advise I S | ship N | follow\n"


class Damaged(Exception):
    """A folder that opens to no state: the slot, the place in it, and what stands there."""

    def __init__(self, slot, place, what):
        super().__init__(slot, place)
        self.what, self.note = what, f"zitictl: damaged: file {slot} at {place}\n"


class FolderFull(Exception):
    """A compaction or migration without room: in the journal or in the mark."""

    def __init__(self, part):
        super().__init__(part)
        self.part, self.what, self.note = part, f"{part} full", f"zitictl: {part} full\n"


# Batches.


def put(key, row):
    return b"\1" + bytes([len(key)]) + key + rows.number(len(row)) + row


def batch_between(before, after):
    """The batch between the rows of two states."""
    changed = (key for key in sorted(before.keys() | after.keys()) if before.get(key) != after.get(key))
    return b"".join(put(key, after[key]) if key in after else b"\2" + bytes([len(key)]) + key for key in changed)


def operations(payload):
    """The operations that a payload spells: keys with values, or with None where they are deleted; None where it spells no batch."""
    found, fields = [], rows.Fields(payload)
    try:
        while not fields.ended():
            word, key = fields.number(1), fields.bytes(fields.number(1))
            if word not in (1, 2) or found and key <= found[-1][0]:
                return None
            found.append((key, fields.bytes(fields.number()) if word == 1 else None))
    except rows.NoState:
        return None
    return found


def is_difference(present, listed):
    """Whether operations are a true difference of some rows: at least one, each of which changes a row, or deletes one that is there."""
    return bool(listed) and all(present.get(key) != row for key, row in listed)


def carry_out(present, listed):
    for key, row in listed:
        if row is None:
            del present[key]
        else:
            present[key] = row


def serial_in(row):
    """The serial that a row tells, if one stands there: 0 without a row; None where it tells none."""
    if row is None:
        return 0
    found = int.from_bytes(row, "little")
    return found if len(row) == 8 and found > 0 else None


def raises(present, listed):
    """Whether operations raise the serial by one."""
    key = bytes([rows.SERIAL])
    before, after = serial_in(present.get(key)), serial_in(dict(listed).get(key, present.get(key)))
    return before is not None and after == before + 1


# Slots.


def read_slot(slot, data):
    """The format of a slot, its rows, its payloads, each with the serial behind it, and the place of its closed gate."""
    form = next((form for form, header in HEADERS.items() if data[:8] == header), None)
    if form is None:
        raise Damaged(slot, 0, "the header")
    present, payloads, at = {}, [], 8
    while data[at:at + 1] == b"\1":
        size = struct.unpack_from("<I", data, at + 1)[0] if len(data) >= at + 5 else len(data)
        if at + 5 + size > len(data):
            raise Damaged(slot, at, "the size of a record")
        listed = operations(data[at + 5:at + 5 + size])
        if listed is None or not is_difference(present, listed):
            raise Damaged(slot, at, "a batch" if listed is None else "a difference")
        if form == 2 and at > 8 and not raises(present, listed):
            raise Damaged(slot, at, "a serial")
        carry_out(present, listed)
        payloads.append((data[at + 5:at + 5 + size], serial_in(present.get(bytes([rows.SERIAL])))))
        at += 5 + size
    if at >= len(data):
        raise Damaged(slot, at, "no gate")
    return form, present, payloads, at


class Look:
    """What a folder opens to: the format, the state, its rows and what gave them, the slot that stands, its end, and the length of the mark; the start where that is 0."""

    def __init__(self, files):
        self.mark = len(files.get(MARK, b""))
        self.form, self.slot, self.rows, self.payloads, self.end, self.state = 2, 0, {}, [], 8, rules.State()
        if self.mark > 0:
            self.slot = (self.mark - 1) % 2
            self.form, self.rows, self.payloads, self.end = read_slot(self.slot, files.get(SLOTS[self.slot], b""))
            self.state = rows.state_of(self.rows, self.form)
            if self.state is None:
                raise Damaged(self.slot, self.end, "the rows")


class Kept:
    """The controller with a folder: its state, its place, the files, and the calls that changed them. It writes one format, as an earlier version wrote the first."""

    def __init__(self, files, form=2):
        seen = Look(files)
        self.files, self.calls, self.form = dict(files), [], form
        self.state, self.rows, self.slot, self.end, self.mark = seen.state, seen.rows, seen.slot, seen.end, seen.mark
        if self.mark == 0:
            self.write(SLOTS[0], 0, HEADERS[form] + b"\0")
            self.write(MARK, 0, b"\0")
            self.mark = 1
        elif seen.form != form:
            self.rewrite()

    def write(self, name, at, data):
        before = self.files.get(name, b"")
        self.files[name] = before[:at] + data + before[at + len(data):]
        self.calls.append((name, at, data))

    def append(self, batch):
        """Appends a record at the closed gate."""
        self.write(SLOTS[self.slot], self.end + 1, rows.number(len(batch)) + batch + b"\0")
        self.write(SLOTS[self.slot], self.end, b"\1")
        self.end += 5 + len(batch)

    def rewrite(self):
        """Writes the rows into the slot that does not stand, and makes it stand: a compaction, and the migration of a folder of the first format."""
        found = rows.rows(self.state, self.form)
        batch = batch_between({}, found)
        data = HEADERS[self.form] + (b"\1" + rows.number(len(batch)) + batch if batch else b"") + b"\0"
        if len(data) > SLOT_BOUND:
            raise FolderFull("journal")
        if self.mark >= MARK_BOUND:
            raise FolderFull("mark")
        stood, self.slot = self.slot, 1 - self.slot
        self.write(SLOTS[self.slot], 0, data)
        self.write(MARK, self.mark, b"\0")
        self.files[SLOTS[stood]] = b""
        self.calls.append((SLOTS[stood], 0, None))
        self.rows, self.end, self.mark = found, len(data) - 1, self.mark + 1

    def keep(self, saved):
        """Keeps the change of a command, or takes the state back where there is no room for it, and tells which."""
        state, found = self.state, rows.rows(self.state, self.form)
        if found == self.rows:
            return True
        was_last = state.serial == rows.LAST_SERIAL
        state.serial += self.form - 1
        found = rows.rows(state, self.form)
        batch = batch_between(self.rows, found)
        if was_last or self.end + 6 + len(batch) > SLOT_BOUND:
            vars(state).update(saved, revoked={}, ended=[], rerouted={})
            commands.forget(state)
            return False
        self.append(batch)
        self.rows = found
        return True

    def answer(self, content, body, permits=None):
        """Answers a frame as `commands.answer` does, and keeps what it changes."""
        kept = ("tables", "next", "least_router_cost", "intercepts", "serial", "is_settled")
        saved = copy.deepcopy({part: vars(self.state)[part] for part in kept})
        (command, how), succeeds, said = commands.answer(self.state, content, body, permits)
        if not succeeds:
            return (command, how), succeeds, said
        refusal = None
        if command == "Compact":
            try:
                self.rewrite()
            except FolderFull as full:
                refusal = (40, "JournalFull") if full.part == "journal" else (41, "MarkFull")
        elif command not in commands.SHOWING and not self.keep(saved):
            refusal = 40, "JournalFull"
        if refusal:
            return (command, refusal[1]), False, json.dumps({"code": refusal[0], "name": refusal[1]}, separators=(",", ":")).encode()
        return (command, how), succeeds, said


# Runs.


def counts_line(state):
    return commands.answer(state, bodies.CONTENTS["ShowCounts"], b"{}")[2] + b"\n"


def report_line(seen, identity, service):
    return json.dumps(advice(seen.state, identity, service), separators=(",", ":"), sort_keys=True).encode() + b"\n"


def advice(state, identity, service):
    """The report on an identity and a service."""
    request = rules.Request(state, {"identity": identity, "service": service, "ingress": None, "instance": ""})
    router_names, tables = state.tables["router"], state.tables
    one, other = tables["identity"].get(request.identity), tables["service"].get(request.service)
    policies = [policy for policy in tables["service_policy"].values() if policy["type"] == "Dial"]
    failing = [(30, request.identity is None), (31, request.service is None), (33, not request.has_dial(state)), (34, not request.shared), (35, not request.ingresses),
               (36, not request.counted), (37, not request.admissible)]
    rule = next((code for code, fails in failing if fails), 0)
    return {
        "admissible": request.admissible, "terminators": request.counted, "rule": rule, "yes": rule == 0,
        "bind": rules.count(state, "Bind", request.identity, request.service), "dial": rules.count(state, "Dial", request.identity, request.service),
        "common": [router_names[number]["name"] for number in request.shared], "online": [router_names[number]["name"] for number in request.ingresses],
        "policies": [[policy["name"]] + [entity is not None and rules.matches(policy[kind], policy["semantic"], entity)
                                         for kind, entity in (("identity", one), ("service", other))] for policy in policies],
    }


# Shipping.

PIECE = 2**20
WHOLE, NEXT = 1900, 1901


def chosen(seen, start):
    """What is shipped of a folder from a serial on: content types, batches and their serials."""
    if seen.form == 1:
        narrow = {key: row[:2] if 12 <= key[0] <= 15 else row for key, row in seen.rows.items()}
        return [(WHOLE, batch_between({}, narrow), 0)] if narrow and start == 0 else []
    found = [(NEXT if at else WHOLE, payload, serial) for at, (payload, serial) in enumerate(seen.payloads)]
    return found if found and start <= found[0][2] else [row for row in found[1:] if row[2] >= start]


def shipped(seen, start):
    """The frames that are shipped of a folder from a serial on."""
    said = []
    for content, batch, serial in chosen(seen, start):
        pieces = [batch[at:at + PIECE] for at in range(0, len(batch), PIECE)]
        for at, piece in enumerate(pieces):
            headers = struct.pack("<IIQIIIIII", 1000, 8, serial, 1001, 4, at, 1002, 4, len(pieces))
            said.append(frames.MARKER + struct.pack("<IIII", content, len(said), len(headers), len(piece)) + headers + piece)
    return b"".join(said)


LOOKS = {"audit": lambda seen: counts_line(seen.state), "advise": report_line, "ship": lambda seen, word: shipped(seen, int(word))}


class Run:
    """A run on a folder: its status, what it said and noted, the files and the machine, if there is one, behind it, and what damage or want of room there was."""

    def __init__(self, words, files, stdin=b""):
        self.status, self.said, self.notes, self.files, self.kept, self.fault = 0, b"", "", files, None, ""
        words = words.split()
        try:
            if words[0] in LOOKS:
                self.said = LOOKS[words[0]](Look(files), *words[1:])
                return
            self.kept = Kept(files)
            if words[0] == "compact":
                self.kept.rewrite()
            elif len(words) == 2:
                trace = sessions.Trace(stdin, self.kept.answer)
                self.status, self.said, self.notes = trace.status, trace.said, trace.notes
            else:
                self.take(stdin)
        except (Damaged, FolderFull) as fault:
            self.status, self.notes, self.fault = 7 if isinstance(fault, Damaged) else 10, fault.note, fault.what
        if self.kept is not None:
            self.files = self.kept.files

    def take(self, stdin):
        """Answers the frames of a plain input."""
        requests, self.status, self.notes = bodies.read_session(stdin)
        replies = []
        for sequence, content, body in requests:
            _, succeeds, said = self.kept.answer(content, body)
            replies.append(bodies.reply_frame(sequence, len(replies), succeeds, said))
        self.said = b"".join(replies)
