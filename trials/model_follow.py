"""A copy that follows a leader, by docs/RULES.md, 'Following', and docs/FORMATS.md, 'Ship frames' and 'Replies of a follower': a part of the independent model
(docs/TRIALS.md)."""

import hashlib
import json
import struct

import frames
import model_bodies as bodies
import model_folder as folders
import model_rows as rows

MOST_HEADERS, MOST_BODY, MOST_PIECES = 65_536, 1_048_576, 1024
SERIAL_KEY = bytes([rows.SERIAL])
FINE = ("Took", "Repeat", "Old", "Piece")
CODES = {"JournalFull": 40, "MarkFull": 41, "BadShip": 60, "BadBatch": 61, "Differs": 62, "Ahead": 63, "Skipped": 64}
JUDGED = {}


class Frame:
    """A frame as it is read: content type, sequence, headers in order, body."""

    def __init__(self, content, sequence, headers, body):
        self.content, self.sequence, self.headers, self.body = content, sequence, headers, body

    def bytes(self):
        part = b"".join(struct.pack("<II", key, len(value)) + value for key, value in self.headers)
        return frames.MARKER + struct.pack("<IIII", self.content, self.sequence, len(part), len(self.body)) + part + self.body


def headers_in(part):
    """The headers of a part that they fill exactly, else None."""
    found, at = [], 0
    while at < len(part):
        if at + 8 > len(part):
            return None
        key, size = struct.unpack_from("<II", part, at)
        if at + 8 + size > len(part):
            return None
        found.append((key, part[at + 8:at + 8 + size]))
        at += 8 + size
    return found


def read_frames(data):
    """The frames of a plain input, the status and the note of what is behind them."""
    found, at = [], 0
    while len(data) - at >= 20:
        content, sequence, headers, body = struct.unpack_from("<IIII", data, at + 4)
        fault = "BadMarker" if data[at:at + 4] != frames.MARKER else "TooLong" if headers > MOST_HEADERS or body > MOST_BODY else None
        end = at + 20 + headers + body
        if fault is None and end > len(data):
            break
        listed = headers_in(data[at + 20:at + 20 + headers]) if fault is None else None
        if listed is None:
            return found, 2, f"zitictl: session 0: {fault or 'BadHeaders'} at {at}\n"
        found.append(Frame(content, sequence, listed, data[at + 20 + headers:end]))
        at = end
    return (found, 3, f"zitictl: session 0: {len(data) - at} bytes left\n") if at < len(data) else (found, 0, "")


class Piece:
    """A piece of a batch."""

    def __init__(self, content, serial, number, count, body):
        self.content, self.serial, self.number, self.count, self.body = content, serial, number, count, body


def piece_in(frame):
    """The piece that a frame is, else None."""
    values = dict(frame.headers)
    if frame.content not in (folders.WHOLE, folders.NEXT) or [len(values.get(key, b"")) for key in (1000, 1001, 1002)] != [8, 4, 4]:
        return None
    serial, number, count = (int.from_bytes(values[key], "little") for key in (1000, 1001, 1002))
    if not 1 <= count <= MOST_PIECES or number >= count:
        return None
    size = len(frame.body)
    is_sized = 1 <= size <= folders.PIECE if number == count - 1 else size == folders.PIECE
    return Piece(frame.content, serial, number, count, frame.body) if is_sized else None


def serial_of_valid(found):
    """The serial of the valid state that some rows of the second format are, else None."""
    digest = hashlib.sha256(folders.batch_between({}, found)).digest()
    if digest not in JUDGED:
        state = rows.state_of(found, 2)
        JUDGED[digest] = None if state is None else state.serial
    return JUDGED[digest]


def behind(before, listed):
    found = dict(before)
    folders.carry_out(found, listed)
    return found


class Copy:
    """The copy of a leader in a folder of some files, which is opened, created or migrated; its parts are of one run."""

    def __init__(self, files):
        self.folder = folders.Kept(files)
        slot = self.folder.slot
        _, self.rows, payloads, _ = folders.read_slot(slot, self.folder.files[folders.SLOTS[slot]])
        self.records, self.parts = [payload for payload, _ in payloads], None

    def own(self):
        return folders.serial_in(self.rows.get(SERIAL_KEY)) or 0

    def take(self, frame):
        """The answer to a frame: its name, and what stands in its body besides."""
        piece = piece_in(frame)
        if piece is None:
            return "BadShip", {}
        batch = self.gather(piece)
        return (batch, {}) if isinstance(batch, str) else self.receive(piece.content == folders.WHOLE, piece.serial, batch)

    def gather(self, piece):
        """The batch that a piece makes whole, or the word Skipped or Piece."""
        mark = (piece.content, piece.serial, piece.count)
        if piece.number == 0:
            self.parts = mark, []
        elif self.parts is None or self.parts[0] != mark or len(self.parts[1]) != piece.number:
            return "Skipped"
        self.parts[1].append(piece.body)
        if len(self.parts[1]) < piece.count:
            return "Piece"
        batch = b"".join(self.parts[1])
        self.parts = None
        return batch

    def kept(self, is_whole, serial):
        """The kept batch of a sort and serial, else None."""
        first = self.own() - len(self.records) + 1
        if is_whole:
            return self.records[0] if serial == first else None
        return self.records[serial - first] if serial > first else None

    def receive(self, is_whole, serial, batch):
        """The answer to a whole batch, which is kept where it is Took."""
        listed, own = folders.operations(batch), self.own()
        before = {} if is_whole else self.rows
        if listed is None:
            return "BadBatch", {}
        if is_whole and not (folders.is_difference({}, listed) and folders.serial_in(dict(listed).get(SERIAL_KEY)) == serial):
            return "BadBatch", {}
        if self.records and serial <= own:
            kept = self.kept(is_whole, serial)
            if kept is None or kept == batch:
                return "Old" if kept is None else "Repeat", {}
            at = next((at for at, pair in enumerate(zip(kept, batch)) if pair[0] != pair[1]), min(len(kept), len(batch)))
            return "Differs", {"at": at, "serial": serial}
        if not is_whole and (not self.records or serial > own + 1):
            return "Ahead", {}
        if not folders.is_difference(before, listed):
            return "BadBatch", {}
        after = behind(before, listed)
        return self.put(is_whole, batch, after) if serial_of_valid(after) == serial else ("BadBatch", {})

    def put(self, is_whole, batch, after):
        """Keeps a batch where there is room for it."""
        is_rewritten = is_whole and bool(self.records)
        if (8 if is_rewritten else self.folder.end) + 5 + len(batch) + 1 > folders.SLOT_BOUND:
            return "JournalFull", {}
        if is_rewritten and self.folder.mark >= folders.MARK_BOUND:
            return "MarkFull", {}
        if is_rewritten:
            self.rewrite(folders.HEADERS[2] + b"\1" + rows.number(len(batch)) + batch + b"\0")
        else:
            self.folder.append(batch)
        self.records, self.rows = ([] if is_whole else self.records) + [batch], after
        return "Took", {}

    def rewrite(self, data):
        """Makes the other slot stand, with these bytes."""
        folder, stood = self.folder, self.folder.slot
        folder.slot, folder.end = 1 - stood, len(data) - 1
        folder.write(folders.SLOTS[folder.slot], 0, data)
        folder.write(folders.MARK, folder.mark, b"\0")
        folder.files[folders.SLOTS[stood]] = b""
        folder.mark += 1

    def reply(self, place, frame):
        """The name of the answer to a frame, and the bytes of the reply behind so many ones."""
        name, more = self.take(frame)
        told = {"taken": name, "own": self.own()} if name in FINE else dict(more, code=CODES[name], name=name)
        if name == "Ahead":
            told["own"] = self.own()
        return name, bodies.reply_frame(frame.sequence, place, name in FINE, json.dumps(told, separators=(",", ":"), sort_keys=True).encode())


class Run:
    """A run of `follow` on a folder: its status, what it said and noted, the files behind it, and the names of its answers with the copy's serial behind each."""

    def __init__(self, files, stdin):
        self.status, self.said, self.notes, self.files, self.answers, self.copy = 0, b"", "", files, [], None
        try:
            self.copy = copy = Copy(files)
        except (folders.Damaged, folders.FolderFull) as fault:
            self.status, self.notes = 7 if isinstance(fault, folders.Damaged) else 10, fault.note
            return
        replies = []
        listed, self.status, self.notes = read_frames(stdin)
        for frame in listed:
            name, reply = copy.reply(len(replies), frame)
            replies.append(reply)
            self.answers.append((name, copy.own()))
        self.said, self.files = b"".join(replies), copy.folder.files
