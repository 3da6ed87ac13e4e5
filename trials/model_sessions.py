"""Traces of many sessions and who may send what, by docs/FORMATS.md and docs/RULES.md alone: a part of the independent model (docs/TRIALS.md)."""

import struct

import frames
import model_bodies as bodies

ADMIN, ROUTER, IDENTITY = 0, 1, 2


def is_permitted(role, own, command, fields):
    """Whether a session of a role, in the name of an entity unless it is an administrator's, may send a command."""
    if role == ADMIN or command == "Hello":
        return True
    if role == ROUTER:
        if command in ("ConnectRouter", "DisconnectRouter"):
            return fields["name"] == own
        return command in ("ReportLatency", "ReportState", "CreateTerminator") and fields["router"] == own and fields.get("host") is None
    if command == "CreateTerminator":
        return fields["host"] == own
    return command in ("CreateCircuit", "Explain", "ShowGrants", "ListServices", "Pick", "ListClashes") and fields["identity"] == own


class Session:
    """An open or closed session: its role and name, the bytes behind its last whole frame and their place, its fault, and how many replies it got."""

    def __init__(self, role, name):
        self.role, self.name, self.is_open = role, name, True
        self.rest, self.place, self.fault, self.replies = b"", 0, None, 0

    def permits(self, command, fields):
        return is_permitted(self.role, self.name, command, fields)

    def feed(self, data):
        """The whole frames that some more bytes complete, up to a fault."""
        if self.fault is not None:
            return
        self.rest += data
        while self.rest:
            what = bodies.front(self.rest, 0)
            if what is None:
                return
            if isinstance(what, str):
                self.fault, self.rest = f"{what} at {self.place}", b""
                return
            request, size = what
            self.rest, self.place = self.rest[size:], self.place + size
            yield request


def record_size(data):
    """How many bytes the record at the front of some bytes has; None where it is unfinished."""
    if data[0] == 1:
        size = 4 + data[3] if len(data) >= 4 else None
    elif data[0] == 2:
        size = 4 + struct.unpack_from("<H", data, 2)[0] if len(data) >= 4 else None
    else:
        size = 2
    return size if size is not None and size <= len(data) else None


def opened(sessions, number, role, name):
    """Opens a session, and tells whether it may be opened."""
    text = name.decode("latin-1")
    if number in sessions or role > IDENTITY or (name != b"" if role == ADMIN else not bodies.NAME.fullmatch(text)):
        return False
    sessions[number] = Session(role, text)
    return True


class Trace:
    """The reading of a trace by a machine that answers commands: the sessions, what was said and noted, and how it ended."""

    def __init__(self, data, answer):
        self.answer, self.sessions, self.said, self.notes, self.status = answer, {}, b"", "", 0
        at = 0
        while at < len(data):
            if data[at] not in (1, 2, 3):
                self.bad_record(at)
                return
            size = record_size(data[at:])
            if size is None:
                break
            if not self.take(data[at:at + size]):
                self.bad_record(at)
                return
            at += size
        self.end(len(data) - at)

    def take(self, record):
        """Takes a whole record, and tells whether it is a good one."""
        kind, number = record[0], record[1]
        if kind == 1:
            return opened(self.sessions, number, record[2], record[4:])
        session = self.sessions.get(number)
        if session is None or not session.is_open:
            return False
        if kind == 3:
            session.is_open = False
            return True
        was_good = session.fault is None
        for sequence, content, body in session.feed(record[4:]):
            _, succeeds, text = self.answer(content, body, session.permits)
            self.said += bytes([4, number]) + bodies.reply_frame(sequence, session.replies, succeeds, text)
            session.replies += 1
        if was_good and session.fault is not None:
            self.notes += f"zitictl: session {number}: {session.fault}\n"
        return True

    def bad_record(self, at):
        self.notes, self.status = self.notes + f"zitictl: trace: BadRecord at {at}\n", 2

    def end(self, left):
        """Ends the trace with so many bytes of an unfinished record."""
        rests = [(f"session {number}", len(self.sessions[number].rest)) for number in sorted(self.sessions)] + [("trace", left)]
        if self.notes:
            self.status = 2
        elif any(size for _, size in rests):
            self.status = 3
            self.notes = "".join(f"zitictl: {what}: {size} bytes left\n" for what, size in rests if size)


# Random traces.

OPENED = {0: (ADMIN, ""), 1: (ROUTER, "r1"), 2: (ROUTER, "r2"), 3: (ROUTER, "r3"), 4: (IDENTITY, "i1"), 5: (IDENTITY, "i2"), 9: (IDENTITY, "r1"), 255: (ADMIN, "")}


def sender(rand, request):
    """The session that sends a request: an administrator's, one that may send it in its own name, or any."""
    (_, content, body), = bodies.read_session(request)[0]
    how = rand.random()
    if how < 0.6:
        return rand.choice([0, 0, 255])
    try:
        command, fields = bodies.meaning(content, body)
        fitting = [number for number, (role, name) in OPENED.items() if role != ADMIN and is_permitted(role, name, command, fields)]
    except bodies.Refused:
        fitting = []
    return rand.choice(fitting) if fitting and how < 0.9 else rand.choice(list(OPENED)) if how > 0.97 else 0


def spoiled_record(rand):
    """A record that is bad where the sessions of these traces are open, or is unfinished."""
    return rand.choice([
        b"\0", b"\4\0", b"\1\0\0\0", b"\1\7\3\1a", b"\1\7\0\1a", b"\1\7\1\0", b"\1\7\2\2a ", b"\1\7\2\1\xff", b"\2\7\0\0", b"\3\7", b"\3\0\3\0", b"\3\0\2\0\1\0x",
        b"\1", b"\1\7\2\5ann", b"\2\0\5\0abcd", b"\3", b"\2\0",
    ])


def random_trace(rand, requests):
    """The requests by many sessions, cut and interleaved; by times with a faulty frame, with rests, and with a bad record at the end."""
    data, waiting = b"".join(frames.opened(number, role, name) for number, (role, name) in OPENED.items()), dict.fromkeys(OPENED, b"")
    for request in requests:
        number = sender(rand, request)
        waiting[number] += request
        if rand.random() < 0.001:
            waiting[rand.choice(list(OPENED))] += b"no marker, no frame"
        if rand.random() < 0.9:
            size = len(waiting[number]) if rand.random() < 0.8 else rand.randint(0, len(waiting[number]))
            data += frames.data_record(number, waiting[number][:size])
            waiting[number] = waiting[number][size:]
    for number, rest in waiting.items():
        data += frames.data_record(number, rest if rand.random() < 0.95 else rest[:-1])
        data += frames.closed(number) if rand.random() < 0.5 else b""
    return data + (spoiled_record(rand) if rand.random() < 0.3 else b"")
