"""Large folders of the first format, row by row as docs/FORMATS.md has them, for trials of the migration (docs/TRIALS.md)."""

import os
import struct

from model_folder import put
from model_rows import names, number, side, text

EVERYONE = {"all": 1, "names": [], "attributes": []}
FILES = ("ziti.0", "ziti.1", "ziti.mark")
IDENTITY, SERVICE, ROUTER, LINK, SERVICE_POLICY, EDGE_POLICY, SERVICE_EDGE_POLICY, TERMINATOR, CIRCUIT = range(1, 10)
DIAL, IDENTITY_ROUTER, SERVICE_ROUTER = 12, 14, 15


def next_number(kind, last):
    """The row by which the numbers of a kind go on behind the last one."""
    return bytes([1, kind]), number(last + 1)


def record(kind, no, value):
    """The row of a record; the tables of records begin behind those of next numbers and of the setting."""
    return struct.pack(">BI", 2 + kind, no), value


def entity(kind, no, name, attributes=()):
    return record(kind, no, text(name) + names(list(attributes)))


def router(no, name):
    """A connected router at cost 0."""
    return record(ROUTER, no, text(name) + names([]) + struct.pack("<HB", 0, 2))


def policy(kind, no, name, marks, left=EVERYONE):
    """A policy on all, of all if no other left side is given, with its type, if it has one, and its semantic."""
    return record(kind, no, text(name) + bytes(marks) + side(left) + side(EVERYONE))


def named(name):
    """The side of one entity, by its name."""
    return {"all": 0, "names": [name], "attributes": []}


def count(table, left, right, many=1):
    """A count of the first format, of four bytes."""
    return struct.pack(">BII", table, left, right), number(many)


def terminator(no, service, at):
    return record(TERMINATOR, no, number(service) + number(at) + number(0) + text("") + struct.pack("<HB", 0, 2))


def circuit(no, identity, service, at, ingress):
    """A circuit without links, so that it ends at the router by which it enters."""
    return record(CIRCUIT, no, b"".join(map(number, (identity, service, at, ingress))) + b"\0")


def put_rows(rows):
    """The batch that puts these rows, of which the keys have to differ."""
    return b"".join(put(key, row) for key, row in sorted(rows))


def narrowed(rows):
    """The rows of the second format for those of the first: a count without its last two bytes."""
    return [(key, row[:2] if DIAL <= key[0] <= SERVICE_ROUTER else row) for key, row in rows]


def slot_of(batches):
    """The bytes of a slot that has these batches."""
    return b"ZCTL\1\0\0\0" + b"".join(b"\1" + number(len(batch)) + batch for batch in batches) + b"\0"


def write(folder, batches):
    """Writes the folder of which the first slot stands and has these batches. Gives how many bytes that slot has."""
    slot = slot_of(batches)
    with open(os.path.join(folder, FILES[0]), "wb") as file:
        file.write(slot)
    with open(os.path.join(folder, FILES[2]), "wb") as file:
        file.write(b"\0")
    return len(slot)


def sizes(folder):
    """How many bytes each file of a folder has, none where it is absent."""
    paths = [os.path.join(folder, name) for name in FILES]
    return [os.path.getsize(path) if os.path.exists(path) else 0 for path in paths]


def made(kind, no, name, attributes=()):
    """The rows that one identity or service more puts."""
    return [next_number(kind, no), entity(kind, no, name, attributes)]


def small():
    """The batches of a folder with a record of most kinds: ann may dial web, which is offered at the router by which she enters, and has a circuit."""
    web = [next_number(SERVICE, 1), entity(SERVICE, 1, "web", ["a"]), next_number(ROUTER, 1), router(1, "r")]
    policies = [next_number(kind, 1) for kind in (SERVICE_POLICY, EDGE_POLICY, SERVICE_EDGE_POLICY)]
    policies += [policy(SERVICE_POLICY, 1, "p", [1, 1]), policy(EDGE_POLICY, 1, "q", [2], named("ann")), policy(SERVICE_EDGE_POLICY, 1, "s", [1])]
    counts = [count(table, 1, 1) for table in (DIAL, IDENTITY_ROUTER, SERVICE_ROUTER)]
    ends = [next_number(TERMINATOR, 1), terminator(1, 1, 1), next_number(CIRCUIT, 1), circuit(1, 1, 1, 1, 1)]
    return [put_rows(rows) for rows in (made(IDENTITY, 1, "ann", ["a", "b"]), web, policies + counts, ends)]
