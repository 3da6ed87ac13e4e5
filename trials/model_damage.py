"""Random folders for the independent model (docs/TRIALS.md): of both formats, in either slot, stopped, and damaged in bytes, records, operations and rows."""

import random
import struct

import frames
import model_bodies as bodies
import model_folder as folders
import model_inputs as scenes
import model_rows as rows
import model_rules as rules
import model_spellings as spellings

LAST = rows.LAST_SERIAL


# Whole folders.


def slot_of(form, payloads, rest=b""):
    """A slot of some records, with old bytes behind its closed gate."""
    return folders.HEADERS.get(form, b"ZCTL" + bytes([form]) + b"\0\0\0") + b"".join(b"\1" + rows.number(len(it)) + it for it in payloads) + b"\0" + rest


def payloads_of(data):
    """The payloads of a whole slot."""
    found, at = [], 8
    while data[at:at + 1] == b"\1":
        size = struct.unpack_from("<I", data, at + 1)[0]
        found.append(data[at + 5:at + 5 + size])
        at += 5 + size
    return found


def standing(files):
    """The slot that stands, its format and its payloads."""
    slot = (len(files[folders.MARK]) - 1) % 2
    data = files[folders.SLOTS[slot]]
    return slot, data[4], payloads_of(data)


def old_bytes(rand):
    """Bytes that stood in a file before: none, a few, or a whole slot of either format."""
    garbage = spellings.some_bytes(rand, rand.randint(1, 60))
    return rand.choice([b"", b"", b"\1", garbage, slot_of(1, [folders.put(b"\2", rows.number(20))]), b"\1" + slot_of(2, [garbage]) * rand.choice([1, 200])])


def written(rand, state, form):
    """The files of a folder in which one batch has put all rows of a state."""
    batch = folders.batch_between({}, rows.rows(state, form))
    return {"ziti.0": slot_of(form, [batch] if batch else []), "ziti.mark": b"\0"}


def placed(rand, files):
    """The same folder in either slot, with a mark of other bytes and by times a longer one, and with old bytes in the other slot and behind the closed gate."""
    _, form, payloads = standing(files)
    slot = rand.randrange(2)
    size = slot + 1 + rand.choice([0, 0, 0, 2, 40])
    found = {folders.SLOTS[slot]: slot_of(form, payloads, old_bytes(rand)), folders.MARK: spellings.some_bytes(rand, size)}
    other = old_bytes(rand)
    if other or rand.random() < 0.3:
        found[folders.SLOTS[1 - slot]] = other
    return found


def history(rand, size, form):
    """A scene on a new folder of a format, and the folder behind it: of its changes, or of its rows in one batch; by times with circuits that nothing may grant."""
    kept = folders.Kept({}, form)
    scene = scenes.old_scene(rand, size, kept)
    if rand.random() < 0.6:
        saved = dict(vars(kept.state))
        scenes.plant_circuits(rand, kept.state, rand.randint(1, 6))
        kept.keep(saved)
    if rand.random() < 0.3:
        kept.state.serial = rand.choice([0, 1, 255, 2**32, LAST - 400, LAST - 3, LAST - 1, LAST]) if form == 2 else 0
        return scene, written(rand, kept.state, form)
    return scene, kept.files


# Stops.


def stopped(rand, before, calls):
    """A folder that a stop in the middle of some calls leaves: the synced ones whole, and of the next one a front, or some of its bytes."""
    files, last = dict(before), rand.randrange(len(calls))
    for at, (name, place, data) in enumerate(calls[:last + 1]):
        found = files.get(name, b"")
        if data is None:
            files[name] = b"" if at < last or rand.random() < 0.5 else found
            continue
        if at == last:
            data = data[:rand.randint(0, len(data))]
            if rand.random() < 0.3:
                data = bytes(byte if rand.random() < 0.5 else old for byte, old in zip(data, found[place:place + len(data)].ljust(len(data), b"\0")))
        files[name] = found[:place] + data + found[place + len(data):]
    return files


# Damage.


def put_text(operation):
    key, row = operation
    return folders.put(key, row) if row is not None else b"\2" + bytes([len(key)]) + key


def batch_text(listed):
    return b"".join(map(put_text, listed))


def with_serial(listed, number):
    """Operations with a put of a serial at their end in the place of the one that they have; without one for None."""
    key = bytes([rows.SERIAL])
    found = [operation for operation in listed if operation[0] != key]
    return found if number is None else sorted(found + [(key, number if isinstance(number, bytes) else struct.pack("<Q", number % 2**64))])


def spoil_serial(rand, batches):
    """Another serial in one batch, and by times in all behind it."""
    at, way = rand.choice([0, rand.randrange(len(batches))]), rand.randrange(9)
    key, step = bytes([rows.SERIAL]), rand.choice([-1, -1, -1, 1, 2, 255, 2**32, -2**40])
    for place in range(at, len(batches) if rand.random() < 0.6 else at + 1):
        listed = batches[place]
        old = rows.Fields(dict(listed).get(key) or bytes(8)).number(8)
        news = [old + step, None, 0, LAST, LAST + 1, 2**64 - 1, struct.pack("<Q", old)[:7], struct.pack("<Q", old) + b"\0", old + step]
        batches[place] = with_serial(listed, news[way])
    if rand.random() < 0.1:
        batches[at] = with_serial(batches[at], None) + [(key, None)]


def spoil_records(rand, batches):
    """Batches left out, repeated, out of order or joined."""
    at, way = rand.randrange(len(batches)), rand.randrange(6)
    if way == 0:
        batches[at:at + 1] = []
    elif way == 1:
        batches[at:at] = [batches[at]]
    elif way == 2:
        batches[at:at + 2] = batches[at:at + 2][::-1]
    elif way == 3:
        del batches[:at]
    elif way == 4:
        batches.insert(at, [])
    else:
        joined = {}
        for listed in batches[:at + 1]:
            joined.update({key: row for key, row in listed})
        batches[:at + 1] = [[(key, row) for key, row in sorted(joined.items()) if row is not None]]


def spoil_operations(rand, batches):
    """Operations of one batch left out, repeated, out of order, of equal rows or of absent keys."""
    at = rand.randrange(len(batches))
    listed, present = list(batches[at]), {}
    for earlier in batches[:at]:
        present.update(earlier)
    if not listed:
        return
    i, way = rand.randrange(len(listed)), rand.randrange(6)
    if way == 0:
        del listed[i]
    elif way == 1:
        listed.insert(i, listed[i])
    elif way == 2:
        rand.shuffle(listed)
    elif way == 3 and present:
        listed = sorted(listed + [rand.choice(list(present.items()))], key=lambda it: it[0])
    elif way == 4:
        listed = sorted(listed + [(spellings.some_bytes(rand, rand.randint(0, 9)), None)], key=lambda it: it[0])
    else:
        listed[i] = spoiled_row(rand, {key: row for key, row in listed if row is not None} or {b"\2": rows.number(20)})
    batches[at] = listed


def spoiled_bytes(rand, data):
    """A row's value with another byte, one less or one more."""
    at = rand.randrange(len(data)) if data else 0
    byte = bytes([rand.choice([0, 1, 2, 3, 4, 33, 65, 127, 255, data[at] ^ 1 << rand.randrange(8) if data else 9])])
    return rand.choice([data[:at] + byte + data[at + 1:], data[:at] + byte + data[at + 1:], data[:at] + data[at + 1:], data + byte, data[:at]])


def text_list(texts):
    return bytes([len(texts)]) + b"".join(bytes([len(it)]) + it for it in texts)


GOOD_ADDRESSES = [b"a", b"*.b.org", b"b.org", b"10.0.0.0/8", b"10.1.2.3", b"0.0.0.0/0", b"*." + b"a." * 126 + b"b", b"1.b", b"255.255.255.255", b"10.1.2.2/31", b"n" * 63]
BAD_ADDRESSES = [b"", b"A", b"Web", b"*.B", b"10.1.2.3/8", b"10.1.2.3/32", b"10.1.2.3/31", b"1.2.3", b"a..b", b"*", b"*.", b"*.*.a", b"\xe9", b"a." * 127 + b"b", b"1", b"a ", b"n" * 64]
PORTS = [[(1, 65_535)], [(22, 22)], [(50, 60), (65_535, 65_535)], [], [(0, 1)], [(0, 0)], [(2, 1)], [(5, 5), (5, 5)], [(2, 2), (1, 1)]]
PORTS += [[(it, it) for it in range(1, most + 1)] for most in (32, 33)]
ADDRESSES = [[it] for it in GOOD_ADDRESSES + BAD_ADDRESSES] + [[], [b"a", b"a"], [b"b", b"a"]] + [[b"a%d" % it for it in range(most)] for most in (32, 33)]


def claim_text(protocols, addresses, ports):
    """The value of the row of an intercept, right or not."""
    return bytes([protocols]) + text_list(addresses) + bytes([len(ports)]) + b"".join(struct.pack("<HH", *it) for it in ports)


def claim_row(rand, present):
    """A row of an intercept, right or nearly so, of a service that is there or not."""
    services = [key[1:] for key in present if key[:1] == b"\4"] + [rows.number(rand.randint(0, 9))[::-1]]
    addresses = rand.sample(GOOD_ADDRESSES, rand.randint(1, 3)) if rand.random() < 0.7 else rand.choice(ADDRESSES)
    row = claim_text(rand.choice([1, 2, 3, 1, 2, 3, 1, 0, 4, 7]), addresses, rand.choice(PORTS[:3] if rand.random() < 0.7 else PORTS))
    return bytes([rows.INTERCEPTS]) + rand.choice(services), row if rand.random() < 0.9 else spoiled_bytes(rand, row)


def claimed_folders():
    """Folders of two services and one intercept in all its spellings, right and wrong."""
    good = [b"*.b.org"], [(22, 443)]
    values = [claim_text(mark, *good) for mark in range(6)] + [claim_text(1, it, good[1]) for it in ADDRESSES] + [claim_text(3, good[0], it) for it in PORTS]
    keys = [bytes([rows.INTERCEPTS]) + key for key in (b"\0\0\0\1", b"\0\0\0\2", b"\0\0\0\0", b"\0\0\0\3", b"\0\0\1", b"\0\0\0\0\1", b"")]
    base = {b"\1\2": rows.number(3), **{struct.pack(">BI", 4, it): rows.value("service", {"name": f"s{it}", "attributes": []}) for it in (1, 2)}}
    value = claim_text(3, *good)
    found = [{keys[1]: it} for it in values + [value[:-1], value + b"\0", b"", value[:1]]] + [{key: value} for key in keys] + [{keys[0]: value, keys[1]: value}]
    for form in (1, 2):
        for more in found:
            yield {"ziti.0": slot_of(form, [folders.batch_between({}, {**base, **more})]), "ziti.mark": b"\0"}


def counted_folders():
    """Folders of two changes with the serials of each, right and wrong."""
    news = [None, b"", *(struct.pack("<Q", it) for it in (0, 1, 2, 3, LAST - 1, LAST, LAST + 1, 2**64 - 1)), b"\1" + bytes(6), b"\2" + bytes(8), b"\2" + bytes(3)]
    for form in (1, 2):
        for one in news:
            for other in news:
                batches = [with_serial([(b"\1\1", rows.number(2))], one), with_serial([(b"\2", rows.number(20))], other)]
                yield {"ziti.1": slot_of(form, map(batch_text, batches)), "ziti.mark": b"\0\0"}


def changed_list(rand, listed, others):
    """A list with a repeat, one thing less, one of others, or very long."""
    some = [rand.choice(listed)] if listed else []
    return rand.choice([listed + some, listed[1:], listed + [rand.choice(others)], listed + [f"n{i}" for i in range(rand.choice([61, 63, 64, 65]) - len(listed))]])


def changed_record(rand, kind, record, present):
    """A record with one field of another value, of which some are none of a valid state's."""
    names = [rows.Fields(row).text() for key, row in present.items() if 3 <= key[0] <= 9]
    field = rand.choice([field for field in record if field not in ("connected", "no_traversal") or kind == "router"])
    old = record[field]
    if field in rules.SIDES.get(kind, ()):
        part = rand.choice(["names", "attributes", "all"])
        return dict(record, **{field: dict(old, **{part: not old["all"] if part == "all" else changed_list(rand, old[part], names)})})
    if field == "links":
        return dict(record, links=rand.choice([old + [rand.randint(1, 9)], old[:-1], old[::-1], old + old[-1:]]))
    news = {
        "name": names + ["new", "n" * 64], "attributes": [changed_list(rand, record.get("attributes", []), names)], "type": rows.TYPES, "semantic": rows.SEMANTICS,
        "precedence": list(bodies.PRECEDENCES), "instance": ["", "x", "y"], "up": [not old], "connected": [not old], "no_traversal": [not old],
        "latency_a": [0, 60_000, 60_001], "latency_b": [0, 60_000, 60_001], "cost": [0, 1, 65_535], "a": [record.get("b")], "b": [record.get("a")],
    }
    return dict(record, **{field: rand.choice(news.get(field, [0, 1, 2, 3, 9]) + ([rand.randint(1, 9)] if field in "ab" else []))})


def another_record(rand, present):
    """A row of a record with a field of another value."""
    found = [key for key in present if 3 <= key[0] <= 11]
    if not found:
        return b"\2", rows.number(33)
    key = rand.choice(found)
    kind = rows.KINDS[key[0] - 3]
    try:
        return key, rows.value(kind, changed_record(rand, kind, rows.record_of(kind, present[key]), present))
    except (rows.NoState, ValueError, IndexError):
        return key, spoiled_bytes(rand, present[key])


def changed_folders(seed, most=400):
    """Folders of one small network with all kinds of records, in each of which one record has another value in one field."""
    rand = random.Random(f"records {seed}")
    state = None
    while state is None or not all(state.tables.values()):
        kept = folders.Kept({})
        scenes.old_scene(rand, 80, kept)
        state = kept.state
    for at in range(most):
        form = 1 + at % 2
        found = rows.rows(state, form)
        key, row = another_record(rand, found)
        yield {"ziti.0": slot_of(form, [folders.batch_between({}, {**found, key: row})]), "ziti.mark": b"\0"}


def spoiled_row(rand, present):
    """An operation that changes some rows: most often to ones of no valid state."""
    key = rand.choice(list(present))
    way, row = rand.randrange(14), present[key]
    if way <= 2:
        return key, spoiled_bytes(rand, row)
    if way == 3:
        return key, None
    if way == 4:
        place = key[:-1] + bytes([rand.choice([0, 1, 2, 3, 5, 9, 200])])
        return place, row
    if way == 5:
        return rand.choice([bytes([rand.choice([0, 18, 255])]) + key[1:], key + b"\0", key[:-1], b"", bytes([rand.randint(12, 15)]) + key[1:] * 2]), row
    if way == 6:
        return bytes([1, rand.randint(0, 11)]), rows.number(rand.choice([0, 1, 2, 3, 4, 6, 9, 2**32 - 2, 2**32 - 1]))
    if way == 7:
        return bytes([rows.SETTING]), rand.choice([rows.number(it) for it in (0, 1, 9, 10, 20, 65_535, 65_536)] + [b"\x14\0"])
    return claim_row(rand, present) if way <= 9 else another_record(rand, present)


def spoil_rows(rand, batches, form):
    """Behind all batches one more, which is a true difference and leads to rows that may be those of no valid state."""
    present, serial = {}, bytes([rows.SERIAL])
    for listed in batches:
        present.update(listed)
    present = {key: row for key, row in present.items() if row is not None}
    changed = dict(spoiled_row(rand, present or {b"\2": rows.number(20)}) for _ in range(rand.choice([1, 1, 1, 2, 3])))
    listed = sorted((key, row) for key, row in changed.items() if present.get(key) != row and key != serial)
    if rand.random() < 0.5:
        for key, row in listed:
            present.update({key: row})
        batches[:] = [sorted((key, row) for key, row in present.items() if row is not None)]
    elif listed:
        old = rows.Fields(present.get(serial, bytes(8)).ljust(8, b"\0")).number(8)
        batches.append(with_serial(listed, old + 1) if form == 2 or rand.random() < 0.1 else listed)


def recounted(batches, form):
    """The batches with the counts of another format."""
    def row_in(key, row):
        return row if row is None or not 12 <= key[0] <= 15 else row.ljust(4, b"\0") if form == 1 else row[:2]
    return [[(key, row_in(key, row)) if key else (key, row) for key, row in listed] for listed in batches]


def spoil_bytes(rand, data):
    """Some bytes of a file, flipped, cut, left out, put in or zeroed."""
    data = bytearray(data)
    for _ in range(rand.choice([1, 1, 2])):
        at = rand.choice([rand.randrange(len(data) + 1), rand.randrange(min(20, len(data)) + 1), max(0, len(data) - rand.randrange(20))])
        way = rand.randrange(6)
        if way == 0 and at < len(data):
            data[at] ^= 1 << rand.randrange(8)
        elif way == 1:
            del data[at:]
        elif way == 2:
            del data[at:at + rand.randint(1, 5)]
        elif way == 3:
            data[at:at] = spellings.some_bytes(rand, rand.randint(1, 5))
        elif way == 4:
            data[at:at + 4] = struct.pack("<I", rand.choice([0, 1, 2**16, 2**30, 2**30 + 1, 2**31, 2**32 - 1]))
        elif at < len(data):
            data[at] = rand.choice([0, 1, 2])
    return bytes(data)


def damaged(rand, files):
    """A folder that was whole, spoiled in its mark, its bytes, its form, its records, their operations or their rows."""
    files, (slot, form, payloads) = dict(files), standing(files)
    name, way = folders.SLOTS[slot], rand.randrange(14)
    if way == 0:
        files[folders.MARK] = spellings.some_bytes(rand, rand.choice([0, 1, 2, 3]))
        return files
    if way == 1 and rand.random() < 0.2:
        files[name] = slot_of(form, payloads)[:-1]
        return files
    if way <= 2 or not payloads:
        target = rand.choice([name, name, name, folders.SLOTS[1 - slot]])
        files[target] = spoil_bytes(rand, files.get(target, b""))
        return files
    batches = [folders.operations(it) for it in payloads]
    if way == 3:
        other = rand.choice([1, 2, 0, 3])
        batches, form = recounted(batches, other) if rand.random() < 0.6 else batches, other
    elif way == 4:
        spoil_records(rand, batches)
    elif way == 5:
        spoil_operations(rand, batches)
    elif way in (6, 7, 8) and form == 2:
        spoil_serial(rand, batches)
    else:
        spoil_rows(rand, batches, form)
    files[name] = slot_of(form, [batch_text(listed) for listed in batches], old_bytes(rand))
    return files


# Folders at the limits.


def edges(seed):
    """Folders whose marks and serials are as long and as great as may be, or a little less or more, each with a word for it."""
    rand = random.Random(f"edges {seed}")
    for form in (1, 2):
        for size in (folders.MARK_BOUND - 2, folders.MARK_BOUND - 1, folders.MARK_BOUND, folders.MARK_BOUND + 1):
            _, files = history(rand, 120, form)
            _, _, payloads = standing(files)
            yield f"format {form}, a mark of {size} bytes", {folders.SLOTS[(size - 1) % 2]: slot_of(form, payloads), folders.MARK: bytes(size)}
    for serial in (0, 1, LAST - 2, LAST - 1, LAST, LAST + 1, 2**64 - 1):
        kept = folders.Kept({})
        scenes.old_scene(rand, 120, kept)
        kept.state.serial = serial
        yield f"serial {serial}", written(rand, kept.state, 2)
    for form in (1, 2):
        yield f"format {form}, no rows", {"ziti.0": slot_of(form, []), "ziti.mark": b"\0"}
        yield f"format {form}, no rows, the second slot", {"ziti.1": slot_of(form, [], b"\1old"), "ziti.mark": b"ab"}
        yield f"format {form}, the other slot alone", {"ziti.1": slot_of(form, []), "ziti.mark": b"\0"}
        yield f"format {form}, an empty mark", {"ziti.0": slot_of(form, [folders.put(b"\2", rows.number(20))], b"old"), "ziti.1": b"old", "ziti.mark": b""}
    yield "no files", {}


class LongSlot:
    """The records of a slot: changes of the attributes of some identities, with the serials of the second format."""

    def __init__(self, form):
        self.form, self.payloads, self.end = form, [], 8

    def payload(self, changed):
        return batch_text(with_serial(changed, len(self.payloads) + 1) if self.form == 2 else changed)

    def identity(self, number, attributes):
        return struct.pack(">BI", 3, number), rows.value("identity", {"name": f"i{number}", "attributes": attributes})

    def add(self, changed):
        self.payloads.append(self.payload(changed))
        self.end += 5 + len(self.payloads[-1])


def full_journal(form, room):
    """A folder whose slot leaves so many bytes for the payload of a record; it is longer than a slot may be where that is low enough."""
    slot, most = LongSlot(form), 2048
    lists = [[f"{letter}{i:063}" for i in range(60)] for letter in "abcd"]
    slot.add([(b"\1\1", rows.number(most + 1))] + [slot.identity(number, lists[0]) for number in range(1, most + 1)])
    end = folders.SLOT_BOUND - 6 - room
    while end - slot.end > 2 * len(slot.payloads[0]):
        slot.add([slot.identity(number, lists[len(slot.payloads) % 2]) for number in range(1, most + 1)])
    large = len(slot.payloads)
    while end - slot.end > 4_500:
        at = len(slot.payloads) - large
        slot.add([slot.identity(1 + at % most, lists[2 + at // most % 2])])
    left = end - slot.end - 5 - len(slot.payload([slot.identity(most, [])]))
    slot.add([slot.identity(most, names_of(left))])
    return {"ziti.0": slot_of(form, slot.payloads), "ziti.mark": b"\0"}


def names_of(left):
    """Names that take so many bytes in a list."""
    size = left // 60 + 1
    return [f"{at:02}".ljust(left // size + (at < left % size) - 1, "n") for at in range(size)]


def sized_folder(form, size):
    """A folder of one batch of so many bytes, and in the second format of a short one behind it."""
    slot, names = LongSlot(form), [f"a{i:063}" for i in range(60)]
    changed = [(b"\1\1", rows.number(2049))]
    left = size - len(slot.payload(changed))
    while left > 4_500:
        changed.append(slot.identity(len(changed), names))
        left -= len(put_text(changed[-1]))
    left -= len(put_text(slot.identity(len(changed), [])))
    slot.add(changed + [slot.identity(len(changed), names_of(left))])
    if form == 2:
        slot.add([(b"\2", rows.number(20))])
    return {"ziti.0": slot_of(form, slot.payloads), "ziti.mark": b"\0"}


def full_requests():
    """Commands behind a slot with room for a payload of 26 bytes, which the least router cost takes, or of one less."""
    named = [
        ("SetLeastRouterCost", {"cost": 10}), ("CreateService", {"name": "s"}), ("SetLeastRouterCost", {"cost": 20}), ("SetLeastRouterCost", {"cost": 30}),
        ("SetLeastRouterCost", {"cost": 20}), ("ShowCounts", {}), ("DeleteIdentity", {"name": "i7"}), ("Compact", {}), ("SetLeastRouterCost", {"cost": 40}),
        ("CreateService", {"name": "s"}), ("ShowCounts", {}), ("Compact", {}),
    ]
    return [frames.frame(bodies.CONTENTS[command], body, i) for i, (command, body) in enumerate(named)]


def crowded(kind, count):
    """A state with so many records of a kind, and one of each that they stand on."""
    state, all_of = rules.State(), {"all": True, "names": [], "attributes": []}
    for other in ("identity", "service", "router"):
        state.add(other, {"name": "n0", "attributes": [], "cost": 0, "no_traversal": False, "connected": True})
    if kind == "link":
        state.add("router", {"name": "n1", "attributes": [], "cost": 0, "no_traversal": False, "connected": True})
    if kind == "circuit":
        state.add("terminator", {"service": 1, "router": 1, "host": None, "instance": "", "cost": 0, "precedence": "default"})
    forms = {
        "link": {"a": 1, "b": 2, "cost": 1, "latency_a": 0, "latency_b": 0, "up": True}, "circuit": {"identity": 1, "service": 1, "terminator": 1, "ingress": 1, "links": []},
        "terminator": {"service": 1, "router": 1, "host": 1, "instance": "", "cost": 0, "precedence": "failed"},
    }
    relations = {other: relation for relation, other in rules.RELATIONS.items()}
    for at in range(len(state.tables[kind]), count):
        record = forms.get(kind) or {"attributes": [], "cost": 0, "no_traversal": False, "connected": False}
        if kind in rules.SIDES:
            record = dict({side: all_of for side in rules.SIDES[kind]}, semantic="AnyOf", type=relations[kind])
        state.add(kind, dict(record, name=f"n{at}") if kind in rows.NAMED else dict(record))
    return state


def crowded_folders():
    """Folders with as many records of a kind as there may be, and with one more."""
    for at, kind in enumerate(rows.KINDS):
        for more in (0, 1):
            state, form = crowded(kind, rules.LIMITS[kind] + more), 1 + (at + more) % 2
            yield {"ziti.0": slot_of(form, [folders.batch_between({}, rows.rows(state, form))]), "ziti.mark": b"\0"}
    for more in (0, 1):
        state, most = rules.State(), rules.MOST_ATTRIBUTES
        for at in range(0, most, 64):
            state.add("identity", {"name": f"n{at}", "attributes": [f"a{it}" for it in range(at, at + 64)]})
        state.add("service", {"name": "n", "attributes": [f"a{most - 1 + more}"]})
        yield {"ziti.0": slot_of(2, [folders.batch_between({}, rows.rows(state, 2))]), "ziti.mark": b"\0"}


def probes(rand):
    """Commands that meet a folder of which nothing is known: some change it, some show it."""
    fields = {"name": rand.choice(["probe", "i1", "s1"])}
    named = [
        ("ShowCounts", {}), ("CreateIdentity", {"name": "probe", "attributes": ["a"]}), ("SetLeastRouterCost", {"cost": 10}), ("SetLeastRouterCost", {"cost": 77}),
        ("UpdateService", {"name": "s1", "attributes": []}), ("DeleteIdentity", fields), ("DeleteService", {"name": "s2"}), ("Compact", {}), ("ShowGrants", {"identity": "i1"}),
        ("DeleteCircuit", {"no": 1}), ("ConnectRouter", {"name": "r1"}), ("CreateIdentity", {"name": "more"}), ("Hello", {}), ("ShowCounts", {}),
    ]
    return [frames.frame(bodies.CONTENTS[command], body, i) for i, (command, body) in enumerate(rand.sample(named, rand.randint(3, len(named))))]
