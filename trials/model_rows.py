"""The rows of a state in the two formats of docs/FORMATS.md, and the valid state that some rows are: a part of the independent model (docs/TRIALS.md)."""

import copy
import struct

import model_bodies as bodies
import model_rules as rules

KINDS = ["identity", "service", "router", "link", "service_policy", "edge_router_policy", "service_edge_router_policy", "terminator", "circuit"]
NAMED = KINDS[:7]
GRANTS = {12: "Dial", 13: "Bind", 14: "IdentityRouter", 15: "ServiceRouter"}
SETTING, INTERCEPTS, SERIAL = 2, 16, 17
COUNTS = {1: "<I", 2: "<H"}
SEMANTICS, TYPES = ["AnyOf", "AllOf"], ["Dial", "Bind"]
LAST_SERIAL = 2**63
MOST_NEXT = 2**32 - 1


class NoState(Exception):
    """Rows that no valid state has."""


def demand(holds):
    if not holds:
        raise NoState


# Rows.


def text(name):
    return bytes([len(name)]) + name.encode()


def names(listed):
    return bytes([len(listed)]) + b"".join(map(text, listed))


def side(record):
    return bytes([record["all"]]) + names(record["names"]) + names(record["attributes"])


def number(value):
    return struct.pack("<I", value)


def value(kind, record):
    """The value of a record's row."""
    if kind == "link":
        figures = struct.pack("<IIHHHB", record["a"], record["b"], record["cost"], record["latency_a"], record["latency_b"], record["up"])
        return text(record["name"]) + figures
    if kind == "terminator":
        front = number(record["service"]) + number(record["router"]) + number(record["host"] or 0) + text(record["instance"])
        return front + struct.pack("<HB", record["cost"], 1 + bodies.PRECEDENCES.index(record["precedence"]))
    if kind == "circuit":
        fields = [record[field] for field in ("identity", "service", "terminator", "ingress")]
        return b"".join(map(number, fields)) + bytes([len(record["links"])]) + b"".join(map(number, record["links"]))
    front = text(record["name"])
    if kind in rules.SIDES:
        marks = [1 + SEMANTICS.index(record["semantic"])]
        if kind == "service_policy":
            marks.insert(0, 1 + TYPES.index(record["type"]))
        return front + bytes(marks) + b"".join(side(record[one]) for one in rules.SIDES[kind])
    front += names(record["attributes"])
    if kind == "router":
        front += struct.pack("<HB", record["cost"], record["no_traversal"] + 2 * record["connected"])
    return front


def claim(intercept):
    """The value of an intercept's row."""
    protocols = sum(1 << at for at, word in enumerate(("tcp", "udp")) if word in intercept["protocols"])
    ports = b"".join(struct.pack("<HH", *ends) for ends in intercept["ports"])
    return bytes([protocols]) + names(intercept["addresses"]) + bytes([len(intercept["ports"])]) + ports


def rows(state, form=2):
    """The rows of a state in a format: values under keys."""
    found = {bytes([1, at + 1]): number(state.next[kind]) for at, kind in enumerate(KINDS) if state.next[kind] > 1}
    if state.least_router_cost != 10:
        found[bytes([SETTING])] = number(state.least_router_cost)
    for at, kind in enumerate(KINDS):
        for no, record in state.tables[kind].items():
            found[struct.pack(">BI", 3 + at, no)] = value(kind, record)
    for table, relation in GRANTS.items():
        one, other = rules.SIDES[rules.RELATIONS[relation]]
        for left in state.tables[one]:
            for right in state.tables[other]:
                count = rules.count(state, relation, left, right)
                if count > 0:
                    found[struct.pack(">BII", table, left, right)] = struct.pack(COUNTS[form], count)
    if form == 2:
        found.update({struct.pack(">BI", INTERCEPTS, service): claim(intercept) for service, intercept in state.intercepts.items()})
        if state.serial > 0:
            found[bytes([SERIAL])] = struct.pack("<Q", state.serial)
    return found


# The state that some rows are.


class Fields:
    """The fields of a row's value, which are read from its front on."""

    def __init__(self, data):
        self.data, self.at = data, 0

    def ended(self):
        return self.at == len(self.data)

    def bytes(self, size):
        self.at += size
        demand(self.at <= len(self.data))
        return self.data[self.at - size:self.at]

    def number(self, size=4):
        return int.from_bytes(self.bytes(size), "little")

    def text(self):
        return self.bytes(self.number(1)).decode("latin-1")

    def name(self):
        found = self.text()
        demand(bodies.NAME.fullmatch(found))
        return found

    def listed(self, read, most, least=0):
        """A list of a count byte, without repeats."""
        size = self.number(1)
        found = [read() for _ in range(size)]
        demand(least <= size <= most and len(set(found)) == size)
        return found

    def names(self):
        return self.listed(self.name, bodies.MOST_ENTRIES)

    def word(self, words):
        at = self.number(1) - 1
        demand(0 <= at < len(words))
        return words[at]

    def side(self):
        found = {"all": self.number(1) == 1, "names": self.names(), "attributes": self.names()}
        demand(len(found["names"]) + len(found["attributes"]) <= (0 if found["all"] else bodies.MOST_ENTRIES))
        return found


def record_of(kind, data):
    """The record that the value of its row spells, as far as the value tells."""
    fields, record = Fields(data), {}
    if kind in NAMED:
        record["name"] = fields.name()
    if kind in ("identity", "service", "router"):
        record.update(attributes=fields.names(), connected=False)
    if kind == "router":
        record["cost"], marks = fields.number(2), fields.number(1)
        record.update(no_traversal=marks % 2 == 1, connected=marks // 2 == 1)
    elif kind == "link":
        record.update({field: fields.number(4 if field in "ab" else 2) for field in ("a", "b", "cost", "latency_a", "latency_b")})
        record["up"] = fields.number(1) == 1
        demand(record["a"] != record["b"] and record["cost"] > 0 and max(record["latency_a"], record["latency_b"]) <= 60_000)
    elif kind in rules.SIDES:
        relation = next(relation for relation, other in rules.RELATIONS.items() if other == kind)
        record["type"] = fields.word(TYPES) if kind == "service_policy" else relation
        record["semantic"] = fields.word(SEMANTICS)
        record.update({one: fields.side() for one in rules.SIDES[kind]})
    elif kind == "terminator":
        record.update({field: fields.number() for field in ("service", "router", "host")}, instance=fields.text())
        record["host"] = record["host"] or None
        demand(record["instance"] == "" or bodies.NAME.fullmatch(record["instance"]))
        record.update(cost=fields.number(2), precedence=fields.word(bodies.PRECEDENCES))
    elif kind == "circuit":
        record.update({field: fields.number() for field in ("identity", "service", "terminator", "ingress")})
        record["links"] = [fields.number() for _ in range(fields.number(1))]
    demand(fields.ended())
    return record


def claim_of(data):
    """The intercept that the value of its row spells."""
    fields = Fields(data)
    marks = fields.number(1)
    protocols = [word for at, word in enumerate(("tcp", "udp")) if marks >> at & 1]
    demand(marks in (1, 2, 3))
    addresses = fields.listed(fields.text, bodies.MOST_CLAIMED, 1)
    for spelled in addresses:
        read = bodies.address_of(spelled)
        demand(read is not None and bodies.address_text(read) == spelled)
    ports = fields.listed(lambda: (fields.number(2), fields.number(2)), bodies.MOST_CLAIMED, 1)
    demand(all(1 <= low <= high for low, high in ports) and fields.ended())
    return {"protocols": protocols, "addresses": addresses, "ports": ports}


def join(state, key, data):
    """Puts what a row tells into a state. Grants are told by the policies."""
    table, fields = key[0] if key else 0, Fields(data)
    if table == 1 and len(key) == 2 and 1 <= key[1] <= len(KINDS):
        state.next[KINDS[key[1] - 1]] = fields.number()
    elif table == SETTING:
        state.least_router_cost = fields.number()
    elif 3 <= table < 3 + len(KINDS):
        state.tables[KINDS[table - 3]][int.from_bytes(key[1:], "big")] = record_of(KINDS[table - 3], data)
    elif table == INTERCEPTS:
        state.intercepts[int.from_bytes(key[1:], "big")] = claim_of(data)
    elif table == SERIAL:
        state.serial = fields.number(8)


def demand_kind(state, kind):
    """The numbers, names and references of the records of a kind are those of a valid state."""
    table = state.tables[kind]
    demand(1 <= state.next[kind] <= MOST_NEXT and len(table) <= rules.LIMITS[kind])
    demand(all(1 <= no < state.next[kind] for no in table))
    if kind in NAMED:
        demand(len({record["name"] for record in table.values()}) == len(table))
    for one in rules.SIDES.get(kind, ()):
        present = {entity["name"] for entity in state.tables[one].values()}
        demand(all(set(record[one]["names"]) <= present for record in table.values()))


def demand_valid(state):
    """The state is a valid one."""
    for kind in KINDS:
        demand_kind(state, kind)
    used = {name for kind in NAMED if kind != "link" for record in state.tables[kind].values() for name in rules.attributes_of(kind, record)}
    demand(len(used) <= rules.MOST_ATTRIBUTES and 1 <= state.least_router_cost <= 65_535)
    demand(all(service in state.tables["service"] for service in state.intercepts) and state.serial <= LAST_SERIAL)
    repaired = copy.deepcopy(state)
    repaired.revokes = False
    rules.settle(repaired)
    demand(repaired.tables == state.tables)


def state_of(found, form):
    """The valid state that has exactly these rows in a format; None where no state has them."""
    state = rules.State()
    try:
        for key in sorted(found):
            join(state, key, found[key])
        demand_valid(state)
        state.is_settled = False
        return state if rows(state, form) == found else None
    except NoState:
        return None
