"""The state of the controller, its grants, its paths, its loads and its settling, by docs/RULES.md alone: a part of the independent model (docs/TRIALS.md)."""

import collections

from model_bodies import PRECEDENCES, Refused, address_of

# The most records of each kind.
LIMITS = {
    "identity": 2048, "service": 512, "router": 256, "link": 4096, "service_policy": 512, "edge_router_policy": 256,
    "service_edge_router_policy": 256, "terminator": 4096, "circuit": 16_384,
}
MOST_ATTRIBUTES = 4096

# The kinds of the left and of the right side of each kind of policy. A policy keeps each side under its kind.
SIDES = {
    "service_policy": ("identity", "service"),
    "edge_router_policy": ("identity", "router"),
    "service_edge_router_policy": ("service", "router"),
}
# The relations: the kind of policy that grants each.
RELATIONS = {"Dial": "service_policy", "Bind": "service_policy", "IdentityRouter": "edge_router_policy", "ServiceRouter": "service_edge_router_policy"}

Path = collections.namedtuple("Path", "cost links ties")


class State:
    """The records of each kind under their numbers, the next numbers, the least router cost, the intercepts under the numbers of their services, and the serial; and
    what became of circuits by the last command."""

    def __init__(self):
        self.tables = {kind: {} for kind in LIMITS}
        self.next = dict.fromkeys(LIMITS, 1)
        self.least_router_cost, self.intercepts, self.serial = 10, {}, 0
        self.found_paths, self.found_counts = {}, {}
        self.revoked, self.ended, self.rerouted = {}, [], {}
        # Whether settling changes nothing, as in every state that the controller itself comes to; and whether it revokes, as it did not before.
        self.is_settled, self.revokes = True, True

    def find(self, kind, name):
        """The number of the record of a kind that has a name, if any."""
        return next((number for number, record in self.tables[kind].items() if record["name"] == name), None)

    def named(self, kind, name, field):
        """The number under a name, or the refusal of the field that gives it."""
        number = self.find(kind, name)
        if number is None:
            raise Refused(21, "Unknown", field=field)
        return number

    def numbered(self, kind, number):
        """The record under a number, or the refusal of the field `no`."""
        if number not in self.tables[kind]:
            raise Refused(21, "Unknown", field="no")
        return self.tables[kind][number]

    def is_full(self, kind):
        return len(self.tables[kind]) >= LIMITS[kind] or self.next[kind] == 2**32 - 1

    def demand_room(self, kind):
        if self.is_full(kind):
            raise Refused(24, "Full", kind=kind)

    def add(self, kind, record):
        """Puts a record under the next number of its kind."""
        number = self.next[kind]
        self.next[kind] += 1
        self.tables[kind][number] = record
        return {"no": number}


# Grants.


def attributes_of(kind, record):
    """The attributes that an entity or a policy uses."""
    if kind in SIDES:
        return [attribute for side in SIDES[kind] for attribute in record[side]["attributes"]]
    return record["attributes"]


def demand_attributes(state, kind, number, record):
    """Refuses a record under a number, a new one or one in the place of another, with which too many attributes would be in use."""
    used = set(attributes_of(kind, record))
    for other in ("identity", "service", "router") + tuple(SIDES):
        for at, present in state.tables[other].items():
            if (other, at) != (kind, number):
                used.update(attributes_of(other, present))
    if len(used) > MOST_ATTRIBUTES:
        raise Refused(24, "Full", kind="attribute")


def matches(side, semantic, entity):
    if side["all"] or entity["name"] in side["names"]:
        return True
    holds = any if semantic == "AnyOf" else all
    return bool(side["attributes"]) and holds(attribute in entity["attributes"] for attribute in side["attributes"])


def count(state, relation, left, right):
    """How many present policies grant the relation to a pair of numbers, found once in each state."""
    if (relation, left, right) not in state.found_counts:
        state.found_counts[relation, left, right] = count_anew(state, relation, left, right)
    return state.found_counts[relation, left, right]


def count_anew(state, relation, left, right):
    kind = RELATIONS[relation]
    left_kind, right_kind = SIDES[kind]
    if left not in state.tables[left_kind] or right not in state.tables[right_kind]:
        return 0
    one, other = state.tables[left_kind][left], state.tables[right_kind][right]
    return sum(
        policy["type"] == relation and matches(policy[left_kind], policy["semantic"], one) and matches(policy[right_kind], policy["semantic"], other)
        for policy in state.tables[kind].values())


def granted(state, relation, left):
    """The names that a relation grants to a left number, each with its count, in the order of the numbers."""
    kind = SIDES[RELATIONS[relation]][1]
    counts = [[record["name"], count(state, relation, left, right)] for right, record in state.tables[kind].items()]
    return [pair for pair in counts if pair[1] > 0]


def pairs(state):
    """How many pairs the four relations grant."""
    return sum(len(granted(state, relation, left)) for relation, kind in RELATIONS.items() for left in state.tables[SIDES[kind][0]])


def is_shared(state, router, identity, service):
    return count(state, "IdentityRouter", identity, router) > 0 and count(state, "ServiceRouter", service, router) > 0


# Paths.


def is_connected(state, router):
    return router in state.tables["router"] and state.tables["router"][router]["connected"]


def hop(state, number, place, target):
    """Where a link leads from a place on the way to a target, and at which cost; None where that is no hop."""
    link = state.tables["link"].get(number)
    if link is None or place not in (link["a"], link["b"]) or not link["up"]:
        return None
    if not is_connected(state, link["a"]) or not is_connected(state, link["b"]):
        return None
    other = link["b"] if place == link["a"] else link["a"]
    router = state.tables["router"][other]
    if other != target and router["no_traversal"]:
        return None
    return other, link["cost"] + link["latency_a"] + link["latency_b"] + max(router["cost"], state.least_router_cost)


def is_path(state, links, place, target):
    """Whether links are a path from a place to a target."""
    visited = {place}
    for number in links:
        step = hop(state, number, place, target)
        if step is None or step[0] in visited:
            return False
        place = step[0]
        visited.add(place)
    return place == target and is_connected(state, place)


def paths(state, links, place, target, most):
    """All paths as pairs of cost and links, from a place behind some links with the places that were visited; dearer ones than the cheapest so far (`most`) are left out."""
    cost, taken, visited = links
    if place == target:
        most[0] = min(most[0], cost)
        yield cost, taken
        return
    for number in state.tables["link"]:
        step = hop(state, number, place, target)
        if step is not None and step[0] not in visited and cost + step[1] <= most[0]:
            yield from paths(state, (cost + step[1], taken + [number], visited | {step[0]}), step[0], target, most)


def least_path(state, place, target):
    """The least path, by cost and then by its links, and how many have its cost; None where there is no path."""
    if (place, target) not in state.found_paths:
        found = []
        if is_connected(state, place) and is_connected(state, target):
            found = list(paths(state, (0, [], {place}), place, target, [float("inf")]))
        cost, links = min(found, default=(None, None))
        ties = sum(path[0] == cost for path in found)
        state.found_paths[place, target] = Path(cost, links, ties) if found else None
    return state.found_paths[place, target]


# Requests for circuits.


def counted(state, service, instance):
    """The numbers of the terminators that a request counts."""
    return [number for number, record in state.tables["terminator"].items() if record["service"] == service and record["instance"] == instance]


def is_admissible(state, number):
    record = state.tables["terminator"][number]
    if not is_connected(state, record["router"]):
        return False
    host, service = record["host"], record["service"]
    return host is None or (count(state, "Bind", host, service) > 0 and is_shared(state, record["router"], host, service))


def open_circuits(state):
    """How many circuits are open at each terminator."""
    return collections.Counter(circuit["terminator"] for circuit in state.tables["circuit"].values())


def rank(state, number):
    """The place of a terminator's precedence: the best one is 0."""
    return PRECEDENCES.index(state.tables["terminator"][number]["precedence"])


class Request:
    """A request by numbers: the routers that may be entered, the terminators that are counted and that are admissible, and what these cost under their loads."""

    def __init__(self, state, fields):
        self.identity, self.service = state.find("identity", fields["identity"]), state.find("service", fields["service"])
        self.ingress_named = fields["ingress"] is not None
        self.ingress = state.find("router", fields["ingress"]) if self.ingress_named else None
        routers = [number for number in state.tables["router"] if not self.ingress_named or number == self.ingress]
        self.shared = [number for number in routers if is_shared(state, number, self.identity, self.service)]
        self.ingresses = [number for number in self.shared if is_connected(state, number)]
        self.counted = counted(state, self.service, fields["instance"])
        self.admissible = [number for number in self.counted if is_admissible(state, number)]
        self.loads = open_circuits(state)
        self.costs = {number: state.tables["terminator"][number]["cost"] + self.loads[number] for number in self.admissible}

    def has_dial(self, state):
        return count(state, "Dial", self.identity, self.service) > 0


def candidates(state, request):
    """Each ingress with each admissible terminator and their least path, in a form whose order is the order of candidates: precedence, total, terminator, ingress, links."""
    found = []
    for ingress in request.ingresses:
        for terminator in request.admissible:
            record = state.tables["terminator"][terminator]
            path = least_path(state, ingress, record["router"])
            if path is not None:
                found.append((rank(state, terminator), request.costs[terminator] + path.cost, terminator, ingress, path.links))
    return sorted(found)


def best(state, fields):
    """The request and its best candidate, or the denial by the first rule that fails."""
    request = Request(state, fields)
    found = candidates(state, request)
    rules = [
        (30, "UnknownIdentity", request.identity is None),
        (31, "UnknownService", request.service is None),
        (32, "UnknownRouter", request.ingress_named and request.ingress is None),
        (33, "NoDial", not request.has_dial(state)),
        (34, "NoSharedRouter", not request.shared),
        (35, "SharedRoutersOffline", not request.ingresses),
        (36, "NoTerminators", not request.counted),
        (37, "NoAdmissibleTerminator", not request.admissible),
        (38, "NoPath", not found),
        (39, "CircuitsFull", state.is_full("circuit")),
    ]
    for code, name, fails in rules:
        if fails:
            raise Refused(code, name)
    return request, found[0]


# Explanations and claims.


def explained_routers(state, request, precedence):
    """The routers that carry an admissible terminator of a precedence or of a better one, ascending."""
    return sorted({state.tables["terminator"][number]["router"] for number in request.admissible if rank(state, number) <= precedence})


def explanation(state, request, candidate):
    precedence, total, terminator, ingress, links = candidate
    routers = sorted(state.tables["router"])
    potentials = []
    for target in explained_routers(state, request, precedence):
        found = [least_path(state, router, target) for router in routers]
        potentials.append({"router": target, "values": [path and path.cost for path in found]})
    return {
        "ingress": state.tables["router"][ingress]["name"], "links": links, "potentials": potentials,
        "routers": routers, "terminator": terminator, "total": total,
    }


def above(value):
    """A value of a claim as a number: no path is above all."""
    return float("inf") if value is None else value


def no_hop_improves(state, target, values):
    """Whether the value at the target is 0 and no hop leads to a lower value than its start has."""
    for place in values:
        for number in state.tables["link"]:
            step = hop(state, number, place, target)
            if step is not None and step[1] + above(values[step[0]]) < above(values[place]):
                return False
    return values[target] == 0


def is_tight_chain(state, links, place, target, values):
    """Whether links lead from a place to a target by hops that cost exactly what the values fall."""
    for number in links:
        step = hop(state, number, place, target)
        if step is None or values[place] is None or values[step[0]] is None or values[place] - values[step[0]] != step[1]:
            return False
        place = step[0]
    return place == target


def is_justified(state, claim):
    """Whether all conditions on a claim hold."""
    request = Request(state, claim)
    ingress, terminator = state.find("router", claim["chosen"]), claim["terminator"]
    if not request.has_dial(state) or ingress not in request.ingresses or terminator not in request.admissible:
        return False
    routers, precedence = sorted(state.tables["router"]), rank(state, terminator)
    entries = {entry["router"]: dict(zip(routers, entry["values"])) for entry in claim["potentials"]}
    if claim["routers"] != routers or [entry["router"] for entry in claim["potentials"]] != explained_routers(state, request, precedence):
        return False
    if any(len(entry["values"]) != len(routers) for entry in claim["potentials"]):
        return False
    if not all(no_hop_improves(state, target, values) for target, values in entries.items()):
        return False
    record = state.tables["terminator"][terminator]
    values = entries[record["router"]]
    if not is_tight_chain(state, claim["links"], ingress, record["router"], values) or claim["total"] != request.costs[terminator] + above(values[ingress]):
        return False
    better = (is_better(state, entries, request.costs[number], number, entrance, precedence, claim["total"]) for number in request.admissible for entrance in request.ingresses)
    return not any(better)


def is_better(state, entries, cost, number, entrance, precedence, total):
    """Whether by a claim's values a terminator of some cost is reached from an entrance that is better than a precedence and a total."""
    if rank(state, number) > precedence:
        return False
    reached = cost + above(entries[state.tables["terminator"][number]["router"]][entrance])
    return reached < (float("inf") if rank(state, number) < precedence else total)


# Intercepts.


def nearness(claimed, wanted):
    """How near an address is to a destination; None where it does not have it."""
    form, *parts = address_of(claimed)
    to_form, *to = address_of(wanted)
    if form == "range" and to_form == "range":
        return 32 - parts[1] if parts[0] >> 32 - parts[1] == to[0] >> 32 - parts[1] else None
    if form == "host" and claimed == wanted:
        return 0
    if form == "under" and to_form == "host" and wanted.endswith("." + parts[0]):
        return wanted[:-len(parts[0]) - 1].count(".") + 1
    return None


def dialled(state, identity):
    """The services that an identity may dial, ascending."""
    return [number for number in sorted(state.tables["service"]) if count(state, "Dial", identity, number) > 0]


def hits(state, identity, fields):
    """The hits of a destination by the services that an identity may dial, in a form whose order is that in which they are picked: nearness, span, low, service, address."""
    for service in dialled(state, identity):
        claim = state.intercepts.get(service)
        if claim is None or fields["protocol"] not in claim["protocols"]:
            continue
        for address in claim["addresses"]:
            near = nearness(address, fields["address"])
            if near is not None:
                yield from ((near, high - low + 1, low, service, address) for low, high in claim["ports"] if low <= fields["port"] <= high)


def clashes(state, identity, service):
    """The services that an identity may dial and that clash with a service, ascending."""
    may_dial, claims = dialled(state, identity), state.intercepts
    if service not in may_dial or service not in claims:
        return []
    parts = ("protocols", "addresses", "ports")
    return [other for other in may_dial if other != service and other in claims
            and all(set(claims[service][part]) & set(claims[other][part]) for part in parts)]


# Settling.


def settle(state):
    """Revokes the circuits that nothing grants any more, takes away the links and the terminators whose parts are absent, and judges each circuit by itself."""
    tables = state.tables
    if state.revokes:
        revoke(state)
    for number, link in list(tables["link"].items()):
        if link["a"] not in tables["router"] or link["b"] not in tables["router"]:
            del tables["link"][number]
    for number, record in list(tables["terminator"].items()):
        host_is_there = record["host"] is None or record["host"] in tables["identity"]
        if record["service"] not in tables["service"] or record["router"] not in tables["router"] or not host_is_there:
            del tables["terminator"][number]
    for number, circuit in list(tables["circuit"].items()):
        judge(state, number, circuit)
    state.is_settled = state.revokes


def revoke(state):
    for number, circuit in list(state.tables["circuit"].items()):
        lost = what_is_lost(state, circuit)
        if lost is not None:
            del state.tables["circuit"][number]
            state.revoked[number] = lost


def what_is_lost(state, circuit):
    """What a circuit was granted by and that no longer stands, in a word; None where all of it stands."""
    identity, service, terminator = circuit["identity"], circuit["service"], circuit["terminator"]
    if identity not in state.tables["identity"] or service not in state.tables["service"] or terminator not in state.tables["terminator"]:
        return "a part"
    if count(state, "Dial", identity, service) == 0:
        return "Dial"
    if not is_shared(state, circuit["ingress"], identity, service):
        return "the ingress"
    record = state.tables["terminator"][terminator]
    if terminator not in counted(state, service, record["instance"]):
        return "the terminator's service"
    if is_admissible(state, terminator):
        return None
    if not is_connected(state, record["router"]):
        return "the terminator's router"
    return "the host's router" if count(state, "Bind", record["host"], service) > 0 else "Bind"


def judge(state, number, circuit):
    """Lets a circuit stay, stay over the least path, or end."""
    path, terminator = None, state.tables["terminator"].get(circuit["terminator"])
    if circuit["identity"] in state.tables["identity"] and circuit["service"] in state.tables["service"] and terminator is not None:
        if is_path(state, circuit["links"], circuit["ingress"], terminator["router"]):
            return
        path = least_path(state, circuit["ingress"], terminator["router"])
    if path is None:
        del state.tables["circuit"][number]
        state.ended.append(number)
    else:
        circuit["links"] = path.links
        state.rerouted[number] = path.ties
