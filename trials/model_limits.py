"""Inputs that reach the limits of docs/RULES.md, for the independent model (docs/TRIALS.md). Each is a list of commands with their fields."""

import model_rules as rules
from model_bodies import MOST_ENTRIES


def full_entities(noun, kind):
    """One entity more than there may be, one deleted, and two more."""
    names = [{"name": f"n{i}"} for i in range(rules.LIMITS[kind] + 1)]
    made = [("Create" + noun, fields) for fields in names + names[:1]]
    more = [("Create" + noun, {"name": "more", "attributes": ["a"]}), ("Create" + noun, {"name": "most"})]
    return made + [("Delete" + noun, names[7])] + more + [("ShowCounts", {})]


def full_policies(noun, kind):
    """One policy more than there may be, one deleted, and two more."""
    sides = {side + "_roles": [] for side in rules.SIDES[kind]}
    form = dict(sides, semantic="AllOf", **({"type": "Bind"} if kind == "service_policy" else {}))
    made = [("Create" + noun, dict(form, name=f"n{i}")) for i in range(rules.LIMITS[kind] + 1)]
    absent = dict(form, name="n", **{next(iter(sides)): ["@absent"]})
    more = [("Create" + noun, dict(form, name="more")), ("Create" + noun, dict(form, name="most"))]
    return made + [("Create" + noun, absent), ("Delete" + noun, {"name": "n3"})] + more + [("ShowCounts", {})]


def routers(count):
    """So many connected routers."""
    for i in range(1, count + 1):
        yield "CreateRouter", {"name": f"r{i}"}
        yield "ConnectRouter", {"name": f"r{i}"}


def full_links():
    link = {"a": "r1", "b": "r2"}
    yield from routers(3)
    for i in range(rules.LIMITS["link"] + 1):
        yield "CreateLink", dict(link, name=f"n{i}")
    yield "CreateLink", {"name": "loop", "a": "r1", "b": "r1"}
    yield "CreateLink", {"name": "n0", "a": "r1", "b": "r9"}
    yield "DeleteLink", {"link": "n5"}
    yield "CreateLink", {"name": "loop", "a": "r1", "b": "r1"}
    yield "CreateLink", {"name": "more", "a": "r3", "b": "r2"}
    yield "CreateLink", dict(link, name="most")
    yield "DeleteRouter", {"name": "r1"}
    yield "ShowCounts", {}
    yield "CreateLink", {"name": "n0", "a": "r2", "b": "r3"}


def full_terminators():
    yield "CreateIdentity", {"name": "ann"}
    yield "CreateService", {"name": "web"}
    yield from routers(2)
    for i in range(rules.LIMITS["terminator"] + 1):
        yield "CreateTerminator", {"service": "web", "router": f"r{1 + i % 2}", "instance": f"n{i}"}
    yield "CreateTerminator", {"service": "web", "router": "r1", "host": "ann"}
    yield "DeleteTerminator", {"no": 9}
    yield "CreateTerminator", {"service": "web", "router": "r1", "host": "ann"}
    yield "CreateTerminator", {"service": "web", "router": "r2"}
    yield "CreateTerminator", {"service": "web", "router": "r2"}
    yield "DeleteRouter", {"name": "r2"}
    yield "ShowCounts", {}


def granted_network():
    """Three routers, a service on r3, and an identity that may dial it."""
    yield "CreateIdentity", {"name": "ann"}
    yield "CreateService", {"name": "web"}
    yield from routers(3)
    yield "CreateLink", {"name": "l1", "a": "r1", "b": "r2"}
    yield "CreateLink", {"name": "l2", "a": "r2", "b": "r3"}
    yield "CreateLink", {"name": "l3", "a": "r1", "b": "r3", "cost": 90}
    for command, sides in (("ServicePolicy", ("identity", "service")), ("EdgeRouterPolicy", ("identity", "router")), ("ServiceEdgeRouterPolicy", ("service", "router"))):
        fields = {side + "_roles": ["#all"] for side in sides}
        yield "Create" + command, dict(fields, name="p", semantic="AnyOf", **({"type": "Dial"} if command == "ServicePolicy" else {}))
    yield "CreateTerminator", {"service": "web", "router": "r3"}


def full_circuits():
    """As many circuits as there may be, all of them rerouted twice, and ended."""
    request = {"identity": "ann", "service": "web", "ingress": "r1"}
    yield from granted_network()
    for _ in range(rules.LIMITS["circuit"] + 1):
        yield "CreateCircuit", request
    yield "Explain", request
    yield "Explain", dict(request, service="absent")
    yield "CreateRouter", {"name": "r4"}
    yield "CreateCircuit", dict(request, ingress="r4")
    yield "ConnectRouter", {"name": "r4"}
    yield "CreateCircuit", dict(request, ingress="r4")
    yield "DeleteCircuit", {"no": 11}
    yield "Explain", request
    yield "CreateCircuit", request
    yield "CreateCircuit", request
    passed = {"name": "r2", "attributes": [], "cost": 0}
    changes = [
        ("UpdateRouter", dict(passed, no_traversal=True)), ("UpdateRouter", dict(passed, no_traversal=False)),
        ("ReportState", {"link": "l3", "router": "r1", "up": False}), ("DisconnectRouter", {"name": "r3"}),
    ]
    for change in changes:
        yield change
        yield "ShowCounts", {}
        for number in (1, 10, 11, 12, 5000, 16_384, 16_385, 16_386):
            yield "ShowCircuit", {"no": number}


def many(first, count=MOST_ENTRIES):
    """So many attributes from a place on."""
    return [f"a{i}" for i in range(first, first + count)]


def full_attributes():
    """As many attributes as may be in use by entities and policies, and what goes and comes then."""
    nouns, most = ("Identity", "Service", "Router"), rules.MOST_ATTRIBUTES
    for i in range(0, most - MOST_ENTRIES, MOST_ENTRIES):
        yield "Create" + nouns[i // MOST_ENTRIES % 3], {"name": f"n{i}", "attributes": many(i)}
    last = ["#" + name for name in many(most - MOST_ENTRIES)]
    policy = {"name": "p", "type": "Dial", "semantic": "AnyOf", "identity_roles": last, "service_roles": ["#a1", "#a2"]}
    yield "CreateServicePolicy", policy
    yield "CreateIdentity", {"name": "new", "attributes": ["a1", "b1"]}
    yield "CreateIdentity", {"name": "new", "attributes": many(100)}
    yield "UpdateIdentity", {"name": "new", "attributes": ["b1"]}
    yield "UpdateIdentity", {"name": "n0", "attributes": many(most)}
    yield "UpdateIdentity", {"name": "n0", "attributes": many(most, 62)}
    yield "UpdateIdentity", {"name": "new", "attributes": ["a5", "b1"]}
    yield "UpdateServicePolicy", dict(policy, service_roles=["#a1", "#a2", "#a3"])
    yield "UpdateServicePolicy", dict(policy, identity_roles=["#b1"])
    for noun in ("EdgeRouterPolicy", "ServiceEdgeRouterPolicy"):
        form = {"semantic": "AllOf", "identity_roles" if noun == "EdgeRouterPolicy" else "service_roles": []}
        yield "Create" + noun, dict(form, name="q", router_roles=["#" + name for name in many(7000, 63)])
        yield "Create" + noun, dict(form, name="r", router_roles=["#" + name for name in many(7000, 62)])
        yield "Update" + noun, dict(form, name="r", router_roles=["#" + name for name in many(8000, 64)])
    yield "DeleteService", {"name": f"n{MOST_ENTRIES}"}
    for size in (37, 36):
        yield "CreateRouter", {"name": "last", "attributes": many(9000, size)}
    for size in (37, 36):
        yield "UpdateRouter", {"name": "last", "attributes": many(9001, size), "cost": 1, "no_traversal": False}
    yield "ShowCounts", {}


def full_kind_and_attributes():
    """Where a kind and the attributes are both full, the kind is named."""
    count = rules.LIMITS["service"]
    for i in range(count):
        yield "CreateService", {"name": f"n{i}", "attributes": many(i * MOST_ENTRIES) if i * MOST_ENTRIES < rules.MOST_ATTRIBUTES else []}
    yield "CreateService", {"name": "new", "attributes": ["new"]}
    yield "CreateIdentity", {"name": "new", "attributes": ["new"]}
    yield "DeleteService", {"name": f"n{count - 1}"}
    yield "CreateService", {"name": "new", "attributes": ["new"]}
    yield "CreateService", {"name": "new", "attributes": ["a1"]}


# Intercepts.

READ_ADDRESSES = ["A", "Web.Example-1.com", "_sip._tcp", "1.2.3.4x", "1.2.3.4.5a", "*.a", "*.A-b", "0-", "1.b", "0.0.0.0", "255.255.255.255/32", "10.1.2.3/31", "9.9.9.9/0"]
READ_ADDRESSES += ["n" * 63, "1" * 62 + "n", ".".join(["a"] * 127), "*." + ".".join(["a"] * 127), ".".join(["n" * 63] * 3 + ["m" * 61])]
UNREAD_ADDRESSES = ["", ".", "a.", ".a", "a..b", "a b", "1", "1.2.3", "256.1.1.1", "1.2.3.4.5", "01.2.3.4", "1.2.3.00", "10.1.2.3/33", "10.1.2.3/08", "10.1.2.3/", "10.1.2.3/8/8"]
UNREAD_ADDRESSES += ["a/8", "*", "*.", "*.*.a", "a.*", "*a.b", "*.10.0.0.1", "*.7", "n" * 64, "a." + "n" * 64, ".".join(["a"] * 126 + ["aa"]) + "b", "1.2.3.4/-1"]
UNREAD_ADDRESSES += ["*." + ".".join(["a"] * 128), ".".join(["a"] * 125 + ["aaaa"])]
UNREAD_ADDRESSES += ["1.2.3.4/ 8", "1.2.3.1000", "+1.2.3.4", "a\n", "\u00e4.b", "a\u0000"]
PORT_LISTS = [[[1, 1]], [[65_535, 65_535]], [[1, 65_535]], [[0, 1]], [[2, 1]], [[1, 65_536]], [[1]], [[1, 2, 3]], [[]], [], [[1, 1]] * 32, [[1, 1]] * 33, [[i, i] for i in range(1, 33)]]
PORT_LISTS += [[[i, 65_535] for i in range(1, 34)], [[1, "2"]], [[1, None]], [[1.5, 2]], [1, 2], [[1, 1], [1, 1], [1, 2]], {"low": 1}, "1", None, 1, [[True, True]]]
PROTOCOL_LISTS = [["tcp"], ["udp"], ["tcp", "udp"], ["udp", "tcp"], ["tcp", "tcp"], [], ["tcp", "udp", "tcp"], ["tcp", "tcp", "tcp"], ["icmp"], ["TCP"], "tcp", ["tcp", "sctp"], [None], {}]


def claim_bodies():
    """Each way to spell the parts of an intercept and a destination, at their limits and past them."""
    claim = {"service": "web", "protocols": ["tcp"], "addresses": ["a.b"], "ports": [[1, 65_535]]}
    ask = {"identity": "ann", "protocol": "tcp", "address": "a.b", "port": 1}
    yield from granted_network()
    for address in READ_ADDRESSES + UNREAD_ADDRESSES + [None, 1, ["a"]]:
        yield "SetIntercept", dict(claim, addresses=[address])
        for wanted in sorted({address, address.lower(), address.replace("*", "x"), address.split("/")[0]}) if isinstance(address, str) else [address]:
            yield "Pick", dict(ask, address=wanted)
    lists = [[f"h{i}" for i in range(size)] for size in (0, 1, 32, 33)] + [["a"] * 32, ["a"] * 33, ["A", "a"], ["10.1.2.9/16", "10.1.0.0/16", "a"], ["a", 1], "a"]
    for field, values in (("addresses", lists), ("ports", PORT_LISTS), ("protocols", PROTOCOL_LISTS), ("service", ["web", "zz", "", 1, "a b"])):
        for value in values:
            yield "SetIntercept", dict(claim, **{field: value})
            for address, port in (("h0", 1), ("h31", 65_535), ("a", 22), ("10.1.2.3", 1), ("a.b", 32), ("a.b", 65_535)):
                yield "Pick", dict(ask, address=address, port=port)
                yield "Pick", dict(ask, address=address, port=port, protocol="udp")
    for field, values in (("port", [0, 1, 65_535, 65_536, -1, "1", None]), ("protocol", ["tcp", "udp", "TCP", "", 1, ["tcp"]]), ("identity", ["ann", "zz", "", 1]), ("address", ["A.B", "*.b"])):
        for value in values:
            yield "Pick", dict(ask, **{field: value})
    for fields in (ask, claim):
        for field in fields:
            yield "Pick" if fields is ask else "SetIntercept", {name: value for name, value in fields.items() if name != field}
    for command, fields in (("ClearIntercept", {"service": "zz"}), ("ClearIntercept", {"service": "web"}), ("ClearIntercept", {"service": "web"}), ("Pick", ask)):
        yield command, fields
    for identity, service in (("ann", "web"), ("zz", "web"), ("ann", "zz"), ("zz", "zz"), ("", "zz")):
        yield "ListClashes", {"identity": identity, "service": service}


def full_claims():
    """As many services as there may be, each of which claims as much as it may, and all of which clash."""
    hosts = [f"*.{'n' * 63}.{'m' * 63}.{'o' * 63}.h{i:057}" for i in range(31)]
    yield from granted_network()
    for i in range(rules.LIMITS["service"] - 1):
        name = f"s{i}" + "x" * (64 - len(f"s{i}"))
        yield "CreateService", {"name": name}
        ports = [[1 + (i + j) % 50, 40_000 + (7 * i + j) % 900] for j in range(31)] + [[22, 22]]
        yield "SetIntercept", {"service": name, "protocols": ["udp", "tcp"][:1 + i % 2], "addresses": hosts[:i % 31] + [f"10.{i % 9}.0.0/{8 + i % 9}"], "ports": ports}
        if i % 50 == 49:
            for address, port in (("10.4.0.1", 22), ("10.4.0.1", 40_100), ("10.9.0.1", 60), ("a." + hosts[3][2:], 22), ("a.b." + hosts[30][2:], 51)):
                yield "Pick", {"identity": "ann", "protocol": "udp", "address": address, "port": port}
            yield "ListClashes", {"identity": "ann", "service": name}
    yield "DeleteService", {"name": "s8" + "x" * 62}
    yield "ListClashes", {"identity": "ann", "service": name}
    yield "ShowCounts", {}


def inputs():
    """The inputs, each with a word for it."""
    for noun, kind in (("Identity", "identity"), ("Service", "service"), ("Router", "router")):
        yield kind, full_entities(noun, kind)
    for noun, kind in (("ServicePolicy", "service_policy"), ("EdgeRouterPolicy", "edge_router_policy"), ("ServiceEdgeRouterPolicy", "service_edge_router_policy")):
        yield kind, full_policies(noun, kind)
    yield "link", full_links()
    yield "terminator", full_terminators()
    yield "circuit", full_circuits()
    yield "attribute", full_attributes()
    yield "kind and attributes", full_kind_and_attributes()
    yield "parts of intercepts", claim_bodies()
    yield "intercepts", full_claims()
