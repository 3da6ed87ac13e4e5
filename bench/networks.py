"""Inputs for the measurements of docs/SPEED.md: lists of (content type, body) and their frames."""

import json
import os
import random
import re
import struct

MARKER = bytes.fromhex("0306090c")
HELLO = 0
CREATE_IDENTITY, UPDATE_IDENTITY, DELETE_IDENTITY = 1000, 1001, 1002
CREATE_SERVICE, UPDATE_SERVICE = 1010, 1011
CREATE_ROUTER, UPDATE_ROUTER, CONNECT_ROUTER, DISCONNECT_ROUTER = 1020, 1021, 1023, 1024
CREATE_SERVICE_POLICY, CREATE_EDGE_ROUTER_POLICY, CREATE_SERVICE_EDGE_ROUTER_POLICY = 1100, 1110, 1120
UPDATE_SERVICE_POLICY, DELETE_SERVICE_POLICY = 1101, 1102
CREATE_LINK, SET_LINK_COST, REPORT_LATENCY, REPORT_STATE, DELETE_LINK = 1200, 1201, 1202, 1203, 1204
CREATE_TERMINATOR, DELETE_TERMINATOR = 1300, 1302
CREATE_CIRCUIT, DELETE_CIRCUIT, EXPLAIN, VERIFY_ROUTE = 1400, 1401, 1402, 1403
SHOW_GRANTS, LIST_SERVICES, SHOW_COUNTS, SHOW_CIRCUIT = 1500, 1501, 1502, 1503
SET_INTERCEPT, PICK, LIST_CLASHES = 1600, 1610, 1611

ROUTERS, LINKS = 256, 4096


def frames(commands):
    """The frames of some commands, one behind the other. The sequence counts from 0."""
    parts, known = [], {}
    for sequence, (content, body) in enumerate(commands):
        text = known.get(id(body))
        if text is None:
            text = known[id(body)] = json.dumps(body, separators=(",", ":"), sort_keys=True).encode()
        parts.append(MARKER + struct.pack("<IIII", content, sequence, 0, len(text)) + text)
    return b"".join(parts)


def replies(data):
    """The bodies of reply frames."""
    found, at = [], 0
    while at < len(data):
        headers, body = struct.unpack_from("<II", data, at + 12)
        found.append(data[at + 20 + headers:at + 20 + headers + body])
        at += 20 + headers + body
    return found


def named(content, name, **fields):
    return content, {"name": name, **fields}


def churn(rounds):
    """1,000 identities with an attribute each, and then one more created and deleted, again and again."""
    made = [named(CREATE_IDENTITY, f"u{i}", attributes=[f"a{i}"]) for i in range(1000)]
    return made + [named(CREATE_IDENTITY, "guest", attributes=["a7", "guest"]), named(DELETE_IDENTITY, "guest")] * rounds


def attributes(count):
    """Identities of 64 attributes each, of 4,096 distinct ones."""
    return [named(CREATE_IDENTITY, f"u{i}", attributes=[f"a{(i * 64 + k) % 4096}" for k in range(64)]) for i in range(count)]


def updates(policies, rounds):
    """100 identities, 50 services, some policies that grant the same pairs, and updates that change no grant."""
    made = [named(CREATE_IDENTITY, f"u{i}", attributes=["a"]) for i in range(1, 101)]
    made += [named(CREATE_SERVICE, f"s{i}", attributes=["b"]) for i in range(1, 51)]
    roles = {"type": "Dial", "semantic": "AnyOf", "identity_roles": ["#a"], "service_roles": ["#b"]}
    made += [named(CREATE_SERVICE_POLICY, f"p{i}", **roles) for i in range(1, policies + 1)]
    made += [named(UPDATE_IDENTITY, "u1", attributes=["a", "x"] if i % 2 == 0 else ["a"]) for i in range(rounds)]
    return made + [(SHOW_COUNTS, {})]


def all_to_all(identities, services):
    """Identities and services, and one policy of all and all: 1,048,576 pairs at the limits, 2,048 and 512."""
    made = [named(CREATE_IDENTITY, f"u{i}") for i in range(identities)] + [named(CREATE_SERVICE, f"s{i}") for i in range(services)]
    roles = {"type": "Dial", "semantic": "AnyOf", "identity_roles": ["#all"], "service_roles": ["#all"]}
    return made + [named(CREATE_SERVICE_POLICY, "p", **roles)]


def granted():
    """One identity and one service that all routers share, with what it takes to ask for circuits."""
    everything = {"semantic": "AnyOf", "router_roles": ["#all"]}
    return [
        named(CREATE_IDENTITY, "ann"),
        named(CREATE_SERVICE, "web"),
        named(CREATE_SERVICE_POLICY, "d", type="Dial", semantic="AnyOf", identity_roles=["#all"], service_roles=["#all"]),
        named(CREATE_EDGE_ROUTER_POLICY, "e", identity_roles=["#all"], **everything),
        named(CREATE_SERVICE_EDGE_ROUTER_POLICY, "s", service_roles=["#all"], **everything),
    ]


def network(routers, pairs):
    """Connected routers r0, r1 and so on, and a link l0, l1 and so on between each of the pairs, whose costs differ."""
    made = [named(CREATE_ROUTER, f"r{i}", attributes=[f"zone{i % 4}"], cost=i % 7) for i in range(routers)]
    made += [named(CONNECT_ROUTER, f"r{i}") for i in range(routers)]
    return made + [named(CREATE_LINK, f"l{k}", a=f"r{a}", b=f"r{b}", cost=1 + k * 37 % 97) for k, (a, b) in enumerate(pairs)]


def mesh():
    """256 routers and 4,096 links: each router has one to the 16 behind it."""
    pairs = [(i, (i + step) % ROUTERS) for step in range(1, LINKS // ROUTERS + 1) for i in range(ROUTERS)]
    return network(ROUTERS, pairs) + granted()


def terminator(router):
    return CREATE_TERMINATOR, {"service": "web", "router": f"r{router}", "cost": 5}


def request(ingress):
    return {"identity": "ann", "service": "web", "ingress": f"r{ingress}"}


def mesh_circuits(count):
    """Circuits over the mesh, to four terminators."""
    made = mesh() + [terminator(r) for r in (0, 64, 128, 192)]
    return made + [(CREATE_CIRCUIT, request(i * 29 % ROUTERS)) for i in range(count)]


def line_circuits():
    """A line of 256 routers, 300 circuits over all of it, and then 100 reports of a latency."""
    made = network(ROUTERS, [(i, i + 1) for i in range(ROUTERS - 1)]) + granted() + [terminator(ROUTERS - 1)]
    made += [(CREATE_CIRCUIT, request(0)) for _ in range(300)]
    return made + [(REPORT_LATENCY, {"link": "l7", "router": "r7", "latency": i}) for i in range(100)]


def ring_moves(rounds):
    """A ring of 256 routers, 300 circuits halfway round it, and so many times a link of the way that they go down and up again: each time all go the other way round."""
    made = network(ROUTERS, [(i, (i + 1) % ROUTERS) for i in range(ROUTERS)]) + granted() + [terminator(ROUTERS // 2)]
    made += [(CREATE_CIRCUIT, request(0)) for _ in range(300)]
    for i in range(rounds):
        link = {"link": ("l7", "l200")[i % 2], "router": ("r7", "r200")[i % 2]}
        made += [(REPORT_STATE, {**link, "up": False}), (REPORT_STATE, {**link, "up": True})]
    return made


def ring_circuits(count):
    """Circuits round a ring of 16 routers, to two terminators."""
    made = network(16, [(i, (i + 1) % 16) for i in range(16)]) + granted() + [terminator(r) for r in (0, 8)]
    return made + [(CREATE_CIRCUIT, request(i * 5 % 16)) for i in range(count)]


def revocation():
    """2,000 circuits, and then 200 times a policy that grants what another grants too is made and deleted: no circuit ends."""
    roles = {"type": "Dial", "semantic": "AnyOf", "identity_roles": ["#all"], "service_roles": ["#all"]}
    return ring_circuits(2000) + [named(CREATE_SERVICE_POLICY, "x", **roles), named(DELETE_SERVICE_POLICY, "x")] * 200


def full_table(count):
    """Circuits, 16,384 where the table is to be full, and then 1,000 changes beside them: an identity with grants and no circuit is made and deleted, a link goes down and up
    that no circuit needs, and latencies are reported."""
    changes = []
    for i in range(200):
        changes += [named(CREATE_IDENTITY, "guest"), named(DELETE_IDENTITY, "guest")]
        changes += [(REPORT_STATE, {"link": "spare", "router": "r0", "up": up}) for up in (False, True)]
        changes += [(REPORT_LATENCY, {"link": "l7", "router": "r7", "latency": i})]
    return ring_circuits(count) + [named(CREATE_LINK, "spare", a="r0", b="r8", cost=60_000)] + changes


def everything(policies):
    """2,048 identities, 512 services and 256 routers, and some policies of all and all of each of the four relations in turn, without and with Bind."""
    made = [named(CREATE_IDENTITY, f"u{i}") for i in range(2048)] + [named(CREATE_SERVICE, f"s{i}") for i in range(512)]
    made += [named(CREATE_ROUTER, f"r{i}") for i in range(256)]
    return made + [everyone(i) for i in range(policies)]


def everyone(i):
    """A policy of all and all, of another relation in turn."""
    both = {"semantic": "AnyOf", "identity_roles": ["#all"], "service_roles": ["#all"]}
    routers = {"semantic": "AnyOf", "router_roles": ["#all"]}
    return [
        named(CREATE_SERVICE_POLICY, f"p{i}", type="Dial", **both), named(CREATE_SERVICE_POLICY, f"p{i}", type="Bind", **both),
        named(CREATE_EDGE_ROUTER_POLICY, f"p{i}", identity_roles=["#all"], **routers), named(CREATE_SERVICE_EDGE_ROUTER_POLICY, f"p{i}", service_roles=["#all"], **routers),
    ][i % 4]


def at_limits(size):
    """As many bytes of legal input at most: all entities and one policy of each relation, all links and terminators, then circuits, and at the end the policies deleted."""
    made = everything(4) + [named(CONNECT_ROUTER, f"r{i}") for i in range(ROUTERS)]
    made += [named(CREATE_LINK, f"l{i}", a=f"r{i % 256}", b=f"r{(i + 1 + i // 256) % 256}") for i in range(4096)]
    made += [(CREATE_TERMINATOR, {"service": f"s{i % 512}", "router": f"r{i % 256}"}) for i in range(4096)]
    ends = [named(DELETE_SERVICE_POLICY, "p1"), named(DELETE_SERVICE_POLICY, "p0")]
    left = size - len(frames(made + ends))
    asked = [(CREATE_CIRCUIT, {"identity": f"u{i % 2048}", "service": f"s{i % 512}", "ingress": f"r{i % 256}"}) for i in range(16_384)]
    while len(frames(asked)) > left:
        asked = asked[:len(asked) * left // len(frames(asked)) - 1]
    return made + asked + ends


def small_frames(count):
    """ShowCounts again and again, of the network at the start."""
    return [(SHOW_COUNTS, {})] * count


def example(name):
    """The commands of examples/NAME.lines."""
    top = os.path.join(os.path.dirname(os.path.abspath(__file__)), "..")
    with open(os.path.join(top, "docs", "FORMATS.md"), encoding="utf-8") as file:
        types = {word: int(number) for number, word in re.findall(r"^\| (\d+) \| (\w+) \|", file.read(), re.M)}
    with open(os.path.join(top, "examples", name + ".lines"), encoding="utf-8") as file:
        lines = [line.split() for line in file if line.strip() and not line.startswith("#")]
    words = [line[1:] if line[0].isdigit() else line for line in lines]
    return [(types[line[0]], json.loads(" ".join(line[1:]) or "{}")) for line in words]


def grown(rand):
    """A network of 24 routers with 72 links between any two of them, 200 identities, 40 services with a terminator or two, and 50 policies of random attributes."""
    made = network(24, [tuple(rand.sample(range(24), 2)) for _ in range(72)])
    made += [named(CREATE_IDENTITY, f"u{i}", attributes=[f"g{rand.randrange(8)}", f"h{rand.randrange(8)}"]) for i in range(200)]
    made += [named(CREATE_SERVICE, f"s{i}", attributes=[f"c{rand.randrange(4)}"]) for i in range(40)]
    for i in range(30):
        made.append(named(CREATE_SERVICE_POLICY, f"d{i}", **dial(rand)))
    for i in range(10):
        made.append(named(CREATE_EDGE_ROUTER_POLICY, f"e{i}", semantic="AnyOf", identity_roles=[f"#g{i % 8}"], router_roles=[f"#zone{i % 4}"]))
        made.append(named(CREATE_SERVICE_EDGE_ROUTER_POLICY, f"f{i}", semantic="AnyOf", service_roles=[f"#c{i % 4}"], router_roles=["#all"]))
    return made + [offer(rand) for _ in range(60)]


def dial(rand):
    """The roles of a policy that grants Dial to some of the identities of `grown`."""
    roles = {"identity_roles": [f"#g{rand.randrange(8)}", f"#h{rand.randrange(8)}"], "service_roles": [f"#c{rand.randrange(4)}"]}
    return {"type": "Dial", "semantic": rand.choice(["AnyOf", "AnyOf", "AllOf"]), **roles}


def offer(rand):
    return CREATE_TERMINATOR, {"service": f"s{rand.randrange(40)}", "router": f"r{rand.randrange(24)}", "cost": rand.randrange(200)}


def drawn(rand, at):
    """A command on the network of `grown`, which is refused by times."""
    who, what, router, link = f"u{rand.randrange(200)}", f"s{rand.randrange(40)}", f"r{rand.randrange(24)}", rand.randrange(72)
    end = {"link": f"l{link}", "router": f"r{link % 24}"}
    asked = {"identity": who, "service": what}
    return rand.choices([
        (CREATE_CIRCUIT, asked), (EXPLAIN, asked), (SHOW_GRANTS, {"identity": who}), (LIST_SERVICES, {"identity": who}), (SHOW_COUNTS, {}),
        (SHOW_CIRCUIT, {"no": rand.randrange(1, 1000)}), (DELETE_CIRCUIT, {"no": rand.randrange(1, 1000)}),
        named(UPDATE_IDENTITY, who, attributes=[f"g{rand.randrange(8)}", f"h{rand.randrange(8)}"]), named(UPDATE_SERVICE, what, attributes=[f"c{rand.randrange(4)}"]),
        named(CREATE_IDENTITY, f"n{at}", attributes=[f"g{rand.randrange(8)}"]), named(DELETE_IDENTITY, f"n{rand.randrange(at + 1)}"),
        named(UPDATE_ROUTER, router, attributes=[f"zone{rand.randrange(4)}"], cost=rand.randrange(9), no_traversal=rand.random() < 0.2),
        named(CONNECT_ROUTER, router), named(DISCONNECT_ROUTER, router), (SET_LINK_COST, {"link": end["link"], "cost": rand.randrange(1, 99)}),
        (REPORT_LATENCY, {**end, "latency": rand.randrange(99)}), (REPORT_STATE, {**end, "up": rand.random() < 0.6}), (HELLO, {}),
        named(UPDATE_SERVICE_POLICY, f"d{rand.randrange(30)}", **dial(rand)), offer(rand), (DELETE_TERMINATOR, {"no": rand.randrange(1, 200)}),
    ], [30, 6, 4, 4, 2, 4, 4, 4, 2, 3, 2, 2, 8, 2, 3, 4, 6, 1, 1, 2, 1])[0]


def mixed(count):
    """Commands of all families but intercepts on a network of 24 routers and 200 identities, so many of them behind those that make it."""
    rand = random.Random(48)
    return grown(rand) + [drawn(rand, at) for at in range(count)]


def sessions(count):
    """A trace: an administrator makes the network of `grown`, and then so many frames come from 24 routers and 200 identities, each in a session of its own."""
    rand = random.Random(49)
    opened = [b"\1\0\0\0"] + [bytes([1, 1 + i, 1, len(f"r{i}")]) + f"r{i}".encode() for i in range(24)]
    opened += [bytes([1, 25 + i, 2, len(f"u{i}")]) + f"u{i}".encode() for i in range(200)]
    parts = [(0, frames([command])) for command in grown(rand)]
    for _ in range(count):
        who, router = rand.randrange(200), rand.randrange(24)
        asked = {"identity": f"u{who}", "service": f"s{rand.randrange(40)}"}
        latency = {"link": f"l{rand.randrange(72)}", "router": f"r{router}", "latency": rand.randrange(99)}
        parts.append(rand.choices([
            (25 + who, frames([(CREATE_CIRCUIT, asked)])), (25 + who, frames([(LIST_SERVICES, {"identity": f"u{who}"})])),
            (1 + router, frames([(REPORT_LATENCY, latency)])), (25 + who, frames([(SHOW_COUNTS, {})])),
        ], [4, 3, 4, 1])[0])
    return b"".join(opened + [bytes([2, number]) + struct.pack("<H", len(data)) + data for number, data in parts])


def explained():
    """An explanation over the mesh with terminators at 16 routers."""
    return mesh() + [terminator(r) for r in range(0, ROUTERS, 16)] + [(EXPLAIN, {"identity": "ann", "service": "web"})]


def claimed(explanation, count):
    """The explanation claimed, as a client would send it back, some times."""
    told = dict(explanation)
    told["chosen"] = told.pop("ingress")
    return explained() + [(VERIFY_ROUTE, {"identity": "ann", "service": "web", **told})] * count


PLACE, PORT = "10.170.85.51", 30_000
LONGEST_HOST = ".".join("a" * 127)


def claimed_services(address_lists, port_lists):
    """An identity that may dial 512 services, and an intercept of each over both protocols, of the addresses and the ranges of ports for its place."""
    everyone = {"type": "Dial", "semantic": "AnyOf", "identity_roles": ["#all"], "service_roles": ["#all"]}
    made = [named(CREATE_IDENTITY, "ann")] + [named(CREATE_SERVICE, f"s{i}") for i in range(512)] + [named(CREATE_SERVICE_POLICY, "d", **everyone)]
    for i in range(512):
        lists = {"addresses": address_lists(i), "ports": port_lists(i)}
        made.append((SET_INTERCEPT, {"service": f"s{i}", "protocols": ["tcp", "udp"], **lists}))
    return made


def around(_):
    """32 ranges of addresses, from the widest on, that all have one place."""
    return [f"{PLACE}/{bits}" for bits in range(1, 33)]


def above(_):
    """What is under 32 hosts, from the furthest on, that all have the longest host of 127 labels."""
    return ["*." + ".".join("a" * labels) for labels in range(95, 127)]


def alike_to_the_end(i):
    """32 hosts of 253 bytes, of no other service, that differ in their last bytes alone."""
    return [LONGEST_HOST[:248] + f"{i * 32 + k:05x}"[-4:] + "z" for k in range(32)]


def wide(_):
    """32 ranges of ports, from the widest on, that all have one port."""
    return [[PORT - k, PORT + k] for k in reversed(range(32))]


def apart(i):
    """32 ranges of ports, of no other service, without a port in common."""
    return [[1 + i * 32 + k, 1 + i * 32 + k] for k in range(32)]
