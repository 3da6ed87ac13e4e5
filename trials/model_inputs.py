"""Random inputs for the independent model: small networks that change, and the requests that see it (docs/TRIALS.md)."""

import collections
import functools
import json
import struct

import frames
import model_bodies as bodies
import model_claims as claims
import model_commands as commands
import model_rules as rules
import model_spellings as spellings

ATTRIBUTES = ["a", "b", "c", "d", "all", "ALL"]
INSTANCES = ["", "", "", "x"]
# How often each command is drawn, beside those that build the network up and those that look at what changed.
WEIGHTS = {
    "CreateIdentity": 2, "UpdateIdentity": 3, "DeleteIdentity": 1, "CreateService": 2, "UpdateService": 3, "DeleteService": 1,
    "CreateRouter": 6, "UpdateRouter": 10, "DeleteRouter": 3, "ConnectRouter": 16, "DisconnectRouter": 8,
    "CreateServicePolicy": 3, "UpdateServicePolicy": 3, "DeleteServicePolicy": 1,
    "CreateEdgeRouterPolicy": 3, "UpdateEdgeRouterPolicy": 2, "DeleteEdgeRouterPolicy": 1,
    "CreateServiceEdgeRouterPolicy": 3, "UpdateServiceEdgeRouterPolicy": 2, "DeleteServiceEdgeRouterPolicy": 1,
    "CreateLink": 16, "SetLinkCost": 6, "ReportLatency": 6, "ReportState": 26, "DeleteLink": 6, "SetLeastRouterCost": 2,
    "CreateTerminator": 8, "UpdateTerminator": 4, "DeleteTerminator": 2,
    "CreateCircuit": 40, "DeleteCircuit": 3, "Explain": 10, "VerifyRoute": 16,
    "ShowGrants": 4, "ListServices": 3, "ShowCounts": 4, "ShowCircuit": 4, "Hello": 1, "Compact": 1,
    "SetIntercept": 4, "ClearIntercept": 1, "Pick": 5, "ListClashes": 2,
}
# Those that an earlier version does not read.
CLAIMING = ("SetIntercept", "ClearIntercept", "Pick", "ListClashes")
# How much more often some are drawn where circuits are to be revoked.
REVOKING = {
    "CreateCircuit": 3, "Explain": 2, "CreateTerminator": 1.5, "DeleteTerminator": 0.5, "DeleteCircuit": 2, "UpdateTerminator": 2,
    "UpdateIdentity": 3, "UpdateService": 2, "UpdateServicePolicy": 2, "DeleteServicePolicy": 2, "DeleteEdgeRouterPolicy": 2, "DeleteServiceEdgeRouterPolicy": 2,
    "CreateLink": 0.5, "ReportState": 0.5, "DeleteLink": 0.3, "DisconnectRouter": 0.7, "ConnectRouter": 0.5, "DeleteRouter": 0.5,
}
# Those that are drawn less where circuits are to stand for long.
CALM = {command for command in WEIGHTS if "Policy" in command}
CALM |= {"DeleteIdentity", "DeleteService", "CreateTerminator", "DeleteTerminator", "UpdateIdentity", "UpdateService"}


class Scene:
    """A network in the making: the model's state, and the requests and replies so far.

    In some scenes circuits stand for long, and links and routers fail; in as many what granted them lapses and comes back, and each service has terminators
    that cost about the same; in some services claim what others do; in some all changes, and in some half of the bodies are spoiled.
    """

    def __init__(self, rand, kind=None):
        self.rand, self.state = rand, rules.State()
        self.answer = functools.partial(commands.answer, self.state)
        self.requests, self.replies, self.tally, self.moved, self.seen, self.how = [], [], {}, {}, collections.Counter(), ""
        kind = kind or rand.choices(["settling", "revoking", "claiming", "changing", "spoiled"], [7, 7, 4, 3, 1])[0]
        self.revokes, self.settles, self.claims_much = kind == "revoking", kind in ("settling", "revoking"), kind == "claiming"
        self.spoils, self.absent = 0.5 if kind == "spoiled" else 0.04, 0.06 if self.settles else 0.15
        routers = rand.randint(4, 6) if self.revokes else rand.randint(3, 8) if self.settles else rand.randint(2, 8)
        self.pools = {
            "router": [f"r{i + 1}" for i in range(routers)],
            "link": [f"l{i + 1}" for i in range(rand.randint(9 if self.revokes else routers if self.settles else 1, 14))],
            "identity": ["i1", "i2", "i3", "i4", "i5", "i6"] if self.revokes else ["i1", "i2", "i3", "i4"], "service": ["s1", "s2", "s3"],
            "service_policy": ["p1", "p2", "p3", "p4"], "edge_router_policy": ["p1", "p2", "p3"], "service_edge_router_policy": ["p1", "p2", "p3"],
        }
        self.most_cost, self.router_costs = rand.choice([1, 2, 3, 6, 40]), rand.choice([[0], [0], [0, 0, 0, 5, 12, 30]])
        factor = {command: REVOKING.get(command, 1) if self.revokes else 0.1 if self.settles and command in CALM else 1 for command in WEIGHTS}
        self.weights = [weight * rand.choice([0.3, 1, 1, 3]) * factor[command] for command, weight in WEIGHTS.items()]
        if kind == "claiming":
            self.pools["service"] = ["s1", "s2", "s3", "s4", "s5"]
            self.weights = [claims.WEIGHTS.get(command, 0.2) for command in WEIGHTS]
        if kind == "spoiled":
            self.weights = [1] * len(WEIGHTS)
        self.claims, self.claimed = [], claims.Draws(self)

    def stand_on(self, kept):
        """Goes on from the state of a folder, and answers by it; what an earlier version does not read is not drawn for one of the first format."""
        self.state, self.answer = kept.state, kept.answer
        if kept.form == 1:
            self.weights = [weight * (command not in CLAIMING) for command, weight in zip(WEIGHTS, self.weights)]

    def send(self, content, body):
        """Sends a body: the model answers it, and both are kept."""
        rand = self.rand
        sequence = rand.getrandbits(32) if rand.random() < 0.03 else len(self.requests)
        data = frames.frame(content, body, sequence)
        if rand.random() < 0.03:
            headers = b"".join(struct.pack("<II", rand.choice([1, 2, 7]), size) + spellings.some_bytes(rand, size) for size in (0, rand.randrange(9)))
            data = data[:12] + struct.pack("<II", len(headers), len(body)) + headers + body
        before, route = len(self.state.tables["circuit"]), self.loaded_route(content, body)
        done, succeeds, text = self.answer(content, body)
        self.replies.append(bodies.reply_frame(sequence, len(self.requests), succeeds, text))
        self.requests.append(data)
        self.tally[done] = self.tally.get(done, 0) + 1
        self.how = done[1]
        if route is not None and self.how == "done":
            self.seen.update(route)
        self.seen.update(claims.seen(self.state, done, content, body))
        self.note_moves(done[0], before)

    def loaded_route(self, content, body):
        """What the loads do to the best candidate of a request: words that are counted if it is granted; None where no request is spelled."""
        try:
            command, fields = bodies.meaning(content, body)
            if command not in ("CreateCircuit", "Explain"):
                return None
            request, route = rules.best(self.state, fields)
        except bodies.Refused:
            return None
        found = rules.candidates(self.state, request)
        plain = min((rank, total - request.loads[terminator], terminator, ingress, links) for rank, total, terminator, ingress, links in found)
        ties = [row for row in found if row[:2] == route[:2] and row[2] != route[2] and (request.loads[row[2]] or request.loads[route[2]])]
        words = {"granted": True, "another terminator by the loads": plain[2] != route[2], "a tie of terminators under loads": bool(ties),
                 "a tie that the ingress decides": any(row[:3] == route[:3] and row[3] != route[3] for row in found)}
        return [word for word, holds in words.items() if holds]

    def note_moves(self, command, before):
        """Counts what became of the circuits that were there before a command."""
        state = self.state
        if command in commands.SETTLING or state.revoked:
            rerouted, revoked, ended = state.rerouted, state.revoked, state.ended
            found = self.moved.setdefault(command, [0, 0, 0, 0, 0])
            gone = len(rerouted) + len(revoked) + len(ended)
            for i, more in enumerate((len(rerouted), sum(ties > 1 for ties in rerouted.values()), len(revoked), len(ended), max(0, before - gone))):
                found[i] += more
            self.seen.update(f"revoked for {lost}" for lost in revoked.values())
            self.seen["commands that revoke and reroute"] += bool(revoked and rerouted)
            self.seen["commands that revoke some and keep others"] += bool(revoked) and len(revoked) < before

    def say(self, command, **fields):
        self.send(bodies.CONTENTS[command], spellings.compact(fields))

    # Draws.

    def some(self, kind):
        """A name of a kind: most often of a record that is there."""
        rand, table = self.rand, self.state.tables[kind]
        if table and rand.random() > self.absent:
            return rand.choice(list(table.values()))["name"]
        return rand.choice(self.pools[kind] + ["zz"])

    def new(self, kind):
        """A name for a new record of a kind: most often one that is free."""
        free = [name for name in self.pools[kind] if self.state.find(kind, name) is None]
        return self.rand.choice(free if free and self.rand.random() < 0.9 else self.pools[kind])

    def number(self, kind):
        """A number of a kind, most often of a record that is there."""
        table = self.state.tables[kind]
        if table and self.rand.random() < 0.9:
            return self.rand.choice(list(table))
        return self.rand.randint(1, self.state.next[kind])

    def used_link(self):
        """A link of some circuit."""
        links = [number for circuit in self.state.tables["circuit"].values() for number in circuit["links"]]
        return self.state.tables["link"][self.rand.choice(links)]["name"] if links else self.some("link")

    def passed_router(self):
        """A router that some circuit passes, and by times one by which it enters or at which it ends."""
        found, tables = [], self.state.tables
        for circuit in tables["circuit"].values():
            ends = {circuit["ingress"], tables["terminator"][circuit["terminator"]]["router"]}
            passed = {tables["link"][number][end] for number in circuit["links"] for end in "ab"}
            found += sorted(passed - ends if self.rand.random() < 0.95 else ends)
        return tables["router"][self.rand.choice(found)]["name"] if found else "zz" if self.settles else self.some("router")

    def crossed_router(self):
        """A router that some circuit passes and by which another one enters or at which it ends, if there is one."""
        ends, passed, tables = set(), set(), self.state.tables
        for circuit in tables["circuit"].values():
            own = {circuit["ingress"], tables["terminator"][circuit["terminator"]]["router"]}
            ends |= own
            passed |= {tables["link"][number][end] for number in circuit["links"] for end in "ab"} - own
        found = sorted(ends & passed)
        return tables["router"][self.rand.choice(found)]["name"] if found else None

    def broken(self, kind, mark):
        """A router that is not connected, or a link that is not up."""
        found = [record["name"] for record in self.state.tables[kind].values() if not record[mark]]
        return self.rand.choice(found) if found else self.some(kind)

    def listed(self):
        if self.revokes and self.rand.random() < 0.9:
            return self.rand.sample(ATTRIBUTES[:3], self.rand.choice([0, 1, 1, 1, 2]))
        return [self.rand.choice(ATTRIBUTES) for _ in range(self.rand.randint(0, 3))]

    def roles(self, kind):
        """A role list: all, or attributes and names that are most often there."""
        if self.rand.random() < (0.2 if self.revokes else 0.4):
            return ["#all"]
        return ["#" + self.rand.choice(ATTRIBUTES[:4] + ["ALL"]) if self.rand.random() < 0.6 else "@" + self.some(kind) for _ in range(self.rand.randint(0, 3))]

    def cost(self):
        return self.rand.randint(1, self.most_cost)

    def router_cost(self):
        return self.rand.choice(self.router_costs)

    def request(self):
        """A request: where circuits are to stand for long, most often one from afar for what is offered."""
        rand, tables = self.rand, self.state.tables
        if self.settles and tables["terminator"] and tables["identity"] and rand.random() < 0.9:
            tries = 8 if self.revokes else 1
            drawn = [self.good_request(rand.choice(list(tables["terminator"].values()))) for _ in range(tries)]
            return next(filter(self.grants, drawn[1:]), drawn[0])
        fields = {"identity": self.some("identity"), "service": self.some("service")}
        if rand.random() < 0.4:
            fields["ingress"] = self.some("router")
        if rand.random() < 0.2:
            fields["instance"] = rand.choice(INSTANCES)
        return fields

    def grants(self, fields):
        """Whether a request would be granted."""
        try:
            rules.best(self.state, dict({"ingress": None}, **fields))
        except bodies.Refused:
            return False
        return True

    def host(self, service):
        """The name of a host: where hosts are to lose Bind, most often of one that has it, or none where nobody has it."""
        state, number = self.state, self.state.find("service", service)
        able = [record["name"] for identity, record in state.tables["identity"].items() if rules.count(state, "Bind", identity, number) > 0]
        if self.revokes and self.rand.random() < 0.85:
            return self.rand.choice(able) if able else None
        return self.some("identity")

    def good_request(self, terminator):
        rand, tables = self.rand, self.state.tables
        identity, service = rand.choice(list(tables["identity"].values())), tables["service"][terminator["service"]]
        fields = {"identity": identity["name"], "service": service["name"], "instance": terminator["instance"]}
        if self.revokes and rand.random() < 0.25:
            return fields
        afar = [record["name"] for number, record in tables["router"].items() if record["connected"] and number != terminator["router"]]
        if afar and rand.random() < 0.85:
            fields["ingress"] = rand.choice(afar)
        return fields


# The fields of a drawn command.


def entity_fields(scene, command, kind):
    fields = {"name": (scene.new if command.startswith("Create") else scene.some)(kind)}
    if command == "DeleteRouter" and scene.settles:
        fields["name"] = scene.passed_router()
    if command.startswith("Delete"):
        return fields
    fields["attributes"] = scene.listed()
    if kind == "router":
        fields.update(cost=scene.router_cost(), no_traversal=scene.rand.random() < 0.3)
        if command == "UpdateRouter" and scene.rand.random() < 0.4:
            fields.update(name=scene.passed_router(), no_traversal=True)
    return fields


def policy_fields(scene, command, kind, name=None):
    fields = {"name": name or (scene.new if command.startswith("Create") else scene.some)(kind)}
    if command.startswith("Delete"):
        return fields
    fields["semantic"] = scene.rand.choice(["AnyOf", "AllOf"])
    if kind == "service_policy":
        fields["type"] = scene.rand.choice(["Dial", "Dial", "Bind"])
        if scene.revokes and scene.rand.random() < 0.9:
            fields["type"] = "Bind" if fields["name"] in ("p2", "p4") else "Dial"
    for side in rules.SIDES[kind]:
        fields[side + "_roles"] = scene.roles(side)
    return fields


def link_fields(scene, command):
    rand = scene.rand
    if command == "CreateLink":
        fields = {"name": scene.new("link"), "a": scene.some("router"), "b": scene.some("router"), "cost": scene.cost()}
        if fields["a"] == fields["b"]:
            fields["b"] = scene.some("router")
        if rand.random() < 0.2:
            fields.update(latency_a=rand.randint(0, 3), latency_b=rand.randint(0, 3))
        return fields
    fields = {"link": scene.some("link")}
    if command == "SetLinkCost":
        fields["cost"] = scene.cost()
    elif command == "DeleteLink":
        fields["link"] = scene.used_link() if rand.random() < 0.6 else scene.some("link")
    elif command == "ReportState":
        return state_fields(scene)
    else:
        fields.update(router=reporter(scene, fields["link"]), latency=rand.choice([0, 0, 1, 2, 60_000]))
    return fields


def reporter(scene, link):
    """The name of a router that reports of a link: most often of one of its ends."""
    number, rand = scene.state.find("link", link), scene.rand
    if number is None or rand.random() < 0.06:
        return scene.some("router")
    return scene.state.tables["router"][scene.state.tables["link"][number][rand.choice("ab")]]["name"]


def state_fields(scene):
    """A report: most often that a link in use is down, or that one is up again."""
    rand = scene.rand
    up = rand.random() < 0.6
    link = scene.some("link") if rand.random() < 0.3 else scene.broken("link", "up") if up else scene.used_link()
    return {"link": link, "router": reporter(scene, link), "up": up}


def terminator_fields(scene, command):
    rand = scene.rand
    fields = {"cost": rand.choice([0, 0, 1, 2, 20]), "precedence": rand.choice(["default", "default", "required", "failed"])}
    if scene.revokes and rand.random() < 0.9:
        fields = {"cost": rand.randint(0, 3), "precedence": "default" if rand.random() < 0.9 else "required"}
    if command != "CreateTerminator":
        return dict(fields if command == "UpdateTerminator" else {}, no=scene.number("terminator"))
    fields.update(service=scene.some("service"), router=scene.some("router"), instance=rand.choice(INSTANCES) if not scene.revokes or rand.random() < 0.15 else "")
    if rand.random() < (0.7 if scene.revokes else 0.4):
        fields["host"] = scene.host(fields["service"])
        if scene.revokes and fields["host"] is None:
            del fields["host"]
    return fields


def circuit_fields(scene, command):
    if command in ("CreateCircuit", "Explain"):
        return scene.request()
    if command == "VerifyRoute":
        return claim_fields(scene)
    return {"no": scene.number("circuit")}


def drawn_fields(scene, command):
    """The fields of a command, drawn so that most of them are right."""
    verbless = command.replace("Create", "").replace("Update", "").replace("Delete", "")
    if verbless in commands.ENTITIES:
        return entity_fields(scene, command, commands.ENTITIES[verbless])
    if verbless in commands.POLICIES:
        return policy_fields(scene, command, commands.POLICIES[verbless])
    if command in ("ConnectRouter", "DisconnectRouter"):
        if scene.rand.random() < (0.1 if scene.settles else 0.3):
            return {"name": scene.some("router")}
        return {"name": scene.broken("router", "connected") if command == "ConnectRouter" else scene.passed_router()}
    if command == "SetLeastRouterCost":
        return {"cost": scene.rand.choice([1, 2, 10, 20])}
    if "Terminator" in command:
        return terminator_fields(scene, command)
    if "Circuit" in command or command in ("Explain", "VerifyRoute"):
        return circuit_fields(scene, command)
    if command in ("ShowGrants", "ListServices"):
        return {"identity": scene.some("identity")}
    if command in CLAIMING:
        return scene.claimed.fields(command)
    return link_fields(scene, command) if "Link" in command or "Report" in command else {}


# Claims.


def claim_fields(scene):
    """A claim: of any candidate of a request or an old one, and spoiled by times."""
    rand, state = scene.rand, scene.state
    if scene.claims and rand.random() < 0.2:
        return rand.choice(scene.claims)
    fields = scene.request()
    request = rules.Request(state, dict({"ingress": None, "instance": ""}, **fields))
    found = rules.candidates(state, request)
    if not found:
        claim = {"chosen": scene.some("router"), "links": [], "potentials": [], "routers": sorted(state.tables["router"])}
        return dict(fields, terminator=scene.number("terminator"), total=0, **claim)
    candidate = found[0] if rand.random() < 0.6 else rand.choice(found)
    claim = json.loads(json.dumps(rules.explanation(state, request, candidate)))
    claim["chosen"] = claim.pop("ingress")
    for _ in range(rand.choice([0, 0, 1, 1, 2])):
        spoil_claim(scene, claim)
    scene.claims = scene.claims[-4:] + [dict(fields, **claim)]
    return scene.claims[-1]


def spoil_values(scene, claim, values):
    """Changes the values of one entry: one of them, all of them, those without a path, or those of routers that are not connected."""
    rand, low = scene.rand, scene.rand.choice([0, 1, 10, 20])
    at = rand.randrange(len(values)) if values else 0
    how = rand.randrange(7)
    if how == 0:
        values[at:at + 1] = [rand.choice([None, 0, low, 2**32 - 1])]
    elif how == 1:
        values[at:at + 1] = [value and max(0, value + rand.choice([-1, 1])) for value in values[at:at + 1]]
    elif how == 2:
        values[:] = [low if value is None else value for value in values]
    elif how == 3:
        values[:] = [value if value is None else min(low, value) for value in values]
    elif how == 4:
        values[:] = [value if value is None else value + low for value in values]
        claim["total"] += low
    elif how == 5:
        routers = scene.state.tables["router"]
        for i, number in enumerate(claim["routers"][:len(values)]):
            if number in routers and not routers[number]["connected"]:
                values[i] = rand.choice([None, 0, low])
    else:
        values[:] = rand.choice([values[:-1], values + [None], values + [None] * 250])


def spoil_claim(scene, claim):
    """Changes one part of a claim."""
    rand, links = scene.rand, claim["links"]
    entry = rand.choice(claim["potentials"] or [{"router": 1, "values": [0]}])
    if rand.random() < 0.4:
        spoil_values(scene, claim, entry.setdefault("values", []))
        return
    changes = {
        "total": [max(0, claim["total"] + rand.choice([-1, 1]))],
        "routers": [claim["routers"][::-1], claim["routers"][:-1], claim["routers"] + [99]],
        "potentials": [claim["potentials"][::-1], claim["potentials"][:-1], claim["potentials"] + [entry]],
        "links": [links[:-1], links + [scene.number("link")], links[::-1], [scene.number("link")] + links[1:], links + [1] * 255],
        "chosen": [scene.some("router")], "terminator": [scene.number("terminator")], "entry": [None],
    }
    field = rand.choice(list(changes))
    if field == "entry":
        rand.choice([lambda: entry.update(router=scene.number("router")), lambda: entry.update(zz=1), lambda: entry.pop("values", None)])()
    else:
        claim[field] = rand.choice(changes[field])


# Scenes.


def build_up(scene):
    """Makes a network in which most requests are granted."""
    rand, pools = scene.rand, scene.pools
    scene.say("SetLeastRouterCost", cost=rand.choice([1, 1, 10]))
    for router in pools["router"]:
        scene.say("CreateRouter", name=router, attributes=scene.listed(), cost=scene.router_cost(), no_traversal=rand.random() < 0.1)
        if rand.random() < 0.95:
            scene.say("ConnectRouter", name=router)
    for _ in pools["link"]:
        a, b = rand.sample(pools["router"], 2)
        scene.say("CreateLink", name=scene.new("link"), a=a, b=b, cost=scene.cost())
    for identity in pools["identity"][:4 if scene.revokes else 2]:
        scene.say("CreateIdentity", name=identity, attributes=scene.listed())
    for service in pools["service"][:2]:
        scene.say("CreateService", name=service, attributes=scene.listed())
    broad = scene.settles or rand.random() < (0.85 if scene.claims_much else 0.5)
    for kind, noun in ((kind, noun) for noun, kind in commands.POLICIES.items()):
        for policy in pools[kind][:2]:
            if broad and policy == "p1" or kind == "service_policy" and rand.random() < 0.6:
                scene.say("Create" + noun, **broad_policy(scene, kind, policy))
            else:
                scene.say("Create" + noun, **policy_fields(scene, "Create" + noun, kind, policy))
    for _ in range(rand.randint(3, 6) if scene.revokes else rand.randint(1, 3)):
        scene.say("CreateTerminator", **terminator_fields(scene, "CreateTerminator"))
    for _ in range(rand.randint(6, 12) if scene.revokes else rand.randint(1, 6)):
        scene.say("CreateCircuit", **scene.request())


def broad_policy(scene, kind, name):
    """A policy that grants all, or most where circuits are to be revoked: p1 lets dial, p2 lets bind. By times the routers are one identity's alone, so that a host may lack them."""
    fields = dict({side + "_roles": narrow(scene, side) if scene.revokes else ["#all"] for side in rules.SIDES[kind]}, name=name, semantic="AnyOf")
    if kind == "service_policy":
        fields["type"] = "Dial" if name in ("p1", "p3") else "Bind"
    if kind == "edge_router_policy" and scene.rand.random() < 0.15 and scene.state.find("identity", "i1"):
        fields["identity_roles"] = ["@i1"]
    return fields


def narrow(scene, kind):
    """A role list that most entities match, most of them by an attribute that they may lose."""
    rand = scene.rand
    if rand.random() < 0.2:
        return ["#all"]
    roles = ["#" + attribute for attribute in rand.sample(ATTRIBUTES[:3], rand.choice([1, 2, 2]))]
    return roles + ["@" + record["name"] for record in scene.state.tables[kind].values() if rand.random() < 0.2]


def lapse(scene):
    """Takes the policies that grant all away, or brings one back."""
    rand = scene.rand
    kind, noun = rand.choice([(kind, noun) for noun, kind in commands.POLICIES.items()])
    name = rand.choice(["p1", "p2"]) if kind == "service_policy" else "p1"
    there = scene.state.find(kind, name)
    if there is None:
        scene.say("Create" + noun, **broad_policy(scene, kind, name))
    elif rand.random() < 0.07:
        scene.say("Delete" + noun, name=name)


def turn(scene):
    """Changes what may grant a circuit that stands: attributes of its parts, a policy, or a router that it ends at, enters by or passes."""
    rand, tables = scene.rand, scene.state.tables
    circuit = rand.choice(list(tables["circuit"].values())) if tables["circuit"] else None
    terminator = circuit and tables["terminator"][circuit["terminator"]]
    parts = circuit and {"identity": [circuit["identity"], terminator["host"]], "service": [circuit["service"]], "router": [circuit["ingress"], terminator["router"]]}
    how, crossed = rand.randrange(14), scene.crossed_router()
    if crossed and rand.random() < 0.4:
        if rand.random() < 0.5:
            scene.say("UpdateRouter", name=crossed, attributes=scene.listed()[:1], cost=scene.router_cost(), no_traversal=True)
        else:
            scene.say(rand.choice(["DisconnectRouter", "DisconnectRouter", "DeleteRouter"]), name=crossed)
    elif how >= 12 and hosts(scene):
        fields = {"name": rand.choice(hosts(scene)), "attributes": scene.listed()}
        scene.say("UpdateIdentity", **fields)
    elif how < 6 and parts:
        kind = rand.choice(["identity", "identity", "service", "router", "router"])
        record = tables[kind].get(rand.choice(parts[kind])) or tables[kind][parts[kind][0]]
        fields = {"name": record["name"], "attributes": scene.listed()}
        if kind == "router":
            if rand.random() < 0.7:
                fields["name"] = scene.passed_router()
            fields.update(cost=scene.router_cost(), no_traversal=rand.random() < 0.6)
        scene.say("Update" + kind.title(), **fields)
    elif how < 10:
        kind, noun = rand.choice([(kind, noun) for noun, kind in commands.POLICIES.items()])
        name = "p2" if kind == "service_policy" and rand.random() < 0.4 else rand.choice(scene.pools[kind])
        there = scene.state.find(kind, name) is not None
        if there and rand.random() < 0.5:
            scene.say("Delete" + noun, name=name)
        else:
            broad = rand.random() < 0.3
            scene.say(("Update" if there else "Create") + noun, **(broad_policy(scene, kind, name) if broad else policy_fields(scene, "Update" + noun, kind, name)))
    elif how == 10 and parts:
        scene.say("DisconnectRouter", name=tables["router"][rand.choice(parts["router"])]["name"] if rand.random() < 0.3 else scene.passed_router())
    elif tables["terminator"]:
        number = rand.choice(list(tables["terminator"]))
        scene.say("UpdateTerminator", no=number, cost=rand.randint(0, 3), precedence=rand.choice(["default", "default", "default", "required"]))


# The denials that a policy mends, and the service policy that may.
MENDS = {"NoDial": "p1", "NoSharedRouter": "", "NoAdmissibleTerminator": "p2", "NotBindable": "p2"}


def hosts(scene):
    """The names of the identities that host a terminator of some circuit and have none of their own."""
    tables = scene.state.tables
    dialling = {circuit["identity"] for circuit in tables["circuit"].values()}
    found = {tables["terminator"][circuit["terminator"]]["host"] for circuit in tables["circuit"].values()} - dialling - {None}
    return [tables["identity"][number]["name"] for number in sorted(found)]


def mend(scene, refusal):
    """Brings back what the last request for a circuit, or the last terminator, was refused for."""
    kind, name = ("service_policy", MENDS[refusal]) if MENDS[refusal] == "p1" or scene.rand.random() < 0.5 else ("edge_router_policy", "p1")
    if refusal == "NoSharedRouter":
        kind, name = scene.rand.choice(["edge_router_policy", "service_edge_router_policy"]), "p1"
    noun = next(noun for noun, other in commands.POLICIES.items() if other == kind)
    scene.say(("Create" if scene.state.find(kind, name) is None else "Update") + noun, **broad_policy(scene, kind, name))


def look(scene):
    """Shows the circuits that the last command moved, one that ended and one more, and by times the counts."""
    state, rand = scene.state, scene.rand
    rerouted, ended = list(state.rerouted), (list(state.revoked) + state.ended)[:1]
    others = [rand.choice(list(state.tables["circuit"]))] if state.tables["circuit"] and rand.random() < 0.2 else []
    for number in rerouted + ended + others:
        scene.say("ShowCircuit", no=number)
    if rerouted or ended and rand.random() < 0.3 or scene.revokes and rand.random() < 0.05:
        scene.say("ShowCounts")


def wanted(scene):
    """The command that brings back what is wanting, where circuits are to stand for long."""
    tables = scene.state.tables
    if not all(record["connected"] for record in tables["router"].values()):
        return "ConnectRouter"
    wants = {"Identity": 2, "Service": 1, "Router": 3, "Terminator": 5 if scene.revokes else 2, "Link": 6, "Circuit": 10 if scene.revokes else 5}
    return next(("Create" + noun for noun, least in wants.items() if len(tables[noun.lower()]) < min(least, len(scene.pools.get(noun.lower(), range(least))))), None)


def play(rand, size):
    """A scene of about so many commands."""
    scene = Scene(rand)
    build_up(scene)
    go_on(scene, size)
    return scene


def go_on(scene, size):
    """Draws commands until a scene has about so many."""
    rand, names = scene.rand, list(WEIGHTS)
    while len(scene.requests) < size:
        command = rand.choices(names, scene.weights)[0]
        if scene.settles and rand.random() < 0.05:
            lapse(scene)
        if scene.revokes and rand.random() < 0.22:
            turn(scene)
            look(scene)
        if scene.settles and rand.random() < 0.4:
            command = wanted(scene) or command
        body = spellings.spelled(rand, drawn_fields(scene, command), scene.spoils)
        content = bodies.CONTENTS[command] if rand.random() < 0.995 else rand.choice([1, 2, 999, 1003, 1404, 1511, 2**32 - 1])
        scene.send(content, body)
        refusal = scene.how
        look(scene)
        if scene.revokes and refusal in MENDS and rand.random() < 0.5:
            mend(scene, refusal)


# Folders that earlier versions left.


def old_scene(rand, size, kept):
    """A scene of about so many commands on a new folder, by times without revocation, so that at its end circuits may stand that nothing grants."""
    scene = Scene(rand, "revoking" if rand.random() < 0.7 else None)
    scene.stand_on(kept)
    kept.state.revokes = rand.random() < 0.3
    build_up(scene)
    go_on(scene, size)
    return scene


def plant_circuits(rand, state, most):
    """Puts circuits in that nothing may have granted: over a path, from any router to any terminator, of any identity and service."""
    tables = state.tables
    for _ in range(most):
        if not all(tables[kind] for kind in ("identity", "service", "router", "terminator")):
            return
        drawn = {kind: rand.choice(list(tables[kind])) for kind in ("identity", "service", "terminator", "router")}
        path = rules.least_path(state, drawn["router"], tables["terminator"][drawn["terminator"]]["router"])
        if path is not None:
            circuit = {kind: drawn[kind] for kind in ("identity", "service", "terminator")}
            state.add("circuit", dict(circuit, ingress=drawn["router"], links=path.links))


def behind(rand, pools, kept, size):
    """A scene that goes on from a folder, by a controller that revokes: first it looks, and then a command comes that has an effect."""
    scene = Scene(rand, rand.choice(["revoking", "revoking", "claiming"]))
    scene.stand_on(kept)
    scene.pools, state = dict(scene.pools, **pools), kept.state
    for _ in range(rand.choice([0, 1, 3, 6])):
        command = rand.choice(["ShowCounts", "ShowCircuit", "ShowCircuit", "Explain", "VerifyRoute", "ShowGrants", "Hello", "Compact", "CreateCircuit", "DeleteLink"])
        fields = {"link": "zz"} if command == "DeleteLink" else {"identity": "zz", "service": "zz"} if command == "CreateCircuit" else drawn_fields(scene, command)
        scene.say(command, **fields)
    start = rand.randrange(8)
    if start == 0:
        scene.say("CreateCircuit", **scene.request())
    elif start == 1:
        scene.say("DeleteCircuit", no=scene.number("circuit"))
    elif start == 2:
        scene.say("SetLeastRouterCost", cost=state.least_router_cost)
    elif start == 3:
        scene.say("ConnectRouter", name=scene.some("router"))
    elif start <= 5:
        command = rand.choice(["SetIntercept", "ClearIntercept"])
        scene.say(command, **scene.claimed.fields(command))
    for number in list(scene.state.revoked)[:3]:
        scene.say("ShowCircuit", no=number)
    scene.say("ShowCounts")
    go_on(scene, size)
    return scene
