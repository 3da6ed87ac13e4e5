"""Random intercepts and what is asked of them: few hosts, networks and ports, so that services claim what others do; a part of the independent model (docs/TRIALS.md)."""

import model_bodies as bodies
import model_rules as rules

# How often the commands of a scene in which services claim are drawn, where not seldom.
WEIGHTS = {
    "SetIntercept": 12, "ClearIntercept": 1, "Pick": 40, "ListClashes": 12, "CreateService": 4, "DeleteService": 1.5, "UpdateService": 1, "CreateIdentity": 1,
    "UpdateIdentity": 2, "DeleteIdentity": 0.3, "CreateServicePolicy": 3, "UpdateServicePolicy": 2, "DeleteServicePolicy": 0.7, "ListServices": 0.5, "Compact": 0.5,
}
HOSTS = ["org", "b.org", "a.b.org", "c.a.b.org", "d.org", "b-org", "xb.org", "1.org", "_t.b.org", "a.1a"]
BASES = [0x0A010203, 0x0A010202, 0x0A020001, 0x0B000000, 0x0A010000, 0, 2**32 - 1]
BITS = [0, 8, 8, 15, 16, 16, 24, 30, 31, 32, 32]
PORTS = [(1, 65_535), (22, 22), (1, 100), (50, 60), (40, 50), (60, 65_535), (443, 443), (55, 65), (45, 55), (50, 50)]
BOUNDS = [1, 2, 22, 23, 40, 50, 60, 99, 443, 65_534, 65_535]


def number_text(number):
    return ".".join(map(str, number.to_bytes(4, "big")))


class Draws:
    """What a scene draws for its intercepts."""

    def __init__(self, scene):
        self.scene, self.rand = scene, scene.rand
        self.most_labels, self.form_weights = self.rand.choice([2, 3, 4]), self.rand.choice([[2, 4, 4], [1, 6, 1], [1, 1, 6]])

    def fields(self, command):
        scene, rand = self.scene, self.rand
        if command in ("SetIntercept", "ClearIntercept"):
            fields = {"service": scene.some("service")}
            if command == "SetIntercept":
                fields.update(self.intercept())
            return fields
        identity, service, claim = self.asked()
        fields = {"identity": identity}
        if command == "ListClashes":
            return dict(fields, service=service)
        fields["protocol"] = rand.choice(claim["protocols"] if claim and rand.random() < 0.85 else ["tcp", "udp"])
        fields["address"] = self.wanted(rand.choice(claim["addresses"])) if claim and rand.random() < 0.9 else self.spelled(rand.choice(HOSTS))
        low, high = rand.choice(claim["ports"]) if claim and rand.random() < 0.85 else rand.choice(PORTS)
        fields["port"] = min(65_535, max(1, rand.choice([low, high, low, high, low - 1, high + 1, (low + high) // 2])))
        return fields

    def asked(self):
        """Who asks, a service that claims, and what it claims: most often one that he may dial."""
        scene, rand, claims = self.scene, self.rand, self.scene.state.intercepts
        identity = scene.some("identity")
        number = scene.state.find("identity", identity)
        found = [service for service in rules.dialled(scene.state, number) if service in claims]
        if not found or rand.random() < 0.15:
            return identity, scene.some("service"), self.present()
        service = rand.choice(found)
        return identity, scene.state.tables["service"][service]["name"], claims[service]

    def present(self):
        """An intercept that is there, if any is."""
        found = list(self.scene.state.intercepts.values())
        return self.rand.choice(found) if found else None

    def intercept(self):
        """What a service claims: its own, by times in part what another one claims, and by times exactly what is claimed already."""
        rand, other = self.rand, self.present()
        if other and rand.random() < 0.12:
            return {part: list(other[part]) for part in ("protocols", "addresses", "ports")}
        fields = {
            "protocols": rand.choice([["tcp"], ["tcp"], ["udp"], ["tcp", "udp"], ["udp", "tcp"], ["tcp", "tcp"]]),
            "addresses": [self.address() for _ in range(self.size())], "ports": [self.ports() for _ in range(self.size())],
        }
        share = rand.choice([0.2, 0.8])
        for part in ("addresses", "ports"):
            if other and rand.random() < share:
                fields[part].insert(rand.randrange(len(fields[part]) + 1), rand.choice(other[part]))
        return fields

    def size(self):
        return self.rand.choices([1, 2, 3, 4, 31], [30, 30, 20, 10, 1])[0]

    def address(self):
        form, rand = self.rand.choices(["host", "under", "range"], self.form_weights)[0], self.rand
        if form == "range":
            bits = rand.choice(BITS)
            return number_text(rand.choice(BASES)) + (f"/{bits}" if bits < 32 or rand.random() < 0.5 else "")
        hosts = [host for host in HOSTS if host.count(".") < self.most_labels]
        return self.spelled(("*." if form == "under" else "") + rand.choice(hosts))

    def spelled(self, host):
        """A host with capitals, by times."""
        return "".join(rand_case(self.rand, letter) for letter in host) if self.rand.random() < 0.2 else host

    def ports(self):
        rand = self.rand
        return list(rand.choice(PORTS)) if rand.random() < 0.8 else sorted(rand.choice(BOUNDS) for _ in range(2))

    def wanted(self, claimed):
        """A destination that an address most often has."""
        form, *parts = bodies.address_of(claimed)
        rand = self.rand
        if form != "range":
            labels = rand.choice([["a"], ["c", "a"], ["b"], ["x1", "b", "a"], [], ["a"]]) if form == "under" else rand.choice([[], [], [], ["a"]])
            return self.spelled(".".join(labels + [parts[0]]))
        first, bits = parts
        inside = first + rand.randrange(2**(32 - bits))
        drawn = rand.choice([inside, inside, inside, first, first + 2**(32 - bits) - 1, first - 1, first + 2**(32 - bits), rand.choice(BASES)])
        return number_text(drawn % 2**32) + rand.choice(["", "", "", "/32", "/31"][:4 + (rand.random() < 0.1)])


def rand_case(rand, letter):
    return letter.upper() if rand.random() < 0.4 else letter


def seen(state, done, content, body):
    """What decided which hit was picked, in words that are counted; and whether services clash."""
    command, how = done
    if how != "done" or command not in ("Pick", "ListClashes"):
        return []
    fields = bodies.meaning(content, body)[1]
    identity = state.find("identity", fields["identity"])
    if command == "ListClashes":
        return ["clashes listed"] * bool(rules.clashes(state, identity, state.find("service", fields["service"])))
    found = sorted(rules.hits(state, identity, fields))
    if len(found) == 1:
        return ["a hit picked that is the only one"]
    rank = next((at for at, (one, other) in enumerate(zip(found[0], found[1])) if one != other), None)
    return ["a hit picked by its " + ("nearness", "span", "lowest port", "service", "address")[rank]]
