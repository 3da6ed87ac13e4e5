"""The generated frames of a number, by docs/FORMATS.md, 'The load generator': a part of the independent model (docs/TRIALS.md)."""

MULTIPLIER = 6364136223846793005
SEEDING = 11634580027462260723


def output(state):
    """The word of 32 bits that a state of 64 bits gives."""
    word, turn = ((state >> 18 ^ state) >> 27) % 2**32, state >> 59
    return (word >> turn | word << (-turn % 32)) % 2**32


class Draws:
    """The generator Lcg64Xsh32, seeded with a number as `rand` seeds any generator with one."""

    def __init__(self, number):
        words = []
        for _ in range(4):
            number = (number * MULTIPLIER + SEEDING) % 2**64
            words.append(output(number))
        self.step = (words[2] | words[3] << 32) | 1
        self.state = (words[0] | words[1] << 32) + self.step
        self.draw(1)

    def draw(self, bound):
        before, self.state = self.state % 2**64, (self.state * MULTIPLIER + self.step) % 2**64
        return output(before) % bound


def network(draw):
    """The commands that make the entities and the links."""
    for i in range(1, 201):
        yield "CreateIdentity", {"name": f"u{i}", "attributes": [f"g{draw(8)}", f"h{draw(8)}"]}
    for i in range(1, 41):
        yield "CreateService", {"name": f"s{i}", "attributes": [f"c{draw(4)}"]}
    for i in range(1, 13):
        yield "CreateRouter", {"name": f"r{i}", "attributes": [f"e{draw(3)}"], "cost": draw(100), "no_traversal": draw(6) == 0}
        yield "ConnectRouter", {"name": f"r{i}"}
    for i in range(1, 31):
        yield "CreateLink", {"name": f"l{i}", "a": f"r{1 + draw(12)}", "b": f"r{1 + draw(12)}", "cost": 1 + draw(100)}


def policies(draw):
    """The commands that make the policies and the terminators."""
    for i in range(1, 21):
        kind, semantic = "Bind" if draw(4) == 0 else "Dial", "AnyOf" if draw(2) == 0 else "AllOf"
        roles = {"identity_roles": [f"#g{draw(8)}", f"#h{draw(8)}"], "service_roles": [f"#c{draw(4)}"]}
        yield "CreateServicePolicy", dict(roles, name=f"d{i}", type=kind, semantic=semantic)
    for i in range(1, 7):
        yield "CreateEdgeRouterPolicy", {"name": f"e{i}", "semantic": "AnyOf", "identity_roles": [f"#g{draw(8)}"], "router_roles": [f"#e{draw(3)}"]}
    for i in range(1, 5):
        yield "CreateServiceEdgeRouterPolicy", {"name": f"f{i}", "semantic": "AnyOf", "service_roles": [f"#c{draw(4)}"], "router_roles": ["#all"]}
    for _ in range(40):
        yield "CreateTerminator", {"service": f"s{1 + draw(40)}", "router": f"r{1 + draw(12)}", "cost": draw(200)}


def circuits(draw):
    """The commands that ask for circuits and change what they stand on."""
    for _ in range(1000):
        which = draw(10)
        if which <= 5:
            yield "CreateCircuit", {"identity": f"u{1 + draw(200)}", "service": f"s{1 + draw(40)}"}
        elif which == 6:
            yield "UpdateIdentity", {"name": f"u{1 + draw(200)}", "attributes": [f"g{draw(8)}", f"h{draw(8)}"]}
        elif which == 7:
            yield "SetLinkCost", {"link": f"l{1 + draw(30)}", "cost": 1 + draw(100)}
        else:
            yield "DisconnectRouter" if which == 8 else "ConnectRouter", {"name": f"r{1 + draw(12)}"}


def commands(number):
    """The commands of a load, each with its fields."""
    draw = Draws(number).draw
    for part in (network, policies, circuits):
        yield from part(draw)
