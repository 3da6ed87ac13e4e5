"""What each command does and answers, by docs/RULES.md alone: a part of the independent model (docs/TRIALS.md)."""

import functools
import json

import model_rules as rules
from model_bodies import COMMANDS, Refused, meaning

ENTITIES = {"Identity": "identity", "Service": "service", "Router": "router"}
POLICIES = {"ServicePolicy": "service_policy", "EdgeRouterPolicy": "edge_router_policy", "ServiceEdgeRouterPolicy": "service_edge_router_policy"}
# The relation of a policy that names none in a field `type`.
TYPES = {"edge_router_policy": "IdentityRouter", "service_edge_router_policy": "ServiceRouter"}
DONE = {}


def demand_free(state, kind, fields):
    if state.find(kind, fields["name"]) is not None:
        raise Refused(20, "Exists")


# Entities.


def create_entity(kind, state, fields):
    demand_free(state, kind, fields)
    state.demand_room(kind)
    rules.demand_attributes(state, kind, None, fields)
    return state.add(kind, dict(fields, connected=False))


def update_entity(kind, state, fields):
    number = state.named(kind, fields["name"], "name")
    rules.demand_attributes(state, kind, number, fields)
    state.tables[kind][number].update(fields)
    return DONE


def delete_entity(kind, state, fields):
    number = state.named(kind, fields["name"], "name")
    del state.tables[kind][number]
    if kind == "service":
        state.intercepts.pop(number, None)
    for policy_kind, sides in rules.SIDES.items():
        for policy in state.tables[policy_kind].values():
            if kind in sides and fields["name"] in policy[kind]["names"]:
                policy[kind]["names"].remove(fields["name"])
    return DONE


def connect(connected, state, fields):
    state.tables["router"][state.named("router", fields["name"], "name")]["connected"] = connected
    return DONE


# Policies.


def policy_of(kind, fields):
    """The policy of a command's fields, with its sides under their kinds."""
    record = {"name": fields["name"], "semantic": fields["semantic"], "type": fields.get("type", TYPES.get(kind))}
    return dict(record, **{side: fields[side + "_roles"] for side in rules.SIDES[kind]})


def demand_references(state, kind, record):
    for side in rules.SIDES[kind]:
        for name in record[side]["names"]:
            if state.find(side, name) is None:
                raise Refused(23, "UnknownRef", field=side + "_roles", ref=name)


def create_policy(kind, state, fields):
    record = policy_of(kind, fields)
    demand_free(state, kind, fields)
    demand_references(state, kind, record)
    state.demand_room(kind)
    rules.demand_attributes(state, kind, None, record)
    return state.add(kind, record)


def update_policy(kind, state, fields):
    record = policy_of(kind, fields)
    number = state.named(kind, fields["name"], "name")
    demand_references(state, kind, record)
    rules.demand_attributes(state, kind, number, record)
    state.tables[kind][number] = record
    return DONE


def delete_policy(kind, state, fields):
    del state.tables[kind][state.named(kind, fields["name"], "name")]
    return DONE


# Links.


def create_link(state, fields):
    demand_free(state, "link", fields)
    a, b = state.named("router", fields["a"], "a"), state.named("router", fields["b"], "b")
    state.demand_room("link")
    if a == b:
        raise Refused(25, "SameRouter")
    return state.add("link", dict(fields, a=a, b=b, up=True))


def named_link(state, fields):
    return state.tables["link"][state.named("link", fields["link"], "link")]


def reported_link(state, fields):
    """A link, and which of its ends the reporting router is."""
    link, router = named_link(state, fields), state.find("router", fields["router"])
    for end in ("a", "b"):
        if router is not None and link[end] == router:
            return link, end
    raise Refused(21, "Unknown", field="router")


def set_link_cost(state, fields):
    named_link(state, fields)["cost"] = fields["cost"]
    return DONE


def report_latency(state, fields):
    link, end = reported_link(state, fields)
    link["latency_" + end] = fields["latency"]
    return DONE


def report_state(state, fields):
    reported_link(state, fields)[0]["up"] = fields["up"]
    return DONE


def delete_link(state, fields):
    del state.tables["link"][state.named("link", fields["link"], "link")]
    return DONE


def set_least_router_cost(state, fields):
    state.least_router_cost = fields["cost"]
    return DONE


# Terminators.


def create_terminator(state, fields):
    service, router = state.named("service", fields["service"], "service"), state.named("router", fields["router"], "router")
    host = None if fields["host"] is None else state.named("identity", fields["host"], "host")
    state.demand_room("terminator")
    if host is not None and rules.count(state, "Bind", host, service) == 0:
        raise Refused(26, "NotBindable")
    return state.add("terminator", dict(fields, service=service, router=router, host=host))


def update_terminator(state, fields):
    state.numbered("terminator", fields["no"]).update(cost=fields["cost"], precedence=fields["precedence"])
    return DONE


def delete_numbered(kind, state, fields):
    state.numbered(kind, fields["no"])
    del state.tables[kind][fields["no"]]
    return DONE


# Intercepts.


def set_intercept(state, fields):
    service = state.named("service", fields["service"], "service")
    state.intercepts[service] = {part: fields[part] for part in ("protocols", "addresses", "ports")}
    return DONE


def clear_intercept(state, fields):
    state.intercepts.pop(state.named("service", fields["service"], "service"), None)
    return DONE


def pick(state, fields):
    found = sorted(rules.hits(state, state.named("identity", fields["identity"], "identity"), fields))
    if not found:
        raise Refused(50, "NoIntercept")
    _, span, low, service, address = found[0]
    return {"address": address, "high": low + span - 1, "low": low, "service": state.tables["service"][service]["name"]}


def list_clashes(state, fields):
    identity, service = state.named("identity", fields["identity"], "identity"), state.named("service", fields["service"], "service")
    return {"clashes": [state.tables["service"][other]["name"] for other in rules.clashes(state, identity, service)]}


# Circuits, and what is shown.


def create_circuit(state, fields):
    request, (_, total, terminator, ingress, links) = rules.best(state, fields)
    made = state.add("circuit", {"identity": request.identity, "service": request.service, "terminator": terminator, "ingress": ingress, "links": links})
    return {"circuit": made["no"], "ingress": state.tables["router"][ingress]["name"], "links": links, "terminator": terminator, "total": total}


def explain(state, fields):
    return rules.explanation(state, *rules.best(state, fields))


def verify_route(state, fields):
    return {"certified": rules.is_justified(state, fields)}


def show_circuit(state, fields):
    circuit = state.numbered("circuit", fields["no"])
    names = {word: state.tables[kind][circuit[word]]["name"] for word, kind in (("identity", "identity"), ("ingress", "router"), ("service", "service"))}
    return dict(names, links=circuit["links"], terminator=circuit["terminator"])


def show_grants(state, fields):
    identity = state.named("identity", fields["identity"], "identity")
    return {word: rules.granted(state, relation, identity) for word, relation in (("bind", "Bind"), ("dial", "Dial"), ("routers", "IdentityRouter"))}


def list_services(state, fields):
    identity = state.named("identity", fields["identity"], "identity")
    return {"services": [name for name, _ in rules.granted(state, "Dial", identity)]}


def show_counts(state, _):
    sizes = {kind: len(table) for kind, table in state.tables.items()}
    return {
        "circuits": sizes["circuit"], "grants": rules.pairs(state), "identities": sizes["identity"], "links": sizes["link"],
        "policies": sum(sizes[kind] for kind in rules.SIDES), "routers": sizes["router"], "services": sizes["service"], "terminators": sizes["terminator"],
    }


# Commands without an effect.
SHOWING = {
    "Hello": lambda state, fields: None, "Compact": lambda state, fields: DONE,
    "Explain": explain, "VerifyRoute": verify_route, "ShowCircuit": show_circuit, "ShowGrants": show_grants, "ListServices": list_services, "ShowCounts": show_counts,
    "Pick": pick, "ListClashes": list_clashes,
}
# Commands that change nothing that another one's circuit stands on, so that there is nothing to settle but in a state that was not settled before.
CIRCUITS = {"CreateCircuit": create_circuit, "DeleteCircuit": functools.partial(delete_numbered, "circuit")}
SETTLING = {
    "ConnectRouter": functools.partial(connect, True), "DisconnectRouter": functools.partial(connect, False),
    "CreateLink": create_link, "SetLinkCost": set_link_cost, "ReportLatency": report_latency, "ReportState": report_state,
    "DeleteLink": delete_link, "SetLeastRouterCost": set_least_router_cost,
    "CreateTerminator": create_terminator, "UpdateTerminator": update_terminator, "DeleteTerminator": functools.partial(delete_numbered, "terminator"),
    "SetIntercept": set_intercept, "ClearIntercept": clear_intercept,
}
for verb, entity_call, policy_call in (("Create", create_entity, create_policy), ("Update", update_entity, update_policy), ("Delete", delete_entity, delete_policy)):
    SETTLING.update({verb + noun: functools.partial(entity_call, kind) for noun, kind in ENTITIES.items()})
    SETTLING.update({verb + noun: functools.partial(policy_call, kind) for noun, kind in POLICIES.items()})


def carried_out(state, command, fields):
    """The body of a command's success, or its refusal; and the state behind it."""
    if command in SHOWING:
        return SHOWING[command](state, fields)
    if command in CIRCUITS:
        body = CIRCUITS[command](state, fields)
        if not state.is_settled:
            rules.settle(state)
        return body
    forget(state)
    body = SETTLING[command](state, fields)
    forget(state)
    rules.settle(state)
    forget(state)
    return body


def forget(state):
    """Forgets the paths and counts that were found before a change."""
    state.found_paths, state.found_counts = {}, {}


def answer(state, content, body, permits=None):
    """Answers a frame of a sender who may send some commands, or all: the command and what became of it in words, whether it succeeds, and the body of the reply."""
    state.revoked, state.ended, state.rerouted = {}, [], {}
    command = COMMANDS[content][0] if content in COMMANDS else "other types"
    try:
        named, fields = meaning(content, body)
        if permits is not None and not permits(named, fields):
            raise Refused(12, "NotPermitted")
        told, succeeds = carried_out(state, named, fields), True
        how = "certified" if told and told.get("certified") else "done"
    except Refused as refusal:
        told, succeeds = refusal.body, False
        how = (told["name"] + " " + told.get("reason", "")).rstrip()
    text = b"" if told is None else json.dumps(told, separators=(",", ":"), sort_keys=True).encode()
    return (command, how), succeeds, text
