"""What frames and bodies spell, by docs/FORMATS.md alone: a part of the independent model (docs/TRIALS.md)."""

import json
import math
import re
import struct

import frames

NAME = re.compile(r"[A-Za-z0-9._-]{1,64}")
MOST_HEADERS, MOST_BODY = 65_536, 1_048_576
MOST_NUMBER = 2**32 - 1
MOST_ENTRIES, MOST_LINKS, MOST_ROUTERS = 64, 255, 256
MOST_DEPTH = 127


class Refused(Exception):
    """A refusal: its code, its name and what it is about."""

    def __init__(self, code, name, **about):
        super().__init__(name)
        self.body = dict(about, code=code, name=name)


class WrongKind(Exception):
    """A value that is not of its field's kind."""


# Frames of a session.


def header_rows(data):
    """Whether some bytes are exact rows of headers."""
    at = 0
    while at < len(data):
        if len(data) - at < 8:
            return False
        at += 8 + struct.unpack_from("<I", data, at + 4)[0]
    return at == len(data)


def front(data, at):
    """What stands at a place of a session's bytes: a frame and the place behind it, a fault, or None for an unfinished frame."""
    if len(data) - at < 20:
        return None
    marker, content, sequence, headers, body = struct.unpack_from("<4sIIII", data, at)
    if marker != frames.MARKER:
        return "BadMarker"
    if headers > MOST_HEADERS or body > MOST_BODY:
        return "TooLong"
    start, end = at + 20 + headers, at + 20 + headers + body
    if end > len(data):
        return None
    if not header_rows(data[at + 20:start]):
        return "BadHeaders"
    return (sequence, content, data[start:end]), end


def read_session(data):
    """The frames of a plain input, its status, and its note."""
    found, at = [], 0
    while at < len(data):
        what = front(data, at)
        if what is None:
            return found, 3, f"zitictl: session 0: {len(data) - at} bytes left\n"
        if isinstance(what, str):
            return found, 2, f"zitictl: session 0: {what} at {at}\n"
        request, at = what
        found.append(request)
    return found, 0, ""


def reply_frame(request, count, succeeds, body):
    """The reply to a request's sequence number, where the session got so many replies before."""
    headers = struct.pack("<III", 1, 4, request) + struct.pack("<IIB", 2, 1, succeeds)
    return frames.MARKER + struct.pack("<IIII", frames.REPLY, count % 2**32, len(headers), len(body)) + headers + body


# JSON.


class Pairs(list):
    """The members of an object in the order in which they stand, with repeats."""


def finite(text):
    """A number that a double can hold; another one is no JSON."""
    value = float(text)
    if math.isinf(value):
        raise ValueError(text)
    return value


def whole(text):
    """A whole number without a sign below 2^64, as such; any other one as a double."""
    value = finite(text)
    return int(text) if text[0] != "-" and len(text) <= 20 and int(text) < 2**64 else value


def no_constant(text):
    raise ValueError(text)


def plain(value, depth=1):
    """A value with its objects as dictionaries. Too deep values and lone surrogates are no JSON."""
    if isinstance(value, str):
        value.encode("utf-8")
    if isinstance(value, (Pairs, list)) and depth > MOST_DEPTH:
        raise ValueError("depth")
    if isinstance(value, Pairs):
        return {plain(key): plain(member, depth + 1) for key, member in value}
    if isinstance(value, list):
        return [plain(member, depth + 1) for member in value]
    return value


def bad_body(field, reason):
    return Refused(11, "BadBody", field=field, reason=reason)


def members_of(body):
    """The members of the object that a body spells."""
    try:
        value = json.loads(body.decode("utf-8"), parse_int=whole, parse_float=finite, parse_constant=no_constant, object_pairs_hook=Pairs)
        if not isinstance(value, Pairs):
            raise ValueError("no object")
        return plain(value)
    except (ValueError, RecursionError):
        raise bad_body("", "NotObject") from None


# The kinds of fields. Each gives what the field's value is for the controller.


def demand(holds):
    if not holds:
        raise WrongKind


def name(value):
    demand(isinstance(value, str) and NAME.fullmatch(value))
    return value


def instance(value):
    return value if value == "" else name(value)


def truth(value):
    demand(isinstance(value, bool))
    return value


def number(least, most):
    def read(value):
        demand(type(value) is int and least <= value <= most)
        return value
    return read


def word(*words):
    def read(value):
        demand(isinstance(value, str) and value in words)
        return value
    return read


def entries(kind, most):
    def read(value):
        demand(isinstance(value, list) and len(value) <= most)
        return [kind(entry) for entry in value]
    return read


def attributes(value):
    return list(dict.fromkeys(entries(name, MOST_ENTRIES)(value)))


def roles(value):
    """A side: whether it is all, its `@` names and its attributes."""
    listed = list(dict.fromkeys(entries(role, MOST_ENTRIES)(value)))
    if "#all" in listed:
        demand(listed == ["#all"])
        return {"all": True, "names": [], "attributes": []}
    return {"all": False, "names": [entry[1:] for entry in listed if entry[0] == "@"], "attributes": [entry[1:] for entry in listed if entry[0] == "#"]}


def role(value):
    demand(isinstance(value, str) and value[:1] in ("#", "@"))
    name(value[1:])
    return value


def potential(value):
    demand(isinstance(value, dict) and set(value) == {"router", "values"})
    values = entries(lambda entry: entry if entry is None else TOTAL(entry), MOST_ROUTERS)(value["values"])
    return {"router": NUMBER(value["router"]), "values": values}


# Intercepts.


def address_of(text):
    """The address that a text is: a host, what is under one, or a range with its first number and its bits; None where it is none."""
    form = "host" if text[:2] != "*." else "under"
    host = text if form == "host" else text[2:]
    labels = host.split(".")
    if len(host) <= MOST_HOST and all(LABEL.fullmatch(label) for label in labels) and not re.fullmatch("[0-9]+", labels[-1]):
        return form, host.lower()
    found = RANGE.fullmatch(text)
    if found is None or any(int(part) > 255 for part in found.groups()[:4]) or int(found[5] or 32) > 32:
        return None
    bits = int(found[5] or 32)
    first = int.from_bytes(bytes(int(part) for part in found.groups()[:4]), "big")
    return "range", first >> 32 - bits << 32 - bits, bits


def address_text(address):
    """The one spelling of an address."""
    if address[0] != "range":
        return ("*." if address[0] == "under" else "") + address[1]
    return ".".join(map(str, address[1].to_bytes(4, "big"))) + (f"/{address[2]}" if address[2] < 32 else "")


def address(value):
    """An address in its one spelling."""
    demand(isinstance(value, str) and address_of(value))
    return address_text(address_of(value))


def destination(value):
    """A host, or one address of four numbers."""
    spelled = address(value)
    demand("*" not in spelled and "/" not in spelled)
    return spelled


def port_range(value):
    demand(isinstance(value, list) and len(value) == 2)
    lowest, highest = map(PORT, value)
    demand(lowest <= highest)
    return lowest, highest


def things(kind, most):
    """A list of at least one thing, without the repeats at later places."""
    def read(value):
        listed = entries(kind, most)(value)
        demand(listed)
        return list(dict.fromkeys(listed))
    return read


def protocols(value):
    return sorted(things(PROTOCOL, 2)(value))


LABEL = re.compile(r"[A-Za-z0-9_-]{1,63}")
DECIMAL = r"(0|[1-9][0-9]{0,2})"
RANGE = re.compile(r"\.".join([DECIMAL] * 4) + f"(?:/{DECIMAL})?")
MOST_HOST, MOST_CLAIMED = 253, 32

NUMBER = number(1, MOST_NUMBER)
TOTAL = number(0, MOST_NUMBER)
COST = number(0, 65_535)
LINK_COST = number(1, 65_535)
LATENCY = number(0, 60_000)
PORT = number(1, 65_535)
PROTOCOL = word("tcp", "udp")
SEMANTIC = ("semantic", word("AnyOf", "AllOf"))
PRECEDENCES = ("required", "default", "failed")
PRECEDENCE = word(*PRECEDENCES)

ONE = [("name", name)]
LISTED = ONE + [("attributes", attributes)]
MAYBE_LISTED = ONE + [("attributes", attributes, [])]
SERVICE_POLICY = ONE + [("type", word("Dial", "Bind")), SEMANTIC, ("identity_roles", roles), ("service_roles", roles)]
EDGE_ROUTER_POLICY = ONE + [SEMANTIC, ("identity_roles", roles), ("router_roles", roles)]
SERVICE_EDGE_ROUTER_POLICY = ONE + [SEMANTIC, ("service_roles", roles), ("router_roles", roles)]
REQUEST = [("identity", name), ("service", name), ("ingress", name, None), ("instance", instance, "")]
CLAIM = [
    ("chosen", name), ("links", entries(NUMBER, MOST_LINKS)), ("potentials", entries(potential, MOST_ROUTERS)),
    ("routers", entries(NUMBER, MOST_ROUTERS)), ("terminator", NUMBER), ("total", TOTAL),
]
OFFER = [("service", name), ("router", name), ("instance", instance, ""), ("host", name, None), ("cost", COST, 0), ("precedence", PRECEDENCE, "default")]
END = [("link", name), ("router", name)]

# The commands: content type, name, and the fields with their kinds and defaults in the order in which they are read.
COMMANDS = {
    0: ("Hello", None),
    1000: ("CreateIdentity", MAYBE_LISTED),
    1001: ("UpdateIdentity", LISTED),
    1002: ("DeleteIdentity", ONE),
    1010: ("CreateService", MAYBE_LISTED),
    1011: ("UpdateService", LISTED),
    1012: ("DeleteService", ONE),
    1020: ("CreateRouter", MAYBE_LISTED + [("cost", COST, 0), ("no_traversal", truth, False)]),
    1021: ("UpdateRouter", LISTED + [("cost", COST), ("no_traversal", truth)]),
    1022: ("DeleteRouter", ONE),
    1023: ("ConnectRouter", ONE),
    1024: ("DisconnectRouter", ONE),
    1100: ("CreateServicePolicy", SERVICE_POLICY),
    1101: ("UpdateServicePolicy", SERVICE_POLICY),
    1102: ("DeleteServicePolicy", ONE),
    1110: ("CreateEdgeRouterPolicy", EDGE_ROUTER_POLICY),
    1111: ("UpdateEdgeRouterPolicy", EDGE_ROUTER_POLICY),
    1112: ("DeleteEdgeRouterPolicy", ONE),
    1120: ("CreateServiceEdgeRouterPolicy", SERVICE_EDGE_ROUTER_POLICY),
    1121: ("UpdateServiceEdgeRouterPolicy", SERVICE_EDGE_ROUTER_POLICY),
    1122: ("DeleteServiceEdgeRouterPolicy", ONE),
    1200: ("CreateLink", ONE + [("a", name), ("b", name), ("cost", LINK_COST, 1), ("latency_a", LATENCY, 0), ("latency_b", LATENCY, 0)]),
    1201: ("SetLinkCost", [("link", name), ("cost", LINK_COST)]),
    1202: ("ReportLatency", END + [("latency", LATENCY)]),
    1203: ("ReportState", END + [("up", truth)]),
    1204: ("DeleteLink", [("link", name)]),
    1210: ("SetLeastRouterCost", [("cost", LINK_COST)]),
    1300: ("CreateTerminator", OFFER),
    1301: ("UpdateTerminator", [("no", NUMBER), ("cost", COST), ("precedence", PRECEDENCE)]),
    1302: ("DeleteTerminator", [("no", NUMBER)]),
    1400: ("CreateCircuit", REQUEST),
    1401: ("DeleteCircuit", [("no", NUMBER)]),
    1402: ("Explain", REQUEST),
    1403: ("VerifyRoute", REQUEST + CLAIM),
    1500: ("ShowGrants", [("identity", name)]),
    1501: ("ListServices", [("identity", name)]),
    1502: ("ShowCounts", []),
    1503: ("ShowCircuit", [("no", NUMBER)]),
    1510: ("Compact", []),
    1600: ("SetIntercept", [("service", name), ("protocols", protocols), ("addresses", things(address, MOST_CLAIMED)), ("ports", things(port_range, MOST_CLAIMED))]),
    1601: ("ClearIntercept", [("service", name)]),
    1610: ("Pick", [("identity", name), ("protocol", PROTOCOL), ("address", destination), ("port", PORT)]),
    1611: ("ListClashes", [("identity", name), ("service", name)]),
}
CONTENTS = {command: content for content, (command, _) in COMMANDS.items()}


def meaning(content, body):
    """The command that a body spells under a content type: its name and its fields."""
    if content not in COMMANDS:
        raise Refused(10, "UnsupportedType")
    command, fields = COMMANDS[content]
    if fields is None:
        return command, {}
    members, values = members_of(body), {}
    for field, kind, *default in fields:
        if field not in members:
            if not default:
                raise bad_body(field, "Missing")
            values[field] = default[0]
            continue
        try:
            values[field] = kind(members.pop(field))
        except WrongKind:
            raise bad_body(field, "WrongKind") from None
    if members:
        raise bad_body("", "Unknown")
    return command, values
