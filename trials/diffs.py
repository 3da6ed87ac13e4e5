#!/usr/bin/env python3
"""Compares what `zitilook diff` says of two folders with the lines that the independent model has for them.

usage: diffs.py ZITILOOK [PAIRS [SEED [SIZE]]]

The first folder is a random one of either format, as model.py has them, in either slot. The second one is, by turns, what some more commands leave of it, its copy,
its rows written anew, or another random folder. By times one of the two is damaged, or has no files. Both must stay as they are, and the status must be 0 where no
line comes, 2 where some do, and 7 where one of the two opens to no state.
"""

import collections
import os
import random
import sys
import tempfile
import time

import frames
import model_damage as damage
import model_folder as folders
import model_inputs as inputs
import model_rows as rows

WORDS = {
    "identity": "identities", "service": "services", "router": "routers", "link": "links", "service_policy": "service-policies",
    "edge_router_policy": "edge-router-policies", "service_edge_router_policy": "service-edge-router-policies", "terminator": "terminators", "circuit": "circuits",
}
PAIRS = {12: ("dial", "identity", "service"), 13: ("bind", "identity", "service"), 14: ("identity-router", "identity", "router"), 15: ("service-router", "service", "router")}
SIDES = {"service_policy": ("identity", "service"), "edge_router_policy": ("identity", "router"), "service_edge_router_policy": ("service", "router")}


# Lines of what has a row.


def flag(value):
    return "true" if value else "false"


def side(policy, kind):
    if policy[kind]["all"]:
        return " #all"
    return "".join(f" @{name}" for name in policy[kind]["names"]) + "".join(f" #{name}" for name in policy[kind]["attributes"])


def route(state, circuit):
    routers, links = state.tables["router"], state.tables["link"]
    at, words = circuit["ingress"], [routers[circuit["ingress"]]["name"]]
    for number in circuit["links"]:
        link = links[number]
        at = link["b"] if at == link["a"] else link["a"]
        words += [link["name"], routers[at]["name"]]
    return ",".join(words)


def fields(state, kind, record):
    """What a record's line has behind its number, and its name where it has one."""
    def named(of, number):
        return state.tables[of][number]["name"]
    attributes = "".join(f" #{name}" for name in record.get("attributes", []))
    if kind in ("identity", "service"):
        return attributes
    if kind == "router":
        return f" cost={record['cost']} no_traversal={flag(record['no_traversal'])} connected={flag(record['connected'])}{attributes}"
    if kind == "link":
        ends = f" a={named('router', record['a'])} b={named('router', record['b'])}"
        return f"{ends} cost={record['cost']} latency_a={record['latency_a']} latency_b={record['latency_b']} up={flag(record['up'])}"
    if kind in SIDES:
        front = f" type={record['type']}" if kind == "service_policy" else ""
        return f"{front} semantic={record['semantic']}{side(record, SIDES[kind][0])} ->{side(record, SIDES[kind][1])}"
    if kind == "terminator":
        host = "" if record["host"] is None else f" host={named('identity', record['host'])}"
        place = f" service={named('service', record['service'])} router={named('router', record['router'])}"
        return f"{place} instance={record['instance']} cost={record['cost']} precedence={record['precedence']}{host}"
    user = f" identity={named('identity', record['identity'])} service={named('service', record['service'])}"
    return f"{user} terminator={record['terminator']} route={route(state, record)}"


def claims(claim):
    addresses = "[" + ",".join(f'"{text}"' for text in claim["addresses"]) + "]"
    protocols = "[" + ",".join(f'"{word}"' for word in ("tcp", "udp") if word in claim["protocols"]) + "]"
    ports = "[" + ",".join(f"[{low},{high}]" for low, high in claim["ports"]) + "]"
    return f" protocols={protocols} addresses={addresses} ports={ports}"


def line_at(state, key, value):
    """The line of what a state has under the key of a row, which has a value."""
    table, numbers = key[0], [int.from_bytes(key[at:at + 4], "big") for at in range(1, len(key), 4)]
    if table == 1:
        kind = rows.KINDS[key[1] - 1]
        return f"next {WORDS[kind]} {state.next[kind]}"
    if table == rows.SETTING:
        return f"least-router-cost {state.least_router_cost}"
    if table == rows.SERIAL:
        return f"serial {state.serial}"
    if table == rows.INTERCEPTS:
        return f"intercepts {numbers[0]} {state.tables['service'][numbers[0]]['name']}{claims(state.intercepts[numbers[0]])}"
    if table in PAIRS:
        word, one, other = PAIRS[table]
        return f"{word} {state.tables[one][numbers[0]]['name']} {state.tables[other][numbers[1]]['name']} {int.from_bytes(value, 'little')}"
    kind = rows.KINDS[table - 3]
    record = state.tables[kind][numbers[0]]
    name = "" if kind in ("terminator", "circuit") else f" {record['name']}"
    return f"{WORDS[kind]} {numbers[0]}{name}{fields(state, kind, record)}"


def expected(one, other, tally):
    """The lines of the changes from one state to another."""
    before, after, lines = rows.rows(one), rows.rows(other), []
    for key in sorted(before.keys() | after.keys()):
        if key not in after:
            found = [f"- {line_at(one, key, before[key])}"]
        elif key not in before:
            found = [f"+ {line_at(other, key, after[key])}"]
        elif before[key] != after[key]:
            found = [f"~ {line_at(one, key, before[key])}", f"> {line_at(other, key, after[key])}"]
        else:
            continue
        tally[found[0][:2] + found[0].split(" ")[1]] += 1
        lines += found
    return "".join(line + "\n" for line in lines)


# Runs.


def put(folder, files):
    os.mkdir(folder)
    for name, data in files.items():
        with open(os.path.join(folder, name), "wb") as file:
            file.write(data)


def files_in(folder):
    found = {}
    for name in sorted(os.listdir(folder)):
        with open(os.path.join(folder, name), "rb") as file:
            found[name] = file.read()
    return found


def run_both(program, one, other):
    """Runs `diff` in a folder of some files, beside one of others: the status, what is said and noted. Both have to stay."""
    with tempfile.TemporaryDirectory() as place:
        put(os.path.join(place, "one"), one)
        put(os.path.join(place, "other"), other)
        status, said, noted = frames.run(program, "diff ../other", b"", os.path.join(place, "one"))
        assert (files_in(os.path.join(place, "one")), files_in(os.path.join(place, "other"))) == (one, other)
        return status, said.decode(), noted.decode()


def second(rand, scene, files, form, size):
    """The other folder, and what became of the first one."""
    how = rand.choice(["changed", "changed", "changed", "copied", "written anew", "another", "none"])
    if how == "changed":
        kept = folders.Kept(files, form)
        inputs.behind(rand, scene.pools, kept, rand.randint(1, size))
        return how, kept.files
    if how == "written anew":
        return how, damage.written(rand, folders.Look(files).state, rand.choice([1, 2]) if form == 1 else 2)
    if how == "another":
        return how, damage.history(rand, rand.randint(1, size), rand.choice([1, 2]))[1]
    return how, dict(files) if how == "copied" else {}


def without_empty(files):
    return {name: data for name, data in files.items() if data or name == folders.MARK}


def compare(program, rand, size, tally):
    form = rand.choice([1, 2])
    scene, one = damage.history(rand, rand.randint(1, size), form)
    how, other = second(rand, scene, one, form, size)
    if rand.random() < 0.3:
        one, other = other, one
    one, other = without_empty(one), without_empty(other)
    broken = rand.random() < 0.1
    if broken and rand.random() < 0.5:
        one = damage.damaged(rand, one) if one else one
    elif broken:
        other = damage.damaged(rand, other) if other else other
    seen = []
    for files, front in ((one, "zitilook: "), (other, "zitilook: other folder: ")):
        try:
            seen.append(folders.Look(files).state)
        except folders.Damaged as fault:
            noted = fault.note.replace("zitictl: ", front)
            assert run_both(program, one, other) == (7, "", noted)
            tally["damaged", front] += 1
            return
    lines = expected(*seen, tally)
    assert run_both(program, one, other) == (2 if lines else 0, lines, ""), how
    tally[how, "with changes" if lines else "without a change"] += 1


def main(program, most=300, seed=1, size=120):
    begun, tally = time.monotonic(), collections.Counter()
    program = os.path.abspath(program)
    for at in range(int(most)):
        try:
            compare(program, random.Random(f"diffs {seed} {at}"), int(size), tally)
        except AssertionError:
            print(f"seed {seed}, pair {at}")
            raise
    for what, count in sorted(tally.items(), key=str):
        print(f"{what}: {count}")
    print(f"{most} pairs, {time.monotonic() - begun:.0f} s, no difference")


if __name__ == "__main__":
    main(*sys.argv[1:])
