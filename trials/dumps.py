#!/usr/bin/env python3
"""Answers the lines of `zitilook dump` from the start, by the independent model, and compares what they leave with the folder's state.

usage: dumps.py ZITILOOK [FOLDERS [SEED [SIZE]]]

Random folders of both formats, as model.py has them, in either slot. Each line has to be answered without a refusal, and the state behind them must have the same
records by name, terminators in their order, the same setting, the same intercepts and the same grants. A folder of that state must have the same dump but for
remarks. `show` of each record must be its line of `list`, and of another name nothing. The files must stay as they are.
"""

import collections
import json
import random
import sys
import time

import model_bodies as bodies
import model_commands as commands
import model_damage as damage
import model_folder as folders
import model_rules as rules
import model_runs as runs

KINDS = {
    "identity": "identities", "service": "services", "router": "routers", "link": "links", "service_policy": "service-policies",
    "edge_router_policy": "edge-router-policies", "service_edge_router_policy": "service-edge-router-policies", "terminator": "terminators", "circuit": "circuits",
}


def name_in(state, kind, number):
    return None if number is None else state.tables[kind][number]["name"]


def by_name(state):
    """What a state has, by names: the setting, the records of each kind but circuits, the intercepts and the grants."""
    tables = {kind: dict(table) for kind, table in state.tables.items()}
    found = {kind: {record["name"]: record for record in tables[kind].values()} for kind in ("identity", "service", "router", *rules.SIDES)}
    found["link"] = {link["name"]: dict(link, a=name_in(state, "router", link["a"]), b=name_in(state, "router", link["b"])) for link in tables["link"].values()}
    ends = {"service": "service", "router": "router", "host": "identity"}
    found["terminator"] = [dict(term, **{field: name_in(state, kind, term[field]) for field, kind in ends.items()}) for _, term in sorted(tables["terminator"].items())]
    found["intercepts"] = {name_in(state, "service", service): claim for service, claim in state.intercepts.items()}
    rules_of = {relation: {name_in(state, rules.SIDES[kind][0], left): rules.granted(state, relation, left) for left in tables[rules.SIDES[kind][0]]}
                for relation, kind in rules.RELATIONS.items()}
    found["grants"] = {relation: {left: sorted(listed) for left, listed in granted.items()} for relation, granted in rules_of.items()}
    return state.least_router_cost, found


def said(program, words, files, status=0):
    """What the program says of a folder, which it has to leave as it is."""
    found, text, noted, behind = runs.run_on(program, words, files, b"")
    assert (found, behind) == (status, files), (words, found, noted)
    return text.decode(), noted


def answered(text):
    """The state behind the commands of some lines, and how often each was one of them. None may be refused."""
    state, tally = rules.State(), collections.Counter()
    for line in text.splitlines():
        if not line.startswith("#"):
            name, _, body = line.partition(" ")
            how, succeeds, _ = commands.answer(state, bodies.CONTENTS[name], body.encode())
            assert succeeds, (line, how)
            assert body == json.dumps(json.loads(body), separators=(",", ":"), sort_keys=True), line
            tally[name] += 1
    return state, tally


def look_at(program, files):
    """Compares `show` with `list`."""
    for kind, word in KINDS.items():
        listed = said(program, f"list {word}", files)[0].splitlines()
        for line in listed[:3]:
            asked = line.split(" ")[0 if kind in ("terminator", "circuit") else 1]
            assert said(program, f"show {word} {asked}", files)[0] == line + "\n", line
        assert said(program, f"show {word} no-such", files, 2) == ("", "zitilook: no record: no-such\n")


def compare(program, rand, size, tally):
    _, files = damage.history(rand, rand.randint(1, size), rand.choice([1, 2]))
    files = {name: data for name, data in (damage.placed(rand, files) if files.get(folders.MARK) else files).items() if data or name in files}
    state = folders.Look(files).state
    text, noted = said(program, "dump", files)
    assert noted == ""
    again, counts = answered(text)
    assert by_name(again) == by_name(state)
    assert text.count("\n# ") == len(state.tables["terminator"]) + len(state.tables["circuit"])
    lines = [line for line in text.splitlines() if not line.startswith("#")]
    second = said(program, "dump", damage.written(rand, again, 2))[0].splitlines()
    assert [line for line in second if not line.startswith("#")] == lines
    if rand.random() < 0.1:
        look_at(program, files)
    tally.update(counts)
    tally["terminators with a host that lost Bind"] += sum(
        term["host"] is not None and rules.count(state, "Bind", term["host"], term["service"]) == 0 for term in state.tables["terminator"].values())
    tally["links that are down"] += sum(not link["up"] for link in state.tables["link"].values())
    tally["circuits, as remarks"] += len(state.tables["circuit"])
    tally["kinds with a number given up"] += sum(state.next[kind] > len(table) + 1 for kind, table in state.tables.items())


def main(program, most=300, seed=1, size=300):
    begun, tally = time.monotonic(), collections.Counter()
    for at in range(int(most)):
        try:
            compare(program, random.Random(f"dumps {seed} {at}"), int(size), tally)
        except AssertionError:
            print(f"seed {seed}, folder {at}")
            raise
    for what, count in sorted(tally.items()):
        print(f"{what}: {count}")
    print(f"{most} folders, {time.monotonic() - begun:.0f} s, no difference")


if __name__ == "__main__":
    main(*sys.argv[1:])
