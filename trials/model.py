#!/usr/bin/env python3
"""Compares the built program with an independent model of the controller, byte by byte.

usage: model.py PROGRAM [COMMANDS [SEED [SIZE]]]
       model.py folders PROGRAM [FOLDERS [SEED]]
       model.py journal PROGRAM
       model.py cases FOLDER [COMMANDS [SEED [SIZE]]]

The model is written from docs/RULES.md and docs/FORMATS.md alone: model_bodies.py reads frames and bodies, model_rules.py has the state, grants, paths, intercepts
and settling, model_commands.py the commands, model_rows.py the rows in both formats, model_folder.py batches, slots and runs on a folder. Compared are the replies to
the examples, the counts line of some loads, the replies to inputs that reach the limits, and those to random inputs of about SIZE commands each, else 300, until
there are so many commands, with status and notes; a tenth of these inputs is answered by two runs on a folder too, and as many others on a folder of the first or the
second format that an earlier run left. Behind each run on a folder each file must have the model's bytes. At the first difference the input is shortened, and the
command and both replies are printed.

The second form compares runs on folders alone, so many of them: whole ones of both formats in either slot, stopped and damaged ones, and those at the limits.

The third form compares runs on slots of 2^30 bytes, which leave just room for a change, or just none.

The last form runs nothing. It writes the same inputs with what the model says to them, for `rt try --cases FOLDER/dry`, and for `rt try --cases FOLDER/old`
with both files of FOLDER/folder as `--data`.
"""

import collections
import os
import random
import sys
import time

import frames
import model_bodies as bodies
import model_commands as commands
import model_damage as damage
import model_folder as folders
import model_inputs as scenes
import model_limits as limits
import model_load as load
import model_rules as rules
import model_runs as runs
import model_sessions as sessions
import model_spellings as spellings

EXAMPLES = os.path.join(os.path.dirname(os.path.abspath(__file__)), "..", "examples")
EXAMPLE_NAMES = ("ann", "network", "story", "claims", "realistic", "import/network")
LOADS = [0, 1, 2, 3, 7, 126, 2**32 - 1]
# One of so many random inputs is answered on a folder too.
KEPT = 10
# The commands of a limit that are answered on a folder too.
MOST_KEPT = 1000


def model_replies(data, state=None):
    """What the model says to some input, from the start or from a state: the replies, the status and the notes."""
    state, replies = state or rules.State(), []
    requests, status, note = bodies.read_session(data)
    for sequence, content, body in requests:
        _, succeeds, text = commands.answer(state, content, body)
        replies.append(bodies.reply_frame(sequence, len(replies), succeeds, text))
    return replies, status, note


def split_replies(said):
    """The frames of what the program said, and what is behind them."""
    found, at = [], 0
    for _, body in frames.whole_frames(said):
        end = at + 20 + int.from_bytes(said[at + 12:at + 16], "little") + len(body)
        found.append(said[at:end])
        at = end
    return found + [said[at:]] * (at < len(said))


def first_difference(program, requests, tail, expected):
    """The place of the first reply that is not the expected one, with both; the place behind all for another status or note; None where all agree."""
    replies, status, note = expected
    found, said, noted = frames.run(program, "dry", b"".join(requests) + tail, "/")
    if (said, found, noted.decode()) == (b"".join(replies), status, note):
        return None
    theirs = split_replies(said)
    for at in range(max(len(replies), len(theirs))):
        one, other = (listed[at] if at < len(listed) else b"" for listed in (replies, theirs))
        if one != other:
            return at, one, other
    return len(requests), f"status {status} {note}".encode(), b"status %d " % found + noted


def differs(program, requests):
    return first_difference(program, requests, b"", model_replies(b"".join(requests))) is not None


def compare(program, word, requests, tail=b"", expected=None):
    """Compares one input, and ends the trial where the program does not say what the model says."""
    expected = expected or model_replies(b"".join(requests) + tail)
    found = first_difference(program, requests, tail, expected)
    if found is None:
        return
    at, model, said = found
    print(f"{word}: another reply at place {at}:", runs.line(requests[at]) if at < len(requests) else tail, f"\nmodel:   {model}\nprogram: {said}")
    front = requests[:at + 1]
    if differs(program, front):
        front = runs.shortened(lambda fewer: differs(program, fewer), front)
        at, model, said = first_difference(program, front, b"", model_replies(b"".join(front)))
        print("shortened:", *map(runs.line, front), f"model:   {model}", f"program: {said}", sep="\n")
    sys.exit(1)


def numbered(named):
    """The frames of some commands with their fields."""
    return [frames.frame(bodies.CONTENTS[command], fields, i) for i, (command, fields) in enumerate(named)]


def example(name):
    """The frames of an example's lines, and the lines that come out."""
    requests, sequence = [], 1
    with open(os.path.join(EXAMPLES, name + ".lines"), encoding="utf-8") as file:
        for words in (text.rstrip("\n").split(" ") for text in file if text.strip() and text[0] != "#"):
            if words[0].isdigit():
                sequence = int(words.pop(0))
            requests.append(frames.frame(bodies.CONTENTS[words[0]], " ".join(words[1:]).encode(), sequence))
            sequence += 1
    with open(os.path.join(EXAMPLES, name + ".replies"), encoding="utf-8") as file:
        return requests, file.read().splitlines()


def reply_line(reply):
    size = int.from_bytes(reply[12:16], "little")
    return f"{int.from_bytes(reply[28:32], 'little')} {'ok' if reply[40] else 'refused'} {reply[20 + size:].decode()}".rstrip()


def compare_examples(program):
    for name in EXAMPLE_NAMES:
        requests, lines = example(name)
        replies = model_replies(b"".join(requests))[0]
        assert [reply_line(reply) for reply in replies] == lines, name
        compare(program, name, requests)
        print(f"example {name}: {len(requests)} commands")


def loaded(number):
    """The state behind the generated frames of a number."""
    state = rules.State()
    for command, fields in load.commands(number):
        commands.answer(state, bodies.CONTENTS[command], spellings.compact(fields))
    return state


def compare_loads(program):
    for number in LOADS:
        state = loaded(number)
        found = frames.run(program, f"load {number}", b"", "/")
        assert found == (0, folders.counts_line(state), b""), (number, folders.counts_line(state), found)
    print("loads:", *LOADS)


def compare_limits(program):
    for word, named in limits.inputs():
        requests = numbered(named)
        compare(program, f"limit of {word}", requests)
        if len(requests) < MOST_KEPT:
            runs.compare_run(program, f"limit of {word}, kept", "replay", {}, b"".join(requests), requests)
        print(f"limit of {word}: {len(requests)} commands")


class Tally:
    """What was done and refused, what became of circuits, and what was seen of loads and revocation."""

    def __init__(self):
        self.done, self.moved, self.seen = collections.Counter(), collections.defaultdict(lambda: [0] * 5), collections.Counter()
        self.inputs, self.commands, self.old = 0, 0, 0

    def add(self, scene):
        self.inputs, self.commands = self.inputs + 1, self.commands + len(scene.requests)
        self.done.update(scene.tally)
        self.seen.update(scene.seen)
        for command, counts in scene.moved.items():
            self.moved[command] = [one + more for one, more in zip(self.moved[command], counts)]


def compare_scenes(program, size, seed, each):
    """Compares random inputs until there are so many commands, and gives the tally."""
    tally = Tally()
    while tally.commands < size:
        word, at = f"seed {seed}, input {tally.inputs}", tally.inputs
        rand = random.Random(f"{seed} {at}")
        scene = scenes.play(rand, each)
        tail = spellings.tail(rand)
        requests, replies = scene.requests, scene.replies
        _, status, note = bodies.read_session(b"".join(requests) + tail)
        compare(program, word, requests, tail, (replies, status, note))
        tally.add(scene)
        if at % KEPT == 0:
            runs.compare_kept(program, word, requests, rand.randrange(len(requests)), rand.random() < 0.3)
            tally.done["sessions", "NotPermitted"] += runs.compare_sessions(program, word, sessions.random_trace(rand, requests))
            scene = runs.compare_old(program, word, random.Random(f"old {seed} {at}"), each)
            tally.add(scene)
            tally.old += len(scene.requests)
    return tally


def tell(tally):
    """Prints how often each command was done and refused, what became of circuits, and what was seen."""
    for name in [command for command, _ in bodies.COMMANDS.values()] + ["other types"]:
        hows = collections.Counter({how: count for (command, how), count in tally.done.items() if command == name})
        print(f"{name}: " + ", ".join(f"{how} {count}" for how, count in hows.most_common()))
    print("circuits that stood before a command: rerouted (of them with a tie of costs), revoked, ended otherwise, stayed")
    for name, (rerouted, ties, revoked, ended, stayed) in sorted(tally.moved.items(), key=lambda row: row[1], reverse=True):
        print(f"{name}: {rerouted} ({ties}), {revoked}, {ended}, {stayed}")
    print("requests and revocations:")
    for what, count in tally.seen.most_common():
        print(f"{what}: {count}")


def summary(tally):
    """The sums of the tally, in four lines."""
    sums = collections.Counter()
    for (command, how), count in tally.done.items():
        if command == "sessions":
            sums["traces"] += count
        else:
            sums["done" if how in ("done", "certified") else "body" if how.startswith("BadBody") else "other"] += count
    rerouted, ties, revoked, ended, stayed = (sum(counts[i] for counts in tally.moved.values()) for i in range(5))
    certified, seen = tally.done["VerifyRoute", "certified"], tally.seen
    claims = certified + tally.done["VerifyRoute", "done"]
    routes = (seen["granted"], seen["another terminator by the loads"], seen["a tie of terminators under loads"])
    return "\n".join([
        f"{sums['done']} done, {sums['body']} refused for their bodies, {sums['other']} for other causes; {certified} of {claims} claims certified; {sums['traces']} NotPermitted in traces",
        f"circuits: {rerouted} rerouted, {ties} of them with a tie of costs, {revoked} revoked, {ended} ended otherwise, {stayed} times one stayed",
        f"{seen['commands that revoke some and keep others']} commands revoke some and keep others, {seen['commands that revoke and reroute']} revoke and reroute",
        "routes: %d granted, %d to another terminator by the loads, %d with a tie of terminators under loads" % routes,
    ])


# Cases for `rt try`.


def write_case(folder, name, words, stdin, stdout):
    """Writes an input, the words of its run, and what is to be said."""
    for ending, data in (("", stdin), (".args", "\n".join(words.split()).encode() + b"\n"), (".stdout", stdout)):
        with open(os.path.join(folder, name + ending), "wb") as file:
            file.write(data)


def has_lost_much(state):
    """Whether circuits of a state have lost three or more things, some circuit has lost nothing, and one has lost nothing but that its terminator is of its service."""
    circuits = list(state.tables["circuit"].values())
    lost = [rules.what_is_lost(state, circuit) for circuit in circuits]
    strays = (what == "the terminator's service" and rules.is_admissible(state, circuit["terminator"]) for what, circuit in zip(lost, circuits))
    return None in lost and len(set(lost)) > 3 and any(strays)


def write_cases(folder, size, seed, each):
    """Writes the examples, loads, limits but that of circuits, random inputs and traces under dry/, and under old/ inputs on one folder of an old state."""
    dry, old, kept = (os.path.join(folder, name) for name in ("dry", "old", "folder"))
    for name in (dry, old, kept):
        os.makedirs(name)
    for name in EXAMPLE_NAMES:
        requests, lines = example(name)
        replies = model_replies(b"".join(requests))[0]
        print(f"example {name}: {sum(reply_line(reply) != told for reply, told in zip(replies, lines))} of {len(lines)} lines of the file are other ones")
        write_case(dry, "example" + name.replace("/", ""), "dry", b"".join(requests), b"".join(replies))
    for number in LOADS:
        write_case(dry, f"load{number}", f"load {number}", b"", folders.counts_line(loaded(number)))
    for word, named in limits.inputs():
        requests = numbered(named)
        replies = model_replies(b"".join(requests))[0]
        if sum(map(len, replies)) < 1_000_000:
            write_case(dry, "limit" + word.replace(" ", ""), "dry", b"".join(requests), b"".join(replies))
    tally = Tally()
    while tally.commands < size:
        at = tally.inputs
        rand = random.Random(f"{seed} {at}")
        scene = scenes.play(rand, each)
        tail = spellings.tail(rand)
        tally.add(scene)
        write_case(dry, f"input{at}", "replay" if at % KEPT == 1 else "dry", b"".join(scene.requests) + tail, b"".join(scene.replies))
        if at % KEPT == 0:
            rand.randrange(len(scene.requests))
            data = sessions.random_trace(rand, scene.requests)
            trace = folders.Run("replay --sessions", {}, data)
            tally.done["sessions", "NotPermitted"] += trace.said.count(b'"NotPermitted"')
            write_case(dry, f"trace{at}", "replay --sessions", data, trace.said)
    rand = random.Random(f"old {seed}")
    before, files = damage.history(rand, 600, 1)
    while not has_lost_much(folders.Look(files).state):
        before, files = damage.history(rand, 600, 1)
    state = folders.Look(files).state
    lost = collections.Counter(str(rules.what_is_lost(state, circuit)) for circuit in state.tables["circuit"].values())
    print("circuits of the old folder, by what they have lost:", dict(lost))
    for name, data in files.items():
        with open(os.path.join(kept, name), "wb") as file:
            file.write(data)
    write_case(old, "audit", "audit", b"", folders.counts_line(state))
    while tally.old < size // 4:
        scene = scenes.behind(rand, before.pools, folders.Kept(files), each)
        write_case(old, f"old{tally.inputs}", "replay", b"".join(scene.requests), b"".join(scene.replies))
        tally.add(scene)
        tally.old += len(scene.requests)
    return tally


def main_folders(program, most=2000, seed=1):
    begun = time.monotonic()
    if "ship" in folders.LOOKS:
        runs.compare_pieces(os.path.abspath(program))
    tally = runs.compare_folders(os.path.abspath(program), int(most), int(seed))
    for (how, words, status, fault), count in sorted(tally.items()):
        print(f"{how}{', ' * bool(words)}{words}: status {status}{', ' * bool(fault)}{fault}: {count}")
    print(f"{sum(tally.values())} folders, {time.monotonic() - begun:.0f} s, no difference")


def main():
    if sys.argv[1] == "folders":
        main_folders(*sys.argv[2:])
        return
    if sys.argv[1] == "journal":
        runs.compare_journal(os.path.abspath(sys.argv[2]))
        return
    begun = time.monotonic()
    words = [word for word in sys.argv[1:] if word != "cases"]
    size, seed, each = [int(word) for word in words[1:]] + [100_000, 1, 300][len(words) - 1:]
    if sys.argv[1] == "cases":
        tally = write_cases(words[0], size, seed, each)
    else:
        program = os.path.abspath(words[0])
        compare_examples(program)
        compare_loads(program)
        runs.compare_words(program)
        compare_limits(program)
        tally = compare_scenes(program, size, seed, each)
    tell(tally)
    print(summary(tally))
    end = "written" if sys.argv[1] == "cases" else "no difference"
    print(f"{tally.commands} commands in {tally.inputs} random inputs, {tally.old} of them on old folders, {time.monotonic() - begun:.0f} s, {end}")


if __name__ == "__main__":
    main()
