"""Compares runs of the built program on folders with those of the independent model, file by file (docs/TRIALS.md)."""

import collections
import contextlib
import os
import random
import sys
import tempfile

import frames
import model_bodies as bodies
import model_damage as damage
import model_folder as folders
import model_inputs as scenes
import model_sessions as sessions
import model_spellings as spellings


def shortened(differs_by, requests):
    """The requests without those that a difference does not need."""
    size = len(requests) // 2
    while size >= 1:
        at = 0
        while at < len(requests):
            fewer = requests[:at] + requests[at + size:]
            if differs_by(fewer):
                requests = fewer
            else:
                at += size
        size //= 2
    return requests


def line(request):
    """A request as a line of `zitiline`, as far as one tells it."""
    (sequence, content, body), = bodies.read_session(request)[0]
    name = bodies.COMMANDS[content][0] if content in bodies.COMMANDS else content
    return f"{sequence} {name} {body.decode(errors='backslashreplace')}"


# Runs on folders.


def run_on(program, words, files, stdin):
    """Runs the program on a folder of some files: the status, what is said and noted, and the files behind it."""
    with tempfile.TemporaryDirectory() as folder:
        for name, data in files.items():
            with open(os.path.join(folder, name), "wb") as file:
                file.write(data)
        status, said, noted = frames.run(program, words, stdin, folder)
        behind = {}
        for name in sorted(os.listdir(folder)):
            with open(os.path.join(folder, name), "rb") as file:
                behind[name] = file.read()
        return status, said, noted.decode(), behind


def told(run):
    return run.status, run.said, run.notes, run.files


def differs_on(program, words, files, stdin):
    return run_on(program, words, files, stdin) != told(folders.Run(words, files, stdin))


def first_place(one, other):
    return next((at for at, pair in enumerate(zip(one, other)) if pair[0] != pair[1]), min(len(one), len(other)))


def tell_difference(expected, found):
    """Prints where a run on a folder is another one than the model's."""
    for what, one, other in zip(("status", "said", "notes"), expected, found):
        if one != other:
            at = first_place(one, other) if what == "said" else 0
            print(f"{what} from {at} on", "model:   " + str(one if what != "said" else one[max(0, at - 60):at + 200]), sep="\n")
            print("program: " + str(other if what != "said" else other[max(0, at - 60):at + 200]))
    for name in sorted(set(expected[3]) | set(found[3])):
        one, other = expected[3].get(name), found[3].get(name)
        if one != other and None in (one, other):
            print(f"{name}: the {'program' if one is None else 'model'} alone has it")
        elif one != other:
            at = first_place(one, other)
            print(f"{name}, {len(one)} and {len(other)} bytes, from {at} on\nmodel:   {one[max(0, at - 60):at + 80].hex()}\nprogram: {other[max(0, at - 60):at + 80].hex()}")


def compare_run(program, word, words, files, stdin=b"", requests=None):
    """Compares a run on a folder, and ends the trial where it is not the model's. Gives the model's."""
    run = folders.Run(words, files, stdin)
    found = run_on(program, words, files, stdin)
    if found == told(run):
        return run
    print(f"{word}: another run of `{words}`")
    tell_difference(told(run), found)
    if requests is not None and differs_on(program, words, files, b"".join(requests)):
        fewer = shortened(lambda some: differs_on(program, words, files, b"".join(some)), requests)
        print("shortened:", *map(line, fewer), sep="\n")
        stdin = b"".join(fewer)
        tell_difference(told(folders.Run(words, files, stdin)), run_on(program, words, files, stdin))
    kept = tempfile.mkdtemp(prefix="difference")
    for name, data in dict(files, stdin=stdin).items():
        with open(os.path.join(kept, name), "wb") as file:
            file.write(data)
    print(f"the folder before it, and the input: {kept}")
    sys.exit(1)


def compare_kept(program, word, requests, cut, compacts):
    """Compares an input in two runs on a folder, by times with a compaction between them: the second one goes on from the state that the first one left."""
    files = {}
    for part in (requests[:cut], requests[cut:]):
        files = compare_run(program, f"{word}, kept in two runs of {cut} and {len(requests) - cut} commands", "replay", files, b"".join(part), part).files
        if compacts:
            files = compare_run(program, f"{word}, compacted", "compact", files).files
    compare_run(program, word, "audit", files)


def compare_old(program, word, rand, each):
    """Compares looks at a folder that another run left, of the first format or the second, a run on it, and a look behind that."""
    form = rand.choice([1, 1, 2])
    old, files = damage.history(rand, each, form)
    files = damage.placed(rand, files)
    compare_looks(program, f"{word}, a folder of format {form}", rand, files)
    scene = scenes.behind(rand, old.pools, folders.Kept(files), each)
    behind = compare_run(program, f"{word}, on a folder of format {form}", "replay", files, b"".join(scene.requests), scene.requests).files
    compare_looks(program, f"{word}, behind a folder of format {form}", rand, behind)
    return scene


def compare_looks(program, word, rand, files):
    """Compares what the words that look at a folder say of it."""
    serials = [0, 0, 1, 2, rand.randrange(40), 2**63, 2**64 - 1]
    with contextlib.suppress(folders.Damaged):
        last = folders.Look(files).state.serial
        serials += [last, last, last + 1, max(0, last - 1), rand.randint(0, last)]
    for words in ("audit", f"advise {rand.choice(['i1', 'i2', 'i3', 'zz'])} {rand.choice(['s1', 's2', 's3', 'zz'])}", f"ship {rand.choice(serials)}"):
        if words.split()[0] in folders.LOOKS:
            compare_run(program, word, words, files)


def compare_sessions(program, word, data):
    """Compares a trace of many sessions on a new folder."""
    return compare_run(program, f"{word}, as a trace of {len(data)} bytes", "replay --sessions", {}, data).said.count(b'"NotPermitted"')


def compare_words(program):
    """Compares lines of words that are no line of the table."""
    lines = ["", "help", "--help", "dry x", "replay x", "replay --session", "replay --sessions x", "audit x", "compact x", "load", "load 01", "load -1", "load 4294967296", "load 1 2"]
    lines += ["advise", "advise ann", "advise ann web x", "advise ann! web", "advise ann " + "w" * 65, "ship", "ship x", "ship 00", "ship +1", "ship 1 2", "ship 18446744073709551616"]
    for words in lines:
        found = run_on(program, words, {}, b"")
        assert found == (1, b"", folders.USAGE, {}), (words, found)
    print(f"words: {len(lines)} lines that are none")


# Many folders.


def compare_folder(program, word, rand, files, words=None):
    """Compares looks at a folder and a run on it, and gives the model's run."""
    compare_looks(program, word, rand, files)
    words = words or rand.choice(["replay", "replay", "replay --sessions", "compact"])
    requests, tail = damage.probes(rand) if rand.random() < 0.95 else [], spellings.tail(rand)
    if words == "replay":
        run = compare_run(program, word, words, files, b"".join(requests) + tail, requests)
    else:
        run = compare_run(program, word, words, files, sessions.random_trace(rand, requests) if words == "replay --sessions" else b"")
    if run.files != files and rand.random() < 0.3:
        compare_looks(program, word + ", behind it", rand, run.files)
    return run


def kept_calls(rand, files):
    """The calls of a run on a folder, or of its compaction: those that changed files."""
    kept = folders.Kept(files)
    if rand.random() < 0.4:
        kept.rewrite()
    for request in damage.probes(rand):
        (_, content, body), = bodies.read_session(request)[0]
        kept.answer(content, body)
    return kept.calls


def compare_folders(program, most, seed):
    """Compares runs on folders: whole, stopped and damaged ones, so many of them, and those at the limits. Gives how they ended."""
    tally = collections.Counter()
    for word, files in damage.edges(seed):
        for words in ("replay", "compact", "replay --sessions"):
            run = compare_folder(program, word, random.Random(f"{seed} {word}"), files, words)
            tally["at the limits", words, run.status, run.fault] += 1
    for word, made in (("intercepts", damage.claimed_folders()), ("serials", damage.counted_folders()), ("records", damage.changed_folders(seed)), ("limits", damage.crowded_folders())):
        for number, files in enumerate(made):
            run = compare_folder(program, f"{word}, folder {number}", random.Random(f"{seed} {number}"), files)
            tally["all " + word, "", run.status, run.fault] += 1
    number = 0
    while number < most:
        rand = random.Random(f"folders {seed} {number}")
        form = rand.choice([1, 2])
        _, whole = damage.history(rand, rand.choice([10, 40, 120]), form)
        for _ in range(12):
            files, how = damage.placed(rand, whole), rand.choice(["whole", "stopped", "damaged", "damaged"])
            if how == "stopped":
                calls = kept_calls(rand, files)
                files = damage.stopped(rand, files, calls) if calls else files
            elif how == "damaged":
                files = damage.damaged(rand, files)
            run = compare_folder(program, f"seed {seed}, folder {number}, {how}, of format {form}", rand, files)
            tally[f"{how}, format {form}", "", run.status, run.fault] += 1
            number += 1
    return tally


# Large folders.


def compare_pieces(program):
    """Compares what is shipped of batches that fill pieces just, or not, or a little more."""
    sizes = [folders.PIECE * pieces + more for pieces in (1, 2) for more in (-1, 0, 1)]
    for form, size in [(1, 3 * folders.PIECE)] + [(2, size) for size in sizes]:
        files = damage.sized_folder(form, size)
        for words in ("ship 0", "ship 1", "ship 2", "ship 3"):
            compare_run(program, f"a batch of {size} bytes", words, files)
    print(f"pieces: batches of {len(sizes)} sizes")


def compare_journal(program):
    """Compares runs on slots that are nearly full, full, or longer than they may be."""
    requests = damage.full_requests()
    for form in (1, 2):
        for room in (26, 25, -100):
            files = damage.full_journal(form, room)
            for words in ("audit", "ship 0" if form == 1 else "ship 120", "compact", "replay"):
                word = f"a slot of format {form} and {len(files['ziti.0'])} bytes"
                run = compare_run(program, word, words, files, b"".join(requests) if words == "replay" else b"")
                print(f"{word}: {words}: status {run.status}, {len(run.said)} bytes said, {run.said.count(b'JournalFull')} JournalFull", flush=True)
