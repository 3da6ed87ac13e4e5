"""Time and memory of a migration beside those of opening: `python3 migration.py PROGRAM [TIMES [OTHER]]`.

A folder of the first format with 16,384 circuits and a million counts is looked at, migrated, and looked at and opened again in the second
format, some times in turn. OTHER is a program that only looks at the first folder. A line has the least of the seconds that passed and of the
processor seconds, and the most memory that was resident."""

import os
import shutil
import subprocess
import sys
import tempfile
import time

sys.path.insert(0, os.path.join(os.path.dirname(os.path.abspath(__file__)), "..", "trials"))

import old_folders as old

IDENTITIES, SERVICES, ROUTERS, CIRCUITS = 2048, 512, 4, 16_384


def at(service):
    """The router at which a service is offered."""
    return 1 + service % ROUTERS


def records():
    """The rows of the records: all may dial all, by all routers, and each service has circuits to the one terminator that it has."""
    rows = [old.entity(old.IDENTITY, i, f"u{i}") for i in range(1, IDENTITIES + 1)]
    rows += [old.entity(old.SERVICE, j, f"s{j}") for j in range(1, SERVICES + 1)]
    rows += [old.router(k, f"r{k}") for k in range(1, ROUTERS + 1)]
    rows += [old.policy(old.SERVICE_POLICY, 1, "d", [1, 1]), old.policy(old.EDGE_POLICY, 1, "e", [1]), old.policy(old.SERVICE_EDGE_POLICY, 1, "s", [1])]
    rows += [old.terminator(j, j, at(j)) for j in range(1, SERVICES + 1)]
    for c in range(1, CIRCUITS + 1):
        service = 1 + c % SERVICES
        rows.append(old.circuit(c, 1 + c % IDENTITIES, service, service, at(service)))
    return rows


def counts():
    rows = [old.count(old.DIAL, i, j) for i in range(1, IDENTITIES + 1) for j in range(1, SERVICES + 1)]
    rows += [old.count(old.IDENTITY_ROUTER, i, k) for i in range(1, IDENTITIES + 1) for k in range(1, ROUTERS + 1)]
    return rows + [old.count(old.SERVICE_ROUTER, j, k) for j in range(1, SERVICES + 1) for k in range(1, ROUTERS + 1)]


def lasts():
    """The next number of each kind that has records."""
    most = {old.IDENTITY: IDENTITIES, old.SERVICE: SERVICES, old.ROUTER: ROUTERS, old.TERMINATOR: SERVICES, old.CIRCUIT: CIRCUITS}
    most.update(dict.fromkeys((old.SERVICE_POLICY, old.EDGE_POLICY, old.SERVICE_EDGE_POLICY), 1))
    return [old.next_number(kind, last) for kind, last in most.items()]


def measured(program, words, folder):
    """What a run without input says, the seconds that it took, its processor seconds, and the most KiB of its memory that were resident."""
    begun = time.monotonic()
    child = subprocess.Popen([program, words], stdin=subprocess.DEVNULL, stdout=subprocess.PIPE, cwd=folder)
    said = child.stdout.read()
    _, status, used = os.wait4(child.pid, 0)
    assert status == 0, status
    return said, time.monotonic() - begun, used.ru_utime + used.ru_stime, used.ru_maxrss


def main(words):
    program, times = os.path.abspath(words[0]), int(words[1]) if len(words) > 1 else 1
    found, lines = {}, set()
    with tempfile.TemporaryDirectory() as top:
        first, folder = os.path.join(top, "first"), os.path.join(top, "folder")
        os.mkdir(first)
        size = old.write(first, [old.put_rows(lasts() + records() + counts())])
        for _ in range(times):
            shutil.copytree(first, folder)
            runs = [("audit of the first format", program, "audit"), ("replay that migrates it", program, "replay")]
            runs += [("audit of the second format", program, "audit"), ("replay on it", program, "replay")]
            runs = [("audit of the first format by the other program", os.path.abspath(other), "audit") for other in words[2:]] + runs
            for name, which, word in runs:
                said, *took = measured(which, word, folder)
                found.setdefault(name, []).append(took)
                lines.update([said] if word == "audit" else [])
            sizes = old.sizes(folder)
            shutil.rmtree(folder)
    assert len(lines) == 1, lines
    print(f"{size} bytes, migrated {sizes}: {lines.pop().decode().strip()}")
    for name, rows in found.items():
        seconds, processor, memory = min(row[0] for row in rows), min(row[1] for row in rows), max(row[2] for row in rows)
        print(f"{name}: {seconds:.2f} s, {processor:.2f} processor seconds, {memory / 1024:.0f} MiB, of {len(rows)} runs")


if __name__ == "__main__":
    main(sys.argv[1:])
