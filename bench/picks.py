"""The time of one Pick and one ListClashes among 512 services of 32 addresses and 32 ranges of ports: `python3 picks.py PROGRAM [TIMES]`.

Each line has the processor seconds of a run of `dry` that asks once, and of one that asks so many times more, by default 10,000 times, and the
difference for one time."""

import sys

import networks
import speed

PICK = networks.PICK, {"identity": "ann", "protocol": "udp", "port": networks.PORT}
CLASHES = networks.LIST_CLASHES, {"identity": "ann", "service": "s511"}

INPUTS = {
    "pick, ranges of addresses, each hit": (networks.around, networks.wide, (PICK[0], {**PICK[1], "address": networks.PLACE})),
    "pick, what is under hosts, each hit": (networks.above, networks.wide, (PICK[0], {**PICK[1], "address": networks.LONGEST_HOST})),
    "pick, hosts, none hit": (networks.alike_to_the_end, networks.wide, (PICK[0], {**PICK[1], "address": networks.LONGEST_HOST})),
    "clashes, with all": (networks.around, networks.wide, CLASHES),
    "clashes, with none by addresses": (networks.alike_to_the_end, networks.wide, CLASHES),
    "clashes, with none by ports": (networks.around, networks.apart, CLASHES),
}


def timed(program, commands):
    """The processor seconds of a run of some commands, and its last reply."""
    done, took = speed.run(program, ["dry"], networks.frames(commands))
    return took, networks.replies(done.stdout)


def main(words):
    program, times = words[0], int(words[1]) if len(words) > 1 else 10_000
    for name, (addresses, ports, asked) in INPUTS.items():
        made = networks.claimed_services(addresses, ports)
        once, said = timed(program, made + [asked])
        assert not any(b'"code"' in it for it in said[:-1]), name
        more, repeated = timed(program, made + [asked] * (1 + times))
        assert set(repeated[len(made):]) == {said[-1]}, name
        print(f"{name}: {once:.2f} s once, {more:.2f} s {times} times more, {(more - once) / times * 1000:.3f} ms each: {said[-1][:70].decode()}", flush=True)


if __name__ == "__main__":
    main(sys.argv[1:])
