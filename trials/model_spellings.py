"""How the random inputs spell bodies: rightly, in other ways, and wrongly; for the independent model (docs/TRIALS.md)."""

import json
import struct

import frames

# Texts of values, by the kind of field in whose place they are put: many are of the wrong kind for it, and some are no JSON.
RAW_NUMBERS = """
0 1 -1 -0 0.0 1.0 1e3 65535 65536 60000 60001 4294967295 4294967296 18446744073709551615 18446744073709551616
1e308 1e309 -1e309 0e999 01 - +1 .5 1. 1e NaN Infinity "1"
""".split() + ["1" * 309, "1" * 310]
RAW_TEXTS = r"""
"" "all" "#all" "@all" "\u00e9" "\ud83d\ude00" "\ud800" "\udc00\ud800" "\u0069\u0031" "\n" "\q" "\u00g0" " "i1/" "i1\/" "Required" "anyof" "AllOf" "AnyOf" "Bind" "failed"
""".split() + ['"a b"', '"\t"', '"\x7f"', '"' + "n" * 64 + '"', '"' + "n" * 65 + '"']
RAW_TEXTS += ['"' + text + '"' for text in """
A Web.Example-1.com *.a *.A.b 10.1.2.3 10.1.2.3/32 10.1.2.3/31 10.1.2.9/16 0.0.0.0/0 255.255.255.255 1.2.3 256.1.1.1 1.2.3.4.5 01.2.3.4 10.1.2.3/33 10.1.2.3/08
10.1.2.3/ 10.1.2.3/8/8 10.1.2.3/-1 1.2.3.4x 1.2.3.4.5a a..b .a a. . * *. *.*.a a.* *a.b *.10.0.0.1 *.1.2 a/8 _sip._tcp -a- tcp udp TCP Tcp icmp
""".split()]
RAW_LISTS = r"""
[] {} ["#all"] ["#all","#all"] ["#all","@i1"] ["@i1","#all"] ["@i1","#a","@i1"] ["#ALL"] ["@all"] ["a","a","b"] ["@"] ["#"] ["i1"] [null] [1,1] [0] [[]] ["\ud800"]
[{"router":1,"values":[0]}] [{"router":1,"values":[0],"zz":1}] [{"router":1}] [{"router":0,"values":[]}] [{"router":1,"values":[-1]}]
[{"router":1,"values":[null],"router":2}] [{"values":[4294967296],"router":1}]
""".split() + ["[" * 126 + "]" * 126, "[" * 127 + "]" * 127, '{"a":' * 126 + "1" + "}" * 126]
RAW_LISTS += ["[" + ",".join([entry] * size) + "]" for entry in ('"a"', '"#a"', '"#all"') for size in (64, 65)]
RAW_LISTS += ["[" + ",".join(["1"] * size) + "]" for size in (255, 256, 257)]
RAW_LISTS += ['[{"router":1,"values":' + listed + "}]" for listed in RAW_LISTS[-2:]]
RAW_LISTS += r"""
["tcp"] ["udp","tcp"] ["tcp","tcp"] ["tcp","tcp","tcp"] ["tcp","icmp"] ["TCP"] ["*.a"] ["10.1.2.9/16","10.1.0.0/16"] ["Web","web"] ["10.0.0.0/8","a","*.a"] ["1.2.3"]
[[1,1]] [[1,65535]] [[0,1]] [[2,1]] [[1]] [[1,2,3]] [[1,65536]] [[1,"2"]] [[1.0,2]] [[22,22],[22,22]] [[22,22],[1,1024]] [1,2] [[]] [[1,null]] [[-1,1]]
""".split()
RAW_LISTS += ["[" + ",".join([entry] * size) + "]" for entry in ('"a"', '"10.0.0.0/8"', "[1,1]", '"tcp"') for size in (2, 3, 32, 33)]
RAW_VALUES = ["null", "nul", "true", "false"] + RAW_NUMBERS + RAW_TEXTS + RAW_LISTS
RAW_BODIES = [
    b"", b" ", b"{", b"{}", b"[]", b"null", b'"name"', b"{}{}", b"{},", b"{'name':1}", b'{"name"}', b'{"name":}', b"{,}", b'{"name":"i1",}', b'{"\\ud800":1}',
    b"\xef\xbb\xbf{}", b'{"name":"\xff"}', b'{"name":"\xed\xa0\x80"}', b'{"\xc3\xa9":1}', b'\t\r\n {"name":"i1"}\n', b'\x0c{"name":"i1"}', b'{"name":"i1"}\x00',
    b"[" * 2000, b'{"a":' * 2000,
]


def some_bytes(rand, size):
    return bytes(rand.getrandbits(8) for _ in range(size))


def compact(fields):
    """The compact body of some fields."""
    return json.dumps(fields, separators=(",", ":"), sort_keys=True).encode()


def spelled(rand, fields, spoils):
    """A body for some fields: most often compact and right, by times in another spelling, or wrong."""
    members = [[json.dumps(field), json.dumps(value)] for field, value in fields.items()]
    spoiled = rand.random() < spoils
    if spoiled:
        if rand.random() < 0.15:
            return rand.choice(RAW_BODIES)
        for _ in range(rand.choice([1, 1, 2])):
            spoil_members(rand, members)
    elif rand.random() < 0.9:
        return compact(fields)
    rand.shuffle(members)
    if members and rand.random() < 0.2:
        field = members[0][0]
        members.insert(0, [field, rand.choice(RAW_VALUES)] if spoiled else [field, "null"])
    if rand.random() < 0.3:
        for member in members:
            member[0] = "".join(f"\\u{ord(letter):04x}" if letter.isalpha() and rand.random() < 0.3 else letter for letter in member[0])
    space = rand.choice(["", " ", "\n\t", "\r"])
    return ("{" + space + ("," + space).join(field + space + ":" + value for field, value in members) + space + "}").encode()


def spoil_members(rand, members):
    """Leaves a member out, changes one, or puts one in."""
    how = rand.randrange(4)
    if how == 0 and members:
        members.pop(rand.randrange(len(members)))
    elif how <= 2 and members:
        member = rand.choice(members)
        member[1] = rand.choice(RAW_VALUES if rand.random() < 0.2 else RAW_TEXTS if member[1][0] == '"' else RAW_LISTS if member[1][0] == "[" else RAW_NUMBERS)
    else:
        members.append([rand.choice(['"zz"', '""', '"Name"', '"no"', '"name"']), rand.choice(RAW_VALUES)])


def tail(rand):
    """Bytes behind the last frame: most often none, by times a rest or a faulty frame."""
    whole = frames.frame(1502, b"{}")
    headers = frames.MARKER + struct.pack("<IIII", 1502, 0, 9, 2) + struct.pack("<II", 1, rand.choice([0, 2, 2**31])) + b"x{}"
    long = frames.MARKER + struct.pack("<II", 1502, 0) + struct.pack("<II", *rand.choice([(65_537, 0), (0, 1_048_577), (2**31, 0), (0, 2**32 - 1)]))
    if rand.random() < 0.8:
        return b""
    return rand.choice([whole[:rand.randrange(1, len(whole))], b"\3\6\x09\x0d" + whole[4:], some_bytes(rand, rand.randint(1, 40)), headers, long])
