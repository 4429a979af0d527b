"""Regions as bytes: what `read_region` of `mr_spill` tells of bytes, against a plain reader of docs/FORMATS.md.

It is reached through the small program `mr_rows_tests`, which the gate leaves beside the checked one: a line of numbers
is a split, a partition and bytes, and the line that answers it tells the fault, or whether the pairs that were read are
spelled so again, and the pairs."""
import random
import re
import struct
import subprocess

from libraries import built, words_of

MAGIC = b"MRREGN1\n"
PAIR = re.compile(r"\|\[([\d, ]*)\] (One|At \{ file: (\d+), offset: (\d+) \}) Name \{ split: (\d+), rec: (\d+), place: (\d+) \}")


def spelled(split, partition, pairs):
    """The bytes of a region; a pair is its key, its value (None, or a file and an offset), and its name."""
    out = MAGIC + struct.pack(">III", split, partition, len(pairs))
    for key, value, name in pairs:
        out += struct.pack(">I", len(key)) + key + struct.pack(">III", *name)
        out += b"\x00" if value is None else b"\x01" + struct.pack(">IQ", *value)
    return out


def read(split, partition, data):
    """The pairs of a region, None where it is damaged."""
    at = 0

    def take(size):
        nonlocal at
        at += size
        if at > len(data):
            raise ValueError
        return data[at - size : at]

    number = lambda: int.from_bytes(take(4), "big")
    try:
        if take(8) != MAGIC or number() != split or number() != partition:
            return None
        pairs = []
        for _ in range(number()):
            key = take(number())
            name, kind = (number(), number(), number()), take(1)[0]
            if kind > 1 or name[0] != split or (pairs and (key, name) <= (pairs[-1][0], pairs[-1][2])):
                return None
            pairs.append((key, (number(), int.from_bytes(take(8), "big")) if kind else None, name))
        return pairs if at == len(data) else None
    except ValueError:
        return None


def told(rows):
    """For each split, partition and bytes the pairs that the program reads, None where it tells damage."""
    lines = "".join(" ".join(str(n) for n in (split, partition, *data)) + "\n" for split, partition, data in rows)
    ran = subprocess.run(words_of("regions"), input=lines.encode(), capture_output=True)
    return [pairs_of(line) for line in ran.stdout.decode().splitlines()]


def pairs_of(line):
    if line == "RegionDamaged":
        return None
    if not line.startswith("true"):
        return line
    return [
        (bytes(int(b) for b in re.findall(r"\d+", key)), None if value == "One" else (int(file), int(offset)), (int(split), int(rec), int(place)))
        for key, value, file, offset, split, rec, place in PAIR.findall(line)
    ]


FIRST = [(b"a", None, (0, 0, 1)), (b"b", None, (0, 0, 0))]
SECOND = [(b"b", None, (0, 0, 2))]
PLACES = [(b"", (1, 7), (3, 0, 0)), (b"ab", (0, 2**40), (3, 1, 0)), (b"ab", None, (3, 1, 1))]


def worked(harness):
    harness.check("the bytes of the example", spelled(0, 0, [(b"a", None, (0, 0, 0))]).hex() == "4d525245474e310a" + "0" * 23 + "1" + "0000000161" + "0" * 26)
    for pairs, size in [(FIRST, 56), (SECOND, 38), ([], 20)]:
        data = spelled(0, 0, pairs)
        harness.check(f"{size} bytes", len(data) == size and told([(0, 0, data)]) == [pairs])
    data = spelled(0, 0, FIRST)
    damaged = [
        (0, 0, data + b"\x00"),
        (1, 0, data),
        (0, 1, data),
        (0, 0, spelled(0, 0, FIRST[::-1])),
        (0, 0, spelled(0, 0, [FIRST[0], FIRST[0]])),
        (1, 0, spelled(1, 0, SECOND)),
        (0, 0, data[:20] + b"\xff\xff\xff\xff" + data[24:]),
        (0, 0, data[:16] + b"\xff\xff\xff\xff" + data[20:]),
        (0, 0, b""),
    ]
    harness.check("damaged regions", told(damaged) == [None] * len(damaged))


def cuts_and_bytes(harness):
    for split, pairs in [(0, FIRST), (0, SECOND), (0, []), (3, PLACES)]:
        data = spelled(split, 2, pairs)
        rows = [(split, 2, data[:size]) for size in range(1, len(data))]
        harness.check(f"each cut of {len(data)} bytes", told(rows) == [None] * len(rows))
        rows = [(split, 2, data[:at] + bytes([byte]) + data[at + 1 :]) for at in range(len(data)) for byte in range(256)]
        harness.check(f"each byte of {len(data)} changed", told(rows) == [read(*row) for row in rows])


def random_regions(harness):
    rnd = random.Random(21)
    rows, wanted = [], []
    for _ in range(300):
        split, partition = rnd.randrange(2**32), rnd.randrange(2**32)
        value = lambda: rnd.choice([None, (rnd.randrange(2**32), rnd.randrange(2**64))])
        keys = {(bytes(rnd.randrange(256) for _ in range(rnd.randrange(9))), (split, rnd.randrange(2**32), rnd.randrange(2**32))) for _ in range(rnd.randrange(20))}
        pairs = [(key, value(), name) for key, name in sorted(keys)]
        rows.append((split, partition, spelled(split, partition, pairs)))
        wanted.append(pairs)
    harness.check("random regions", told(rows) == wanted)


GROUPS = {"regions": built("mr_rows_tests", worked), "cuts and bytes of regions": built("mr_rows_tests", cuts_and_bytes), "random regions": built("mr_rows_tests", random_regions)}
