"""Buffers sealed into regions, and regions merged, on rows worked out by hand.

The libraries `mr_spill` and `mr_merge` are reached through the small program `mr_rows_tests`, which the gate leaves beside
the checked one. For two partitions a key's is 1 less the parity of its odd bytes."""
from ground import at, listed, named
from libraries import built, told
from regions import spelled

# A buffer with the pairs of `b a b`, sealed for one partition and for two; one of two pairs refuses the third. One with those of
# `http://a/x`, `/z` and `http://A/y`, sealed for two by host: that of the host `a` is 0, and that of a key without one is 1.
SEALED = [
    [[(b"a", "One", 1), (b"b", "One", 0), (b"b", "One", 2)]],
    [[(b"a", "One", 1)], [(b"b", "One", 0), (b"b", "One", 2)]],
]
BY_HOST = [[(b"http://A/y", "One", 2), (b"http://a/x", "One", 0)], [(b"/z", "One", 1)]]


def sealed(regions):
    """What is told of a buffer that gives these regions: it holds no pairs then, and seals as many regions without any."""
    told_of = ["".join(f"|{listed(key)} {value} {named(0, 0, place)}" for key, value, place in region) for region in regions]
    return [*told_of, "0", *([""] * len(regions))]


def buffers(harness):
    wanted = [line for regions in SEALED for line in sealed(regions)]
    wanted += ["BufferFull BufferFull", *sealed(BY_HOST)]
    wanted += ["1 0", "38"]
    wanted.append(f"BufferFull BufferFull(Pair {{ key: {listed(b'y')}, value: One, name: {named(0, 0, 5)} }})")
    wanted.append("OutOfMemory")
    lines = told("buffer", b"")
    harness.check("a buffer", lines == wanted, repr(lines))


# Regions, each a list of pairs: a key of one byte, a value (None, or a file and an offset), the split and the place. What
# they are merged to: for each key the values, and then all names; or the fault.

FIRST = [(b"a", None, 0, 1), (b"b", None, 0, 0), (b"b", (3, 9), 0, 2)]
MERGED = [
    ("one region", [FIRST], [(b"a", [None]), (b"b", [None, (3, 9)])], [(0, 1), (0, 0), (0, 2)]),
    (
        "three regions, the first one in the middle",
        [[(b"b", None, 2, 0)], FIRST, [(b"b", None, 1, 5)]],
        [(b"a", [None]), (b"b", [None, (3, 9), None, None])],
        [(0, 1), (0, 0), (0, 2), (1, 5), (2, 0)],
    ),
    (
        "two regions whose names alternate",
        [[(b"a", None, 0, 0), (b"b", None, 0, 2)], [(b"a", None, 0, 3), (b"b", (1, 4), 0, 1)]],
        [(b"a", [None, None]), (b"b", [(1, 4), None])],
        [(0, 0), (0, 3), (0, 1), (0, 2)],
    ),
    ("no region", [], [], []),
    ("regions without pairs", [[], []], [], []),
]
DAMAGED = [
    ("a region twice", [FIRST, FIRST]),
    ("a region that falls", [[(b"b", None, 0, 0), (b"a", None, 0, 1)]]),
    ("a name under two keys", [FIRST, [(b"c", None, 0, 2)]]),
    ("a name under two keys of one region", [[(b"a", None, 0, 1), (b"b", None, 0, 1)]]),
    ("a name of the first region in the third", [FIRST, [(b"a", None, 1, 0)], [(b"c", None, 0, 0)]]),
]


def names(places):
    return f"[{', '.join(named(split, 0, place) for split, place in places)}]"


def line_of(region):
    pairs = ((key[0], split, place, *(value or (0, 0))) for key, value, split, place in region)
    return " ".join(str(number) for pair in pairs for number in pair) + "\n"


def merged(regions):
    """What the regions are merged to."""
    return told("merging", "".join(map(line_of, regions)).encode())


def merged_bytes(regions):
    """What the regions are merged to over their bytes, each of the split of its first pair."""
    lines = ""
    for region in regions:
        split = region[0][2] if region else 0
        data = spelled(split, 0, [(key, value, (own, 0, place)) for key, value, own, place in region])
        lines += " ".join(str(number) for number in (split, *data)) + "\n"
    return told("merged", lines.encode())


def merging(harness):
    for what, regions, groups, all_names in MERGED:
        values = lambda own: "".join(" One" if value is None else f" {at(*value)}" for value in own)
        wanted = "".join(f"{listed(key)} {len(own)}{values(own)}|" for key, own in groups)
        wanted = f"{len(groups)} {wanted}{names(all_names)}"
        answer, by_bytes = merged(regions), merged_bytes(regions)
        harness.check(what, answer == [wanted], repr(answer))
        harness.check(f"{what}, as bytes", by_bytes == [wanted], repr(by_bytes))
    for what, regions in DAMAGED:
        answer, by_bytes = merged(regions), merged_bytes(regions)
        harness.check(what, answer == ["RegionDamaged RegionDamaged"], repr(answer))
        harness.check(f"{what}, as bytes", by_bytes == ["RegionDamaged RegionDamaged"], repr(by_bytes))


GROUPS = {"buffers": built("mr_rows_tests", buffers), "regions merged": built("mr_rows_tests", merging)}
