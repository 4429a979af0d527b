"""Map tasks in runs of few pairs: whatever the limit, a reduce task gives what the rules give in plain Python.

The library `mr_task` is reached through the small program `mr_rows_tests`, which the gate leaves beside the checked one:
it reads a file on standard input, and prints the bytes of the regions that each split has, run by run and partition by
partition, and then the text, the counts and the names that the reduce task of each partition gives over all of them."""
import random
import re
import subprocess

from libraries import built, words_of
import plain
import regions

# A job, and whether a host chooses the partition of its keys.
NUMBER = {("words", False): 0, ("grep", False): 1, ("url", False): 2, ("url", True): 3}
NAME = re.compile(r"Name \{ split: (\d+), rec: (\d+), place: (\d+) \}")
LIMITS = [1, 2, 3, 7, 65536]


def lines_of(request, data, limit, skips=()):
    words = words_of("runs", NUMBER[request.job, request.by_host], request.parts, request.split, limit, *skips)
    return subprocess.run(words, input=data + b"\0", capture_output=True).stdout.decode().splitlines()


def told(request, data, limit):
    """The bytes of each split's regions, and what the reduce tasks give, as text and groups."""
    lines = lines_of(request, data, limit)
    sealed = [[bytes_of(text) for text in line.split(";")[:-1]] for line in lines if "|" not in line]
    return sealed, [reduced(line) for line in lines if "|" in line]


def bytes_of(text):
    return bytes(int(n) for n in re.findall(r"\d+", text))


def names_of(text):
    return [tuple(int(n) for n in found) for found in NAME.findall(text)]


def reduced(line):
    """The text and the groups."""
    text, counts, names = line.split("|")
    flat = names_of(names)
    groups, at = [], 0
    for count in (int(n) for n in re.findall(r"\d+", counts)):
        groups.append(flat[at : at + count])
        at += count
    return bytes_of(text), groups


def regions_of(request, data, limit):
    """The regions of each split by docs/FORMATS.md: pairs are taken run by run, and each run is cut by partition."""
    splits = (len(data) + request.split - 1) // request.split
    pairs = [[] for _ in range(splits)]
    for name, (key, value) in plain.pairs_of(request, [data]).items():
        pairs[name[0]].append((key, value, name))
    runs = lambda own: [own[at : at + limit] for at in range(0, len(own), limit)]
    return [[region(request, split, p, run) for run in runs(own) for p in range(request.parts)] for split, own in enumerate(pairs)]


def region(request, split, partition, run):
    own = [pair for pair in run if plain.partition_of(request, pair[0]) == partition]
    return regions.spelled(split, partition, sorted(own, key=lambda pair: (pair[0], pair[2])))


def text_of(rnd):
    """A file of short lines, each ended by LF, of few words, so that keys come again in many runs; many are of a log."""
    words = [b"a", b"b", b"B", b"ab", b"ba", b"c1", b"--", b"", *(b'"GET %s HTTP/1.0"' % it for it in [b"http://h/b", b"http://H/c", b"HTTPS://i/b", b"/b"])]
    lines = [b" ".join(rnd.choice(words) for _ in range(rnd.randrange(6))) for _ in range(rnd.randrange(1, 30))]
    return b"".join(line + b"\n" for line in lines)


def worked(harness):
    request = plain.Request("words", split=64)
    output = (b"a\t1\nb\t2\n", [[(0, 0, 1)], [(0, 0, 0), (0, 0, 2)]])
    for limit, sizes in [(65536, [74]), (3, [74]), (2, [56, 38]), (1, [38, 38, 38])]:
        sealed, reduced_to = told(request, b"b a b\n", limit)
        harness.check(f"b a b in runs of {limit}", [[len(one) for one in split] for split in sealed] == [sizes] and reduced_to == [output])
    sealed, _ = told(plain.Request("words", parts=2, split=64), b"a\n", 65536)
    harness.check("a region without pairs has 20 bytes", [sorted(len(one) for one in split) for split in sealed] == [[20, 38]])
    # by the whole key the first would have partition 1, and `/z` partition 0
    log = b"".join(b'"GET %s HTTP/1.0"\n' % key for key in (b"http://a/x", b"/z", b"http://A/y"))
    sealed, reduced_to = told(plain.Request("url", parts=2, split=4096, by_host=True), log, 65536)
    output = [(b"http://A/y\t1\nhttp://a/x\t1\n", [[(0, 2, 0)], [(0, 0, 0)]]), (b"/z\t1\n", [[(0, 1, 0)]])]
    harness.check("resources of one host are in one partition", [[len(one) for one in split] for split in sealed] == [[74, 39]] and reduced_to == output)


def whole_splits(harness):
    """Tasks whose runs nobody limits, left-out records, and damaged regions, worked out by hand."""
    data, twice_and_cut = b"b a b\n", ["RegionDamaged RegionDamaged"] * 2
    words, lines_with = plain.Request("words", split=64), plain.Request("grep", split=64, literal=b"b")
    lines = lines_of(words, data, 0)
    harness.check("one run", len(lines) == 4 and lines[0].count(";") == 1 and len(bytes_of(lines[0])) == 74, repr(lines))
    harness.check("a region twice, and one that is cut", lines[1:3] == twice_and_cut, repr(lines))
    wanted = b"a\t1\nb\t2\n", [[(0, 0, 1)], [(0, 0, 0), (0, 0, 2)]]
    harness.check("one run, reduced", [reduced(line) for line in lines if "|" in line] == [wanted], repr(lines))
    lines = lines_of(words, data, 0, ["3 0"])
    harness.check("nothing to reduce", lines == ["", "[]|[]|[]"], repr(lines))
    lines = lines_of(lines_with, b"xb\nno\nxb\n", 0)
    harness.check("lines with a literal", len(lines) == 4 and lines[0].count(";") == 1, repr(lines))
    harness.check("lines twice, and cut", lines[1:3] == twice_and_cut, repr(lines))
    wanted = b"xb\t0:0\nxb\t0:6\n", [[(0, 0, 0), (0, 2, 0)]]
    harness.check("lines with a literal, reduced", [reduced(line) for line in lines if "|" in line] == [wanted], repr(lines))


def random_runs(harness):
    rnd = random.Random(65536)
    for number in range(100):
        job, by_host = rnd.choice(list(NUMBER))
        request = plain.Request(job, parts=rnd.choice([1, 2, 3, 5]), split=rnd.choice([1, 7, 20, 64, 4096]), literal=b"b", by_host=by_host)
        data = text_of(rnd)
        texts, certificate, _ = plain.produced(request, [data])
        wanted = list(zip(texts, certificate.partitions))
        for limit in LIMITS:
            harness.check(f"input {number} in runs of {limit}", told(request, data, limit) == (regions_of(request, data, limit), wanted))


GROUPS = {"runs of a map task": built("mr_rows_tests", worked), "runs of whole splits": built("mr_rows_tests", whole_splits), "random runs of map tasks": built("mr_rows_tests", random_runs)}
