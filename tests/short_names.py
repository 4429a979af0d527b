"""Certificates of version 2, in which names are short: worked values, and each cut and each byte changed against the plain judge,
and what `seq --cert` writes."""
import os
import random

from files import fed
from harness import VERSIONS, read_result, seeded, write_result
from judging import ODD_NUMBERS
from plain import JOBS, NAME, Certificate, Request, in_version_2, judged, produced, read
from producer import options_of, random_job
from rows import EXAMPLE

ABA = Request("words", split=64), [b"a b a\n"], [b"a\t2\nb\t1\n"]

# Words of `a b a` and a line end, one partition, splits of 64 bytes: 65 bytes.
SHORT_EXAMPLE = b"MRCERT2\n" + EXAMPLE[8:44] + bytes.fromhex(
    "00 00 00 02"  # two groups
    "00 00 00 02  00 00 00  00 00 02"  # of a, at places 52 and 55
    "00 00 00 01  00 00 01"  # of b, at place 62
)

# Names of one group, rising, and their bytes in version 2.
NAMES = [
    ([(0, 0, 2), (0, 0, 130), (0, 3, 1), (2, 0, 5)], "000002 00008001 000301 020005"),
    ([(0, 0, 0), (0, 0, 0), (0, 0, 127), (0, 0, 255)], "000000 000000 00007f 00008001"),
    ([(0, 0, 5), (0, 1, 0), (0, 1, 3), (0, 3, 9), (2, 0, 0), (2, 0, 4), (2, 7, 4)], "000005 000100 000003 000209 020000 000004 000704"),
    ([(3, 4, 5), (4, 4, 5), (4, 4, 6), (4, 5, 5), (300, 200, 128)], "030405 010405 000001 000105 a802c8018001"),
    ([(0, 0, 2**32 - 1), (0, 1, 2**32 - 1), (1, 0, 0), (2**32 - 1, 2**32 - 1, 2**32 - 1)], "0000ffffffff0f 0001ffffffff0f 010000 feffffff0fffffffff0fffffffff0f"),
    ([(16383, 16384, 2097151), (16383, 18432, 2097152)], "ff7f808001ffff7f 00801080808001"),
]


def random_names(rnd):
    """Names that rise, or stand twice."""
    number = lambda: rnd.choice([0, 0, 1, 127, 128, 2**14 - 1, 2**14, 2**21, 2**28 - 1, 2**28, 2**32 - 1, rnd.randrange(300), rnd.randrange(2**32)])
    names = [(number(), number(), number()) for _ in range(rnd.randrange(1, 9))]
    behind = [(*names[0][:2], number()), (names[0][0], number(), number()), names[0]]
    return sorted([*names, *rnd.sample(behind, rnd.randrange(3))])


def plain_ones(harness):
    """The plain writer and reader by themselves: worked values, and one against the other."""
    for names, spelled in NAMES:
        group = Certificate(1, 0, b"", 1, 64, [], [], [[names]], 2)
        got = b"".join(group.named(names))
        harness.check(f"{names} spelled", got == bytes.fromhex(spelled) and read(group.bytes()) == group, got.hex())
    harness.check("the example of 65 bytes", in_version_2(EXAMPLE) == SHORT_EXAMPLE and len(SHORT_EXAMPLE) == 65)
    rnd, wrong = seeded("names of version 2"), []
    for turn in range(2000):
        groups = [random_names(rnd) for _ in range(rnd.randrange(4))]
        skips = sorted(name[:2] for name in random_names(rnd))
        certificate = Certificate(1, 0, b"x", 2, 64, [turn], skips, [groups, []])
        fixed = certificate.bytes()
        short = in_version_2(fixed)
        again = read(short)
        good = again.version == 2 and again.bytes() == short and (again.partitions, again.skips) == (certificate.partitions, skips)
        again.version = 1
        if not good or read(fixed) != certificate or again.bytes() != fixed:
            wrong.append(groups)
    harness.check("random certificates, written, read and written again, in both versions", wrong == [], repr(wrong[:2]))
    falling = Certificate(1, 0, b"", 1, 64, [], [], [[[(0, 1, 0), (0, 0, 9)]]])
    harness.check("names that fall have no spelling in version 2", in_version_2(falling.bytes()) is None)
    for name, data, said in worked_values():
        harness.check(f"{name}, by the plain judge", judged(*ABA, data) == said + "\n", judged(*ABA, data))


def worked_values():
    """What the judge says of the example of 65 bytes, and of it with one thing changed."""
    data = SHORT_EXAMPLE
    changed = lambda at, size, new: data[:at] + bytes.fromhex(new) + data[at + size :]
    place = "partition 0 group 0 entry"
    yield "the example", data, "yes: 3 pairs, 0 left out"
    yield "a number with a last byte of nothing", changed(55, 3, "00 00 82 00"), "no: Malformed at 55"
    yield "a name twice", changed(55, 3, "00 00 00"), f"no: EntryOrder {place} 1"
    yield "another key", changed(55, 3, "00 00 01"), f"no: KeyDiffers {place} 1"
    yield "no such place", changed(55, 3, "00 00 03"), f"no: NoSuchPair {place} 1"
    yield "the greatest number", changed(52, 1, "ff ff ff ff 0f"), f"no: NoSuchPair {place} 0"
    yield "a greater number", changed(52, 1, "ff ff ff ff 1f"), "no: Malformed at 52"
    yield "the least that is too great", changed(52, 1, "80 80 80 80 10"), "no: Malformed at 52"
    yield "six bytes", changed(52, 1, "80 80 80 80 80 01"), "no: Malformed at 52"
    yield "nothing in five bytes", changed(52, 1, "80 80 80 80 00"), "no: Malformed at 52"
    yield "a split of 128", changed(52, 1, "80 01"), f"no: NoSuchPair {place} 0"
    # behind the name (0, 0, 1) the greatest step is one less
    yield "the greatest place", changed(52, 6, "00 00 01 00 00 fe ff ff ff 0f"), f"no: NoSuchPair {place} 1"
    yield "a place past it", changed(52, 6, "00 00 01 00 00 ff ff ff ff 0f"), "no: Malformed at 55"
    yield "without the last byte", data[:-1], "no: Malformed at 62"
    yield "without the last name", data[:-3], "no: Malformed at 62"
    yield "a byte behind it", data + b"\0", "no: Malformed at 65"
    yield "no entry", changed(48, 4, "00 00 00 00"), "no: Malformed at 48"
    yield "an entry that isn't there", changed(58, 4, "00 00 00 02"), "no: Malformed at 65"
    yield "version 3", changed(6, 1, "33"), "no: Malformed at 0"
    yield "names of version 2 under the magic of version 1", b"MRCERT1\n" + data[8:], f"no: NoSuchPair {place} 0"
    yield "names of version 1 under the magic of version 2", b"MRCERT2\n" + EXAMPLE[8:], f"no: EntryOrder {place} 1"


def answers(harness, request, where, names, data):
    """What `check` says of a certificate that stands there: by itself, by three threads, and read from a pipe."""
    words, path = [*options_of(request, "check"), "--out", ".", *names], os.path.join(where, "certificate")
    with open(path, "wb") as file:
        file.write(data)
    yield "alone", harness.run(words, cwd=where)[:3]
    yield "by three threads", harness.run([words[0], "--threads", "3", *words[1:]], cwd=where)[:3]
    os.remove(path)
    os.mkfifo(path)
    feeding = fed(path, data)
    yield "from a pipe", harness.run(words, cwd=where, timeout=60)[:3]
    feeding.join(10)
    os.remove(path)


def told(harness, name, request, files, outputs, data, where=None):
    """The program says of a certificate what the plain judge says."""
    names = {f"f{i}": text for i, text in enumerate(files)}
    if where is None:
        where = harness.directory(names)
        write_result(where, outputs, b"")
    said = judged(request, files, outputs, data)
    want = (0 if said.startswith("yes") else 1, said.encode(), b"")
    for way, got in answers(harness, request, where, names, data):
        harness.check(f"{name}, {way}", got == want, f"got {got!r} wanted {want!r}")
    return where


def worked(harness):
    for name, data, _ in worked_values():
        told(harness, name, *ABA, data)


def results():
    """Results with their certificates in version 2, and the place of the first byte that is changed: with left-out records,
    with splits and records past 127, and with places far apart."""
    late = b"a\n" + b"\n" * 200 + b"b a b\n"
    jobs = [
        (ABA[0], ABA[1], [], 0),
        (Request("grep", 2, 4, literal=b"Ab", fold=True, most=1), [b"ab\nxAB\n", b"b\naB\n"], [(0, 0)], 0),
        (Request("words", 2, 1), [late, b"", b"b\na"], [], 40),
        (Request("words", 1, 1024, most=3), [late + b"c a b\n", b"a b\na\n"], [(0, 1), (0, 150)], 40),
        (Request("words", 1, 1024), [b"b " + b"a " * 140 + b"b"], [], 472),
    ]
    for request, files, skips, first in jobs:
        outputs, certificate, _ = produced(request, files, skips)
        certificate.version = 2
        yield request, files, outputs, certificate.bytes(), first


def odd_numbers(data, first):
    """The certificate with one number of a name made each of the odd ones, and the place of the name."""
    pieces = read(data).pieces()
    places = [sum(map(len, pieces[:i])) for i in range(len(pieces))]
    for i in [i for i, piece in enumerate(pieces) if NAME.fullmatch(piece) and places[i] >= first]:
        for which in range(3):
            for odd in ODD_NUMBERS:
                numbers = [*NAME.fullmatch(pieces[i]).groups()]
                numbers[which] = bytes.fromhex(odd)
                yield f"{odd} as number {which} at {places[i]}", b"".join([*pieces[:i], *numbers, *pieces[i + 1 :]])


def byte_by_byte(harness):
    """A certificate cut at each place, with each byte changed to a few others, and with each number of a name made an odd one."""
    rnd = random.Random(17)
    for request, files, outputs, data, first in results():
        where = told(harness, f"{request} in version 2", request, files, outputs, data)
        for at in range(first, len(data)):
            told(harness, f"{request} cut to {at} bytes", request, files, outputs, data[:at], where)
            for byte in sorted({data[at] ^ 1, data[at] ^ 0x80, rnd.choice([0, 0x7F, 0xFF]), rnd.randrange(256)} - {data[at]}):
                changed = data[:at] + bytes([byte]) + data[at + 1 :]
                told(harness, f"{request} with {byte} at {at}", request, files, outputs, changed, where)
        for name, changed in odd_numbers(data, first):
            told(harness, f"{request} with {name}", request, files, outputs, changed, where)


def written(harness):
    """`seq --cert 2` writes the parts of `seq` and the certificate of the plain writer, and `check` says yes to it."""
    rnd, seen = seeded("seq in version 2"), set()
    for turn in range(120):
        request, files, skips = random_job(rnd)
        names = {f"f{i}": data for i, data in enumerate(files)}
        outputs, certificate, pairs = produced(request, files, skips)
        words = [*options_of(request, "seq", skips), "--out", ".", *names]
        alone = harness.run(words, names)
        for version in rnd.sample(VERSIONS, 2):
            certificate.version = version
            name, data = f"job {turn} {request} in version {version}", certificate.bytes()
            got = harness.run([*words, "--cert", str(version)], names)
            harness.check(name, got[:3] == alone[:3] and got[0] == 0 and read_result(got[3]) == (outputs, data), repr(got[:3]))
            got = harness.run([*options_of(request, "check"), "--out", ".", *names], cwd=got[3])
            want = judged(request, files, outputs, data)
            harness.check(f"{name}, judged", want.startswith("yes: ") and got[:3] == (0, want.encode(), b""), repr(got[:3]))
        certificate.version = 1
        harness.check(f"job {turn} {request}, without --cert", read_result(alone[3]) == (outputs, certificate.bytes()))
        seen.add((request.job, bool(skips), pairs > 0))
    missing = {(job, left, True) for job in JOBS for left in (False, True)} - seen
    harness.check("each job was met, with and without left-out records", missing == set(), repr(missing))


def faults(harness):
    """Another version is a fault of the line, and nothing is written; a fault of the request comes as without `--cert`."""
    words = ["seq", "--job", "words", "--out", "."]
    for version in ("0", "3", "x", "", "-1", "1.0", "4294967297"):
        got = harness.run([*words, f"--cert={version}", "a"], {"a": b"a\n"})
        said = b"error: invalid value '%s' for '--cert <" % version.encode() if version else b"error: "
        harness.check(f"--cert {version}", got[:2] == (2, b"") and got[2].startswith(said) and os.listdir(got[3]) == ["a"], repr(got))
    got = harness.run([*words, "--cert", "1", "--cert", "2", "a"], {"a": b"a\n"})
    harness.check("--cert twice", got[:2] == (2, b"") and b"cannot be used multiple times" in got[2] and os.listdir(got[3]) == ["a"], repr(got))
    for more, said in ((["--parts", "0", "a"], b"BadParts"), (["--skips", "0:1", "--max-skips", "1", "a"], b"NoSuchRecord")):
        got = harness.run([*words, "--cert", "2", *more], {"a": b"a\n"})
        harness.check(f"--cert 2 and {said}", got[:3] == (2, b"", b"mapred: " + said + b"\n") and os.listdir(got[3]) == ["a"], repr(got))


GROUPS = {
    "plain names of version 2": plain_ones,
    "version 2": worked,
    "version 2, byte by byte": byte_by_byte,
    "seq in version 2": written,
    "faults of seq --cert": faults,
}
