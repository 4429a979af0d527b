"""The inverted index: rows worked out by hand, with certificates byte for byte; results that tell other files; runs by
workers; and its verdicts, which are written and not merged."""
import os

from harness import parts_of, read_result as result_of, seeded, write_result
from merge import merged, run_shard, said, write_shard
from plain import Request, produced
from rows import MAGIC, certificate_of, judged, judged_in_version_2, row
from running import ran
from verdicts import contents

INDEX = ["--job", "index"]
TWO = {"a": b"b a b\n", "b": b"a\n"}
TOLD = b"a\t0,1\nb\t0\n"
# Of these two files in one partition and splits of 64 bytes: 112 bytes.
CERTIFIED = MAGIC + bytes.fromhex(
    "00 00 00 04  00 00 00 00  00 00 00 00"  # job, flags, no literal
    "00 00 00 01  00 00 00 40  00 00 00 02  00 00 00 00 00 00 00 06  00 00 00 00 00 00 00 02"  # partitions, bytes of a split, two files
    "00 00 00 00  00 00 00 02"  # no left-out record, two groups
    "00 00 00 02  00 00 00 00 00 00 00 00 00 00 00 01  00 00 00 01 00 00 00 00 00 00 00 00"
    "00 00 00 02  00 00 00 00 00 00 00 00 00 00 00 00  00 00 00 00 00 00 00 00 00 00 00 02"
)
# The same in version 2: 76 bytes.
SHORT = b"MRCERT2\n" + CERTIFIED[8:56] + bytes.fromhex("00 00 00 02  00 00 01  01 00 00" "00 00 00 02  00 00 00  00 00 02")


def worked(harness):
    seq = ["seq", *INDEX]
    done = lambda parts, pairs, left=0: b"done: %d files, %d pairs, %d left out\n" % (parts, pairs, left)
    row(harness, "two files", seq, TWO, out=done(1, 4), parts=[TOLD])
    row(harness, "two files, two partitions", [*seq, "--parts", "2"], TWO, out=done(2, 4), parts=[b"a\t0,1\n", b"b\t0\n"])
    cases = {"a": b"A a\n", "b": b"A\n"}
    row(harness, "cases folded", seq, cases, out=done(1, 3), parts=[b"a\t0,1\n"])
    row(harness, "cases kept", [*seq, "--keep-case"], cases, out=done(1, 3), parts=[b"A\t0,1\na\t0\n"])
    row(harness, "no file", seq, {}, out=done(1, 0), parts=[b""])
    row(harness, "empty files", [*seq, "--parts", "2"], {"a": b"", "b": b"\n"}, out=done(2, 0), parts=[b"", b""])
    row(harness, "an empty file between others", seq, {"a": b"x", "b": b"", "c": b"x\n"}, out=done(1, 2), parts=[b"x\t0,2\n"])
    row(harness, "a word in several lines, splits and files", [*seq, "--split", "3"], {"a": b"x y x\n\nx\n", "b": b"z\n", "c": b"y x"}, out=done(1, 7), parts=[b"x\t0,2\ny\t0,2\nz\t1\n"])
    many = {"f%02d" % n: b"x y\n" if n in (2, 9, 10, 11) else b"x\n" for n in range(12)}
    row(harness, "numbers of files rise as numbers", seq, many, out=done(1, 16), parts=[b"x\t0,1,2,3,4,5,6,7,8,9,10,11\ny\t2,9,10,11\n"])
    three = {"a": b"a b\na\n", "b": b"b\n", "c": b"c a\nb\n"}
    row(harness, "a record left out", [*seq, "--skips", "0:0", "--max-skips", "1"], three, out=done(1, 5, 1), parts=[b"a\t0,2\nb\t1,2\nc\t2\n"])
    row(harness, "all records of a file left out", [*seq, "--skips", "2:0,2:1", "--max-skips", "2"], three, out=done(1, 4, 2), parts=[b"a\t0\nb\t0,1\n"])
    for names, told in ((["a", "a"], b"x\t0,1\n"), (["a"] * 1024, b"x\t" + b",".join(b"%d" % n for n in range(1024)) + b"\n")):
        got = harness.run([*seq, "--out", ".", *names], {"a": b"x\n"})
        harness.check(f"a file named {len(names)} times", got[:3] == (0, done(1, len(names)), b"") and parts_of(got[3]) == [told], repr(got[:3]))
        got = harness.run(["check", *INDEX, "--out", ".", *names], cwd=got[3])
        harness.check(f"a file named {len(names)} times, judged", got[:3] == (0, b"yes: %d pairs, 0 left out\n" % len(names), b""), repr(got[:3]))


def certificates(harness):
    """Certificates written out by hand, in both versions."""
    seq = ["seq", *INDEX, "--split", "64"]
    row(harness, "two files certified", seq, TWO, out=b"done: 1 files, 4 pairs, 0 left out\n", parts=[TOLD], certificate=CERTIFIED)
    got = harness.run([*seq, "--cert", "2", "--out", ".", *TWO], TWO)
    harness.check("two files certified in version 2", got[:3] == (0, b"done: 1 files, 4 pairs, 0 left out\n", b"") and result_of(got[3]) == ([TOLD], SHORT), repr(got[:3]))
    kept = MAGIC + bytes.fromhex("00000004 00000001 00000000 00000001 00000002 00000002 0000000000000004 0000000000000002 00000001 00000000 00000000 00000001 00000001 00000002 00000000 00000000")
    row(harness, "cases kept, a record left out, certified", ["seq", *INDEX, "--keep-case", "--split", "2", "--skips", "0:0", "--max-skips", "1"], {"a": b"b\n\n\n", "b": b"B\n"}, out=b"done: 1 files, 1 pairs, 1 left out\n", parts=[b"B\t1\n"], certificate=kept)
    sizes = [len(CERTIFIED), len(SHORT), len(kept)]
    harness.check("the lengths of the certificates", sizes == [112, 76, 80], repr(sizes))


def tells(harness, name, outputs, said, certificate=CERTIFIED, options=INDEX):
    """What `check` says of a result over the two files."""
    where = harness.directory(TWO)
    write_result(where, outputs, certificate)
    words = ["check", *options, "--parts", str(len(outputs)), "--split", "64"]
    got = judged(harness, words, TWO, where)
    harness.check(f"told: {name}", got == (0 if said.startswith(b"yes") else 1, said + b"\n", b""), repr(got))
    judged_in_version_2(harness, f"told: {name}", words, TWO, where, got)


def refusals(harness):
    """Lines that tell other files, or the same otherwise; certificates that name other pairs, or are of another job."""
    tells(harness, "the good one", [TOLD], b"yes: 4 pairs, 0 left out")
    for text, at in [
        (b"a\t0,0,1\nb\t0\n", 4),
        (b"a\t1,0\nb\t0\n", 2),
        (b"a\t0\nb\t0\n", 3),
        (b"a\t1\nb\t0\n", 2),
        (b"a\t0,1,1\nb\t0\n", 5),
        (b"a\t0,1,2\nb\t0\n", 5),
        (b"a\t0,01\nb\t0\n", 4),
        (b"a\t0, 1\nb\t0\n", 4),
        (b"a\t0,1,\nb\t0\n", 5),
        (b"a\t0 1\nb\t0\n", 3),
        (b"a\t0:2\na\t1:0\nb\t0\n", 3),
        (b"a\t2\nb\t2\n", 2),
        (b"a\t0,1\nb\t0,0\n", 9),
        (b"a\t0,1\nb\t0,1\n", 9),
        (b"a\t0,1\nb\t1\n", 8),
        (b"a\t0,1\nb\t\n", 8),
        (b"a\t0,1\n", 6),
        (b"a\t0,1\nb\t0\nb\t0\n", 10),
        (b"b\t0\na\t0,1\n", 0),
        (b"", 0),
    ]:
        tells(harness, f"the text {text}", [text], b"no: OutputDiffers partition 0 at %d" % at)
    entry = b"partition 0 group %d entry %d"
    of = lambda header, *groups: certificate_of(header, b"", (1, 64), [6, 2], [], [list(groups)])
    a, b = [(0, 0, 1), (1, 0, 0)], [(0, 0, 0), (0, 0, 2)]
    for name, text, certificate, said in [
        ("a file that isn't named", b"a\t0\nb\t0\n", of((4, 0), a[:1], b), b"Unnamed emitted 4 named 3"),
        ("a word twice in a file, named once", TOLD, of((4, 0), a, b[:1]), b"Unnamed emitted 4 named 3"),
        ("a name twice", TOLD, of((4, 0), a, [b[0], b[0]]), b"EntryOrder " + entry % (1, 1)),
        ("names that fall", b"a\t1,0\nb\t0\n", of((4, 0), a[::-1], b), b"EntryOrder " + entry % (0, 1)),
        ("another word's name", b"a\t0,1\nb\t0\n", of((4, 0), [b[0], *a], b[1:]), b"KeyDiffers " + entry % (0, 1)),
        ("a name in no file", TOLD, of((4, 0), [*a, (2, 0, 0)], b), b"NoSuchPair " + entry % (0, 2)),
        ("each file in a group of its own", b"a\t0\na\t1\nb\t0\n", of((4, 0), a[:1], a[1:], b), b"KeyOrder " + entry % (1, 0)),
        ("words", b"a\t2\nb\t2\n", of((1, 0), a, b), b"OtherJob"),
        ("cases kept", TOLD, of((4, 1), a, b), b"OtherJob"),
        ("flags of grep", TOLD, of((4, 2), a, b), b"OtherJob"),
        ("a job of no number", TOLD, of((5, 0), a, b), b"OtherJob"),
    ]:
        tells(harness, name, [text], b"no: " + said, certificate)
    tells(harness, "an index for words", [TOLD], b"no: OtherJob", options=["--job", "words"])
    tells(harness, "cases that are to be kept", [TOLD], b"no: OtherJob", options=[*INDEX, "--keep-case"])
    other = harness.directory({**TWO, "b": b"c\n"})
    write_result(other, [TOLD], CERTIFIED)
    got = judged(harness, ["check", *INDEX, "--split", "64"], TWO, other)
    harness.check("another word in a file", got == (1, b"no: KeyDiffers " + entry % (0, 1) + b"\n", b""), repr(got))


def by_workers(harness):
    """A run by workers writes what `seq` writes, whoever is lost and whatever is done twice."""
    rnd = seeded("an index by workers")
    words = [b"w%d" % n for n in range(40)] + [b"The", b"THE", "Zürich".encode()]
    files = [b"\n".join(b" ".join(rnd.choices(words, k=rnd.randrange(9))) for _ in range(60)) + b"\n" for _ in range(13)]
    for keep, parts, split, workers, script in [
        (False, 1, 67108864, 1, b""),
        (False, 3, 200, 4, b""),
        (True, 2, 64, 8, b"lose 1 after 2\nzombie 2 after 1\nhold 0\n"),
        (False, 5, 1000, 16, b"flaky 3 0 1\nhold 1\nlose 4 after 0\n"),
    ]:
        request = Request("index", parts, split, keep)
        outputs, certificate, pairs = produced(request, files)
        for version in (1, 2):
            certificate.version = version
            name = f"an index by {workers} workers, {parts} partitions, splits of {split}, version {version}"
            status, out, err, where = ran(harness, request, files, script, ["--workers", str(workers), "--attempts", "16", "--cert", str(version)])
            harness.check(name, (status, out, err) == (0, b"certified: %d files, %d pairs, 0 left out\n" % (parts, pairs), b""), f"{status} {out} {err}")
            harness.check(f"{name}: files", result_of(os.path.join(where, "out")) == (outputs, certificate.bytes()))


def shards(harness):
    """Verdicts of an index are written as others are, and merged with each other alone."""
    index, words = Request("index", 2, 16), Request("words", 2, 16)
    for made in (write_shard, run_shard):
        one, two = (made(harness, index, [name], [data], []) for name, data in TWO.items())
        counted = made(harness, words, ["b"], [TWO["b"]], [])
        harness.check("the verdict of an index", contents(one)["verdict"].startswith(b"verdict 2\njob 4\nflags 0\nliteral \npartitions 2\nsplit 16\n"), repr(contents(one)["verdict"]))
        where = harness.directory()
        got = merged(harness, where, [one, two])
        outputs, _, pairs = produced(index, [*TWO.values()])
        harness.check(f"two shards by {made.__name__}, merged", got == (0, said(outputs, pairs, []), b"") and parts_of(where) == outputs, repr(got))
        for name, given in [("an index and words", [one, counted]), ("words and an index", [counted, one])]:
            where = harness.directory({"part-00000": b"old", "verdict": b"old"})
            got = merged(harness, where, given)
            stands = contents(where) == {"part-00000": b"old", "verdict": b"old"}
            harness.check(f"{name} by {made.__name__}, merged", got == (1, b"", b"mapred: OtherRequest shard 1\n") and stands, repr(got))


GROUPS = {"index": worked, "index certified": certificates, "index refused": refusals, "index by workers": by_workers, "index in shards": shards}
