"""Rows worked out by hand: outputs, certificates byte for byte, refusals, and results with one byte changed."""
import random

from harness import read_result as result_of, write_result
from plain import u32s
from rows import EXAMPLE, MAGIC, certificate_of, judged, judged_in_version_2, refused, row


def worked_rows(harness):
    words = ["seq", "--job", "words"]
    row(harness, "two partitions", [*words, "--parts", "2"], {"a": b"the cat the dog\n"}, out=b"done: 2 files, 4 pairs, 0 left out\n", parts=[b"the\t2\n", b"cat\t1\ndog\t1\n"])
    row(harness, "an empty file", [*words, "--parts", "2"], {"a": b""}, out=b"done: 2 files, 0 pairs, 0 left out\n", parts=[b"", b""])
    row(harness, "a long word", words, {"a": b"a" * 65}, out=b"done: 1 files, 1 pairs, 0 left out\n", parts=[b"a" * 65 + b"\t1\n"])
    row(harness, "a word of 64 bytes", words, {"a": b"a" * 64 + b"\n"}, out=b"done: 1 files, 1 pairs, 0 left out\n", parts=[b"a" * 64 + b"\t1\n"])
    row(harness, "high bytes", words, {"a": bytes.fromhex("41 62 20 C3 84 42 0A")}, out=b"done: 1 files, 2 pairs, 0 left out\n", parts=[b"ab\t1\n" + bytes.fromhex("C3 84 62") + b"\t1\n"])
    row(harness, "cases kept", [*words, "--keep-case"], {"a": b"A a A\n"}, out=b"done: 1 files, 3 pairs, 0 left out\n", parts=[b"A\t2\na\t1\n"])
    grep = ["seq", "--job", "grep", "--literal"]
    row(harness, "grep", [*grep, "b"], {"a": b"abc\nxbz\n"}, out=b"done: 1 files, 2 pairs, 0 left out\n", parts=[b"abc\t0:0\nxbz\t0:4\n"])
    row(harness, "grep keeps a carriage return", [*grep, "a"], {"a": b"a\r\n"}, out=b"done: 1 files, 1 pairs, 0 left out\n", parts=[b"a\r\t0:0\n"])
    row(harness, "grep folded", [*grep, "AB", "--fold"], {"a": b"xab\nb\naB\n"}, out=b"done: 1 files, 2 pairs, 0 left out\n", parts=[b"aB\t0:6\nxab\t0:0\n"])
    row(harness, "grep in three files", [*grep, "x"], {"a": b"x", "b": b"", "c": b"x\n"}, out=b"done: 1 files, 2 pairs, 0 left out\n", parts=[b"x\t0:0\nx\t2:0\n"])
    row(harness, "grep in lines that end in the literal's front", [*grep, "ab"], {"a": b"xa\nb\nab\na\nab", "b": b"b\nab\n"}, out=b"done: 1 files, 3 pairs, 0 left out\n", parts=[b"ab\t0:5\nab\t0:10\nab\t1:2\n"])
    row(harness, "grep behind a line left out", [*grep, "b", "--skips", "0:0,0:2", "--max-skips", "2"], {"a": b"b\nb\nb\nbb\n"}, out=b"done: 1 files, 2 pairs, 2 left out\n", parts=[b"b\t0:2\nbb\t0:6\n"])
    row(harness, "a literal with a hyphen", [*grep, "-x"], {"a": b"a-x\n"}, out=b"done: 1 files, 1 pairs, 0 left out\n", parts=[b"a-x\t0:0\n"])
    url = ["seq", "--job", "url"]
    log = b'1.2.3.4 - - [10/Oct/2000:13:55:36 -0700] "GET /a HTTP/1.0" 200 2326'
    row(harness, "a log line", [*url, "--parts", "2"], {"a": log}, out=b"done: 2 files, 1 pairs, 0 left out\n", parts=[b"", b"/a\t1\n"])
    row(harness, "no resource", url, {"a": b'h "-" 1\nh "GET  /a" 1\nh "GET /a 1\n'}, out=b"done: 1 files, 0 pairs, 0 left out\n", parts=[b""])
    row(harness, "an escaped quote", url, {"a": b'h - - [t] "GET /a\\"b HTTP/1.0" 200 1\n'}, out=b"done: 1 files, 1 pairs, 0 left out\n", parts=[b'/a\\"b\t1\n'])
    for line, key in ((b'h "GET /a"', b"/a"), (b'h " /a b"', b"/a"), (b'h "GET\\ /a" 1', b"/a"), (b'h \\"GET /a b" 1', b"/a"), (b'h "GET /a\\ b" 1', b"/a\\")):
        row(harness, f"the resource of {line}", url, {"a": line}, out=b"done: 1 files, 1 pairs, 0 left out\n", parts=[key + b"\t1\n"])
    two = {"a": b"a b\nc\n"}
    row(harness, "one record left out", [*words, "--skips", "0:0", "--max-skips", "1"], two, out=b"done: 1 files, 1 pairs, 1 left out\n", parts=[b"c\t1\n"])
    for name, skips, most, said in [
        ("the same record twice", "0:0,0:0", "2", b"SkipOrder"),
        ("no such record", "0:2", "1", b"NoSuchRecord"),
        ("too many left out", "0:0,0:1", "1", b"TooManySkips"),
        ("a list that ends in a comma", "0:0,", "1", b"bad skip list"),
        ("a limit above 1000", "", "1001", b"BadSkips"),
    ]:
        row(harness, name, [*words, "--skips", skips, "--max-skips", most], two, status=2, err=b"mapred: " + said + b"\n", parts=[])
    row(harness, "two splits", [*words, "--split", "4", "--skips", "1:0", "--max-skips", "1"], {"a": b"ab cd\ne\n"}, out=b"done: 1 files, 2 pairs, 1 left out\n", parts=[b"ab\t1\ncd\t1\n"])


def certificates(harness):
    """Certificates written out by hand."""
    words = ["seq", "--job", "words", "--split", "64"]
    row(harness, "the example certified", words, {"a": b"a b a\n"}, out=b"done: 1 files, 3 pairs, 0 left out\n", parts=[b"a\t2\nb\t1\n"], certificate=EXAMPLE)
    empty = MAGIC + bytes.fromhex("00000001 00000000 00000000 00000002 00000040 00000001 0000000000000000 00000000 00000000 00000000")
    row(harness, "an empty file certified", [*words, "--parts", "2"], {"a": b""}, out=b"done: 2 files, 0 pairs, 0 left out\n", parts=[b"", b""], certificate=empty)
    left_out = MAGIC + bytes.fromhex("00000001 00000000 00000000 00000001 00000040 00000001 0000000000000006 00000001 00000000 00000000 00000001 00000001 00000000 00000001 00000000")
    row(harness, "a left-out record certified", [*words, "--skips", "0:0", "--max-skips", "1"], {"a": b"a b\nc\n"}, out=b"done: 1 files, 1 pairs, 1 left out\n", parts=[b"c\t1\n"], certificate=left_out)
    lines = MAGIC + bytes.fromhex("00000002 00000000 00000001 78 00000001 00000040 00000003 0000000000000001 0000000000000000 0000000000000002 00000000 00000001 00000002 00000000 00000000 00000000 00000001 00000000 00000000")
    grep = ["seq", "--job", "grep", "--literal", "x", "--split", "64"]
    row(harness, "lines of three files certified", grep, {"a": b"x", "b": b"", "c": b"x\n"}, out=b"done: 1 files, 2 pairs, 0 left out\n", parts=[b"x\t0:0\nx\t2:0\n"], certificate=lines)
    folded = MAGIC + bytes.fromhex("00000002 00000002 00000002 4162 00000002 00000004 00000002 0000000000000007 0000000000000005 00000001 00000000 00000000 00000002 00000001 000000020000000100000000 00000001 000000000000000100000000 00000000")
    grep = ["seq", "--job", "grep", "--literal", "Ab", "--fold", "--parts", "2", "--split", "4", "--skips", "0:0", "--max-skips", "1"]
    row(harness, "two files, folded, a record left out, certified", grep, {"a": b"ab\nxAB\n", "b": b"b\naB\n"}, out=b"done: 2 files, 2 pairs, 1 left out\n", parts=[b"aB\t1:2\nxAB\t0:3\n", b""], certificate=folded)
    sizes = [len(c) for c in (EXAMPLE, empty, left_out, lines, folded)]
    harness.check("the lengths of the certificates", sizes == [92, 52, 72, 93, 102], repr(sizes))


def refusals(harness):
    """The judge's refusals, worked out by hand."""
    data, good, entry = b"a b a\n", [b"a\t2\nb\t1\n"], b"partition 0 group %d entry %d"
    changed = lambda at, new: EXAMPLE[:at] + new + EXAMPLE[at + len(new) :]
    refused(harness, "an entry twice", b"EntryOrder " + entry % (0, 1), data, good, changed(64, u32s(0, 0, 0)))
    refused(harness, "a group dropped", b"Unnamed emitted 3 named 2", data, [b"a\t2\n"], changed(44, u32s(1))[:76])
    refused(harness, "the last byte dropped", b"Malformed at 80", data, good, EXAMPLE[:-1])
    refused(harness, "a byte added", b"Malformed at 92", data, good, EXAMPLE + b"\0")
    refused(harness, "nothing at all", b"Malformed at 0", data, good, b"")
    refused(harness, "an output too long", b"OutputDiffers partition 0 at 8", data, [good[0] + b"x"], EXAMPLE)
    refused(harness, "an output too short", b"OutputDiffers partition 0 at 7", data, [good[0][:-1]], EXAMPLE)
    refused(harness, "a name that isn't there", b"NoSuchPair " + entry % (0, 0), data, good, changed(52, u32s(*[2**32 - 1] * 3)))
    refused(harness, "another key", b"KeyDiffers " + entry % (0, 1), data, good, changed(64, u32s(0, 0, 1)))
    refused(harness, "groups that aren't there", b"Malformed at 92", data, good, changed(44, u32s(2**32 - 1)))
    refused(harness, "entries that aren't there", b"NoSuchPair " + entry % (0, 2), data, good, changed(48, u32s(2**32 - 1)))
    names = [[(0, 0, 0)], [(0, 0, 2)], [(0, 0, 1)]]
    header = (1, 0), b"", (1, 64), [6], []
    refused(harness, "a key twice", b"KeyOrder " + entry % (1, 0), data, [b"a\t1\na\t1\nb\t1\n"], certificate_of(*header, [names]))
    swapped = certificate_of(*header, [[[(0, 0, 1)], [(0, 0, 0), (0, 0, 2)]]])
    refused(harness, "groups swapped", b"OutputDiffers partition 0 at 0", data, good, swapped)
    refused(harness, "another input", b"OtherInput", b"a b aa\n", good, EXAMPLE)
    refused(harness, "cases kept", b"OtherJob", data, good, EXAMPLE, ["--keep-case"])
    refused(harness, "another size of split", b"OtherJob", data, good, EXAMPLE, split="63")
    refused(harness, "other partitions", b"OtherJob", data, [*good, b""], EXAMPLE)
    wrong = certificate_of((1, 0), b"", (3, 64), [2], [], [[[(0, 0, 0)]], [], []])
    refused(harness, "a key in another's partition", b"WrongPartition " + entry % (0, 0), b"a\n", [b"a\t1\n", b"", b""], wrong)
    # of eight partitions `a` falls in 4 and `b` in 5; the last part is read though no key falls there
    eight = certificate_of((1, 0), b"", (8, 64), [6], [], [[], [], [], [], [[(0, 0, 0), (0, 0, 2)]], [[(0, 0, 1)]], [], []])
    refused(harness, "bytes in a partition without keys", b"OutputDiffers partition 7 at 0", data, [*[b""] * 4, b"a\t2\n", b"b\t1\n", b"", b"x"], eight)
    listed = lambda *skips: certificate_of((1, 0), b"", (1, 64), [6], skips, [[[(0, 1, 0)]]])
    two, most = (b"a b\nc\n", [b"c\t1\n"]), ["--max-skips", "2"]
    refused(harness, "a left-out record too many", b"TooManySkips listed 1", *two, listed((0, 0)))
    refused(harness, "a left-out record twice", b"SkipOrder skip 1", *two, listed((0, 0), (0, 0)), most)
    refused(harness, "a left-out record that isn't there", b"NoSuchRecord skip 1", *two, listed((0, 0), (0, 2)), most)
    refused(harness, "a pair of a left-out record", b"NoSuchPair " + entry % (0, 0), b"a b\nc\n", [b"c\t1\n"], listed((0, 0), (0, 1)), most)


def changes(harness):
    """A result with one byte changed is never good. Given the left-out records, a good result is unique, byte for
    byte, so none has an output or an entry changed alone. A change in the list of left-out records or in its length
    needs more: each record of these texts emits, so that a record that joins the list or leaves it takes 12 bytes or
    more of names out of the certificate or brings them in."""
    rnd = random.Random(13)
    text = b"the cat the dog\na b a\nthe dog\nx\n"
    log = b"".join(b'h "GET /%s HTTP/1.0" 200 1\n' % rnd.choice([b"a", b"b", b"index.html"]) for _ in range(6))
    for job, options, given in (
        ("words", ["--parts", "2", "--split", "7"], {"a": text}),
        ("words", ["--parts", "3", "--split", "64", "--skips", "0:1", "--max-skips", "3"], {"a": text}),
        ("grep", ["--literal", "a"], {"a": b"a\nba\nac\n"}),
        ("url", ["--parts", "2", "--split", "16"], {"a": log}),
        ("index", ["--parts", "2", "--split", "7"], {"a": text, "b": b"a dog\nthe b\n", "c": b"dog x x\n"}),
    ):
        words = ["seq", "--job", job, *options]
        where = harness.run([*words, "--out", ".", *given], given)[3]
        parts, certificate = result_of(where)
        files = [*parts, certificate]
        wrong = []
        for _ in range(100):
            at, which = rnd.randrange(sum(map(len, files))), 0
            while at >= len(files[which]):
                at, which = at - len(files[which]), which + 1
            byte = rnd.choice([files[which][at] ^ 1 << rnd.randrange(8), rnd.choice([b for b in range(256) if b != files[which][at]])])
            changed = [*files]
            changed[which] = files[which][:at] + bytes([byte]) + files[which][at + 1 :]
            write_result(where, changed[:-1], changed[-1])
            got = judged(harness, words, given, where)
            if got[0] != 1 or not got[1].startswith(b"no: ") or got[2] != b"":
                wrong.append((which, at, byte, got))
        harness.check(f"a byte changed, {job} {options}", wrong == [], repr(wrong))
        write_result(where, parts, certificate)
        harness.check(f"and changed back, {job} {options}", judged(harness, words, given, where)[0] == 0)


def of_words(parts, length, rest):
    """A certificate of words over one file, with splits of 64 bytes: its numbers behind the file's length."""
    return MAGIC + u32s(1, 0, 0, parts, 64, 1, 0, length, *rest)


def tells(harness, name, request, data, outputs, certificate, said):
    """The judge's answer on one file, yes or no."""
    where = harness.directory({"a": data})
    write_result(where, outputs, certificate)
    words = ["check", *request, "--parts", str(len(outputs)), "--split", "64"]
    got = harness.run([*words, "--out", ".", "a"], cwd=where)
    harness.check("told: " + name, got[:3] == (0 if said.startswith(b"yes") else 1, said + b"\n", b""), repr(got[:3]))
    judged_in_version_2(harness, "told: " + name, words, ["a"], where, got[:3])


WORDS = ["--job", "words"]
GOOD = [0, 2, 2, 0, 0, 0, 0, 0, 2, 1, 0, 0, 1]
ABA = [b"a\t2\nb\t1\n"]


def places_of_faults(harness):
    """Faults at later partitions, groups and entries, where the certificate is cut, at the borders of blocks of 64 items."""
    text = b"b\t1\nd\t1\nf\t2\n"
    third = lambda a, b: of_words(2, 12, [0, 1, 2, 0, 0, 0, 0, 0, 5, 3, 1, 0, 0, 1, 1, 0, 0, 2, 2, 0, 0, a, 0, 0, b])
    data, place = b"a b d f f a\n", b" partition 1 group 2 entry %d"
    for a, b, said in [
        (3, 4, b"yes: 6 pairs, 0 left out"),
        (3, 9, b"no: NoSuchPair" + place % 1),
        (3, 3, b"no: EntryOrder" + place % 1),
        (4, 3, b"no: EntryOrder" + place % 1),
        (3, 5, b"no: KeyDiffers" + place % 1),
        (5, 4, b"no: WrongPartition" + place % 0),
        (1, 4, b"no: KeyOrder" + place % 0),
        (2, 4, b"no: KeyOrder" + place % 0),
    ]:
        tells(harness, f"third group {a} {b}", WORDS, data, [b"a\t2\n", text], third(a, b), said)
    for output, at in [(b"b\t1\nd\t1\nf\t3\n", 10), (text + b"\n", 12), (text[:-2], 10), (b"b\t1\nd\t9\nf\t2\n", 6)]:
        differs = b"no: OutputDiffers partition 1 at %d" % at
        tells(harness, f"third group, output differs at {at}", WORDS, data, [b"a\t2\n", output], third(3, 4), differs)
        # the text of the second group is compared before the third group is read
        early = differs if at == 6 else b"no: NoSuchPair" + place % 1
        tells(harness, f"third group, which comes first at {at}", WORDS, data, [b"a\t2\n", output], third(3, 9), early)
    for output, at in [(ABA[0] + b"\n", 8), (ABA[0][:-1], 7), (b"a\t2\nb\t2\n", 6), (b"", 0), (b"a", 1)]:
        tells(harness, f"an output that differs at {at}", WORDS, b"a b a\n", [output], of_words(1, 6, GOOD), b"no: OutputDiffers partition 0 at %d" % at)
    for kept, at in [(91, 80), (80, 80), (79, 76), (50, 48), (47, 44), (43, 40), (39, 32), (31, 28), (27, 24), (20, 20), (9, 8), (7, 0), (0, 0)]:
        tells(harness, f"cut to {kept}", WORDS, b"a b a\n", ABA, of_words(1, 6, GOOD)[:kept], b"no: Malformed at %d" % at)
    one = lambda p: [b"a\t1\n" if q == p else b"" for q in range(3)]
    for p, rest, said in [
        (0, [0, 1, 1, 0, 0, 0, 0, 0], b"no: WrongPartition partition 0 group 0 entry 0"),
        (1, [0, 0, 1, 1, 0, 0, 0, 0], b"yes: 1 pairs, 0 left out"),
        (2, [0, 0, 0, 0], b"no: OutputDiffers partition 2 at 0"),
        (3, [0, 0, 0, 0], b"no: Unnamed emitted 1 named 0"),
    ]:
        tells(harness, f"three partitions, {p}", WORDS, b"a\n", one(p), of_words(3, 2, rest), said)
    many = lambda at, entry: of_words(1, 260, [0, 1, 130, *(n for e in range(130) for n in (0, 0, entry if e == at else e))])
    text, whole = b"a " * 130, [b"a\t130\n"]
    tells(harness, "many entries", WORDS, text, whole, many(130, 0), b"yes: 130 pairs, 0 left out")
    for at in [61, 62, 63, 64, 65, 125, 126, 127, 128]:
        tells(harness, f"order at entry {at}", WORDS, text, whole, many(at, at - 1), b"no: EntryOrder partition 0 group 0 entry %d" % at)
        tells(harness, f"none at entry {at}", WORDS, text, whole, many(at, 130), b"no: NoSuchPair partition 0 group 0 entry %d" % at)
        tells(harness, f"cut at entry {at}", WORDS, text, whole, many(130, 0)[: 52 + 12 * at], b"no: Malformed at %d" % (52 + 12 * at))


def headers(harness):
    """One number of the header each, and what is told of it; and lists of left-out records."""
    for place, number, said in [
        (0, 2, b"OtherJob"),
        (1, 1, b"OtherJob"),
        (2, 4096, b"OtherJob"),
        (2, 4097, b"Malformed at 16"),
        (3, 2, b"OtherJob"),
        (3, 0, b"Malformed at 20"),
        (3, 1025, b"Malformed at 20"),
        (4, 63, b"OtherJob"),
        (5, 0, b"OtherInput"),
        (5, 2, b"OtherInput"),
        (5, 1025, b"Malformed at 28"),
        (6, 1, b"OtherInput"),
        (7, 7, b"OtherInput"),
        (8, 1, b"TooManySkips listed 1"),
        (8, 2**32 - 1, b"TooManySkips listed 4294967295"),
    ]:
        numbers = [1, 0, 0, 1, 64, 1, 0, 6, *GOOD]
        numbers[place] = number
        tells(harness, f"number {place} of the header {number}", WORDS, b"a b a\n", ABA, MAGIC + u32s(*numbers), b"no: " + said)
    for most, a, b, said in [
        (0, 0, 2, b"no: TooManySkips listed 3"),
        (2, 0, 2, b"no: TooManySkips listed 3"),
        (3, 0, 2, b"yes: 1 pairs, 3 left out\nleft out 0 0\nleft out 0 2\nleft out 0 3"),
        (3, 0, 0, b"no: SkipOrder skip 1"),
        (3, 2, 0, b"no: SkipOrder skip 1"),
        (3, 0, 3, b"no: SkipOrder skip 2"),
        (3, 0, 4, b"no: NoSuchRecord skip 1"),
        (3, 4, 4, b"no: NoSuchRecord skip 0"),
    ]:
        certificate = of_words(1, 10, [3, 0, a, 0, b, 0, 3, 1, 1, 0, 1, 0])
        tells(harness, f"left out {a} {b} of {most}", [*WORDS, "--max-skips", str(most)], b"a b\nc\nd\ne\n", [b"c\t1\n"], certificate, said)
    for most, listed, said in [
        (3, "0:0,0:1,0:1", b"SkipOrder"),
        (3, "0:0,0:2,0:1", b"SkipOrder"),
        (3, "0:0,0:1,0:4", b"NoSuchRecord"),
        (3, "0:0,0:1,1:0", b"NoSuchRecord"),
        (3, "0:0,0:4,0:3", b"NoSuchRecord"),
        (2, "0:9,0:9,0:9", b"TooManySkips"),
    ]:
        row(harness, f"three names {listed}", ["seq", *WORDS, "--split", "64", "--skips", listed, "--max-skips", str(most)], {"a": b"a\nb\nc\nd\n"}, status=2, err=b"mapred: " + said + b"\n", parts=[])
    large = b"a " * 100_000
    row(harness, "a group of 100,000", ["seq", *WORDS], {"a": large}, out=b"done: 1 files, 100000 pairs, 0 left out\n", parts=[b"a\t100000\n"])
    fewer = of_words(1, 200_000, [0, 1, 99_999]) + b"".join(u32s(0, 0, e) for e in range(99_999))
    tells(harness, "a group of 100,000, one left out", WORDS, large, [b"a\t99999\n"], fewer, b"no: Unnamed emitted 100000 named 99999")
    for parts in (1, 2, 1023, 1024):
        where = harness.run(["seq", *WORDS, "--keep-case", "--parts", str(parts), "--out", ".", "a"], {"a": b"a b c d \xff \xff\xfe \xc3\xa9\n\xff\n"})[3]
        got = harness.run(["check", *WORDS, "--keep-case", "--parts", str(parts), "--out", ".", "a"], cwd=where)
        harness.check(f"keys of high bytes, {parts} partitions", got[:3] == (0, b"yes: 8 pairs, 0 left out\n", b""), repr(got[:3]))
    lines = lambda literal: MAGIC + u32s(2, 0, 1) + literal + u32s(1, 64, 1, 0, 1, 0, 1, 1, 0, 0, 0)
    for literal, said in [(b"x", b"yes: 1 pairs, 0 left out"), (b"y", b"no: OtherJob")]:
        tells(harness, f"the literal {literal}", ["--job", "grep", "--literal", "x"], b"x", [b"x\t0:0\n"], lines(literal), said)


GROUPS = {"worked rows": worked_rows, "certificates": certificates, "refusals": refusals, "places of faults": places_of_faults, "headers": headers, "changed bytes": changes}
