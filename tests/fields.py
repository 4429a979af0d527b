"""Counts by a column: rows worked out by hand, with certificates byte for byte; results of another column; refusals; random logs
against awk, cut and sort; and what is written of it in verdicts."""
import os
import subprocess

from harness import parts_of, read_result as result_of, seeded, write_result
from merge import merged, run_shard, said
from plain import Request, produced
from rows import MAGIC, certificate_of, judged, judged_in_version_2, row
from running import ran
from verdicts import contents

BY_COLON = ["--job", "field", "--separator", ":"]
COLUMNS = {"a": b"a:b:\na:\n"}
# The second of these fields, in one partition and splits of 64 bytes: 82 bytes. The literal is `:2`.
CERTIFIED = MAGIC + bytes.fromhex(
    "00 00 00 05  00 00 00 00  00 00 00 02  3a 32"  # job, flags, the literal
    "00 00 00 01  00 00 00 40  00 00 00 01  00 00 00 00 00 00 00 08"  # partitions, bytes of a split, one file
    "00 00 00 00  00 00 00 02"  # no left-out record, two groups
    "00 00 00 01  00 00 00 00 00 00 00 01 00 00 00 00"
    "00 00 00 01  00 00 00 00 00 00 00 00 00 00 00 00"
)
TOLD = b"\t1\nb\t1\n"


def worked(harness):
    done = lambda pairs, left=0, parts=1: b"done: %d files, %d pairs, %d left out\n" % (parts, pairs, left)
    for number, text, pairs in ((1, b"a\t1\n", 1), (2, b"b\t1\n", 1), (3, b"\t1\n", 1), (4, b"", 0), (65535, b"", 0)):
        row(harness, f"field {number} of a:b:", ["seq", *BY_COLON, "--field", str(number)], {"a": b"a:b:\n"}, out=done(pairs), parts=[text])
        row(harness, f"field {number} of a:b: without a line's end", ["seq", *BY_COLON, "--field", str(number)], {"a": b"a:b:"}, out=done(pairs), parts=[text])
    for number, text, pairs in ((1, b"a\t1\n", 1), (2, b"b:\t1\n", 1), (3, b"", 0)):
        row(harness, f"field {number} by gaps", ["seq", "--job", "field", "--field", str(number)], {"a": b" \t a\t \tb: \t\n"}, out=done(pairs), parts=[text])
    gaps = ["seq", "--job", "field", "--field", "1"]
    row(harness, "empty records by gaps", gaps, {"a": b"\n \n\t\n\n"}, out=done(0), parts=[b""])
    row(harness, "empty records with a separator", ["seq", *BY_COLON, "--field", "1"], {"a": b"\n\n:\n", "b": b"", "c": b"\n"}, out=done(4), parts=[b"\t4\n"])
    row(harness, "empty records have no second field", ["seq", *BY_COLON, "--field", "2"], {"a": b"\n\n"}, out=done(0), parts=[b""])
    row(harness, "a carriage return is of its field", ["seq", "--job", "field", "--field", "2"], {"a": b"a b\r\na b\n\r \r\n"}, out=done(3), parts=[b"\r\t1\nb\t1\nb\r\t1\n"])
    row(harness, "no other byte is a gap", gaps, {"a": b"a\x0b\x0c\xa0\x00b c\n"}, out=done(1), parts=[b"a\x0b\x0c\xa0\x00b\t1\n"])
    row(harness, "cases are kept", gaps, {"a": b"A\na\nA\n"}, out=done(3), parts=[b"A\t2\na\t1\n"])
    row(harness, "a key that holds a tab", ["seq", *BY_COLON, "--field", "1"], {"a": b"x\ty:z\nx\ty\n"}, out=done(2), parts=[b"x\ty\t2\n"])
    row(harness, "tabs separate", ["seq", "--job", "field", "--separator", "\\t", "--field", "2"], {"a": b"a\t\tb\n\tc d\n"}, out=done(2), parts=[b"\t1\nc d\t1\n"])
    row(harness, "a tab itself separates", ["seq", "--job", "field", "--separator", "\t", "--field", "2"], {"a": b"a\t\tb\n"}, out=done(1), parts=[b"\t1\n"])
    row(harness, "one space separates", ["seq", "--job", "field", "--separator", " ", "--field", "2"], {"a": b"a  b\n"}, out=done(1), parts=[b"\t1\n"])
    row(harness, "a hyphen separates", ["seq", "--job", "field", "--separator", "-", "--field", "2"], {"a": b"a-b\n"}, out=done(1), parts=[b"b\t1\n"])
    row(harness, "a backslash separates", ["seq", "--job", "field", "--separator", "\\", "--field", "2"], {"a": b"a\\b\n"}, out=done(1), parts=[b"b\t1\n"])
    row(harness, "a record left out", ["seq", *BY_COLON, "--field", "1", "--skips", "0:0", "--max-skips", "1"], COLUMNS, out=done(1, 1), parts=[b"a\t1\n"])
    row(harness, "the last of many fields", ["seq", *BY_COLON, "--field", "65535"], {"a": b":" * 65534 + b"x\n" + b":" * 65533 + b"\n"}, out=done(1), parts=[b"x\t1\n"])
    row(harness, "the last of many gaps", ["seq", "--job", "field", "--field", "65535"], {"a": b" a" * 65534 + b" b\n" + b" a" * 65534 + b" \n"}, out=done(1), parts=[b"b\t1\n"])


def certificates(harness):
    seq = ["seq", *BY_COLON, "--field", "2", "--split", "64"]
    row(harness, "a column certified", seq, COLUMNS, out=b"done: 1 files, 2 pairs, 0 left out\n", parts=[TOLD], certificate=CERTIFIED)
    got = harness.run([*seq, "--cert", "2", "--out", ".", *COLUMNS], COLUMNS)
    short = b"MRCERT2\n" + CERTIFIED[8:50] + bytes.fromhex("00 00 00 01  00 01 00  00 00 00 01  00 00 00")
    harness.check("a column certified in version 2", got[:3] == (0, b"done: 1 files, 2 pairs, 0 left out\n", b"") and result_of(got[3]) == ([TOLD], short), repr((got[:3], result_of(got[3]))))
    harness.check("the length of the certificate", len(CERTIFIED) == 82)


def refusals(harness):
    """Results of other columns, by other separators or of other jobs; lines that count otherwise."""
    told = lambda name, text, certificate, want, options=(*BY_COLON, "--field", "2"): answered(harness, name, text, certificate, want, list(options))
    told("the good one", TOLD, CERTIFIED, b"yes: 2 pairs, 0 left out")
    for name, options in [
        ("field 1", [*BY_COLON, "--field", "1"]),
        ("field 12", [*BY_COLON, "--field", "12"]),
        ("by gaps", ["--job", "field", "--field", "2"]),
        ("by another byte", ["--job", "field", "--separator", ";", "--field", "2"]),
        ("words", ["--job", "words"]),
        ("grep", ["--job", "grep", "--literal", ":2"]),
    ]:
        told(f"judged as {name}", TOLD, CERTIFIED, b"no: OtherJob", options)
    first = certificate_of((5, 0), b":1", (1, 64), [8], [], [[[(0, 0, 0), (0, 1, 0)]]])
    told("another column's result", b"a\t2\n", first, b"no: OtherJob")
    claimed = certificate_of((5, 0), b":2", (1, 64), [8], [], [[[(0, 0, 0), (0, 1, 0)]]])
    told("another column's text under this one's name", b"a\t2\n", claimed, b"no: KeyDiffers partition 0 group 0 entry 1")
    for text, at in [(b"\t2\nb\t1\n", 1), (b"b\t1\n", 0), (b"\t1\nb\r\t1\n", 4), (b"\t1\nb\t1\n\t1\n", 7), (b"\t01\nb\t1\n", 1), (b"1\nb\t1\n", 0)]:
        told(f"the text {text}", text, CERTIFIED, b"no: OutputDiffers partition 0 at %d" % at)
    empty = certificate_of((5, 0), b":2", (1, 64), [8], [], [[[(0, 0, 0)]]])
    told("an empty field that isn't named", b"b\t1\n", empty, b"no: Unnamed emitted 2 named 1")


def answered(harness, name, text, certificate, want, options):
    where = harness.directory(COLUMNS)
    write_result(where, [text], certificate)
    words = ["check", *options, "--split", "64"]
    got = judged(harness, words, COLUMNS, where)
    harness.check(f"told: {name}", got == (0 if want.startswith(b"yes") else 1, want + b"\n", b""), repr(got))
    judged_in_version_2(harness, f"told: {name}", words, COLUMNS, where, got)


def faults(harness):
    """Which numbers and separators are refused, and in which order."""
    refused = lambda name, options, fault: row(harness, name, ["seq", "--job", "field", *options], {"a": b"a b\n"}, status=2, err=b"mapred: " + fault + b"\n", parts=[])
    refused("no field", [], b"BadField")
    for number in ("0", "65536", "4294967295"):
        refused(f"field {number}", ["--field", number], b"BadField")
    for text in ("", "ab", "\n", "0", "5", "9", "é", "\\n", "\\\\", "\\t\\t", "\\x"):
        refused(f"separator {text!r}", ["--field", "1", "--separator", text], b"BadSeparator")
    refused("a number before a separator", ["--field", "0", "--separator", ""], b"BadField")
    refused("a separator before numbers", ["--field", "1", "--separator", "7", "--parts", "0"], b"BadSeparator")
    refused("by host", ["--field", "1", "--by-host"], b"option does not belong to this job")
    for option in (["--keep-case"], ["--fold"], ["--literal", "a"]):
        refused(f"{option[0]}", [*option, "--field", "0"], b"option does not belong to this job")
    for job in (["words"], ["grep", "--literal", "a"], ["url"], ["index"]):
        for option in (["--field", "1"], ["--separator", ":"], ["--field", "0"]):
            row(harness, f"{option} with {job[0]}", ["seq", "--job", *job, *option], {"a": b"a b\n"}, status=2, err=b"mapred: option does not belong to this job\n", parts=[])
    got = harness.run(["seq", "--job", "field", "--field", "4294967296", "--out", ".", "a"], {"a": b"a\n"})
    harness.check("a field that is no u32", got[0] == 2 and got[1] == b"" and b"4294967296" in got[2], repr(got[:3]))


def counted(harness, words, files):
    got = harness.run(["seq", "--job", "field", *words, "--out", ".", *files], files)
    harness.check(f"{words}", got[0] == 0, repr(got[:3]))
    return parts_of(got[3])[0]


def sorted_lines(counts):
    return b"".join(key + b"\t%d\n" % counts[key] for key in sorted(counts))


def tallied(lines):
    counts = {}
    for line in lines:
        counts[line] = counts.get(line, 0) + 1
    return sorted_lines(counts)


def as_other_tools(harness):
    """1,000 random logs: by gaps as awk counts, by a separator as awk and cut do."""
    rnd = seeded("fields")
    env = {**os.environ, "LC_ALL": "C"}
    for turn in range(1000):
        separator = rnd.choice([None, b":", b",", b";", b"\t", b"x", b"="])
        bytes_of = [b"a", b"b", b"A", b" ", b"\t", b"\r", b"7", b"\xc3", separator or b" ", separator or b"\t"]
        data = b"".join(b"".join(rnd.choices(bytes_of, k=rnd.randrange(14))) + b"\n" for _ in range(rnd.randrange(30)))
        number = rnd.choice([1, 1, 2, 2, 3, 4, 5])
        words = ["--field", str(number)] + ([] if separator is None else ["--separator", "\\t" if separator == b"\t" else separator.decode()])
        got = counted(harness, words, {"a": data})
        split = [] if separator is None else ["-F", "\\t" if separator == b"\t" else f"[{separator.decode()}]"]
        # A record without a byte has one field by a separator, and none by gaps.
        program = "{ if (NF == 0 && n == 1 && s) print; else if (NF >= n) print $n }"
        awk = subprocess.run(["awk", *split, "-v", f"n={number}", "-v", f"s={int(separator is not None)}", program], input=data, capture_output=True, env=env).stdout
        harness.check(f"{turn}: awk, {words}", got == tallied(awk.split(b"\n")[:-1]), repr((data, got, awk)))
        if separator is not None and number > 1:
            # cut prints an empty line where a line has some separators and fewer fields.
            enough = b"".join(line + b"\n" for line in data.split(b"\n")[:-1] if line.count(separator) >= number - 1)
            cut = subprocess.run(["cut", "-s", b"-d" + separator, f"-f{number}"], input=enough, capture_output=True, env=env).stdout
            harness.check(f"{turn}: cut, {words}", got == tallied(cut.split(b"\n")[:-1]), repr((data, got, cut)))


def by_workers(harness):
    rnd = seeded("fields by workers")
    files = [b"".join(b"%d:%s:%d\n" % (rnd.randrange(9), rnd.choice([b"", b"a", b"b c", b"a\t"]), rnd.randrange(3)) for _ in range(90)) for _ in range(5)]
    for number, separator, parts, split, workers, script in [(2, b":", 3, 100, 4, b""), (1, b"", 2, 64, 8, b"lose 1 after 2\nhold 0\n"), (3, b":", 1, 67108864, 2, b"")]:
        request = Request("field", parts, split, number=number, separator=separator)
        outputs, certificate, pairs = produced(request, files)
        name = f"field {number} by {workers} workers"
        status, out, err, where = ran(harness, request, files, script, ["--workers", str(workers), "--attempts", "16"])
        harness.check(name, (status, out, err) == (0, b"certified: %d files, %d pairs, 0 left out\n" % (parts, pairs), b""), f"{status} {out} {err}")
        harness.check(f"{name}: files", result_of(os.path.join(where, "out")) == (outputs, certificate.bytes()))


def shards(harness):
    """Verdicts of a column name it, and are merged with those of the same column alone."""
    second, first = Request("field", 1, 16, number=2, separator=b":"), Request("field", 1, 16, number=1, separator=b":")
    files = {"a": b"x:a\tb\n:\nlast:", "b": b"y:a\tb\nz:\n"}
    one, two = (run_shard(harness, second, [name], [data], []) for name, data in files.items())
    other = run_shard(harness, first, ["b"], [files["b"]], [])
    harness.check("the verdict of a column", contents(one)["verdict"].startswith(b"verdict 2\njob 5\nflags 0\nliteral :2\npartitions 1\nsplit 16\n"), repr(contents(one)["verdict"]))
    where = harness.directory()
    got = merged(harness, where, [one, two])
    outputs, _, pairs = produced(second, [*files.values()])
    harness.check("two shards of a column, with empty keys and tabs", got == (0, said(outputs, pairs, []), b"") and parts_of(where) == outputs == [b"\t3\na\tb\t2\n"], repr((got, parts_of(where))))
    got = merged(harness, harness.directory(), [one, other])
    harness.check("shards of two columns", got == (1, b"", b"mapred: OtherRequest shard 1\n"), repr(got))


GROUPS = {
    "fields": worked,
    "fields certified": certificates,
    "fields refused": refusals,
    "fields and separators refused": faults,
    "fields as awk and cut": as_other_tools,
    "fields by workers": by_workers,
    "fields in shards": shards,
}
