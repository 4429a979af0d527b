"""The command line: faults with their texts and statuses, their order, and the texts of help."""
import os

from harness import HERE, parts_of
from rows import row


def faults(harness):
    words = ["seq", "--job", "words"]
    one = {"a": b"a\n"}
    row(harness, "no partitions", [*words, "--parts", "0"], one, status=2, err=b"mapred: BadParts\n", parts=[])
    row(harness, "too many partitions", [*words, "--parts", "1025"], one, status=2, err=b"mapred: BadParts\n", parts=[])
    row(harness, "a split of no bytes", [*words, "--split", "0"], one, status=2, err=b"mapred: BadSplitSize\n", parts=[])
    row(harness, "a split too large", [*words, "--split", "67108865"], one, status=2, err=b"mapred: BadSplitSize\n", parts=[])
    row(harness, "too many splits", [*words, "--split", "1"], {"a": b"a" * 1048577}, status=2, err=b"mapred: TooManySplits\n", parts=[])
    row(harness, "as many splits as may be", [*words, "--split", "1"], {"a": b"a" * 1048576}, out=b"done: 1 files, 1 pairs, 0 left out\n")
    other = b"mapred: option does not belong to this job\n"
    row(harness, "keep-case with grep", ["seq", "--job", "grep", "--literal", "a", "--keep-case"], one, status=2, err=other, parts=[])
    row(harness, "keep-case with url", ["seq", "--job", "url", "--keep-case"], one, status=2, err=other, parts=[])
    row(harness, "keep-case with index", ["seq", "--job", "index", "--keep-case"], one, out=b"done: 1 files, 1 pairs, 0 left out\n", parts=[b"a\t0\n"])
    for option in (["--fold"], ["--literal", "a"], ["--keep-case", "--literal", ""]):
        row(harness, f"{option} with index", ["seq", "--job", "index", *option], one, status=2, err=other, parts=[])
    row(harness, "fold with words", [*words, "--fold"], one, status=2, err=other, parts=[])
    row(harness, "literal with words", [*words, "--literal", "a"], one, status=2, err=other, parts=[])
    row(harness, "grep without a literal", ["seq", "--job", "grep"], one, status=2, err=b"mapred: EmptyLiteral\n", parts=[])
    row(harness, "a long literal", ["seq", "--job", "grep", "--literal", "a" * 4097], one, status=2, err=b"mapred: LongLiteral\n", parts=[])
    row(harness, "a literal of the longest", ["seq", "--job", "grep", "--literal", "a" * 4096], one, out=b"done: 1 files, 0 pairs, 0 left out\n", parts=[b""])
    row(harness, "a line feed in a literal", ["seq", "--job", "grep", "--literal", "a\nb"], one, status=2, err=b"mapred: LineEndInLiteral\n", parts=[])
    got = harness.run([*words, "--out", ".", "none"])
    harness.check("a missing file", got[:3] == (3, b"", b"mapred: cannot read none\n") and parts_of(got[3]) == [], repr(got))
    got = harness.run([*words, "--out", "none", "a"], one)
    harness.check("a missing directory", got[:3] == (3, b"", b"mapred: cannot write none/part-00000\n"), repr(got))
    got = harness.run([*words, "--out", ".", *["a"] * 1025], one)
    harness.check("too many files", got[:3] == (2, b"", b"mapred: TooManyFiles\n"), repr(got))
    for name in ("part-00000", "certificate"):
        full = harness.directory()
        os.symlink("/dev/full", os.path.join(full, name))
        got = harness.run([*words, "--out", ".", "a"], one, cwd=full)
        harness.check(f"a full disk at {name}", got[:3] == (3, b"", b"mapred: cannot write ./%s\n" % name.encode()), repr(got))
        stands = sorted(os.listdir(full))
        harness.check(f"the parts before {name}", stands == (["a", "part-00000"] if name == "part-00000" else ["a", "certificate", "part-00000"]), repr(stands))
    for line in (["seq", "--job", "words", "--bad", "--out", "."], ["seq", "--job", "sort", "--out", "."], ["seq", "--out", "."], ["seq", "--job", "words"], ["sort"], [], ["seq", "--job", "words", "--parts", "x", "--out", "."], ["seq", "--job", "words", "--parts", "4294967296", "--out", "."], ["check", "--job", "words"], ["seq", "--job", "words", "--out", ""], ["check", "--job", "words", "--skips", "0:0", "--out", "."], *(["check", "--job", "words", "--threads", number, "--out", "."] for number in ("0", "65", "x", "-1", "")), *([command, "--job", "words", "--cert", number, "--out", "."] for command in ("seq", "run") for number in ("0", "3", "x", "")), ["check", "--job", "words", "--cert", "1", "--out", "."]):
        got = harness.run(line)
        harness.check(f"a bad line {line}", got[0] == 2 and got[1] == b"" and got[2] != b"", repr(got))
    for line in (["--help"], ["seq", "--help"], ["check", "--help"], ["--version"]):
        got = harness.run(line)
        harness.check(f"an answer {line}", got[0] == 0 and got[1] != b"" and got[2] == b"", repr(got))
    got = harness.run(["seq", "--job", "words", "--out", ".", b"\xff"], {b"\xff": b"a\n"})
    harness.check("a word that is not UTF-8", got[:3] == (2, b"", b"mapred: a word of the command line is not UTF-8\n") and parts_of(got[3]) == [], repr(got))
    got = harness.run(["--version"])
    harness.check("the version tells the logic", b"Rattle logic dac8208d650f15bf" in got[1], repr(got))


def check_faults(harness):
    """What `check` can't judge: the request is tested first, then the input, then the files of the result."""
    words = ["check", "--job", "words", "--out", "."]
    one = {"a": b"a\n"}
    for name, options, files, status, said in [
        ("no partitions", ["--parts", "0"], ["none"], 2, b"BadParts"),
        ("a limit above 1000", ["--max-skips", "1001"], ["none"], 2, b"BadSkips"),
        ("an option of another job", ["--fold"], ["none"], 2, b"option does not belong to this job"),
        ("a missing input", [], ["a", "none"], 3, b"cannot read none"),
        ("too many files", [], ["a"] * 1025, 2, b"TooManyFiles"),
        ("a missing part", [], ["a"], 3, b"cannot read ./part-00000"),
    ]:
        got = harness.run([*words, *options, *files], one)
        harness.check("judging " + name, got[:3] == (status, b"", b"mapred: " + said + b"\n"), repr(got[:3]))
    got = harness.run([*words, "--split", "1", "a"], {"a": b"a" * 1048577})
    harness.check("judging too many splits", got[:3] == (2, b"", b"mapred: TooManySplits\n"), repr(got[:3]))
    where = harness.run(["seq", *words[1:], "--parts", "2", "a"], one)[3]
    os.remove(os.path.join(where, "part-00001"))
    os.mkdir(os.path.join(where, "part-00001"))
    got = harness.run([*words, "a"], cwd=where)
    harness.check("another job is told before a part that is a directory", got[:3] == (1, b"no: OtherJob\n", b""), repr(got[:3]))
    got = harness.run([*words, "--parts", "2", "a"], cwd=where)
    harness.check("a part that is a directory", got[:3] == (3, b"", b"mapred: cannot read ./part-00001\n"), repr(got[:3]))
    os.remove(os.path.join(where, "certificate"))
    got = harness.run([*words, "--parts", "2", "a"], cwd=where)
    harness.check("a missing certificate is told first", got[:3] == (3, b"", b"mapred: cannot read ./certificate\n"), repr(got[:3]))
    for more in ([], ["--threads", "2"], ["--verdict", "verdict"]):
        got = harness.run([*words, "a", "--parts", "3", *more], cwd=where)
        harness.check(f"a missing part is told before, {more}", got[:3] == (3, b"", b"mapred: cannot read ./part-00002\n"), repr(got[:3]))


def order_of_faults(harness):
    """Of several faults of one line the first is told: the line, an option of another job, the job, the numbers, the text of the skip
    list, the files in order, their limits, the fit of the splits, and the list over the input."""
    big = b"a" * 1048577
    grep, words, index = ["--job", "grep"], ["--job", "words"], ["--job", "index"]
    for said, status, line, files in [
        (b"option does not belong to this job", 2, [*grep, "--literal", "", "--keep-case", "--parts", "0", "--skips", "x"], ["none"]),
        (b"option does not belong to this job", 2, [*index, "--fold", "--parts", "0", "--skips", "x"], ["none"]),
        (b"EmptyLiteral", 2, [*grep, "--parts", "0", "--skips", "x"], ["none"]),
        (b"BadParts", 2, [*index, "--keep-case", "--parts", "0", "--split", "0", "--skips", "x"], ["none"]),
        (b"BadParts", 2, [*words, "--parts", "0", "--split", "0", "--max-skips", "1001", "--skips", "x"], ["none"]),
        (b"BadSplitSize", 2, [*words, "--split", "0", "--max-skips", "1001", "--skips", "x"], ["none"]),
        (b"BadSkips", 2, [*words, "--max-skips", "1001", "--skips", "x"], ["none"]),
        (b"bad skip list", 2, [*words, "--skips", "x"], ["none"]),
        (b"cannot read none", 3, [*words, "--split", "1", "--skips", "9:9,9:9"], ["big", "none", "other"]),
        (b"cannot read none", 3, [*words, "--skips", "9:9"], [*["a"] * 1025, "none"]),
        (b"TooManyFiles", 2, [*words, "--split", "1", "--skips", "9:9"], ["big", *["a"] * 1024]),
        (b"TooManySplits", 2, [*words, "--split", "1", "--skips", "9:9"], ["big"]),
        (b"TooManySkips", 2, [*words, "--skips", "9:9,9:9"], ["a"]),
        (b"NoSuchRecord", 2, [*words, "--skips", "9:9,9:9", "--max-skips", "2"], ["a"]),
        (b"SkipOrder", 2, [*words, "--skips", "0:0,0:0,9:9", "--max-skips", "3"], ["a"]),
    ]:
        got = harness.run(["seq", *line, "--out", "nowhere", *files], {"a": b"a\n", "big": big})
        harness.check(f"first of several: {said}", got[:3] == (status, b"", b"mapred: " + said + b"\n"), repr(got[:3]))
    for option in ("--parts", "--split", "--max-skips", "--out", "--job", "--skips"):
        value = {"--job": "words", "--out": ".", "--skips": "0:0"}.get(option, "1")
        line = ["seq", *([] if option == "--job" else ["--job", "words"]), *([] if option == "--out" else ["--out", "."])]
        got = harness.run([*line, option, value, option, value, "a"], {"a": b"a\n"})
        harness.check(f"{option} twice", got[0] == 2 and got[1] == b"" and b"cannot be used multiple times" in got[2] and parts_of(got[3]) == [], repr(got))


def help_texts(harness):
    """Help and version, byte for byte."""
    texts = os.path.join(HERE, "texts")
    for name, line in (("help", ["--help"]), ("seq", ["seq", "--help"]), ("run", ["run", "--help"]), ("check", ["check", "--help"]), ("merge", ["merge", "--help"]), ("verify", ["verify", "--help"]), ("explain", ["explain", "--help"]), ("picture", ["picture", "--help"]), ("version", ["--version"])):
        got = harness.run(line)
        said = got[1].replace(b"Usage: %s" % os.fsencode(os.path.basename(harness.program)), b"Usage: mapred")
        with open(os.path.join(texts, name + ".txt"), "rb") as file:
            harness.check(f"the text of {line}", (got[0], said, got[2]) == (0, file.read(), b""), repr(got[1]))
        wide = [text for text in said.split(b"\n") if len(text) > 80]
        harness.check(f"{line} fits in 80 columns", not wide, repr(wide))
        if line[1:]:
            for other in (["help", line[0]], [line[0], "-h"]):
                harness.check(f"{other} is {line}", harness.run(other)[:3] == got[:3])


GROUPS = {"faults": faults, "faults of check": check_faults, "order of faults": order_of_faults, "help": help_texts}
