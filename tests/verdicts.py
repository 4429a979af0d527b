"""The verdict that `check --verdict FILE` writes: its text by hashlib and the rules of docs/FORMATS.md, and when none is written."""
import hashlib
import os

from harness import seeded, write_result
from plain import JOBS, judged, named_records, produced
from producer import options_of, random_job

TEXT = {"a": b"The cat saw the dog.\n\nThe dog saw nothing.\n", "b": b"a cat\n"}
WORDS = ["--job", "words", "--parts", "2", "--out", "."]


def note(word, name, data):
    """The line of a file."""
    return b"%s %s %d %s\n" % (word, hashlib.sha256(data).hexdigest().encode(), len(data), os.fsencode(name))


def range_note(name, data, start=0, goes_on=False):
    """The line of a range of an input, which begins there in its file; its file goes on behind it, or not."""
    ending = b"more" if goes_on else b"open" if data and not data.endswith(b"\n") else b"end"
    return b"input %s %d %d %s %s\n" % (hashlib.sha256(data).hexdigest().encode(), len(data), start, ending, os.fsencode(name))


def spots_of(request, files, skips):
    """Where the records begin that are left out: the number of the file, and the byte there."""
    left = set(skips)
    return [(file, start) for name, file, start, _ in named_records(files, request.split) if name in left]


def told_verdict(request, inputs, outputs, spots, pairs):
    """The verdict with these lines of inputs."""
    numbers = [("verdict", 2), ("job", JOBS[request.job]), ("flags", request.flags())]
    out = [b"%s %d\n" % (word.encode(), number) for word, number in numbers]
    out += [b"literal %s\n" % request.name(), b"partitions %d\nsplit %d\n" % (request.parts, request.split)]
    out += [*inputs, *(note(b"output", f"part-{p:05}", data) for p, data in enumerate(outputs))]
    out += [b"without %d %d\n" % spot for spot in spots]
    return b"".join([*out, b"emitted %d\n" % pairs])


def verdict_text(request, files, outputs, skips, pairs):
    """The verdict about whole files by their names, and about outputs."""
    files = list(files)
    spots = spots_of(request, [data for _, data in files], skips)
    return told_verdict(request, [range_note(name, data) for name, data in files], outputs, spots, pairs)


def contents(where):
    """All files of a directory by their names."""
    return {name: open(os.path.join(where, name), "rb").read() for name in os.listdir(where)}


def texts(harness):
    """A yes writes the text of its verdict and says what it says without, whatever the threads and the certificate's version;
    nothing else changes."""
    rnd = seeded("verdicts")
    seen = set()
    for turn in range(60):
        request, files, skips = random_job(rnd)
        outputs, certificate, pairs = produced(request, files, skips)
        names = {rnd.choice(["f{}", "a name {}", "./x{}"]).format(i): data for i, data in enumerate(files)}
        where = harness.directory(names)
        write_result(where, outputs, certificate.bytes())
        before = contents(where)
        words = [*options_of(request, "check"), "--out", ".", *names]
        want = (0, judged(request, files, outputs, certificate.bytes()).encode(), b"")
        harness.check(f"{turn} {request}, no verdict asked for", harness.run(words, cwd=where)[:3] == want and contents(where) == before)
        text = verdict_text(request, names.items(), outputs, skips, pairs)
        for threads, file, version in (("1", "verdict", 1), ("2", "another", 1), ("8", "verdict", 1), ("1", "verdict", 2), ("3", "another", 2)):
            certificate.version = version
            before["certificate"] = certificate.bytes()
            write_result(where, outputs, before["certificate"])
            got = harness.run([*words, "--threads", threads, "--verdict", file], cwd=where)[:3]
            before[file] = text
            harness.check(f"{turn} {request} by {threads}", got == want and contents(where) == before, repr((got, contents(where).get(file), text)))
        seen.add((request.job, bool(skips)))
    wanted = {(job, left) for job in JOBS for left in (False, True)}
    harness.check("each job was met, with and without left-out records", seen == wanted, repr(wanted - seen))


def not_written(harness):
    """A no and a fault write no verdict, also over an older one."""
    good = harness.run(["seq", *WORDS, *TEXT], TEXT)[3]
    given = contents(good)
    other = {**given, "part-00001": given["part-00001"] + b"x\t1\n"}
    for threads in ("1", "2"):
        for older in ({}, {"verdict": b"old"}):
            where = harness.directory({**other, **older})
            got = harness.run(["check", *WORDS, "--threads", threads, "--verdict", "verdict", *TEXT], cwd=where)[:3]
            harness.check(f"a no writes none, by {threads}, {older}", got[0] == 1 and got[1].startswith(b"no: ") and got[2] == b"" and contents(where) == {**other, **older}, repr(got))
            where = harness.directory({**given, **older})
            os.remove(os.path.join(where, "b"))
            stands = contents(where)
            got = harness.run(["check", *WORDS, "--threads", threads, "--verdict", "verdict", *TEXT], cwd=where)[:3]
            harness.check(f"nor does a fault, by {threads}, {older}", got == (3, b"", b"mapred: cannot read b\n") and contents(where) == stands, repr(got))


def refused(harness):
    """A verdict that can't be written, and names that it can't tell."""
    good = harness.run(["seq", *WORDS, *TEXT], TEXT)[3]
    given = contents(good)
    for file in ("missing/verdict", "."):
        got = harness.run(["check", *WORDS, "--verdict", file, *TEXT], cwd=good)[:3]
        harness.check(f"{file} can't be written", got == (3, b"", f"mapred: cannot write {file}\n".encode()) and contents(good) == given, repr(got))
    got = harness.run(["check", *WORDS, "--verdict", "", *TEXT], cwd=good)[:3]
    harness.check("an empty name is a fault of the line", got[:2] == (2, b"") and contents(good) == given, repr(got))
    strange = {"a": TEXT["a"], "b\nc": TEXT["b"], "\n": b""}
    where = harness.run(["seq", *WORDS, *strange], strange)[3]
    stands = contents(where)
    got = harness.run(["check", *WORDS, "--verdict", "verdict", *strange], cwd=where)[:3]
    harness.check("a line feed in a name", got == (2, b"", b"mapred: LineEndInName file 1\n") and contents(where) == stands, repr(got))
    got = harness.run(["check", *WORDS, *strange], cwd=where)[:3]
    harness.check("a line feed in a name, and no verdict", got[0] == 0 and contents(where) == stands, repr(got))
    for more, said in ((["--parts", "0"], b"BadParts"), (["missing", "\n"], b"LineEndInName file 1")):
        words = ["check", "--job", "words", "--out", ".", "--verdict", "verdict", *more, *([] if more[0] == "missing" else ["\n"])]
        got = harness.run(words, cwd=where)[:3]
        harness.check(f"{more} is told first", got == (2, b"", b"mapred: " + said + b"\n") and contents(where) == stands, repr(got))


def over_what_was_judged(harness):
    """A verdict takes the place of no file that is judged, by whatever name: nothing is written then, whatever the judge would say."""
    for file in ("b", "./b", "part-00000", "../%s/part-00001", "certificate", "to-b", "to-part", "other-b", "other-certificate"):
        where = harness.run(["seq", *WORDS, *TEXT], TEXT)[3]
        os.symlink("b", os.path.join(where, "to-b"))
        os.symlink(os.path.join(where, "part-00000"), os.path.join(where, "to-part"))
        os.link(os.path.join(where, "b"), os.path.join(where, "other-b"))
        os.link(os.path.join(where, "certificate"), os.path.join(where, "other-certificate"))
        file = file.replace("%s", os.path.basename(where))
        for data in (TEXT["a"], b"other\n"):
            harness.directory({"a": data}, where)
            stands = contents(where)
            got = harness.run(["check", *WORDS, "--verdict", file, *TEXT], cwd=where)[:3]
            harness.check(f"over {file}", got == (2, b"", b"mapred: SameFile %s\n" % file.encode()) and contents(where) == stands, repr(got))
    where = harness.run(["seq", *WORDS, *TEXT], TEXT)[3]
    os.remove(os.path.join(where, "certificate"))
    stands = contents(where)
    got = harness.run(["check", *WORDS, "--verdict", "./certificate", *TEXT], cwd=where)[:3]
    harness.check("over a certificate that isn't there", got == (2, b"", b"mapred: SameFile ./certificate\n") and contents(where) == stands, repr(got))
    where = harness.run(["seq", *WORDS, *TEXT], TEXT)[3]
    got = harness.run(["check", *WORDS, "--verdict", "/dev/stdout", *TEXT], cwd=where)[:3]
    harness.check("a verdict on standard output", got[0] == 0 and got[1].startswith(b"verdict 2\n") and got[1].endswith(b"yes: 11 pairs, 0 left out\n"), repr(got))


GROUPS = {"verdicts": texts, "verdicts not written": not_written, "verdicts refused": refused, "verdicts over what was judged": over_what_was_judged}
