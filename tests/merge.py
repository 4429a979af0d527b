"""Shards that were judged apart, merged: parts byte for byte those of one execution over all files, whose verdict names all
inputs; each refusal with its text, and what it leaves; and merges of merges."""
import hashlib
import os
import resource
import shutil
import subprocess

from failing import shim, with_failing
from harness import parts_of, seeded
from plain import JOBS, Request, named_records, produced
from producer import options_of, random_job
from verdicts import contents, verdict_text

ONE = {"a": b"The cat saw the dog.\nThe dog saw nothing.\n"}
TWO = {"b": b"a cat\n\nthe end\n"}
THREE = {"c": TWO["b"]}
WORDS, THREE_PARTS = Request("words", 2, 16), Request("words", 3, 16)


def cuts(rnd, count):
    """A list of so many files, cut into 1 to 5 shards in order, some of them perhaps without a file."""
    places = sorted(rnd.randint(0, count) for _ in range(rnd.randint(0, 4)))
    return list(zip([0, *places], [*places, count]))


def shards_of(request, files, skips, ranges):
    """For each shard its names, its files and its left-out records, by the splits that it has."""
    out = []
    for low, high in ranges:
        first = sum((len(data) + request.split - 1) // request.split for data in files[:low])
        known = {name for name, *_ in named_records(files[low:high], request.split)}
        left = [(s - first, r) for s, r in skips if (s - first, r) in known]
        out.append(([f"f{i}" for i in range(low, high)], files[low:high], left))
    return out


def write_shard(harness, request, names, files, skips):
    """A shard as the rules make it: its parts, and the verdict on them. The directory."""
    outputs, _, pairs = produced(request, files, skips)
    text = verdict_text(request, zip(names, files), outputs, skips, pairs)
    return harness.directory({**{f"part-{p:05}": data for p, data in enumerate(outputs)}, "verdict": text})


def run_shard(harness, request, names, files, skips):
    """The same by the program: executed, and judged."""
    given = dict(zip(names, files))
    executed = harness.run([*options_of(request, "seq", skips), "--out", ".", *names], given)
    judged = harness.run([*options_of(request, "check"), "--out", ".", "--verdict", "verdict", *names], cwd=executed[3])
    harness.check(f"shard {names} of {request}", (executed[0], judged[0]) == (0, 0), repr((executed[:3], judged[:3])))
    return executed[3]


def merged(harness, where, shards, more=()):
    """One merge of the shards in these directories."""
    return harness.run(["merge", "--out", ".", *more, *(os.path.join(shard, "verdict") for shard in shards)], cwd=where)[:3]


def said(outputs, pairs, skips):
    return f"merged: {len(outputs)} files, {pairs} pairs, {len(skips)} left out\n".encode()


def result(outputs, verdict):
    """The files of a merged result."""
    return {**{f"part-{p:05}": data for p, data in enumerate(outputs)}, "verdict": verdict}


def random_jobs(harness):
    """Random jobs, cut into 1 to 5 shards: what is merged is what one execution over all files gives."""
    rnd = seeded("merge")
    seen = set()
    for turn in range(500):
        request, files, skips = random_job(rnd)
        request.split = rnd.choice([3, 16, 100, 67108864])
        names = [name for name, *_ in named_records(files, request.split)]
        skips = sorted(rnd.sample(names, min(len(names), rnd.choice([0, 0, 1, 4]))))
        request.most = len(skips)
        ranges = cuts(rnd, len(files))
        make = run_shard if turn % 5 == 0 else write_shard
        shards = [make(harness, request, *shard) for shard in shards_of(request, files, skips, ranges)]
        outputs, _, pairs = produced(request, files, skips)
        verdict = verdict_text(request, [(f"f{i}", data) for i, data in enumerate(files)], outputs, skips, pairs)
        where = harness.directory()
        got = merged(harness, where, shards)
        harness.check(f"{turn} {request} in {len(shards)}", got == (0, said(outputs, pairs, skips), b""), repr(got))
        harness.check(f"{turn} {request} in {len(shards)}, files", contents(where) == result(outputs, verdict), repr((contents(where), outputs)))
        seen.add((request.job, len(shards)))
    harness.check("each job was cut into 1 to 5 shards", seen == {(job, n) for job in JOBS for n in range(1, 6)}, repr(sorted(seen)))


def by_seq(harness):
    """The same against the program's own execution over all files, which is judged; and a merge of merges."""
    rnd = seeded("merge by seq")
    for turn in range(20):
        request, files, _ = random_job(rnd)
        files = (files + [b"the a 42\n", b"", b"a -", b"42 the\n"])[:4]
        request.most = 0
        names = [f"f{i}" for i in range(len(files))]
        whole = run_shard(harness, request, names, files, [])
        one, two, three = (run_shard(harness, request, *shard) for shard in shards_of(request, files, [], [(0, 1), (1, 3), (3, 4)]))
        flat, pair, nested = (harness.directory() for _ in range(3))
        got = [merged(harness, flat, [one, two, three]), merged(harness, pair, [one, two]), merged(harness, nested, [pair, three])]
        harness.check(f"{turn} {request}", [g[0] for g in got] == [0, 0, 0] and parts_of(flat) == parts_of(whole), repr(got))
        harness.check(f"{turn} {request}, its verdict is that of the whole", contents(flat)["verdict"] == contents(whole)["verdict"])
        harness.check(f"{turn} {request}, merges merge", contents(nested) == contents(flat))


def two_shards(harness):
    return [write_shard(harness, WORDS, [*given], [*given.values()], []) for given in (ONE, TWO)]


def changed(shard, name, old, new):
    """Puts other bytes in a file of a shard, the first that stand there."""
    path = os.path.join(shard, name)
    data = open(path, "rb").read()
    assert old in data, (old, data)
    with open(path, "wb") as file:
        file.write(data.replace(old, new, 1))


def renoted(shard, part, data):
    """Gives a shard another part, and its verdict the note of it: a judge who lies."""
    path = os.path.join(shard, part)
    old = open(path, "rb").read()
    note = lambda bytes_: b"%s %d %s\n" % (hashlib.sha256(bytes_).hexdigest().encode(), len(bytes_), part.encode())
    changed(shard, "verdict", note(old), note(data))
    with open(path, "wb") as file:
        file.write(data)


def edit(name, old, new):
    return lambda shards: changed(shards[1], name, old, new)


def other_request(shards):
    for shard in shards:
        changed(shard, "verdict", b"job 1\n", b"job 9\n")


def both_emit(shards):
    changed(shards[0], "verdict", b"emitted 9\n", b"emitted 18446744073709551615\n")


def both_tell_more(shards):
    for shard, pairs in zip(shards, (9, 4)):
        changed(shard, "verdict", b"emitted %d\n" % pairs, b"emitted %d\n" % (pairs + 1))


def one_less(shards):
    verdict = open(os.path.join(shards[1], "verdict"), "rb").read()
    last = [line for line in verdict.splitlines(True) if line.startswith(b"output ")][-1]
    changed(shards[1], "verdict", last, b"")


def far_record(shards):
    changed(shards[1], "verdict", b"emitted ", b"without 4294967295 0\nemitted ")


REFUSED = [
    ("a text that is no verdict", edit("verdict", b"verdict 2", b"verdict 3"), 1, b"BadVerdict shard 1 line 0"),
    ("a line too much", edit("verdict", b"emitted", b"more 1\nemitted"), 1, b"BadVerdict shard 1 line 9"),
    ("nothing at all", lambda shards: os.truncate(os.path.join(shards[0], "verdict"), 0), 1, b"BadVerdict shard 0 line 0"),
    ("no job of that number", other_request, 1, b"NoRequest"),
    ("another split size", edit("verdict", b"split 16\n", b"split 17\n"), 1, b"OtherRequest shard 1"),
    ("another number of partitions", edit("verdict", b"partitions 2\n", b"partitions 3\n"), 1, b"OtherRequest shard 1"),
    ("an output too few", one_less, 1, b"OtherOutputs shard 1"),
    ("an input that came before", edit("verdict", b" b\n", b" a\n"), 1, b"RepeatedInput input 1"),
    ("a record too far", far_record, 2, b"PlaceTooFar shard 1"),
    ("more pairs than 64 bits", both_emit, 2, b"TooManyPairs"),
    ("a part of another length", edit("part-00000", b"\n", b"\n\n"), 1, b"OtherPart shard 1 partition 0"),
    ("a part with another digit", edit("part-00001", b"\t1", b"\t2"), 1, b"OtherPart shard 1 partition 1"),
    ("a part that goes on", edit("part-00001", b"\n", b"\nzoo\t1\n"), 1, b"OtherPart shard 1 partition 1"),
    ("another part is told rather than its line", edit("part-00001", b"\t", b" "), 1, b"OtherPart shard 1 partition 1"),
    ("a part of another shard", lambda shards: shutil.copy(os.path.join(shards[0], "part-00001"), os.path.join(shards[1], "part-00001")), 1, b"OtherPart shard 1 partition 1"),
    ("no line end", lambda shards: renoted(shards[0], "part-00000", b"cat\t1"), 1, b"BadLine shard 0 partition 0 line 0"),
    ("no tab", lambda shards: renoted(shards[1], "part-00001", b"cat 1\n"), 1, b"BadLine shard 1 partition 1 line 0"),
    ("a number with a zero before it", lambda shards: renoted(shards[1], "part-00001", b"a\t1\ncat\t01\n"), 1, b"BadLine shard 1 partition 1 line 1"),
    ("a total past 64 bits", lambda shards: renoted(shards[1], "part-00001", b"cat\t18446744073709551616\n"), 1, b"BadLine shard 1 partition 1 line 0"),
    ("keys that fall", lambda shards: renoted(shards[1], "part-00001", b"dog\t1\ncat\t1\n"), 1, b"BadLine shard 1 partition 1 line 1"),
    ("a key twice", lambda shards: renoted(shards[1], "part-00001", b"cat\t1\ncat\t1\n"), 1, b"BadLine shard 1 partition 1 line 1"),
    ("a pair more than the lines state", edit("verdict", b"emitted 4\n", b"emitted 5\n"), 1, b"OtherTotal shard 1"),
    ("none of the pairs", edit("verdict", b"emitted 4\n", b"emitted 0\n"), 1, b"OtherTotal shard 1"),
    ("other pairs in both shards", both_tell_more, 1, b"OtherTotal shard 0"),
    ("a part without its lines", lambda shards: renoted(shards[0], "part-00000", b""), 1, b"OtherTotal shard 0"),
    ("a part with another count", lambda shards: renoted(shards[1], "part-00001", b"cat\t7\n"), 1, b"OtherTotal shard 1"),
    ("pairs past 64 bits", lambda shards: renoted(shards[1], "part-00001", b"a\t18446744073709551615\nb\t5\n"), 1, b"OtherTotal shard 1"),
    ("totals past 64 bits", lambda shards: [renoted(shard, "part-00001", b"cat\t9223372036854775808\n") for shard in shards], 2, b"TotalTooLarge partition 1"),
]


LEAST = b"verdict 2\njob 3\nflags 0\nliteral \npartitions 2\nsplit 1\nemitted 0\n"
# What stands in the least verdict, what is put in its place, and the line at which the text is refused.
BAD_TEXTS = [
    (b"verdict 2", b"verdict 3", 0),
    (b"job 3", b"job 03", 1),
    (b"job 3", b"job", 1),
    (b"literal \n", b"literal\n", 3),
    (b"partitions 2", b"partitions 4294967296", 4),
    (b"job 3\n", b"job 3\njob 3\n", 2),
    (b"split 1\n", b"split 1\nwithout 0\n", 6),
    (b"split 1\n", b"split 1\noutput 00 0 part-00000\n", 6),
    # In the verdict that these lines tell, the left-out record stands in this one.
    (b"emitted 0\n", b"emitted 0\nwithout 0 0\n", 6),
    (b"emitted 0\n", b"emitted 18446744073709551616\n", 6),
    (b"emitted 0\n", b"emitted 0", 6),
    (b"emitted 0\n", b"emitted 0\nx", 7),
    (LEAST, b"", 0),
]


def bad_texts(harness):
    """Texts that are no verdict, by the first line that isn't as it is to be; the least that is one lacks its outputs."""
    rows = [(LEAST.replace(old, new), b"BadVerdict shard 0 line %d" % line) for old, new, line in BAD_TEXTS]
    for text, told in [(LEAST, b"OtherOutputs shard 0"), *rows]:
        got = merged(harness, harness.directory(), [harness.directory({"verdict": text})])
        harness.check(f"the verdict {text}", got == (1, b"", b"mapred: " + told + b"\n"), repr(got))


def leaves(text, left, whole):
    """What is to stand behind a refusal: all as before where it comes before a part is read, and otherwise the partitions
    before whole, and an empty verdict; where a total is another, all parts."""
    if text.startswith(b"OtherTotal"):
        return left["verdict"] == b"" and set(left) == set(whole)
    if text.split()[0] not in (b"OtherPart", b"BadLine", b"TotalTooLarge"):
        return left == {"part-00000": b"old", "verdict": b"old"}
    return left["verdict"] == b"" and set(left) <= set(whole) and (b"partition 0" in text or left["part-00000"] == whole["part-00000"])


def refusals(harness):
    """Each cause by its text, and what it leaves."""
    merged(harness, whole := harness.directory(), two_shards(harness))
    for name, spoil, status, text in REFUSED:
        shards = two_shards(harness)
        spoil(shards)
        where = harness.directory({"part-00000": b"old", "verdict": b"old"})
        got = merged(harness, where, shards)
        harness.check(name, got == (status, b"", b"mapred: " + text + b"\n") and leaves(text, contents(where), contents(whole)), repr((got, contents(where))))
    shards = two_shards(harness)
    got = merged(harness, harness.directory(), [*shards, shards[0]])
    harness.check("a shard twice", got == (1, b"", b"mapred: RepeatedInput input 2\n"), repr(got))
    places(harness)
    pairs = sum(int(line.split(b"\t")[1]) for line in contents(shards[1])["part-00001"].splitlines())
    renoted(shards[1], "part-00000", b"")
    changed(shards[1], "verdict", b"emitted 4\n", b"emitted %d\n" % pairs)
    got = merged(harness, harness.directory(), shards)
    harness.check("who lies about a part and its pairs is believed: the merge tests that verdicts and parts agree", got[0] == 0, repr(got))


def places(harness):
    """Places in a file of the shard move; one in a file that the shard doesn't have is refused, in whichever shard it stands."""
    lines = Request("grep", 1, 16, literal=b"cat")
    for liar, told in [(0, b"0"), (1, b"1")]:
        shards = [write_shard(harness, lines, [*given], [*given.values()], []) for given in (ONE, TWO)]
        where = harness.directory()
        got = merged(harness, where, shards)
        text = b"The cat saw the dog.\t0:0\na cat\t1:0\n"
        harness.check("places move by the files before", got[0] == 0 and parts_of(where) == [text], repr((got, parts_of(where))))
        renoted(shards[liar], "part-00000", contents(shards[liar])["part-00000"].replace(b"\t0:0", b"\t1:0"))
        got = merged(harness, harness.directory(), shards)
        harness.check("a file that its shard doesn't have", got == (1, b"", b"mapred: NoSuchFile shard " + told + b" partition 0\n"), repr(got))


def files(harness):
    """Files that can't be read or written."""
    for gone in ("verdict", "part-00001"):
        shards = two_shards(harness)
        path = os.path.join(shards[1], gone)
        os.remove(path)
        where = harness.directory()
        got = merged(harness, where, shards)
        left = contents(where).get("verdict") if gone == "verdict" else contents(where)["verdict"] or None
        harness.check(f"no {gone}", got == (3, b"", f"mapred: cannot read {path}\n".encode()) and left is None, repr(got))
    shards = two_shards(harness)
    where = harness.directory()
    os.mkdir(os.path.join(where, "part-00001"))
    got = merged(harness, where, shards)
    verdict = open(os.path.join(where, "verdict"), "rb").read()
    harness.check("a part that can't be written", got == (3, b"", b"mapred: cannot write ./part-00001\n") and verdict == b"", repr((got, verdict)))
    got = harness.run(["merge", "--out", "missing", *(os.path.join(shard, "verdict") for shard in shards)], cwd=harness.directory())[:3]
    harness.check("no directory", got == (3, b"", b"mapred: cannot write missing/verdict\n"), repr(got))
    got = harness.run(["merge", "--out", "."], cwd=harness.directory())[:3]
    harness.check("no verdict is a fault of the line", got[:2] == (2, b""), repr(got))
    over_a_shard(harness)


def in_both(name, old, new):
    """The same change in the second and the third shard."""
    return lambda shards: [changed(shard, name, old, new) for shard in shards[1:]]


def with_three_parts(shards):
    """The second shard is made with another number of partitions than the others."""
    outputs, _, pairs = produced(THREE_PARTS, [*TWO.values()], [])
    for name, data in result(outputs, verdict_text(THREE_PARTS, TWO.items(), outputs, [], pairs)).items():
        with open(os.path.join(shards[1], name), "wb") as file:
            file.write(data)


def first_and_other(first, *others):
    """Several changes."""
    return lambda shards: [spoil(shards) for spoil in (first, *others)]


# Of several faults the first is told: of one kind that of the first shard, of several kinds that which is tested first.
FIRST_FAULTS = [
    ("two texts that are no verdicts", in_both("verdict", b"verdict 2", b"verdict 3"), b"BadVerdict shard 1 line 0"),
    ("two other requests", in_both("verdict", b"split 16\n", b"split 17\n"), b"OtherRequest shard 1"),
    ("two parts that are others", in_both("part-00001", b"\t1", b"\t2"), b"OtherPart shard 1 partition 1"),
    ("two parts of which the first shard's is of a later partition", first_and_other(edit("part-00001", b"\t1", b"\t2"), lambda shards: changed(shards[2], "part-00000", b"\t1", b"\t2")), b"OtherPart shard 2 partition 0"),
    ("another number of partitions", with_three_parts, b"OtherRequest shard 1"),
    ("an output too few, and before it another request", first_and_other(one_less, lambda shards: changed(shards[2], "verdict", b"split 16\n", b"split 17\n")), b"OtherRequest shard 2"),
    ("an output too few, and an input that came before", first_and_other(one_less, edit("verdict", b" b\n", b" a\n")), b"OtherOutputs shard 1"),
    ("an input that came before, and a part that is another", first_and_other(edit("verdict", b" b\n", b" a\n"), edit("part-00000", b"\t1", b"\t2")), b"RepeatedInput input 1"),
]


def first_faults(harness):
    """Three shards with several faults, and the folder of a shard beside earlier ones: the first is told, and nothing but the result
    changes."""
    for name, spoil, text in FIRST_FAULTS:
        shards = [write_shard(harness, WORDS, [*given], [*given.values()], []) for given in (ONE, TWO, THREE)]
        spoil(shards)
        before = [contents(shard) for shard in shards]
        got = merged(harness, harness.directory(), shards)
        harness.check(name, got == (1, b"", b"mapred: " + text + b"\n") and [contents(s) for s in shards] == before, repr(got))
    shards = two_shards(harness)
    other = os.path.join(harness.directory({"list": b""}), "list")
    rows = [(["--inputs", other], [], 1, b"OtherInputs line 0"), (["--inputs", "missing"], [], 3, b"cannot read missing"), ([], [shards[0]], 1, b"RepeatedInput input 2"), ([], [], 2, b"SameFolder shard 1")]
    before = [contents(shard) for shard in shards]
    for more, again, status, text in rows:
        got = merged(harness, shards[1], [*shards, *again], more)
        harness.check(f"into a shard's folder, {text}", got == (status, b"", b"mapred: " + text + b"\n") and [contents(s) for s in shards] == before, repr(got))


def over_a_shard(harness):
    """The folder of a shard is refused for the result, by its name and by others, and nothing in it changes."""
    shards = two_shards(harness)
    before = [contents(shard) for shard in shards]
    where = harness.directory()
    os.symlink(shards[1], os.path.join(where, "link"))
    verdicts = [os.path.join(shard, "verdict") for shard in shards]
    for out, shard in ((shards[1], 1), (shards[0] + "/", 0), (os.path.relpath(shards[1], where), 1), ("link", 1), (shards[0] + "/../" + os.path.basename(shards[0]), 0)):
        got = harness.run(["merge", "--out", out, *verdicts], cwd=where)[:3]
        harness.check(f"over a shard, {out}", got == (2, b"", b"mapred: SameFolder shard %d\n" % shard) and [contents(s) for s in shards] == before, repr(got))


def same_files(harness):
    """A file of the result that is one that is read, by its name or by a link, or that is written twice, is refused, and nothing
    changes; what goes to a device passes."""
    text = listing([*ONE.items(), *TWO.items()])
    rows = [
        ("the list as a part", lambda where, shards: harness.directory({"part-00001": text}, where), ["--inputs", "part-00001"], b"./part-00001"),
        ("the list as the verdict", lambda where, shards: harness.directory({"verdict": text}, where), ["--inputs", "verdict"], b"./verdict"),
        ("a link to a verdict", lambda where, shards: os.symlink(os.path.join(shards[1], "verdict"), os.path.join(where, "verdict")), [], b"./verdict"),
        ("a link to a shard's part", lambda where, shards: os.symlink(os.path.join(shards[0], "part-00001"), os.path.join(where, "part-00000")), [], b"./part-00000"),
        ("a second name of a shard's part", lambda where, shards: os.link(os.path.join(shards[1], "part-00000"), os.path.join(where, "part-00001")), [], b"./part-00001"),
        ("a link to a part that is to be", lambda where, shards: os.symlink("part-00000", os.path.join(where, "part-00001")), [], b"./part-00001"),
        ("a link from the verdict to a part", lambda where, shards: os.symlink("part-00001", os.path.join(where, "verdict")), [], b"./verdict"),
    ]
    for name, put, more, told in rows:
        shards, where = two_shards(harness), harness.directory({"part-00000": b"old"} if told != b"./part-00000" else {})
        put(where, shards)
        before = [sorted(os.listdir(where)), *map(contents, shards)]
        got = merged(harness, where, shards, more)
        harness.check(name, got == (2, b"", b"mapred: SameFile " + told + b"\n") and [sorted(os.listdir(where)), *map(contents, shards)] == before, repr(got))
    where = harness.directory({"part-00001": listing([*TWO.items()])})
    got = merged(harness, where, two_shards(harness), ["--inputs", "part-00001"])
    harness.check("another list is told first", got == (1, b"", b"mapred: OtherInputs line 0\n"), repr(got))
    where = harness.directory()
    for part in ("part-00000", "part-00001"):
        os.symlink("/dev/null", os.path.join(where, part))
    got = merged(harness, where, two_shards(harness))
    harness.check("a device may be written twice", got[0] == 0, repr(got))


def in_little_memory(harness, shards, size=32):
    """A merge in so many MiB of address space, 16 of which are the stacks of its two other threads, of shards: each the request, its
    part, the length of its one file, and how many pairs."""
    verdicts = []
    for number, (request, part, length, pairs) in enumerate(shards):
        text = verdict_text(request, [(f"f{number}", bytes(length))], [part], [], pairs)
        verdicts.append(os.path.join(harness.directory({"part-00000": part, "verdict": text}), "verdict"))
    where = harness.directory()
    limit = lambda: resource.setrlimit(resource.RLIMIT_AS, (size << 20, size << 20))
    ran = subprocess.run([harness.program, "merge", "--out", ".", *verdicts], cwd=where, capture_output=True, preexec_fn=limit)
    return (ran.returncode, ran.stdout, ran.stderr), contents(where).get("part-00000")


def little_memory(harness):
    """44 MB of parts, merged to as much in 32 MiB of address space."""
    count, shards, words = 1_000_000, 4, Request("words", 1, 16)
    numbered = lambda numbers: b"".join(b"%08d\t1\n" % number for number in numbers)
    got = in_little_memory(harness, [(words, numbered(range(shard, shards * count, shards)), 0, count) for shard in range(shards)])
    want = (0, b"merged: 1 files, %d pairs, 0 left out\n" % (shards * count), b"")
    harness.check("large parts in little memory", got == (want, numbered(range(shards * count))), repr(got[0]))


def equal_lines(harness):
    """33 MB of parts in 32 MiB of address space, in which almost all lines found are equal: a merge goes on within a key."""
    count, grep = 700_000, Request("grep", 1, 16, literal=b"a")
    places = lambda file: b"".join(b"a line\t%d:%d\n" % (file, 7 * number) for number in range(count))
    ends = lambda file: (b"a\t%d:4900000\n" % file, b"a maze\t%d:4900002\n" % file)
    front, back = zip(*map(ends, range(3)))
    parts = [ends(0)[0] + places(0) + ends(0)[1]] * 3
    got = in_little_memory(harness, [(grep, part, 4_900_009, count + 2) for part in parts])
    want = (0, b"merged: 1 files, %d pairs, 0 left out\n" % (3 * count + 6), b"")
    whole = b"".join(front) + b"".join(map(places, range(3))) + b"".join(back)
    harness.check("equal lines in little memory", got == (want, whole), repr(got[0]))


def lines_of(numbers):
    """A line for each number, as words has it."""
    return b"".join(b"%08d\t1\n" % number for number in numbers)


def falling_keys(harness):
    """Keys that fall in one of two parts of 17 MB are told in 32 MiB of address space, in each of the ways in which a merge may come
    to stand: the least of the last keys before the lines that were taken, or with no line before it. A job that counts, and grep."""
    count, words, grep = 1_500_000, Request("words", 1, 16), Request("grep", 1, 16, literal=b"0")
    good = lines_of(range(0, 2 * count, 2))
    placed = lambda text: text.replace(b"\t1\n", b"\t0:7\n")
    rising = lines_of(range(1, 200_001, 2))
    for name, behind in (("fall to the front", range(1, 2 * count, 2)), ("fall by one line", [150_000, *range(200_001, 2 * count, 2)])):
        for job, request, shape in (("words", words, bytes), ("grep", grep, placed)):
            for shard in (0, 1):
                shards = [(request, shape(good), 16 * count, count)]
                shards.insert(shard, (request, shape(rising + lines_of(behind)), 16 * count, count))
                got = in_little_memory(harness, shards)[0]
                want = (1, b"", b"mapred: BadLine shard %d partition 0 line 100000\n" % shard)
                harness.check(f"{job}, keys that {name} in shard {shard}", got == want, repr(got))


def long_lines(harness):
    """A line of 4 MiB, and two of them, in one of eight parts, behind its other lines or among them: the windows of the others don't
    grow by as much."""
    words = Request("words", 1, 16)
    for name, count, keys in (("a line", 250_000, [b"0"]), ("two lines", 250_000, [b"0", b"1"]), ("a line in the middle", 500_000, [b"02000000"])):
        long = [key + b"x" * (4 << 20) + b"\t1\n" for key in keys]
        parts = [lines_of(range(shard, 8 * count, 8)) for shard in range(8)]
        parts[3] = b"".join(sorted([*parts[3].splitlines(True), *long]))
        pairs = [part.count(b"\n") for part in parts]
        got = in_little_memory(harness, [(words, part, 9 << 20, number) for part, number in zip(parts, pairs)], 80)
        want = (0, b"merged: 1 files, %d pairs, 0 left out\n" % sum(pairs), b"")
        whole = b"".join(sorted(b"".join(parts).splitlines(True)))
        harness.check(f"{name} of 4 MiB in little memory", got == (want, whole), repr(got[0]))


def listing(given):
    """What sha256sum tells of files."""
    return b"".join(b"%s  %s\n" % (hashlib.sha256(data).hexdigest().encode(), name.encode()) for name, data in given)


def lists(harness):
    """The list of the inputs that are meant."""
    given = [*ONE.items(), *TWO.items()]
    rows = [
        ("the list of all", listing(given), 0, None),
        ("one too few", listing(given[:1]), 1, 1),
        ("none", b"", 1, 0),
        ("one too many", listing([*given, ("c", b"")]), 1, 2),
        ("another order", listing(given[::-1]), 1, 0),
        ("another name", listing([given[0], ("c", given[1][1])]), 1, 1),
        ("other bytes", listing([given[0], ("b", b"a dog\n")]), 1, 1),
        ("no last line end", listing(given)[:-1], 1, 1),
        ("an empty line behind", listing(given) + b"\n", 1, 2),
        ("a binary file's star", listing(given).replace(b"  b", b" *b"), 1, 1),
    ]
    for name, text, status, line in rows:
        where = harness.directory({"list": text})
        got = merged(harness, where, two_shards(harness), ["--inputs", "list"])
        if status == 0:
            harness.check(name, got[0] == 0 and "part-00001" in os.listdir(where), repr(got))
        else:
            harness.check(name, got == (status, b"", b"mapred: OtherInputs line %d\n" % line) and contents(where) == {"list": text}, repr(got))
    # sha256sum writes a backslash and a carriage return of a name as two characters each, and a backslash before such a line.
    odd, text = "a\\b\r", b"the cat\n"
    shard = write_shard(harness, WORDS, [odd], [text], [])
    told = b"\\%s  a\\\\b\\r\n" % hashlib.sha256(text).hexdigest().encode()
    got = merged(harness, harness.directory({"list": told}), [shard], ["--inputs", "list"])
    harness.check("a name with a backslash and a carriage return", got[0] == 0, repr(got))
    got = merged(harness, harness.directory({"list": listing([(odd, text)])}), [shard], ["--inputs", "list"])
    harness.check("the same, not escaped", got == (1, b"", b"mapred: OtherInputs line 0\n"), repr(got))
    got = merged(harness, where, two_shards(harness), ["--inputs", "missing"])
    harness.check("no list", got == (3, b"", b"mapred: cannot read missing\n"), repr(got))


def is_left(stands, whole, given):
    """Whether this is what a merge leaves that is cut short: all as it was; or an empty verdict, the first parts whole, the next one
    as it was or in part, and the others as they were; or all parts, and a beginning of the verdict."""
    parts = sorted(name for name in whole if name.startswith("part-"))
    made = next((at for at, name in enumerate(parts) if stands.get(name) != whole[name]), len(parts))
    as_was = all(stands.get(name) == given.get(name) for name in ["list", *parts[made + 1:]])
    begun = all(stands.get(name) == given.get(name) or (name in stands and whole[name].startswith(stands[name])) for name in parts[made:made + 1])
    verdict = whole["verdict"] if made == len(parts) else b""
    return stands == given or (as_was and begun and set(stands) <= set(whole) and verdict.startswith(stands["verdict"]))


def failing_calls(harness):
    """Each allocation, opening, read and write of a merge fails in turn: the answer is the refusal's own, and nothing else changes."""
    library = shim(harness)
    if library is None:
        return
    given = {"list": listing([*ONE.items(), *TWO.items()]), "part-00001": b"old", "verdict": b"old"}
    words = ["merge", "--out", ".", "--inputs", "list", *(os.path.join(shard, "verdict") for shard in two_shards(harness))]
    whole, _ = with_failing(harness, library, "none", words, given)
    harness.check("a merge without a failing call", whole[:3] == (0, b"merged: 2 files, 13 pairs, 0 left out\n", b""), repr(whole))
    short, _ = with_failing(harness, library, "short 0", words, given)
    harness.check("a merge a byte a call", short == whole, repr(short))
    for kind, status, said in (("malloc", 4, b"mapred: out of memory\n"), ("open", 3, b"mapred: cannot "), ("read", 3, b"mapred: cannot read "), ("write", 3, b"mapred: cannot write ")):
        number, marked = 0, True
        while marked:
            number += 1
            got, marked = with_failing(harness, library, f"{kind} {number}", words, given)
            failed = got
            refused = got[:2] == (status, b"") and got[2].startswith(said) and got[2].count(b"\n") == 1 and is_left(got[3], whole[3], given)
            unprinted = kind == "write" and got == (0, b"", b"", whole[3])
            # a thread that can't be made is done without
            harness.check(f"merge, {kind} {number} fails", refused or unprinted or (got == whole and (kind == "malloc" or not marked)), repr(got))
            if kind != "malloc" and marked:
                if not unprinted:
                    got, _ = with_failing(harness, library, f"{kind} {number}", words, given, FAIL_MEMORY="1")
                    harness.check(f"merge, {kind} {number} wants memory", got[:3] == (4, b"", b"mapred: out of memory\n") and is_left(got[3], whole[3], given), repr(got))
                want = whole if kind == "open" or unprinted else failed
                got, _ = with_failing(harness, library, f"{kind} {number}", words, given, FAIL_INTERRUPTED="1")
                harness.check(f"merge, {kind} {number} is interrupted", got == want, repr(got))
        harness.check(f"a merge comes to some {kind}", number > 1)


GROUPS = {"shards merged": random_jobs, "misspelled verdicts of shards": bad_texts, "shards and one execution": by_seq, "shards refused": refusals, "shards in files": files, "the first fault of shards": first_faults, "files that a merge reads and would write": same_files, "failing calls of a merge": failing_calls, "shards' inputs": lists, "shards in little memory": little_memory, "equal lines of shards": equal_lines, "keys that fall in shards": falling_keys, "long lines of shards": long_lines}
