"""`verify`: results tested against their verdicts again, made by the rules and by the program; each refusal by its text; random changes
of verdicts, parts and inputs; and each call failing in turn."""
import hashlib
import os
import resource

from failing import shim, with_failing
from harness import seeded
from plain import Request, named_records, produced
from producer import random_job
from ranges import borders_in, make_shard, notes_of, put_together, stretches
from verdicts import contents, note, range_note, spots_of, told_verdict

WORDS = Request("words", 2, 16)
FILES = {"a": b"The cat saw the dog.\nThe dog saw nothing.\n", "b": b"a cat"}


def verified(harness, where, more=()):
    """What one call says of the verdict in this directory."""
    return harness.run(["verify", *more, "verdict"], cwd=where)[:3]


def yes(parts, pairs, left_out):
    return 0, b"verified: %d files, %d pairs, %d left out\n" % (parts, pairs, left_out), b""


def no(text, status=1):
    return status, b"", b"mapred: " + text + b"\n"


def result(request=WORDS, files=FILES, skips=()):
    """The files of a result, with its verdict and its input; and how many pairs it has."""
    outputs, _, pairs = produced(request, [*files.values()], list(skips))
    spots = spots_of(request, [*files.values()], skips)
    text = told_verdict(request, [range_note(name, data) for name, data in files.items()], outputs, spots, pairs)
    return {**files, **{f"part-{p:05}": data for p, data in enumerate(outputs)}, "verdict": text}, pairs


def renoted(given, part, data):
    """The same with another part, and its note in the verdict: a judge who lies."""
    text = given["verdict"].replace(note(b"output", part, given[part]), note(b"output", part, data))
    assert text != given["verdict"] or data == given[part]
    return {**given, part: data, "verdict": text}


def told(given, old, new):
    """The same with another line in the verdict."""
    assert old in given["verdict"], (old, given["verdict"])
    return {**given, "verdict": given["verdict"].replace(old, new, 1)}


def rows(harness):
    """What is verified, and each refusal, in the order of the tests."""
    given, pairs = result()
    one, two = given["part-00000"], given["part-00001"]
    digest = hashlib.sha256(given["b"]).hexdigest().encode()
    good = yes(2, pairs, 0)
    other = renoted(given, "part-00000", one.replace(b"\t1\n", b"\t2\n", 1))
    table = [
        ("a result", given, [], good),
        ("a result with its input", given, ["--with-inputs"], good),
        ("a changed byte", {**given, "part-00001": two.replace(b"\t", b" ", 1)}, [], no(b"OtherPart partition 1")),
        ("a byte too many", {**given, "part-00000": one + b"\n"}, [], no(b"OtherPart partition 0")),
        ("a byte too few", {**given, "part-00000": one[:-1]}, [], no(b"OtherPart partition 0")),
        ("an empty part", {**given, "part-00001": b""}, [], no(b"OtherPart partition 1")),
        ("another count, with its note", other, [], no(b"OtherTotal")),
        ("other pairs", told(given, b"emitted %d" % pairs, b"emitted %d" % (pairs + 1)), [], no(b"OtherTotal")),
        ("a line without a tab", renoted(given, "part-00000", one + b"x\n"), [], no(b"OtherTotal")),
        ("a count with a zero in front", renoted(given, "part-00000", one.replace(b"\t1\n", b"\t01\n", 1)), [], no(b"OtherTotal")),
        ("an open line", renoted(given, "part-00000", one[:-1]), [], no(b"OtherTotal")),
        ("a count past 64 bits", renoted(given, "part-00000", one + b"x\t18446744073709551616\n"), [], no(b"OtherTotal")),
        ("a sum past 64 bits", renoted(given, "part-00000", one + b"x\t18446744073709551615\n"), [], no(b"OtherTotal")),
        ("another input, not asked for", {**given, "a": b"other\n"}, [], good),
        ("another input", {**given, "a": given["a"].replace(b"cat", b"dog")}, ["--with-inputs"], no(b"OtherInput input 0")),
        ("an input too short", {**given, "a": given["a"][:-1]}, ["--with-inputs"], no(b"OtherInput input 0")),
        ("an input that grew behind a line end", {**given, "a": given["a"] + b"more\n"}, ["--with-inputs"], good),
        ("an input whose open line grew", {**given, "b": given["b"] + b"s\n"}, ["--with-inputs"], no(b"OtherInput input 1")),
        ("two other inputs", {**given, "a": b"x\n", "b": b"y"}, ["--with-inputs"], no(b"OtherInput input 0")),
        ("another total and another input", {**told(given, b"emitted 1", b"emitted 2"), "a": b"x\n"}, ["--with-inputs"], no(b"OtherTotal")),
        ("another part and another total", {**told(given, b"emitted 1", b"emitted 2"), "part-00001": b""}, [], no(b"OtherPart partition 1")),
        ("a range past 64 bits", told(given, digest + b" 5 0", digest + b" 5 18446744073709551611"), ["--with-inputs"], no(b"OtherInput input 1")),
        ("a range of 2^64 - 1 bytes", told(given, digest + b" 5 0", digest + b" 18446744073709551615 0"), ["--with-inputs"], no(b"OtherInput input 1")),
        ("a name that is no text", told(given, b" open b\n", b" open \xff\n"), ["--with-inputs"], no(b"OtherInput input 1")),
        ("no verdict", {**given, "verdict": b"verdict 3\n"}, [], no(b"BadVerdict line 0")),
        ("an empty verdict", {**given, "verdict": b""}, [], no(b"BadVerdict line 0")),
        ("an old verdict with left-out records", told(told(given, b"verdict 2", b"verdict 1"), b"emitted", b"without 0 0\nemitted"), [], None),
        ("a job that there is not", told(given, b"job 1", b"job 9"), [], no(b"NoRequest")),
        ("a part too few", told(given, note(b"output", "part-00001", two), b""), [], no(b"OtherOutputs")),
        ("a part too many", told(given, b"emitted", note(b"output", "part-00002", b"") + b"emitted"), [], no(b"OtherOutputs")),
    ]
    for name, files, more, want in table:
        where = harness.directory(files)
        got = verified(harness, where, more)
        right = got == want if want else got[0] == 1 and got[1] == b"" and got[2].startswith(b"mapred: ")
        harness.check(name, right and contents(where) == files, repr((got, want)))
    for gone in ("verdict", "part-00000", "part-00001"):
        where = harness.directory({name: data for name, data in given.items() if name != gone})
        path = gone if gone == "verdict" else f"./{gone}"
        got = verified(harness, where)
        harness.check(f"no {gone}", got == no(f"cannot read {path}".encode(), 3), repr(got))
    where = harness.directory({name: data for name, data in given.items() if name != "b"})
    got = verified(harness, where), verified(harness, where, ["--with-inputs"])
    harness.check("no input", got == (good, no(b"cannot read b", 3)), repr(got))
    elsewhere(harness, given, good)


def elsewhere(harness, given, good):
    """A verdict apart from its parts, by its name and by --out; and faults of the line."""
    parts = {name: data for name, data in given.items() if name.startswith("part-")}
    where, apart = harness.directory({"verdict": given["verdict"]}), harness.directory(parts)
    got = harness.run(["verify", "--out", apart, "verdict"], cwd=where)[:3]
    harness.check("parts in another directory", got == good, repr(got))
    got = harness.run(["verify", "verdict"], cwd=where)[:3]
    harness.check("no parts beside the verdict", got == no(b"cannot read ./part-00000", 3), repr(got))
    whole = harness.directory({**parts, "verdict": given["verdict"]})
    got = harness.run(["verify", os.path.join(whole, "verdict")], cwd=where)[:3]
    harness.check("a verdict in another directory", got == good, repr(got))
    got = harness.run(["verify", "--out", whole, os.path.join(whole, "verdict")], cwd=where)[:3]
    harness.check("both", got == good, repr(got))
    for words in ([], ["verdict", "verdict"], ["--parts", "2", "verdict"], ["--out", "", "verdict"]):
        got = harness.run(["verify", *words], cwd=whole)[:3]
        harness.check(f"{words} is a fault of the line", got[:2] == (2, b"") and not got[2].startswith(b"mapred: "), repr(got))


def shard(harness, rnd, by_program):
    """A random shard of files that are cut at line ends: its request, directory, ranges, files, pairs, and left-out records."""
    request, files, _ = random_job(rnd)
    request.split, request.most = rnd.choice([3, 16, 100, 67108864]), 4
    ranges = rnd.choice(stretches(files, borders_in(rnd, files)))
    taken = put_together(files, ranges)
    names = [name for name, *_ in named_records(taken, request.split)]
    skips = sorted(rnd.sample(names, min(len(names), rnd.choice([0, 0, 1, 3]))))
    where = make_shard(harness, request, files, ranges, skips, by_program)
    harness.directory({f"f{file}": data for file, data in enumerate(files)}, where)
    return request, where, ranges, files, produced(request, taken, skips)[2], skips


def other_byte(rnd, data):
    """The bytes with one of them changed, and where."""
    at = rnd.randrange(len(data))
    return data[:at] + bytes([(data[at] + rnd.randint(1, 255)) % 256]) + data[at + 1 :], at


def change_part(rnd, where, text):
    """A part with a byte changed, cut off or appended: what is told."""
    part = rnd.randrange(text.count(b"\noutput "))
    path = os.path.join(where, f"part-{part:05}")
    data = open(path, "rb").read()
    ways = [data + bytes([rnd.randrange(256)])] + ([other_byte(rnd, data)[0], data[: rnd.randrange(len(data))]] if data else [])
    with open(path, "wb") as file:
        file.write(rnd.choice(ways))
    return b"OtherPart partition %d" % part


def change_input(rnd, where, ranges, files):
    """A range of an input with a byte changed, or cut off: what is told with the input. None where all ranges are empty."""
    some = [(place, *a_range) for place, a_range in enumerate(ranges) if a_range[1] < a_range[2]]
    if not some:
        return None
    place, file, low, high = rnd.choice(some)
    data = files[file]
    inside, _ = other_byte(rnd, data[low:high])
    changed = rnd.choice([data[:low] + inside + data[high:], data[: rnd.randrange(low, high)]])
    with open(os.path.join(where, f"f{file}"), "wb") as it:
        it.write(changed)
    # An earlier range of the same file may be cut short too.
    for before, (other, first, last) in enumerate(ranges[:place]):
        if other == file and (len(changed) < last or changed[first:last] != data[first:last]):
            return b"OtherInput input %d" % before
    return b"OtherInput input %d" % place


def change_verdict(rnd, where, text):
    """A digit of a digest or of a length, or the pairs, changed in the verdict: what is told, and whether of the input alone."""
    lines = text.split(b"\n")
    at = rnd.choice([i for i, line in enumerate(lines) if line.split(b" ")[0] in (b"input", b"output", b"emitted")])
    words = lines[at].split(b" ")
    if words[0] == b"emitted":
        words[1] = b"%d" % (int(words[1]) + rnd.randint(1, 9))
    elif rnd.randrange(2):
        spot = rnd.randrange(64)
        words[1] = words[1][:spot] + (b"0" if words[1][spot : spot + 1] != b"0" else b"f") + words[1][spot + 1 :]
    else:
        words[2] = b"%d" % (int(words[2]) + rnd.randint(1, 9))
    lines[at] = b" ".join(words)
    with open(os.path.join(where, "verdict"), "wb") as file:
        file.write(b"\n".join(lines))
    kind = [line.split(b" ")[0] for line in lines[: at + 1]]
    number = kind.count(kind[-1]) - 1
    return {b"emitted": b"OtherTotal", b"input": b"OtherInput input %d" % number, b"output": b"OtherPart partition %d" % number}[kind[-1]]


def changes(harness):
    """1,000 random changes of a verdict, a part or a range: each is found."""
    rnd = seeded("verifying")
    seen = set()
    for turn in range(1000):
        request, where, ranges, files, pairs, skips = shard(harness, rnd, turn % 10 == 0)
        good = yes(request.parts, pairs, len(skips))
        got = verified(harness, where, ["--with-inputs"])
        harness.check(f"{turn} {request} {ranges}", got == good, repr(got))
        text = open(os.path.join(where, "verdict"), "rb").read()
        way = turn % 3
        want = [lambda: change_part(rnd, where, text), lambda: change_input(rnd, where, ranges, files), lambda: change_verdict(rnd, where, text)][way]()
        if want is None:
            continue
        alone, both = verified(harness, where), verified(harness, where, ["--with-inputs"])
        # The lines of an index tell no pairs.
        passes = want == b"OtherTotal" and request.job == "index"
        of_input = want.startswith(b"OtherInput")
        harness.check(f"{turn} {request} {want}", both == (both if passes and both[0] == 0 else no(want)), repr((both, want)))
        harness.check(f"{turn} {request} {want}, without the input", alone[0] == (0 if passes or of_input else 1), repr((alone, want)))
        seen.add((way, request.job))
    harness.check("each job was met with each kind of change", len(seen) == 15, repr(sorted(seen)))


def failing_calls(harness):
    """Each allocation, opening, read and write fails in turn: the answer is the refusal's own, and no file changes."""
    library = shim(harness)
    if library is None:
        return
    given, pairs = result()
    words = ["verify", "--with-inputs", "verdict"]
    whole, _ = with_failing(harness, library, "none", words, given)
    harness.check("without a failing call", whole == (*yes(2, pairs, 0), dict(sorted(given.items()))), repr(whole))
    short, _ = with_failing(harness, library, "short 0", words, given)
    harness.check("a byte a call", short == whole, repr(short))
    for kind, status, text in (("malloc", 4, b"mapred: out of memory\n"), ("open", 3, b"mapred: cannot read "), ("read", 3, b"mapred: cannot read "), ("seek", 3, b"mapred: cannot read "), ("write", 0, b"")):
        number, marked = 0, True
        while marked:
            number += 1
            got, marked = with_failing(harness, library, f"{kind} {number}", words, given)
            refused = got[:2] == (status, b"") and got[2].startswith(text) and got[3] == whole[3]
            harness.check(f"{kind} {number} fails", refused or (got == whole and (kind == "malloc" or not marked)), repr(got))
            if kind in ("open", "read", "seek") and marked:
                got, _ = with_failing(harness, library, f"{kind} {number}", words, given, FAIL_MEMORY="1")
                harness.check(f"{kind} {number} wants memory", got[:3] == (4, b"", b"mapred: out of memory\n"), repr(got))
        harness.check(f"it comes to some {kind}", number > 1 or kind == "seek")


def large_range(harness):
    """A verdict that tells of a range of more than 1 GiB, in a file that has as much: it is refused in little memory."""
    given, _ = result()
    line = range_note("b", FILES["b"])
    text = told(given, line, line.replace(b" 5 0 ", b" 1200000000 0 "))["verdict"]
    where = harness.directory({**given, "verdict": text})
    os.truncate(os.path.join(where, "b"), 1_200_000_000)
    limit = lambda: resource.setrlimit(resource.RLIMIT_AS, (64 << 20, 64 << 20))
    got = harness.run(["verify", "--with-inputs", "verdict"], cwd=where, preexec_fn=limit)[:3]
    harness.check("a range of more than 1 GiB", got == no(b"OtherInput input 1"), repr(got))


def long_line(harness):
    """A part with a line of 20 MB in the middle."""
    line = b"a" * 20_000_000
    request = Request("grep", 1, 16, literal=b"a")
    outputs, pairs = [b"a\t0:0\n" + line + b"\t0:9\nb a\t0:5\n"], 3
    text = told_verdict(request, [range_note("f", b"x\n")], outputs, [], pairs)
    got = verified(harness, harness.directory({"part-00000": outputs[0], "verdict": text}))
    harness.check("a long line", got == yes(1, 3, 0), repr(got))


GROUPS = {"verify": rows, "verify, random changes": changes, "verify, a long line": long_line, "verify, a large range": large_range, "failing calls of verify": failing_calls}
