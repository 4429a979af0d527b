"""`explain`: the records behind a count and how a result's lines compare, by the rules and by the program; each refusal by its text;
and each call failing in turn."""
import os
import re
import subprocess

from failing import shim, with_failing
from harness import parts_of, seeded
from hints import told
from plain import Request, emitted, named_records, partition_of, produced, text_of
from producer import random_job
from ranges import borders_in, put_together, stretches, words_of

FILES = {"a": b"The cat saw the dog.\n\nThe dog saw nothing.\n", "b": b"a cat\n--\nthe end"}
LOG = {"log": b'h "GET /x HTTP/1.0" 200\nno quotes\nh "GET http://B/y HTTP/1.0" 200\nh "POST /x"\n'}


def lines_in(text):
    """Its lines, each with its line feed; a carriage return ends none."""
    return re.findall(rb"[^\n]*\n|[^\n]+\Z", text)


def gives(request, name, number, start, line, key):
    """How many pairs of the record have the key, or, without a key, 0 if it has none; None if it isn't looked for."""
    pairs = emitted(request, number, start, line)
    if key is None:
        return 0 if not pairs else None
    return sum(own == key for own, _ in pairs) or None


def listing(request, files, ranges, skips, key, limit):
    """What is printed of the records that are looked for."""
    rows = {False: [], True: []}
    counts = {False: 0, True: 0}
    for name, number, start, line in named_records(put_together(files, ranges), request.split):
        pairs = gives(request, name, number, start, line, key)
        if pairs is not None:
            file, low, _ = ranges[number]
            offset = low + start
            left_out = name in skips
            counts[left_out] += pairs
            rows[left_out].append(b"left out:" * left_out + b"f%d:%d:%d:%s\n" % (file, files[file][:offset].count(b"\n") + 1, offset, line))
    label = b"nothing" if key is None else key
    out = b"".join(rows[False][:limit]) + b"%s: %d pairs in %d records\n" % (label, counts[False], len(rows[False]))
    if rows[True]:
        out += b"".join(rows[True][:limit]) + b"left out: %d pairs in %d records\n" % (counts[True], len(rows[True]))
    return out


def expected(request, files, skips, key):
    """The lines that a result has for the key."""
    values = [value for name, number, start, line in named_records(files, request.split) if name not in skips for own, value in emitted(request, number, start, line) if own == key]
    return lines_in(text_of(request, key, values)) if values else []


def answer(part, key, lines):
    """How the key's lines in a part compare with these."""
    own = [line for line in part.replace(b"\n", b"\n\0").split(b"\0") if b"\t" in line and line.rpartition(b"\t")[0] == key]
    for at, line in enumerate(own):
        if at >= len(lines) or line != lines[at]:
            return 1, b"differs: " + line.removesuffix(b"\n") + b"\n"
    return (0, b"agrees\n") if len(own) == len(lines) else (1, b"differs: no line\n")


def rows(harness):
    """What is printed, in the files' own words."""
    cat = ["--job", "words", "--key", "cat"]
    for name, words, files, want in [
        ("a word", cat, FILES, b"a:1:0:The cat saw the dog.\nb:1:0:a cat\ncat: 2 pairs in 2 records\n"),
        ("twice in a record", ["--job", "words", "--key", "the"], FILES, b"a:1:0:The cat saw the dog.\na:3:22:The dog saw nothing.\nb:3:9:the end\nthe: 4 pairs in 3 records\n"),
        ("the case kept", ["--job", "words", "--keep-case", "--key", "The"], FILES, b"a:1:0:The cat saw the dog.\na:3:22:The dog saw nothing.\nThe: 2 pairs in 2 records\n"),
        ("no such key", ["--job", "words", "--key", "ca"], FILES, b"ca: 0 pairs in 0 records\n"),
        ("a key that folding excludes", ["--job", "words", "--key", "The"], FILES, b"The: 0 pairs in 0 records\n"),
        ("no key", ["--job", "words", "--key", ""], FILES, b": 0 pairs in 0 records\n"),
        ("a limit", [*cat, "--limit", "1"], FILES, b"a:1:0:The cat saw the dog.\ncat: 2 pairs in 2 records\n"),
        ("a limit of none", [*cat, "--limit", "0"], FILES, b"cat: 2 pairs in 2 records\n"),
        ("records that give nothing", ["--job", "words", "--none"], FILES, b"a:2:21:\nb:2:6:--\nnothing: 0 pairs in 2 records\n"),
        ("lines without a resource", ["--job", "url", "--none"], LOG, b"log:2:24:no quotes\nnothing: 0 pairs in 1 records\n"),
        ("a resource", ["--job", "url", "--key", "/x"], LOG, b'log:1:0:h "GET /x HTTP/1.0" 200\nlog:4:66:h "POST /x"\n/x: 2 pairs in 2 records\n'),
        ("a line", ["--job", "grep", "--literal", "CAT", "--fold", "--key", "a cat"], FILES, b"b:1:0:a cat\na cat: 1 pairs in 1 records\n"),
        ("a line that begins with hyphens", ["--job", "grep", "--literal", "-", "--key", "--"], FILES, b"b:2:6:--\n--: 1 pairs in 1 records\n"),
        ("a word of an index", ["--job", "index", "--key", "cat"], FILES, b"a:1:0:The cat saw the dog.\nb:1:0:a cat\ncat: 2 pairs in 2 records\n"),
        ("left-out records", ["--job", "words", "--key", "dog", "--skips", "0:0", "--max-skips", "1"], FILES, b"a:3:22:The dog saw nothing.\ndog: 1 pairs in 1 records\nleft out:a:1:0:The cat saw the dog.\nleft out: 1 pairs in 1 records\n"),
        ("a left-out record that doesn't give it", ["--job", "words", "--key", "dog", "--skips", "0:1", "--max-skips", "1"], FILES, b"a:1:0:The cat saw the dog.\na:3:22:The dog saw nothing.\ndog: 2 pairs in 2 records\n"),
        ("from a byte on", [*cat, "--from", "21"], FILES, b"b:1:0:a cat\ncat: 1 pairs in 1 records\n"),
        ("lines of the whole file", ["--job", "words", "--key", "dog", "--from", "22"], FILES, b"a:3:22:The dog saw nothing.\ndog: 1 pairs in 1 records\n"),
        ("up to a byte", ["--job", "words", "--key", "the", "--to", "6"], FILES, b"a:1:0:The cat saw the dog.\na:3:22:The dog saw nothing.\nthe: 3 pairs in 2 records\n"),
        ("no files", cat, {}, b"cat: 0 pairs in 0 records\n"),
    ]:
        got = harness.run(["explain", *words, *files], files)
        harness.check(name, got[:3] == (0, want, b"") and sorted(os.listdir(got[3])) == sorted(files), repr(got[:3]))


def compared(harness):
    """The key's lines in a result: whole, changed, missing and too many, and of the wrong part."""
    made = harness.run(["seq", "--job", "words", "--parts", "2", "--out", ".", *FILES], FILES)[3]
    part = partition_of(Request("words", 2), b"cat")
    name = os.path.join(made, f"part-{part:05}")
    good, said = open(name, "rb").read(), b"cat: 2 pairs in 2 records\n"
    words = ["explain", "--job", "words", "--parts", "2", "--limit", "0", "--out", "."]
    for what, data, key, status, want in [
        ("the line", good, "cat", 0, b"agrees\n"),
        ("another count", good.replace(b"cat\t2\n", b"cat\t3\n"), "cat", 1, b"differs: cat\t3\n"),
        ("another count that isn't UTF-8", good.replace(b"cat\t2\n", b"cat\t\xff\n"), "cat", 1, b"differs: cat\t\xff\n"),
        ("no line", good.replace(b"cat\t2\n", b""), "cat", 1, b"differs: no line\n"),
        ("a second line", good + b"cat\t2\n", "cat", 1, b"differs: cat\t2\n"),
        ("an open line", b"cat\t2", "cat", 1, b"differs: cat\t2\n"),
        ("other keys", b"a cat\t1\ncat\t2\ncats\t7\n", "cat", 0, b"agrees\n"),
    ]:
        harness.directory({os.path.basename(name): data}, made)
        got = harness.run([*words, "--key", key, *FILES], cwd=made)[:3]
        harness.check(what, got == (status, said + want, b""), repr(got))
    harness.directory({os.path.basename(name): good + b"ox\t1\n"}, made)
    own = partition_of(Request("words", 2), b"ox") == part
    got = harness.run([*words, "--key", "ox", *FILES], cwd=made)[:3]
    want = (1, b"ox: 0 pairs in 0 records\ndiffers: ox\t1\n", b"") if own else (0, b"ox: 0 pairs in 0 records\nagrees\n", b"")
    harness.check("a line of a key that isn't there", got == want, repr(got))
    for key in ("emu", "yak", "gnu"):
        got = harness.run([*words, "--key", key, *FILES], cwd=made)[:3]
        harness.check(f"{key} in neither place", got == (0, b"%s: 0 pairs in 0 records\nagrees\n" % key.encode(), b""), repr(got))
    os.remove(name)
    got = harness.run([*words, "--key", "cat", *FILES], cwd=made)[:3]
    harness.check("no part", got == (3, b"", b"mapred: cannot read ./part-%05d\n" % part), repr(got))
    before = {file: open(os.path.join(made, file), "rb").read() for file in os.listdir(made)}
    harness.run([*words, "--key", "dog", *FILES], cwd=made)
    harness.check("nothing is written", {file: open(os.path.join(made, file), "rb").read() for file in os.listdir(made)} == before)


def faults(harness):
    """Each refusal, before anything is printed, and in its order."""
    key = ["--key", "cat"]
    for name, words, status, text in [
        ("an option of another job", ["--job", "words", "--fold", *key, "none"], 2, b"option does not belong to this job"),
        ("no partitions", ["--job", "words", "--parts", "0", *key, "none"], 2, b"BadParts"),
        ("a bad list", ["--job", "words", "--skips", "x", *key, "none"], 2, b"bad skip list"),
        ("a missing file", ["--job", "words", *key, "--skips", "0:0", "none"], 3, b"cannot read none"),
        ("a record too many", ["--job", "words", *key, "--skips", "0:0", "a"], 2, b"TooManySkips"),
        ("no such record", ["--job", "words", *key, "--skips", "7:0", "--max-skips", "1", "a"], 2, b"NoSuchRecord"),
        ("records that don't rise", ["--job", "words", *key, "--skips", "0:1,0:0", "--max-skips", "2", "a"], 2, b"SkipOrder"),
        ("a range inside a line", ["--job", "words", *key, "--from", "2", "a"], 2, b"InsideALine file 0 byte 2"),
        ("a range behind the end", ["--job", "words", *key, "--from", "999", "a"], 2, b"PastEnd file 0"),
        ("a list before a part", ["--job", "words", *key, "--skips", "0:0", "--out", "none", "a"], 2, b"TooManySkips"),
        ("a missing part", ["--job", "words", *key, "--out", "none", "a"], 3, b"cannot read none/part-00000"),
    ]:
        got = harness.run(["explain", *words], FILES)[:3]
        harness.check(name, got == (status, b"", b"mapred: " + text + b"\n"), repr(got))
    for words in (["--job", "words", "a"], ["--key", "cat", "a"], ["--job", "words", "--key", "cat", "--none", "a"], ["--job", "words", "--none", "--out", ".", "a"], ["--job", "words", "--key", "cat", "--limit", "-1", "a"], ["--job", "words", "--key", "cat", "--limit", "x", "a"], ["--job", "words", "--key", "cat", "--out", "", "a"], ["--job", "words", "--key", "cat", "--cert", "2", "a"]):
        got = harness.run(["explain", *words], FILES)[:3]
        harness.check(f"{words} is a fault of the line", got[:2] == (2, b"") and got[2] != b"" and not got[2].startswith(b"mapred: "), repr(got))
    where = harness.directory(FILES)
    with open("/dev/full", "wb") as full:
        ran = subprocess.run([harness.program, "explain", "--job", "words", *key, "a"], cwd=where, stdout=full, stderr=subprocess.PIPE)
    harness.check("a full disk", (ran.returncode, ran.stderr) == (3, b"mapred: cannot write standard output\n"), repr(ran))
    folds = b"without --keep-case keys have no upper-case letters: give --key as the output writes it"
    told(harness, "a key that folding excludes", ["explain", "--job", "words", "--key", "Cat", "a"], 0, out=b"Cat: 0 pairs in 0 records\n", hint=folds, files=FILES)
    told(harness, "a folded key of an index", ["explain", "--job", "index", "--key", "Cat", "a"], 0, out=b"Cat: 0 pairs in 0 records\n", hint=folds, files=FILES)
    told(harness, "upper case where it is kept", ["explain", "--job", "words", "--keep-case", "--key", "Dog", "a"], 0, out=b"Dog: 0 pairs in 0 records\n", files=FILES)
    other = b"give the options and files that the result was made with, --parts, --by-host and --skips too"
    told(harness, "another result", ["explain", "--job", "words", "--key", "dog", "--limit", "0", "--out", ".", "a"], 1, out=b"dog: 2 pairs in 2 records\ndiffers: no line\n", hint=other, files={**FILES, "part-00000": b""})
    told(harness, "upper case in a line", ["explain", "--job", "grep", "--literal", "X", "--fold", "--key", "X", "a"], 0, out=b"X: 0 pairs in 0 records\n", files=FILES)


def random_calls(harness):
    """1,000 calls of all jobs, with ranges, left-out records, limits and results that are whole or changed."""
    rnd = seeded("explaining")
    seen = set()
    for turn in range(1000):
        request, files, _ = random_job(rnd)
        request.split, request.most = rnd.choice([3, 16, 100, 67108864]), 4
        ranges = rnd.choice(stretches(files, borders_in(rnd, files)))
        taken = put_together(files, ranges)
        records = named_records(taken, request.split)
        skips = sorted(rnd.sample([name for name, *_ in records], min(len(records), rnd.choice([0, 0, 1, 4]))))
        keys = sorted({key for _, number, start, line in records for key, _ in emitted(request, number, start, line)})
        key = rnd.choice([*rnd.sample(keys, min(len(keys), 4)), b"no such key", None])
        limit = rnd.choice([None, None, 0, 1, 3])
        want, status = listing(request, files, ranges, skips, key, limit), 0
        where = harness.directory({f"f{file}": data for file, data in enumerate(files)})
        words = ["explain", *request.options(), *words_of(files, ranges), *(["--skips", ",".join(f"{s}:{r}" for s, r in skips)] if skips else []), *(["--limit", str(limit)] if limit is not None else [])]
        words += ["--none"] if key is None else [b"--key=" + key]
        if key is not None and rnd.random() < 0.6:
            parts = produced(request, taken, skips)[0]
            own = partition_of(request, key)
            if rnd.random() < 0.5:
                parts[own] = changed(rnd, parts[own], key)
            harness.directory({f"part-{p:05}": data for p, data in enumerate(parts)}, where)
            status, text = answer(parts[own], key, expected(request, taken, skips, key))
            want, words = want + text, [*words, "--out", "."]
            seen.add(("answer", request.job, text[:8]))
        got = harness.run(words, cwd=where)[:3]
        harness.check(f"{turn} {request} {ranges} {skips} {key} {limit}", got == (status, want, b""), repr((got, want)))
        seen.add((request.job, key is None, b"left out:" in want))
    harness.check("each job was met with keys, without, with left-out records, agreeing and differing", len(seen) == 30, repr(sorted(map(repr, seen))))


def changed(rnd, part, key):
    """A part with a line of the key changed, dropped or added, or with a byte changed anywhere."""
    lines = lines_in(part)
    own = [at for at, line in enumerate(lines) if line.startswith(key + b"\t")]
    ways = [part + key + b"\t1\n", key + b"\t0\n" + part]
    if own:
        at = rnd.choice(own)
        ways += [b"".join(lines[:at] + lines[at + 1 :]), b"".join([*lines[:at], lines[at][:-1] + b"7\n", *lines[at + 1 :]])]
    if part:
        at = rnd.randrange(len(part))
        ways.append(part[:at] + bytes([rnd.randrange(256)]) + part[at + 1 :])
    return rnd.choice(ways)


def as_grep_says(harness):
    """The lines of `grep -n -b` for a literal, which are those that a search gives for its keys."""
    rnd = seeded("explain and grep")
    text = b"".join(rnd.choice([b"one two\n", b"three\n", b"\n", b"one\n"]) for _ in range(2000))
    where = harness.directory({"f": text})
    ran = subprocess.run(["grep", "-F", "-x", "-n", "-b", "-H", "one two", "f"], cwd=where, capture_output=True, env={"LC_ALL": "C"})
    got = harness.run(["explain", "--job", "grep", "--literal", "two", "--key", "one two", "f"], cwd=where)
    count = ran.stdout.count(b"\n")
    harness.check("grep's lines", got[:3] == (0, ran.stdout + b"one two: %d pairs in %d records\n" % (count, count), b""), repr(got[1][:200]))


def failing_calls(harness):
    """Each allocation, opening, read and write fails in turn: the fault is told, and no file changes."""
    library = shim(harness)
    if library is None:
        return
    parts = parts_of(harness.run(["seq", "--job", "words", "--from", "22", "--out", ".", *FILES], FILES)[3])
    given = {**FILES, "part-00000": parts[0]}
    words = ["explain", "--job", "words", "--key", "dog", "--from", "22", "--out", ".", *FILES]
    whole, _ = with_failing(harness, library, "none", words, given)
    harness.check("without a failing call", whole[:3] == (0, b"a:3:22:The dog saw nothing.\ndog: 1 pairs in 1 records\nagrees\n", b""), repr(whole))
    short, _ = with_failing(harness, library, "short 0", words, given)
    harness.check("a byte a call", short == whole, repr(short))
    for kind, status, text in (("malloc", 4, b"mapred: out of memory\n"), ("open", 3, b"mapred: cannot read "), ("read", 3, b"mapred: cannot read "), ("seek", 3, b"mapred: cannot read "), ("write", 3, b"mapred: cannot write standard output\n")):
        number, marked = 0, True
        while marked:
            number += 1
            got, marked = with_failing(harness, library, f"{kind} {number}", words, given)
            refused = got[0] == status and got[2].startswith(text) and got[3] == whole[3] and whole[1].startswith(got[1])
            harness.check(f"{kind} {number} fails", refused or (got == whole and (kind == "malloc" or not marked)), repr(got))
            harness.check(f"{kind} {number} fails before anything is printed", got == whole or kind in ("malloc", "write") or got[1] == b"", repr(got))
        harness.check(f"it comes to some {kind}", number > 1)


def in_pieces(rnd, key):
    """A file of many lines, some of them long, in few of which the key stands; some at borders of 64 KiB."""
    words = [b"the", b"of", b"a-b", b"x" * 40, b"--", b"\xc3\xa9t\xc3\xa9", b"GET", b'"GET /x HTTP/1.0"']
    out = bytearray()
    for _ in range(rnd.choice([1, 300, 4000, 6000])):
        border = 65536 - len(out) % 65536
        if border < 300 and rnd.random() < 0.3:
            out += b"y" * max(0, border - rnd.randint(0, len(key) + 2)) + key + rnd.choice([b"\n", b" z\n", b"\r\n"])
        elif rnd.random() < 0.002:
            out += rnd.choice([key, key + b" " + key, b"a" + key, key.upper(), b'h "GET ' + key + b' HTTP/1.0"', b"z " * rnd.choice([10, 40000]) + key]) + b"\n"
        else:
            out += b" ".join(rnd.choices(words, k=rnd.randint(0, 12))) + rnd.choice([b"\n", b"\n", b"\r\n", b"\n\n"])
    return bytes(out) if rnd.random() < 0.7 else bytes(out).removesuffix(b"\n")


def long_files(harness):
    """60 calls over files of many pieces: rare keys, at borders too. And each limit, in its order."""
    rnd = seeded("explaining long files")
    for turn in range(60):
        job = rnd.choice(["words", "index", "url", "grep"])
        key = rnd.choice([b"needle", b"q", b"/needle/1", b"the"]) if job in ("words", "index") else rnd.choice([b"/needle", b"needle of the", b"/x"])
        request = Request(job, rnd.choice([1, 3]), 67108864, literal=b"e" if job == "grep" else b"")
        files = [in_pieces(rnd, key) for _ in range(rnd.choice([1, 1, 2, 3]))]
        ranges = [(number, 0, len(data)) for number, data in enumerate(files)]
        limit = rnd.choice([None, None, 2])
        want = listing(request, files, ranges, [], key, limit)
        where = harness.directory({f"f{number}": data for number, data in enumerate(files)})
        words = ["explain", *request.options(), *(["--limit", str(limit)] if limit is not None else []), b"--key=" + key, *(f"f{number}" for number in range(len(files)))]
        got = harness.run(words, cwd=where)[:3]
        harness.check(f"{turn} {request} {key} {[len(data) for data in files]}", got == (0, want, b""), repr((got[1][-300:], want[-300:], got[2])))
    where = harness.directory({"a": b"cat\n" * 300000, "b": b"cat"})
    for name, size in (("large", 1 << 30), ("larger", (1 << 30) + 1)):
        with open(os.path.join(where, name), "wb") as file:
            file.truncate(size)
    cat = ["explain", "--job", "words", "--key", "cat"]
    for name, words, status, text in [
        ("1,024 files", ["b"] * 1024, 0, b""),
        ("1,025 files", ["b"] * 1025, 2, b"TooManyFiles"),
        ("a byte too many", ["larger"], 2, b"TooLarge"),
        ("a byte too many in two files", ["large", "b"], 2, b"TooLarge"),
        ("too large before a missing file", ["larger", "none"], 2, b"TooLarge"),
        ("a missing file before too large", ["none", "larger"], 3, b"cannot read none"),
        ("a missing file before too many", ["b"] * 1025 + ["none"], 3, b"cannot read none"),
        ("too many splits", ["--split", "1", "a"], 2, b"TooManySplits"),
        ("too many files before too many splits", ["--split", "1", "a", *["b"] * 1025], 2, b"TooManyFiles"),
        ("a directory", ["."], 3, b"cannot read ."),
    ]:
        got = harness.run([*cat, *words], cwd=where)[:3]
        if status == 0:
            harness.check(name, got[0] == 0 and got[1].endswith(b"cat: 1024 pairs in 1024 records\n"), repr(got[1][-100:]))
        else:
            harness.check(name, got == (status, b"", b"mapred: " + text + b"\n"), repr(got))
    os.mkfifo(os.path.join(where, "pipe"))
    feed = subprocess.Popen(["sh", "-c", "printf 'a cat\\nno\\n' > pipe"], cwd=where)
    got = harness.run([*cat, "pipe"], cwd=where, timeout=60)[:3]
    feed.wait()
    harness.check("a pipe", got == (0, b"pipe:1:0:a cat\ncat: 1 pairs in 1 records\n", b""), repr(got))


def failing_pieces(harness):
    """Each allocation, opening, read and write fails in turn where files are read in pieces."""
    library = shim(harness)
    if library is None:
        return
    words = ["explain", "--job", "words", "--key", "dog", *FILES]
    whole, _ = with_failing(harness, library, "none", words, FILES)
    harness.check("pieces without a failing call", whole[:3] == (0, b"a:1:0:The cat saw the dog.\na:3:22:The dog saw nothing.\ndog: 2 pairs in 2 records\n", b""), repr(whole))
    short, _ = with_failing(harness, library, "short 0", words, FILES)
    harness.check("a byte a call, in pieces", short == whole, repr(short))
    for kind, status, text in (("malloc", 4, b"mapred: out of memory\n"), ("open", 3, b"mapred: cannot read "), ("read", 3, b"mapred: cannot read "), ("write", 3, b"mapred: cannot write standard output\n")):
        number, marked = 0, True
        while marked:
            number += 1
            got, marked = with_failing(harness, library, f"{kind} {number}", words, FILES)
            refused = got[0] == status and got[2].startswith(text) and got[3] == whole[3] and whole[1].startswith(got[1])
            harness.check(f"{kind} {number} fails, in pieces", refused or (got == whole and (kind == "malloc" or not marked)), repr(got))
        harness.check(f"it comes to some {kind}, in pieces", number > 1)


GROUPS = {"explain": rows, "explain and a result": compared, "faults of explain": faults, "explain, random calls": random_calls, "explain and grep": as_grep_says, "failing calls of explain": failing_calls, "explain, long files": long_files, "failing pieces of explain": failing_pieces}
