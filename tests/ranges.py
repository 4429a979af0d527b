"""Ranges of files as shards: random files cut at line ends, each shard executed, judged and merged, also by merges of merges, against
one execution over the whole files; each refusal by its text; and verdicts of version 1."""
from harness import parts_of, read_result, seeded
from merge import listing, merged, said
from plain import Request, named_records, produced
from producer import options_of, random_job
from verdicts import contents, note, range_note, spots_of, told_verdict

LOG = b"one a\ntwo\n\nthree a\nfour\n"
WORDS = Request("words", 2, 16)


def line_places(data):
    """The places where a line of the file begins, and its end behind a line feed."""
    return [0, *(at + 1 for at, byte in enumerate(data) if byte == 10)]


def borders_in(rnd, files):
    """Places at which the files, one behind another, are cut into shards."""
    places = [(file, place) for file, data in enumerate(files) for place in line_places(data)]
    return sorted(rnd.choice(places) for _ in range(rnd.choice([0, 1, 1, 2, 4]))) if places else []


def stretches(files, borders):
    """For each shard its ranges: (file, from, to), in order; `to` is the file's length where it isn't cut."""
    out = []
    for low, high in zip([(0, 0), *borders], [*borders, (len(files), 0)]):
        ranges = []
        for file in range(low[0], min(high[0] + 1, len(files))):
            first = low[1] if file == low[0] else 0
            last = high[1] if file == high[0] else len(files[file])
            if (first, last) != (0, 0) or file < high[0]:
                ranges.append((file, first, last))
        out.append(ranges)
    return out


def notes_of(files, ranges):
    return [range_note(f"f{file}", files[file][low:high], low, high < len(files[file])) for file, low, high in ranges]


def words_of(files, ranges):
    """The names of a shard's files on the command line, with where it begins and ends."""
    if not ranges:
        return []
    (_, low, _), (last, _, high) = ranges[0], ranges[-1]
    bounds = (["--from", str(low)] if low else []) + (["--to", str(high)] if high < len(files[last]) else [])
    return [*bounds, *(f"f{file}" for file, _, _ in ranges)]


def put_together(files, ranges):
    """The files that ranges make up, as one execution takes them."""
    return [files[file][low:high] for file, low, high in ranges]


def make_shard(harness, request, files, ranges, skips, by_program):
    """A shard, by the rules or by the program: its directory."""
    taken = put_together(files, ranges)
    outputs, _, pairs = produced(request, taken, skips)
    text = told_verdict(request, notes_of(files, ranges), outputs, spots_of(request, taken, skips), pairs)
    want = {**{f"part-{p:05}": data for p, data in enumerate(outputs)}, "verdict": text}
    if not by_program:
        return harness.directory(want)
    where = harness.directory({f"f{file}": data for file, data in enumerate(files)})
    asked = ["--out", ".", *words_of(files, ranges)]
    made = harness.run([*options_of(request, "seq", skips), *asked], cwd=where)
    judged = harness.run([*options_of(request, "check"), "--verdict", "verdict", *asked], cwd=where)
    got = {name: data for name, data in contents(where).items() if name in want}
    harness.check(f"shard {ranges} of {request}", (made[0], judged[0]) == (0, 0) and got == want, repr((made[:3], judged[:3], got, want)))
    return where


def random_ranges(harness):
    """2,000 random jobs over files that are cut into shards: what is merged, at once or by merges of merges, is what one execution over
    the whole files gives without the same records, and its verdict tells of all ranges."""
    rnd = seeded("ranges")
    seen = set()
    for turn in range(2000):
        request, files, _ = random_job(rnd)
        request.split = rnd.choice([3, 16, 100, 67108864])
        request.most = 4
        shards = stretches(files, borders_in(rnd, files))
        lists = []
        for ranges in shards:
            names = [name for name, *_ in named_records(put_together(files, ranges), request.split)]
            lists.append(sorted(rnd.sample(names, min(len(names), rnd.choice([0, 0, 1, 3])))))
        made = [make_shard(harness, request, files, ranges, skips, turn % 4 == 0) for ranges, skips in zip(shards, lists)]
        spots = left_out_of(request, files, shards, lists)
        names = sorted(name for name, file, start, _ in named_records(files, request.split) if (file, start) in set(spots))
        outputs, _, pairs = produced(request, files, names)
        got = merge_some(harness, rnd, made) if len(made) > 2 and turn % 2 else None
        where = harness.directory()
        answer = merged(harness, where, got or made)
        text = told_verdict(request, [line for ranges in shards for line in notes_of(files, ranges)], outputs, spots, pairs)
        want = {**{f"part-{p:05}": data for p, data in enumerate(outputs)}, "verdict": text}
        harness.check(f"{turn} {request} {shards}", answer == (0, said(outputs, pairs, names), b""), repr(answer))
        harness.check(f"{turn} {request} {shards}, files", contents(where) == want, repr((contents(where), want)))
        seen.add((request.job, bool(names), any(low > 0 for ranges in shards for _, low, _ in ranges)))
    harness.check("each job was cut inside a file, with and without left-out records", len(seen) == 20, repr(sorted(seen)))


def left_out_of(request, files, shards, lists):
    """Where the left-out records of all shards begin in the whole files."""
    return [
        (ranges[file][0], ranges[file][1] + start)
        for ranges, skips in zip(shards, lists)
        for file, start in spots_of(request, put_together(files, ranges), skips)
    ]


def merge_some(harness, rnd, shards):
    """Some neighbours merged to one."""
    low = rnd.randrange(len(shards) - 1)
    high = rnd.randint(low + 2, len(shards))
    where = harness.directory()
    got = merged(harness, where, shards[low:high], ["--partial"])
    harness.check("a part of the shards", got[0] == 0, repr(got))
    return [*shards[:low], where, *shards[high:]]


# Lines of the log begin at 0, 6, 10, 11 and 19, and it has 24 bytes.
RANGES = [
    (["--from", "25"], ["log"], b"PastEnd file 0"),
    (["--to", "25"], ["log"], b"PastEnd file 0"),
    (["--from", "24", "--to", "30"], ["log"], b"PastEnd file 0"),
    (["--from", "1"], ["log"], b"InsideALine file 0 byte 1"),
    (["--from", "5"], ["log"], b"InsideALine file 0 byte 5"),
    (["--to", "9"], ["log"], b"InsideALine file 0 byte 9"),
    (["--from", "1", "--to", "9"], ["log"], b"InsideALine file 0 byte 1"),
    (["--from", "1", "--to", "30"], ["log"], b"PastEnd file 0"),
    (["--to", "3"], ["log", "more"], b"InsideALine file 1 byte 3"),
    (["--to", "12"], ["log", "more"], b"PastEnd file 1"),
    (["--from", "1", "--to", "9"], ["log", "more"], b"InsideALine file 0 byte 1"),
    (["--from", "6", "--to", "5"], ["log"], b"BadRange"),
    (["--from", "1"], [], b"NoFileForRange"),
    (["--to", "1"], [], b"NoFileForRange"),
    (["--from", "1", "--to", "0", "--max-skips", "1001"], ["log"], b"BadSkips"),
    (["--from", "1", "--to", "0", "--parts", "0"], [], b"BadParts"),
]
TAKEN = [
    ([], LOG),
    (["--from", "0"], LOG),
    (["--from", "0", "--to", "24"], LOG),
    (["--to", "24"], LOG),
    (["--from", "6"], LOG[6:]),
    (["--from", "10", "--to", "11"], b"\n"),
    (["--from", "11", "--to", "19"], b"three a\n"),
    (["--from", "24"], b""),
    (["--from", "6", "--to", "6"], b""),
    (["--to", "0"], b""),
]


def surface(harness):
    """What a range takes, what is refused and in which order, for each command."""
    given = {"log": LOG, "more": b"no line end"}
    for bounds, files, text in RANGES:
        for command in ("seq", "run", "check"):
            where = harness.directory(given)
            got = harness.run([command, "--job", "words", "--out", ".", *bounds, *files], cwd=where)[:3]
            good = got == (2, b"", b"mapred: " + text + b"\n") and contents(where) == given
            harness.check(f"{command} {bounds} {files}", good, repr(got))
    for bounds, data in TAKEN:
        whole = harness.run(["seq", "--job", "grep", "--literal", "a", "--out", ".", "log"], {"log": data})
        for command in ("seq", "run"):
            where = harness.directory(given)
            asked = ["--job", "grep", "--literal", "a", "--out", ".", *bounds, "log"]
            got = harness.run([command, *asked], cwd=where)
            harness.check(f"{command} {bounds}", got[0] == 0 and read_result(where) == read_result(whole[3]), repr((got[:3], read_result(where))))
            judged = harness.run(["check", *asked], cwd=where)
            harness.check(f"{command} {bounds}, judged", judged[0] == 0, repr(judged[:3]))
    open_end(harness)


def open_end(harness):
    """The end of a file whose last line is open; a pipe, which can't be sought; and numbers that are none."""
    where = harness.directory({"open": b"a b\nc"})
    got = harness.run(["seq", "--job", "words", "--out", ".", "--from", "4", "--to", "5", "open"], cwd=where)
    harness.check("an open line at the file's end", got[0] == 0 and parts_of(where) == [b"c\t1\n"], repr(got[:3]))
    got = harness.run(["seq", "--job", "words", "--out", ".", "--from", "5", "open"], cwd=where)[:3]
    harness.check("behind an open line", got == (2, b"", b"mapred: InsideALine file 0 byte 5\n"), repr(got))
    for bounds, status, text in (([], 0, b""), (["--to", "4"], 0, b""), (["--from", "4"], 3, b"mapred: cannot read /dev/stdin\n")):
        got = harness.run(["seq", "--job", "words", "--out", ".", *bounds, "/dev/stdin"], cwd=where, input=b"a b\nc\n")[:3]
        harness.check(f"a pipe {bounds}", got[0] == status and got[2] == text, repr(got))
    for number in ("-1", "x", "", "18446744073709551616"):
        got = harness.run(["seq", "--job", "words", "--out", ".", f"--from={number}", "open"], cwd=where)[:3]
        harness.check(f"--from {number!r} is a fault of the line", got[:2] == (2, b"") and not got[2].startswith(b"mapred: "), repr(got))
    got = harness.run(["seq", "--job", "words", "--out", ".", "--from", "18446744073709551615", "open"], cwd=where)[:3]
    harness.check("the largest number", got == (2, b"", b"mapred: PastEnd file 0\n"), repr(got))


def three(harness):
    """The log in three shards: up to byte 6, up to byte 19, and its end with another file."""
    files = [LOG, b"a\n"]
    shards = [[(0, 0, 6)], [(0, 6, 19)], [(0, 19, 24), (1, 0, 2)]]
    return [make_shard(harness, WORDS, files, ranges, [], False) for ranges in shards]


def tiling(harness):
    """Shards that don't tile files, by their texts; what --partial lets pass."""
    one, two, last = three(harness)
    other = harness.directory({**contents(one), "verdict": contents(one)["verdict"].replace(b" f0\n", b" other\n")})
    rows = [
        ("all", [one, two, last], [], None),
        ("the last one forgotten", [one, two], [], b"NoEnd input 1"),
        ("the first one forgotten", [two, last], [], b"NoBeginning input 0"),
        ("one in between forgotten", [one, last], [], b"NoEnd input 0"),
        ("one in between forgotten", [one, last], ["--partial"], b"NoEnd input 0"),
        ("another order", [two, one, last], [], b"NoBeginning input 0"),
        ("another order", [two, one, last], ["--partial"], b"NoEnd input 0"),
        ("the first one twice", [one, one, two, last], [], b"NoEnd input 0"),
        ("all twice", [one, two, last, one, two, last], [], b"RepeatedInput input 4"),
        ("the middle twice", [one, two, two, last], [], b"NoEnd input 1"),
        ("the middle alone", [two], ["--partial"], None),
        ("the middle alone", [two], [], b"NoBeginning input 0"),
        ("the front", [one, two], ["--partial"], None),
        ("the end", [two, last], ["--partial"], None),
        ("the first one of another file", [other, two, last], [], b"NoEnd input 0"),
        ("the first one of another file", [other, two, last], ["--partial"], b"NoEnd input 0"),
    ]
    for name, shards, more, text in rows:
        where = harness.directory()
        got = merged(harness, where, shards, more)
        want = got[0] == 0 and got[2] == b"" if text is None else got == (1, b"", b"mapred: " + text + b"\n") and contents(where) == {}
        harness.check(f"{name} {more}", want, repr(got))
    grown(harness, one, two)


def grown(harness, one, two):
    """A log that grew since it was judged: its new lines go on behind what was its end."""
    was = make_shard(harness, WORDS, [LOG], [(0, 0, 24)], [], True)
    longer = LOG + b"five a\n"
    new = make_shard(harness, WORDS, [longer], [(0, 24, 31)], [], True)
    where = harness.directory()
    got = merged(harness, where, [was, new])
    outputs, _, pairs = produced(WORDS, [longer], [])
    harness.check("a log that grew", got == (0, said(outputs, pairs, []), b"") and parts_of(where) == outputs, repr(got))
    got = merged(harness, harness.directory(), [new], ["--partial"])
    harness.check("its new lines alone", got[0] == 0, repr(got))


def lists(harness):
    """The list of inputs tells a range by its bytes, with where it stands in its file."""
    shards = three(harness)
    digest = lambda data: range_note("", data).split()[1]
    told = [b"%s 0:6 f0\n" % digest(LOG[:6]), b"%s 6:19 f0\n" % digest(LOG[6:19]), b"%s 19:24 f0\n" % digest(LOG[19:]), listing([("f1", b"a\n")])]
    rows = [(told, None), ([told[0], *told[2:]], 1), ([listing([("f0", LOG)]), told[3]], 0), ([*told[:3], told[3].replace(b"  ", b" 0:2 ")], 3), ([told[0].replace(b":6 ", b":7 "), *told[1:]], 0)]
    for lines, line in rows:
        got = merged(harness, harness.directory({"list": b"".join(lines)}), shards, ["--inputs", "list"])
        good = got[0] == 0 if line is None else got == (1, b"", b"mapred: OtherInputs line %d\n" % line)
        harness.check(f"a list of ranges {lines}", good, repr(got))


def old_verdicts(harness):
    """Verdicts of version 1 are read where they leave out no record: of whole files, whose last line may be open."""
    request = Request("words", 1, 16)
    files = [("a", b"the cat\n"), ("b", b"a cat")]
    outputs, _, pairs = produced(request, [data for _, data in files], [])
    front = b"verdict 1\njob 1\nflags 0\nliteral \npartitions 1\nsplit 16\n"
    lines = [note(b"input", name, data) for name, data in files] + [note(b"output", "part-00000", outputs[0])]
    old = lambda more: front + b"".join(lines) + more + b"emitted %d\n" % pairs
    where = harness.directory()
    got = merged(harness, where, [harness.directory({"part-00000": outputs[0], "verdict": old(b"")})])
    new = told_verdict(request, [b"input %s 0 open %s\n" % (line[6:].split(b" ", 2)[0] + b" " + line.split()[2], line.split()[3]) for line in lines[:2]], outputs, [], pairs)
    harness.check("an old verdict is merged to a new one", got[0] == 0 and contents(where)["verdict"] == new, repr((got, contents(where), new)))
    got = merged(harness, harness.directory(), [harness.directory({"part-00000": outputs[0], "verdict": old(b"without 0 0\n")})])
    harness.check("an old verdict with left-out records", got == (1, b"", b"mapred: OldVerdict shard 0\n"), repr(got))
    other = harness.directory({"part-00000": outputs[0], "verdict": old(b"")})
    got = merged(harness, harness.directory(), [other, harness.directory({"part-00000": outputs[0], "verdict": old(b"without 0 0\n")})])
    harness.check("the second of two old verdicts", got == (1, b"", b"mapred: OldVerdict shard 1\n"), repr(got))
    for text, line in ((old(b"without x\n"), 9), (old(b"").replace(b"verdict 1\n", b"verdict 2\n"), 6), (old(b"").replace(b" b\n", b" 0 end b\n"), None)):
        got = merged(harness, harness.directory(), [harness.directory({"part-00000": outputs[0], "verdict": text})])
        good = got[0] == 0 if line is None else got == (1, b"", b"mapred: BadVerdict shard 0 line %d\n" % line)
        harness.check(f"an old verdict {text}", good, repr(got))


GROUPS = {"ranges merged": random_ranges, "ranges on the command line": surface, "ranges that don't tile": tiling, "lists of ranges": lists, "old verdicts": old_verdicts}
