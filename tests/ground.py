"""The crates at the ground, row by row: bytes, orders, records, hashes, jobs, texts, keys, inputs, plans, the index, stores
and files in memory.

They are reached through the small program `mr_rows_tests`, which the gate leaves beside the checked one: its first word
says what is asked. Expected values are worked out by hand, or stand in the rules."""
import lanes
from libraries import built, name, number, told

NEXT_WORD, CLASSES, FOLDS, CUT, KEYS_ORDER, HASH, RECORDS, ORDERS, PAIRS, COLUMN, PARTITIONS = range(8, 19)
JOBS, EMISSIONS, TEXTS, NUMBERS = range(30, 34)

ONE = "One"


def listed(data):
    """Bytes as the program tells them."""
    return str(list(data))


def at(file, offset):
    return f"At {{ file: {file}, offset: {offset} }}"


def named(split, rec, place):
    return name(split, rec, place)[0]


def record(split, rec):
    return f"RecordName {{ split: {split}, rec: {rec} }}"


def check_cases(harness, rows):
    for (case, wanted), line in zip(rows, lanes.answers([case for case, _ in rows])):
        harness.check(f"kernel {case[0]} of {case[1][:40]!r} and {case[2][:20]!r}", line == wanted, f"{line}, not {wanted}")


# Bytes.

WORDS = [
    (b"\x41\x62\x20\xc3\x84\x42\x0a", [(0, 2), (3, 6)]),
    (b"a" * 65, [(0, 65)]),
    (b"a b a\n", [(0, 1), (2, 3), (4, 5)]),
    (b" -\r\n", []),
    (b"", []),
]

RECORDS_OF_FILES = [
    (b"abc\nd", [(0, b"abc"), (4, b"d")]),
    (b"", []),
    (b"\n\n", [(0, b""), (1, b"")]),
    (b"\r\n", [(0, b"\r")]),
    (b"ab cd\ne\n", [(0, b"ab cd"), (6, b"e")]),
]

# Pairs of three numbers: how the first two compare, how all three do, and whether they and the values of the last two are
# one; the first says whether a value tells a place.
COMPARED = [
    ((0, 9, 9), (1, 0, 0), "Less Less false false"),
    ((1, 0, 9), (1, 1, 0), "Less Less false false"),
    ((1, 1, 1), (1, 1, 0), "Equal Greater false false"),
    ((0, 1, 0), (1, 0, 0), "Less Less false false"),
    ((1, 1, 2), (1, 2, 1), "Less Less false false"),
    ((0, 0, 0), (1, 0, 0), "Less Less false false"),
    ((1, 2, 1), (1, 2, 1), "Equal Equal true true"),
]


def bytes_and_orders(harness):
    rows = []
    for text, words in WORDS:
        starts = [0] + [end for _, end in words]
        for start, word in zip(starts, words + [None]):
            wanted = "None" if word is None else f"Some(Span {{ start: {word[0]}, end: {word[1]} }})"
            rows.append(((NEXT_WORD, text, b"x" * start), wanted))
    in_words = b"0123456789abcdefghijklmnopqrstuvwxyzABCDEFGHIJKLMNOPQRSTUVWXYZ" + bytes(range(128, 256))
    classes = ["true" if byte in in_words else "false" for byte in range(256)]
    rows.append(((CLASSES, bytes(range(256)), b""), " ".join(classes) + " "))
    folded = listed(b"@az[`az{\xc1\xda")
    rows.append(((FOLDS, b"@AZ[`az{\xc1\xda", b""), f"{folded} {folded}"))
    for text, wanted in [(b"a:b:c", (b"a", b"b:c")), (b":", (b"", b""))]:
        rows.append(((CUT, text, b""), f"Some(({listed(wanted[0])}, {listed(wanted[1])}))"))
    rows.append(((CUT, b"abc", b""), "None"))
    for first, second, wanted in [(b"a", b"aa", "Less"), (b"\x80", b"z", "Greater"), (b"the", b"the", "Equal")]:
        rows.append(((KEYS_ORDER, first, second), wanted))
    rows += [((ORDERS, bytes(first), bytes(second)), wanted) for first, second, wanted in COMPARED]
    for first, second, wanted in [(b"a\x09", b"b\x00", "Less"), (b"b\x01", b"b\x00", "Greater"), (b"b\x00", b"b\x00", "Equal"), (b"the\x00", b"the\x01", "Less")]:
        rows.append(((PAIRS, first, second), f"{wanted} Pair {{ key: {listed(first[:-1])}, value: One, name: {named(0, 0, first[-1])} }}"))
    values = [ONE, ONE, at(1, 7), at(2, 7), at(1, 4294967296), ONE]
    for count in range(8):
        rows.append(((COLUMN, b"", b"x" * count), "".join(value + "|" for value in values[:count]) + str(min(count, 6))))
    for file, records in RECORDS_OF_FILES:
        rows.append(((RECORDS, file, b""), str(len(records)) + "".join(f"|{start} {listed(text)}" for start, text in records)))
    check_cases(harness, rows)


def hashes(harness):
    rows = []
    for key, wanted in [(b"", 0xCBF29CE484222325), (b"a", 0xAF63DC4C8601EC8C), (b"foobar", 0x85944171F73967E8)]:
        rows.append(((HASH, key, b"x"), f"{wanted} 0"))
    for parts, wanted in [(3, 1), (4, 0), (1, 0)]:
        rows.append(((HASH, b"a", b"x" * parts), f"{0xAF63DC4C8601EC8C} {wanted}"))
    check_cases(harness, rows)
    # the hash starts odd and its factor is odd, so that the lowest bit changes just at each odd byte
    keys = [b"", b"a", b"b", b"the", b"cat", b"dog", b"/a", b"\xff\xfe\x00\x01", b"abcdefghijklmnopqrstuvwxyz"]
    for key, line in zip(keys, lanes.answers([(HASH, key, b"xx") for key in keys])):
        parity = sum(byte & 1 for byte in key) % 2
        harness.check(f"of two partitions that of {key!r}", line.split(" ")[1:] == [str(1 ^ parity)], line)


# Published hashes, and keys with these hosts.
HASHES = {b"": 0xCBF29CE484222325, b"a": 0xAF63DC4C8601EC8C, b"foobar": 0x85944171F73967E8}
HOSTS = {
    b"": b"/z| http://a/|http:/a|http:///a|https://:80|http://|http|ftp://a/x|shttp://a/||xhttp://a|http:a",
    b"a": b"http://a|http://a/x|HTTP://A:80/|hTtps://A?q|https://a#p|http://a:b@c/|https://a/http://b",
    b"foobar": b"http://foobar/|HTTPS://FooBar|http://FOOBAR:8080/x|https://foobar?a/b#c",
}


def partitions(harness):
    """Of two partitions those of no byte and of `foobar` are the second and the first; of three `a` has the second."""
    worked = [(b"http://A/y", 2, 0), (b"/z", 2, 1), (b"http://a/x", 3, 1), (b"http://foobar", 2, 0), (b"https://FOOBAR:1", 16, 8)]
    rows = [((PARTITIONS, key, b"x" * parts), f"{lanes.fnv(key) % parts} {wanted}") for key, parts, wanted in worked]
    for host, keys in HOSTS.items():
        for key in keys.split(b"|"):
            rows += [((PARTITIONS, key, b"x" * parts), f"{lanes.fnv(key) % parts} {HASHES[host] % parts}") for parts in (1, 2, 7, 1024)]
    check_cases(harness, rows)


# Jobs, texts and keys.


def jobs_and_texts(harness):
    rows = [
        ((JOBS, b"", b""), "EmptyLiteral"),
        ((JOBS, b"\n" * 4097, b""), "LongLiteral"),
        ((JOBS, b"a\nb", b""), "LineEndInLiteral"),
        ((JOBS, b"x" * 4096, b"fold"), "true false true false false false false true"),
    ]
    emitted = [(b"a", ONE), (b"bc", ONE), (b"f", at(1, 4)), (b"F", at(1, 4))]
    told_of = "".join(f"|({listed(key)}, {value})" for key, value in emitted)
    rows.append(((EMISSIONS, b"a bc", b"F"), f" true 0 false 4{told_of} true 0 false 8{told_of}{told_of}"))
    for key in (b"the", b"/a", b"", b"abc"):
        totals = b"%s\t2\n%s\t1\n%s\t2\n%s\t18446744073709551615\n" % (key, key, key, key)
        places = b"%s\t0:0\n%s\t12:4294967296\n" % (key, key)
        files = b"%s\t\n%s\t\n%s\t2,3,10\n%s\t0,12\n" % (key, key, key, key)
        rows.append(((TEXTS, key, b""), f"{listed(totals)} {listed(places)} {listed(files)}"))
    # 70 keys, and then all of them again but for 20, and 30 more
    numbers = [i if i < 70 else i - 50 for i in range(150)]
    keys = "".join(f"|{listed(b'k' + bytes([i]))}" for i in range(100))
    rows.append(((NUMBERS, bytes(numbers), b""), f"{numbers} 0{keys}"))
    check_cases(harness, rows)


# Inputs, requests and plans: the words, the files, and the lines that tell them. `None` ends each split and the splits.


def sent(*files):
    return b"".join(file + b"\0" for file in files)


def begun(*files):
    """How the files begin."""
    return str(len(files)) + "".join(f"|{len(file)} {listed(file[:8])}" for file in files[:8])


def place(file, start, end):
    return f"SplitPlace {{ file: {file}, start: {start}, end: {end} }}"


def line(file, start, text, number):
    return f"Some({listed(text)}) {file} {start} {listed(text)} {number}"


def kept(*records):
    return "".join(f"{record(*where)} {listed(text)}|" for where, text in records)


PLANS = [
    (
        "a line across two splits",
        [1, 4, 0],
        [b"ab cd\ne\n"],
        ["true 1 4 0 true", "2 4 2"]
        + [f"{place(0, 0, 4)} 1", line(0, 0, b"ab cd", 0), "None"]
        + [f"{place(0, 4, 8)} 1", line(0, 6, b"e", 1), "None", "None"]
        + ["None", "false false ", kept(((0, 0), b"ab cd"), ((1, 0), b"e"))],
    ),
    (
        "a line feed as the last byte of a split",
        [1024, 4, 1000],
        [b"", b"abc\nd"],
        ["true 1024 4 1000 true", "2 4 2"]
        + [f"{place(1, 0, 4)} 1", line(1, 0, b"abc", 0), "None"]
        + [f"{place(1, 4, 5)} 1", line(1, 4, b"d", 1), "None", "None"]
        + ["None", "false false ", kept(((0, 0), b"abc"), ((1, 0), b"d"))],
    ),
    (
        "nothing to cut",
        [1, 67_108_864, 0],
        [b""],
        ["true 1 67108864 0 true", "0 67108864 0", "None", "None", "", ""],
    ),
    (
        "left out by name",
        [1, 4, 3, "9:0", "0:1", "0:1"],
        [b"a\nb\nc\n"],
        ["true 1 4 3 true", "2 4 3"]
        + [f"{place(0, 0, 4)} 2", line(0, 0, b"a", 0), line(0, 2, b"b", 1), "None"]
        + [f"{place(0, 4, 6)} 1", line(0, 4, b"c", 2), "None", "None"]
        + ["Some(NoSuchRecord)", "false true false ", kept(((0, 0), b"a"), ((1, 0), b"c"))],
    ),
    (
        "kept records",
        [1, 4, 1, "0:1"],
        [b"a\nbb\nc\n"],
        ["true 1 4 1 true", "2 4 3"]
        + [f"{place(0, 0, 4)} 2", line(0, 0, b"a", 0), line(0, 2, b"bb", 1), "None"]
        + [f"{place(0, 4, 7)} 1", line(0, 5, b"c", 2), "None", "None"]
        + ["None", "false true false ", kept(((0, 0), b"a"), ((1, 0), b"c"))],
    ),
]

# How many may be left out of `a`, `b` and `c`, the list, and its fault.
LEFT_OUT = [
    (1, ["0:0"], "None"),
    (1, ["0:0", "0:0"], "Some(TooMany)"),
    (3, ["0:0", "0:0", "7:0"], "Some(Order)"),
    (2, ["0:0", "7:0"], "Some(NoSuchRecord)"),
]

# What is refused: partitions, size of a split, left-out records; a request is told before a plan.
REFUSED = [
    (0, 0, 1001, "BadParts", "BadSplitSize"),
    (1025, 64, 0, "BadParts", None),
    (1, 0, 1001, "BadSplitSize", "BadSplitSize"),
    (1, 67_108_865, 0, "BadSplitSize", "BadSplitSize"),
    (1024, 67_108_864, 1001, "BadSkips", None),
]


def inputs_and_plans(harness):
    for what, words, files, wanted in PLANS:
        lines = told("inputs", sent(*files), *words)
        harness.check(what, lines == [begun(*files), *wanted], repr(lines))
    for most, skips, wanted in LEFT_OUT:
        lines = told("inputs", sent(b"a\nb\nc\n"), 1, 4, most, *skips)
        harness.check(f"{skips} of at most {most}", lines[-3:-2] == [wanted], repr(lines))
    for parts, size, most, request, plan in REFUSED:
        lines = told("inputs", sent(b""), parts, size, most)
        good = lines[1:3] == [request, plan or f"0 {size} 0"]
        harness.check(f"{parts} partitions, splits of {size}, {most} left out", good, repr(lines))


def limits_of_inputs(harness):
    harness.check("the most that is asked for", told("inputs", sent(b""), 1024, 1, 1000)[1:2] == ["true 1024 1 1000 true"])
    harness.check("no file", told("inputs", b"", 1, 64)[:1] == ["0"])
    most = [b""] + [b"x"] * 1023
    harness.check("the most files", told("inputs", sent(*most), 1, 64)[:1] == [begun(*most)])
    harness.check("a file too many", told("inputs", sent(*most, b"x"), 1, 64) == ["TooManyFiles"])
    # the most splits, and one more; a request tells so too
    full = b"a" * 1_048_576
    lines = told("inputs", sent(full), 1, 1, 0)
    harness.check("as many splits as may be", lines[1:3] == ["true 1 1 0 true", "1048576 1 1"], repr(lines[:4]))
    lines = told("inputs", sent(full + b"a"), 1, 1, 0)
    harness.check("a split too many", lines[1:] == ["true 1 1 0 false", "TooManySplits"], repr(lines))
    lines = told("inputs", sent(full, b"a"), 1, 1, 0)
    harness.check("a split too many, in a second file", lines[1:] == ["true 1 1 0 false", "TooManySplits"], repr(lines))
    lines = told("inputs", sent(full, b"a"), 1, 2, 0)
    harness.check("half as many", lines[1:3] == ["true 1 2 0 true", "524289 2 2"], repr(lines[:4]))


# The index: the job (0 for words, 1 for lines with `b`), the size of a split, left-out records and files; how many records
# are mapped, and all pairs. What isn't among them isn't found.

INDEXES = [
    (
        "words",
        (0, 9),
        [b"The cat\n\nthe dog\n", b"a\n"],
        4,
        [((0, 0, 0), b"the", ONE), ((0, 0, 1), b"cat", ONE), ((1, 0, 0), b"the", ONE), ((1, 0, 1), b"dog", ONE), ((2, 0, 0), b"a", ONE)],
    ),
    (
        "lines with a literal",
        (1, 64),
        [b"no\n", b"ab\nc\nxb"],
        4,
        [((1, 0, 0), b"ab", at(1, 0)), ((1, 2, 0), b"xb", at(1, 5))],
    ),
    (
        "two splits, a record left out",
        (0, 8, "0:0"),
        [b"a b\nc d\ne\n", b""],
        2,
        [((0, 1, 0), b"c", ONE), ((0, 1, 1), b"d", ONE), ((1, 0, 0), b"e", ONE)],
    ),
]


def indexes(harness):
    for what, words, files, mapped, pairs in INDEXES:
        found = [f"{named(*where)} Some(({listed(key)}, {value})) Some(({listed(key)}, {value})) 2" for where, key, value in pairs]
        for way, counted, heard in [(0, mapped, 0), (1, mapped, 1), (2, 0, 0)]:
            lines = told("index", sent(*files), way, *words)
            head = f"{len(pairs)} Meter {{ lookups: 0, mapped: {counted} }} told {heard} past 0"
            harness.check(f"the index of {what}, way {way}", lines == [head, *found], repr(lines))
    # of 5,000 records the first and the 4,097th are told
    lines = told("index", sent(b"\n" * 5000, b""), 1, 0, 64)
    harness.check("somebody looks on", lines == ["0 Meter { lookups: 0, mapped: 5000 } told 2 past 0"], repr(lines))


# Stores in memory, of a text of 20 bytes.

TEXT = b"0123456789abcdefghij"
READ, LIMITED, WRITTEN, SPELLED, FIRST_WRITE, FIRST_READ, RESULT = range(7)


def read_as(answer, out, rest, failed):
    return f"{answer} {listed(b'x' + out)} {listed(rest)} {failed} false"


def written_as(answer, data, handed_on, failed):
    return f"{answer} {listed(data)} {listed(handed_on)} {failed} false"


def rows_of_readers():
    for most, calls in [(1, 21), (7, 4), (20, 2), (100, 2)]:
        for call in (0, calls + 1):
            yield (READ, most, call), read_as("Ok(())", TEXT, b"", 0)
        for call in range(1, calls + 1):
            yield (READ, most, call), read_as("Err(Device)", b"", TEXT[most * (call - 1) :], 1)
        for limit in (0, 1, 3, 6, 7, 8, 18, 19):
            yield (LIMITED, most, 0, limit), read_as("Err(TooLong)", b"", TEXT[limit + 1 :], 0)
        # the greatest number stands for the greatest limit of all
        for limit in (20, 21, 65_536, 2**32 - 1):
            yield (LIMITED, most, 0, limit), read_as("Ok(())", TEXT, b"", 0)
            yield (LIMITED, most, 1, limit), read_as("Err(Device)", b"", TEXT, 1)
        yield (LIMITED, most, 2, 0), read_as("Err(TooLong)", b"", TEXT[1:], 0)
    yield (LIMITED, 1, 21, 20), read_as("Err(Device)", b"", b"", 1)
    yield (FIRST_READ, 7, 0), "7"
    yield (FIRST_READ, 7, 1), "99"


def rows_of_writers():
    for most, calls in [(1, 20), (7, 3), (100, 1)]:
        yield (WRITTEN, most, 0), written_as("Ok(())", TEXT, b"", 0)
        yield (SPELLED, most, 0), written_as("Ok(())", TEXT, TEXT, 0)
        for call in range(1, calls + 1):
            yield (WRITTEN, most, call), written_as("Err(Device)", TEXT[: most * (call - 1)], b"", 1)
        # the flush is one call more
        for call in range(1, calls + 2):
            yield (SPELLED, most, call), written_as("Err(Device)", TEXT[: most * (call - 1)], b"", 1)
    yield (FIRST_WRITE, 7, 0), ["(7, true)", written_as("", TEXT[:7], TEXT[:7], 0)]
    yield (FIRST_WRITE, 7, 2), ["(7, false)", written_as("", TEXT[:7], b"", 1)]


def rows_of_results():
    """Four texts, each by its writer; where one fails, those before it are whole, and those behind it empty."""
    texts = [b"ab", b"", b"cd", b"ef"]
    for stops, calls in [(9, 1), (0, 3), (1, 1), (2, 3), (3, 3)]:
        for call in range(1, calls + 1):
            wanted = ["Ok(())" if stops == 9 else "Err(Device)"]
            for number, text in enumerate(texts):
                data = text if number < stops else text[: call - 1] if number == stops else b""
                wanted.append(written_as("", data, data if number < stops else b"", int(number == stops)))
            yield (RESULT, 1, call, stops), wanted


def stores(harness):
    rows = [*rows_of_readers(), *rows_of_writers(), *rows_of_results()]
    lines = told("stores", "".join(" ".join(map(str, row)) + "\n" for row, _ in rows).encode())
    for row, wanted in rows:
        wanted = [wanted] if isinstance(wanted, str) else wanted
        told_of, lines = lines[: len(wanted)], lines[len(wanted) :]
        harness.check(f"store {row}", told_of == wanted, f"{told_of}, not {wanted}")
    harness.check("no more answers than rows of stores", lines == [])


def spelled_certificates(harness):
    """A certificate of a group of 6,000 names: two calls for the first 64 KiB, one for the rest, and the flush."""
    front = b"MRCERT1\n" + number(1) + number(0) + number(0) + number(1) + number(64) + number(0) + number(0)
    data = front + number(1) + number(6_000) + b"".join(bytes(8) + number(n) for n in range(6_000))
    harness.check("72,044 bytes", len(data) == 72_044)
    for failing, stands in [(1, 0), (2, 40_000), (3, 65_528), (4, 72_044)]:
        lines = told("spelling", data, 6_000, 40_000, failing)
        harness.check(f"call {failing} of a spelled certificate fails", lines == [f"Err(Device) {stands} true 0 1"], repr(lines))
    lines = told("spelling", data, 6_000, 40_000, 0)
    harness.check("a spelled certificate", lines == ["Ok(()) 72044 true 72044 0"], repr(lines))


# Files in memory: what the second part and the certificate are (not there, there, or one of which each use fails), and what
# is read of the two parts and the certificate; what is told where a result is written over them, and what is read then; what
# is told where the second part is written once more, and what is read of it.

NOT_THERE, THERE, FAILS = range(3)
FIRST_PART, SECOND_PART = listed(b"the\t2\n"), listed(b"cat\t1\n")
OLD, NEW, OTHER = listed(b"old"), listed(b"new"), listed(b"dog")
UNREAD = [f"cannot read d/{file}" for file in ("part-00000", "part-00001", "certificate")]
UNWRITTEN = [f"cannot write d/{file}" for file in ("part-00001", "certificate")]

FILES = [
    (NOT_THERE, NOT_THERE, UNREAD, ["written", FIRST_PART, SECOND_PART, NEW], ["written", OTHER]),
    (THERE, THERE, [UNREAD[0], OLD, OLD], ["written", FIRST_PART, SECOND_PART, NEW], ["written", OTHER]),
    # what stands before the part that can't be written is whole, and the certificate is as it was
    (FAILS, THERE, [*UNREAD[:2], OLD], [UNWRITTEN[0], FIRST_PART, UNREAD[1], OLD], [UNWRITTEN[0], UNREAD[1]]),
    (THERE, FAILS, [UNREAD[0], OLD, UNREAD[2]], [UNWRITTEN[1], FIRST_PART, SECOND_PART, UNREAD[2]], ["written", OTHER]),
]


def files_in_memory(harness):
    for part, certificate, *wanted in FILES:
        lines = told("files", b"", part, certificate)
        harness.check(f"files in memory, {part} and {certificate}", lines == sum(wanted, []), repr(lines))


# Ranges and stretches of files in memory: a limit, the byte from which on the first file is taken, the one up to before which
# the last one is, and the files; the bytes of each, and whether the last file ends there; or the number of the file that isn't
# taken, and why. Of bytes past 100 only their number is told.

OPEN, CLOSED, EMPTY, LONG, FAILING, MISSING = range(1, 7)
ITS_END = 2**32 - 1
SHORT = {OPEN: b"ab\ncd", CLOSED: b"ab\ncd\n", EMPTY: b""}
AB, CD, OPEN_AS, CLOSED_AS, NOTHING = listed(b"ab\n"), listed(b"cd"), listed(b"ab\ncd"), listed(b"ab\ncd\n"), listed(b"")


def range_as(data, limit, start, stop):
    """What is told of a range of a file, by the rules."""
    end = len(data) if stop == ITS_END else max(start, stop)
    if max(start, end) > len(data):
        return ["PastEnd"]
    if start and data[start - 1] != 10:
        return [f"InsideALine {start}"]
    if end < len(data) and end and data[end - 1] != 10:
        return [f"InsideALine {end}"]
    return [listed(data[start:end]), str(end == len(data)).lower()] if end - start <= limit else ["TooLong"]


LONG_RANGES = [
    # 750 lines of two bytes
    ((5000, 0, ITS_END, LONG), ["1500", "true"]),
    ((1500, 0, ITS_END, LONG), ["1500", "true"]),
    ((1499, 0, ITS_END, LONG), ["TooLong"]),
    ((1499, 0, 1500, LONG), ["TooLong"]),
    ((5000, 2, 1004, LONG), ["1002", "false"]),
    ((1001, 2, 1004, LONG), ["TooLong"]),
    ((100, 1498, 1500, LONG), [listed(b"x\n"), "true"]),
    ((100, 1000, 1002, LONG), [listed(b"x\n"), "false"]),
    ((100, 1500, ITS_END, LONG), [NOTHING, "true"]),
    ((100, 1001, ITS_END, LONG), ["InsideALine 1001"]),
    ((100, 1000, 1003, LONG), ["InsideALine 1003"]),
    ((1, 1000, 1403, LONG), ["InsideALine 1403"]),
    ((100, 1501, ITS_END, LONG), ["PastEnd"]),
    ((100, 0, 1501, LONG), ["PastEnd"]),
    ((100, 0, ITS_END, MISSING), ["cannot read missing"]),
    ((100, 7, 9, MISSING), ["cannot read missing"]),
    ((100, 0, ITS_END, FAILING), ["cannot read failing"]),
]

STRETCHES = [
    ((0, 0, ITS_END), ["true"]),
    ((0, 5, 2), ["true"]),
    ((100, 3, 3, OPEN, CLOSED, OPEN), [CD, CLOSED_AS, AB, "false"]),
    ((100, 3, 0, CLOSED, EMPTY, OPEN), [listed(b"cd\n"), NOTHING, NOTHING, "false"]),
    ((100, 6, 0, CLOSED, OPEN), [NOTHING, NOTHING, "false"]),
    ((100, 0, 5, CLOSED, OPEN), [CLOSED_AS, OPEN_AS, "true"]),
    ((100, 0, 3, EMPTY, OPEN), [NOTHING, AB, "false"]),
    ((100, 0, ITS_END, OPEN, EMPTY, CLOSED), [OPEN_AS, NOTHING, CLOSED_AS, "true"]),
    ((5000, 3, 2, OPEN, LONG, LONG), [CD, "1500", listed(b"x\n"), "false"]),
    # the first file is cut inside a line, and the last one; a byte of another file is none of theirs
    ((100, 1, ITS_END, OPEN, CLOSED, EMPTY), ["0 InsideALine 1"]),
    ((100, 0, 4, CLOSED, EMPTY, OPEN), ["2 InsideALine 4"]),
    ((100, 3, 3, OPEN, LONG), ["1 InsideALine 3"]),
    ((100, 0, 6, CLOSED, EMPTY, OPEN), ["2 PastEnd"]),
    ((100, 7, ITS_END, CLOSED, LONG), ["0 PastEnd"]),
    ((100, 1, ITS_END, EMPTY, LONG), ["0 PastEnd"]),
    ((100, 0, ITS_END, OPEN, MISSING, FAILING), ["1 cannot read missing"]),
    ((100, 0, 9, OPEN, FAILING, MISSING), ["1 cannot read failing"]),
    # one limit for all, of what is taken
    ((16, 0, ITS_END, OPEN, CLOSED, OPEN), [OPEN_AS, CLOSED_AS, OPEN_AS, "true"]),
    ((15, 0, ITS_END, OPEN, CLOSED, OPEN), ["2 TooLong"]),
    ((10, 0, ITS_END, OPEN, CLOSED, MISSING), ["1 TooLong"]),
    ((4, 0, ITS_END, OPEN, CLOSED, OPEN), ["0 TooLong"]),
    ((11, 3, 3, OPEN, CLOSED, OPEN), [CD, CLOSED_AS, AB, "false"]),
    ((10, 3, 3, OPEN, CLOSED, OPEN), ["2 TooLong"]),
]


def rows_of_ranges():
    """A range of one file, and the stretch of that file alone."""
    places = (*range(8), ITS_END)
    short = [((limit, start, stop, file), range_as(data, limit, start, stop)) for file, data in SHORT.items() for limit in (100, 1) for start in range(8) for stop in places]
    for row, wanted in [*short, *LONG_RANGES]:
        yield row, [*wanted, *([f"0 {wanted[0]}"] if len(wanted) == 1 else wanted)]


def ranges(harness):
    rows = [*rows_of_ranges(), *STRETCHES]
    lines = told("ranges", "".join(" ".join(map(str, row)) + "\n" for row, _ in rows).encode())
    for row, wanted in rows:
        told_of, lines = lines[: len(wanted)], lines[len(wanted) :]
        harness.check(f"range {row}", told_of == wanted, f"{told_of}, not {wanted}")
    harness.check("no more answers than rows of ranges", lines == [])


# Those that no row brings about, and whether any is another.
FAULTS = [
    "TooLarge OutOfMemory OutOfMemory false false false",
    "OutOfMemory OutOfMemory OutOfMemory OutOfMemory OutOfMemory OutOfMemory",
]


def faults_by_name(harness):
    harness.check("faults by name", told("faults", b"") == FAULTS)


GROUPS = {
    "bytes and orders": built("mr_rows_tests", bytes_and_orders),
    "hashes": built("mr_rows_tests", hashes),
    "partitions by key and by host": built("mr_rows_tests", partitions),
    "jobs and texts": built("mr_rows_tests", jobs_and_texts),
    "inputs and plans": built("mr_rows_tests", inputs_and_plans),
    "limits of inputs": built("mr_rows_tests", limits_of_inputs),
    "indexes": built("mr_rows_tests", indexes),
    "stores in memory": built("mr_rows_tests", stores),
    "spelled certificates": built("mr_rows_tests", spelled_certificates),
    "files in memory": built("mr_rows_tests", files_in_memory),
    "ranges of files": built("mr_rows_tests", ranges),
    "faults by name": built("mr_rows_tests", faults_by_name),
}
