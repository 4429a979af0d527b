"""Scripts and certificates, row by row: what the libraries `mr_script` and `mr_certform` tell of bytes.

They are reached through the small program `mr_rows_tests`, which the gate leaves beside the checked one: its first word
says which library, and it reads bytes on standard input and prints what they are. Expected values are worked out by hand."""
import os
import struct
import subprocess

TOP = os.path.dirname(os.path.dirname(os.path.abspath(__file__)))


def program(crate):
    return os.path.join(TOP, "crates", crate, "out", crate)


def words_of(*words):
    """The words that ask the program of libraries, the first of which says which."""
    return [program("mr_rows_tests"), *map(str, words)]


def told(library, data, *words):
    """What the program prints of these bytes, line by line; nothing where it fails."""
    ran = subprocess.run(words_of(library, *words), input=data, capture_output=True)
    return ran.stdout.decode().splitlines() if ran.returncode == 0 else []


def built(crate, group):
    """The group, where the program is there."""

    def checked(harness):
        if os.path.exists(program(crate)):
            group(harness)
        else:
            harness.check(f"crates/{crate} is built (by ./test, or by `rt run` there)", False)

    return checked


# Scripts: a text, and the directives that it spells or the number of its first bad line.

LOSE, ZOMBIE = "Lose { worker: 1, after: 2 }", "Zombie { worker: 3, after: 4 }"
BAD, FLAKY = "Bad { split: 5, rec: 6 }", "Flaky { split: 7, rec: 8, attempts: 9 }"
HOLD, SPOIL = "Hold { worker: 10 }", "Spoil { partition: 11, place: 12 }"

SCRIPTS = [
    (b"lose 1 after 2\n", [LOSE]),
    (b"zombie 3 after 4\n", [ZOMBIE]),
    (b"bad 5 6\n", [BAD]),
    (b"flaky 7 8 9\n", [FLAKY]),
    (b"hold 10\n", [HOLD]),
    (b"spoil 11 12\n", [SPOIL]),
    (b"spoil 11 12\nflaky 7 8 9\nlose 1 after 2", [SPOIL, FLAKY, LOSE]),
    # lines that say nothing
    (b"\n\n#\n#lose\r\n", []),
    (b"# x\nspoil 0 007\n", ["Spoil { partition: 0, place: 7 }"]),
    # the first bad line is told
    (b"lose 0 after 1\n\nlose 0  after 1\n", 3),
    (b"x\ny\n", 1),
    (b"# x\n\nhold 1\nhold\nhold 2\nhold\n", 4),
    (b"hold 1\r\n", 1),
    (b"hold 1\n\r\n", 2),
    (b" # x", 1),
    (b" ", 1),
    (b" hold 1", 1),
    (b"hold 1 ", 1),
    (b"hold\t1", 1),
    (b"hold ", 1),
    (b"hold 1 2", 1),
    (b"Hold 1", 1),
    (b"hold +1", 1),
    (b"hold 1 # x", 1),
    (b"lose 0 before 1", 1),
    (b"lose 0 1", 1),
    (b"bad 1", 1),
    (b"bad 1 2 3", 1),
    (b"flaky 1 2", 1),
    (b"damage 1 2", 1),
    # numbers
    (b"hold 0000000001", ["Hold { worker: 1 }"]),
    (b"hold 00000000001", 1),
    (b"hold 4294967295", ["Hold { worker: 4294967295 }"]),
    (b"hold 4294967296", 1),
    (b"hold 9999999999", 1),
    (b"hold 1:", 1),
    (b"hold /", 1),
    # many lines: want of memory isn't told in the place of the last, which is bad
    (b"hold 10\n" * 2000, [HOLD] * 2000),
    (b"hold 10\n" * 2000 + b"hold", 2001),
]


def scripts(harness):
    harness.check("an empty script, and want of memory", told("scripts", b"") == ["OutOfMemory", "[]"])
    for text, wanted in SCRIPTS:
        line = f"BadLine {wanted}" if isinstance(wanted, int) else f"[{', '.join(wanted)}]"
        harness.check(f"script {text[:40]!r}", told("scripts", text) == [line])


# Certificates. The first is that of the words of `a b a` and a line end, one partition, splits of 64 bytes: each item
# with its bytes.


def number(n):
    return struct.pack(">I", n)


def name(split, rec, place):
    return f"Name {{ split: {split}, rec: {rec}, place: {place} }}", number(split) + number(rec) + number(place)


FIRST, SECOND, THIRD = name(0, 0, 0), name(0, 0, 2), name(0, 0, 1)

ITEMS = [
    ("Magic", b"MRCERT1\n"),
    ("Job(1)", number(1)),
    ("Flags(0)", number(0)),
    ("LiteralLength(0)", number(0)),
    ("Parts(1)", number(1)),
    ("SplitSize(64)", number(64)),
    ("Files(1)", number(1)),
    ("FileLength(6)", struct.pack(">Q", 6)),
    ("Skips(0)", number(0)),
    ("Groups(2)", number(2)),
    ("Entries(2)", number(2)),
    (f"Entry({FIRST[0]})", FIRST[1]),
    (f"Entry({SECOND[0]})", SECOND[1]),
    ("Entries(1)", number(1)),
    (f"Entry({THIRD[0]})", THIRD[1]),
]
EXAMPLE = b"".join(data for _, data in ITEMS)


def places_of(items):
    """Where each item begins, and the end."""
    return [sum(len(data) for _, data in items[:n]) for n in range(len(items) + 1)]


PLACES = places_of(ITEMS)


def cut(n, items=ITEMS):
    """What is told of the first `n` bytes: the items that stand whole, and twice the place where they stop."""
    places = places_of(items)
    whole = sum(place <= n for place in places[1:])
    return [f"Malformed at {places[whole]}", *(item for item, _ in items[:whole]), *[f"stops at {places[whole]}"] * 2]


def certificates(harness):
    tells = lambda data: told("certificates", data)
    harness.check("the example has 92 bytes", len(EXAMPLE) == 92)
    harness.check("the example is built", tells(b"") == [str(list(EXAMPLE)), "OutOfMemory"])
    head = ["job 1 flags 0 literal []", "parts 1 split 64", "lengths [6] skips []", "total 3", "written again: true"]
    groups = ["partition", f"group [{FIRST[0]}, {SECOND[0]}]", f"group [{THIRD[0]}]"]
    harness.check("the example", tells(EXAMPLE) == [*head, *groups, *(item for item, _ in ITEMS), "End", "End"])
    for n in range(1, 92):
        harness.check(f"the first {n} bytes of the example", tells(EXAMPLE[:n]) == cut(n))
    harness.check("a byte behind the example", tells(EXAMPLE + b"\0")[0] == "Malformed at 92")
    # with the four bytes at a place made this number, the example is malformed there, or nowhere
    for at, n, wanted in [
        (20, 0, 20),
        (20, 1025, 20),
        (20, 1024, 92),
        (16, 4097, 16),
        (28, 1025, 28),
        (48, 0, 48),
        (48, 4_294_967_295, 88),
        (44, 4_294_967_295, 92),
        (0, 0, 0),
        (8, 9, None),
    ]:
        line = "job 9 flags 0 literal []" if wanted is None else f"Malformed at {wanted}"
        harness.check(f"{n} at {at}", tells(EXAMPLE[:at] + number(n) + EXAMPLE[at + 4 :])[0] == line)


def lists_of_certificates(harness):
    tells = lambda data: told("certificates", data)
    full = b"MRCERT1\n" + number(2) + number(2) + number(2) + b"ab" + number(1) + number(1) + number(0) + number(1) + number(3) + number(5) + number(0)
    wanted = ["job 2 flags 2 literal [97, 98]", "parts 1 split 1", "lengths [] skips [RecordName { split: 3, rec: 5 }]", "total 0", "written again: true", "partition"]
    harness.check("a literal, a left-out record, no file and no group", tells(full)[:6] == wanted)
    # the most partitions, and a group of two million names, 24 MB
    front = b"MRCERT1\n" + number(1) + number(0) + number(0) + number(1024) + number(64) + number(0) + number(0)
    names = b"".join(bytes(8) + number(place) for place in range(2_000_000))
    large = front + number(0) * 1023 + number(1) + number(2_000_000) + names
    wanted = ["job 1 flags 0 literal []", "parts 1024 split 64", "lengths [] skips []", "total 2000000", "written again: true"]
    harness.check("large counts", tells(large) == wanted)


# Walks over readers: so many bytes a call, and a call that fails. Fifteen bytes are read before an item is told, as many as the
# longest item of either version has, or all that there are.


def streamed(n, most, failing=None):
    """What is told of the first `n` bytes of the example, given `most` a call, where that call fails, if one does."""
    calls = -(-n // most) if failing is None else failing - 1
    had = min(n, calls * most)
    # all items that stand whole are told, unless a call fails while the bytes that an item may have are still read
    fails = failing is not None and had <= n
    told_by = [k for k in range(len(ITEMS)) if PLACES[k] + 15 <= had or (not fails and PLACES[k + 1] <= n)]
    items = [ITEMS[k][0] for k in told_by]
    at = PLACES[len(items)]
    if fails:
        return [*items, "Device", "Device", f"at {at}, failed 1"]
    last = "End" if n == 92 else f"stops at {at}"
    return [*items, last, last, f"at {at}, failed 0"]


def readers_of_certificates(harness):
    tells = lambda data, *words: told("certificates", data, *words)
    for most in (1, 7, 65_536):
        for n in range(93):
            harness.check(f"the first {n} bytes of the example, {most} a call", tells(EXAMPLE[:n], most) == streamed(n, most))
        harness.check(f"a byte behind the example, {most} a call", tells(EXAMPLE + b"\0", most)[-3:] == ["stops at 92", "stops at 92", "at 92, failed 0"])
        harness.check(f"the first call fails, {most} a call", tells(EXAMPLE, most, 1) == ["Device", "Device", "at 0, failed 1"])
    for call in range(1, 94):
        harness.check(f"call {call} fails, a byte a call", tells(EXAMPLE, 1, call) == streamed(92, 1, call))
    for call in range(1, 16):
        harness.check(f"call {call} fails, seven bytes a call", tells(EXAMPLE, 7, call) == streamed(92, 7, call))
    thirteen = [item for item, _ in ITEMS[:13]]
    harness.check("call 81 fails, a byte a call: thirteen items", tells(EXAMPLE, 1, 81) == [*thirteen, "Device", "Device", "at 76, failed 1"])
    harness.check("a call behind the end isn't made", tells(EXAMPLE, 1, 94)[-1] == "at 92, failed 0")
    # a group of 20,000 names, with pieces that end anywhere in one
    front = b"MRCERT1\n" + number(1) + number(0) + number(0) + number(1) + number(64) + number(0) + number(0)
    names = b"".join(bytes(8) + number(place) for place in range(20_000))
    large = front + number(1) + number(20_000) + names
    for most in (65_536, 65_521, 4_099, 13):
        said = tells(large, most)
        harness.check(f"20,000 names, {most} a call", len(said) == 67 and said[-3:] == ["End", "End", "at 240044, failed 0"])
        said = tells(large[:-1], most)
        harness.check(f"20,000 names but for a byte, {most} a call", said[-3:] == ["stops at 240032", "stops at 240032", "at 240032, failed 0"])
        said = tells(large + b"\0", most)
        harness.check(f"20,000 names and a byte, {most} a call", said[-3:] == ["stops at 240044", "stops at 240044", "at 240044, failed 0"])


# The same example in version 2, in which names are short: the third name is one place on from no name, the second two from the first.

SHORT_ITEMS = [("Magic", b"MRCERT2\n"), *ITEMS[1:11], (ITEMS[11][0], bytes(3)), (ITEMS[12][0], b"\0\0\2"), ITEMS[13], (ITEMS[14][0], b"\0\0\1")]
SHORT_EXAMPLE = b"".join(data for _, data in SHORT_ITEMS)

# Bytes in place of the name at 55, and what is told of it behind (0, 0, 0), or nothing where it doesn't stand.
SHORT_NAMES = [
    ("00 00 7f", (0, 0, 127)),
    ("00 00 80 01", (0, 0, 128)),
    ("00 03 05", (0, 3, 5)),
    ("02 00 05", (2, 0, 5)),
    ("ff ff ff ff 0f ff ff ff ff 0f ff ff ff ff 0f", (2**32 - 1, 2**32 - 1, 2**32 - 1)),
    ("00 00 80 00", None),
    ("00 00 82 00", None),
    ("80 00 00 02", None),
    ("00 80 80 80 80 10 02", None),
    ("ff ff ff ff 1f 00 02", None),
    ("00 00 80 80 80 80 80 01", None),
    ("00 00 80 80 80 80 00", None),
]


def told_of_name(spelled, told_as):
    """The example of version 2 with other bytes at 55, and its items."""
    items = [*SHORT_ITEMS]
    items[12] = (f"Entry({name(*told_as or (0, 0, 0))[0]})", bytes.fromhex(spelled))
    return b"".join(data for _, data in items), items


def short_certificates(harness):
    tells = lambda *words: told("certificates", *words)
    items = [item for item, _ in SHORT_ITEMS]
    said = tells(SHORT_EXAMPLE)
    # the fifth line tells whether it is written again as it was
    harness.check("the example of version 2", len(SHORT_EXAMPLE) == 65 and said[:4] + said[5:] == [*tells(EXAMPLE)[:4], *tells(EXAMPLE)[5:8], *items, "End", "End"], repr(said))
    for n in range(1, 65):
        harness.check(f"the first {n} bytes of it", tells(SHORT_EXAMPLE[:n]) == cut(n, SHORT_ITEMS))
        for most in (1, 7, 65_536):
            place = cut(n, SHORT_ITEMS)[-1].split()[-1]
            harness.check(f"the first {n} bytes of it, {most} a call", tells(SHORT_EXAMPLE[:n], most) == [*cut(n, SHORT_ITEMS)[1:], f"at {place}, failed 0"])
    harness.check("a byte behind it", tells(SHORT_EXAMPLE + b"\0")[0] == "Malformed at 65")
    for spelled, told_as in SHORT_NAMES:
        data, own = told_of_name(spelled, told_as)
        wanted = cut(55, SHORT_ITEMS) if told_as is None else [*(item for item, _ in own), "End", "End"]
        harness.check(f"{spelled} at 55", tells(data)[-len(wanted) :] == wanted, repr(tells(data)))
        for most in (1, 5):
            last = f"at {55 if told_as is None else len(data)}, failed 0"
            harness.check(f"{spelled} at 55, {most} a call", tells(data, most) == [*wanted[told_as is None :], last])


def large_short_certificates(harness):
    """A group of 20,000 names of 3 to 5 bytes, with pieces that end anywhere in one."""
    front = b"MRCERT2\n" + number(1) + number(0) + number(0) + number(1) + number(64) + number(0) + number(0)
    names = [bytes(3), b"\0\0\x80\1", b"\0\xff\1\5", b"\x81\1\0\xff\1"] * 5_000
    large = front + number(1) + number(20_000) + b"".join(names)
    end, last = len(large), len(large) - len(names[-1])
    for most in (65_536, 65_521, 4_099, 13, 1):
        for what, data, stop in [("20,000 names", large, None), ("but for a byte", large[:-1], last), ("and a byte", large + b"\0", end)]:
            said = told("certificates", data, most)
            wanted = ["End", "End", f"at {end}, failed 0"] if stop is None else [f"stops at {stop}", f"stops at {stop}", f"at {stop}, failed 0"]
            harness.check(f"short names: {what}, {most} a call", said[-3:] == wanted, repr(said[-3:]))


GROUPS = {
    "scripts": built("mr_rows_tests", scripts),
    "items of certificates": built("mr_rows_tests", certificates),
    "lists of certificates": built("mr_rows_tests", lists_of_certificates),
    "readers of certificates": built("mr_rows_tests", readers_of_certificates),
    "items of version 2": built("mr_rows_tests", short_certificates),
    "many items of version 2": built("mr_rows_tests", large_short_certificates),
}
