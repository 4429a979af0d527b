"""Words made to collide in the table by which the sequential execution numbers its keys.

The table looks at few slots and then gives a word another number, so words that all begin at one slot mostly have
several numbers; the sort of the keys takes them together again. No other input shows that this is done."""
import random
import struct
from collections import Counter

from harness import parts_of, read_result
from plain import fnv
from rows import plain

FIRST, LAST, MASK = 0x9E3779B97F4A7C15, 0xC2B2AE3D27D4EB4F, 2**64 - 1
SMALL = b"0123456789abcdefghijklmnopqrstuvwxyz"
WORD = frozenset(SMALL) | frozenset(range(0x80, 0x100))


def colliding(count, draw):
    """So many words of sixteen bytes, all of one hash (crates/mr_group/src/print.rt): the last eight bytes undo what the first
    eight did."""
    words, wanted, inverse = set(), draw.getrandbits(64), pow(LAST, -1, 2**64)
    while len(words) < count:
        first = bytes(draw.choice(SMALL) for _ in range(8))
        last = ((wanted - int.from_bytes(first, "little") * FIRST) * inverse & MASK) ^ (16 << 56)
        second = struct.pack("<Q", last)
        if WORD.issuperset(second):
            words.add(first + second)
    return sorted(words)


def mixed(hash, word):
    """As in crates/mr_group/src/print.rt."""
    product = (hash ^ word) * FIRST & MASK
    return product ^ product >> 32


def colliding_long(count, draw):
    """So many words of 24 bytes, all of one hash: the second eight bytes undo what the first eight did."""
    words, wanted = set(), draw.getrandbits(64)
    while len(words) < count:
        first = bytes(draw.choice(SMALL) for _ in range(8))
        second = struct.pack("<Q", mixed(24, int.from_bytes(first, "little")) ^ wanted)
        if WORD.issuperset(second):
            words.add(first + second + b"thelast8")
    return sorted(words)


def counted_once(harness):
    """Each word that comes again is counted with itself, however many numbers it had."""
    draw = random.Random(18)
    words = colliding(1500, draw) + colliding_long(1500, draw)
    for times, parts in ((1, 1), (4, 3)):
        told = [word for word in words for _ in range(times)]
        draw.shuffle(told)
        data = b"".join(word + draw.choice((b" ", b"\n", b", ")) for word in told)
        outputs, pairs, certificate = plain("words", [data], parts)
        options = ["--job", "words", "--parts", str(parts), "--out", ".", "input"]
        status, out, err, where = harness.run(["seq", *options], {"input": data})
        good = (status, err) == (0, b"") and read_result(where) == (outputs, certificate)
        harness.check(f"colliding words, {times} times each", good, repr((status, out, err)))
        status, out, err, _ = harness.run(["check", *options], cwd=where)
        harness.check(f"colliding words, {times} times each, judged", (status, err) == (0, b"") and out.startswith(b"yes: "), repr((status, out, err)))


def many_words(harness):
    """So many words that the table grows a dozen times: new ones and known ones, words longer than a slot tells of, and lines of
    many words and of few."""
    draw = random.Random(64)
    words = [b"%x" % draw.getrandbits(40) + draw.choice((b"", b"", b"0123456789abcdef")) for _ in range(150_000)]
    told = words + draw.choices(words, k=60_000) + draw.choices(words[:50], k=40_000)
    draw.shuffle(told)
    told += [word for word in words[:500] for _ in range(3)]
    data = b"".join(word + draw.choice((b" ", b" ", b" ", b"\n", b"\n\n")) for word in told)
    counts, parts = Counter(told), 3
    wanted = [b"".join(b"%s\t%d\n" % (word, counts[word]) for word in sorted(counts) if fnv(word) % parts == p) for p in range(parts)]
    options = ["--job", "words", "--parts", str(parts), "--out", ".", "input"]
    status, out, err, where = harness.run(["seq", *options], {"input": data})
    harness.check("many words", (status, err) == (0, b"") and parts_of(where) == wanted, repr((status, out, err)))
    status, out, err, _ = harness.run(["check", *options], cwd=where)
    harness.check("many words, judged", (status, out, err) == (0, b"yes: %d pairs, 0 left out\n" % len(told), b""), repr((status, out, err)))


GROUPS = {"colliding words": counted_once, "many words": many_words}
