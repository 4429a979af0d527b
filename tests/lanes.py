"""Kernels over blocks of bytes, against plain loops: what the library `mr_lanes` answers at every length up to 200 and at
every place beside the borders of blocks, and where its search gives up its first way.

It is reached through a small program, `mr_rows_tests`, which the gate leaves beside the checked one: it reads cases on
standard input, and answers each by a line. What is wanted is worked out here, a byte at a time, or by hand."""
import random
import struct
import subprocess

from libraries import built, words_of

PLANES, LINES, WORDS, FOLDED, FIND, DIFFERENCE, HASHES, EACH_WORD = range(8)

BLOCK = 64
WINDOW = 16384
LONGEST_LITERAL = 4096


def answers(cases):
    """The line that answers each case (kernel, text, text)."""
    sent = b"".join(struct.pack(">BI", kernel, len(a)) + a + struct.pack(">I", len(b)) + b for kernel, a, b in cases)
    ran = subprocess.run(words_of("kernels"), input=sent, capture_output=True)
    lines = ran.stdout.decode().splitlines()
    return lines if ran.returncode == 0 and len(lines) == len(cases) else [f"status {ran.returncode}"] * len(cases)


# What is wanted, by plain loops.


def is_upper(byte):
    return 0x41 <= byte <= 0x5A


def is_word_byte(byte):
    return 0x30 <= byte <= 0x39 or is_upper(byte) or 0x61 <= byte <= 0x7A or 0x80 <= byte


def fold(byte):
    return byte + 32 if is_upper(byte) else byte


def optional(value):
    return "None" if value is None else f"Some({value})"


def planes(block, _):
    def mask(holds):
        return sum(1 << i for i, byte in enumerate(block) if holds(byte))

    return f"Planes {{ lf: {mask(lambda byte: byte == 10)}, word: {mask(is_word_byte)}, upper: {mask(is_upper)} }}"


def line_ends(a, b):
    """The ends of all lines, and those again that lie as far from both ends of the text as the second text is long."""
    places, apart = [place for place, byte in enumerate(a) if byte == 10], min(len(b), len(a) // 2)
    return str([7] + places + [place for place in places if apart <= place < len(a) - apart])


def words(a):
    spans, start = [], None
    for place, byte in enumerate(a):
        if is_word_byte(byte) and start is None:
            start = place
        elif not is_word_byte(byte) and start is not None:
            spans.append((start, place))
            start = None
    return spans if start is None else spans + [(start, len(a))]


def shown(spans):
    return "[" + ", ".join(f"Span {{ start: {start}, end: {end} }}" for start, end in spans) + "]"


def word_spans(a, _):
    return shown([(7, 8)] + words(a))


def next_word(a, _):
    return shown(words(a))


def fold_into(a, _):
    return str([ord("X")] + [fold(byte) for byte in a])


def find_folded(a, b):
    for place in range(len(a) - len(b) + 1):
        if all(fold(x) == fold(y) for x, y in zip(a[place:], b)):
            return optional(place)
    return optional(None)


def first_difference(a, b):
    for place in range(max(len(a), len(b))):
        if a[place : place + 1] != b[place : place + 1]:
            return optional(place)
    return optional(None)


def fnv(key):
    value = 0xCBF29CE484222325
    for byte in key:
        value = ((value ^ byte) * 0x100000001B3) % 2**64
    return value


def hashes(a, b):
    keys = (a.split(b"/") + [b""] * 8)[:8]
    values = [fnv(key) for key in keys]
    return f"{values} {[value % len(b) for value in values]} {values[0] % len(b)}"


PLAIN = [planes, line_ends, word_spans, fold_into, find_folded, first_difference, hashes, next_word]


def check_plain(harness, what, cases):
    """Checks, for each kernel and length of its text, that all cases are answered as the plain loop answers them."""
    bad = {}
    for (kernel, a, b), line in zip(cases, answers(cases)):
        wanted, notes = PLAIN[kernel](a, b), bad.setdefault((kernel, len(a)), [])
        if line != wanted:
            notes.append(f"{a[:200]!r} {b[:80]!r}: {line[:200]}, not {wanted[:200]}")
    for (kernel, size), notes in bad.items():
        harness.check(f"{what}: {PLAIN[kernel].__name__} of {size} bytes", not notes, "".join(notes[:1]))


# Worked rows.

EMPTY_HASH = 0xCBF29CE484222325

ROWS = [
    ((PLANES, b"A1\n\x80", b""), "Planes { lf: 4, word: 11, upper: 1 }"),
    ((PLANES, b"\n" * BLOCK, b""), f"Planes {{ lf: {2**64 - 1}, word: 0, upper: 0 }}"),
    ((PLANES, b" " * 63 + b"Z", b""), f"Planes {{ lf: 0, word: {2**63}, upper: {2**63} }}"),
    ((LINES, b"", b""), "[7]"),
    ((LINES, b"a\n\nb\r\n", b""), "[7, 1, 2, 5, 1, 2, 5]"),
    ((LINES, b"a\n\nb\r\n", b"xx"), "[7, 1, 2, 5, 2]"),
    ((LINES, b"\n\n\n", b"xx"), "[7, 0, 1, 2, 1]"),
    ((WORDS, b"a" * 64 + b"-a", b""), "[Span { start: 7, end: 8 }, Span { start: 0, end: 64 }, Span { start: 65, end: 66 }]"),
    ((WORDS, b"a" * 65, b""), "[Span { start: 7, end: 8 }, Span { start: 0, end: 65 }]"),
    ((EACH_WORD, b"a" * 15 + b"-" + b"b" * 16 + b" c", b""), "[Span { start: 0, end: 15 }, Span { start: 16, end: 32 }, Span { start: 33, end: 34 }]"),
    ((EACH_WORD, b" -\n", b""), "[]"),
    ((FOLDED, b"@AZ[`az{\xc4", b""), "[88, 64, 97, 122, 91, 96, 97, 122, 123, 196]"),
    ((FIND, b"xAbaB", b"aB"), "Some(1)"),
    ((FIND, b"\xc3\x84", b"\xc3\xa4"), "None"),
    ((FIND, b"", b""), "Some(0)"),
    ((FIND, b"", b"a"), "None"),
    ((FIND, b"abc", b""), "Some(0)"),
    ((FIND, b"@[" * 40, b"`"), "None"),
    ((FIND, b"`{" * 40, b"@"), "None"),
    ((DIFFERENCE, b"abc", b"ab"), "Some(2)"),
    ((DIFFERENCE, b"abc", b"abc"), "None"),
    ((DIFFERENCE, b"", b"a"), "Some(0)"),
    ((HASHES, b"a", b"x"), f"[{0xAF63DC4C8601EC8C}{f', {EMPTY_HASH}' * 7}] [0, 0, 0, 0, 0, 0, 0, 0] 0"),
    ((HASHES, b"foobar", b"xx"), f"[{0x85944171F73967E8}{f', {EMPTY_HASH}' * 7}] [0, 1, 1, 1, 1, 1, 1, 1] 0"),
]


def worked(harness):
    for (case, wanted), line in zip(ROWS, answers([case for case, _ in ROWS])):
        harness.check(f"kernel {PLAIN[case[0]].__name__} of {case[1][:20]!r} and {case[2][:20]!r}", line == wanted, line)


# Lengths.

LETTERS = bytes([0x41, 0x5A, 0x61, 0x7A, 0x30, 0x39, 0x80, 0xFF, 0xC4, 0xE4])
OTHERS = bytes([0x0A, 0x0A, 0x20, 0x40, 0x5B, 0x60, 0x7B, 0x2F, 0x3A, 0x7F, 0x00, 0x0D])


def drawn(rnd, size, words):
    """A text in which one byte of so many stands in no word."""
    return bytes(rnd.choice(OTHERS) if rnd.randrange(words) == 0 else rnd.choice(LETTERS) for _ in range(size))


def swapped(text):
    """The text with small letters for capitals, and capitals for small letters."""
    return text.swapcase()


def changed(text, place):
    return text[:place] + bytes([text[place] ^ 0x20]) + text[place + 1 :]


def at_each_length(harness):
    rnd = random.Random(64)
    cases = []
    for size in range(201):
        for words in (2, 6, 40):
            text = drawn(rnd, size, words)
            cases.append((PLANES, text[:BLOCK].ljust(BLOCK), b""))
            cases += [(kernel, text, b"") for kernel in (LINES, WORDS, EACH_WORD, FOLDED)]
            cases.append((LINES, text, b"x" * rnd.randrange(101)))
            start = rnd.randrange(size + 1)
            cases.append((FIND, text, swapped(text[start : start + rnd.randrange(12)])))
            cases.append((FIND, text, swapped(text[start:])))
            cases.append((FIND, text, drawn(rnd, rnd.randrange(1, 4), words)))
            cases.append((DIFFERENCE, text, text))
            cases.append((DIFFERENCE, text, text[: rnd.randrange(size + 1)]))
            cases.append((DIFFERENCE, text[: rnd.randrange(size + 1)], text))
            if size:
                cases.append((DIFFERENCE, text, changed(text, rnd.randrange(size))))
                cases.append((DIFFERENCE, changed(text, size - 1), text))
            cases.append((HASHES, text.replace(b"/", b"//"), b"x" * rnd.choice([1, 2, 7, 1024])))
    check_plain(harness, "at each length", cases)


# Places beside the borders of blocks.


def at_each_place(harness):
    cases = []
    for place in range(2 * BLOCK + 3):
        before = b"-" * place
        cases += [(LINES, before + b"\n" * count + b"x" * 70, b"x" * apart) for count in (1, 2, 65) for apart in (0, 1, 64)]
        for size in (1, 2, 14, 15, 16, 17, 18, 63, 64, 65, 127, 128, 129, 300):
            word = b"w" * size
            for text in (before + word, before + word + b"-w", b"w" + before + word + b" " * 70):
                cases += [(WORDS, text, b""), (EACH_WORD, text, b"")]
        for literal in (b"z", b"Zy", b"zXy" * 10, b"zyx" * 30 + b"Y", b"z" * 200):
            hay = before + swapped(literal)
            cases += [(FIND, hay, literal), (FIND, hay + b"-" * 70 + literal, literal), (FIND, hay[:-1] + b"-" * 70, literal), (FIND, hay[:-1], literal)]
        cases.append((FIND, before + b"Zya" + b"zyZyx", b"zyX"))
        text = b"a" * 200
        cases += [(DIFFERENCE, text, changed(text, place)), (DIFFERENCE, text, text[:place]), (DIFFERENCE, text[:place], text)]
        cases.append((FOLDED, before + b"AZ@[" * 20, b""))
    check_plain(harness, "at each place", cases)


def long_keys(harness):
    """Keys of which one ends first, at each of the eight places, and keys that differ in one place alone."""
    cases = []
    for short in range(8):
        for size in (0, 1, 63, 64, 65):
            keys = [b"k" * (size if i == short else 100 + i) for i in range(8)]
            cases.append((HASHES, b"/".join(keys), b"x" * 1024))
    check_plain(harness, "eight keys", cases)


# Texts of which the first and the last byte of a literal tell too little: the search goes on by windows, or place by
# place for a literal that no job has.


def giving_up(harness):
    rows = []
    for size in (3, 65, 1000, LONGEST_LITERAL - 1, LONGEST_LITERAL, LONGEST_LITERAL + 1):
        literal = b"a" * (size // 2) + b"b" + b"A" * (size - size // 2 - 1)
        stands = swapped(literal)
        for place in (0, 1, 63, 64, 5000, WINDOW - size, WINDOW - size + 1, WINDOW - 1, WINDOW, 2 * WINDOW - 2 * size, 40000):
            place = max(place, 0)
            hay = b"a" * place + stands + b"aA" * 500
            # the literal's first half may begin earlier only where its b stands, so the least place is known
            rows.append((hay, literal, optional(place)))
            rows.append((hay + literal, literal, optional(place)))
        rows.append((b"aA" * 30000, literal, "None"))
        rows.append((b"aA" * 30000 + literal, literal, optional(60000)))
        rows.append((b"Aa" * 30000 + literal[:-1], literal, "None"))
    # long lines: a search that compared at each place would take minutes
    line = b"a" * (4 << 20)
    for literal in (b"a" * 4095 + b"b", b"a" * 2047 + b"b" + b"A" * 2048):
        rows.append((line, literal, "None"))
        rows.append((line + swapped(literal), literal, optional(len(line))))
    for (hay, literal, wanted), line in zip(rows, answers([(FIND, hay, literal) for hay, literal, _ in rows])):
        harness.check(f"a literal of {len(literal)} bytes among {len(hay)}", line == wanted, f"{line}, not {wanted}")


GROUPS = {
    "kernels, worked rows": built("mr_rows_tests", worked),
    "kernels at each length": built("mr_rows_tests", at_each_length),
    "kernels at each place": built("mr_rows_tests", at_each_place),
    "kernels, eight keys": built("mr_rows_tests", long_keys),
    "kernels, a search that gives up": built("mr_rows_tests", giving_up),
}
