"""What each job emits for a single line, worked out by hand."""
from rows import row

WORDS, CASE, URL = ["--job", "words"], ["--job", "words", "--keep-case"], ["--job", "url"]
INDEX, INDEX_CASE = ["--job", "index"], ["--job", "index", "--keep-case"]
LINES, FOLDED = ["--job", "grep", "--literal", "b"], ["--job", "grep", "--literal", "AB", "--fold"]

LOG = b'1.2.3.4 - - [10/Oct/2000:13:55:36 -0700] "GET /a HTTP/1.0" 200 2326'

ROWS = [
    (WORDS, b"\x41\x62\x20\xc3\x84\x42", 2, b"ab\t1\n\xc3\x84\x62\t1\n"),
    (CASE, b"\x41\x62\x20\xc3\x84\x42", 2, b"Ab\t1\n\xc3\x84\x42\t1\n"),
    (WORDS, b"a" * 65, 1, b"a" * 65 + b"\t1\n"),
    (WORDS, b"a b,a", 3, b"a\t2\nb\t1\n"),
    (WORDS, b" -\r", 0, b""),
    (WORDS, b"", 0, b""),
    (LINES, b"abc", 1, b"abc\t0:0\n"),
    (LINES, b"xbz", 1, b"xbz\t0:0\n"),
    (LINES, b"b\r", 1, b"b\r\t0:0\n"),
    (LINES, b"xBz", 0, b""),
    (LINES, b"", 0, b""),
    (FOLDED, b"xab", 1, b"xab\t0:0\n"),
    (FOLDED, b"b", 0, b""),
    (FOLDED, b"aB", 1, b"aB\t0:0\n"),
    (URL, LOG, 1, b"/a\t1\n"),
    (URL, b'h "-" 1', 0, b""),
    (URL, b'h "GET  /a" 1', 0, b""),
    (URL, b'h "GET /a 1', 0, b""),
    (URL, b'h - - [t] "GET /a\\"b HTTP/1.0" 200 1', 1, b'/a\\"b\t1\n'),
    (URL, b'"GET /a\\ b"', 1, b"/a\\\t1\n"),
    (URL, b'"GET /a\\', 0, b""),
    (URL, b'" /a"', 1, b"/a\t1\n"),
    (URL, b"no quote", 0, b""),
    (INDEX, b"\x41\x62\x20\xc3\x84\x42", 2, b"ab\t0\n\xc3\x84\x62\t0\n"),
    (INDEX_CASE, b"\x41\x62\x20\xc3\x84\x42", 2, b"Ab\t0\n\xc3\x84\x42\t0\n"),
    (INDEX, b"a b,a", 3, b"a\t0\nb\t0\n"),
    (INDEX, b"a" * 65, 1, b"a" * 65 + b"\t0\n"),
    (INDEX, b" -\r", 0, b""),
    (INDEX, b"", 0, b""),
]


def single_lines(harness):
    for job, line, pairs, text in ROWS:
        for ended in (line, line + b"\n"):
            row(harness, f"{job} of {ended}", ["seq", *job], {"a": ended}, out=b"done: 1 files, %d pairs, 0 left out\n" % pairs, parts=[text])


GROUPS = {"single lines": single_lines}
