"""`picture`: each refusal of a history by its line, each event of the master's table in a picture, names that are escaped, the
histories of real runs, and random damages of them. What a history is, is worked out here, line by line."""
import html
import os
import random
import re

from harness import random_text, seeded

EASY = b"""history 1 maps 1 parts 1 workers 1 attempts 8 skips 1
ask 0: map attempt 0 split 0
map-failed attempt 0 record 0: accepted
ask 0: map attempt 1 split 0
map-failed attempt 1 record 0: accepted
ask 0: map attempt 2 split 0 without 0
map-done attempt 2 output 5: accepted
ask 0: reduce attempt 3 partition 0
fetch attempt 3 split 0: output 5
reduce-done attempt 3 output 8: accepted
ask 0: stop done
"""

# Each event of the master's table with each reply that it may have: two workers, two splits, one partition.
TABLE = b"""history 1 maps 2 parts 1 workers 3 attempts 8 skips 4
ask 0: map attempt 0 split 0
ask 1: map attempt 1 split 1
ask 2: wait
map-failed attempt 0 record 3: accepted
ask 0: map attempt 2 split 0 without 1 3
map-done attempt 2 output 5: accepted
map-done attempt 2 output 6: ignored
map-failed attempt 2 record 3: ignored
map-done attempt 1 output 8: accepted
ask 0: reduce attempt 3 partition 0
fetch attempt 3 split 0: output 5
damaged attempt 3 split 0: accepted
fetch attempt 3 split 1: ignored
damaged attempt 3 split 0: ignored
ask 0: map attempt 4 split 0
map-done attempt 4 output 15: ignored
ask 0: map attempt 5 split 0 without 1 3
map-done attempt 5 output 17: accepted
ask 0: reduce attempt 6 partition 0
ask 2: reduce attempt 7 partition 0
lose 1: accepted
lose 1: ignored
ask 1: stop dismissed
fetch attempt 6 split 1: gone
ask 0: map attempt 8 split 1
map-done attempt 8 output 25: accepted
ask 0: reduce attempt 9 partition 0
reduce-done attempt 9 output 27: ignored
ask 0: reduce attempt 10 partition 0
fetch attempt 10 split 0: output 17
fetch attempt 10 split 1: output 25
reduce-done attempt 10 output 31: accepted
reduce-done attempt 7 output 32: ignored
ask 0: stop done
"""

NUMBER = r"(0|[1-9][0-9]*)"
LINES = re.compile(
    rf"ask {NUMBER}: (?:map attempt {NUMBER} split {NUMBER}( without(?: {NUMBER})+)?|reduce attempt {NUMBER} partition {NUMBER}"
    rf"|wait|stop (?:done|dismissed|failed (?:TooManyAttempts|TooManySkips|NoWorkers)))"
    rf"|fetch attempt {NUMBER} split {NUMBER}: (?:output {NUMBER}|gone|ignored)"
    rf"|(?:map-done|reduce-done) attempt {NUMBER} output {NUMBER}: (?:accepted|ignored)"
    rf"|map-failed attempt {NUMBER} record {NUMBER}: (?:accepted|ignored)|lose {NUMBER}: (?:accepted|ignored)"
    rf"|damaged attempt {NUMBER} split {NUMBER}: (?:accepted|ignored)"
)
FIRST = re.compile(rf"history 1 maps {NUMBER} parts {NUMBER} workers {NUMBER} attempts {NUMBER} skips {NUMBER}")


def allowed(line, at, tasks, maps, parts, workers):
    """Whether a line may be the event of that number, behind asks that gave these tasks. It adds the task that it gives."""
    if not LINES.fullmatch(line) or any(int(n) >= 1 << 32 for n in re.findall("[0-9]+", line)):
        return False
    event, reply = line.split(": ")
    word, *rest = event.split()
    said = reply.split()
    if word == "ask":
        if said[0] in ("map", "reduce"):
            if int(said[2]) != len(tasks) or int(said[4]) >= (maps if said[0] == "map" else parts):
                return False
            tasks.append(said[0])
        return int(rest[0]) < workers
    if word == "lose":
        return int(rest[0]) < workers
    attempt, number = int(rest[1]), int(rest[3])
    if attempt >= len(tasks) or tasks[attempt] != ("map" if word.startswith("map") else "reduce"):
        return False
    if word in ("fetch", "damaged"):
        return number < maps and (said[0] != "output" or int(said[1]) < at)
    return word == "map-failed" or number == at


def first_bad(text):
    """The number of a text's first line that isn't one of a history; none where it is a history."""
    lines = text.decode("latin-1").split("\n")
    closed = lines.pop() == ""
    shape = lines and (closed or len(lines) > 0) and FIRST.fullmatch(lines[0])
    if not shape:
        return 1
    maps, parts, workers, attempts, skips = map(int, shape.groups())
    if maps > 1 << 20 or not 1 <= parts <= 1024 or not 1 <= workers <= 64 or not 1 <= attempts <= 16 or skips > 1000:
        return 1
    tasks = []
    for at, line in enumerate(lines[1:]):
        if not allowed(line, at, tasks, maps, parts, workers):
            return at + 2
    return None if closed else len(lines) + 1


def drawn(harness, text, name="history", out="page.html", where=None):
    """What one call says of a history, and the page, if there is one."""
    where = harness.directory({name: text}, where)
    got = harness.run([b"picture", os.fsencode(name), b"--out", os.fsencode(out)], cwd=where)[:3]
    path = os.path.join(where, out)
    return got, open(path, "rb").read() if os.path.exists(path) else None


def yes(events):
    return 0, b"drawn: %d events\n" % events, b""


def no(line):
    return 1, b"", b"mapred: BadHistory line %d\n" % line


def edited(old, new, text=EASY):
    assert old in text, old
    return text.replace(old, new, 1)


REFUSALS = [
    ("an empty text", b"", 1),
    ("a first line alone, without its end", b"history 1 maps 1 parts 1 workers 1 attempts 8 skips 1", 1),
    ("another version", edited(b"history 1", b"history 2"), 1),
    ("too many splits", edited(b"maps 1", b"maps 1048577"), 1),
    ("no partition", edited(b"parts 1", b"parts 0"), 1),
    ("too many workers", edited(b"workers 1", b"workers 65"), 1),
    ("a zero in front in the first line", edited(b"maps 1", b"maps 01"), 1),
    ("a number past 64 bits", edited(b"maps 1", b"maps 18446744073709551617"), 1),
    ("an empty line", edited(b"map-failed", b"\nmap-failed"), 3),
    ("a carriage return", edited(b"split 0\n", b"split 0\r\n"), 2),
    ("a space too many", edited(b"ask 0: map", b"ask 0:  map"), 2),
    ("a space at the end", edited(b"split 0\n", b"split 0 \n"), 2),
    ("a zero in front", edited(b"attempt 1 split", b"attempt 01 split"), 4),
    ("a sign", edited(b"attempt 1 split", b"attempt +1 split"), 4),
    ("a last line without its end", EASY[:-1], 11),
    ("a worker that isn't there", edited(b"ask 0: stop", b"ask 1: stop"), 11),
    ("a split that isn't there", edited(b"attempt 1 split 0", b"attempt 1 split 1"), 4),
    ("a partition that isn't there", edited(b"partition 0", b"partition 1"), 8),
    ("an attempt given twice", edited(b"map attempt 1", b"map attempt 0"), 4),
    ("an attempt left out", edited(b"map attempt 1", b"map attempt 2"), 4),
    ("a report of an attempt that nobody was given", edited(b"map-failed attempt 0", b"map-failed attempt 7"), 3),
    ("a map's report of a reduce attempt", edited(b"reduce-done attempt 3", b"map-done attempt 3"), 10),
    ("a fetch by a map attempt", edited(b"fetch attempt 3", b"fetch attempt 2"), 9),
    ("another output's number", edited(b"attempt 2 output 5", b"attempt 2 output 4"), 7),
    ("an output of a later event", edited(b"split 0: output 5", b"split 0: output 7"), 9),
    ("a loss that waits", EASY + b"lose 0: wait\n", 12),
    ("an ask that is accepted", EASY + b"ask 0: accepted\n", 12),
    ("a fetch that is accepted", edited(b"output 5\nreduce", b"accepted\nreduce"), 9),
    ("the word without, and no record", edited(b"without 0", b"without"), 6),
    ("a failure of another name", edited(b"stop done", b"stop failed Tired"), 11),
    ("two bad lines", edited(b"stop done", b"stop", edited(b"attempt 1 split", b"attempt 9 split")), 4),
]


def rows(harness):
    """Each refusal by hand, and the histories of the documents."""
    for name, text, line in REFUSALS:
        got, page = drawn(harness, text)
        harness.check(name, (got, page, first_bad(text)) == (no(line), None, line), repr((got, first_bad(text))))
    for name, text in [("the history of FORMATS", EASY), ("each event", TABLE), ("no event", EASY[: EASY.index(b"\n") + 1])]:
        got, page = drawn(harness, text)
        harness.check(name, got == yes(text.count(b"\n") - 1) and page and first_bad(text) is None, repr(got))
    where = harness.directory({"history": EASY})
    for words, told in [
        (["picture", "none", "--out", "page"], (3, b"", b"mapred: cannot read none\n")),
        (["picture", "history", "--out", "none/page"], (3, b"", b"mapred: cannot write none/page\n")),
        (["picture", "history", "--out", "history"], (2, b"", b"mapred: SameFile history\n")),
        (["picture", "history", "--out", "./history"], (2, b"", b"mapred: SameFile ./history\n")),
    ]:
        got = harness.run(words, cwd=where)[:3]
        harness.check(" ".join(words), got == told, repr(got))
    harness.check("no history is written over", open(os.path.join(where, "history"), "rb").read() == EASY)


def labels_of(page):
    """The labels of a page's marks, in order."""
    return [html.unescape(text) for text in re.findall("<g class=\"k\"[^>]*><title>([^<]*)</title>", page.decode())]


def events(harness):
    """Each line of a history is the label of a mark, in order; reasons, backups and losses are told; no script is fetched."""
    for text in (EASY, TABLE):
        page = drawn(harness, text)[1] or b""
        labels, lines = labels_of(page), text.decode().splitlines()[1:]
        for at, line in enumerate(lines):
            label = labels[at] if at < len(labels) else ""
            harness.check(line, re.match(f"event {at}, worker [0-9]+: {re.escape(line)}($|,)", label), label)
        harness.check("as many marks as events", len(labels) == len(lines))
    labels = labels_of(drawn(harness, TABLE)[1] or b"") + [""] * 40
    for at, told in [
        (6, ", since the attempt was no longer live"),
        (15, ", since another left-out set was fixed for the split"),
        (19, ", as a backup"),
        (20, ", and its outputs went with it, 1 in all: splits 1"),
        (21, ", since the worker was lost already"),
        (27, ", since it had not fetched every output"),
        (32, ", since the job had ended"),
    ]:
        harness.check(f"event {at} tells more", labels[at].endswith(told), labels[at])
    page = drawn(harness, TABLE)[1] or b""
    harness.check("nothing from outside", not re.search(rb"(src|href)=\"[^#]|url\([^#]|@import|https?:", page))


def names(harness):
    """A name is a text, whatever is in it."""
    for name, shown in [
        (b"<script>", "&lt;script&gt;"),
        (b"a&b\"c'd", "a&amp;b&quot;c&#39;d"),
        (b"\x01\x1b\x7f", "\ufffd\ufffd\ufffd"),
        ("\u0085Zürich".encode(), "\ufffdZürich"),
        ("Zürich".encode(), "Zürich"),
    ]:
        page = (drawn(harness, EASY, name)[1] or b"").decode()
        harness.check(f"the name {name}", f"<title>{shown}</title>" in page and f"<h1>The run of {shown}</h1>" in page, page[:300])


def random_history(harness, rnd):
    """The history of a real run under a random script."""
    where = harness.directory({"in": random_text(rnd, rnd.randrange(1, 3000))})
    os.makedirs(os.path.join(where, "out"))
    os.makedirs(os.path.join(where, "scratch"))
    workers = rnd.randint(1, 5)
    lines = []
    for _ in range(rnd.randint(0, 5)):
        lines.append(rnd.choice([
            f"lose {rnd.randrange(workers)} after {rnd.randrange(4)}", f"zombie {rnd.randrange(workers)} after {rnd.randrange(4)}",
            f"bad {rnd.randrange(4)} {rnd.randrange(3)}", f"flaky {rnd.randrange(4)} {rnd.randrange(3)} {rnd.randrange(4)}",
            f"hold {rnd.randrange(workers)}", f"spoil {rnd.randrange(2)} {rnd.randrange(9)}", f"damage {rnd.randrange(4)} {rnd.randrange(2)} {rnd.randrange(60)}",
        ]))
    harness.directory({"script": "".join(line + "\n" for line in lines).encode()}, where)
    words = ["run", "--job", "words", "--parts", str(rnd.randint(1, 3)), "--split", str(rnd.choice([64, 200, 1000])), "--max-skips", str(rnd.randint(0, 3))]
    words += ["--workers", str(workers), "--attempts", str(rnd.randint(1, 8)), "--script", "script", "--history", "history", "--out", "out"]
    harness.run([*words, *(["--scratch", "scratch"] if rnd.random() < 0.5 else []), "in"], cwd=where)
    with open(os.path.join(where, "history"), "rb") as file:
        return file.read()


def damaged(text, rnd):
    """A history with something changed: a byte, a line, a number or its end."""
    lines = text.splitlines(keepends=True)
    at, kind = rnd.randrange(len(lines)), rnd.randrange(6)
    if kind == 0:
        place = rnd.randrange(len(text))
        return text[:place] + bytes([rnd.randrange(256)]) + text[place + 1 :]
    if kind == 1:
        return text[: rnd.randrange(len(text))]
    if kind == 2:
        return b"".join(lines[:at] + lines[at + 1 :])
    if kind == 3:
        return b"".join(lines[:at] + [rnd.choice(lines)] + lines[at:])
    if kind == 4:
        lines[at] = re.sub(rb"[0-9]+", lambda m: rnd.choice([m[0], b"%d" % rnd.choice([0, 1, 2, 9, 4294967295, 4294967296, 1 << 64])]), lines[at])
        return b"".join(lines)
    return b"".join(lines[:at] + [lines[at].replace(b" ", b"  ", 1)] + lines[at + 1 :])


def random_runs(harness, runs=60, each=5):
    """Histories of real runs are drawn; damaged ones are refused at the line that plain Python finds, or drawn."""
    rnd = seeded("picturing")
    for number in range(runs):
        text = random_history(harness, rnd)
        got, page = drawn(harness, text)
        harness.check(f"history {number}", got == yes(text.count(b"\n") - 1) and page and first_bad(text) is None, repr((got, first_bad(text), text)))
        for _ in range(each):
            bad = damaged(text, rnd)
            got, line = drawn(harness, bad)[0], first_bad(bad)
            harness.check(f"damaged history {number}", got == (no(line) if line else yes(bad.count(b"\n") - 1)), repr((got, line, bad)))


def large(harness):
    """A history of 100,000 events is folded, into a page of bounded size; large numbers take no memory."""
    lines = [b"history 1 maps 1048576 parts 1024 workers 64 attempts 16 skips 1000"] + [b"ask %d: wait" % (at % 64) for at in range(100_000)]
    got, page = drawn(harness, b"\n".join(lines) + b"\n")
    harness.check("100,000 events", got == yes(100_000) and page and page.count(b"<") < 24_000 and len(page) < 2_000_000, repr(got))
    rnd = random.Random(7)
    text = b"history 1 maps 0 parts 1 workers 1 attempts 16 skips 0\n" + b"lose 0: ignored\n" * rnd.randrange(5000, 6000)
    harness.check("ignored alone", drawn(harness, text)[0] == yes(text.count(b"\n") - 1))


GROUPS = {"picture": rows, "picture, each event": events, "picture, names": names, "picture, random runs": random_runs, "picture, large": large}
