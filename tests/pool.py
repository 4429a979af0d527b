"""The pool: worked runs under scripts, random ones against the rules, and what threads and memory may do to it.

The library `mr_pool` is reached through the small program `mr_pool_tests`, which the gate leaves beside the checked one: it
runs a job as its arguments say, over a script and files that stand on standard input, and tells the answer line by line."""
import os
import random
import resource
import subprocess
import tempfile
from collections import Counter
from concurrent.futures import ThreadPoolExecutor

from failing import shim
from judging import section_borders
from libraries import built
from plain import JOBS, Request, any_request, in_version_2, named_records, produced
from scripts import Allowed, drawn, misstep, written

TOP = os.path.dirname(os.path.dirname(os.path.abspath(__file__)))
PROGRAM = os.path.join(TOP, "crates", "mr_pool_tests", "out", "mr_pool_tests")
SECONDS = 120


class Answer:
    """What the program told of a run."""

    def __init__(self, text, status=0, is_late=False):
        self.status, self.is_late, self.lines = status, is_late, text.splitlines()
        words = (self.lines or [""])[0].split(" ", 1)
        self.kind, self.fault = words[0].rstrip(":"), words[1] if len(words) > 1 else ""
        of = lambda what: [line[len(what) + 1 :] for line in self.lines if line.startswith(what + " ")]
        self.outputs = [bytes.fromhex(digits) for digits in of("file")]
        self.certificate = bytes.fromhex("".join(of("certificate")))
        self.skips = [tuple(map(int, skip.split())) for skip in of("skip")]
        self.count = int((of("events") or ["-1"])[0])
        self.events = [tuple(line.split(": ", 1)) for line in self.lines if ")" in line.split(": ", 1)[0] and ": " in line]
        self.told = of("told")
        self.gate = (of("gate") or [""])[0]

    def short(self):
        return (self.kind, self.fault) if self.kind != "certified" else (self.kind, self.outputs, self.skips)

    def __repr__(self):
        return "too late" if self.is_late else f"status {self.status}: " + " | ".join(self.lines)[:1500]


def job_word(request):
    return request.literal.decode() if request.job == "grep" else "keep" if request.keep else request.job


def ran(request, files, script=b"", workers=4, attempts=8, version=1, mode="history", limit=None, folder=None, **environment):
    """The answer of a run, with its certificate in this version; grep folds."""
    sizes = [request.parts, request.split, request.most, workers, attempts, version, len(script), *map(len, files)]
    words = [PROGRAM, mode, job_word(request), *map(str, sizes)]
    try:
        done = subprocess.run(words, input=script + b"".join(files), capture_output=True, timeout=SECONDS, preexec_fn=limit, cwd=folder, env={**os.environ, **environment})
    except subprocess.TimeoutExpired:
        return Answer("", is_late=True)
    return Answer(done.stdout.decode(), done.returncode)


TWO_PARTS, ONE_PART = Request("words", parts=2, split=64), Request("words", split=64)
CATS, LETTERS = [b"the cat the dog\n"], [b"a b\nc\n"]
CATS_DONE = "certified", [b"the\t2\n", b"cat\t1\ndog\t1\n"], []
LETTERS_DONE = "certified", [b"a\t1\nb\t1\nc\t1\n"], []

# Worked by hand: request, files, script, workers, attempts, and the answer.
ROWS = [
    (TWO_PARTS, CATS, "", 1, 8, CATS_DONE),
    (TWO_PARTS, CATS, "lose 0 after 2\n", 4, 8, CATS_DONE),
    (TWO_PARTS, CATS, "hold 0\n", 2, 8, CATS_DONE),
    (TWO_PARTS, CATS, "bad 0 0\n", 4, 8, ("failed", "TooManySkips")),
    (TWO_PARTS, CATS, "lose 0 after 1\n", 1, 8, ("failed", "NoWorkers")),
    (TWO_PARTS, CATS, "lose 0 after 0\n", 1, 8, ("failed", "NoWorkers")),
    (TWO_PARTS, CATS, "spoil 0 0\n", 4, 8, ("uncertified", "OutputDiffers partition 0 at 0")),
    (TWO_PARTS, CATS, "spoil 1 7\nspoil 1 2\n", 4, 8, ("uncertified", "OutputDiffers partition 1 at 2")),
    (TWO_PARTS, CATS, "spoil 0 0\nspoil 0 0\n", 4, 8, CATS_DONE),
    (TWO_PARTS, CATS, "spoil 0 6\nspoil 2 0\n", 4, 8, CATS_DONE),
    (TWO_PARTS, [], "", 4, 8, ("certified", [b"", b""], [])),
    (TWO_PARTS, CATS, "damage 0 0 0\n", 1, 8, CATS_DONE),
    (TWO_PARTS, CATS, "damage 0 1 24\n", 1, 8, ("uncertified", "OutputDiffers partition 1 at 0")),
    (TWO_PARTS, CATS, "damage 0 1 24\ndamage 0 1 24\n", 1, 8, CATS_DONE),
    (TWO_PARTS, CATS, "damage 0 2 0\ndamage 1 0 0\ndamage 0 0 4000\n", 1, 8, CATS_DONE),
    (ONE_PART, [b"a\n"], "damage 0 0 36\n", 1, 8, ("uncertified", "NoSuchPair partition 0 group 0 entry 0")),
    (TWO_PARTS, CATS, "damage 0 0 0\n", 1, 1, ("failed", "TooManyAttempts")),
    (TWO_PARTS, CATS, "damage 0 0 19\ndamage 0 1 8\n", 4, 16, CATS_DONE),
    (ONE_PART, LETTERS, "flaky 0 0 1\n", 1, 8, LETTERS_DONE),
    (ONE_PART, LETTERS, "flaky 0 0 2\n", 1, 8, ("failed", "TooManySkips")),
    (ONE_PART, LETTERS, "flaky 0 0 1\n", 1, 1, ("failed", "TooManyAttempts")),
    (ONE_PART, LETTERS, "zombie 0 after 0\n", 1, 8, ("failed", "NoWorkers")),
    (ONE_PART, LETTERS, "bad 7 7\n", 1, 8, LETTERS_DONE),
    (ONE_PART, LETTERS, "bad 0 2\nlose 1 after 0\nhold 9\n", 1, 8, LETTERS_DONE),
    (Request("words", split=64, most=1), LETTERS, "bad 0 0\n", 1, 8, ("certified", [b"c\t1\n"], [(0, 0)])),
    (Request("words", split=64, most=1), LETTERS, "bad 0 0\nbad 0 1\n", 1, 8, ("failed", "TooManySkips")),
    (Request("words", split=64, most=2), LETTERS, "bad 0 1\nbad 0 0\n", 1, 8, ("certified", [b""], [(0, 0), (0, 1)])),
]


def worked_runs(harness):
    for request, files, script, workers, attempts, wanted in ROWS:
        answer = ran(request, files, script.encode(), workers, attempts)
        harness.check(f"{script!r}, {workers} workers", answer.short() == wanted and answer.status == 0, repr(answer))
        second = ran(request, files, script.encode(), workers, attempts, version=2)
        same = in_version_2(answer.certificate) == second.certificate if wanted[0] == "certified" else second.certificate == b""
        harness.check(f"{script!r}, {workers} workers, version 2", same and second.short() == wanted and second.status == 0, repr(second))
    for request, files, script, workers, attempts, wanted in ROWS:
        with tempfile.TemporaryDirectory() as folder:
            answer = ran(request, files, script.encode(), workers, attempts, mode="scratch", folder=folder)
            harness.check(f"{script!r}, {workers} workers, regions in files", answer.short() == wanted and answer.status == 0, repr(answer))
    answer = ran(TWO_PARTS, CATS, workers=1)
    harness.check("one worker makes nine events", answer.count == 9 == len(answer.events), repr(answer))
    answer = ran(Request("words", split=64, most=1), LETTERS, b"bad 0 0\n", 1)
    names = produced(Request("words", split=64), LETTERS, [(0, 0)])[1].bytes()
    harness.check("a certificate with a left-out record", answer.certificate == names and len(names) == 72, repr(answer))


def regions_in_files(harness):
    """Each region lies in a file of its own, and none is removed; a file that is there is written over. In a folder that
    isn't there none can be put, so that each worker is lost; where nothing is emitted, none is put."""
    with tempfile.TemporaryDirectory() as folder:
        for script, count in ((b"", 2), (b"damage 0 0 0\n", 4)):
            stray = os.path.join(folder, "region-00-00000000")
            with open(stray, "wb") as file:
                file.write(b"of another run, and longer than a region of this one: " * 20)
            answer = ran(TWO_PARTS, CATS, script, 1, mode="scratch", folder=folder)
            names = sorted(os.listdir(folder))
            harness.check(f"regions under {script!r}", answer.short() == CATS_DONE and names == [*(f"region-00-{n:08}" for n in range(count)), "regions.lock"], f"{answer!r} {names}")
        with open(os.path.join(folder, "region-00-00000002"), "rb") as file:
            text = file.read()
        harness.check("a region as bytes", text[:16] == b"MRREGN1\n" + bytes(8) and len(text) == 60, text.hex())
    for workers, attempts, fault in ((1, 8, "NoWorkers"), (4, 8, "NoWorkers"), (4, 2, "TooManyAttempts")):
        answer = ran(TWO_PARTS, CATS, b"", workers, attempts, mode="nowhere")
        harness.check(f"no folder, {workers} workers, {attempts} attempts", answer.short() == ("failed", fault), repr(answer))
    answer = ran(TWO_PARTS, [b""], mode="nowhere")
    harness.check("no folder, and nothing to put", answer.short() == ("certified", [b"", b""], []), repr(answer))


# Of one worker each event is determined, but for which of several tasks is given.
MAP = "Map {{ attempt: {}, split: 0, skips: Skips {{ items: [{}] }} }}"
REDUCE = "Reduce {{ attempt: {}, partition: 0 }}"
HISTORIES = {
    "lose 0 after 1\n": [("Ask(0)", MAP.format(0, "")), ("MapDone(0, 1)", "Accepted"), ("Lose(0)", "Accepted")],
    "damage 0 0 0\n": [
        ("Ask(0)", MAP.format(0, "")),
        ("MapDone(0, 1)", "Accepted"),
        ("Ask(0)", REDUCE.format(1)),
        ("Fetch(1, 0)", "Region { output: 1 }"),
        ("Damaged(1, 0)", "Accepted"),
        ("Ask(0)", MAP.format(2, "")),
        ("MapDone(2, 6)", "Accepted"),
        ("Ask(0)", REDUCE.format(3)),
        ("Fetch(3, 0)", "Region { output: 6 }"),
        ("ReduceDone(3, 9)", "Accepted"),
        ("Ask(0)", "Stop(Done)"),
    ],
    "zombie 0 after 0\nhold 0\n": [("Ask(0)", MAP.format(0, "")), ("Lose(0)", "Accepted"), ("MapDone(0, 2)", "Ignored"), ("Ask(0)", "Stop(Failed(NoWorkers))")],
    "zombie 0 after 1\n": [
        ("Ask(0)", MAP.format(0, "")),
        ("MapDone(0, 1)", "Accepted"),
        ("Ask(0)", REDUCE.format(1)),
        ("Fetch(1, 0)", "Region { output: 1 }"),
        ("Lose(0)", "Accepted"),
        ("ReduceDone(1, 5)", "Ignored"),
        ("Ask(0)", "Stop(Failed(NoWorkers))"),
    ],
    "flaky 0 1 1\nflaky 0 0 1\n": [
        ("Ask(0)", MAP.format(0, "")),
        ("MapFailed(0, 0)", "Accepted"),
        ("Ask(0)", MAP.format(1, "")),
        ("MapFailed(1, 1)", "Accepted"),
        ("Ask(0)", MAP.format(2, "")),
        ("MapDone(2, 5)", "Accepted"),
        ("Ask(0)", REDUCE.format(3)),
        ("Fetch(3, 0)", "Region { output: 5 }"),
        ("ReduceDone(3, 8)", "Accepted"),
        ("Ask(0)", "Stop(Done)"),
    ],
    "bad 0 1\n": [
        ("Ask(0)", MAP.format(0, "")),
        ("MapFailed(0, 1)", "Accepted"),
        ("Ask(0)", MAP.format(1, "")),
        ("MapFailed(1, 1)", "Accepted"),
        ("Ask(0)", MAP.format(2, "1")),
        ("MapDone(2, 5)", "Accepted"),
        ("Ask(0)", REDUCE.format(3)),
        ("Fetch(3, 0)", "Region { output: 5 }"),
        ("ReduceDone(3, 8)", "Accepted"),
        ("Ask(0)", "Stop(Done)"),
    ],
}


def worked_histories(harness):
    for script, wanted in HISTORIES.items():
        answer = ran(Request("words", split=64, most=1), LETTERS, script.encode(), 1)
        harness.check(f"the history under {script!r}", answer.events == wanted, repr(answer))


def a_gate(harness):
    """The first attempt that enters is held until another has left: so more than one worker is at work."""
    for workers in (2, 4, 64):
        answer = ran(TWO_PARTS, CATS, workers=workers, mode="gate")
        harness.check(f"of {workers} workers one goes on while another is held", answer.gate == "passed" and answer.short() == CATS_DONE, repr(answer))
    answer = ran(TWO_PARTS, CATS, workers=1, mode="gate")
    harness.check("one worker can't", answer.gate == "failed" and answer.short() == CATS_DONE, repr(answer))
    library = shim(harness)
    if library is not None:
        answer = ran(TWO_PARTS, CATS, workers=4, mode="gate", LD_PRELOAD=library, FAIL="thread 1")
        harness.check("four workers on one thread can't", answer.gate == "failed" and answer.short() == CATS_DONE, repr(answer))


def a_backup_whose_output_is_lost(harness):
    """The first attempt is held until another worker has done its task; and one of the two is lost behind its first report.
    Where that is the other one, the task's output is lost with it, and the held attempt can't leave off, though it was told
    to: it goes on with the task."""
    for lost in (0, 1):
        for _ in range(10):
            answer = ran(TWO_PARTS, CATS, b"lose %d after 1\n" % lost, workers=2, mode="gate")
            harness.check(f"worker {lost} is lost behind a backup", answer.gate == "passed" and answer.short() == CATS_DONE, repr(answer))


def threads_that_judge(harness):
    """The first section is held until another has left, and so the first window: so more than one thread judges entries, and maps."""
    request, files = Request("words", parts=2, split=2), [b"a\nb\n"]
    for threads in (2, 4, 64):
        answer = ran(request, files, workers=threads, mode="judge")
        harness.check(f"{threads} threads share the partitions and the windows", answer.lines == ["yes 2 0", "gate passed, passed"], repr(answer))
    answer = ran(request, files, workers=1, mode="judge")
    harness.check("one thread can't", answer.lines == ["yes 2 0", "gate failed, failed"], repr(answer))
    for threads in (1, 2, 64):
        answer = ran(Request("words", split=64), [b""], workers=threads, mode="judge")
        harness.check(f"nothing is judged by {threads} threads", answer.lines[:1] == ["yes 0 0"], repr(answer))


def tickets(harness):
    answer = ran(ONE_PART, LETTERS, mode="tickets")
    harness.check("a seat draws three numbers, and the other none", answer.lines == [f"drawn {n}" for n in ("Some(0)", "Some(1)", "Some(2)", "None", "None", "None")], repr(answer))


def who_looks_on(harness):
    request, files = Request("words", parts=2, split=2), [b"a\nb\nc\nd\n"]
    whole = ["Mapping 4 times, 4 of 4", "Reducing 2 times, 2 of 2", "Judging 7 times, 7 of 8"]
    answer = ran(request, files, workers=1, mode="watch")
    harness.check("who looks on is told each task that is done, and the judgement", answer.told == [*whole, "0 lost"], repr(answer))
    answer = ran(request, files, b"lose 0 after 4\n", 1, mode="watch")
    harness.check("who looks on at a lost worker", answer.told == [whole[0], "Reducing 0 times, 0 of 0", "Judging 0 times, 0 of 0", "1 lost"], repr(answer))
    # workers that come late are lost behind the job's end, which is no event
    answer = ran(request, files, b"lose 1 after 0\nlose 2 after 0\nlose 1 after 0\n", 4, mode="watch")
    harness.check("who looks on at several workers", answer.told in [[*whole, f"{lost} lost"] for lost in range(3)], repr(answer))
    answer = ran(request, files, b"lose 0 after 1\nlose 1 after 1\n", 3, mode="watch")
    times, most = (answer.told[0].split()[1], answer.told[0].split(", ")[1]) if answer.told else ("0", "")
    harness.check("what is mapped again is never told as more than all", int(times) >= 4 and most == "4 of 4", repr(answer))


def window_count(request, files):
    """How many windows the judge cuts an input into. Each has the same number of records of one split, but for the split's last:
    the greatest power of two of which, at their average length, 384 KiB are not exceeded."""
    splits = Counter(split for (split, _), *_ in named_records(files, request.split))
    size, records, shift = sum(map(len, files)), sum(splits.values()), 0
    while shift < 20 and size << (shift + 1) <= 393_216 * records:
        shift += 1
    return sum(-(-count >> shift) for count in splits.values())


def sections_fit(harness):
    """The judge reports each section of the partition once, and then each window of the input: so the sections fit together, and the
    borders that it guesses are right. Else it would judge anew, and report no window."""
    rnd = random.Random("sections")
    words = [b"%s%d" % (rnd.choice([b"a", b"the", b"zebra"]), n) for n in range(1500)]
    lines = {"words": lambda: b" ".join(rnd.choices(words, k=9)), "grep": lambda: b"a\t" + rnd.choice(words), "url": lambda: b'1.2.3.4 "GET /%s HTTP/1.0" 200' % rnd.choice(words)}
    for job, line in lines.items():
        request = Request(job, split=100_000, literal=b"a" if job == "grep" else b"", fold=job == "grep")
        data = b"".join(line() + b"\n" for _ in range(26_000 if job == "words" else 180_000))
        _, certificate, _ = produced(request, [data])
        windows = window_count(request, [data])
        for workers in (1, 3):
            sections = 1 + len(section_borders(certificate.partitions[0], items=max(65_536, len(data) // 32 // workers)))
            want = f"Judging {1 + sections + windows} times, {max(sections, 2 * windows) - 1} of {2 * max(sections, windows)}"
            answer = ran(request, [data], workers=workers, mode="watch")
            harness.check(f"{sections} sections under {job} fit together, by {workers} workers", sections > 2 or workers < 3, f"{sections} sections")
            harness.check(f"{sections} sections under {job} are told, by {workers} workers", answer.told[2:3] == [want], f"{answer!r} wanted {want}")


def many_tasks(harness):
    """5,000 map tasks over 64 workers."""
    lines = [b"w%d x\n" % (number % 97) for number in range(5000)]
    files, size = [b"".join(line.ljust(8, b" ")[:7] + b"\n" for line in lines)], 8
    request = Request("words", parts=8, split=size)
    outputs, certificate, pairs = produced(request, files)
    for script in (b"", b"lose 3 after 20\nlose 9 after 0\nzombie 11 after 7\nhold 5\nflaky 17 0 1\n"):
        answer = ran(request, files, script, 64, mode="brief")
        same = answer.outputs == outputs and answer.certificate == certificate.bytes()
        harness.check(f"5000 map tasks over 64 workers under {script!r}", same and answer.fault == f"{pairs} pairs", repr(answer)[:300])


# What may happen to a split of several pieces: mode, workers, script. Where the gate holds a worker until the other has done its
# task, it leaves off, or goes on where that output is lost.
OF_PIECES = [
    ("brief", 1, b""),
    ("brief", 4, b"zombie 0 after 0\nlose 1 after 1\nflaky 0 9000 1\n"),
    ("scratch", 1, b""),
    ("scratch", 4, b"lose 1 after 0\nhold 0\nflaky 0 9000 1\n"),
    ("gate", 2, b"lose 0 after 1\n"),
    ("gate", 2, b"lose 1 after 1\n"),
]


def many_pairs(harness):
    """One split of more pairs than a map task keeps at once: it is mapped in pieces, each of a run, and a reduce task takes them
    all. One worker puts four runs, each of as many records of ten words as come first to 15/16 of 65,536."""
    words = [b"w%d" % (number % 997) for number in range(200_000)]
    files = [b"".join(b" ".join(words[at : at + 10]) + b"\n" for at in range(0, len(words), 10))]
    request = Request("words", parts=2)
    outputs, certificate, _ = produced(request, files)
    for mode, workers, script in OF_PIECES:
        with tempfile.TemporaryDirectory() as folder:
            answer = ran(request, files, script, workers, mode=mode, folder=folder)
            same = answer.outputs == outputs and answer.certificate == certificate.bytes()
            harness.check(f"200,000 words in one split, {mode}, {workers} workers, {script!r}", same and answer.fault == "200000 pairs", repr(answer)[:300])
            if (mode, workers) == ("scratch", 1):
                names = sorted(os.listdir(folder))
                harness.check("four runs of two regions", names == [*(f"region-00-{n:08}" for n in range(8)), "regions.lock"], repr(names))


# The jobs whose runs are told by the program `mr_pool_tests`, and those of all runs.
TOLD_JOBS = ["words", "words", "grep", "url"]
ALL_JOBS = [*TOLD_JOBS, *JOBS]


def random_case(start, jobs=ALL_JOBS):
    """What a number draws: a request of one of the jobs, its files, the lines of a script, workers, attempts."""
    rnd = random.Random(start)
    job = rnd.choice(jobs)
    request = any_request(rnd, job)
    if jobs is TOLD_JOBS:
        request.fold, request.by_host = job == "grep", False
    request.parts, request.split, request.most = rnd.randint(1, 4), rnd.choice([3, 8, 20, 1000]), rnd.choice([0, 1, 2, 5])
    line = lambda: rnd.choice([b"a Ab c", b"AB", b"", b"xaby the x", b'h "GET /%d x" 1' % rnd.randint(0, 3), b"b b"])
    files = [b"\n".join(line() for _ in range(rnd.randint(0, 9))) + rnd.choice([b"", b"\n"]) for _ in range(rnd.randint(0, 3))]
    splits = sum((len(data) + request.split - 1) // request.split for data in files)
    workers, attempts = rnd.choice([1, 2, 4, 16, 64]), rnd.choice([1, 2, 4, 8, 16])
    return request, files, drawn(rnd, min(splits, 6), min(workers, 6), request.parts), workers, attempts


def random_run(start):
    """The answer of a run that a number draws, with its words and what it may answer. Each other one is in version 2, and each
    other two have their regions in files."""
    request, files, lines, workers, attempts = random_case(start, TOLD_JOBS)
    version, mode = 1 + start % 2, ("history", "scratch")[start // 2 % 2]
    with tempfile.TemporaryDirectory() as folder:
        answer = ran(request, files, written(lines), workers, attempts, version, mode=mode, folder=folder)
    return (start, lines, workers, attempts, version, mode), answer, Allowed(request, files, lines, workers, attempts, version)


def misfit(answer, allowed):
    """Why an answer doesn't fit, None where it does."""
    if answer.is_late or answer.status != 0:
        return "no answer"
    fits = {
        "certified": lambda: allowed.certified(answer.outputs, answer.certificate, answer.skips, int(answer.fault.split()[0])),
        "failed": lambda: allowed.failed(answer.fault),
        "uncertified": lambda: allowed.uncertified(answer.fault),
    }.get(answer.kind, lambda: False)
    if not fits():
        return "another answer than may be"
    if answer.count != len(answer.events):
        return "another number of events"
    wrong = misstep(allowed.lines, answer.events)
    return None if wrong is None else f"the script orders no {wrong}"


def random_runs(harness, first=20260, runs=400):
    """Random jobs and scripts: each answer is one that the rules allow, and each history does what its script orders."""
    print(f"random runs {first} to {first + runs - 1}")
    seen = {}
    with ThreadPoolExecutor(4) as pool:
        for words, answer, allowed in pool.map(random_run, range(first, first + runs)):
            wrong = misfit(answer, allowed)
            harness.check(f"run {words}", wrong is None, f"{wrong}: {answer!r}")
            kind = answer.kind if answer.kind != "failed" else answer.fault
            for what in [kind, *(["a record left out"] if answer.skips else [])]:
                seen[what] = seen.get(what, 0) + 1
    for what in ("certified", "uncertified", "NoWorkers", "TooManySkips", "TooManyAttempts", "a record left out"):
        harness.check(f"{what} comes in some random run", seen.get(what, 0) > 0, repr(seen))


def good_results(harness, first=70_000, runs=2800):
    """The fast judge accepts each good result by itself, without the plain one: those of random jobs and scripts, in both versions."""
    def accepted(start):
        request, files, lines, workers, attempts = random_case(start, TOLD_JOBS)
        return start, ran(request, files, written(lines), workers, attempts, 1 + start % 2, mode="accept")

    good = 0
    with ThreadPoolExecutor(4) as pool:
        for start, answer in pool.map(accepted, range(first, first + runs)):
            good += answer.lines == ["accepted true"]
            harness.check(f"the result {start} is accepted, if it is good", answer.lines in (["accepted true"], ["nothing to judge"]), repr(answer))
    harness.check("there are 2,000 good results", good >= 2000, str(good))


def each_allocation(harness):
    """Each allocation fails in turn, of one worker and of several, with regions in memory and in files: the answer is that, or
    what it is without."""
    library = shim(harness)
    if library is None:
        return
    request, script, refused = Request("words", parts=2, split=4, most=1), b"bad 0 0\nhold 0\nlose 2 after 1\nspoil 0 900\ndamage 1 0 0\n", set()
    for workers, mode in ((1, "brief"), (4, "brief"), (1, "scratch"), (4, "scratch")):
        folder = harness.directory()
        whole, number, marked = ran(request, LETTERS, script, workers, mode=mode, folder=folder), 0, True
        while marked:
            number += 1
            mark = os.path.join(harness.room, f"pool-{workers}-{mode}-{number}.mark")
            answer = ran(request, LETTERS, script, workers, mode=mode, folder=folder, LD_PRELOAD=library, FAIL=f"malloc {number}", FAIL_MARK=mark)
            marked = os.path.exists(mark)
            # the program itself ends with status 1 where it is refused memory while it reads or tells
            is_own = answer.status == 1 and answer.lines == whole.lines[: len(answer.lines)] or answer.kind == "refused"
            refused |= {answer.kind}
            fits = not answer.is_late and (marked and (answer.kind == "OutOfMemory" or is_own) or answer.short() == whole.short())
            harness.check(f"allocation {number} of {workers} workers fails, {mode}", fits, repr(answer))
        harness.check(f"{workers} workers take memory, {mode}", number > 50, str(number))
    harness.check("a run is refused memory", "OutOfMemory" in refused, repr(refused))


def no_threads(harness):
    """Where the machine can't make all threads, those that there are do the work."""
    room = lambda: resource.setrlimit(resource.RLIMIT_AS, (96 << 20, 96 << 20))
    for workers in (2, 16, 64):
        for script in (b"", b"lose 1 after 0\nhold 0\nflaky 0 0 1\n"):
            answer = ran(TWO_PARTS, CATS, script, workers, limit=room)
            harness.check(f"{workers} workers with little memory under {script!r}", answer.short() == CATS_DONE or answer.kind == "OutOfMemory", repr(answer))


ALL = {
    "worked runs": worked_runs,
    "worked histories of runs": worked_histories,
    "regions in files": regions_in_files,
    "a gate that holds a worker": a_gate,
    "a backup whose output is lost": a_backup_whose_output_is_lost,
    "threads that judge": threads_that_judge,
    "numbers that threads draw": tickets,
    "who looks on at a run": who_looks_on,
    "sections that fit together": sections_fit,
    "many tasks": many_tasks,
    "many pairs in a split": many_pairs,
    "random runs": random_runs,
    "good results accepted": good_results,
    "each allocation of a run": each_allocation,
    "runs without threads": no_threads,
}
GROUPS = {name: built("mr_pool_tests", group) for name, group in ALL.items()}
