"""`mapred run`: worked runs with exact streams and files, random jobs under random scripts against the rules and against
`seq` and `check`, the history, and what stands where a run is stopped."""
import fcntl
import os
import random
import re
import resource
import signal
import subprocess
import threading
import time
from concurrent.futures import ThreadPoolExecutor

from failing import shim, with_failing
from harness import parts_of, random_text, read_result, write_result
from hints import on_terminal
from plain import Request
from pool import CATS, LETTERS, ONE_PART, TWO_PARTS, random_case
from scripts import Allowed, written

CATS_LINE = b"certified: 2 files, 4 pairs, 0 left out\n"
CATS_PARTS = [b"the\t2\n", b"cat\t1\ndog\t1\n"]
LETTERS_LINE = b"certified: 1 files, 3 pairs, 0 left out\n"
LETTERS_PARTS = [b"a\t1\nb\t1\nc\t1\n"]
ONE_LEFT_OUT = Request("words", split=64, most=1)
INDEX, TWO_FILES = Request("index", split=64), [b"b a b\n", b"a\n"]
TWO_FILES_LINE, TWO_FILES_PARTS = b"certified: 1 files, 4 pairs, 0 left out\n", [b"a\t0,1\nb\t0\n"]

# Worked by hand: request, files, script, further words, the line on standard output, and the parts (none are written
# where nothing is certified).
ROWS = [
    (TWO_PARTS, CATS, "", [], CATS_LINE, CATS_PARTS),
    (TWO_PARTS, CATS, "lose 0 after 2\n", [], CATS_LINE, CATS_PARTS),
    (TWO_PARTS, CATS, "hold 0\n", ["--workers", "2"], CATS_LINE, CATS_PARTS),
    (TWO_PARTS, CATS, "bad 0 0\n", [], b"failed: TooManySkips\n", []),
    (ONE_LEFT_OUT, LETTERS, "bad 0 0\n", [], b"certified: 1 files, 1 pairs, 1 left out\n", [b"c\t1\n"]),
    (TWO_PARTS, CATS, "lose 0 after 1\n", ["--workers", "1"], b"failed: NoWorkers\n", []),
    (TWO_PARTS, CATS, "spoil 0 0\n", [], b"uncertified: OutputDiffers partition 0 at 0\n", []),
    (ONE_PART, LETTERS, "flaky 0 0 1\n", ["--workers", "1"], LETTERS_LINE, LETTERS_PARTS),
    (ONE_PART, LETTERS, "flaky 0 0 2\n", ["--workers", "1"], b"failed: TooManySkips\n", []),
    (ONE_PART, LETTERS, "flaky 0 0 1\n", ["--workers", "1", "--attempts", "1"], b"failed: TooManyAttempts\n", []),
    (ONE_PART, LETTERS, "zombie 0 after 0\n", ["--workers", "1"], b"failed: NoWorkers\n", []),
    (ONE_PART, LETTERS, "bad 7 7\n", ["--workers", "1"], LETTERS_LINE, LETTERS_PARTS),
    (TWO_PARTS, CATS, "damage 0 0 0\n", ["--workers", "1"], CATS_LINE, CATS_PARTS),
    (TWO_PARTS, CATS, "damage 0 1 24\n", ["--workers", "1"], b"uncertified: OutputDiffers partition 1 at 0\n", []),
    (ONE_PART, [b"a\n"], "damage 0 0 36\n", ["--workers", "1"], b"uncertified: NoSuchPair partition 0 group 0 entry 0\n", []),
    (TWO_PARTS, [], "# nothing goes wrong\n\n", [], b"certified: 2 files, 0 pairs, 0 left out\n", [b"", b""]),
    (INDEX, TWO_FILES, "", [], TWO_FILES_LINE, TWO_FILES_PARTS),
    (INDEX, TWO_FILES, "lose 0 after 1\nflaky 1 0 1\n", ["--workers", "3"], TWO_FILES_LINE, TWO_FILES_PARTS),
    (Request("index", split=64, most=1), TWO_FILES, "bad 1 0\n", [], b"certified: 1 files, 3 pairs, 1 left out\n", [b"a\t0\nb\t0\n"]),
    (INDEX, TWO_FILES, "bad 1 0\n", [], b"failed: TooManySkips\n", []),
    (INDEX, TWO_FILES, "spoil 0 4\n", [], b"uncertified: OutputDiffers partition 0 at 4\n", []),
]

# One worker, no script, a record of each partition: each event is determined.
HISTORY = b"""history 1 maps 1 parts 2 workers 1 attempts 8 skips 0
ask 0: map attempt 0 split 0
map-done attempt 0 output 1: accepted
ask 0: reduce attempt 1 partition 0
fetch attempt 1 split 0: output 1
reduce-done attempt 1 output 4: accepted
ask 0: reduce attempt 2 partition 1
fetch attempt 2 split 0: output 1
reduce-done attempt 2 output 7: accepted
ask 0: stop done
"""
LEFT_OUT_HISTORY = b"""history 1 maps 1 parts 1 workers 1 attempts 8 skips 1
ask 0: map attempt 0 split 0
map-failed attempt 0 record 0: accepted
ask 0: map attempt 1 split 0
map-failed attempt 1 record 0: accepted
ask 0: map attempt 2 split 0 without 0
map-done attempt 2 output 5: accepted
ask 0: reduce attempt 3 partition 0
fetch attempt 3 split 0: output 5
reduce-done attempt 3 output 8: accepted
ask 0: stop done
"""
DAMAGED_HISTORY = b"""history 1 maps 1 parts 1 workers 1 attempts 8 skips 0
ask 0: map attempt 0 split 0
map-done attempt 0 output 1: accepted
ask 0: reduce attempt 1 partition 0
fetch attempt 1 split 0: output 1
damaged attempt 1 split 0: accepted
ask 0: map attempt 2 split 0
map-done attempt 2 output 6: accepted
ask 0: reduce attempt 3 partition 0
fetch attempt 3 split 0: output 6
reduce-done attempt 3 output 9: accepted
ask 0: stop done
"""
LOST_HISTORY = b"""history 1 maps 1 parts 2 workers 1 attempts 8 skips 0
ask 0: map attempt 0 split 0
map-done attempt 0 output 1: accepted
lose 0: accepted
"""


def ran(harness, request, files, script=b"", words=(), where=None, **more):
    """A run in a directory with its files and its script; the result goes into a directory of its own there."""
    named = {f"in{number}": data for number, data in enumerate(files)}
    where = harness.directory({**named, "script": script}, where)
    os.makedirs(os.path.join(where, "out"), exist_ok=True)
    line = ["run", *request.options(), "--script", "script", "--history", "history", *words, "--out", "out", *named]
    return harness.run(line, cwd=where, **more)


def history_of(where):
    """What stands in the history's file; None where there is none."""
    path = os.path.join(where, "history")
    return open(path, "rb").read() if os.path.exists(path) else None


def worked_runs(harness):
    for request, files, script, words, line, parts in ROWS:
        name = f"run under {script!r} {words}"
        status, out, err, where = ran(harness, request, files, script.encode(), words)
        harness.check(name, (status, out, err) == (0 if parts else 1, line, b""), f"{status} {out} {err}")
        written_parts, certificate = read_result(os.path.join(where, "out"))
        harness.check(name + ": files", written_parts == parts and (certificate is not None) == bool(parts), repr(written_parts))
        harness.check(name + ": history", (history_of(where) or b"").startswith(b"history 1 maps "))
    for request, files, script, history in [
        (TWO_PARTS, CATS, b"", HISTORY),
        (ONE_LEFT_OUT, LETTERS, b"bad 0 0\n", LEFT_OUT_HISTORY),
        (TWO_PARTS, CATS, b"lose 0 after 1\n", LOST_HISTORY),
        (ONE_PART, LETTERS, b"damage 0 0 0\n", DAMAGED_HISTORY),
    ]:
        where = ran(harness, request, files, script, ["--workers", "1"])[3]
        harness.check(f"the history of one worker under {script!r}", history_of(where) == history, repr(history_of(where)))


def regions_in_files(harness):
    """The same rows, with regions in files of a directory: nothing else is written there, and no file is removed."""
    for request, files, script, words, line, parts in ROWS:
        name = f"run under {script!r} {words} with --scratch"
        where = harness.directory()
        os.makedirs(os.path.join(where, "scratch"))
        harness.directory({"kept": b"of another run"}, os.path.join(where, "scratch"))
        status, out, err, _ = ran(harness, request, files, script.encode(), [*words, "--scratch", "scratch"], where)
        harness.check(name, (status, out, err) == (0 if parts else 1, line, b""), f"{status} {out} {err}")
        written_parts, certificate = read_result(os.path.join(where, "out"))
        harness.check(name + ": files", written_parts == parts and (certificate is not None) == bool(parts), repr(written_parts))
        left = sorted(os.listdir(os.path.join(where, "scratch")))
        harness.check(name + ": what is left", left[:1] == ["kept"] and left[-1] == "regions.lock" and all(re.fullmatch(r"region-\d\d-\d{8}", region) for region in left[1:-1]), repr(left))
    for workers, attempts, fault in (("1", "8", b"NoWorkers"), ("4", "2", b"TooManyAttempts")):
        status, out, err, where = ran(harness, TWO_PARTS, CATS, words=["--workers", workers, "--attempts", attempts, "--scratch", "none"])
        harness.check(f"a directory that isn't there, {workers} workers", (status, out, err) == (1, b"failed: " + fault + b"\n", b""), f"{status} {out} {err}")
    where = harness.directory()
    os.makedirs(os.path.join(where, "scratch"))
    with open(os.path.join(where, "scratch", "regions.lock"), "wb") as locked:
        fcntl.flock(locked, fcntl.LOCK_EX)
        status, out, err, _ = ran(harness, TWO_PARTS, CATS, words=["--scratch", "scratch"], where=where)
        left = os.listdir(os.path.join(where, "out")), os.listdir(os.path.join(where, "scratch")), history_of(where)
        harness.check("a directory that another run has", (status, out, err, left) == (2, b"", b"mapred: ScratchInUse\n", ([], ["regions.lock"], None)), f"{status} {out} {err} {left}")
    status, out, err, _ = ran(harness, TWO_PARTS, CATS, words=["--scratch", "scratch"], where=where)
    harness.check("a directory that another run had", (status, out, err) == (0, b"certified: 2 files, 4 pairs, 0 left out\n", b""), f"{status} {out} {err}")
    where = harness.directory({"region-00-00000003": b"the cat\n", "regions.lock": b""})
    stands = sorted(os.listdir(where))
    for words, told in [
        (["region-00-00000003"], b"region-00-00000003"),
        (["./region-00-00000003"], b"./region-00-00000003"),
        (["--script", "regions.lock", "/dev/null"], b"regions.lock"),
        (["--history", "region-01-00000000", "/dev/null"], b"region-01-00000000"),
    ]:
        got = harness.run(["run", "--job", "words", "--scratch", "../" + os.path.basename(where), "--out", ".", *words], cwd=where)[:3]
        harness.check(f"{words} where regions are kept", got == (2, b"", b"mapred: SameFile " + told + b"\n") and sorted(os.listdir(where)) == stands, repr(got))
    status, out, err, where = ran(harness, TWO_PARTS, [b""], words=["--scratch", "none"])
    harness.check("a directory that isn't there, and nothing to keep", (status, out, err) == (0, b"certified: 2 files, 0 pairs, 0 left out\n", b""), f"{status} {out} {err}")


def files_of_many_partitions(harness):
    """Where partitions are many a run of a map task has more pairs, so that regions, and their files, don't become tiny."""
    text = b"".join(b"w%d\n" % (number % 997) for number in range(100_000))
    for parts, count in ((2, 4), (1024, 1024)):
        where = harness.directory()
        os.makedirs(os.path.join(where, "scratch"))
        status, out, err, _ = ran(harness, Request("words", parts=parts), [text], words=["--workers", "1", "--scratch", "scratch"], where=where)
        left = len(os.listdir(os.path.join(where, "scratch"))) - 1
        harness.check(f"regions of {parts} partitions", (status, out, err, left) == (0, b"certified: %d files, 100000 pairs, 0 left out\n" % parts, b"", count), f"{status} {out} {err} {left}")


def change_a_region(folder, rnd):
    """Does something to a region's file, of those that are there: a byte, its end, all of it, or the file goes."""
    names = [name for name in os.listdir(folder) if name.startswith("region-")]
    if not names:
        return
    path, kind = os.path.join(folder, rnd.choice(names)), rnd.randrange(4)
    if kind == 0:
        with open(path, "r+b") as file:
            place = rnd.randrange(os.path.getsize(path) + 1)
            file.seek(place)
            byte = file.read(1)
            file.seek(place)
            file.write(bytes([byte[0] ^ 1]) if byte else b"x")
    elif kind == 1:
        os.truncate(path, rnd.randrange(os.path.getsize(path) + 1))
    elif kind == 2:
        with open(os.path.join(folder, rnd.choice(names)), "rb") as other, open(path, "wb") as file:
            file.write(other.read())
    else:
        os.remove(path)


def change_regions(folder, rnd, ended, pause):
    """Goes on with that until the run has ended."""
    while not ended.wait(pause):
        try:
            change_a_region(folder, rnd)
        except OSError:
            pass


def regions_changed_under_way(harness, runs=40):
    """Files of regions are changed while a run goes on: it is certified with the right bytes, or refused by the judge, or a task
    has had all its attempts. Nothing else is told, and no wrong byte is written."""
    rnd = random.Random(int(os.environ.get("MAPRED_SEED") or 61))
    request = Request("words", parts=3, split=16384)
    where = harness.directory({"in0": random_text(rnd, 1 << 20)})
    os.makedirs(os.path.join(where, "whole"))
    harness.check("the whole", harness.run(["seq", *request.options(), "--out", "whole", "in0"], cwd=where)[0] == 0)
    whole, seen = read_result(os.path.join(where, "whole")), {}
    for number in range(runs):
        for folder in ("scratch", "out"):
            os.makedirs(os.path.join(where, f"{folder}{number}"))
        words = ["--scratch", f"scratch{number}", "--workers", str(rnd.choice([1, 2, 4, 8])), "--attempts", "16", "--out", f"out{number}"]
        ended = threading.Event()
        changer = threading.Thread(target=change_regions, args=(os.path.join(where, f"scratch{number}"), rnd, ended, rnd.choice([0, 0.001, 0.01, 0.05])))
        changer.start()
        status, out, err, _ = harness.run(["run", *request.options(), *words, "in0"], cwd=where, timeout=300)
        ended.set()
        changer.join()
        result = read_result(os.path.join(where, f"out{number}"))
        kind = out.split(b":")[0]
        refused = status == 1 and (kind == b"uncertified" or out == b"failed: TooManyAttempts\n") and result == ([], None)
        harness.check(f"run {number} {words}", err == b"" and (refused or status == 0 and kind == b"certified" and result == whole), f"{status} {out} {err}")
        seen[kind] = seen.get(kind, 0) + 1
    harness.check("some are certified, some aren't", seen.get(b"certified") and len(seen) > 1, repr(seen))


EVENT = re.compile(
    rb"(ask \d+: (map attempt \d+ split \d+( without( \d+)+)?|reduce attempt \d+ partition \d+|wait|stop (done|dismissed|failed \w+))"
    rb"|fetch attempt \d+ split \d+: (output \d+|gone|ignored)|(map|reduce)-done attempt \d+ output \d+: (accepted|ignored)"
    rb"|map-failed attempt \d+ record \d+: (accepted|ignored)|damaged attempt \d+ split \d+: (accepted|ignored)|lose \d+: (accepted|ignored))"
)


def told_by(harness, where, names, request):
    """What `check` says of a result: its status, its pairs, and the left-out records."""
    status, out, _, _ = harness.run(["check", *request.options(), "--out", "out", *names], cwd=where)
    return status, out.split(b" ", 1)[1].split(b"\n")[0], tuple(tuple(map(int, line.split()[2:])) for line in out.splitlines()[1:])


def random_run(harness, start):
    """A run that a number draws, each other one with its regions in files, and why what it left doesn't fit; None where it does."""
    request, files, lines, workers, attempts = random_case(start)
    allowed = Allowed(request, files, lines, workers, attempts)
    words, where = ["--workers", str(workers), "--attempts", str(attempts)], harness.directory()
    if start % 2:
        os.makedirs(os.path.join(where, "scratch"))
        words += ["--scratch", "scratch"]
    try:
        status, out, err, _ = ran(harness, request, files, written(lines), words, where, timeout=120)
    except subprocess.TimeoutExpired:
        return "late", "no answer"
    kind, _, rest = out.decode().rstrip("\n").partition(": ")
    head, *events = (history_of(where) or b"").splitlines()
    if err or not head.startswith(b"history 1 ") or not events or not all(EVENT.fullmatch(event) for event in events):
        return kind, f"history or standard error: {err} {events}"
    result = read_result(os.path.join(where, "out"))
    if kind != "certified":
        fits = {"failed": allowed.failed, "uncertified": allowed.uncertified}.get(kind, lambda fault: False)
        return rest if kind == "failed" else kind, None if status == 1 and fits(rest) and result == ([], None) else f"{out} {result}"
    names = [f"in{number}" for number in range(len(files))]
    verdict, pairs, skips = told_by(harness, where, names, request)
    said = rest.split(", ", 1)
    fits = (status, verdict) == (0, 0) and said[0] == f"{request.parts} files" and said[1].encode() == pairs
    fits = fits and allowed.certified(result[0], result[1], skips, int(pairs.split()[0]))
    leave = ["--skips", ",".join(f"{split}:{rec}" for split, rec in skips)] if skips else []
    os.makedirs(os.path.join(where, "seq"))
    harness.run(["seq", *request.options(), *leave, "--out", "seq", *names], cwd=where)
    same = read_result(os.path.join(where, "seq")) == result
    return kind if not skips else "a record left out", None if fits and same else f"{out} {verdict} {skips} same as seq: {same}"


def random_runs(harness, runs=320):
    """Each random run gives the files of `seq` without the records that were left out, with a yes of `check`; or it fails
    or is refused for a reason that its script accounts for, and writes no result."""
    first = int(os.environ.get("MAPRED_SEED") or 700_000)
    print(f"random runs of the program: {first} to {first + runs - 1}")
    seen = {}
    with ThreadPoolExecutor(4) as pool:
        for start, (kind, wrong) in zip(range(first, first + runs), pool.map(lambda start: random_run(harness, start), range(first, first + runs))):
            harness.check(f"run {start} {random_case(start)}", wrong is None, f"{kind}: {wrong}")
            seen[kind] = seen.get(kind, 0) + 1
    for kind in ("certified", "a record left out", "uncertified", "NoWorkers", "TooManySkips", "TooManyAttempts"):
        harness.check(f"{kind} comes in some random run", seen.get(kind, 0) > 0, repr(seen))


def faults(harness):
    """Each fault of a run: standard error, the status, and that nothing was written. Tests come in order: the line, the
    request, the script, the files."""
    words = ["run", "--job", "words", "--out", "out"]
    files = {"a": b"a b\n", "good": b"# fine\nlose 1 after 0\n", "bad": b"hold 0\n\nlose 1\n"}
    for name, more, status, err in [
        ("a bad line", ["--script", "bad", "a"], 2, b"mapred: BadLine 3\n"),
        ("a script that isn't there", ["--script", "none", "a"], 3, b"mapred: cannot read none\n"),
        ("a script that is a directory", ["--script", "out", "a"], 3, b"mapred: cannot read out\n"),
        ("a request is tested before a script", ["--parts", "0", "--script", "bad", "a"], 2, b"mapred: BadParts\n"),
        ("an option of another job before a script", ["--fold", "--script", "bad", "a"], 2, b"mapred: option does not belong to this job\n"),
        ("a script is tested before files", ["--script", "bad", "none"], 2, b"mapred: BadLine 3\n"),
        ("a file that isn't there", ["--script", "good", "none"], 3, b"mapred: cannot read none\n"),
        ("a history that can't be written", ["--history", "none/h", "a"], 3, b"mapred: cannot write none/h\n"),
        ("an empty directory for regions", ["--scratch", "", "a"], 2, None),
        ("no worker", ["--workers", "0", "a"], 2, None),
        ("65 workers", ["--workers", "65", "a"], 2, None),
        ("no attempt", ["--attempts", "0", "a"], 2, None),
        ("17 attempts", ["--attempts", "17", "a"], 2, None),
        ("a skip list", ["--skips", "0:0", "a"], 2, None),
    ]:
        where = harness.directory(files)
        os.makedirs(os.path.join(where, "out"))
        got = harness.run([*words, *more], cwd=where)[:3]
        fits = got == (status, b"", err) if err is not None else got[0] == status and got[1] == b"" and got[2].startswith(b"error: ")
        harness.check(f"run: {name}", fits, repr(got))
        harness.check(f"run: {name}: nothing is written", os.listdir(os.path.join(where, "out")) == [] and not os.path.exists(os.path.join(where, "none")))
    where = harness.directory({"a": b"a b\n"})
    got = harness.run(["run", "--job", "words", "--out", "none", "a"], cwd=where)[:3]
    harness.check("run: the result's directory isn't there", got == (3, b"", b"mapred: cannot write none/part-00000\n"), repr(got))


def a_history_named_as_another_file(harness):
    """A history takes the place of no file that a run reads or writes besides, by whatever name: nothing is written then."""
    words = ["run", *TWO_PARTS.options(), "--script", "script", "--out", "out", "in0", "--history"]
    for made in (False, True):
        for name in ("out/part-00000", "./out/part-00001", "out/../out/certificate", "in0", "./in0", "script", "to-in0", "to-part", "in0-again"):
            where = harness.directory({"in0": CATS[0], "script": b""})
            os.makedirs(os.path.join(where, "out"))
            if made:
                write_result(os.path.join(where, "out"), [b"old", b"older"], b"oldest")
            os.symlink("in0", os.path.join(where, "to-in0"))
            os.symlink("out/part-00000", os.path.join(where, "to-part"))
            os.link(os.path.join(where, "in0"), os.path.join(where, "in0-again"))
            stands = read_result(os.path.join(where, "out")) if made else os.listdir(os.path.join(where, "out"))
            got = harness.run([*words, name], cwd=where)[:3]
            # the history is written first, so it is told where it clashes with what is read; else the file of the result is
            first = name if name in ("in0", "./in0", "script", "to-in0", "in0-again") else {"out/part-00000": "out/part-00000", "./out/part-00001": "out/part-00001", "to-part": "out/part-00000"}.get(name, "out/certificate")
            kept = (read_result(os.path.join(where, "out")) if made else os.listdir(os.path.join(where, "out"))) == stands
            same = [open(os.path.join(where, file), "rb").read() for file in ("in0", "script")] == [CATS[0], b""]
            harness.check(f"a history named {name}, {made}", got == (2, b"", b"mapred: SameFile %s\n" % first.encode()) and kept and same, repr(got))
    for name in ("/dev/null", "/dev/stdout"):
        where = harness.directory({"in0": CATS[0]})
        os.makedirs(os.path.join(where, "out"))
        os.symlink("/dev/null", os.path.join(where, "out", "part-00001"))
        status, out, _, _ = harness.run(["run", *TWO_PARTS.options(), "--history", name, "--out", "out", "in0"], cwd=where)
        harness.check(f"a history to {name}", status == 0 and out.endswith(CATS_LINE) and open(os.path.join(where, "out/part-00000"), "rb").read() == CATS_PARTS[0], repr(out))


def stopped(harness):
    """A run that is ended by a signal before its end leaves the directory as it was."""
    rnd = random.Random(5)
    text = b" ".join(b"w%d" % rnd.randrange(50_000) for _ in range(2_500_000))
    where = harness.directory({"in": text})
    os.makedirs(os.path.join(where, "out"))
    old = {"part-00000": b"old\n", "certificate": b"old"}
    harness.directory(old, os.path.join(where, "out"))
    line = [harness.program, "run", "--job", "words", "--split", "1048576", "--out", "out", "in"]
    for pause in (0.05, 0.2, 0.4):
        with subprocess.Popen(line, cwd=where, stdout=subprocess.PIPE, stderr=subprocess.PIPE) as running:
            time.sleep(pause)
            running.send_signal(signal.SIGTERM)
            out, err = running.communicate(timeout=60)
        stands = {name: open(os.path.join(where, "out", name), "rb").read() for name in os.listdir(os.path.join(where, "out"))}
        harness.check(f"ended after {pause} s", stands == old and out == b"" and running.returncode == -signal.SIGTERM, f"{running.returncode} {out} {err} {sorted(stands)}")


def drawn_at_terminal(harness, command, words, text):
    """What a command shows at a terminal over the text, repeated until it takes long enough for a line to be drawn."""
    for times in (1, 4, 16):
        where = harness.directory({"in": (text + b"\n") * times, "script": b"lose 1 after 1\n"})
        if command == "check":
            harness.run(["seq", *words], cwd=where)
        status, out, shown = on_terminal(harness, [command, *words], where)
        drawn = re.findall(rb"\r\x1b\[Kmapred: (\w+) (\d+) %(?:, (\d+) workers? lost)?", shown)
        if drawn:
            break
    return where, status, out, shown, drawn


def progress(harness):
    """Long work shows one line at a terminal, which is wiped; elsewhere nothing is shown."""
    rnd = random.Random(6)
    text = b"\n".join(b" ".join(b"w%d" % rnd.randrange(200_000) for _ in range(8)) for _ in range(300_000))
    for command, more, phases in [
        ("seq", [], [b"mapping"]),
        ("check", [], [b"mapping", b"judging"]),
        ("run", ["--script", "script", "--split", "262144"], [b"mapping", b"reducing"]),
    ]:
        words = ["--job", "words", *more, "--out", ".", "in"]
        where, status, out, shown, drawn = drawn_at_terminal(harness, command, words, text)
        harness.check(f"{command}: a line of progress", status == 0 and out and drawn and all(phase in [*phases, b"judging", b"reducing"] and int(done) <= 100 for phase, done, _ in drawn), repr((status, out, shown[:300])))
        harness.check(f"{command}: it is wiped", b"%" not in shown.rsplit(b"\r\x1b[K", 1)[-1], repr(shown[-200:]))
        got = harness.run([command, *words], cwd=where)
        harness.check(f"{command}: nothing is shown elsewhere", got[0] == 0 and got[2] == b"", repr(got[2][:200]))


def many_tasks(harness):
    """5,000 map tasks over 64 workers."""
    text = b"".join((b"w%d x" % (number % 97)).ljust(7, b" ") + b"\n" for number in range(5000))
    request = Request("words", parts=8, split=8)
    status, out, err, where = ran(harness, request, [text], b"lose 3 after 20\nzombie 11 after 7\nhold 5\n", ["--workers", "64"], timeout=300)
    harness.check("5000 map tasks over 64 workers", (status, err) == (0, b"") and out == b"certified: 8 files, 10000 pairs, 0 left out\n", f"{status} {out} {err}")
    harness.check("... and check says yes", told_by(harness, where, ["in0"], request)[0] == 0)
    harness.check("... with their parts", len(parts_of(os.path.join(where, "out"))) == 8)


def short_files_behind_a_long_one(harness):
    """Files of a byte behind one of a megabyte: room is made for no more pairs than the input can have."""
    limit = lambda: resource.setrlimit(resource.RLIMIT_AS, (1 << 30, 1 << 30))
    files = [b"a " * (1 << 19), *[b"b\n"] * 300]
    for more in ([], ["--scratch", "."]):
        status, out, err, _ = ran(harness, Request("words", parts=2), files, words=["--workers", "2", *more], preexec_fn=limit)
        want = (0, b"certified: 2 files, %d pairs, 0 left out\n" % ((1 << 19) + 300), b"")
        harness.check(f"short files behind a long one {more}", (status, out, err) == want, f"{status} {out} {err}")


def is_beginning(stands, whole, given):
    """Whether of the files that a whole run writes, the history, the parts in order and then the certificate, those up to
    some file stand, the last of them perhaps in part, and all else is as it was."""
    written_files = sorted((name for name in whole if name not in given), key=lambda name: (name != "history", name == "certificate", name))
    made = [name for name in written_files if name in stands]
    return (
        made == written_files[: len(made)]
        and sorted(stands) == sorted([*given, *made])
        and all(stands[name] == given[name] for name in given)
        and all(stands[name] == whole[name] for name in made[:-1])
        and all(whole[name].startswith(stands[name]) for name in made[-1:])
    )


def failing_calls(harness):
    """Each allocation, opening, read and write of a run by one worker fails in turn: the answer is the refusal's own, and
    nothing else changes; of several workers, whose histories differ, each allocation."""
    library = shim(harness)
    if library is None:
        return
    given = {"a": b"The cat saw the dog.\n\nThe dog saw nothing.\n", "script": b"flaky 0 0 1\nhold 0\n"}
    words = ["run", "--job", "words", "--parts", "2", "--split", "16", "--script", "script", "--history", "history", "--out", "."]
    alone = [*words, "--workers", "1", "a"]
    whole, _ = with_failing(harness, library, "none", alone, given)
    harness.check("a run without a failing call", whole[:3] == (0, b"certified: 2 files, 9 pairs, 0 left out\n", b""), repr(whole))
    short, _ = with_failing(harness, library, "short 0", alone, given)
    harness.check("a run a byte a call", short == whole, repr(short))
    for kind, status, said in (("malloc", 4, b"mapred: out of memory\n"), ("open", 3, b"mapred: cannot "), ("read", 3, b"mapred: cannot read "), ("write", 3, b"mapred: cannot write ")):
        number, spared, vain, marked = 0, 0, 0, True
        while marked:
            number += 1
            got, marked = with_failing(harness, library, f"{kind} {number}", alone, given)
            refused = got[:2] == (status, b"") and got[2].startswith(said) and got[2].count(b"\n") == 1 and is_beginning(got[3], whole[3], given)
            unprinted = kind == "write" and got == (0, b"", b"", whole[3])
            spared += kind == "malloc" and marked and got == whole
            # a verdict that can't be opened is none
            none = kind == "open" and marked and got == whole
            vain += none
            harness.check(f"run, {kind} {number} fails", refused or unprinted or none or (got == whole and (kind == "malloc" or not marked)), repr(got))
        harness.check(f"a run comes to some {kind}", number > 1)
        # asking for a word behind the last one needs no memory, a thread that can't be made is done without, and so are the
        # bits for the names of each partition's regions; where the fast judge is refused memory, the plain one judges; a verdict
        # that isn't there may be opened in vain
        harness.check("a run needs nearly all memory", spared <= 65 and vain <= 1, str((spared, vain)))
    number, marked, several = 0, True, [*words, "--workers", "4", "a"]
    while marked:
        number += 1
        got, marked = with_failing(harness, library, f"malloc {number}", several, given)
        refused = got[:3] == (4, b"", b"mapred: out of memory\n")
        same = got[:3] == whole[:3] and all(got[3].get(name) == data for name, data in whole[3].items() if name != "history")
        harness.check(f"run by four workers, malloc {number} fails", refused or same, repr(got))


def failing_scratch(harness):
    """Each opening, read and write of a run whose regions lie in files fails in turn. A region that can't be put loses its
    worker, and one that can't be read its map task's output; what is written is the same where the run is certified."""
    library = shim(harness)
    if library is None:
        return
    given = {"a": b"The cat saw the dog.\n\nThe dog saw nothing.\n"}
    words = ["run", "--job", "words", "--parts", "2", "--split", "16", "--scratch", ".", "--history", "history", "--out", "."]
    written = lambda files: {name: data for name, data in files.items() if name != "history" and not name.startswith("region")}
    for workers in ("1", "4"):
        asked = [*words, "--workers", workers, "a"]
        whole, _ = with_failing(harness, library, "none", asked, given)
        harness.check(f"{workers} workers, no failing call", whole[:3] == (0, b"certified: 2 files, 9 pairs, 0 left out\n", b""), repr(whole))
        lost, damaged = 0, 0
        for kind, said in (("open", b"mapred: cannot "), ("read", b"mapred: cannot read "), ("write", b"mapred: cannot write ")):
            for more in ({}, {"FAIL_INTERRUPTED": "1"}, {"FAIL_MEMORY": "1"}):
                number, marked = 0, True
                while marked:
                    number += 1
                    got, marked = with_failing(harness, library, f"{kind} {number}", asked, given, **more)
                    told = got[3].get("history", b"")
                    lost += b"lose" in told or got[1] == b"failed: NoWorkers\n"
                    damaged += b"damaged attempt " in told
                    refused = got[:2] == (3, b"") and got[2].startswith(said) or "FAIL_MEMORY" in more and got[:2] == (4, b"")
                    alone = workers == "1" and "FAIL_MEMORY" not in more and got[:2] == (1, b"failed: NoWorkers\n") and kind != "read"
                    unprinted = kind == "write" and got[:3] == (0, b"", b"")
                    same = got[:3] == whole[:3] and written(got[3]) == written(whole[3])
                    harness.check(f"{workers} workers, {kind} {number} fails {more}", refused or alone or unprinted or same, repr(got))
        harness.check(f"{workers} workers: some are lost, some regions can't be read", lost and damaged, f"{lost} {damaged}")


GROUPS = {
    "worked runs of the program": worked_runs,
    "random runs of the program": random_runs,
    "faults of a run": faults,
    "short files behind a long one": short_files_behind_a_long_one,
    "regions in files of a run": regions_in_files,
    "files of many partitions": files_of_many_partitions,
    "regions changed under way": regions_changed_under_way,
    "a history named as another file": a_history_named_as_another_file,
    "a run that is stopped": stopped,
    "progress at a terminal": progress,
    "many tasks of the program": many_tasks,
    "failing calls of a run": failing_calls,
    "failing calls on regions": failing_scratch,
}
