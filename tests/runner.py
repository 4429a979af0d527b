"""The runner of engines/: the result of one execution, whatever is lost, damaged or stopped on the way; what it refuses; and what it
leaves."""
import hashlib
import os
import re
import shutil
import signal
import stat
import subprocess
import sys
import time

from harness import TOP, parts_of, seeded
from plain import JOBS, any_request

RUNNER = os.path.join(TOP, "engines", "shards.py")
WORDS = ["--job", "words", "--parts", "3"]
# A program that is killed, or kills who started it, at its first attempt at a name, and then is mapred.
LOSING = """#!/bin/sh
for last; do :; done
if [ "$1" = seq ] && mkdir "{room}/{name}" 2>/dev/null; then kill -9 {whom}; fi
exec {program} "$@"
"""
# A program that takes half a second for each command.
SLOW = """#!/bin/sh
sleep 0.5
exec {program} "$@"
"""


def program_of(harness, text, **named):
    """A program of that text."""
    path = os.path.join(harness.directory(), "program")
    with open(path, "w") as file:
        file.write(text.format(program=harness.program, **named))
    os.chmod(path, 0o755)
    return path


def started(program, words, where, python=sys.executable):
    """The runner in a directory, as it starts; what it makes goes to `out`."""
    words = [python, RUNNER, "--program", program, "--progress", "--out", "out", *words]
    # Who tests in the background ignores SIGINT, and a runner does as who starts it.
    heeding = lambda: signal.signal(signal.SIGINT, signal.SIG_DFL)
    return subprocess.Popen(words, cwd=where, stdout=subprocess.PIPE, stderr=subprocess.PIPE, preexec_fn=heeding)


def by_runner(program, words, where, python=sys.executable):
    """One run of it: its status, what it prints, and what it tells; it never ends by a traceback."""
    process = started(program, words, where, python)
    printed, told = process.communicate()
    assert b'shards.py", line' not in told, told
    return process.returncode, printed, told


def judged(told):
    """How many shards were executed and judged in a run."""
    return len(re.findall(rb"^shards: .* judged$", told, re.M))


def is_whole(where, want):
    """Whether the result is there, and nothing beside it."""
    out = os.path.join(where, "out")
    names = sorted(name for name in os.listdir(out) if not name.startswith("part-"))
    return names == ["plan.json", "shards", "verdict"] and parts_of(out) == want and not strays(out)


def strays(out):
    """What a run left that is no judged shard."""
    shards = os.path.join(out, "shards")
    left = [name for name in os.listdir(out) if name.startswith(".")] if os.path.isdir(out) else []
    return left + ([name for name in os.listdir(shards) if not os.path.exists(os.path.join(shards, name, "verdict"))] if os.path.isdir(shards) else [])


def some_files():
    rnd = seeded("runner")
    return {f"f{i}": b"".join(rnd.choice([b"the ", b"cat ", b"a\n"]) for _ in range(300)) for i in range(7)}


def by_seq(harness, job, files):
    """The parts of one execution over all files."""
    return parts_of(harness.run(["seq", *job, "--out", ".", *files], files)[3])


def runner(harness):
    """Each job is that of one execution, also where each shard is lost once; what is done again, and what is not."""
    given = some_files()
    for name in JOBS:
        job = [*any_request(seeded("runner's jobs"), name).own_options(), "--parts", "2"]
        where = harness.directory(given)
        got = by_runner(harness.program, [*job, "--shard-size", "500", *given], where)
        harness.check(f"a runner's {job[1]}", got[0] == 0 and judged(got[2]) > 7 and is_whole(where, by_seq(harness, job, given)), repr(got))
    whole, room = by_seq(harness, WORDS, given), harness.directory()
    once = program_of(harness, LOSING, room=room, name="$last", whom="$$")
    where, words = harness.directory(given), [*WORDS, "--shard-size", "2K", *given]
    first = by_runner(once, words, where)
    harness.check("each shard lost once", first[0] == 0 and is_whole(where, whole) and len(os.listdir(room)) > 1 and first[2].count(b"killed by SIGKILL") == len(os.listdir(room)), repr(first))
    second = by_runner(harness.program, ["--resume", *words], where)
    harness.check("once more", second[:2] == first[:2] and judged(second[2]) == 0 and is_whole(where, whole), repr(second))
    shards = os.path.join(where, "out", "shards")
    harness.directory({"part-00001": b"the\t1\n"}, os.path.join(shards, "000001"))
    os.remove(os.path.join(shards, "000002", "part-00000"))
    os.remove(os.path.join(shards, "000003", "verdict"))
    third = by_runner(harness.program, ["--resume", *words], where)
    harness.check("damaged shards are done again", third[0] == 0 and judged(third[2]) == 3 and is_whole(where, whole), repr(third))
    for one, other in (("000000", "swapped"), ("000001", "000000"), ("swapped", "000001")):
        os.rename(os.path.join(shards, one), os.path.join(shards, other))
    third = by_runner(harness.program, ["--resume", *words], where)
    harness.check("swapped shards are done again", third[0] == 0 and judged(third[2]) == 2 and is_whole(where, whole), repr(third))
    given["f3"] += b"another\n"
    harness.directory({"f3": given["f3"]}, where)
    third = by_runner(harness.program, ["--resume", *words], where)
    harness.check("a shard whose file changed is done again", third[0] == 0 and judged(third[2]) == 1 and is_whole(where, by_seq(harness, WORDS, given)), repr(third))
    modes = {stat.S_IMODE(os.stat(os.path.join(at, name)).st_mode) for at, folders, names in os.walk(where) for name in folders + names}
    mask = os.umask(0)
    os.umask(mask)
    harness.check("modes are those of the umask", modes <= {0o777 & ~mask, 0o666 & ~mask}, repr(modes))


def many(harness):
    """More shards than are merged at once; and a log that grew, with yesterday's result."""
    given = {f"g{i:03}": b"the %d\n" % (i % 7) for i in range(150)}
    where = harness.directory(given)
    got = by_runner(harness.program, [*WORDS, "--shard-size", "8", *given], where)
    harness.check("many shards, merged in turn", got[0] == 0 and is_whole(where, by_seq(harness, WORDS, given)), repr(got))
    log = b"".join(b"the %d\n" % (n * n) for n in range(300))
    for size, good in ((len(log) // 2, False), (log.index(b"\n", len(log) // 2) + 1, True), (len(log), True)):
        where = harness.directory({"log": log[:size]})
        by_runner(harness.program, [*WORDS, "--shard-size", "500", "log"], where)
        os.rename(os.path.join(where, "out"), os.path.join(where, "yesterday"))
        harness.directory({"log": log}, where)
        got = by_runner(harness.program, [*WORDS, "--shard-size", "500", "--behind", "yesterday/verdict", "log"], where)
        if good:
            harness.check(f"a log that had {size} bytes", got[0] == 0 and is_whole(where, by_seq(harness, WORDS, {"log": log})), repr(got))
        else:
            harness.check("a log that ended inside a line", got[0] == 2 and not os.path.exists(os.path.join(where, "out")), repr(got))


def refused(harness):
    """What is refused, by one line, and that nothing is lost by it."""
    given = some_files()
    where = harness.directory(given)
    for name, status, words in (
        ("a missing file", 3, [*WORDS, "f0", "missing"]),
        ("no file", 2, WORDS),
        ("a folder", 2, [*WORDS, "f0", "."]),
        ("a file that is named twice", 2, [*WORDS, "f0", "f1", "f0"]),
        ("a verdict that isn't there", 3, [*WORDS, "--behind", "missing", "f0"]),
        ("a list of other files", 2, [*WORDS, "--inputs", "f1", "f0"]),
        ("a list that isn't there", 3, [*WORDS, "--inputs", "missing", "f0"]),
        ("a name that is not UTF-8", 2, [*WORDS, "f0", "\udcff"]),
        ("a name with a line feed", 2, [*WORDS, "f0", "f\n1"]),
    ):
        got = by_runner(harness.program, words, where)
        harness.check(name, got[:2] == (status, b"") and b"shards.py: " in got[2].splitlines()[-1] and not os.path.exists(os.path.join(where, "out")), repr(got))
    got = by_runner(harness.program, ["--job", "grep", *given], where)
    harness.check("a fault of the options is told, once", got[0] == 2 and got[2].count(b"EmptyLiteral") == 1 and strays(os.path.join(where, "out")) == [], repr(got))
    got = by_runner(harness.program, [*WORDS, "--allow-empty"], where)
    harness.check("no file, where that is allowed", got[0] == 0 and is_whole(where, [b"", b"", b""]), repr(got))
    for name, words in (("a folder that has a result", [*WORDS, "--allow-empty"]), ("other options", ["--resume", "--job", "url", *given])):
        got = by_runner(harness.program, words, where)
        harness.check(name, got[:2] == (2, b"") and is_whole(where, [b"", b"", b""]), repr(got))
    shutil.rmtree(os.path.join(where, "out"))
    harness.directory({"of-another": b""}, os.mkdir(os.path.join(where, "out")) or os.path.join(where, "out"))
    got = by_runner(harness.program, ["--resume", *WORDS, *given], where)
    harness.check("a folder of something else", got[:2] == (2, b"") and os.listdir(os.path.join(where, "out")) == ["of-another"], repr(got))
    for end, status in ((b"", 0), (b"another\n", 1)):
        sums = b"".join(b"%s  %s\n" % (hashlib.sha256(data).hexdigest().encode(), name.encode()) for name, data in given.items())
        where = harness.directory({**given, "f6": given["f6"] + end, "sums": sums})
        got = by_runner(harness.program, ["--inputs", "sums", "--shard-size", "2K", *WORDS, *given], where)
        there = os.path.exists(os.path.join(where, "out", "verdict"))
        harness.check(f"sums of files, and {end} in one", got[0] == status and there == (status == 0), repr(got))
    for plan in (b"{}", b"[]", b'{"options": 1}', b'{"options": [], "shards": 1, "stamps": []}'):
        where = harness.directory(given)
        harness.directory({"plan.json": plan, "of-another": b""}, os.mkdir(os.path.join(where, "out")) or os.path.join(where, "out"))
        got = by_runner(harness.program, ["--resume", *WORDS, *given], where)
        harness.check(f"a plan that is {plan}", got[:2] == (2, b"") and b"no run to resume" in got[2], repr(got))


def unread(harness):
    """What the runner tells may go where nobody can read it; names may have spaces, tabs and a dash in front."""
    given = {name: b"the cat\n" for name in ("a b", " a", "a ", "a\tb", "-a")}
    whole = by_seq(harness, WORDS, {"all": b"".join(given.values())})
    for stream in ("2>/dev/full", "2>&-"):
        where = harness.directory(given)
        words = ["sh", "-c", f'exec "$@" {stream}', "sh", sys.executable, RUNNER, "--program", harness.program, "--out", "out"]
        got = subprocess.run([*words, *WORDS, "--progress", "--shard-size", "5", "--", *given], cwd=where, capture_output=True)
        harness.check(f"a runner with {stream}", got.returncode == 0 and got.stdout.startswith(b"merged: ") and is_whole(where, whole), repr(got))


def stopped(harness):
    """Signals at random times: SIGTERM and SIGINT leave judged shards alone, and SIGKILL no other shard; --resume gives the result."""
    rnd, given = seeded("stopped"), some_files()
    whole, slow = by_seq(harness, WORDS, given), program_of(harness, SLOW)
    where, words = harness.directory(given), ["--resume", "--processes", "2", *WORDS, "--shard-size", "2K", *given]
    out = os.path.join(where, "out")
    for number in (signal.SIGTERM, signal.SIGINT, signal.SIGKILL, signal.SIGTERM, signal.SIGKILL):
        process = started(slow, words, where)
        process.stderr.readline()
        time.sleep(rnd.random() * 1.2)
        process.send_signal(number)
        told = process.communicate()[1]
        left = strays(out)
        if number == signal.SIGKILL:
            good = process.returncode == -number and all(name.startswith(".unfinished-") for name in left)
        else:
            lines = [line for line in told.splitlines() if not line.startswith(b"shards: ")]
            working = subprocess.run(["pgrep", "-f", re.escape(os.path.join(out, ".unfinished-"))], capture_output=True).stdout
            good = process.returncode == 128 + number and left == [] and lines == [b"shards.py: stopped; --resume goes on"] and working == b""
        harness.check(f"stopped by {number.name}", good, repr((process.returncode, told, left)))
    got = by_runner(harness.program, words, where)
    harness.check("after all signals", got[0] == 0 and is_whole(where, whole), repr(got))


def dask(harness):
    """The same by Dask, of which a worker is killed in the middle, or the run is ended."""
    has = lambda python: subprocess.run([python, "-c", "import distributed"], capture_output=True).returncode == 0
    python = next((python for python in (sys.executable, "/usr/bin/python3") if os.path.exists(python) and has(python)), None)
    if python is None:
        print("a runner by Dask: Dask isn't installed, so nothing of it was checked", flush=True)
        return
    given, room = some_files(), harness.directory()
    where, words = harness.directory(given), [*WORDS, "--shard-size", "500", "--dask", "--processes", "2", *given]
    process = started(program_of(harness, SLOW), words, where, python)
    process.stderr.readline()
    time.sleep(5)
    process.send_signal(signal.SIGTERM)
    told = process.communicate()[1]
    harness.check("by Dask, stopped", process.returncode == 128 + signal.SIGTERM and strays(os.path.join(where, "out")) == [], repr((process.returncode, told)))
    losing = program_of(harness, LOSING, room=room, name="worker", whom="$PPID")
    got = by_runner(losing, ["--resume", *words], where, python)
    good = got[0] == 0 and os.listdir(room) == ["worker"] and is_whole(where, by_seq(harness, WORDS, given))
    harness.check("by Dask, a worker killed", good and b"is lost" in got[2], repr(got[:2]) + got[2].decode()[-1500:])
    address = f"tcp://127.0.0.1:{9000 + os.getpid() % 1000}"
    scheduler = subprocess.Popen([python, "-m", "distributed.cli.dask_scheduler", "--host", address, "--no-dashboard"], cwd=room, stderr=subprocess.DEVNULL)
    process = started(harness.program, ["--resume", *WORDS, "--dask", address, *given], harness.directory(given), python)
    lines = [process.stderr.readline() for _ in range(2)]
    scheduler.kill()
    scheduler.wait()
    told = process.communicate()[1]
    good = process.returncode == 1 and lines[1] == b"the Dask cluster has no worker yet\n" and told.endswith(b"the Dask scheduler is lost\n")
    harness.check("by Dask, the scheduler killed", good, repr((process.returncode, lines, told[-300:])))


GROUPS = {"a runner": runner, "a runner's many shards": many, "a runner refuses": refused, "a runner that nobody reads": unread, "a runner is stopped": stopped, "a runner by Dask": dask}
