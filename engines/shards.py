#!/usr/bin/env python3
"""Runs a job over files of any size: shards.py --out DIR --job JOB [options of the job] FILE..

    FILE..  --cut at line ends-->  shards  --seq, check-->  DIR/shards/N  --merge-->  DIR

A shard is some files, or a part of one; no file is copied. `mapred seq` executes it, `mapred check` judges it, and it counts only with
the judge's yes. `mapred merge` compares each part with the verdict that names it. So the result is that of one execution over all
files, whatever was lost on the way.

    DIR/plan.json          what was asked for: the options, the shards, sizes and times of the files
    DIR/shards/000000 ..   judged shards: parts, certificate, verdict
    DIR/part-00000 ..      the merged result, and its verdict, which is written last
    DIR/.unfinished-ID     where this run works; it is removed at the end, and by --resume after a SIGKILL

Everything is made in the last of these and renamed. Who works for a run stops once that folder is gone.

Processes of this machine execute the shards, or the workers of a Dask cluster (--dask). Those need the program, the files, DIR and
the folder where the runner starts under the same names: a shared file system.

Exit status: 0 merged, 1 a shard has no yes, 2 a wrong command line or a limit, 3 a file that can't be read or written; after a
signal 128 and its number."""
import argparse
import concurrent.futures
import contextlib
import errno
import json
import os
import re
import shutil
import signal
import stat
import subprocess
import sys
import threading
import time
import types
import uuid

TOP = os.path.dirname(os.path.dirname(os.path.realpath(__file__)))
# What one execution takes, of bytes and of files.
MOST_BYTES = 1 << 30
MOST_FILES = 1024
# How many shards are merged at once: each line costs a look at the next line of each of them.
MOST_MERGED = 64
# How many bytes are looked at together for a line's end.
BLOCK = 1 << 16
# How often, in seconds, who waits for a command looks whether the run goes on.
LOOK = 0.5
UNFINISHED = re.compile(r"\.unfinished-[0-9a-f]{8}(-ended)*")


class Failed(Exception):
    """Why a shard, or the whole, has no result."""


class Refused(Failed):
    """What is asked for is refused: another attempt would be refused too."""


class Signalled(KeyboardInterrupt):
    """A signal that ends the run. No `except Exception` of a library takes it."""


def text_of(fault):
    """What a fault of the system is, and of which file."""
    return f"{fault.filename}: {fault.strerror}" if fault.filename else fault.strerror or str(fault)


# ---- cutting


def data_within(file, low, high):
    """The stretches from `low` to `high` that are no holes, in which there is no line feed."""
    found = []
    while low < high:
        try:
            start = os.lseek(file.fileno(), low, os.SEEK_DATA)
            low = os.lseek(file.fileno(), start, os.SEEK_HOLE)
        except OSError as fault:
            if fault.errno != errno.ENXIO:
                found.append((low, high))
            break
        if start < high:
            found.append((start, min(low, high)))
    return found


def line_end_before(file, low, high):
    """The last place from behind `low` to `high` right behind a line feed; None if there is none."""
    for start, end in reversed(data_within(file, low, high)):
        while end > start:
            at = max(start, end - BLOCK)
            found = os.pread(file.fileno(), end - at, at).rfind(b"\n")
            if found >= 0:
                return at + found + 1
            end = at
    return None


def line_end_behind(file, low, high):
    """The first place from behind `low` to `high` right behind a line feed; None if there is none."""
    for start, end in data_within(file, low, high):
        for at in range(start, end, BLOCK):
            found = os.pread(file.fileno(), min(BLOCK, end - at), at).find(b"\n")
            if found >= 0:
                return at + found + 1
    return None


def cuts_of(name, size, at=0):
    """The ranges that make up the file from a byte on, as long as it is now: (from, to). Each has at most so many bytes, unless one
    line is longer."""
    length, ranges = os.stat(name).st_size, []
    if length < at:
        raise Refused(f"{name} ends before byte {at}")
    with open(name, "rb", buffering=0) as file:
        while length - at > size:
            to = line_end_before(file, at, at + size) or line_end_behind(file, at + size, min(at + MOST_BYTES, length))
            if to is None and length - at > MOST_BYTES:
                raise Refused(f"{name} has a line of more than 1 GiB at byte {at}")
            to = to or length
            ranges.append((at, to))
            at = to
    return ranges if ranges and at == length else [*ranges, (at, length)]


def shards_of(files, size, start=0):
    """The files in shards, in order, the first file from byte `start` on: [names, from, to], `from` in the first file and `to` in the
    last one, None for its end. A shard has at most so many bytes, unless one line is longer; a range that its file goes on behind ends
    a shard."""
    shards, held = [], size
    for number, name in enumerate(files):
        ranges = cuts_of(name, size, 0 if number else start)
        for low, high in ranges:
            if not shards or low > 0 or held + high - low > size or len(shards[-1][0]) == MOST_FILES:
                shards.append([[], low, None])
                held = 0
            shards[-1][0].append(name)
            held += high - low
            if high < ranges[-1][1]:
                shards[-1][2] = high
    return shards or [[[], 0, None]]


# ---- one shard, on whatever machine


def heed_end(run):
    """Fails if the run was ended."""
    if not os.path.isdir(run.working):
        raise Refused(f"the run was ended, or {os.uname().nodename} does not see {run.working}") from None


def executed(run, *words):
    """Runs the program; what it prints, what it says of faults, and its status. It is killed when the run ends."""
    streams = {"stdout": subprocess.PIPE, "stderr": subprocess.PIPE, "text": True, "errors": "replace"}
    with subprocess.Popen([run.program, *words], cwd=run.here, start_new_session=True, **streams) as process:
        try:
            printed = None
            while printed is None:
                with contextlib.suppress(subprocess.TimeoutExpired):
                    printed, faults = process.communicate(timeout=LOOK)
                heed_end(run)
            return printed, faults, process.returncode
        finally:
            if process.poll() is None:
                os.killpg(process.pid, signal.SIGKILL)


def fault_of(word, printed, faults, status):
    """Why a command failed. Status 2 is a fault of the options, or a limit that is passed."""
    said = (printed + faults).strip() or (f"status {status}" if status > 0 else f"killed by {signal.Signals(-status).name}")
    return (Refused if status == 2 else Failed)(f"mapred {word}: {said}")


def result(run, *words):
    """What the program prints when it succeeds."""
    printed, faults, status = executed(run, *words)
    if status:
        raise fault_of(words[0], printed, faults, status)
    return printed


def is_verified(run, verdict):
    """Whether the parts beside a verdict are those that it names."""
    printed, faults, status = executed(run, "verify", verdict)
    if status not in (0, 1, 3):
        raise fault_of("verify", printed, faults, status)
    return status == 0


def inputs_of(verdict):
    """The inputs that a verdict of version 2 names: (where the range begins, where it ends, its state, the file's name)."""
    with open(verdict, encoding="utf-8", errors="surrogateescape", newline="\n") as file:
        lines = [line.rstrip("\n").split(" ", 5) for line in file if line.startswith("input ")]
    try:
        return [(int(low), int(low) + int(size), state, name) for _, _, size, low, state, name in lines]
    except ValueError:
        raise Refused(f"{verdict} is no verdict of version 2") from None


def is_kept(run, where, shard):
    """Whether the shard was judged before, and nothing happened to its parts since."""
    verdict = os.path.join(where, "verdict")
    if not os.path.exists(verdict) or not is_verified(run, verdict):
        return False
    inputs = inputs_of(verdict)
    return [name for _, _, _, name in inputs] == shard[0] and (not inputs or inputs[0][0] == shard[1])


def stamps_of(run, names):
    """Sizes and times of change of files."""
    told = [os.stat(os.path.join(run.here, name)) for name in names]
    return [[one.st_size, one.st_mtime_ns] for one in told]


def attempt(run, number, shard, stamps):
    """Executes and judges a shard in a folder of its own, which gets the shard's name once the judge has said yes. Two attempts at one
    shard do no harm: they make the same bytes, and the first one stays. Returns what came of it."""
    files, low, high = shard
    where = os.path.join(run.out, "shards", f"{number:06}")
    room = os.path.join(run.working, f"{number:06}-{uuid.uuid4().hex[:8]}")
    if os.path.exists(where):
        if is_kept(run, where, shard):
            return "kept"
        os.rename(where, room + "-damaged")
    taken = [*(["--from", str(low)] if low else []), *(["--to", str(high)] if high is not None else []), "--", *files]
    try:
        os.mkdir(room)
        result(run, "seq", *run.job, "--cert", "2", "--out", room, *taken)
        result(run, "check", *run.job, "--out", room, "--verdict", os.path.join(room, "verdict"), *taken)
        if stamps_of(run, files) != stamps:
            raise Refused("its files changed while they were read; --resume takes them as they are then")
        os.rename(room, where)
    except OSError as fault:
        heed_end(run)
        if not os.path.exists(os.path.join(where, "verdict")):
            raise Failed(text_of(fault)) from None
        # Another attempt was faster.
    finally:
        shutil.rmtree(room, ignore_errors=True)
    return "judged"


# ---- all shards, by an engine: each yields the number of a shard and what came of it, as they end


def pool_of(asked, ends):
    """Threads, each of which waits for one command at a time."""
    pool = concurrent.futures.ThreadPoolExecutor(asked.processes)
    ends.callback(pool.shutdown, cancel_futures=True)
    return pool


def by_processes(run, tasks, asked, tell, ends):
    """By processes of this machine, so many at a time."""

    def persist(task):
        for left in reversed(range(asked.tries)):
            try:
                return attempt(run, *task)
            except Refused:
                raise
            except Failed as fault:
                if not left:
                    raise
                tell(f"shard {task[0]} again: {fault}")

    pool = pool_of(asked, ends)
    futures = {pool.submit(persist, task): task[0] for task in tasks}
    for future in concurrent.futures.as_completed(futures):
        try:
            yield futures[future], future.result()
        except Failed as fault:
            raise type(fault)(f"shard {futures[future]}: {fault}") from None


def attempt_there(run, task):
    """An attempt by a worker of Dask, which tries again whatever raises."""
    try:
        return attempt(run, *task), ""
    except Refused as fault:
        return "refused", str(fault)


def watch(client, workers, tell, over):
    """Names the workers that are lost, also those of the last moment."""
    ended = False
    while not ended:
        ended = over.wait(LOOK)
        with contextlib.suppress(Exception):
            now = set(client.nthreads())
            for lost in sorted(workers - now):
                tell(f"worker {lost} is lost; others do its shards again")
            workers = now


def by_dask(run, tasks, asked, tell, ends):
    """By the workers of a Dask cluster: the one at the address, or one of this machine. It schedules, tries again, and does again
    what a lost worker had."""
    try:
        from distributed import Client, LocalCluster, as_completed
    except ImportError:
        raise Refused("--dask needs Dask's `distributed` (Debian: apt install python3-distributed)") from None
    cluster = asked.dask
    if not cluster:
        # In a thread of its own no signal cuts its start short: a cluster that has started is one that can be closed.
        local = concurrent.futures.ThreadPoolExecutor(1).submit(LocalCluster, n_workers=asked.processes, threads_per_worker=1, dashboard_address=None)
        ends.callback(lambda: local.result().close())
        cluster = local.result()
    try:
        client = ends.enter_context(Client(cluster))
        workers = set(client.nthreads())
    except OSError as fault:
        raise Failed(f"no Dask scheduler at {asked.dask}: {fault}") from None
    if not workers:
        tell("the Dask cluster has no worker yet")
    over = threading.Event()
    ends.callback(over.set)
    watching = threading.Thread(target=watch, args=(client, workers, tell, over), daemon=True)
    watching.start()
    futures = {client.submit(attempt_there, run, task, pure=False, retries=asked.tries - 1): task[0] for task in tasks}
    for future in as_completed(futures):
        number = futures.pop(future)
        try:
            outcome, why = future.result()
        except Exception as fault:
            why = "the Dask scheduler is lost" if future.cancelled() else fault
            raise Failed(f"shard {number}: {why}") from None
        if outcome == "refused":
            raise Refused(f"shard {number}: {why}")
        yield number, outcome
    over.set()
    watching.join(10 * LOOK)


# ---- the whole


def merge(run, name, verdicts, *options):
    """Merges shards into a new folder; the folder, and what the program says."""
    room = os.path.join(run.working, name)
    os.mkdir(room)
    return room, result(run, "merge", "--out", room, *options, "--", *verdicts)


def merge_all(run, verdicts, asked, ends):
    """Merges shards, many of them by merges of merges; the folder of the last, and what the program says of it."""
    level = 0
    while len(verdicts) > MOST_MERGED:
        groups = [verdicts[at : at + MOST_MERGED] for at in range(0, len(verdicts), MOST_MERGED)]
        names = [f"merged-{level}-{number}" for number in range(len(groups))]
        rooms = list(pool_of(asked, ends).map(lambda name, group: merge(run, name, group, "--partial")[0], names, groups))
        verdicts, level = [os.path.join(room, "verdict") for room in rooms], level + 1
    return merge(run, "merged", verdicts, *(["--inputs", asked.inputs] if asked.inputs else []))


def put_in_place(room, out):
    """Moves a result into a folder. A verdict is there only with the parts that it names."""
    with contextlib.suppress(FileNotFoundError):
        os.remove(os.path.join(out, "verdict"))
    for name in sorted(os.listdir(room)):
        os.replace(os.path.join(room, name), os.path.join(out, name))


def sweep(out):
    """Removes what this run and earlier ones left unfinished. Who still works there sees it and stops."""
    for name in os.listdir(out):
        if UNFINISHED.fullmatch(name):
            ended = os.path.join(out, name + "-ended")
            os.rename(os.path.join(out, name), ended)
            # A program that is about to be killed may still write.
            for _ in range(100):
                shutil.rmtree(ended, ignore_errors=True)
                if not os.path.exists(ended):
                    break
                time.sleep(LOOK / 5)


def earlier_plan(asked, options):
    """The shards of the run that this one resumes, each with its stamps; none where the folder holds none."""
    names = {name for name in os.listdir(asked.out) if not UNFINISHED.fullmatch(name)}
    shards = os.path.join(asked.out, "shards")
    if names <= {"plan.json", "shards"} and not (os.path.isdir(shards) and os.listdir(shards)):
        return []
    if not asked.resume:
        raise Refused(f"{asked.out} is not empty; --resume goes on with what is there")
    try:
        with open(os.path.join(asked.out, "plan.json")) as file:
            plan = json.load(file)
        begun, made = [*plan["options"]], list(zip(plan["shards"], plan["stamps"]))
    except (OSError, ValueError, TypeError, LookupError):
        raise Refused(f"{asked.out} holds no run to resume: its plan.json can't be read") from None
    if begun != options:
        raise Refused(f"{asked.out} was begun with other options: {' '.join(map(str, begun))}")
    return made


def begin(run, asked):
    """Plans the run: the shards, and for each the stamps of its files. Takes away what an earlier run made for another plan."""
    start, inputs, options = 0, [], [*run.job, "--shard-size", asked.shard_size, *(["--behind", asked.behind] if asked.behind else [])]
    if asked.behind:
        inputs = inputs_of(asked.behind)
        if not inputs or inputs[-1][3] != asked.files[0] or inputs[-1][2] == "open":
            raise Refused(f"{asked.behind} does not end at a line's end of {asked.files[0]}")
        start = inputs[-1][1]
    for name in asked.files:
        if re.search("[\n\udc80-\udcff]", name):
            raise Refused(f"{name!r} is not UTF-8, or has a line feed")
        if not stat.S_ISREG(os.stat(name).st_mode):
            raise Refused(f"{name} is no regular file")
    if len(set(asked.files)) < len(asked.files):
        raise Refused("a file is named twice")
    shards = shards_of(asked.files, asked.shard_size, start)
    if asked.inputs:
        count = len(inputs) + sum(len(shard[0]) for shard in shards)
        with open(asked.inputs, "rb") as file:
            if sum(1 for _ in file) != count:
                raise Refused(f"{asked.inputs} needs a line for each file, and for each range of a file that is cut: {count}")
    plan = {"options": options, "shards": shards, "stamps": [stamps_of(run, shard[0]) for shard in shards]}
    os.makedirs(run.out, exist_ok=True)
    earlier = earlier_plan(asked, options)
    sweep(run.out)
    os.mkdir(run.working)
    os.makedirs(os.path.join(run.out, "shards"), exist_ok=True)
    planned = list(zip(shards, plan["stamps"]))
    for number, made in enumerate(earlier):
        where = os.path.join(run.out, "shards", f"{number:06}")
        if (number >= len(planned) or made != planned[number]) and os.path.exists(where):
            os.rename(where, os.path.join(run.working, f"{number:06}-stale"))
    with open(os.path.join(run.working, "plan.json"), "w") as file:
        json.dump(plan, file)
    os.replace(os.path.join(run.working, "plan.json"), os.path.join(run.out, "plan.json"))
    return [(number, shard, stamps) for number, (shard, stamps) in enumerate(planned)]


def run_all(asked, tell):
    """The whole run; what the program says of the merged result."""
    out, program = os.path.abspath(asked.out), shutil.which(asked.program)
    if program is None:
        raise Refused(f"there is no program {asked.program}")
    working = os.path.join(out, f".unfinished-{uuid.uuid4().hex[:8]}")
    run = types.SimpleNamespace(program=os.path.abspath(program), job=job_of(asked), here=os.getcwd(), out=out, working=working)
    progress = tell if asked.progress or sys.stderr.isatty() else lambda line: None
    with contextlib.ExitStack() as ends:
        try:
            tasks = begin(run, asked)
            progress(f"shards: {len(tasks)} of {len(asked.files)} files")
            by = by_processes if asked.dask is None else by_dask
            for done, (number, outcome) in enumerate(by(run, tasks, asked, tell, ends), 1):
                progress(f"shards: {done} of {len(tasks)}: {number} {outcome}")
            verdicts = [os.path.join(out, "shards", f"{number:06}", "verdict") for number, _, _ in tasks]
            progress(f"shards: merging {len(verdicts)}")
            room, said = merge_all(run, [*([asked.behind] if asked.behind else []), *verdicts], asked, ends)
            put_in_place(room, out)
            return said
        finally:
            if os.path.isdir(working):
                sweep(out)


# ---- the command line


def size_of(text):
    """So many bytes, by a number with K, M, G or nothing behind it; 1 GiB at most."""
    told = re.fullmatch(r"([0-9]+)([KMG]?)", text)
    size = int(told[1]) << {"": 0, "K": 10, "M": 20, "G": 30}[told[2]] if told else 0
    if not 0 < size <= MOST_BYTES:
        raise argparse.ArgumentTypeError(f"{text} is no size from 1 to 1G")
    return size


def count_of(text):
    """A number from 1 on."""
    if not re.fullmatch(r"0*[1-9][0-9]{0,5}", text):
        raise argparse.ArgumentTypeError(f"{text} is no number from 1 on")
    return int(text)


def words():
    """What the command line asks for."""
    parser = argparse.ArgumentParser(description=__doc__, formatter_class=argparse.RawDescriptionHelpFormatter)
    parser.add_argument("--out", required=True, metavar="DIR", help="where the result goes, a new folder or an empty one")
    parser.add_argument("--resume", action="store_true", help="go on with what is in DIR, by the same options")
    parser.add_argument("--job", required=True, choices=["words", "grep", "url", "index", "field"])
    parser.add_argument("--literal", help="what grep looks for")
    parser.add_argument("--fold", action="store_true", help="grep: letters in either case")
    parser.add_argument("--keep-case", action="store_true", help="words, index: capitals are not folded")
    parser.add_argument("--by-host", action="store_true", help="url: a key's output file is that of its host")
    parser.add_argument("--field", metavar="N", help="field: which field of each line is counted, from 1")
    parser.add_argument("--separator", metavar="C", help="field: the byte between fields, \\t for a tab (runs of spaces and tabs)")
    parser.add_argument("--parts", default="1", help="partitions, one file each")
    parser.add_argument("--split", help="bytes of a split")
    parser.add_argument("--shard-size", type=size_of, default=size_of("256M"), metavar="SIZE", help="the most bytes of a shard, as 100M or 1G (256M)")
    parser.add_argument("--behind", metavar="VERDICT", help="the first FILE from where this verdict ends in it; its result is merged, too")
    parser.add_argument("--inputs", metavar="LIST", help="what sha256sum told of all files, if none is cut; the merge compares")
    parser.add_argument("--allow-empty", action="store_true", help="take no FILE at all")
    parser.add_argument("--processes", type=count_of, default=os.cpu_count(), metavar="N", help="shards at a time")
    parser.add_argument("--dask", nargs="?", const="", metavar="ADDRESS", help="by a Dask cluster: this one, or one of this machine")
    parser.add_argument("--tries", type=count_of, default=3, metavar="N", help="attempts at a shard (3)")
    parser.add_argument("--progress", action="store_true", help="tell how far it is, also where that is read by no person")
    parser.add_argument("--program", default=os.environ.get("MAPRED", os.path.join(TOP, "mapred")), help="the program ($MAPRED, or else mapred of this repository)")
    parser.add_argument("files", nargs="*", metavar="FILE")
    asked = parser.parse_args()
    if not asked.files and (asked.behind or not asked.allow_empty):
        parser.error("no FILE is named (--allow-empty takes none)")
    return asked


def job_of(asked):
    """The request as the words of mapred's command line."""
    job = ["--job", asked.job, "--parts", asked.parts]
    job += [f"--literal={asked.literal}"] if asked.literal is not None else []
    job += [f"--field={asked.field}"] if asked.field is not None else []
    job += [f"--separator={asked.separator}"] if asked.separator is not None else []
    job += ["--split", asked.split] if asked.split else []
    return job + ["--fold"] * asked.fold + ["--keep-case"] * asked.keep_case + ["--by-host"] * asked.by_host


def main():
    sys.stderr = sys.stderr or open(os.devnull, "w")
    asked = words()

    def tell(line):
        try:
            print(line, file=sys.stderr, flush=True)
        except OSError:
            # A run goes on where nobody can read how far it is.
            sys.stderr = open(os.devnull, "w")

    ending = [number for number in (signal.SIGINT, signal.SIGTERM, signal.SIGHUP) if signal.getsignal(number) != signal.SIG_IGN]

    def end(number, _):
        # The first signal ends the run; it takes its time to end cleanly.
        for each in ending:
            signal.signal(each, signal.SIG_IGN)
        raise Signalled(number)

    for number in ending:
        signal.signal(number, end)
    try:
        print(run_all(asked, tell), end="")
        return 0
    except Failed as fault:
        tell(f"shards.py: {fault}")
        return 2 if isinstance(fault, Refused) else 1
    except OSError as fault:
        tell(f"shards.py: {text_of(fault)}")
        return 3
    except Signalled as fault:
        tell("shards.py: stopped; --resume goes on")
        return 128 + fault.args[0]


if __name__ == "__main__":
    sys.exit(main())
