#!/usr/bin/env python3
"""The runner of engines/, disturbed: stopped at random times and resumed, and by a Dask cluster that loses a worker.

    stops.py MAPRED [--gb 3.3] [--dir FOLDER] [--processes 4] [--shard-size 64M] [--stops 25] [--dask] [--plain]

Counts the words of a large file once undisturbed. Then it stops so many runs by SIGTERM, SIGINT or SIGKILL and resumes each, and looks
after each stop: no shard without a verdict, and after a signal that can be caught nothing unfinished. With --dask it starts a scheduler
and three workers in folders of their own, and kills one in the middle. Each result has the bytes of the first, which --plain compares
with the counts of GNU tools. Needs free disk of twice the size."""
import argparse, collections, os, random, re, resource, shutil, signal, subprocess, sys, tempfile, time

HERE = os.path.dirname(os.path.abspath(__file__))
TOP = os.path.dirname(HERE)
sys.path.append(os.path.join(TOP, "tests"))
from harness import parts_of
from ranges import counted_plainly, large_file
from runner import RUNNER, is_whole, strays


def started(asked, *words):
    """The runner, whose result goes to `out`."""
    words = ["--program", asked.program, "--shard-size", asked.shard_size, "--processes", str(asked.processes), *words]
    words = [sys.executable, RUNNER, "--out", "out", "--resume", "--job", "words", "--parts", "3", "--progress", *words, asked.file]
    heeding = lambda: signal.signal(signal.SIGINT, signal.SIG_DFL)
    return subprocess.Popen(words, cwd=asked.dir, stdout=subprocess.DEVNULL, stderr=subprocess.PIPE, text=True, preexec_fn=heeding)


def stops(asked, rnd, want, seconds):
    """How many of the stops left what they may not, and of the results were others."""
    bad = count = 0
    out = os.path.join(asked.dir, "out")
    while count < asked.stops:
        number, process = rnd.choice([signal.SIGTERM, signal.SIGINT, signal.SIGKILL]), started(asked)
        try:
            said = process.communicate(timeout=0.5 + rnd.random() * seconds / 4)[1]
            good = process.returncode == 0 and is_whole(asked.dir, want)
            print(f"a whole run: {'good' if good else said}", flush=True)
            shutil.rmtree(out)
        except subprocess.TimeoutExpired:
            process.send_signal(number)
            said, count = process.communicate()[1], count + 1
            left = strays(out)
            caught = number != signal.SIGKILL
            good = process.returncode == (128 + number if caught else -number)
            good = good and "Traceback" not in said and all(not caught and name.startswith(".unfinished-") for name in left)
            print(f"stop {count} by {number.name}: {len(os.listdir(os.path.join(out, 'shards')))} shards, {'good' if good else said}", flush=True)
        bad += not good
    process = started(asked)
    said = process.communicate()[1]
    good = process.returncode == 0 and is_whole(asked.dir, want)
    print(f"after all stops: {'good' if good else said}")
    return bad + (not good)


def cluster(asked, want, seconds):
    """Whether a cluster that loses one of three workers makes the same, and the runner names that worker."""
    port, processes = 8700 + os.getpid() % 1000, []
    for name in ("scheduler", "worker", "worker", "worker"):
        room = tempfile.mkdtemp(dir=asked.dir)
        options = ["--port", str(port), "--host", "127.0.0.1"] if name == "scheduler" else [f"tcp://127.0.0.1:{port}", "--nthreads", "1", "--no-nanny"]
        command = [sys.executable, "-m", f"distributed.cli.dask_{name}", *options, "--no-dashboard"]
        processes.append(subprocess.Popen(command, cwd=room, stdout=subprocess.DEVNULL, stderr=subprocess.DEVNULL))
        time.sleep(3)
    shutil.rmtree(os.path.join(asked.dir, "out"), ignore_errors=True)
    start, process = time.monotonic(), started(asked, "--dask", f"tcp://127.0.0.1:{port}")
    time.sleep(3 + seconds / 2)
    processes[2].kill()
    said = process.communicate()[1]
    spent = time.monotonic() - start
    for each in processes:
        each.terminate()
        each.wait()
    good = process.returncode == 0 and "is lost" in said and is_whole(asked.dir, want)
    print(f"by Dask, a worker killed: {spent:.1f} s, {'good' if good else said}")
    return not good


def peak_of(process):
    """The most memory that a process had, in MiB; 0 if it has ended."""
    with open(f"/proc/{process}/status") as file:
        found = re.search(r"VmHWM:\s*([0-9]+) kB", file.read())
    return int(found[1]) >> 10 if found else 0


def plain_lines(asked):
    """The lines of the result, sorted, by GNU tools: the piece once for each whole copy of it in the file, and all that is beside."""
    piece, beside = os.path.join(asked.dir, "piece"), os.path.join(asked.dir, "beside")
    copies, at, counts = 0, 0, collections.Counter()
    with open(asked.file, "rb") as file, open(beside, "wb") as rest:
        while at < os.path.getsize(asked.file):
            file.seek(at)
            rest.write(file.readline())
            at = file.tell() + os.path.getsize(piece)
            copies += 1
        # The last copy is cut.
        copies -= 1
        file.seek(at - os.path.getsize(piece))
        rest.write(file.read())
    for name, times in ((piece, copies), (beside, 1)):
        for line in counted_plainly(name, asked.dir).splitlines():
            word, count = line.split(b"\t")
            counts[word] += times * int(count)
    return sorted(b"%s\t%d\n" % pair for pair in counts.items())


def main():
    parser = argparse.ArgumentParser(description=__doc__, formatter_class=argparse.RawDescriptionHelpFormatter)
    parser.add_argument("program")
    parser.add_argument("--gb", type=float, default=3.3)
    parser.add_argument("--dir", default=os.path.join(tempfile.gettempdir(), "mapred-stops"))
    parser.add_argument("--processes", type=int, default=4)
    parser.add_argument("--shard-size", default="64M")
    parser.add_argument("--stops", type=int, default=25)
    parser.add_argument("--dask", action="store_true")
    parser.add_argument("--plain", action="store_true")
    asked = parser.parse_args()
    asked.program = os.path.abspath(asked.program)
    os.makedirs(asked.dir, exist_ok=True)
    asked.file = large_file(asked.dir, int(asked.gb * 1e9))
    out, start = os.path.join(asked.dir, "out"), time.monotonic()
    shutil.rmtree(out, ignore_errors=True)
    said, own = "", 0
    with started(asked) as process:
        for line in process.stderr:
            said, own = said + line, peak_of(process.pid) or own
    want, seconds = parts_of(out), time.monotonic() - start
    if process.returncode or not is_whole(asked.dir, want):
        raise SystemExit(said)
    largest, count = resource.getrusage(resource.RUSAGE_CHILDREN).ru_maxrss >> 10, len(os.listdir(os.path.join(out, "shards")))
    print(f"undisturbed: {seconds:.1f} s, {os.path.getsize(asked.file)} bytes, {count} shards; the runner {own} MiB, the largest command {largest} MiB", flush=True)
    shutil.rmtree(out)
    bad = 0
    if asked.plain:
        good = sorted(b"".join(want).splitlines(True)) == plain_lines(asked)
        print(f"its lines: {'those of' if good else 'OTHER THAN'} tr | sort | uniq -c", flush=True)
        bad = not good
    bad += stops(asked, random.Random(25), want, seconds) if asked.stops else 0
    return 1 if bad + (cluster(asked, want, seconds) if asked.dask else 0) else 0


if __name__ == "__main__":
    sys.exit(main())
