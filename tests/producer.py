"""Results made by the rules alone are those of `seq`, byte for byte, and the judge says yes to them."""
import os
import subprocess
import sys

from harness import random_log, random_text, read_result, seeded, write_result
from plain import JOBS, any_request, judged, named_records, produced

SPLITS = [1, 3, 16, 100, 67108864]


def random_job(rnd, jobs=tuple(JOBS)):
    """A request of one of the jobs, files, and records to leave out of them."""
    job = rnd.choice(jobs)
    if job == "url" or rnd.random() < 0.1:
        files = [random_log(rnd, rnd.randint(0, 40)) for _ in range(rnd.randint(0, 3))]
    else:
        files = [random_text(rnd, rnd.choice([0, 1, 50, 1500])) for _ in range(rnd.randint(0, 4))]
    request = any_request(rnd, job)
    request.parts, request.split = rnd.choice([1, 2, 3, 7]), rnd.choice(SPLITS)
    names = [name for name, *_ in named_records(files, request.split)]
    skips = sorted(rnd.sample(names, min(len(names), rnd.choice([0, 0, 0, 1, 5]))))
    request.most = len(skips) + rnd.choice([0, 0, 3])
    return request, files, skips


def options_of(request, command, skips=()):
    """The words of the command line for a request, which leave out these records."""
    words = [command, *request.options()]
    if command == "seq" and skips:
        words += ["--skips", ",".join(f"{s}:{r}" for s, r in skips)]
    return words


def same_as_seq(harness):
    rnd = seeded("producer")
    for turn in range(200):
        request, files, skips = random_job(rnd)
        names = {f"f{i}": data for i, data in enumerate(files)}
        outputs, certificate, pairs = produced(request, files, skips)
        got = harness.run([*options_of(request, "seq", skips), "--out", ".", *names], names)
        done = f"done: {request.parts} files, {pairs} pairs, {len(skips)} left out\n".encode()
        harness.check(f"job {turn} {request}", got[:3] == (0, done, b""), repr(got[:3]))
        harness.check(f"job {turn} {request}, files", read_result(got[3]) == (outputs, certificate.bytes()))
        where = harness.directory(names)
        write_result(where, outputs, certificate.bytes())
        got = harness.run([*options_of(request, "check"), "--out", ".", *names], cwd=where)
        want = judged(request, files, outputs, certificate.bytes())
        harness.check(f"job {turn} {request}, judged", want.startswith("yes: ") and got[:3] == (0, want.encode(), b""), repr(got[:3]))


def by_the_engines_one(harness):
    """The same of the producer that lies beside the runner, which shares no line with these checks."""
    script = os.path.join(os.path.dirname(os.path.dirname(os.path.abspath(__file__))), "engines", "producer.py")
    rnd = seeded("the engines' producer")
    for turn in range(120):
        request, files, skips = random_job(rnd)
        names = {f"f{i}": data for i, data in enumerate(files)}
        where = harness.directory(names)
        options, version = options_of(request, "seq", skips)[1:], 1 if turn < 80 else 2
        options += ["--cert", "2"] if version == 2 else []
        at = options.index("--max-skips")
        made = subprocess.run([sys.executable, script, *options[:at], *options[at + 2 :], "--out", ".", *names], cwd=where, capture_output=True)
        outputs, certificate, pairs = produced(request, files, skips)
        certificate.version = version
        files_made = read_result(where)
        harness.check(f"job {turn} {request}, made", made.stdout == f"made: {request.parts} files, {pairs} pairs\n".encode() and files_made == (outputs, certificate.bytes()), repr(made))
        got = harness.run([*options_of(request, "check"), "--out", ".", *names], cwd=where)
        harness.check(f"job {turn} {request}, judged", got[0] == 0 and got[1].startswith(b"yes: "), repr(got[:3]))


GROUPS = {"producer": same_as_seq, "the engines' producer": by_the_engines_one}
