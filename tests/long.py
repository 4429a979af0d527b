#!/usr/bin/env python3
"""Spoiled results by the hundred thousand, by hand: long.py PROGRAM [--rounds N] [--seed S] [--workers W]

Each round spoils a good result in one way that has a name, or in a byte, and asks the judge about it: alone, and every
tenth time by three threads too. Its line is compared with that of a plain judge in Python. It has 512 MiB of memory, and
may take one second. A wrong line, a status but 0 and 1, a crash or more time ends the round as failed, and its seed is
printed. Twenty rounds one behind another spoil the same good result. The last line is 'N passed, M failed'."""
import argparse
import copy
import functools
import os
import random
import resource
import shutil
import signal
import sys
import tempfile
import time
from multiprocessing import Pool

sys.path.insert(0, os.path.dirname(os.path.abspath(__file__)))
from harness import VERSIONS
from judging import spoiled
from plain import judged, produced
from producer import options_of, random_job

MEMORY = 512 << 20
SECONDS = 1.0
# How many rounds spoil one result, and how many are given to a worker at once.
EACH, SHARE = 20, 500
# A memory's file system, where there is one: a round writes some files.
ROOMS = "/dev/shm" if os.path.isdir("/dev/shm") else None


def little_memory():
    """For this process and those that it starts."""
    resource.setrlimit(resource.RLIMIT_AS, (MEMORY, MEMORY))


def too_long(*_):
    raise TimeoutError


@functools.lru_cache(maxsize=2)
def good(number):
    """The good result of this number: request, files, outputs and certificate."""
    request, files, skips = random_job(random.Random(f"long, the good one {number}"))
    outputs, certificate, _ = produced(request, files, skips)
    certificate.version = VERSIONS[number % len(VERSIONS)]
    return request, files, outputs, certificate


class Room:
    """A directory in which a worker's rounds are judged, one behind another."""

    def __init__(self, program):
        self.program, self.stands = program, {}
        self.at = tempfile.mkdtemp(prefix="mapred-long-", dir=ROOMS)
        os.chdir(self.at)

    def holds(self, files):
        """Has just these files stand there."""
        for name in [name for name in self.stands if name not in files]:
            os.remove(name)
            del self.stands[name]
        for name, data in files.items():
            if self.stands.get(name) != data:
                with open(name, "wb") as file:
                    file.write(data)
                self.stands[name] = data

    def answer(self, words):
        """The status, what is said on both streams, and the processor's seconds."""
        opened = [(os.POSIX_SPAWN_OPEN, stream, name, os.O_WRONLY | os.O_CREAT | os.O_TRUNC, 0o600) for stream, name in ((1, "said"), (2, "complained"))]
        child = os.posix_spawn(self.program, [self.program, *words], os.environ, file_actions=opened)
        signal.alarm(20)
        try:
            _, status, used = os.wait4(child, 0)
        except TimeoutError:
            os.kill(child, signal.SIGKILL)
            os.wait4(child, 0)
            return None
        finally:
            signal.alarm(0)
        said, complained = (open(name, "rb").read() for name in ("said", "complained"))
        return os.waitstatus_to_exitcode(status), said, complained, used.ru_utime + used.ru_stime

    def close(self):
        os.chdir("/")
        shutil.rmtree(self.at, ignore_errors=True)


def one_round(room, seed):
    """What went wrong in a round, if anything did."""
    request, files, outputs, certificate = good(seed // EACH)
    asked, files, outputs, data = spoiled(random.Random(f"long {seed}"), request, files, outputs, copy.deepcopy(certificate))
    names = {f"f{i}": text for i, text in enumerate(files)}
    room.holds({**names, **{f"part-{p:05}": text for p, text in enumerate(outputs)}, "certificate": data})
    want = judged(asked, files, outputs, data)
    due = (0 if want.startswith("yes") else 1, want.encode(), b"")
    words = [*options_of(asked, "check"), "--out", ".", *names]
    for more in [[]] + [["--threads", "3"]] * (seed % 10 == 0):
        got = room.answer([words[0], *more, *words[1:]])
        if got is None or got[:3] != due or got[3] >= SECONDS:
            return f"seed {seed} {more}: got {got!r} wanted {due!r}"
    return None


def rounds(asked):
    """The faults of a share of the rounds."""
    program, seeds = asked
    signal.signal(signal.SIGALRM, too_long)
    room = Room(program)
    try:
        faults = [one_round(room, seed) for seed in seeds]
    finally:
        room.close()
    return len(seeds), [fault for fault in faults if fault]


def main():
    parser = argparse.ArgumentParser(description=__doc__, formatter_class=argparse.RawDescriptionHelpFormatter)
    parser.add_argument("program")
    parser.add_argument("--rounds", type=int, default=1_000_000)
    parser.add_argument("--seed", type=int, default=0, help="the first round's seed; they count up from it")
    parser.add_argument("--workers", type=int, default=os.cpu_count())
    asked = parser.parse_args()
    program, last = os.path.abspath(asked.program), asked.seed + asked.rounds
    shares = [(program, range(at, min(at + SHARE, last))) for at in range(asked.seed, last, SHARE)]
    passed = failed = 0
    began = time.time()
    with Pool(asked.workers, initializer=little_memory) as pool:
        for number, faults in pool.imap_unordered(rounds, shares):
            passed, failed = passed + number - len(faults), failed + len(faults)
            for fault in faults:
                print(f"failed: {fault}"[:2000], flush=True)
            if (passed + failed) % 50_000 < SHARE:
                print(f"{passed + failed} rounds, {time.time() - began:.0f} s", flush=True)
    print(f"{passed} passed, {failed} failed")
    return 0 if failed == 0 else 1


if __name__ == "__main__":
    sys.exit(main())
