#!/usr/bin/env python3
"""Times `mapred merge`: eight shards of words, of an index, and the worst inputs that we know for it; and how the runner cuts a file.

    merge.py MAPRED.. [--rounds 8] [--words 2000000] [--dir FOLDER] [--only NAME]

Programs run in turn, so that a machine whose neighbours change its speed is as fair as it can be to each. `sort -m` of the same
parts takes its turn: it adds nothing and computes no digest. Prints a row for each input and program: the least of the rounds and
their median, MB of parts a second by each, the least over that of `sort -m`, and peak memory. The last row is the time in which
engines/shards.py plans the shards of a sparse file of 20 GiB. --only takes the rows whose names contain NAME. Needs GNU time."""
import argparse, os, random, shutil, statistics, sys, tempfile, time

HERE = os.path.dirname(os.path.abspath(__file__))
sys.path[:0] = [HERE, *(os.path.join(os.path.dirname(HERE), name) for name in ("tests", "engines"))]
from bench import timed
from plain import Request
from shards import shards_of
from verdicts import verdict_text

WORDS, GREP, INDEX = Request("words", 1, 1 << 26), Request("grep", 1, 1 << 26, literal=b"e"), Request("index", 1, 1 << 26)
# How many files a shard of an index has.
INDEXED = 64


def letters(number):
    """A word for a number, of five letters or more; words rise with their numbers."""
    out = b""
    for _ in range(5):
        number, digit = divmod(number, 26)
        out = bytes([97 + digit]) + out
    return out


def eight_shards(count):
    """Of so many made words each shard has six tenths."""
    draw = random.Random(8)
    for _ in range(8):
        yield WORDS, b"".join(b"%smm\t%d\n" % (letters(number), draw.randint(1, 999)) for number in range(count) if draw.random() < 0.6)


def eight_indexes(count):
    """Of so many made words each shard has six tenths, each in one to eight of its files."""
    draw, numbers = random.Random(8), range(INDEXED)
    lists = [b",".join(b"%d" % number for number in sorted(draw.sample(numbers, draw.randint(1, 8)))) for _ in range(1000)]
    for _ in range(8):
        yield INDEX, b"".join(b"%smm\t%s\n" % (letters(number), draw.choice(lists)) for number in range(count) if draw.random() < 0.6)


def short_lines(count, step=0):
    return b"".join(b"%08d\t1\n" % number for number in range(step, 2 * count, 2))


def with_long_lines(count, lines):
    """A part of short lines, and one of long ones."""
    yield WORDS, short_lines(count)
    yield WORDS, b"".join(b"%08d" % number + b"x" * (64 << 20) + b"\t1\n" for number in range(lines))


def with_falling_keys(count):
    """A part of short lines, and one whose keys fall at its third window."""
    yield WORDS, short_lines(count)
    rising = short_lines(50_000, 1)
    yield WORDS, rising + short_lines(count // 2, 1)


def equal_lines(count):
    """One line in two parts, over and over."""
    for _ in range(2):
        yield GREP, b"".join(b"the\t0:%d\n" % (4 * number) for number in range(count))


def inputs(words):
    yield f"8 shards of {words} words", lambda: eight_shards(words)
    yield f"8 shards of an index of {words} words", lambda: eight_indexes(words)
    yield "equal lines", lambda: equal_lines(words)
    yield "short lines alone", lambda: [(WORDS, short_lines(4 * words + words // 2))]
    for lines in (1, 2):
        yield f"beside {lines} of 64 MiB", lambda lines=lines: with_long_lines(4 * words + words // 2, lines)
    yield "beside keys that fall", lambda: with_falling_keys(4 * words + words // 2)


def pairs_in(request, part):
    """The pairs that a part's lines state, as a verdict has to tell; for an index any number would do."""
    if request != WORDS:
        return part.count(b"\n")
    return sum(int(line[line.rindex(b"\t"):]) for line in part.splitlines())


def written(room, shards):
    """The verdicts of shards, each in a folder with its part, and how many bytes the parts have."""
    verdicts, size = [], 0
    for number, (request, part) in enumerate(shards):
        folder = os.path.join(room, f"shard-{number}")
        os.makedirs(folder)
        with open(os.path.join(folder, "part-00000"), "wb") as file:
            file.write(part)
        with open(os.path.join(folder, "verdict"), "wb") as file:
            names = [f"f{number}-{file}" for file in range(INDEXED if request == INDEX else 1)]
            file.write(verdict_text(request, [(name, b"") for name in names], [part], [], pairs_in(request, part)))
        verdicts.append(os.path.join(folder, "verdict"))
        size += len(part)
    return verdicts, size


def seconds_to_plan(room, rounds):
    """In how many seconds a file of 20 GiB with a line end for each 10 MB is cut, and into how many shards."""
    path, spent = os.path.join(room, "sparse"), []
    with open(path, "wb") as file:
        file.truncate(20 << 30)
        for at in range(0, 20 << 30, 10_000_000):
            os.pwrite(file.fileno(), b"\n", at)
    for _ in range(rounds):
        start = time.monotonic()
        count = len(shards_of([path], 256 << 20))
        spent.append(time.monotonic() - start)
    return min(spent), count


def main():
    parser = argparse.ArgumentParser(description=__doc__, formatter_class=argparse.RawDescriptionHelpFormatter)
    parser.add_argument("programs", nargs="+")
    parser.add_argument("--rounds", type=int, default=8)
    parser.add_argument("--words", type=int, default=2_000_000)
    parser.add_argument("--dir")
    parser.add_argument("--only", default="")
    given = parser.parse_args()
    for name, shards in inputs(given.words):
        if given.only not in name:
            continue
        room = tempfile.mkdtemp(prefix="mapred-merge-", dir=given.dir)
        try:
            verdicts, size = written(room, shards())
            out = os.path.join(room, "out")
            os.makedirs(out)
            parts = [os.path.join(os.path.dirname(verdict), "part-00000") for verdict in verdicts]
            sorting = ["sort", "-m", "-o", os.path.join(out, "sorted"), *parts]
            commands = {"sort -m": sorting, **{program: [program, "merge", "--out", out, *verdicts] for program in given.programs}}
            runs = {program: [] for program in commands}
            for _ in range(given.rounds):
                for program, words in commands.items():
                    runs[program].append(timed(words, None))
            least_of = lambda program: min(run[0] for run in runs[program])
            for program, told in runs.items():
                if any(run[3] for run in told) and not name.endswith("fall"):
                    raise SystemExit(f"{program}: {told[0][4].decode(errors='replace')}")
                told_of = lambda seconds: f"{seconds:.2f} s, {size / 1e6 / seconds:.0f} MB/s"
                peak, ratio = max(run[2] or 0 for run in told), least_of(program) / least_of("sort -m")
                median = statistics.median(run[0] for run in told)
                print(f"{name}, {size / 1e6:.0f} MB, {program}: least {told_of(least_of(program))}, {ratio:.2f} of sort -m; median {told_of(median)}; {peak:.1f} MB", flush=True)
        finally:
            shutil.rmtree(room)
    if given.only in "planning":
        with tempfile.TemporaryDirectory(prefix="mapred-merge-", dir=given.dir) as room:
            least, count = seconds_to_plan(room, given.rounds)
            print(f"planning {count} shards of a sparse file of 20 GiB: {1000 * least:.1f} ms")


if __name__ == "__main__":
    main()
