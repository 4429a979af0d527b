#!/usr/bin/env python3
"""The worst inputs that we know for time and memory, each beside a plain one of its size.

    worst.py MAPRED [--rounds 3] [--dir FOLDER] [--only NAME,..]

Prints a row for each input and command: seconds (the least of the rounds), processor seconds, peak memory, and that
memory as a multiple of the input. Needs GNU time."""
import argparse, os, random, shutil, struct, sys, tempfile

HERE = os.path.dirname(os.path.abspath(__file__))
sys.path[:0] = [HERE, os.path.join(os.path.dirname(HERE), "tests")]
from bench import timed
from colliding import colliding

MB = 1 << 20


def written(path, make):
    if not os.path.exists(path):
        with open(path + ".part", "wb") as file:
            file.writelines(make())
        os.rename(path + ".part", path)
    return path


def distinct(count):
    return (b"".join(b"%08d\n" % i for i in range(at, min(at + 100_000, count))) for at in range(0, count, 100_000))


def collided(count):
    words = colliding(count, random.Random(18))
    random.Random(19).shuffle(words)
    return [b" ".join(words), b"\n"]


def random_words(count):
    draw = random.Random(20)
    return [b" ".join(struct.pack("<Q", draw.getrandbits(64)).hex().encode() for _ in range(count)), b"\n"]


# (name, options, what the file holds, and what a file in front of it, if there is one)
INPUTS = [
    ("words of a byte, one record", ["--job", "words"], lambda: [b"a " * (16 * MB)]),
    ("words of a byte, a record each", ["--job", "words"], lambda: [b"a\n" * (16 * MB)]),
    ("8 million distinct words", ["--job", "words"], lambda: distinct(8_000_000)),
    ("100,000 words of sixteen bytes", ["--job", "words"], lambda: random_words(100_000)),
    ("the same many, made to collide", ["--job", "words"], lambda: collided(100_000)),
    ("400,000 long words that differ at the end", ["--job", "words"], lambda: (b"a" * 16 + b"%08d\n" % i for i in range(400_000))),
    ("the same many that differ in front", ["--job", "words"], lambda: (b"%08d" % i + b"a" * 16 + b"\n" for i in range(400_000))),
    ("empty records", ["--job", "words"], lambda: [b"\n" * (32 * MB)]),
    ("grep: short lines that match", ["--job", "grep", "--literal", "a"], lambda: [b"a\n" * (16 * MB)]),
    ("grep: the same behind a line in another file", ["--job", "grep", "--literal", "a"], lambda: [b"a\n" * (16 * MB)], b"a\n"),
    ("grep: one line of a, the literal a..ab", ["--job", "grep", "--literal", "a" * 4095 + "b"], lambda: [b"a" * (4 * MB)]),
    ("grep: the same, folded", ["--job", "grep", "--fold", "--literal", "a" * 4095 + "b"], lambda: [b"a" * (4 * MB)]),
    ("grep: the same, folded, a..aba..a", ["--job", "grep", "--fold", "--literal", "a" * 2047 + "b" + "A" * 2048], lambda: [b"a" * (4 * MB)]),
    ("grep: empty lines, the longest literal", ["--job", "grep", "--literal", "a" * 4096], lambda: [b"\n" * (32 * MB)]),
    ("grep: lines of a, the literal a..ab", ["--job", "grep", "--literal", "a" * 63 + "b"], lambda: [(b"a" * 63 + b"\n") * (MB // 2)]),
    ("grep: lines of a..b, the literal a..b, folded", ["--job", "grep", "--fold", "--literal", "a" * 63 + "B"], lambda: [(b"a" * 300 + b"b\n") * (MB // 8)]),
    ("url: short requests", ["--job", "url"], lambda: [b'"G / H"\n' * (4 * MB)]),
    ("index: words of a byte, one record", ["--job", "index"], lambda: [b"a " * (16 * MB)]),
    ("index: words of a byte, a record each", ["--job", "index"], lambda: [b"a\n" * (16 * MB)]),
    ("splits of a byte", ["--job", "words", "--split", "1"], lambda: [b"a\n" * (MB // 2)]),
]


def rows_of(mapred, room, options, files):
    """The commands that are timed over these files, in the order in which they need each other."""
    size = os.path.getsize(files[-1])
    small = options if "--split" in options else [*options, "--split", str(max(1, size // 8))]
    alone, shared, run = (os.path.join(room, name) for name in ("alone", "shared", "run"))
    for where in (alone, shared, run):
        shutil.rmtree(where, ignore_errors=True)
        os.mkdir(where)
    return [
        ("seq", [mapred, "seq", *options, "--parts", "8", "--out", alone, *files]),
        ("check", [mapred, "check", *options, "--parts", "8", "--out", alone, *files]),
        ("seq, 8 splits", [mapred, "seq", *small, "--parts", "8", "--out", shared, *files]),
        ("check, 4 threads", [mapred, "check", *small, "--parts", "8", "--threads", "4", "--out", shared, *files]),
        ("run, 4 workers", [mapred, "run", *small, "--parts", "8", "--workers", "4", "--out", run, *files]),
    ]


def told_no(mapred, room):
    """Results that the judge says no to: the commands over a part of 500 MB without a line feed, which stands in for the one
    part of 32 MB of words, beside their certificate."""
    text = written(os.path.join(room, "words"), lambda: distinct(3_500_000))
    where = os.path.join(room, "no")
    shutil.rmtree(where, ignore_errors=True)
    os.mkdir(where)
    asked = ["--job", "words", "--out", where, text]
    made, _, _, status, said = timed([mapred, "seq", *asked], 120)
    if status != 0:
        sys.exit(f"seq: status {status} {said!r}")
    written(os.path.join(room, "no-line-feed"), lambda: [b"a" * MB] * 500)
    shutil.copy(os.path.join(room, "no-line-feed"), os.path.join(where, "part-00000"))
    return judged_by(mapred, asked)


def judged_by(mapred, asked):
    return [("check", [mapred, "check", *asked]), ("check, 4 threads", [mapred, "check", "--threads", "4", *asked])]


def least_names(mapred, room):
    """The commands over a certificate of version 2 that names the pair of the least name 66 million times, beside 24 MB of
    words."""
    text = written(os.path.join(room, "few-words"), lambda: [b"a word\n" * (24 * MB // 7)])
    where = os.path.join(room, "least")
    shutil.rmtree(where, ignore_errors=True)
    os.mkdir(where)
    asked = ["--job", "words", "--split", str(4 * MB), "--out", where, text]
    made, _, _, status, said = timed([mapred, "seq", "--cert", "2", *asked], 120)
    if status != 0:
        sys.exit(f"seq: status {status} {said!r}")
    path, names = os.path.join(where, "certificate"), 66_000_000
    with open(path, "rb") as file:
        front = file.read(44)
    with open(path, "wb") as file:
        file.write(front + struct.pack(">II", 1, names))
        file.write(bytes(3 * names))
    return judged_by(mapred, asked)


def show(name, size, command, words, it, wants):
    """The row of a command: the least of the rounds, or what went wrong."""
    best = None
    for _ in range(it.rounds):
        wall, cpu, peak, status, said = timed(words, it.timeout)
        if status != wants:
            best = (wall, cpu, peak, f"status {status} {said[:80]!r}")
            break
        if best is None or wall < best[0]:
            best = (wall, cpu, peak, "")
    wall, cpu, peak, note = best
    told = f"{wall:.2f} | {cpu:.2f} | {peak:.0f} | {peak * 1.048576 / size:.1f}" if wall and cpu is not None else f"over {it.timeout:.0f} | | |"
    print(f"| {name} | {size:.1f} | {command} | {told} |{' ' + note if note else ''}", flush=True)


def main():
    ask = argparse.ArgumentParser(description=__doc__, formatter_class=argparse.RawDescriptionHelpFormatter)
    ask.add_argument("mapred")
    ask.add_argument("--rounds", type=int, default=3)
    ask.add_argument("--timeout", type=float, default=120)
    ask.add_argument("--dir", default=os.path.join(tempfile.gettempdir(), "mapred-worst"))
    ask.add_argument("--only", default="")
    it = ask.parse_args()
    os.makedirs(it.dir, exist_ok=True)
    print("| Input | MB | Command | Seconds | Processor s | Peak MB | × input |")
    print("|---|---|---|---|---|---|---|")
    for number, (name, options, make, *front) in enumerate(INPUTS):
        if it.only and not any(part in name for part in it.only.split(",")):
            continue
        path = written(os.path.join(it.dir, f"input-{number}"), make)
        files = [written(f"{path}-front", lambda: front), path] if front else [path]
        size = os.path.getsize(path) / 1e6
        for command, words in rows_of(os.path.abspath(it.mapred), it.dir, options, files):
            show(name, size, command, words, it, 0)
    for name, size, made in [("no: a part without a line feed", 524.3, told_no), ("no: the least names, version 2", 198.0, least_names)]:
        if not it.only or any(part in name for part in it.only.split(",")):
            for command, words in made(os.path.abspath(it.mapred), it.dir):
                show(name, size, command, words, it, 1)


if __name__ == "__main__":
    main()
