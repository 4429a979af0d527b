#!/usr/bin/env python3
"""One large file in ranges, by the runner of engines/: its parts against GNU tools, and its time against one process.

    ranges.py MAPRED [--gb 3.3] [--dir FOLDER] [--processes 4] [--times]

Makes a file of lines of words, counts its words and finds lines with a word in shards of 256 MB, by so many processes at a time, and
compares the parts with `tr | sort | uniq -c` and with `grep -b`. With --times it then runs `seq` and `check` over the same ranges one
after another, and prints the runner's time as a multiple of that time divided by the processes; and `seq` over a file of 64 MB with
`--from 0 --to SIZE` against the same without. Needs free disk of twice the size, GNU tools, and 1.2 GB of memory a process."""
import argparse, os, subprocess, sys, tempfile, time

HERE = os.path.dirname(os.path.abspath(__file__))
TOP = os.path.dirname(HERE)
sys.path[:0] = [os.path.join(TOP, "engines")]
from shards import shards_of

SHARD = 256 << 20


def large_file(room, size):
    """A file of so many bytes of made text, line after line, whose last line is open."""
    path, piece = os.path.join(room, "large"), os.path.join(room, "piece")
    if not os.path.exists(path):
        subprocess.run([sys.executable, os.path.join(HERE, "gen_text.py"), "64", piece], check=True)
        data = open(piece, "rb").read()
        with open(path + ".part", "wb") as file:
            at = 0
            while file.tell() < size:
                # No two copies are alike: each has a word of its own.
                file.write(b"copy%d\n" % at + data[: size - file.tell()])
                at += 1
            file.write(b"the last line")
        os.rename(path + ".part", path)
    return path


def timed(words):
    """Seconds of a command that ends well."""
    start = time.monotonic()
    subprocess.run(words, check=True, stdout=subprocess.DEVNULL)
    return time.monotonic() - start


def shell(line):
    return subprocess.run(["bash", "-c", line], check=True, stdout=subprocess.PIPE, env={**os.environ, "LC_ALL": "C"}).stdout


def counted_plainly(path, room):
    """The lines of the words and their counts, by GNU tools."""
    return shell(f"tr A-Z a-z < {path} | tr -cs 'a-z0-9\\200-\\377' '\\n' | sort -S 2G -T {room} | uniq -c | sed -n 's/^ *\\([0-9]*\\) \\(..*\\)$/\\2\\t\\1/p'")


def runner(asked, room, name, job):
    """The seconds of the runner, and the folder of its result."""
    out = os.path.join(room, name)
    subprocess.run(["rm", "-rf", out], check=True)
    words = [sys.executable, os.path.join(TOP, "engines", "shards.py"), "--program", asked.program, "--processes", str(asked.processes)]
    return timed([*words, *job, "--shard-size", "256M", "--out", out, asked.file]), out


def one_by_one(asked, room, job):
    """The seconds of `seq` and `check` over the same ranges, by one process."""
    spent, out = 0, os.path.join(room, "one")
    os.makedirs(out, exist_ok=True)
    for files, low, high in shards_of([asked.file], SHARD):
        bounds = ["--from", str(low), *(["--to", str(high)] if high is not None else [])]
        for command in ("seq", "check"):
            spent += timed([asked.program, command, *job, *(["--cert", "2"] if command == "seq" else []), *bounds, "--out", out, *files])
    return spent


def bounds_cost(asked, room, job):
    """The medians of `seq` over a piece with and without bounds, in turn."""
    piece, out = os.path.join(room, "piece"), os.path.join(room, "one")
    size = str(os.path.getsize(piece))
    with_bounds, without = [], []
    for _ in range(9):
        without.append(timed([asked.program, "seq", *job, "--out", out, piece]))
        with_bounds.append(timed([asked.program, "seq", *job, "--from", "0", "--to", size, "--out", out, piece]))
    return sorted(with_bounds)[4], sorted(without)[4]


def main():
    parser = argparse.ArgumentParser(description=__doc__, formatter_class=argparse.RawDescriptionHelpFormatter)
    parser.add_argument("program")
    parser.add_argument("--gb", type=float, default=3.3)
    parser.add_argument("--dir", default=os.path.join(tempfile.gettempdir(), "mapred-ranges"))
    parser.add_argument("--processes", type=int, default=4)
    parser.add_argument("--times", action="store_true")
    asked = parser.parse_args()
    asked.program = os.path.abspath(asked.program)
    os.makedirs(asked.dir, exist_ok=True)
    asked.file = large_file(asked.dir, int(asked.gb * 1e9))
    words = ["--job", "words", "--parts", "1"]
    seconds, out = runner(asked, asked.dir, "words", words)
    told = counted_plainly(asked.file, asked.dir)
    same = told == open(os.path.join(out, "part-00000"), "rb").read()
    print(f"words: {seconds:.1f} s, {'equal to' if same else 'OTHER THAN'} tr | sort | uniq -c")
    lines = ["--job", "grep", "--literal", "copy"]
    spent, out = runner(asked, asked.dir, "lines", lines)
    found = shell(f"grep -ab copy {asked.file} | sed 's/^\\([0-9]*\\):\\(.*\\)$/\\2\\t0:\\1/' | sort")
    same_lines = found == b"".join(sorted(open(os.path.join(out, "part-00000"), "rb").read().splitlines(True)))
    print(f"grep: {spent:.1f} s, {'equal to' if same_lines else 'OTHER THAN'} grep -b")
    if asked.times:
        alone = one_by_one(asked, asked.dir, words)
        print(f"words: one process {alone:.1f} s; the runner takes {seconds / (alone / asked.processes):.2f} of a {asked.processes}th of it")
        more, less = bounds_cost(asked, asked.dir, words)
        print(f"seq --from 0 --to SIZE: {more / less:.3f} of seq")
    return 0 if same and same_lines else 1


if __name__ == "__main__":
    sys.exit(main())
