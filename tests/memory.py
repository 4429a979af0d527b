"""The program with ever more memory."""
import os
import resource
import subprocess

from harness import read_result as result_of, write_result
from rows import plain

# Kibibytes of memory with which a run of 62,000 pairs by one worker ends, if it takes no 15 MB beside.
ROOM_WITHOUT_BITS = 16_000


def little_memory(harness):
    """With ever more memory the program says that it is out of memory and writes nothing, or does the whole work; and
    the judge says the same, or yes."""
    data = b" ".join(b"w%d" % (i * 7919 % 40000) for i in range(200_000)) + b"\n"
    outputs, pairs, certificate = plain("words", [data], 2)
    judging = harness.directory()
    write_result(judging, outputs, certificate)
    with open(os.path.join(judging, "input"), "wb") as file:
        file.write(data)
    short, done, unjudged, yes = 0, 0, 0, 0
    for size in [*range(3000, 40000, 1000), *range(40000, 240000, 20000)]:
        where = harness.directory()
        with open(os.path.join(where, "input"), "wb") as file:
            file.write(data)
        limit = lambda: resource.setrlimit(resource.RLIMIT_AS, (size * 1024, size * 1024))
        words = ["--job", "words", "--parts", "2", "--out", ".", "input"]
        ran = subprocess.run([harness.program, "seq", *words], cwd=where, capture_output=True, preexec_fn=limit)
        if ran.returncode == 127:
            continue  # too little for the system to load a program
        got = (ran.returncode, ran.stdout, ran.stderr, *result_of(where))
        refused = got == (4, b"", b"mapred: out of memory\n", [], None)
        worked = got == (0, b"done: 2 files, %d pairs, 0 left out\n" % pairs, b"", outputs, certificate)
        harness.check(f"{size} KiB of memory", (refused and done == 0) or worked, repr(got)[:300])
        short, done = short + refused, done + worked
        ran = subprocess.run([harness.program, "check", *words], cwd=judging, capture_output=True, preexec_fn=limit)
        got = (ran.returncode, ran.stdout, ran.stderr)
        refused = got == (4, b"", b"mapred: out of memory\n")
        good = got == (0, b"yes: %d pairs, 0 left out\n" % pairs, b"")
        harness.check(f"{size} KiB of memory for the judge", (refused and yes == 0) or good, repr(got)[:300])
        unjudged, yes = unjudged + refused, yes + good
    harness.check("memory that doesn't suffice, and memory that does", short > 0 and done > 0)
    harness.check("memory that doesn't suffice for the judge, and memory that does", unjudged > 0 and yes > 0)


def little_memory_of_a_run(harness):
    """A run by four workers with ever more memory ends, certified with the whole result or refused with none. Threads
    take memory as they come, so more of it may be refused where less was not."""
    data = b" ".join(b"w%d" % (i * 7919 % 40000) for i in range(200_000)) + b"\n"
    outputs, pairs, certificate = plain("words", [data], 2, split=131072)
    seen = set()
    for size in [*range(4000, 60000, 4000), *range(60000, 400000, 20000)]:
        where = harness.directory({"input": data})
        limit = lambda: resource.setrlimit(resource.RLIMIT_AS, (size * 1024, size * 1024))
        words = ["run", "--job", "words", "--parts", "2", "--split", "131072", "--out", ".", "input"]
        ran = subprocess.run([harness.program, *words], cwd=where, capture_output=True, preexec_fn=limit, timeout=120)
        if ran.returncode == 127:
            continue  # too little for the system to load a program
        got = (ran.returncode, ran.stdout, ran.stderr, *result_of(where))
        refused = got == (4, b"", b"mapred: out of memory\n", [], None)
        done = got == (0, b"certified: 2 files, %d pairs, 0 left out\n" % pairs, b"", outputs, certificate)
        harness.check(f"{size} KiB of memory for a run", refused or done, repr(got)[:300])
        seen |= {got[0]}
    harness.check("memory that doesn't suffice for a run, and memory that does", seen == {0, 4}, repr(seen))


def little_memory_of_threads(harness):
    """A judge of four threads with ever more memory says that it is out of memory, or yes."""
    data = b" ".join(b"w%d" % (i * 7919 % 40000) for i in range(200_000)) + b"\n"
    outputs, pairs, certificate = plain("words", [data], 2, split=131072)
    where = harness.directory({"input": data})
    write_result(where, outputs, certificate)
    words = ["check", "--job", "words", "--parts", "2", "--split", "131072", "--threads", "4", "--out", ".", "input"]
    seen = set()
    for size in [*range(4000, 60000, 4000), *range(60000, 400000, 20000)]:
        limit = lambda: resource.setrlimit(resource.RLIMIT_AS, (size * 1024, size * 1024))
        ran = subprocess.run([harness.program, *words], cwd=where, capture_output=True, preexec_fn=limit, timeout=120)
        if ran.returncode == 127:
            continue  # too little for the system to load a program
        got = (ran.returncode, ran.stdout, ran.stderr)
        good = got in ((4, b"", b"mapred: out of memory\n"), (0, b"yes: %d pairs, 0 left out\n" % pairs, b""))
        harness.check(f"{size} KiB of memory for four threads that judge", good, repr(got)[:300])
        seen |= {got[0]}
    harness.check("memory that doesn't suffice for threads that judge, and memory that does", seen == {0, 4}, repr(seen))


def input_without_end(harness):
    """What is past the limit of an input is not read, whichever command reads it, and whatever stands there."""
    if os.sysconf("SC_AVPHYS_PAGES") * os.sysconf("SC_PAGE_SIZE") < 6 << 30:
        print("an input without end: skipped, for less than 6 GiB of memory are free")
        return
    where = harness.directory({"small": b"a\n" * 1000})
    write_result(where, [b""], b"")
    with open(os.path.join(where, "large"), "wb") as file:
        file.truncate(3 << 30)
    limit = lambda: resource.setrlimit(resource.RLIMIT_AS, (5 << 29, 5 << 29))
    for command in ("seq", "check", "run"):
        for files in (["/dev/zero"], ["small", "large", "nowhere"], ["large", *["small"] * 1024]):
            words = [command, "--job", "words", "--parts", "1", "--out", ".", *files]
            ran = subprocess.run([harness.program, *words], cwd=where, capture_output=True, preexec_fn=limit, timeout=120)
            got = (ran.returncode, ran.stdout, ran.stderr, *result_of(where))
            harness.check(f"{command} of {files[:3]}", got == (2, b"", b"mapred: TooLarge\n", [b""], b""), repr(got)[:300])


def result_without_end(harness):
    """A result with a file longer than a good one's is not held, however it is judged: the answer is as ever."""
    where = harness.directory({"small": b"a\n" * 1000})
    options = ["--job", "words", "--parts", "1", "--out", ".", "small"]
    subprocess.run([harness.program, "seq", *options], cwd=where, capture_output=True, timeout=120)
    (part,), certificate = result_of(where)

    def endless(name):
        os.remove(os.path.join(where, name))
        os.symlink("/dev/zero", os.path.join(where, name))

    def lengthened(name):
        with open(os.path.join(where, name), "r+b") as file:
            file.truncate(3 << 30)

    limit = lambda: resource.setrlimit(resource.RLIMIT_AS, (5 << 28, 5 << 28))
    for change, name, no in (
        (endless, "certificate", "Malformed at 0"),
        (lengthened, "certificate", f"Malformed at {len(certificate)}"),
        (endless, "part-00000", "OutputDiffers partition 0 at 0"),
        (lengthened, "part-00000", f"OutputDiffers partition 0 at {len(part)}"),
    ):
        for more in ([], ["--threads", "4"], ["--verdict", "verdict"], ["--threads", "4", "--verdict", "verdict"]):
            for old in ("part-00000", "certificate"):
                os.remove(os.path.join(where, old))
            write_result(where, [part], certificate)
            change(name)
            ran = subprocess.run([harness.program, "check", *more, *options], cwd=where, capture_output=True, preexec_fn=limit, timeout=120)
            got = (ran.returncode, ran.stdout, ran.stderr, os.path.exists(os.path.join(where, "verdict")))
            harness.check(f"check {' '.join(more)} of a {name} that is {change.__name__}", got == (1, b"no: %s\n" % no.encode(), b"", False), repr(got)[:300])


def names_without_room_for_bits(harness):
    """Names of a region that differ are told apart by sorting them where there is no memory for a bit each: here a line of
    2,000 words before 60,000 of one, whose bits would take 15 MB."""
    data = b" ".join(b"w%d" % i for i in range(2000)) + b"\n" + b"a\n" * 60_000
    outputs, pairs, certificate = plain("words", [data], 1)
    where = harness.directory({"input": data})
    limit = lambda: resource.setrlimit(resource.RLIMIT_AS, (ROOM_WITHOUT_BITS * 1024, ROOM_WITHOUT_BITS * 1024))
    words = ["run", "--job", "words", "--workers", "1", "--parts", "1", "--out", ".", "input"]
    ran = subprocess.run([harness.program, *words], cwd=where, capture_output=True, preexec_fn=limit, timeout=120)
    got = (ran.returncode, ran.stdout, ran.stderr, *result_of(where))
    done = (0, b"certified: 1 files, %d pairs, 0 left out\n" % pairs, b"", outputs, certificate)
    harness.check("a run without room for the bits of names", got == done, repr(got)[:300])


GROUPS = {"names without room for bits": names_without_room_for_bits, "a result without end": result_without_end, "an input without end": input_without_end, "little memory": little_memory, "little memory of a run": little_memory_of_a_run, "little memory of threads": little_memory_of_threads}
