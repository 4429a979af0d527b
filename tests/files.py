"""Files: directories, sizes at their limits, full disks, closed streams, few open files, pipes."""
import os
import resource
import subprocess
import threading

from harness import parts_of, read_result as result_of, write_result
from rows import compared, plain


def directories(harness):
    """Results in other directories: nested ones, one with an absolute name, one named as a switch might be; and files that stand there."""
    text, words = {"a": b"the cat the dog\n"}, ["--job", "words", "--parts", "2"]
    outputs, pairs, certificate = plain("words", [text["a"]], 2)
    done, yes = b"done: 2 files, 4 pairs, 0 left out\n", b"yes: 4 pairs, 0 left out\n"
    for name in ("d", "x/y", "./x/../x/y/", "trusted", "certificate", "part-00000", "a b", "/"):
        where = harness.directory()
        place = os.path.join(where, "absolute") if name == "/" else name
        at = os.path.join(where, place)
        os.makedirs(at)
        before = sorted(os.listdir(where))
        got = harness.run(["seq", *words, "--out", place, "a"], text, cwd=where)
        harness.check(f"a result in {name}", got[:3] == (0, done, b"") and result_of(at) == (outputs, certificate), repr(got))
        harness.check(f"nothing beside {name}", sorted(os.listdir(where)) == sorted([*before, "a"]), repr(os.listdir(where)))
        got = harness.run(["check", *words, "--out", place, "a"], cwd=where)
        harness.check(f"judging in {name}", got[:3] == (0, yes, b""), repr(got))
        write_result(at, [b"the\t3\n", outputs[1]], certificate)
        got = harness.run(["check", *words, "--out", place, "a"], cwd=where)
        harness.check(f"a wrong result in {name}", got[:3] == (1, b"no: OutputDiffers partition 0 at 4\n", b""), repr(got))
        os.remove(os.path.join(at, "certificate"))
        got = harness.run(["check", *words, "--out", place, "a"], cwd=where)
        harness.check(f"no certificate in {name}", got[:3] == (3, b"", b"mapred: cannot read %s/certificate\n" % place.encode()), repr(got))
    where = harness.directory()
    os.makedirs(os.path.join(where, "x/y"))
    write_result(os.path.join(where, "x/y"), outputs, certificate)
    os.mkdir(os.path.join(where, "y"))
    write_result(os.path.join(where, "y"), [b"", b""], b"")
    got = harness.run(["check", *words, "--out", "x/y", "a"], text, cwd=where)
    harness.check("x/y is not y", got[:3] == (0, yes, b""), repr(got))
    older = {"part-00002": b"old\n", "part-00010": b"", "other": b"x", "certificate.old": b"y"}
    got = harness.run(["seq", *words, "--out", ".", "a"], {**text, **older})
    stands = {name: open(os.path.join(got[3], name), "rb").read() for name in os.listdir(got[3])}
    harness.check("old files beside the new ones", stands == {**text, **older, "part-00000": outputs[0], "part-00001": outputs[1], "certificate": certificate}, repr(stands))
    where = got[3]
    got = harness.run(["check", *words, "--out", ".", "a"], cwd=where)
    harness.check("old parts are not judged", got[:3] == (0, yes, b""), repr(got))
    harness.check("judging changes no file", stands == {name: open(os.path.join(where, name), "rb").read() for name in os.listdir(where)})
    many = ["--job", "words", "--parts", "40", "--out", ".", "a"]
    where = harness.run(["seq", *many], text)[3]
    for part in (17, 39, 20):
        os.remove(os.path.join(where, f"part-{part:05}"))
        first = 17
        got = harness.run(["check", *many], cwd=where)
        harness.check(f"many parts without {part}", got[:3] == (3, b"", b"mapred: cannot read ./part-%05d\n" % first), repr(got))


def sizes(harness):
    """Files and lists at their limits: many files, one twice, a large one, many left-out records."""
    for count in (300, 1024):
        files = {f"f{i}": b"w%d common\n" % (i * 7) for i in range(count)}
        outputs, pairs, certificate = plain("words", [*files.values()], 1)
        words = ["--job", "words", "--out", ".", *files]
        got = harness.run(["seq", *words], files)
        harness.check(f"{count} files", got[:3] == (0, b"done: 1 files, %d pairs, 0 left out\n" % pairs, b"") and result_of(got[3]) == (outputs, certificate), repr(got))
        got = harness.run(["check", *words], cwd=got[3])
        harness.check(f"judging {count} files", got[:3] == (0, b"yes: %d pairs, 0 left out\n" % pairs, b""), repr(got))
    files["more"] = b"x\n"
    got = harness.run(["seq", *words, "more"], files)
    harness.check("1025 files", got[:3] == (2, b"", b"mapred: TooManyFiles\n") and parts_of(got[3]) == [], repr(got))
    got = harness.run(["seq", *words[:4], "a", "a", "b", "a"], {"a": b"x y\n", "b": b"x\n"})
    outputs, pairs, certificate = plain("words", [b"x y\n", b"x y\n", b"x\n", b"x y\n"], 1)
    harness.check("a file three times", got[:2] == (0, b"done: 1 files, 7 pairs, 0 left out\n") and result_of(got[3]) == (outputs, certificate), repr(got))
    got = harness.run(["check", *words[:4], "a", "a", "b"], cwd=got[3])
    harness.check("judged with it twice", got[:3] == (1, b"no: OtherInput\n", b""), repr(got))
    data = b"".join(b"%d " % i + b"x" * 100 + b"\n" for i in range(50_000))
    compared(harness, "a file over 5,000,000 bytes", "words", [data, b"end\n"], 3)
    harness.check("it is over 5,000,000 bytes", len(data) > 5_000_000)
    lines = b"".join(b"r%d\n" % i for i in range(1001))
    skips = [(0, i) for i in range(1000)]
    listed = ",".join(f"{s}:{r}" for s, r in skips)
    compared(harness, "1000 left-out records", "words", [lines], 1, ["--skips", listed, "--max-skips", "1000"], skips=skips)
    got = harness.run(["seq", "--job", "words", "--skips", listed + ",0:1000", "--max-skips", "1000", "--out", ".", "a"], {"a": lines})
    harness.check("1001 left-out records", got[:3] == (2, b"", b"mapred: TooManySkips\n") and parts_of(got[3]) == [], repr(got[:3]))


def streams_and_disks(harness):
    """A disk that is full from the second part on, an input that is no file, and an output stream that takes nothing."""
    words = ["seq", "--job", "words", "--parts", "2", "--out", "."]
    data = {"a": b"the cat the dog\n"}
    where = harness.directory()
    os.symlink("/dev/full", os.path.join(where, "part-00001"))
    got = harness.run([*words, "a"], data, cwd=where)
    first = open(os.path.join(where, "part-00000"), "rb").read()
    harness.check("a disk full at the second part", got[:3] == (3, b"", b"mapred: cannot write ./part-00001\n") and first == b"the\t2\n", repr(got))
    harness.check("no certificate behind it", not os.path.exists(os.path.join(where, "certificate")))
    where = harness.directory({"certificate": b"old"})
    os.mkdir(os.path.join(where, "part-00001"))
    got = harness.run([*words, "a"], data, cwd=where)
    stood = [open(os.path.join(where, name), "rb").read() for name in ("part-00000", "certificate")]
    told = (3, b"", b"mapred: cannot write ./part-00001\n")
    harness.check("a directory for the second part", got[:3] == told and stood == [b"the\t2\n", b"old"], repr((got, stood)))
    where = harness.directory()
    write_result(where, [b"", b"older and longer"], b"older and longer than a certificate is by far" * 9)
    got = harness.run([*words, "a"], {"a": b"the\n"}, cwd=where)
    stands = plain("words", [b"the\n"], 2)
    harness.check("older files are emptied", got[0] == 0 and result_of(where) == (stands[0], stands[2]), repr(result_of(where)))
    got = harness.run([*words, "a", "."], data)
    harness.check("a directory for a file", got[:3] == (3, b"", b"mapred: cannot read .\n") and parts_of(got[3]) == [], repr(got))
    got = harness.run([*words, "a", ".", "missing"], data)
    harness.check("the first of two files that fail is told", got[:3] == (3, b"", b"mapred: cannot read .\n"), repr(got))
    got = harness.run(["check", *words[1:], "a", ".", "missing"], data)
    harness.check("by check too", got[:3] == (3, b"", b"mapred: cannot read .\n"), repr(got))
    where = harness.directory()
    with open(os.path.join(where, "a"), "wb") as file:
        file.write(data["a"])
    with open("/dev/full", "wb") as full:
        ran = subprocess.run([harness.program, *words, "a"], cwd=where, stdout=full, stderr=subprocess.PIPE)
    harness.check("a stream that takes nothing", (ran.returncode, ran.stderr) == (0, b"") and parts_of(where) == [b"the\t2\n", b"cat\t1\ndog\t1\n"])


def few_open_files(harness):
    """More parts than files may be open."""
    data = {"a": b"the cat the dog\n"}
    where = harness.directory()
    with open(os.path.join(where, "a"), "wb") as file:
        file.write(data["a"])
    limit = lambda: resource.setrlimit(resource.RLIMIT_NOFILE, (8, 8))
    words = ["--job", "words", "--parts", "1024", "--out", ".", "a"]
    for command, said in (("seq", b"done: 1024 files, 4 pairs, 0 left out\n"), ("check", b"yes: 4 pairs, 0 left out\n")):
        ran = subprocess.run([harness.program, command, *words], cwd=where, capture_output=True, preexec_fn=limit)
        harness.check(f"{command} with few open files", (ran.returncode, ran.stdout, ran.stderr) == (0, said, b""), repr(ran))
    stands = plain("words", [data["a"]], 1024)
    harness.check("the files of many parts", result_of(where) == (stands[0], stands[2]))


def same_files(harness):
    """No file that a command writes is one that it reads, or one that it writes twice, by whatever name: nothing is written then. It is
    told behind what can't be read and the limits of an input, and before the fit of the splits."""
    text = b"the cat the dog\n"
    words = ["--job", "words", "--parts", "2", "--out", "o"]

    def clash(name, command, more, told, files=(), err=None, script=b"old"):
        where = harness.directory({"a": text, "big": b"a" * 1048577})
        os.makedirs(os.path.join(where, "o"))
        write_result(os.path.join(where, "o"), [script, b"older"], b"oldest")
        for kind, new, old in files:
            if kind == "link":
                os.remove(os.path.join(where, new))
            {"link": os.link, "symlink": lambda there, here: os.symlink(os.path.abspath(there), here)}[kind](os.path.join(where, old), os.path.join(where, new))
        stands = sorted(os.listdir(where)), result_of(os.path.join(where, "o")), open(os.path.join(where, "a"), "rb").read()
        got = harness.run([command, *words, *more], cwd=where)[:3]
        now = sorted(os.listdir(where)), result_of(os.path.join(where, "o")), open(os.path.join(where, "a"), "rb").read()
        harness.check(f"{command} {name}", got == (2 if err is None else 3, b"", b"mapred: " + (err or b"SameFile " + told) + b"\n") and now == stands, repr(got))

    for command in ("seq", "run"):
        clash("over its input", command, ["o/part-00000"], b"o/part-00000")
        clash("over one of its inputs", command, ["a", "o/certificate"], b"o/certificate")
        clash("over an input by another path", command, ["./o/../o/part-00001"], b"o/part-00001")
        clash("over an input by a symbolic link", command, ["b"], b"o/part-00001", [("symlink", "b", "o/part-00001")])
        clash("through a part that is a link", command, ["a"], b"o/part-00001", [("link", "o/part-00001", "a")])
        clash("two parts that are one file", command, ["a"], b"o/part-00001", [("link", "o/part-00001", "o/part-00000")])
        clash("a part that is the certificate", command, ["a"], b"o/certificate", [("link", "o/certificate", "o/part-00000")])
        clash("of several the first", command, ["o/certificate", "o/part-00001", "a"], b"o/part-00001")
        clash("before too many splits", command, ["big", "o/part-00000", "--split", "1"], b"o/part-00000")
        clash("behind a file that isn't there", command, ["o/part-00000", "none"], None, err=b"cannot read none")
        clash("behind a directory", command, ["o/part-00000", "."], None, err=b"cannot read .")
    for command, more in (("seq", ["--skips", "9:9"]), ("run", ["--max-skips", "1"])):
        clash("before the run", command, ["o/part-00000", *more], b"o/part-00000")
    clash("a script", "run", ["a", "--script", "b"], b"o/part-00000", [("symlink", "b", "o/part-00000")], script=b"")
    where = harness.directory({"a": text})
    got = harness.run(["seq", *words[:-1], "missing", "missing/part-00000"], cwd=where)[:3]
    harness.check("a folder that isn't there", got == (3, b"", b"mapred: cannot read missing/part-00000\n"), repr(got))
    os.makedirs(os.path.join(where, "o"))
    for name in ("part-00000", "part-00001"):
        os.symlink("target", os.path.join(where, "o", name))
    got = harness.run(["seq", *words, "a"], cwd=where)[:3]
    harness.check("links to one file that isn't there", got == (2, b"", b"mapred: SameFile o/part-00001\n") and not os.path.exists(os.path.join(where, "o/target")), repr(got))
    for name in ("part-00000", "part-00001", "certificate"):
        path = os.path.join(where, "o", name)
        if os.path.lexists(path):
            os.remove(path)
        os.symlink("/dev/null", path)
    got = harness.run(["seq", *words, "a", "a", "/dev/null", "/dev/null"], cwd=where)[:3]
    harness.check("devices pass, and files that are read twice", got == (0, b"done: 2 files, 8 pairs, 0 left out\n", b""), repr(got))


def fed(path, data):
    """A thread that writes this into a pipe, once somebody reads it; what is left when nobody reads any more is let go."""
    def feed():
        try:
            with open(path, "wb") as pipe:
                pipe.write(data)
        except BrokenPipeError:
            pass

    thread = threading.Thread(target=feed, daemon=True)
    thread.start()
    return thread


def pipes(harness):
    """Parts and a certificate that are pipes are judged as files of these bytes, each read once."""
    data = b" ".join(b"w%d" % (i * 7919 % 9000) for i in range(60_000)) + b"\n"
    outputs, pairs, certificate = plain("words", [data], 2)
    files = {"part-00000": outputs[0], "part-00001": outputs[1], "certificate": certificate}
    spoiled = {**files, "part-00001": outputs[1][:-2] + b"x\n"}
    longer = {**files, "part-00000": outputs[0] + b"x"}
    words = ["check", "--job", "words", "--parts", "2", "--out", ".", "a"]
    for more in ([], ["--threads", "2"], ["--verdict", "verdict"]):
        for name, held in (("good", files), ("spoiled", spoiled), ("longer", longer), ("cut", {**files, "certificate": certificate[:-1]})):
            want = harness.run([*words[:-1], *more, "a"], {**held, "a": data})
            for piped in (["part-00000"], ["part-00001"], ["certificate"], [*files]):
                where = harness.directory({**{n: text for n, text in held.items() if n not in piped}, "a": data})
                for pipe in piped:
                    os.mkfifo(os.path.join(where, pipe))
                feeding = [(os.path.join(where, pipe), fed(os.path.join(where, pipe), held[pipe])) for pipe in piped]
                got = harness.run([*words[:-1], *more, "a"], cwd=where, timeout=60)
                harness.check(f"{name} with pipes {piped} {more}", got[:3] == want[:3], repr(got[:3]) + repr(want[:3]))
                for path, thread in feeding:
                    # one that nobody opened waits for a reader
                    end = os.open(path, os.O_RDONLY | os.O_NONBLOCK)
                    os.close(end)
                    thread.join(10)
        harness.check(f"a good result is judged good {more}", harness.run([*words[:-1], *more, "a"], {**files, "a": data})[:3] == (0, b"yes: %d pairs, 0 left out\n" % pairs, b""))


def certificate_that_goes_on(harness):
    """A no comes though the pipe of the certificate stays open behind what it is told by."""
    data = b"the cat the dog\n"
    outputs, pairs, certificate = plain("index", [data], 1)
    where = harness.directory({"a": data})
    write_result(where, outputs, b"")
    os.remove(os.path.join(where, "certificate"))
    os.mkfifo(os.path.join(where, "certificate"))
    # held open for reading and writing, so that no reader sees its end
    pipe = os.open(os.path.join(where, "certificate"), os.O_RDWR)
    os.write(pipe, certificate)
    got = harness.run(["check", "--job", "words", "--parts", "1", "--out", ".", "a"], cwd=where, timeout=60)
    os.close(pipe)
    harness.check("a no while the certificate's pipe stays open", got[:3] == (1, b"no: OtherJob\n", b""), repr(got[:3]))


GROUPS = {"directories": directories, "sizes": sizes, "streams and disks": streams_and_disks, "few open files": few_open_files, "same files": same_files, "pipes": pipes, "a certificate that goes on": certificate_that_goes_on}
