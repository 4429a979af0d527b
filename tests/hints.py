"""What a person at a terminal is told beside the program's own lines, and that nobody else is told it: each row runs
twice, with standard error on a pseudo terminal and without one. `--hints` says it in both."""
import os
import pty
import resource
import subprocess

from harness import parts_of, write_result
from rows import plain

TEXT = {"a": b"The cat saw the dog.\nThe dog saw nothing.\n"}
WORDS = ["--job", "words", "--out", "."]
MEMORY = b"words take up to 5 times their bytes: close other programs, or cut the input into several runs"
MISSING = b"No such file or directory (os error 2)"


def free_memory():
    """Bytes of memory that can be had without swapping."""
    with open("/proc/meminfo", encoding="ascii") as lines:
        return next(int(line.split()[1]) << 10 for line in lines if line.startswith("MemAvailable"))


def on_terminal(harness, words, cwd, out_too=False, **more):
    """(status, standard output, what the terminal shows) of a run whose standard error is a terminal."""
    ours, theirs = pty.openpty()
    with subprocess.Popen([harness.program, *words], cwd=cwd, stdin=subprocess.DEVNULL, stdout=theirs if out_too else subprocess.PIPE, stderr=theirs, **more) as ran:
        os.close(theirs)
        out = b"" if out_too else ran.stdout.read()
        shown = b""
        while True:
            try:
                piece = os.read(ours, 65536)
            except OSError:
                break
            if not piece:
                break
            shown += piece
    os.close(ours)
    return ran.returncode, out, shown.replace(b"\r\n", b"\n")


def told(harness, name, words, status, out=b"", err=b"", before=b"", hint=None, where=None, files=TEXT):
    """A run on a terminal and one without, each in a directory of its own where none is given."""
    shown = before + err + (b"hint: " + hint + b"\n" if hint else b"")
    got = on_terminal(harness, words, where or harness.directory(files))
    harness.check(name + ", on a terminal", got == (status, out, shown), f"{got} wanted {shown}")
    got = harness.run(words, None if where else files, cwd=where)[:3]
    harness.check(name + ", without", got == (status, out, err), repr(got))


def limits(harness):
    """Each fault of the options and of the input: which option, and which limit."""
    seq = ["seq", *WORDS]
    grep = ["seq", "--job", "grep", "--out", "."]
    other = b"--keep-case belongs to words and index, --literal and --fold to grep, --by-host to url, --field and --separator to field"
    literal = b"--literal is 1 to 4096 bytes in one line"
    skips = b"--skips names more records than --max-skips K allows; K is 0 where it isn't given"
    for name, words, err, hint in [
        ("no partitions", [*seq, "--parts", "0", "a"], b"BadParts", b"--parts is 1 to 1024"),
        ("a split of no bytes", [*seq, "--split", "0", "a"], b"BadSplitSize", b"--split is 1 to 67108864"),
        ("a limit above 1000", [*seq, "--max-skips", "1001", "a"], b"BadSkips", b"--max-skips is 0 to 1000"),
        ("an option of another job", [*seq, "--fold", "a"], b"option does not belong to this job", other),
        ("an option of another job than an index", ["seq", "--job", "index", "--out", ".", "--fold", "a"], b"option does not belong to this job", other),
        ("the host for another job than url", [*seq, "--by-host", "a"], b"option does not belong to this job", other),
        ("no literal", [*grep, "a"], b"EmptyLiteral", b"grep needs --literal TEXT"),
        ("a long literal", [*grep, "--literal", "x" * 4097, "a"], b"LongLiteral", literal),
        ("a line feed in a literal", [*grep, "--literal", "x\ny", "a"], b"LineEndInLiteral", b"--literal holds no line feed, since lines are looked at one by one"),
        ("a line feed in a name", ["check", *WORDS, "--verdict", "v", "a", "x\ny"], b"LineEndInName file 1", b"--verdict lists each name in one line, and that of this file, counted from 0, holds a line feed: give the file another name, or a link"),
        ("a verdict over an input", ["check", *WORDS, "--verdict", "./a", "a"], b"SameFile ./a", b"the verdict or the report would be written over a file that is read or written: give it another name"),
        ("a range and no file", [*seq, "--to", "1"], b"NoFileForRange", b"--from and --to speak of a FILE: name it"),
        ("a range that ends before it begins", [*seq, "--from", "21", "--to", "0", "a"], b"BadRange", b"--to lies before --from"),
        ("a range behind the file", [*seq, "--to", "43", "a"], b"PastEnd file 0", b"this file, counted from 0, ends before --from or --to"),
        ("a range inside a line", [*seq, "--from", "30", "a"], b"InsideALine file 0 byte 30", b"--from and --to stand where a line begins, or at the file's end: the nearest in a are 21 and 42"),
        ("a range inside the first line", [*seq, "--to", "3", "a"], b"InsideALine file 0 byte 3", b"--from and --to stand where a line begins, or at the file's end: the nearest in a are 0 and 21"),
        ("a bad skip list", [*seq, "--skips", "0", "a"], b"bad skip list", b"--skips is SPLIT:RECORD,SPLIT:RECORD, as in 0:1,0:7"),
        ("too many files", [*seq, *["a"] * 1025], b"TooManyFiles", b"at most 1024 files: join some with cat, or cut the input into several runs"),
        ("too many left-out records", [*seq, "--skips", "0:1", "a"], b"TooManySkips", skips),
        ("no such record", [*seq, "--skips", "0:2", "--max-skips", "1", "a"], b"NoSuchRecord", b"--skips names a record that isn't there: splits, and records in each split, count from 0"),
        ("left-out records that don't rise", [*seq, "--skips", "0:1,0:0", "--max-skips", "2", "a"], b"SkipOrder", b"--skips rises, by split and then by record, and names none twice"),
    ]:
        told(harness, name, words, 2, err=b"mapred: " + err + b"\n", hint=hint)
    big = {"a": b"a" * 1048577}
    told(harness, "too many splits", [*seq, "--split", "1", "a"], 2, err=b"mapred: TooManySplits\n", hint=b"at most 1048576 splits: a greater --split, up to 67108864, makes fewer", files=big)
    if free_memory() > 6 << 30:
        where = harness.directory({})
        with open(os.path.join(where, "large"), "wb") as file:
            file.truncate((1 << 30) + 1)
        told(harness, "a byte past 1 GiB", [*seq, "large"], 2, err=b"mapred: TooLarge\n", hint=b"at most 1 GiB (1073741824 bytes) in all files: cut the input into several runs, also inside a file by --from and --to", where=where)
        os.remove(os.path.join(where, "large"))
    told(harness, "a word that is not UTF-8", [*seq, b"\xff"], 2, err=b"mapred: a word of the command line is not UTF-8\n", hint=b"literals and names of files are UTF-8: give the file another name, or a link")
    got = on_terminal(harness, [*seq, "--parts", "x", "a"], harness.directory(TEXT))
    without = harness.run([*seq, "--parts", "x", "a"], TEXT)
    harness.check("a fault of the line is the parser's own on a terminal too", got == without[:3] and got[0] == 2, repr(got))
    for words in (["--help"], ["--version"], ["seq", "--help"]):
        harness.check(f"{words} on a terminal", on_terminal(harness, words, harness.directory()) == harness.run(words)[:3])
    where = harness.directory(TEXT)
    harness.check("no note where nothing can be done", on_terminal(harness, [*seq[:-1], "nowhere", "--parts", "1025", "a"], where) == (2, b"", b"mapred: BadParts\nhint: --parts is 1 to 1024\n"))
    harness.check("nothing where all is well", on_terminal(harness, [*seq, "a"], where) == (0, b"done: 1 files, 9 pairs, 0 left out\n", b""))
    harness.check("nothing where the judge says yes", on_terminal(harness, ["check", *WORDS, "a"], where) == (0, b"yes: 9 pairs, 0 left out\n", b""))


def files(harness):
    """Files that can't be read or written, with the system's reason; directories; what is written over; other parts."""
    missing = MISSING
    told(harness, "a missing file", ["seq", *WORDS, "none"], 3, err=b"mapred: cannot read none\n", hint=missing)
    told(harness, "a directory for a file", ["seq", *WORDS, "."], 3, err=b"mapred: cannot read .\n", hint=b"Is a directory (os error 21)")
    told(harness, "a missing part", ["check", *WORDS, "a"], 3, err=b"mapred: cannot read ./part-00000\n", hint=missing)
    seq = ["seq", "--job", "words", "--out"]
    told(harness, "a missing directory", [*seq, "nowhere", "a"], 3, err=b"mapred: cannot write nowhere/part-00000\n", before=b"note: there is no directory nowhere: make it first\n", hint=missing)
    told(harness, "a missing directory behind an earlier fault", [*seq, "nowhere", "none"], 3, err=b"mapred: cannot read none\n", before=b"note: there is no directory nowhere: make it first\n", hint=missing)
    told(harness, "a file for a directory", [*seq, "a", "a"], 3, err=b"mapred: cannot write a/part-00000\n", before=b"note: a is no directory\n", hint=b"Not a directory (os error 20)")
    full = harness.directory(TEXT)
    os.symlink("/dev/full", os.path.join(full, "certificate"))
    over = b"note: . has a result already, which will be written over\n"
    told(harness, "a full disk", ["seq", *WORDS, "a"], 3, err=b"mapred: cannot write ./certificate\n", before=over, hint=b"No space left on device (os error 28)", where=full)
    done = b"done: 1 files, 9 pairs, 0 left out\n"
    again = harness.directory(TEXT)
    harness.run(["seq", *WORDS, "a"], cwd=again)
    told(harness, "an earlier result", ["seq", *WORDS, "a"], 0, out=done, before=over, where=again)
    harness.directory({"part-00003": b"old\n", "part-01024": b""}, again)
    lies = b"note: . has part-00003 too, which is none of this result (--parts %d) and stays\n"
    told(harness, "another part beside", ["seq", *WORDS, "a"], 0, out=done, before=over + lies % 1, where=again)
    told(harness, "another part beside what is judged", ["check", *WORDS, "a"], 0, out=b"yes: 9 pairs, 0 left out\n", before=lies % 1, where=again)
    told(harness, "none where it is one of them", ["seq", *WORDS, "--parts", "4", "a"], 0, out=b"done: 4 files, 9 pairs, 0 left out\n", before=over, where=again)
    odd = {"a\x1b[31m\x07\nb\x7f\u009b1mé£": b"x\n"}
    name = next(iter(odd))
    escaped = rb"a\x1b[31m\x07\x0ab\x7f" + b"\xc2" + rb"\x9b1m" + "é£".encode()
    got = on_terminal(harness, ["seq", *WORDS, name + "no"], harness.directory(odd))
    harness.check("a name with control bytes", got == (3, b"", b"mapred: cannot read " + escaped + b"no\nhint: " + missing + b"\n"), repr(got))
    got = harness.run(["seq", *WORDS, name + "no"], odd)
    harness.check("a name with control bytes, without", got[:3] == (3, b"", b"mapred: cannot read " + name.encode() + b"no\n"), repr(got))
    got = on_terminal(harness, ["seq", *WORDS, "-" + name], harness.directory(odd))
    harness.check("one that the parser tells", got[0] == 2 and not set(got[2]) & set(b"\x1b\x07\x7f\r"), repr(got))


def other_partitions(harness):
    """In what a certificate is of another partition of keys, or of another job besides."""
    log = {"a": b'h "GET http://a/x HTTP/1.0" 200 1\n'}
    for by_host in ([], ["--by-host"]):
        made = harness.directory(log)
        harness.run(["seq", "--job", "url", *by_host, "--out", ".", "a"], cwd=made)
        of = b": it is of --job url%s --parts 1 --split 67108864" % (b" --by-host" if by_host else b"")
        for name, words, hint in [
            ("the other partition", ["--job", "url", *([] if by_host else ["--by-host"])], b" --by-host"),
            ("another split", ["--job", "url", *by_host, "--split", "64"], b" --split"),
            ("the other partition and another split", ["--job", "url", *([] if by_host else ["--by-host"]), "--split", "64"], b" --by-host --split"),
            ("another job", ["--job", "words"], b" --job"),
        ]:
            told(harness, f"{name} than {of}", ["check", *words, "--out", ".", "a"], 1, out=b"no: OtherJob\n", hint=b"the certificate has other" + hint + of, where=made)


def verdicts(harness):
    """In what a certificate is of another job or another input."""
    outputs, _, certificate = plain("words", [TEXT["a"]], 1)
    made = harness.directory({**TEXT, "b": b"b\n"})
    write_result(made, outputs, certificate)
    other = b"no: OtherJob\n"
    of = b": it is of --job words --parts 1 --split 67108864"
    check = ["check", "--out", "."]
    for name, words, hint in [
        ("another job", ["--job", "url", "a"], b" --job"),
        ("an index", ["--job", "index", "a"], b" --job"),
        ("another flag", ["--job", "words", "--keep-case", "a"], b" --keep-case"),
        ("another number of parts", ["--job", "words", "--parts", "2", "a"], b" --parts"),
        ("another split", ["--job", "words", "--split", "64", "a"], b" --split"),
        ("all of them", ["--job", "grep", "--literal", "x", "--split", "64", "--parts", "3", "a"], b" --job --parts --split"),
    ]:
        for part in (1, 2):
            harness.directory({f"part-{part:05}": b""}, made)
        lies = b"" if b"--parts" in hint and words[words.index("--parts") + 1] == "3" else b"note: . has part-%05d too, which is none of this result (--parts %d) and stays\n" % ((2, 2) if b"--parts" in hint else (1, 1))
        told(harness, name, [*check, *words], 1, out=other, before=lies, hint=b"the certificate has other" + hint + of, where=made)
    for part in (1, 2):
        os.remove(os.path.join(made, f"part-{part:05}"))
    for name, words, hint in [
        ("another number of files", ["a", "b"], b"the certificate is of 1 files, not 2"),
        ("another length", ["b"], b"b has 2 bytes, and had 42 by the certificate"),
        ("no file", [], b"the certificate is of 1 files, not 0"),
    ]:
        told(harness, name, [*check, "--job", "words", *words], 1, out=b"no: OtherInput\n", hint=hint, where=made)
    found = harness.directory(TEXT)
    harness.run(["seq", "--job", "grep", "--literal", "\x1b[1m", "--fold", "--split", "64", "--out", ".", "a"], cwd=found)
    of = rb": it is of --job grep --literal '\x1b[1m' --fold --parts 1 --split 64"
    told(harness, "another literal", ["check", "--job", "grep", "--literal", "x", "--fold", "--split", "64", "--out", ".", "a"], 1, out=other, hint=b"the certificate has other --literal" + of, where=found)
    told(harness, "not folded", ["check", "--job", "grep", "--literal", "\x1b[1m", "--split", "64", "--out", ".", "a"], 1, out=other, hint=b"the certificate has other --fold" + of, where=found)
    indexed = harness.directory(TEXT)
    harness.run(["seq", "--job", "index", "--keep-case", "--split", "64", "--out", ".", "a"], cwd=indexed)
    of = b": it is of --job index --keep-case --parts 1 --split 64"
    told(harness, "cases kept in an index", ["check", "--job", "index", "--split", "64", "--out", ".", "a"], 1, out=other, hint=b"the certificate has other --keep-case" + of, where=indexed)
    told(harness, "words in place of an index", ["check", "--job", "words", "--keep-case", "--split", "64", "--out", ".", "a"], 1, out=other, hint=b"the certificate has other --job" + of, where=indexed)
    odd = harness.directory(TEXT)
    write_result(odd, outputs, certificate[:11] + b"\x09" + certificate[12:])
    of = b": it is of --job (no such job) --parts 1 --split 67108864"
    told(harness, "a job that there isn't", [*check, "--job", "words", "a"], 1, out=other, hint=b"the certificate has other --job" + of, where=odd)
    cut = harness.directory(TEXT)
    write_result(cut, outputs, certificate[:20])
    hint = b"it is of another job, --keep-case, --literal, --fold, --by-host, --parts or --split: give those that seq had"
    told(harness, "a certificate that ends in its front", [*check, "--job", "url", "a"], 1, out=other, hint=hint, where=cut)
    spoiled = harness.directory(TEXT)
    write_result(spoiled, [outputs[0][:-1] + b"x"], certificate)
    hint = b"the part of that number is wrong from that byte on, or was cut: run seq again"
    told(harness, "a spoiled part", [*check, "--job", "words", "a"], 1, out=b"no: OutputDiffers partition 0 at 33\n", hint=hint, where=spoiled)


def shards(harness):
    """Shards that can't be merged, whatever is done with them."""
    where = harness.directory(TEXT)
    harness.run(["seq", *WORDS, "a"], cwd=where)
    harness.run(["check", *WORDS, "--verdict", "verdict", "a"], cwd=where)
    os.mkdir(os.path.join(where, "whole"))
    good = open(os.path.join(where, "verdict"), "rb").read()
    harness.directory({"verdict": good.replace(b"job 1\n", b"job 9\n")}, where)
    hint = b"VERDICT asks for nothing that mapred can be asked for: judge its files again"
    told(harness, "a verdict about no request", ["merge", "--out", "whole", "verdict"], 1, err=b"mapred: NoRequest\n", hint=b"the first " + hint, where=where)
    told(harness, "a verdict about no request, tested again", ["verify", "verdict"], 1, err=b"mapred: NoRequest\n", hint=hint, where=where)
    harness.directory({"verdict": good.replace(b"emitted ", b"emitted 1")}, where)
    hint = b"the lines of the parts give other pairs than VERDICT: judge them again"
    told(harness, "a verdict with other pairs", ["verify", "verdict"], 1, err=b"mapred: OtherTotal\n", hint=hint, where=where)
    harness.directory({"verdict": good, "a": b"other\n"}, where)
    hint = b"this input, from its range's first byte to the last, isn't the one that was judged: get it again, or judge again"
    told(harness, "another input than was judged", ["verify", "--with-inputs", "verdict"], 1, err=b"mapred: OtherInput input 0\n", hint=hint, where=where)
    harness.directory({"a": TEXT["a"]}, where)
    harness.run(["seq", *WORDS, "--from", "21", "a"], cwd=where)
    harness.run(["check", *WORDS, "--from", "21", "--verdict", "verdict", "a"], cwd=where)
    hint = b"this input begins inside its file, and the one before doesn't end there: name all shards, in order; the first input may begin so with --partial"
    told(harness, "a shard that is the end of a file", ["merge", "--out", "whole", "verdict"], 1, err=b"mapred: NoBeginning input 0\n", hint=hint, where=where)
    harness.run(["seq", *WORDS, "--to", "21", "a"], cwd=where)
    harness.run(["check", *WORDS, "--to", "21", "--verdict", "verdict", "a"], cwd=where)
    hint = b"this input ends before its file does, and the next one doesn't begin there: name all shards, in order; the last input may end so with --partial"
    told(harness, "a shard that is the front of a file", ["merge", "--out", "whole", "verdict"], 1, err=b"mapred: NoEnd input 0\n", hint=hint, where=where)


def runs(harness):
    """Each failure of a run has a hint, a certified run none; faults of a script."""
    text = {**TEXT, "bad": b"bad 0 0\n", "lost": b"lose 0 after 0\n", "flaky": b"flaky 0 0 1\n", "spoil": b"spoil 0 0\n", "odd": b"lose 0\n"}
    run = ["run", *WORDS, "--workers", "1", "--script"]
    lost = b"every worker is lost: the script loses them (--workers W makes more), or none can keep a region (see that the directory of --scratch is there, may be written to, and has room)"
    for name, words, out, hint in [
        ("more left-out records than may be", ["bad", "a"], b"failed: TooManySkips\n", b"more records fail than --max-skips K lets be left out; K is 0 where it isn't given"),
        ("no worker is left", ["lost", "a"], b"failed: NoWorkers\n", lost),
        ("no attempt is left", ["flaky", "--attempts", "1", "a"], b"failed: TooManyAttempts\n", b"a task has had --attempts A attempts, 8 where it isn't given, and none completed it"),
        ("a spoiled output", ["spoil", "a"], b"uncertified: OutputDiffers partition 0 at 0\n", b"the judge refused what was made, by this fault, as `mapred check` would name it"),
    ]:
        told(harness, name, [*run, *words], 1, out=out, hint=hint, files=text)
    gone = b"note: there is no directory nowhere: make it first\n"
    told(harness, "no directory for regions", [*run, "flaky", "--scratch", "nowhere", "a"], 1, out=b"failed: NoWorkers\n", before=gone, hint=lost, files=text)
    told(harness, "a certified run", [*run, "flaky", "a"], 0, out=b"certified: 1 files, 9 pairs, 0 left out\n", files=text)
    kinds = b"a line of the script is `lose W after N`, `zombie W after N`, `bad S R`, `flaky S R N`, `hold W`, `spoil P B` or `damage S P B`"
    told(harness, "a bad line", [*run, "odd", "a"], 2, err=b"mapred: BadLine 1\n", hint=kinds, files=text)


def asked_for(harness):
    """--hints always tells off a terminal what a terminal is told, but for progress; never tells no hint anywhere."""
    full = harness.directory(TEXT)
    os.symlink("/dev/full", os.path.join(full, "certificate"))
    over = b"note: . has a result already, which will be written over\n"
    limit = {"preexec_fn": lambda: resource.setrlimit(resource.RLIMIT_FSIZE, (10, 10)), "restore_signals": False}
    rows = [
        ("a full disk", ["seq", *WORDS, "a"], 3, b"", b"mapred: cannot write ./certificate\n", over, b"No space left on device (os error 28)", full, {}),
        ("a limit of the system", ["seq", *WORDS, "a"], 3, b"", b"mapred: cannot write ./part-00000\n", b"", b"File too large (os error 27)", None, limit),
        ("a missing directory", ["seq", "--job", "words", "--out", "nowhere", "a"], 3, b"", b"mapred: cannot write nowhere/part-00000\n", b"note: there is no directory nowhere: make it first\n", MISSING, None, {}),
        ("a forbidden directory", ["seq", "--job", "words", "--out", "/sys", "a"], 3, b"", b"mapred: cannot write /sys/part-00000\n", b"", b"Permission denied (os error 13)", None, {}),
        ("a missing file", ["run", *WORDS, "none"], 3, b"", b"mapred: cannot read none\n", b"", MISSING, None, {}),
        ("a missing verdict", ["merge", "--out", ".", "none"], 3, b"", b"mapred: cannot read none\n", b"", MISSING, None, {}),
        ("a missing verdict, tested again", ["verify", "none"], 3, b"", b"mapred: cannot read none\n", b"", MISSING, None, {}),
        ("an explained file", ["explain", "--job", "words", "--key", "x", "none"], 3, b"", b"mapred: cannot read none\n", b"", MISSING, None, {}),
        ("a limit", ["seq", *WORDS, "--parts", "0", "a"], 2, b"", b"mapred: BadParts\n", b"", b"--parts is 1 to 1024", None, {}),
        ("a result", ["seq", *WORDS, "a"], 0, b"done: 1 files, 9 pairs, 0 left out\n", b"", b"", None, None, {}),
    ]
    for name, words, status, out, err, before, hint, where, more in rows:
        shown = before + err + (b"hint: " + hint + b"\n" if hint else b"")
        for when, wanted in (("always", shown), ("never", err)):
            for line in ([*words, "--hints", when], [words[0], f"--hints={when}", *words[1:]]):
                for run in (lambda *it, **more: harness.run(*it, **more)[:3], lambda *it, **more: on_terminal(harness, *it, **more)):
                    got = run(line, cwd=where or harness.directory(TEXT), **more)
                    harness.check(f"{name}, {line[1:3]}", got == (status, out, wanted), f"{got} wanted {wanted}")
        got = harness.run([*words, "--hints", "auto"], cwd=where or harness.directory(TEXT), **more)
        harness.check(f"{name}, auto", got[:3] == (status, out, err), repr(got))
    odd = "a\x1b[31m\x07"
    got = harness.run(["seq", *WORDS, "--hints", "always", odd], TEXT)
    harness.check("control bytes", got[:3] == (3, b"", b"mapred: cannot read a\\x1b[31m\\x07\nhint: " + MISSING + b"\n"), repr(got))
    for words in (["seq", *WORDS, "--hints", "always", "--" + odd], ["seq", "--hints=always", *WORDS, "--" + odd]):
        got = harness.run(words, TEXT)
        harness.check("a fault of the line", got[:2] == (2, b"") and b"\\x1b[31m" in got[2] and b"\x1b" not in got[2], repr(got))
    got = harness.run(["seq", *WORDS, "--hints", "sometimes", "a"], TEXT)
    harness.check("neither of them", got[:2] == (2, b"") and b"[possible values: auto, always, never]" in got[2], repr(got))


def both_streams(harness):
    """Where both streams are one terminal, notes come before the answer and a hint behind it; where standard output
    alone is one, nothing more is told."""
    where = harness.directory(TEXT)
    harness.run(["seq", *WORDS, "--parts", "2", "a"], cwd=where)
    got = on_terminal(harness, ["check", *WORDS, "a"], where, out_too=True)
    lies = b"note: . has part-00001 too, which is none of this result (--parts 1) and stays\n"
    wanted = lies + b"no: OtherJob\nhint: the certificate has other --parts: it is of --job words --parts 2 --split 67108864\n"
    harness.check("one terminal for both streams", got == (1, b"", wanted), repr(got))
    ours, theirs = pty.openpty()
    ran = subprocess.run([harness.program, "check", *WORDS, "none"], cwd=where, stdout=theirs, stderr=subprocess.PIPE)
    os.close(theirs)
    os.close(ours)
    harness.check("a terminal for standard output alone", (ran.returncode, ran.stderr) == (3, b"mapred: cannot read none\n"), repr(ran))


def memory(harness):
    """Want of memory, with what helps."""
    words = b" ".join(b"w%d" % (i * 7919 % 40000) for i in range(200_000)) + b"\n"
    limit = lambda: resource.setrlimit(resource.RLIMIT_AS, (10_000 * 1024, 10_000 * 1024))
    got = on_terminal(harness, ["seq", *WORDS, "a"], harness.directory({"a": words}), preexec_fn=limit)
    harness.check("want of memory, on a terminal", got == (4, b"", b"mapred: out of memory\nhint: " + MEMORY + b"\n"), repr(got))


GROUPS = {"hints on limits": limits, "hints on files": files, "hints on verdicts": verdicts, "hints on partitions": other_partitions, "hints on shards": shards, "hints on runs": runs, "hints asked for": asked_for, "hints on one terminal": both_streams, "hints on memory": memory}
