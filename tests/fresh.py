"""`--fresh`: a result is in its directory whole or not at all, whatever fails and whenever the command is killed."""
import os
import resource
import signal
import stat
import subprocess
import time

from harness import random_text, read_result, seeded
from hints import MISSING, on_terminal

TEXT = {"a": b"The cat saw the dog.\nThe dog saw nothing.\n"}
SEQ = ["seq", "--job", "words", "--parts", "2"]
RUN = ["run", "--job", "words", "--parts", "2", "--workers", "2"]


def names_in(where):
    return sorted(os.listdir(where))


def mounted(where, *words):
    return subprocess.run(["mount", *words, where], capture_output=True).returncode == 0


def made(harness):
    """DIR is missing or empty before; the files are those of a command without --fresh, and nothing is beside them."""
    for words in (SEQ, RUN):
        plain = harness.directory(TEXT)
        os.mkdir(os.path.join(plain, "whole"))
        wanted = harness.run([*words, "--out", "whole", "a"], cwd=plain)
        for name, there in (("whole", False), ("whole", True), ("whole/", False), ("./whole", True), ("in/whole", False), ("in/whole//", True)):
            where = harness.directory(TEXT)
            os.mkdir(os.path.join(where, "in"))
            path = os.path.join(where, name).rstrip("/")
            if there:
                os.mkdir(path, 0o700)
            got = harness.run([*words, "--fresh", "--out", name, "a"], cwd=where)
            harness.check(f"{words[0]}, {name} there {there}", got[:3] == wanted[:3] and read_result(path) == read_result(os.path.join(plain, "whole")), repr(got))
            harness.check(f"{words[0]}, {name} there {there}: nothing beside", names_in(where) == (["a", "in"] if "in/" in name else ["a", "in", "whole"]) and names_in(os.path.join(where, "in")) == (["whole"] if "in/" in name else []), repr(names_in(where)))
            harness.check(f"{words[0]}, {name} there {there}: permissions", not there or stat.S_IMODE(os.stat(path).st_mode) == 0o700)
            got = harness.run(["check", *words[1:5], "--out", name, "a"], cwd=where)
            harness.check(f"{words[0]}, {name} there {there}: judged", got[0] == 0, repr(got))
            got = harness.run([*words, "--fresh", "--out", name, "a"], cwd=where)
            harness.check(f"{words[0]}, {name} a second time", got[:3] == (2, b"", b"mapred: NotFresh %s\n" % name.encode()) and read_result(path) == read_result(os.path.join(plain, "whole")), repr(got))
    where = harness.directory(TEXT)
    harness.run([*SEQ, "--fresh", "--out", "one", "a"], cwd=where)
    harness.run(["check", *SEQ[1:], "--out", "one", "--verdict", "one/verdict", "a"], cwd=where)
    got = harness.run(["merge", "--fresh", "--out", "whole", "one/verdict"], cwd=where)
    harness.check("merge", got[0] == 0 and names_in(os.path.join(where, "whole")) == ["part-00000", "part-00001", "verdict"] and names_in(where) == ["a", "one", "whole"], repr(got))
    got = harness.run(["merge", "--fresh", "--out", "one", "one/verdict"], cwd=where)
    harness.check("merge into a shard", got[:3] == (2, b"", b"mapred: NotFresh one\n"), repr(got))
    where = harness.directory(TEXT)
    for name in (".whole.fresh-0", ".whole.fresh-1"):
        os.mkdir(os.path.join(where, name))
        harness.directory({"part-00000": b"old\n"}, os.path.join(where, name))
    got = harness.run([*SEQ, "--fresh", "--out", "whole", "a"], cwd=where)
    harness.check("beside what killed commands left", got[0] == 0 and names_in(where) == [".whole.fresh-0", ".whole.fresh-1", "a", "whole"], repr(got))
    got = on_terminal(harness, [*SEQ, "--fresh", "--out", "other", "a"], where)
    harness.check("no note on a directory that is made", got == (0, b"done: 2 files, 9 pairs, 0 left out\n", b""), repr(got))


def refused(harness):
    """Where the directory can't be made anew nothing is read, and nothing is changed."""
    where = harness.directory({**TEXT, "file": b"x"})
    for name in ("full", "empty", "mounted"):
        os.mkdir(os.path.join(where, name))
    harness.directory({"x": b"y"}, os.path.join(where, "full"))
    os.symlink("empty", os.path.join(where, "link"))
    os.symlink("none", os.path.join(where, "dangling"))
    before = names_in(where)
    rows = [(2, b"NotFresh", name) for name in ("full", "full/", "./full")]
    rows += [(3, b"cannot write", name) for name in (".", "..", "/", "//", "empty/.", "empty/..", "link", "link/", "dangling", "file", "none/whole", "file/whole", "/proc/whole", "x" * 250)]
    is_mounted = mounted(os.path.join(where, "mounted"), "-t", "tmpfs", "none")
    if is_mounted:
        rows += [(3, b"cannot write", "mounted"), (0, b"", "mounted/whole")]
    for status, said, name in rows:
        for words in (SEQ, RUN) if status else (SEQ,):
            got = harness.run([*words, "--fresh", "--out", name, "a" if status == 0 else "no input"], cwd=where)
            err = b"mapred: %s %s\n" % (said, name.encode()) if status else b""
            harness.check(f"{words[0]} --fresh --out {name[:20]}", (got[0], got[2]) == (status, err), repr(got))
            harness.check(f"{words[0]} --fresh --out {name[:20]} changes nothing", names_in(where) == before and names_in(os.path.join(where, "empty")) == [], repr(names_in(where)))
    if is_mounted:
        subprocess.run(["umount", os.path.join(where, "mounted")], check=True)
    got = on_terminal(harness, [*SEQ, "--fresh", "--out", "full", "a"], where)
    harness.check("a full directory, on a terminal", got == (2, b"", b"mapred: NotFresh full\nhint: with --fresh DIR isn't there yet, or is empty: name another, or empty it\n"), repr(got))
    got = on_terminal(harness, [*SEQ, "--fresh", "--out", "none/whole", "a"], where)
    harness.check("a missing parent, on a terminal", got == (3, b"", b"mapred: cannot write none/whole\nhint: " + MISSING + b"\n"), repr(got))
    got = on_terminal(harness, [*SEQ, "--fresh", "--out", ".", "a"], where)
    harness.check("the directory itself, on a terminal", got[2].startswith(b"mapred: cannot write .\nhint: with --fresh DIR "), repr(got))


def failed(harness):
    """Where a command fails, nothing stands, and faults name the files in DIR."""
    text = {**TEXT, "spoil": b"spoil 0 0\n", "lost": b"lose 0 after 0\nlose 1 after 0\n"}
    limited = {"preexec_fn": lambda: resource.setrlimit(resource.RLIMIT_FSIZE, (30, 30)), "restore_signals": False}
    for name, words, wanted, more in [
        ("a missing input", [*SEQ, "none"], (3, b"", b"mapred: cannot read none\n"), {}),
        ("an input in DIR", [*SEQ, "whole/a"], (3, b"", b"mapred: cannot read whole/a\n"), {}),
        ("a fault of the request", [*SEQ[:-1], "0", "a"], (2, b"", b"mapred: BadParts\n"), {}),
        ("a spoiled output", [*RUN, "--script", "spoil", "a"], (1, b"uncertified: OutputDiffers partition 0 at 0\n", b""), {}),
        ("lost workers", [*RUN, "--script", "lost", "a"], (1, b"failed: NoWorkers\n", b""), {}),
        ("a history that can't be written", [*RUN, "--history", "none/events", "a"], (3, b"", b"mapred: cannot write none/events\n"), {}),
        ("a history over a part", [*RUN, "--history", "whole/part-00000", "a"], (2, b"", b"mapred: SameFile whole/part-00000\n"), {}),
        ("a full disk", [*SEQ, "a"], (3, b"", b"mapred: cannot write whole/certificate\n"), limited),
        ("a full disk and a run", [*RUN, "a"], (3, b"", b"mapred: cannot write whole/certificate\n"), limited),
    ]:
        for there in (False, True):
            where = harness.directory(text)
            if there:
                os.mkdir(os.path.join(where, "whole"))
            got = harness.run([*words, "--fresh", "--out", "whole"], cwd=where, **more)
            harness.check(f"{name}, DIR there {there}", got[:3] == wanted, repr(got))
            harness.check(f"{name}, DIR there {there}: as before", names_in(where) == sorted([*text, *["whole"] * there]) and (not there or names_in(os.path.join(where, "whole")) == []), repr(names_in(where)))
    where = harness.directory(text)
    got = harness.run([*RUN, "--fresh", "--history", "events", "--script", "spoil", "--out", "whole", "a"], cwd=where)
    harness.check("a history beside DIR stays", got[0] == 1 and names_in(where) == sorted([*text, "events"]), repr(names_in(where)))


def killed(harness):
    """A command that is killed leaves DIR as it was, or whole; beside it at most a directory of its name."""
    rnd = seeded("fresh, killed")
    text = {"a": random_text(rnd, 100_000) * 20}
    for words in (SEQ, [*RUN, "--split", "65536"]):
        whole = harness.directory(text)
        began = time.time()
        harness.run([*words, "--fresh", "--out", "whole", "a"], cwd=whole)
        took = time.time() - began
        wanted = read_result(os.path.join(whole, "whole"))
        for number in range(20):
            where = harness.directory(text)
            there = number % 2 == 1
            if there:
                os.mkdir(os.path.join(where, "whole"))
            with subprocess.Popen([harness.program, *words, "--fresh", "--out", "whole", "a"], cwd=where, stdout=subprocess.DEVNULL, stderr=subprocess.DEVNULL) as ran:
                time.sleep(rnd.uniform(0, 1.2 * took))
                ran.send_signal(signal.SIGKILL)
            found = read_result(os.path.join(where, "whole")) if os.path.exists(os.path.join(where, "whole")) else None
            harness.check(f"{words[0]} killed, {number}: whole or as before", found in (wanted, ([], None) if there else None), repr(names_in(where)))
            others = set(names_in(where)) - {"a", "whole"}
            harness.check(f"{words[0]} killed, {number}: beside", others <= {".whole.fresh-0"} and not (others and found == wanted), repr(others))
            got = harness.run([*words, "--fresh", "--out", "again", "a"], cwd=where)
            harness.check(f"{words[0]} after a kill, {number}", got[0] == 0 and read_result(os.path.join(where, "again")) == wanted, repr(got))


GROUPS = {"fresh results": made, "fresh results refused": refused, "fresh results that fail": failed, "fresh results killed": killed}
