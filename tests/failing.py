"""Each call of the system fails in turn."""
import os
import shutil
import subprocess

from harness import HERE
from plain import in_version_2


def shim(harness):
    """The library that lets calls fail, built by the C compiler of the machine; none where it has no compiler."""
    made = os.path.join(harness.room, "failing_calls.so")
    source = os.path.join(HERE, "failing_calls.c")
    for compiler in ("cc", "gcc", "clang"):
        if shutil.which(compiler):
            built = subprocess.run([compiler, "-O1", "-shared", "-fPIC", "-o", made, source, "-ldl"], capture_output=True)
            harness.check("the library that lets calls fail is built", built.returncode == 0, repr(built.stderr))
            return made if built.returncode == 0 else None
    return None


def with_failing(harness, library, which, words, files, **more):
    """A run in a fresh directory in which that call fails, and whether it came to that call."""
    where = harness.directory()
    for name, data in files.items():
        with open(os.path.join(where, name), "wb") as file:
            file.write(data)
    mark = where + ".mark"
    ran = subprocess.run([harness.program, *words], cwd=where, capture_output=True, env={"LD_PRELOAD": library, "FAIL": which, "FAIL_MARK": mark, **more})
    return (ran.returncode, ran.stdout, ran.stderr, {name: open(os.path.join(where, name), "rb").read() for name in sorted(os.listdir(where))}), os.path.exists(mark)


def is_beginning(stands, whole, given):
    """Whether of the files that a whole run writes, the parts in order and then the certificate, those up to some file stand, the last
    of them perhaps in part, and all else is as it was."""
    written = sorted((name for name in whole if name not in given), key=lambda name: (name == "certificate", name))
    made = [name for name in written if name in stands]
    return (made == written[:len(made)] and sorted(stands) == sorted([*given, *made]) and all(stands[name] == given[name] for name in given)
            and all(stands[name] == whole[name] for name in made[:-1]) and all(whole[name].startswith(stands[name]) for name in made[-1:]))


def failing_calls(harness):
    """Each allocation, opening, read and write fails in turn: the answer is the refusal's own, and nothing else changes."""
    library = shim(harness)
    if library is None:
        return
    text = {"a": b"The cat saw the dog.\n\nThe dog saw nothing.\n", "b": b"a cat\n"}
    log = {"a": b'h - - [t] "GET /index.html HTTP/1.0" 200 1\nh - - [t] "GET /a HTTP/1.0" 200 1\n'}
    for name, options, files in [
        ("words", ["--job", "words", "--parts", "2", "--max-skips", "1"], text),
        ("grep", ["--job", "grep", "--literal", "THE", "--fold"], text),
        ("url", ["--job", "url", "--parts", "2"], log),
        ("index", ["--job", "index", "--parts", "2"], text),
        ("a range", ["--job", "grep", "--literal", "a", "--from", "22", "--to", "6"], text),
    ]:
        seq = ["seq", *options, *(["--skips", "0:1"] if name == "words" else []), "--out", ".", *files]
        whole, _ = with_failing(harness, library, "none", seq, files)
        harness.check(f"{name} without a failing call", whole[0] == 0 and b"done: " in whole[1], repr(whole))
        judged_files = whole[3]
        asked = [(seq, files), (["check", *options, "--out", ".", *files], judged_files), (["check", *options, "--verdict", "verdict", "--out", ".", *files], judged_files)]
        if name == "words":
            asked.append((asked[1][0], {**judged_files, "certificate": in_version_2(judged_files["certificate"])}))
            asked.append((["seq", "--cert", "2", *seq[1:]], files))
        for words, given in asked:
            whole, _ = with_failing(harness, library, "none", words, given)
            short, _ = with_failing(harness, library, "short 0", words, given)
            harness.check(f"{words[0]} {name} a byte a call", short == whole and whole[0] == 0, repr(short))
            kinds = [("malloc", 4, b"mapred: out of memory\n"), ("open", 3, b"mapred: cannot "), ("read", 3, b"mapred: cannot read "), ("write", 3, b"mapred: cannot write ")]
            for kind, status, said in kinds + [("seek", 3, b"mapred: cannot read ")] * (name == "a range"):
                number, spared, vain, marked = 0, 0, 0, True
                while marked:
                    number += 1
                    got, marked = with_failing(harness, library, f"{kind} {number}", words, given)
                    failed = got
                    refused = got[:2] == (status, b"") and got[2].startswith(said) and got[2].count(b"\n") == 1 and is_beginning(got[3], whole[3], given)
                    unprinted = kind == "write" and got == (0, b"", b"", whole[3])
                    spared += kind == "malloc" and marked and got == whole
                    # the fast judge says nothing where a call of its own fails: then the plain one reads all again
                    again = words[0] == "check" and got == whole
                    # a verdict that can't be opened is none
                    none = kind == "open" and words[0] == "seq" and marked and got == whole
                    vain += none
                    harness.check(f"{words[0]} {name}, {kind} {number} fails", refused or unprinted or again or none or (got == whole and (kind == "malloc" or not marked)), repr(got))
                    if kind != "malloc" and marked and not unprinted:
                        got, _ = with_failing(harness, library, f"{kind} {number}", words, given, FAIL_MEMORY="1")
                        wants = got[:3] == (4, b"", b"mapred: out of memory\n") and is_beginning(got[3], whole[3], given)
                        harness.check(f"{words[0]} {name}, {kind} {number} wants memory", wants or (again and got == whole), repr(got))
                    if kind != "malloc" and marked:
                        # an interrupted read or write of a file is a failed one; std opens again, and writes a line again
                        want = whole if kind == "open" or unprinted else failed
                        got, _ = with_failing(harness, library, f"{kind} {number}", words, given, FAIL_INTERRUPTED="1")
                        harness.check(f"{words[0]} {name}, {kind} {number} is interrupted", got == want, repr(got))
                harness.check(f"{words[0]} {name} comes to some {kind}", number > 1)
                # asking for a word behind the last one needs no memory, nor does opening a verdict that isn't there
                if words[0] == "seq":
                    harness.check(f"{words[0]} {name} needs all memory but twice", spared <= 2 and vain <= 1, str((spared, vain)))
    for words in (["--help"], ["seq", "--help"], ["check", "--help"], ["--version"], ["seq", "--job", "words", "--parts", "x", "--out", "."], []):
        whole, marked = with_failing(harness, library, "none", words, {})
        number, spared, marked = 0, 0, True
        while marked:
            number += 1
            got, marked = with_failing(harness, library, f"malloc {number}", words, {})
            spared += marked and got == whole
            harness.check(f"{words}, malloc {number} fails", got == whole or (marked and got == (4, b"", b"mapred: out of memory\n", {})), repr(got))
        harness.check(f"{words} needs all memory but once", number > 1 and spared <= 1, str(spared))


GROUPS = {"failing calls": failing_calls}
