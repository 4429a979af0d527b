"""`--report`: one JSON object with the facts of an answer, read by Python's parser and compared with what can be counted apart."""
import hashlib
import json
import os

from harness import random_text, read_result, seeded
from plain import Request, emitted, records

MEMBERS = ["report", "command", "version", "request", "status", "answer", "fault", "reason", "inputs", "outputs", "records", "silent", "left_out", "pairs", "evidence"]
FILES = {"a": b"The cat\n\nsaw the dog.\n...\n", "b": b"The end"}


def report_in(where, name="r"):
    with open(os.path.join(where, name), "rb") as file:
        text = file.read()
    return json.loads(text), text


def sha256(where, name):
    with open(os.path.join(where, name), "rb") as file:
        return hashlib.sha256(file.read()).hexdigest()


def size(where, name):
    return os.path.getsize(os.path.join(where, name))


def file_of(name, length, start=0, digest=None):
    return {"name": name, "from": start, "bytes": length, "sha256": digest}


def asked(harness, where, words):
    """The answer with a report and without one are the same; returns the report."""
    plain = harness.run(words, cwd=where)
    got = harness.run([*words[:1], "--report", "r", *words[1:]], cwd=where)
    harness.check(f"{' '.join(words[:3])}: the answer is the same", got[:3] == plain[:3], repr((got, plain)))
    told, text = report_in(where)
    harness.check(f"{' '.join(words[:3])}: one line, all members in order", text.count(b"\n") == 1 and text.endswith(b"}\n") and list(told) == MEMBERS, repr(text))
    harness.check(f"{' '.join(words[:3])}: form, command and status", (told["report"], told["command"], told["status"]) == (1, words[0], got[0]), repr(text))
    return told


def facts(harness):
    """What each command tells, worked by hand."""
    where = harness.directory(FILES)
    os.mkdir(os.path.join(where, "o"))
    job = ["--job", "words", "--parts", "2", "--out", "o"]
    inputs = [file_of("a", 26), file_of("b", 7)]
    for command, answer, records, silent in (("seq", "done", 5, 2), ("run", "certified", None, None)):
        told = asked(harness, where, [command, *job, "a", "b"])
        parts = [file_of(f"o/part-0000{part}", size(where, f"o/part-0000{part}")) for part in range(2)]
        numbers = [told[name] for name in ("answer", "fault", "reason", "records", "silent", "left_out", "pairs", "evidence")]
        harness.check(f"{command}: facts", numbers == [answer, None, None, records, silent, 0, 7, None] and told["inputs"] == inputs and told["outputs"] == parts, repr(told))
    request = told["request"]
    wanted = {"job": "words", "keep-case": False, "literal": None, "parts": 2, "split": 67108864, "from": 0, "to": None, "out": "o", "workers": 4, "cert": 1, "files": ["a", "b"], "need-pairs": False, "fresh": False}
    harness.check("run: what is asked for", all(request[name] == value for name, value in wanted.items()) and "report" not in request and "hints" not in request and "key" not in request, repr(request))
    told = asked(harness, where, ["seq", *job, "--skips", "0:0,1:0", "--max-skips", "2", "a", "b"])
    harness.check("seq: left-out records", [told[name] for name in ("records", "silent", "left_out", "pairs")] == [5, 2, 2, 3], repr(told))
    told = asked(harness, where, ["check", *job, "--max-skips", "2", "--verdict", "o/verdict", "a", "b"])
    harness.check("check: yes", [told[name] for name in ("answer", "fault", "left_out", "pairs", "records")] == ["yes", None, 2, 3, None] and told["inputs"] == inputs and told["outputs"] == [], repr(told))
    told = asked(harness, where, ["check", *job, "a", "b"])
    harness.check("check: no", (told["answer"], told["fault"], told["pairs"]) == ("no", {"name": "TooManySkips", "file": None, "numbers": {"listed": 2}}, None), repr(told))
    listed = [file_of(name, size(where, name), 0, sha256(where, name)) for name in ("a", "b")]
    parts = [file_of(f"o/part-0000{part}", size(where, f"o/part-0000{part}"), 0, sha256(where, f"o/part-0000{part}")) for part in range(2)]
    told = asked(harness, where, ["verify", "o/verdict"])
    harness.check("verify", (told["answer"], told["inputs"], told["outputs"], told["left_out"], told["pairs"]) == ("verified", listed, parts, 2, 3), repr(told))
    os.mkdir(os.path.join(where, "m"))
    told = asked(harness, where, ["merge", "--out", "m", "o/verdict"])
    merged = [file_of(part["name"].replace("o/", "m/"), part["bytes"], 0, part["sha256"]) for part in parts]
    harness.check("merge", (told["answer"], told["inputs"], told["outputs"], told["left_out"], told["pairs"]) == ("merged", listed, merged, 2, 3), repr(told))
    harness.check("merge: what is asked for", told["request"] == {"out": "m", "fresh": False, "inputs": None, "partial": False, "verdicts": ["o/verdict"]}, repr(told["request"]))


def evidence(harness):
    where = harness.directory(FILES)
    os.mkdir(os.path.join(where, "o"))
    harness.run(["seq", "--job", "words", "--out", "o", "a", "b"], cwd=where)
    told = asked(harness, where, ["explain", "--job", "words", "--key", "the", "a", "b"])
    found = {"pairs": 3, "records": 3, "left_out_pairs": 0, "left_out_records": 0}
    harness.check("explain: sifted", (told["answer"], told["evidence"], told["inputs"], told["outputs"], told["pairs"]) == ("explained", found, [file_of("a", 26), file_of("b", 7)], None, None), repr(told))
    told = asked(harness, where, ["explain", "--job", "words", "--key", "the", "--out", "o", "a", "b"])
    harness.check("explain: agrees", (told["answer"], told["evidence"]) == ("agrees", found), repr(told))
    told = asked(harness, where, ["explain", "--job", "words", "--key", "the", "--skips", "0:0", "--max-skips", "1", "--out", "o", "a", "b"])
    left = {"pairs": 2, "records": 2, "left_out_pairs": 1, "left_out_records": 1}
    harness.check("explain: differs", (told["answer"], told["status"], told["evidence"], told["fault"]) == ("differs", 1, left, None), repr(told))
    told = asked(harness, where, ["explain", "--job", "words", "--none", "--from", "8", "a", "b"])
    harness.check("explain: nothing, from a byte on", (told["evidence"], told["inputs"]) == ({"pairs": 0, "records": 2, "left_out_pairs": 0, "left_out_records": 0}, [file_of("a", 18, 8), file_of("b", 7)]), repr(told))


def counted(harness):
    """Records, records that give nothing, and lengths of random inputs, counted apart."""
    draw = seeded("reports")
    for number in range(60):
        files = {name: random_text(draw, draw.randint(0, 300)) for name in "ab"[: draw.randint(0, 2)]}
        where = harness.directory(files)
        job = draw.choice([["words"], ["url"], ["index"], ["grep", "--literal", "e"]])
        kind = Request(job[0], 1, 1 << 26, **({"literal": b"e"} if job[0] == "grep" else {}))
        found = [list(emitted(kind, file, start, line)) for file, text in enumerate(files.values()) for start, line in records(text)]
        told = asked(harness, where, ["seq", "--job", *job, "--out", ".", *files])
        harness.check(f"counted apart {number}", (told["records"], told["silent"], [one["bytes"] for one in told["inputs"]]) == (len(found), found.count([]), [len(text) for text in files.values()]), repr((told, files)))


def faults(harness):
    where = harness.directory(FILES)
    os.mkdir(os.path.join(where, "o"))
    rows = [
        (["seq", "--job", "words", "--out", "o", "none"], {"name": "cannot read", "file": "none", "numbers": {}}, True),
        (["seq", "--job", "words", "--out", "missing", "a"], {"name": "cannot write", "file": "missing/part-00000", "numbers": {}}, True),
        (["seq", "--job", "grep", "--literal", "e", "--keep-case", "--out", "o", "a"], {"name": "option does not belong to this job", "file": None, "numbers": {}}, False),
        (["seq", "--job", "words", "--from", "3", "--out", "o", "a"], {"name": "InsideALine", "file": None, "numbers": {"file": 0, "byte": 3}}, False),
        (["seq", "--job", "words", "--fresh", "--out", ".", "a"], {"name": "cannot write", "file": ".", "numbers": {}}, False),
        (["seq", "--job", "words", "--need-pairs", "--out", "o"], {"name": "NoPairs", "file": None, "numbers": {}}, False),
        (["run", "--job", "words", "--script", "b", "--out", "o", "a"], {"name": "BadLine", "file": None, "numbers": {"line": 1}}, False),
        (["merge", "--out", "o", "a"], {"name": "BadVerdict", "file": None, "numbers": {"shard": 0, "line": 0}}, False),
        (["verify", "a"], {"name": "BadVerdict", "file": None, "numbers": {"line": 0}}, False),
    ]
    for words, fault, has_reason in rows:
        told = asked(harness, where, words)
        harness.check(f"{' '.join(words)}: fault", (told["answer"], told["fault"], told["inputs"], told["pairs"]) == (None, fault, None, None) and (told["reason"] is not None) == has_reason, repr(told))


def refused(harness):
    """A report is written over no file of the command, and where it can't be written the result stands."""
    where = harness.directory(FILES)
    os.mkdir(os.path.join(where, "o"))
    os.link(os.path.join(where, "a"), os.path.join(where, "linked"))
    seq = ["seq", "--job", "words", "--out", "o"]
    harness.run([*seq, "a"], cwd=where)
    harness.run(["check", *seq[1:], "--verdict", "o/verdict", "a"], cwd=where)
    before = read_result(where), read_result(os.path.join(where, "o"))
    rows = [([*seq, "a", "b"], name) for name in ("a", "b", "linked", "./a", "o/part-00000", "o/part-00007", "o/certificate", "o/verdict", "o/../o/verdict")]
    rows += [(["run", *seq[1:], "--script", "b", "--history", "h", "a"], name) for name in ("b", "h", "o/certificate")]
    rows += [(["check", *seq[1:], "--verdict", "v", "a"], name) for name in ("v", "a", "o/part-00000")]
    rows += [(["verify", "o/verdict"], name) for name in ("o/verdict", "o/part-00000")]
    rows += [(["merge", "--inputs", "b", "--out", ".", "o/verdict"], name) for name in ("o/verdict", "b", "part-00000", "verdict", "o/part-00000")]
    rows += [(["explain", "--job", "words", "--key", "the", "--out", "o", "a"], name) for name in ("a", "o/part-00000")]
    for words, name in rows:
        got = harness.run([*words, "--report", name], cwd=where)
        harness.check(f"{words[0]} --report {name}", got[:3] == (2, b"", b"mapred: SameFile %s\n" % name.encode()) and (read_result(where), read_result(os.path.join(where, "o"))) == before, repr(got))
    os.symlink("o/part-00000", os.path.join(where, "to-a-part"))
    os.link(os.path.join(where, "o", "part-00000"), os.path.join(where, "of-a-part"))
    rows = [([*seq, "b"], name) for name in ("to-a-part", "of-a-part", "a")] + [(["verify", "--with-inputs", "o/verdict"], "a")]
    for words, name in rows:
        got = harness.run([*words, "--report", name], cwd=where)
        harness.check(f"{words[0]}: no report over {name}, which isn't one", got[:3] == (2, b"", b"mapred: SameFile %s\n" % name.encode()) and (read_result(where), read_result(os.path.join(where, "o"))) == before, repr(got))
    harness.directory({"empty": b""}, where)
    got = harness.run([*seq, "--report", "empty", "a"], cwd=where), harness.run([*seq, "--report", "empty", "a"], cwd=where), harness.run([*seq, "--report", "/dev/null", "a"], cwd=where)
    harness.check("a report over an empty file, over a report, to a device", [one[0] for one in got] == [0, 0, 0] and report_in(where, "empty")[0]["pairs"] == 5, repr(got))
    got = harness.run([*seq, "--report", "none/r", "a", "b"], cwd=where)
    harness.check("a report that can't be written", got[0] == 3 and got[1] == b"done: 1 files, 7 pairs, 0 left out\n" and got[2] == b"mapred: cannot write none/r\n", repr(got))
    got = harness.run(["check", *seq[1:], "a", "b"], cwd=where)
    harness.check("and the result stands", got[0] == 0, repr(got))
    got = harness.run(["seq", "--job", "words", "--no-such", "--report", "r", "a"], cwd=where)
    harness.check("a fault of the line writes none", got[0] == 2 and not os.path.exists(os.path.join(where, "r")), repr(got))
    got = harness.run(["seq", "--job", "words", "--fresh", "--out", "new", "--report", "new/report.json", "a", "b"], cwd=where)
    harness.check("a report in a fresh directory", got[0] == 0 and report_in(where, "new/report.json")[0]["pairs"] == 7, repr(got))
    got = harness.run(["seq", "--job", "words", "--fresh", "--out", "new", "--report", "new/part-00000", "a"], cwd=where)
    harness.check("no report over a part of a fresh directory", got[:3] == (2, b"", b"mapred: SameFile new/part-00000\n"), repr(got))
    where = harness.directory({'q"\\\x01\u00e9': b"x"})
    name = 'q"\\\x01\u00e9'
    got = harness.run(["seq", "--job", "words", "--out", ".", "--report", "r", name], cwd=where)
    harness.check("names are escaped", got[0] == 0 and report_in(where)[0]["inputs"][0]["name"] == name, repr(got))


GROUPS = {"reports": facts, "reports of evidence": evidence, "reports counted apart": counted, "reports of faults": faults, "reports refused": refused}
