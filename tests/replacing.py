"""Results over earlier ones: a verdict that stands in the directory is emptied before parts are written, and another file of that name is
left alone; and results without a pair, which `--need-pairs` refuses."""
import os

TEXT = b"The cat saw the dog.\n"
WORDS = ["--job", "words", "--out", "out"]
DONE, CERTIFIED = b"done: 1 files, 5 pairs, 0 left out\n", b"certified: 1 files, 5 pairs, 0 left out\n"
VERDICTS = [b"verdict 1\n", b"verdict 2\n", b"verdict 1\nrest", b"verdict 2\nrequest words\nrest"]
OTHERS = [b"", b"verdict 1", b"verdict 3\n", b"verdict 12\n", b"verdict 1\r\n", b"Verdict 1\n", b" verdict 1\n", b"verdict  1\n", b"verdict\n1\n", b"text\nverdict 1\n"]


def room(harness, verdict=None, text=TEXT):
    """A directory with an input, and a directory of a result with this file `verdict`."""
    where = harness.directory({"in": text})
    os.makedirs(f"{where}/out")
    if verdict is not None:
        with open(f"{where}/out/verdict", "wb") as file:
            file.write(verdict)
    return where


def standing(where):
    """What stands in the directory of the result, by name."""
    out = {}
    for name in sorted(os.listdir(f"{where}/out")):
        with open(f"{where}/out/{name}", "rb") as file:
            out[name] = file.read()
    return out


def call(harness, where, *words):
    return harness.run([*words], cwd=where, timeout=60)[:3]


def same(harness, name, got, wanted):
    harness.check(name, got == wanted, f"{got!r}, not {wanted!r}")


def old_verdicts(harness):
    """An old verdict doesn't outlive its result, and nothing else is emptied."""
    for command, said in (("seq", DONE), ("run", CERTIFIED)):
        plain = room(harness)
        same(harness, f"{command} into an empty directory", call(harness, plain, command, *WORDS, "in"), (0, said, b""))
        result = standing(plain)
        for verdict in VERDICTS:
            where = room(harness, verdict)
            same(harness, f"{command} over {verdict!r}", call(harness, where, command, *WORDS, "in"), (0, said, b""))
            same(harness, f"{command} empties {verdict!r}", standing(where), {**result, "verdict": b""})
        for other in OTHERS:
            where = room(harness, other)
            same(harness, f"{command} over {other!r}", call(harness, where, command, *WORDS, "in"), (0, said, b""))
            same(harness, f"{command} leaves {other!r}", standing(where), {**result, "verdict": other})
        where = room(harness)
        os.makedirs(f"{where}/out/verdict")
        same(harness, f"{command} over a directory of that name", call(harness, where, command, *WORDS, "in"), (0, said, b""))
        where = room(harness)
        os.mkfifo(f"{where}/out/verdict")
        same(harness, f"{command} over a pipe of that name", call(harness, where, command, *WORDS, "in"), (0, said, b""))
        # what is refused empties nothing
        for words, status in ((["--parts", "0", "in"], 2), (["missing"], 3), (["--need-pairs", os.devnull], 1), (["--from", "5", "in"], 2)):
            where = room(harness, VERDICTS[3])
            same(harness, f"{command} {words} is refused", call(harness, where, command, *WORDS, *words)[0], status)
            same(harness, f"{command} {words} leaves the verdict", standing(where), {"verdict": VERDICTS[3]})
        # nor is an input emptied
        where = room(harness, VERDICTS[0])
        same(harness, f"{command} of a verdict beside its result", call(harness, where, command, *WORDS, "out/verdict"), (2, b"", b"mapred: SameFile out/verdict\n"))
        same(harness, f"{command} leaves the verdict that it reads", standing(where), {"verdict": VERDICTS[0]})
        where = room(harness, OTHERS[9])
        same(harness, f"{command} of another file of that name", call(harness, where, command, *WORDS, "out/verdict")[0], 0)
        same(harness, f"{command} leaves the file that it reads", standing(where)["verdict"], OTHERS[9])
    # a run that is not certified
    where = room(harness, VERDICTS[1])
    with open(f"{where}/script", "wb") as file:
        file.write(b"bad 0 0\n")
    same(harness, "a failed run", call(harness, where, "run", *WORDS, "--script", "script", "in")[:2], (1, b"failed: TooManySkips\n"))
    same(harness, "a failed run leaves the verdict", standing(where), {"verdict": VERDICTS[1]})
    # the history may not be the verdict
    where = room(harness, VERDICTS[1])
    said = call(harness, where, "run", *WORDS, "--history", "out/verdict", "in")
    same(harness, "a history in place of a verdict", said, (2, b"", b"mapred: SameFile out/verdict\n"))
    same(harness, "a history in place of a verdict: nothing written", standing(where), {"verdict": VERDICTS[1]})
    where = room(harness)
    same(harness, "a history of that name", call(harness, where, "run", *WORDS, "--history", "out/verdict", "in"), (0, CERTIFIED, b""))
    same(harness, "a history of that name stands", standing(where)["verdict"][:10], b"history 1 ")


def results_without_a_pair(harness):
    """What `--need-pairs` refuses, and what it takes."""
    refused = (1, b"", b"mapred: NoPairs\n")
    for command, said in (("seq", DONE), ("run", CERTIFIED)):
        for text, words in ((b"", ["in"]), (b"", []), (b"-- !\n\n", ["in"]), (b"", ["in", "in"])):
            where = room(harness, text=text)
            same(harness, f"{command} {words} of {text!r}", call(harness, where, command, *WORDS, "--need-pairs", *words), refused)
            same(harness, f"{command} {words} of {text!r}: nothing written", standing(where), {})
            same(harness, f"{command} {words} of {text!r}, as before", call(harness, where, command, *WORDS, *words)[0], 0)
        where = room(harness)
        same(harness, f"{command} with pairs", call(harness, where, command, *WORDS, "--need-pairs", "in"), (0, said, b""))
        grep = ["--job", "grep", "--literal", "bird", "--out", "out", "--need-pairs", "in"]
        same(harness, f"{command}: no line", call(harness, room(harness), command, *grep), refused)
    where = room(harness)
    skipped = ["--skips", "0:0", "--max-skips", "1", "--need-pairs", "in"]
    same(harness, "all that gives a pair is left out", call(harness, where, "seq", *WORDS, *skipped), refused)
    where = room(harness, text=b"")
    same(harness, "no history of a run without a pair", call(harness, where, "run", *WORDS, "--need-pairs", "--history", "events", "in"), refused)
    same(harness, "no history of a run without a pair: nothing written", os.path.exists(f"{where}/events"), False)


GROUPS = {"verdicts written over": old_verdicts, "results without a pair": results_without_a_pair}
