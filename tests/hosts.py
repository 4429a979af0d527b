"""Resources of a log, parted by their hosts: rows worked out by hand, with certificates byte for byte; the option with other jobs;
certificates with other flags; shards of both partitions; and random logs by `seq`, `check` and `run`."""
import os
from dataclasses import replace

from harness import parts_of, random_log, read_result as result_of, seeded, write_result
from merge import cuts, merged, run_shard, said, shards_of, write_shard
from plain import JOBS, Request, fnv, host_of, judged as plain_judged, named_records, produced, u32s
from producer import options_of
from rows import MAGIC, judged, judged_in_version_2, row
from running import ran
from verdicts import contents, verdict_text

URL = ["--job", "url"]
BY_HOST = [*URL, "--by-host", "--parts", "2"]
LOG = b'h - - [t] "GET http://a/x HTTP/1.0" 200 1\nh - - [t] "GET /z HTTP/1.0" 200 1\nh - - [t] "GET http://A/y HTTP/1.0" 200 1\n'
# The hash of `a` is even, and that of no byte is odd.
PARTED = [b"http://A/y\t1\nhttp://a/x\t1\n", b"/z\t1\n"]
# Of these lines in two partitions and splits of 64 KiB: 100 bytes.
CERTIFIED = MAGIC + bytes.fromhex(
    "00 00 00 03  00 00 00 04  00 00 00 00"  # job, flags, no literal
    "00 00 00 02  00 01 00 00  00 00 00 01  00 00 00 00 00 00 00 76"  # partitions, bytes of a split, one file
    "00 00 00 00"  # no left-out record
    "00 00 00 02  00 00 00 01  00 00 00 00 00 00 00 02 00 00 00 00  00 00 00 01  00 00 00 00 00 00 00 00 00 00 00 00"
    "00 00 00 01  00 00 00 01  00 00 00 00 00 00 00 01 00 00 00 00"
)
# The same in version 2: 73 bytes.
SHORT = b"MRCERT2\n" + CERTIFIED[8:44] + bytes.fromhex("00 00 00 02  00 00 00 01  00 02 00  00 00 00 01  00 00 00" "00 00 00 01  00 00 00 01  00 01 00")
OTHER_OPTION = b"mapred: option does not belong to this job\n"
DONE, YES = b"done: 2 files, 3 pairs, 0 left out\n", b"yes: 3 pairs, 0 left out\n"

# Keys with their hosts. Those of the first line have the host `a`, those of the second none.
KEYS = [
    (b"a", b"http://a/x http://A/y HTTP://a https://a:80/ hTtPs://A?q http://a#p http://a:b/c?d http://a/http://b/ https://a//b".split()),
    (b"", b"/z z http:/ http:// http:///x https://:80/a http://?a ftp://a/x http:a/x xhttp://a/x //a/x http:/a/x httpss://a/x".split()),
    (b"u@h", [b"HTTP://U@H/", b"https://u@H:80"]),
    (b"[", [b"http://[::1]/", b"https://["]),
    (b"www.example.org", [b"HTTPS://Www.Example.ORG:80/y", b"http://www.example.org"]),
    (b"\xc4a", [b"http://\xc4A/", b"https://\xc4a#\xe4"]),
]


def log_of(keys):
    """A line for each key that requests it."""
    return b"".join(b'h - - [t] "GET %s HTTP/1.0" 200 1\n' % key for key in keys)


def worked(harness):
    """Worked by hand: by `seq`, judged, and by workers."""
    seq = ["seq", *BY_HOST, "--split", "65536"]
    row(harness, "three lines by host", seq, {"a": LOG}, out=DONE, parts=PARTED, certificate=CERTIFIED)
    got = harness.run([*seq, "--cert", "2", "--out", ".", "a"], {"a": LOG})
    harness.check("three lines by host, version 2", got[:3] == (0, DONE, b"") and result_of(got[3]) == (PARTED, SHORT), repr(got[:3]))
    harness.check("the lengths of the certificates", [len(CERTIFIED), len(SHORT)] == [100, 73], repr([len(CERTIFIED), len(SHORT)]))
    harness.check("the flags stand at place 12", CERTIFIED[12:16] == SHORT[12:16] == u32s(4))
    for version, data in ((1, CERTIFIED), (2, SHORT)):
        request = Request("url", 2, 65536, by_host=True)
        status, out, err, where = ran(harness, request, [LOG], words=["--cert", str(version)])
        name = f"three lines by host and by workers, version {version}"
        harness.check(name, (status, out, err) == (0, b"certified: 2 files, 3 pairs, 0 left out\n", b""), f"{status} {out} {err}")
        harness.check(f"{name}: files", result_of(os.path.join(where, "out")) == (PARTED, data), repr(result_of(os.path.join(where, "out"))))
    row(harness, "three lines by key", ["seq", *URL, "--parts", "2"], {"a": LOG}, out=DONE, parts=[b"/z\t1\nhttp://A/y\t1\n", b"http://a/x\t1\n"])
    row(harness, "one partition by host", ["seq", *URL, "--by-host"], {"a": LOG}, out=b"done: 1 files, 3 pairs, 0 left out\n", parts=[b"/z\t1\nhttp://A/y\t1\nhttp://a/x\t1\n"])
    row(harness, "no line by host", ["seq", *BY_HOST], {"a": b"", "b": b"x\n"}, out=b"done: 2 files, 0 pairs, 0 left out\n", parts=[b"", b""])
    # a log of paths alone: all have the host of no byte
    paths = log_of(b"/%d" % n for n in range(9))
    row(harness, "paths by host", ["seq", *BY_HOST], {"a": paths}, out=b"done: 2 files, 9 pairs, 0 left out\n", parts=[b"", b"".join(b"/%d\t1\n" % n for n in range(9))])
    row(harness, "a line left out by host", ["seq", *BY_HOST, "--skips", "0:0", "--max-skips", "1"], {"a": LOG}, out=b"done: 2 files, 2 pairs, 1 left out\n", parts=[b"http://A/y\t1\n", b"/z\t1\n"])


def each_host(harness):
    """Keys of one host fall in one partition, whatever else stands in them, and those of no host in that of no byte."""
    for host, keys in KEYS:
        harness.check(f"the plain host of {keys}", all(host_of(key) == host for key in keys), repr([host_of(key) for key in keys]))
        p, parts = fnv(host) % 1024, [b""] * 1024
        parts[p] = b"".join(key + b"\t1\n" for key in sorted(keys))
        done = b"done: 1024 files, %d pairs, 0 left out\n" % len(keys)
        for key in keys:
            got = harness.run(["seq", *URL, "--by-host", "--parts", "1024", "--out", ".", "a"], {"a": log_of([key])})
            told = [n for n, part in enumerate(parts_of(got[3])) if part]
            harness.check(f"the partition of {key}", got[0] == 0 and told == [p], f"{got[:3]} {told}, not {p}")
        got = harness.run(["seq", *URL, "--by-host", "--parts", "1024", "--out", ".", "a"], {"a": log_of(keys)})
        harness.check(f"keys of the host {host}", got[:3] == (0, done, b"") and parts_of(got[3]) == parts, repr(got[:3]))


def of_other_jobs(harness):
    """The option with another job is told before any other fault, and nothing is written."""
    for command in ("seq", "run", "check"):
        for job in (["--job", "words"], ["--job", "grep", "--literal", "a"], ["--job", "index"], ["--job", "words", "--keep-case"], ["--job", "grep", "--literal", "a", "--fold"]):
            for more in ([], ["--parts", "0"], ["none"]):
                got = harness.run([command, *job, "--by-host", *more, "--out", ".", "a"], {"a": LOG})
                name = f"{command} {job} by host {more}"
                harness.check(name, got[:3] == (2, b"", OTHER_OPTION) and os.listdir(got[3]) == ["a"], repr(got[:3]))
        for option in (["--keep-case"], ["--fold"], ["--literal", "a"]):
            got = harness.run([command, *BY_HOST, *option, "--out", ".", "a"], {"a": LOG})
            harness.check(f"{command} by host with {option}", got[:3] == (2, b"", OTHER_OPTION), repr(got[:3]))
        got = harness.run([command, *URL, "--by-host", "--parts", "0", "--out", ".", "none"])
        harness.check(f"{command} by host in no partition", got[:3] == (2, b"", b"mapred: BadParts\n"), repr(got[:3]))
        got = harness.run([command, *URL, "--by-host", "--by-host", "--out", ".", "a"], {"a": LOG})
        harness.check(f"{command} by host twice", got[0] == 2 and b"cannot be used multiple times" in got[2], repr(got[:3]))


def flagged(data, flags, job=3):
    """A certificate with another job and other flags."""
    return data[:8] + u32s(job, flags) + data[16:]


def refusals(harness):
    """Results that are judged by the other partition, and certificates with other flags."""
    asked = lambda by_host: [*URL, *["--by-host"] * by_host, "--parts", "2"]
    by_key = produced(Request("url", 2, 65536), [LOG])
    of = {True: (PARTED, CERTIFIED), False: (by_key[0], by_key[1].bytes())}
    place = b"partition %d group %d entry 0"
    rows = [
        ("three lines by host", True, *of[True], b"yes: 3 pairs, 0 left out"),
        ("three lines by key", False, *of[False], b"yes: 3 pairs, 0 left out"),
        ("by host, asked for by key", False, *of[True], b"no: OtherJob"),
        ("by key, asked for by host", True, *of[False], b"no: OtherJob"),
        ("by key, said to be by host", True, of[False][0], flagged(of[False][1], 4), b"no: WrongPartition " + place % (0, 0)),
        ("by host, said to be by key", False, *(PARTED, flagged(CERTIFIED, 0)), b"no: WrongPartition " + place % (0, 1)),
    ]
    for flags in (1, 2, 3, 5, 6, 7, 8, 12, 2**31, 2**32 - 4, 4 << 24):
        rows += [(f"by host with flags {flags}", True, PARTED, flagged(CERTIFIED, flags), b"no: OtherJob"), (f"by key with flags {flags}", False, of[False][0], flagged(of[False][1], flags), b"no: OtherJob")]
    for job in (0, 1, 2, 4, 5):
        rows += [(f"flags 4 with job {job}", by_host, PARTED, flagged(CERTIFIED, 4, job), b"no: OtherJob") for by_host in (False, True)]
    for name, by_host, parts, certificate, told in rows:
        where = harness.directory()
        write_result(where, parts, certificate)
        words = ["check", *asked(by_host), "--split", "65536"]
        harness.directory({"a": LOG}, where)
        got = judged(harness, words, ["a"], where)
        harness.check(f"hosts judged: {name}", got == (0 if told.startswith(b"yes") else 1, told + b"\n", b""), repr(got))
        judged_in_version_2(harness, f"hosts judged: {name}", words, ["a"], where, got)
    # flag 4 on a result of another job, which is asked for as that job and can't be asked for by host
    for job, more in (("words", {}), ("words", {"keep": True}), ("grep", {"literal": b"a"}), ("grep", {"literal": b"a", "fold": True}), ("index", {})):
        request = Request(job, 2, 65536, **more)
        outputs, certificate, _ = produced(request, [LOG])
        certificate.flags |= 4
        where = harness.directory({"a": LOG})
        write_result(where, outputs, certificate.bytes())
        words = options_of(request, "check")
        got = judged(harness, words, ["a"], where)
        harness.check(f"flag 4 on {request}", got == (1, b"no: OtherJob\n", b""), repr(got))
        judged_in_version_2(harness, f"flag 4 on {request}", words, ["a"], where, got)


def shards(harness):
    """Shards by host are merged, those of both partitions aren't, and a verdict names a partition by host where it can."""
    by_host, by_key = Request("url", 3, 64, by_host=True), Request("url", 3, 64)
    files = {"a": LOG, "b": log_of(b"http://a/x /z https://B/ http://b?q HTTP://c.example:80/".split()), "c": b""}
    whole = lambda request: produced(request, [*files.values()])
    for made in (write_shard, run_shard):
        one, two, three = (made(harness, by_host, [name], [data], []) for name, data in files.items())
        keyed = [made(harness, by_key, [name], [data], []) for name, data in files.items()]
        name = f"by host by {made.__name__}"
        harness.check(f"the verdict {name}", contents(one)["verdict"].startswith(b"verdict 2\njob 3\nflags 4\nliteral \npartitions 3\nsplit 64\n"), repr(contents(one)["verdict"]))
        for request, given in ((by_host, [one, two, three]), (by_key, keyed)):
            where, (outputs, _, pairs) = harness.directory(), whole(request)
            got = merged(harness, where, given)
            harness.check(f"shards of {request} {name}", got == (0, said(outputs, pairs, []), b"") and parts_of(where) == outputs, repr(got))
            harness.check(f"shards of {request} {name}, their verdict", contents(where)["verdict"] == verdict_text(request, files.items(), outputs, [], pairs))
        for given, told in [
            ([one, keyed[1]], b"OtherRequest shard 1"),
            ([keyed[0], two], b"OtherRequest shard 1"),
            ([one, two, keyed[2]], b"OtherRequest shard 2"),
        ]:
            where = harness.directory({"part-00000": b"old", "verdict": b"old"})
            got = merged(harness, where, given)
            stands = contents(where) == {"part-00000": b"old", "verdict": b"old"}
            harness.check(f"shards of both partitions {name}, {told}", got == (1, b"", b"mapred: " + told + b"\n") and stands, repr(got))
    # verdicts with flags that no request has
    for job, literal, flags in [("words", b"", 4), ("words", b"", 5), ("grep", b"a", 4), ("grep", b"a", 6), ("url", b"", 1), ("url", b"", 2), ("url", b"", 5), ("url", b"", 6), ("url", b"", 7), ("url", b"", 8)]:
        shard = write_shard(harness, by_host, ["a"], [LOG], [])
        text = contents(shard)["verdict"].replace(b"job 3\nflags 4\nliteral \n", b"job %d\nflags %d\nliteral %s\n" % (JOBS[job], flags, literal))
        harness.directory({"verdict": text}, shard)
        got = merged(harness, harness.directory(), [shard])
        harness.check(f"a verdict of {job} with flags {flags}", got == (1, b"", b"mapred: NoRequest\n"), repr(got))


def some_key(rnd):
    """A key that may be a resource with a host."""
    scheme = rnd.choice(["http://", "https://", "HTTP://", "hTTps://", "http:/", "http:", "ftp://", "shttp://", "", "/"])
    host = rnd.choice(["a", "A", "b.example", "B.Example", "b.example.", "u@h", "U@h", "[::1]", "", "ä", "Ä", "h-1", "h" * 40, "H" * 40])
    return scheme + host + rnd.choice(["", "/", ":", ":80/", "?", "?q=1", "#", "#p", "//", "/:?#", "\\\\"]) + rnd.choice(["", "a", "Z", "x" * 20])


def some_log(rnd):
    """Lines of an access log, by hosts of either kind."""
    if rnd.random() < 0.5:
        return random_log(rnd, rnd.randint(0, 30))
    return log_of(some_key(rnd).encode() for _ in range(rnd.randint(0, 30)))


def random_logs(harness):
    """1,000 random logs: by `seq`, by `check`, in shards that are merged and by workers, against the rules; and results by key that
    are said to be by host."""
    rnd, told = seeded("logs by host"), set()
    for turn in range(1000):
        files = [some_log(rnd) for _ in range(rnd.randint(0, 3))]
        request = Request("url", rnd.choice([1, 2, 3, 7, 64]), rnd.choice([16, 100, 1000, 67108864]), by_host=True)
        known = [name for name, *_ in named_records(files, request.split)]
        skips = sorted(rnd.sample(known, min(len(known), rnd.choice([0, 0, 0, 2]))))
        request.most = len(skips)
        outputs, certificate, pairs = produced(request, files, skips)
        certificate.version = version = 1 + turn % 2
        data, named = certificate.bytes(), {f"f{i}": text for i, text in enumerate(files)}
        name = f"log {turn} in {request.parts} parts, version {version}"
        got = harness.run([*options_of(request, "seq", skips), "--cert", str(version), "--out", ".", *named], named)
        done = b"done: %d files, %d pairs, %d left out\n" % (request.parts, pairs, len(skips))
        harness.check(name, got[:3] == (0, done, b"") and result_of(got[3]) == (outputs, data), repr(got[:3]))
        check = [*options_of(request, "check"), "--threads", rnd.choice("128"), "--out", ".", *named]
        want = plain_judged(request, files, outputs, data)
        answer = harness.run(check, cwd=got[3])[:3]
        harness.check(f"{name}, judged", want.startswith("yes") and answer == (0, want.encode(), b""), repr(answer))
        shards = [write_shard(harness, request, *shard) for shard in shards_of(request, files, skips, cuts(rnd, len(files)))]
        where = harness.directory()
        got_merged = merged(harness, where, shards)
        harness.check(f"{name}, merged of {len(shards)}", got_merged == (0, said(outputs, pairs, skips), b"") and parts_of(where) == outputs, repr(got_merged))
        status, out, err, where = ran(harness, request, files, words=["--workers", rnd.choice("148"), "--cert", str(version)])
        outputs, certificate, pairs = produced(request, files)
        certificate.version = version
        line = b"certified: %d files, %d pairs, 0 left out\n" % (request.parts, pairs)
        harness.check(f"{name}, by workers", (status, out, err) == (0, line, b"") and result_of(os.path.join(where, "out")) == (outputs, certificate.bytes()), f"{status} {out} {err}")
        outputs, certificate, _ = produced(replace(request, by_host=False), files, skips)
        certificate.flags, certificate.version = 4, version
        write_result(got[3], outputs, certificate.bytes())
        want = plain_judged(request, files, outputs, certificate.bytes())
        answer = harness.run(check, cwd=got[3])[:3]
        harness.check(f"{name}, by key and said to be by host", answer == (0 if want.startswith("yes") else 1, want.encode(), b""), f"{answer} wanted {want!r}")
        told.add(want.split()[1] if want.startswith("no") else "yes")
    harness.check("both were told of results by key", {"WrongPartition", "yes"} <= told, repr(told))


GROUPS = {"urls by host": worked, "the host of each key": each_host, "urls by host, asked for": of_other_jobs, "urls by host refused": refusals, "urls by host in shards": shards, "random logs by host": random_logs}
