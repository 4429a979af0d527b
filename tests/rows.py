"""What groups of worked rows share: a row is a command line with its files and all that it must leave."""
from harness import parts_of, read_result as result_of, write_result
from plain import Certificate, Request, in_version_2, produced

MAGIC = bytes.fromhex("4d 52 43 45 52 54 31 0a")

# Words of `a b a` and a line end, one partition, splits of 64 bytes: 92 bytes.
EXAMPLE = MAGIC + bytes.fromhex(
    "00 00 00 01  00 00 00 00  00 00 00 00"  # job, flags, no literal
    "00 00 00 01  00 00 00 40  00 00 00 01  00 00 00 00 00 00 00 06"  # partitions, bytes of a split, one file
    "00 00 00 00  00 00 00 02"  # no left-out record, two groups
    "00 00 00 02  00 00 00 00 00 00 00 00 00 00 00 00  00 00 00 00 00 00 00 00 00 00 00 02"
    "00 00 00 01  00 00 00 00 00 00 00 00 00 00 00 01"
)


def certificate_of(header, literal, shape, lengths, skips, partitions):
    """The bytes of a certificate: job and flags, the literal, partitions and bytes of a split, the length of each
    file, the left-out records, and for each partition its groups, each a list of names."""
    return Certificate(*header, literal, *shape, lengths, list(skips), partitions).bytes()


def plain(job, files, parts, skips=(), **rules):
    """The outputs, the number of pairs and the certificate's bytes, by the rules."""
    outputs, certificate, pairs = produced(Request(job, parts, **rules), files, skips)
    return outputs, pairs, certificate.bytes()


def judged(harness, words, files, where):
    """What `check` answers to the options of `seq`, which may name left-out records."""
    words = ["check", *words[1:]]
    if "--skips" in words:
        at = words.index("--skips")
        del words[at : at + 2]
    alone = harness.run([*words, "--out", ".", *files], cwd=where)[:3]
    for threads in ("1", "2", "64"):
        answer = harness.run([*words, "--threads", threads, "--out", ".", *files], cwd=where)[:3]
        harness.check(f"{words}, judged by {threads} threads", answer == alone, repr(answer))
    return alone


def judged_in_version_2(harness, name, words, files, where, answer):
    """`check` says the same of the certificate that stands there put into version 2, where it can be; it stands as before then."""
    parts, certificate = result_of(where)
    short = in_version_2(certificate)
    if short is not None:
        write_result(where, parts, short)
        got = judged(harness, words, files, where)
        harness.check(name + ", judged in version 2", got == answer, repr(got))
        write_result(where, parts, certificate)


def written_in_versions(harness, name, words, files, said):
    """`seq --cert` of the same line says the same and writes the same parts, and the certificate in the version that is asked for."""
    parts, certificate = result_of(said[3])
    for version, data in ((1, certificate), (2, in_version_2(certificate))):
        got = harness.run([*words, "--cert", str(version), "--out", ".", *files], files)
        harness.check(f"{name}, --cert {version}", got[:3] == said[:3] and result_of(got[3]) == (parts, data), repr(got[:3]))
        answer = judged(harness, words, files, got[3])
        harness.check(f"{name}, --cert {version}, judged", answer == yes_of(said[1], skips_of(words)), repr(answer))


def yes_of(done, skips):
    """What `check` says where `seq` said that it was done."""
    lines = [b"yes: " + done.split(b"files, ")[1], *(b"left out %d %d\n" % skip for skip in skips)]
    return 0, b"".join(lines), b""


def skips_of(words):
    listed = words[words.index("--skips") + 1] if "--skips" in words else ""
    return [tuple(map(int, skip.split(":"))) for skip in listed.split(",") if skip]


def row(harness, name, words, files, status=0, out=b"", err=b"", parts=None, certificate=None):
    got = harness.run([*words, "--out", ".", *files], files)
    harness.check(name, got[:3] == (status, out, err), f"status {got[0]} out {got[1]!r} err {got[2]!r}")
    stands = result_of(got[3])
    if parts is not None:
        harness.check(name + ", files", stands[0] == parts, repr(stands[0]))
    if certificate is not None:
        harness.check(name + ", certificate", stands[1] == certificate, repr(stands[1]))
    if status == 0:
        answer = judged(harness, words, files, got[3])
        harness.check(name + ", judged", answer == yes_of(out, skips_of(words)), repr(answer))
        harness.check(name + ", judged without a change", result_of(got[3]) == stands)
        judged_in_version_2(harness, name, words, files, got[3], answer)
        written_in_versions(harness, name, words, files, got)
    else:
        harness.check(name + ", no certificate", stands[1] is None)


def refused(harness, name, said, data, parts, certificate, options=(), split="64"):
    """A result that the judge refuses with this fault."""
    where = harness.directory()
    write_result(where, parts, certificate)
    words = ["check", "--job", "words", "--parts", str(len(parts)), "--split", split, *options, "--out", ".", "a"]
    got = harness.run(words, {"a": data}, cwd=where)
    harness.check("refused: " + name, got[:3] == (1, b"no: " + said + b"\n", b""), repr(got[:3]))
    for threads in ("1", "2", "64"):
        answer = harness.run([*words, "--threads", threads], cwd=where)
        harness.check(f"refused by {threads} threads: {name}", answer[:3] == got[:3], repr(answer[:3]))
    judged_in_version_2(harness, "refused: " + name, words[:-3], ["a"], where, got[:3])


def compared(harness, name, job, files, parts, options=(), **rules):
    names = {f"f{i}": data for i, data in enumerate(files)}
    words = ["seq", "--job", job, "--parts", str(parts), *options]
    got = harness.run([*words, "--out", ".", *names], names)
    outputs, pairs, certificate = plain(job, files, parts, **rules)
    skips = rules.get("skips", ())
    done = b"done: %d files, %d pairs, %d left out\n" % (parts, pairs, len(skips))
    harness.check(name, got[:3] == (0, done, b""), repr(got[:3]))
    harness.check(name + ", files", parts_of(got[3]) == outputs)
    harness.check(name + ", certificate", result_of(got[3])[1] == certificate)
    answer = judged(harness, words, names, got[3])
    harness.check(name + ", judged", answer == yes_of(done, skips), repr(answer))
    judged_in_version_2(harness, name, words, names, got[3], answer)
    written_in_versions(harness, name, words, names, got)
