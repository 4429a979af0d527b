"""Literals that stand where a search through a file begins, ends or goes on, against the rules in plain Python."""
from harness import read_result, seeded
from plain import Request, named_records, produced
from producer import options_of

# A search goes over so many bytes at first, and over twice as many where it finds nothing, up to the last.
REACHES = [4096 << k for k in range(5)]


def filler(rnd, size, literal):
    """Lines with all of the literal but its last byte, again and again, some with a carriage return."""
    out, front = [], literal[:-1] or b"-"
    while sum(map(len, out)) < size:
        out.append((front * rnd.randint(0, 3 + 60 // len(front)))[: rnd.choice([0, 1, 30, 80, 80, 300])] + rnd.choice([b"\n", b"\r\n", b"\n\n"]))
    return bytearray(b"".join(out)[:size])


def planted(rnd, text, literal, fold):
    """The literal stands near the ends of reaches behind the one before, across some of them, and at both ends."""
    at = 0
    while at + len(literal) <= len(text):
        spelled = literal.swapcase() if fold and rnd.random() < 0.5 else literal
        text[at : at + len(literal)] = spelled
        at += rnd.choice([len(literal) + rnd.randint(0, 3), *(reach + rnd.randint(-len(literal) - 2, 2) for reach in REACHES)])
    if rnd.random() < 0.5:
        text[len(text) - len(literal) :] = literal
    return bytes(text)


def near_the_reaches(harness):
    rnd = seeded("literals")
    for turn in range(16):
        literal = rnd.choice([b"x", b"ab", b"aab", b"a" * 63 + b"b", b"\r", b"aba", b"Ab", b"a" * 4095 + b"b"])
        fold = rnd.random() < 0.4
        request = Request("grep", rnd.choice([1, 3]), rnd.choice([1000, 5000, 70_000, 67108864]), literal=literal, fold=fold)
        files = [planted(rnd, filler(rnd, rnd.choice([9_000, 150_000]), literal), literal, fold), b"", bytes(filler(rnd, 5_000, literal))]
        files.append(planted(rnd, filler(rnd, 20_000, literal), literal, fold))
        held = [name for name, _, _, line in named_records(files, request.split) if literal in line]
        skips = sorted(rnd.sample(held, min(len(held), rnd.choice([0, 0, 1, 20]))))
        request.most = len(skips)
        outputs, certificate, pairs = produced(request, files, skips)
        names = {f"f{i}": data for i, data in enumerate(files)}
        told = f"turn {turn}, a literal of {len(literal)} bytes, fold {fold}, splits of {request.split}, {pairs} pairs, {len(skips)} left out"
        got = harness.run([*options_of(request, "seq", skips), "--out", ".", *names], names)
        harness.check(told, got[0] == 0 and read_result(got[3]) == (outputs, certificate.bytes()), repr(got[:3]))
        judged = harness.run([*options_of(request, "check"), "--out", ".", *names], cwd=got[3])
        harness.check(told + ", judged", judged[0] == 0 and judged[1].startswith(b"yes: %d pairs" % pairs), repr(judged[:3]))
        if not skips:
            ran = harness.run([*options_of(request, "run"), "--workers", "2", "--out", ".", *names], names)
            harness.check(told + ", run", ran[0] == 0 and read_result(ran[3]) == (outputs, certificate.bytes()), repr(ran[:3]))


GROUPS = {"literals": near_the_reaches}
