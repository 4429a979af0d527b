"""The judge against a plain one: results are spoiled in every way that has a name, and whole lines are compared."""

import os
from concurrent.futures import ThreadPoolExecutor
from dataclasses import replace
from functools import cache

from failing import shim, with_failing
from harness import random_log, random_text, seeded, write_result
from plain import NAME, Request, judged, named_records, pairs_of, produced, text_of, u32s
from producer import options_of, random_job


def some_group(rnd, certificate):
    """A partition and a group of it, if there is one."""
    places = [(p, g) for p, groups in enumerate(certificate.partitions) for g in range(len(groups))]
    return rnd.choice(places) if places else None


def rewritten(request, files, certificate):
    """The outputs that fit the groups of a certificate, wrong as they may be."""
    pairs = pairs_of(request, files, certificate.skips)
    outputs = []
    for groups in certificate.partitions:
        text = b""
        for names in groups:
            known = [pairs[name] for name in names if name in pairs]
            text += text_of(request, known[0][0], [value for _, value in known]) if known else b""
        outputs.append(text)
    return outputs


def spoiled_groups(rnd, request, files, certificate):
    """A certificate with one thing done to its groups."""
    place = some_group(rnd, certificate)
    if place is None:
        return
    p, g = place
    groups = certificate.partitions[p]
    names = groups[g]
    all_names = list(pairs_of(request, files))
    e = rnd.randrange(len(names))
    other = rnd.choice(all_names)
    kind = rnd.randrange(12)
    if kind == 0:
        names.insert(e, names[e])
    elif kind == 1:
        names[e] = other
    elif kind == 2:
        names[e] = (other[0], other[1], other[2] + rnd.choice([1, 7, 2**31]))
    elif kind == 3:
        names.insert(e, other)
    elif kind == 4:
        names.reverse()
    elif kind == 5:
        del groups[g]
    elif kind == 6:
        groups.insert(rnd.randrange(len(groups) + 1), names)
    elif kind == 7:
        groups.reverse()
    elif kind == 8:
        certificate.partitions[rnd.randrange(len(certificate.partitions))].append(groups.pop(g))
    elif kind == 9:
        groups[g : g + 1] = [names[:e], names[e:]] if e else [names, [other]]
    elif kind == 10:
        del names[e]
    else:
        groups[g : g + 1] = [[], names]


def spoiled_header(rnd, request, files, certificate):
    """A certificate with one thing done before its groups."""
    names = [name for name, *_ in named_records(files, request.split)]
    kind = rnd.randrange(12)
    if kind == 0:
        certificate.job = rnd.choice([0, 1, 2, 3, 4, 5])
    elif kind == 1:
        certificate.flags ^= rnd.choice([1, 2, 4])
    elif kind == 2:
        certificate.literal = rnd.choice([b"", b"x", certificate.literal + b"y", certificate.literal[:-1], b"z" * 4097])
    elif kind == 3:
        certificate.literal = certificate.literal.translate(bytes(reversed(range(256))))
    elif kind == 4:
        certificate.parts = rnd.choice([0, certificate.parts + 1, 1025, 1])
    elif kind == 5:
        certificate.split = rnd.choice([0, certificate.split + 1, 2**32 - 1])
    elif kind == 6:
        certificate.lengths = certificate.lengths[:-1] if rnd.random() < 0.5 else [*certificate.lengths, 0]
    elif kind == 7 and certificate.lengths:
        certificate.lengths[rnd.randrange(len(certificate.lengths))] += rnd.choice([1, 2**40])
    elif kind == 8:
        certificate.lengths = [0] * 1025
    elif kind == 9 and names:
        certificate.skips = sorted([*certificate.skips, rnd.choice(names)])
    elif kind == 10 and names:
        certificate.skips = [*certificate.skips, rnd.choice([rnd.choice(names), (2**32 - 1, 0), (0, 2**32 - 1)])]
    elif certificate.skips:
        certificate.skips = rnd.choice([certificate.skips[1:], certificate.skips[::-1], certificate.skips * 2])


def spoiled_bytes(rnd, data):
    """Bytes with one place changed, cut, or lengthened."""
    if not data:
        return b"x"
    at, kind = rnd.randrange(len(data)), rnd.randrange(5)
    if kind == 0:
        return data[:at] + bytes([data[at] ^ 1 << rnd.randrange(8)]) + data[at + 1 :]
    if kind == 1:
        return data[:at]
    if kind == 2:
        return data + rnd.choice([b"\0", b"\n", data[:3]])
    if kind == 3:
        return data[:at] + data[at + 1 :]
    return data[:at] + bytes([rnd.randrange(256)]) + data[at:]


ODD_NUMBERS = ["", "00", "01", "7f", "80 01", "80", "80 00", "81 00", "ff ff ff ff 0f", "80 80 80 80 10", "ff ff ff ff 1f", "80 80 80 80 80 00"]


def odd_number(rnd, pieces):
    """The pieces of a certificate of version 2, joined, with one number of a name made another, among them such as aren't allowed."""
    places = [at for at, piece in enumerate(pieces) if NAME.fullmatch(piece)]
    if places:
        at = rnd.choice(places)
        numbers = [*NAME.fullmatch(pieces[at]).groups()]
        numbers[rnd.randrange(3)] = bytes.fromhex(rnd.choice(ODD_NUMBERS))
        pieces[at] = b"".join(numbers)
    return b"".join(pieces)


def spoiled(rnd, request, files, outputs, certificate):
    """The request that is judged under, files, and a good result that is spoiled, or is left alone. The certificate is changed;
    where its names fall by that, it is spelled in version 1."""
    kind, asked, outputs = rnd.randrange(10 if certificate.version == 1 else 14), request, list(outputs)
    if kind < 5:
        spoiled_groups(rnd, request, files, certificate)
        if rnd.random() < 0.8:
            outputs = rewritten(request, files, certificate)
    elif kind < 7:
        spoiled_header(rnd, request, files, certificate)
        asked = replace(request, most=request.most + rnd.choice([0, 10]))
        if rnd.random() < 0.5 and len(certificate.partitions) == request.parts:
            outputs = rewritten(request, files, certificate)
    certificate.version = certificate.version if certificate.rises() else 1
    data = certificate.bytes()
    if kind == 7:
        data = spoiled_bytes(rnd, data)
    elif kind == 8:
        p = rnd.randrange(len(outputs))
        outputs[p] = spoiled_bytes(rnd, outputs[p])
    elif kind == 9:
        asked = replace(request, parts=request.parts + rnd.choice([0, 1]), split=request.split + rnd.choice([0, 0, 1]) if request.split < 2**26 else 5, most=rnd.choice([0, request.most]))
        asked.by_host = request.job == "url" and rnd.choice([request.by_host, request.by_host, True])
        outputs += [b""] * (asked.parts - len(outputs))
        if rnd.random() < 0.4 and files:
            files = [*files[:-1], rnd.choice([files[-1] + b"x", files[-1][:-1], b""])]
    elif kind > 9:
        data = odd_number(rnd, certificate.pieces())
    return asked, files, outputs, data


def one_spoiled(rnd, version):
    """A request, files, and a result that was good and is spoiled, or was left alone."""
    request, files, skips = random_job(rnd)
    outputs, certificate, _ = produced(request, files, skips)
    certificate.version = version
    return spoiled(rnd, request, files, outputs, certificate)


def by_threads(harness, words, where):
    """What the program answers with several numbers of threads."""
    numbers = (2, 3, 8, 64)
    with ThreadPoolExecutor(len(numbers)) as pool:
        answers = pool.map(lambda n: harness.run([words[0], "--threads", str(n), *words[1:]], cwd=where)[:3], numbers)
        return list(zip(numbers, answers))


def spoiled_turns(harness, rnd, version, turns):
    """So many spoiled results, judged; what was told."""
    seen = set()
    for turn in range(turns):
        request, files, outputs, data = one_spoiled(rnd, version)
        names = {f"f{i}": text for i, text in enumerate(files)}
        where = harness.directory(names)
        write_result(where, outputs, data)
        got = harness.run([*options_of(request, "check"), "--out", ".", *names], cwd=where)
        want = judged(request, files, outputs, data)
        seen.add(want.split()[1] if want.startswith("no") else "yes")
        status = 0 if want.startswith("yes") else 1
        harness.check(f"spoiled {turn} of version {version} {request}", got[:3] == (status, want.encode(), b""), f"got {got[:3]!r} wanted {want!r}")
        words = [*options_of(request, "check"), "--out", ".", *names]
        for threads, answer in by_threads(harness, words, where):
            harness.check(f"spoiled {turn} of version {version} {request}, by {threads} threads", answer == got[:3], f"got {answer!r} wanted {want!r}")
    return seen


def against_a_plain_judge(harness):
    often = "Malformed OtherJob OtherInput NoSuchPair EntryOrder OutputDiffers yes".split()
    seldom = "SkipOrder NoSuchRecord TooManySkips KeyDiffers WrongPartition KeyOrder Unnamed".split()
    for version, rnd, turns, faults in [(1, seeded("judging"), 1500, {*often, *seldom}), (2, seeded("judging version 2"), 300, {*often})]:
        missing = faults - spoiled_turns(harness, rnd, version, turns)
        harness.check(f"each fault was met in version {version}", missing == set(), repr(missing))


def large_file(rnd, job, size):
    """At least so many bytes of records that differ much in length: empty ones, lines, and now and then a very long one."""
    text = []
    while sum(map(len, text)) < size:
        kind = rnd.randrange(4)
        if kind == 0:
            text.append(b"\n" * rnd.choice([1, 30, 3000]))
        elif kind == 1 and rnd.random() < 0.3:
            text.append((b"the cat 42 " if job != "url" else b'"GET /long HTTP/1.0" ') * 4000 + b"\n")
        else:
            text.append(random_log(rnd, 300) if job == "url" else random_text(rnd, 8000) + b"\n")
    return b"".join(text)


def at_borders(rnd, request, files, names):
    """Records round the places at which threads may divide the splits."""
    first, chosen = 0, set()
    for data in files:
        own = [(name, start) for name, number, start, _ in names if name[0] == first]
        for count in (2, 4, 8):
            place = len(data) * rnd.randrange(1, count) // count
            at = next((i for i, (_, start) in enumerate(own) if place <= start), len(own) - 1)
            chosen.update(own[max(0, i)][0] for i in range(at - 1, at + 2) if i < len(own) and rnd.random() < 0.5)
        first += (len(data) + request.split - 1) // request.split
    return sorted(chosen)


def few_large_splits(harness):
    """Splits that are few and large are mapped in pieces by several threads, which say what one thread says."""
    rnd = seeded("large splits")
    for version, turn in [(1, turn) for turn in range(32)] + [(2, turn) for turn in (0, 1, 2, 3, 8, 9, 10, 11)]:
        job = ("words", "grep", "url", "index")[turn % 4]
        request = Request(job, rnd.choice([1, 3, 7]), literal=b"the" if job == "grep" else b"")
        files = [large_file(rnd, job, rnd.choice([140_000, 300_000, 600_000])) for _ in range(rnd.choice([1, 1, 1, 2, 5]))]
        skips = at_borders(rnd, request, files, named_records(files, request.split)) if turn // 4 % 2 else []
        request.most = len(skips)
        outputs, certificate, pairs = produced(request, files, skips)
        certificate.version = version
        good = "".join([f"yes: {pairs} pairs, {len(skips)} left out\n", *(f"left out {s} {r}\n" for s, r in skips)]).encode()
        asked, files, outputs, data = (request, files, outputs, certificate.bytes()) if turn < 8 else spoiled(rnd, request, files, outputs, certificate)
        names = {f"f{i}": text for i, text in enumerate(files)}
        where = harness.directory(names)
        write_result(where, outputs, data)
        words = [*options_of(asked, "check"), "--out", ".", *names]
        alone = harness.run(words, cwd=where)[:3]
        name = f"large splits {turn} of version {version} {asked}"
        harness.check(f"{name}, by one thread", alone[0] in (0, 1) and (turn >= 8 or alone == (0, good, b"")), repr((alone, good)))
        for threads, answer in by_threads(harness, words, where):
            harness.check(f"{name}, by {threads} threads", answer == alone, f"got {answer!r} wanted {alone!r}")


def section_borders(groups, p=0, items=65536):
    """Before which groups of partition p a section begins, besides the first: behind so many items each. The first section begins with
    the item that opens partition 0; another partition's first group begins one."""
    borders, since = [], 1 if p == 0 else 0
    for g, names in enumerate(groups):
        if since >= items:
            borders.append(g)
            since = 0
        since += 1 + len(names)
    return borders


def spoiled_at(kind, groups, output, g, text):
    """A partition's groups and output with one thing done at the border before group g. `text` makes a group's text."""
    groups = list(groups)
    place = sum(len(text(names)) for names in groups[:g])
    before, behind = groups[g - 1], groups[g]
    first = len(text(groups[0]))
    if kind == "nothing":
        return groups, output
    if kind == "a byte behind it":
        return groups, output[:place] + b"\x01" + output[place + 1 :]
    if kind == "the byte before it":
        return groups, output[: place - 1] + b" " + output[place:]
    if kind == "a line more before it":
        return groups, output[:first] + b"\n" + output[first:]
    if kind == "a line less before it":
        return groups, output[first:]
    if kind == "groups that change places":
        groups[g - 1 : g + 1] = [behind, before]
    elif kind == "a key that comes twice":
        groups[g - 1 : g + 1] = [before, behind, before]
    elif kind == "a key in two groups":
        groups[g : g + 1] = [behind[:1], behind[1:] or behind]
    elif kind == "the group behind it left out":
        del groups[g]
    elif kind == "the group before it left out":
        del groups[g - 1]
    elif kind == "a name of the group before":
        groups[g] = (*behind, before[-1])
    elif kind == "names that fall":
        groups[g] = behind[::-1] if len(behind) > 1 else behind * 2
    elif kind == "a name that is not there":
        groups[g] = (*behind, (behind[-1][0], behind[-1][1], 2**31))
    elif kind == "all behind it left out":
        groups = groups[:g]
    return groups, b"".join(map(text, groups))


AT_A_BORDER = ["nothing", "a byte behind it", "the byte before it", "a line more before it", "a line less before it", "groups that change places"]
AT_A_BORDER += ["a key that comes twice", "a key in two groups", "the group behind it left out", "the group before it left out"]
AT_A_BORDER += ["a name of the group before", "names that fall", "a name that is not there", "all behind it left out"]


def files_of_sections(rnd, job, parts):
    """The files of a job with large partitions: one, or of an index five, of which each has some words alone."""
    words = [b"%s%d" % (rnd.choice([b"a", b"the", b"Zebra-"]), n) for n in range(1500)]
    line_of = lambda words: b" ".join(rnd.choices(words, k=9)) + b"\n"
    if job == "index":
        return [b"".join(line_of(words[at : at + 900]) for _ in range(5200 * parts)) for at in range(0, 750, 150)]
    if job == "words":
        return [b"".join(line_of(words) for _ in range(26_000 * parts))]
    line = {"grep": lambda: b"a " + rnd.choice(words), "url": lambda: b'1.2.3.4 "GET /%s HTTP/1.0" 200' % rnd.choice(words)}[job]
    return [b"".join(line() + b"\n" for _ in range(180_000))]


def large_partitions(harness):
    """A large partition is judged in sections by several threads, which say what one thread says, also where the sections
    don't fit together."""
    rnd = seeded("sections")
    for version, job, parts in [(1, "words", 1), (1, "words", 2), (1, "grep", 1), (1, "url", 1), (1, "index", 1)] + [(2, "grep", 1)]:
        request = Request(job, parts, split=100_000, literal=b"a" if job == "grep" else b"")
        files = files_of_sections(rnd, job, parts)
        outputs, certificate, pairs = produced(request, files)
        certificate.version = version
        known = pairs_of(request, files)
        text = cache(lambda names: text_of(request, known[names[0]][0], [known[name][1] for name in names if name in known]))
        spelled = cache(lambda names: u32s(len(names)) + b"".join(certificate.named(names)))
        partitions, certificate.partitions = [[tuple(names) for names in groups] for groups in certificate.partitions], []
        front, p = certificate.bytes(), parts - 1
        borders = section_borders(partitions[p], p)
        harness.check(f"sections of {request}: there are three or more", len(borders) >= 2, repr(borders))
        names = {f"f{i}": data for i, data in enumerate(files)}
        where = harness.directory(names)
        asked = [*options_of(request, "check"), "--out", ".", *names]
        for kind in AT_A_BORDER:
            groups, output = spoiled_at(kind, partitions[p], outputs[p], borders[-1], text)
            certificate.partitions = [groups]
            if version == 2 and not certificate.rises():
                continue
            behind = b"".join(u32s(len(one)) + b"".join(map(spelled, one)) for one in [*partitions[:p], groups])
            write_result(where, [*outputs[:p], output], front + behind)
            alone = harness.run(asked, cwd=where)[:3]
            name = f"sections of {request} in version {version}, {kind}"
            harness.check(f"{name}, by one thread", (alone[1] == b"yes: %d pairs, 0 left out\n" % pairs) == (kind == "nothing"), repr(alone))
            for threads, answer in by_threads(harness, asked, where):
                harness.check(f"{name}, by {threads} threads", answer == alone, f"got {answer!r} wanted {alone!r}")


def the_same_each_time(harness):
    """Faults in several partitions of a result of many splits: eight threads tell the same of them each time, and so that of
    one, while four runs at once keep the processors busy."""
    rnd = seeded("each time")
    files = [b" ".join(b"w%d" % rnd.randrange(900) for _ in range(4000)) + b"\n", b"x y z\n" * 700]
    request = Request("words", parts=12, split=512)
    outputs, certificate, _ = produced(request, files, [])
    spoiled = [text[:-3] + b"9\t1" if p in (3, 4, 7, 11) else text for p, text in enumerate(outputs)]
    names = {f"f{i}": text for i, text in enumerate(files)}
    for told, parts in (("yes", outputs), ("no", spoiled)):
        where = harness.directory(names)
        write_result(where, parts, certificate.bytes())
        words = [*options_of(request, "check"), "--out", ".", *names]
        alone = harness.run(words, cwd=where)[:3]
        harness.check(f"one thread says {told}", alone[1].startswith(told.encode()) and (told == "yes" or b"partition 3" in alone[1]), repr(alone))
        with ThreadPoolExecutor(4) as pool:
            answers = list(pool.map(lambda _: harness.run([*words, "--threads", "8"], cwd=where)[:3], range(200)))
        harness.check(f"200 times 8 threads say {told} as one does", answers == [alone] * 200, repr([answer for answer in answers if answer != alone][:3]))


def threads_refused(harness):
    """Threads that can't be made change no answer, and of an allocation that fails comes want of memory or the same."""
    library = shim(harness)
    if library is None:
        return
    files = {"a": b"The cat saw the dog.\n\nThe dog saw nothing.\n"}
    words = ["--job", "words", "--parts", "3", "--split", "8", "--out", ".", "a"]
    good = harness.run(["seq", *words], files)[3]
    given = {name: open(os.path.join(good, name), "rb").read() for name in sorted(os.listdir(good))}
    bad = {**given, "part-00001": given["part-00001"][:-1] + b"x"}
    for told, stands in (("yes", given), ("no", bad)):
        check = ["check", "--threads", "6", *words]
        whole, _ = with_failing(harness, library, "none", check, stands)
        harness.check(f"six threads say {told}", whole[1].startswith(told.encode()) and whole[3] == stands, repr(whole))
        # where a walk finds a fault, no threads are made for the windows
        for number in range(1, 11 if told == "yes" else 6):
            got, marked = with_failing(harness, library, f"thread {number}", check, stands)
            harness.check(f"from thread {number} on none is made, {told}", marked and got == whole, repr(got))
        number, marked, refused = 0, True, 0
        while marked:
            number += 1
            got, marked = with_failing(harness, library, f"malloc {number}", check, stands)
            is_refusal = got == (4, b"", b"mapred: out of memory\n", stands)
            refused += is_refusal
            harness.check(f"six threads that judge, malloc {number} fails, {told}", is_refusal or got == whole, repr(got))
        harness.check(f"six threads take memory, {told}", refused > 20, str(refused))
    run, _ = with_failing(harness, library, "none", ["run", "--workers", "6", *words], files)
    for number in (1, 2, 5, 7):
        got, marked = with_failing(harness, library, f"thread {number}", ["run", "--workers", "6", *words], files)
        harness.check(f"a run, from thread {number} on none is made", marked and got == run and got[0] == 0, repr(got))


GROUPS = {"judging": against_a_plain_judge, "judging few large splits": few_large_splits, "judging large partitions": large_partitions, "judging by threads each time": the_same_each_time, "threads that can't be made": threads_refused}
