"""The rules of docs/FORMATS.md in plain Python: what a job gives over an input, and what the judge says of a result.

Written from that page alone, without a look at the program. It is slow and keeps everything in memory."""
import re
import struct
from dataclasses import dataclass, field

MAGICS = {1: b"MRCERT1\n", 2: b"MRCERT2\n"}
# A number of version 2: bytes of seven bits, the lowest first, at most 4294967295, without a last byte of nothing; and a name.
SHORT = rb"(\x00|[\x80-\xff]{0,3}[\x01-\x7f]|[\x80-\xff]{4}[\x01-\x0f])"
NAME = re.compile(SHORT * 3)
WORD = re.compile(rb"[0-9A-Za-z\x80-\xff]+")
HOST = re.compile(rb"https?://([^/:?#]*)", re.I)
FOLD = bytes(b + 32 if 0x41 <= b <= 0x5A else b for b in range(256))
STRETCH = re.compile(rb"[^ \t]+")
JOBS = {"words": 1, "grep": 2, "url": 3, "index": 4, "field": 5}


@dataclass
class Request:
    """A job with its numbers, and the options of the command line that ask for it."""

    job: str
    parts: int = 1
    split: int = 67108864
    keep: bool = False
    literal: bytes = b""
    fold: bool = False
    most: int = 0
    by_host: bool = False
    # The number of the field, from 1, and the byte that separates fields; none for runs of spaces and tabs.
    number: int = 0
    separator: bytes = b""

    def options(self):
        return [*self.own_options(), "--parts", str(self.parts), "--split", str(self.split), "--max-skips", str(self.most)]

    def own_options(self):
        """The job, and the options that belong to it."""
        words = ["--job", self.job]
        if self.keep:
            words.append("--keep-case")
        if self.job == "grep":
            words += ["--literal", self.literal.decode()]
        if self.fold:
            words.append("--fold")
        if self.by_host:
            words.append("--by-host")
        if self.job == "field":
            words += ["--field", str(self.number)]
            if self.separator:
                words.append("--separator=" + ("\\t" if self.separator == b"\t" else self.separator.decode()))
        return words

    def flags(self):
        return 1 * self.keep + 2 * self.fold + 4 * self.by_host

    def name(self):
        """What the certificate has for a literal."""
        return self.separator + b"%d" % self.number if self.job == "field" else self.literal


def any_request(rnd, job):
    """A request of the job, with options of its own that are drawn."""
    request = Request(job)
    if job in ("words", "index"):
        request.keep = rnd.random() < 0.3
    if job == "grep":
        request.literal = rnd.choice(["the", "a", "THE", "ü", " ", "42", "-"]).encode()
        request.fold = rnd.random() < 0.5
    if job == "url":
        request.by_host = rnd.random() < 0.5
    if job == "field":
        request.number = rnd.choice([1, 1, 2, 3, 7, 65535])
        request.separator = rnd.choice([b"", b"", b" ", b"\t", b":", b"e", b"\r"])
    return request


def fnv(key):
    h = 0xCBF29CE484222325
    for byte in key:
        h = ((h ^ byte) * 0x100000001B3) % 2**64
    return h


def host_of(key):
    """The host of a key, folded: what stands behind http:// or https:// up to its end; nothing behind no such scheme."""
    named = HOST.match(key)
    return named[1].translate(FOLD) if named else b""


def partition_of(request, key):
    """The partition of a key, by its host or by all of it."""
    return fnv(host_of(key) if request.by_host else key) % request.parts


def records(data):
    """(start, bytes) of each record of a file."""
    at, out = 0, []
    while at < len(data):
        end = data.find(b"\n", at)
        end = len(data) if end < 0 else end
        out.append((at, data[at:end]))
        at = end + 1
    return out


def named_records(files, split):
    """((split, number), file, start, bytes) of each record of the input, in order."""
    first, out = 0, []
    for number, data in enumerate(files):
        counts = {}
        for start, line in records(data):
            s = first + start // split
            out.append(((s, counts.get(s, 0)), number, start, line))
            counts[s] = counts.get(s, 0) + 1
        first += (len(data) + split - 1) // split
    return out


def resource_of(line):
    """The resource that a line of a log requests, if it does."""
    quote = line.find(b'"')
    if quote < 0:
        return None
    at = quote + 1
    while at < len(line) and line[at] != 0x22:
        at += 2 if line[at] == 0x5C else 1
    if at >= len(line):
        return None
    asked = line[quote + 1 : at]
    space = asked.find(b" ")
    if space < 0:
        return None
    return asked[space + 1 :].split(b" ")[0] or None


def emitted(request, number, start, line):
    """The pairs of a record: (key, value), the value being None or (file, place)."""
    if request.job in ("words", "index"):
        value = (number, start) if request.job == "index" else None
        return [(word if request.keep else word.translate(FOLD), value) for word in WORD.findall(line)]
    if request.job == "grep":
        table = FOLD if request.fold else None
        return [(line, (number, start))] if request.literal.translate(table) in line.translate(table) else []
    if request.job == "field":
        fields = line.split(request.separator) if request.separator else STRETCH.findall(line)
        return [(field, None) for field in fields[request.number - 1 : request.number]]
    key = resource_of(line)
    return [] if key is None else [(key, None)]


def pairs_of(request, files, skips=()):
    """All pairs by name, (split, record, place): (key, value), in the order of names."""
    left_out, out = set(skips), {}
    for name, number, start, line in named_records(files, request.split):
        if name not in left_out:
            for place, pair in enumerate(emitted(request, number, start, line)):
                out[(*name, place)] = pair
    return out


def text_of(request, key, values):
    """The text of a group."""
    if request.job == "grep":
        return b"".join(key + b"\t%d:%d\n" % value for value in values)
    if request.job == "index":
        return key + b"\t" + b",".join(b"%d" % number for number in sorted({number for number, _ in values})) + b"\n"
    return key + b"\t%d\n" % len(values)


def u32s(*numbers):
    return struct.pack(f">{len(numbers)}I", *numbers)


def short(number):
    """The bytes of a number in version 2."""
    out = bytearray()
    while number >= 0x80:
        out.append(number & 0x7F | 0x80)
        number >>= 7
    return bytes([*out, number])


def short_number(spelled):
    """The number of these bytes."""
    return sum((byte & 0x7F) << 7 * i for i, byte in enumerate(spelled))


def steps(before, name):
    """The numbers that tell a name in version 2: the first in which it is past the name before by how much it is, those
    before that as 0, those behind it as they are."""
    split, rec, place = (own - other for own, other in zip(name, before))
    return (split, *name[1:]) if split else (0, rec, name[2]) if rec else (0, 0, place)


def stepped(before, split, rec, place):
    """The name that these numbers tell behind another."""
    if split:
        return before[0] + split, rec, place
    return (before[0], before[1] + rec, place) if rec else (*before[:2], before[2] + place)


@dataclass
class Certificate:
    """A certificate as a value; `partitions` are lists of groups, each a list of names."""

    job: int
    flags: int
    literal: bytes
    parts: int
    split: int
    lengths: list
    skips: list
    partitions: list = field(default_factory=list)
    version: int = 1

    def rises(self):
        """Whether no name of a group is less than the one before it: others have no spelling in version 2."""
        return all(a <= b for groups in self.partitions for names in groups for a, b in zip(names, names[1:]))

    def named(self, names):
        """The bytes of each name of a group."""
        if self.version == 1:
            return [u32s(*name) for name in names]
        return [b"".join(map(short, steps(before, name))) for before, name in zip([(0, 0, 0), *names], names)]

    def pieces(self):
        out = [MAGICS[self.version], u32s(self.job, self.flags, len(self.literal)), self.literal]
        out += [u32s(self.parts, self.split, len(self.lengths))]
        out += [struct.pack(">Q", length) for length in self.lengths]
        out += [u32s(len(self.skips)), *(u32s(*skip) for skip in self.skips)]
        for groups in self.partitions:
            out.append(u32s(len(groups)))
            for names in groups:
                out += [u32s(len(names)), *self.named(names)]
        return out

    def bytes(self):
        return b"".join(self.pieces())


def certificate_of(request, files, skips):
    """What a certificate of this request over these files says before its groups."""
    return Certificate(JOBS[request.job], request.flags(), request.name(), request.parts, request.split, [len(data) for data in files], list(skips))


def produced(request, files, skips=()):
    """The outputs, the certificate as a value, and the number of pairs."""
    pairs, groups = pairs_of(request, files, skips), {}
    for name, (key, value) in pairs.items():
        groups.setdefault(key, []).append((name, value))
    outputs, certificate = [b""] * request.parts, certificate_of(request, files, skips)
    certificate.partitions = [[] for _ in range(request.parts)]
    for key in sorted(groups):
        p = partition_of(request, key)
        certificate.partitions[p].append([name for name, _ in groups[key]])
        outputs[p] += text_of(request, key, [value for _, value in groups[key]])
    return outputs, certificate, len(pairs)


class No(Exception):
    pass


class Walk:
    """The items of a certificate's bytes, from the front. The magic tells the version."""

    def __init__(self, data):
        self.data, self.at, self.version = data, 0, 0

    def magic(self):
        self.version = next((version for version, magic in MAGICS.items() if self.data[:8] == magic), 0)
        if self.version == 0:
            raise No("Malformed at 0")
        self.at = 8

    def take(self, size):
        if self.at + size > len(self.data):
            raise No(f"Malformed at {self.at}")
        taken = self.data[self.at : self.at + size]
        self.at += size
        return taken

    def u32(self, low=0, high=2**32 - 1):
        number = int.from_bytes(self.take(4), "big")
        if not low <= number <= high:
            raise No(f"Malformed at {self.at - 4}")
        return number

    def numbers(self, count):
        return struct.unpack(f">{count}I", self.take(4 * count))

    def name(self, names):
        """The name of an entry behind these of its group."""
        if self.version == 1:
            return self.numbers(3)
        spelled = NAME.match(self.data, self.at)
        name = stepped(names[-1] if names else (0, 0, 0), *map(short_number, spelled.groups())) if spelled else ()
        if not spelled or max(name) >= 2**32:
            raise No(f"Malformed at {self.at}")
        self.at = spelled.end()
        return name

    def group(self):
        """The names of a group."""
        names = []
        for _ in range(self.u32(low=1)):
            names.append(self.name(names))
        return names

    def end(self):
        if self.at < len(self.data):
            raise No(f"Malformed at {self.at}")


def read(data):
    """The certificate that bytes spell, in the version of their magic."""
    walk = Walk(data)
    walk.magic()
    job, flags = walk.numbers(2)
    literal = walk.take(walk.u32(high=4096))
    parts, split = walk.u32(1, 1024), walk.u32()
    lengths = [int.from_bytes(walk.take(8), "big") for _ in range(walk.u32(high=1024))]
    skips = [walk.numbers(2) for _ in range(walk.u32())]
    partitions = [[walk.group() for _ in range(walk.u32())] for _ in range(parts)]
    walk.end()
    return Certificate(job, flags, literal, parts, split, lengths, skips, partitions, walk.version)


def in_version_2(data):
    """The same certificate in version 2; None where there is none, as bytes spell none or names fall."""
    try:
        certificate = read(data)
    except No:
        return None
    certificate.version = 2
    return certificate.bytes() if certificate.rises() else None


def wanted(fault, got, want):
    if got != want:
        raise No(fault)


def judge_header(walk, request, files):
    """The tests before the partitions; the left-out records."""
    walk.magic()
    wanted("OtherJob", walk.u32(), JOBS[request.job])
    wanted("OtherJob", walk.u32(), request.flags())
    wanted("OtherJob", walk.u32(high=4096), len(request.name()))
    for byte in request.name():
        wanted("OtherJob", walk.take(1)[0], byte)
    wanted("OtherJob", walk.u32(1, 1024), request.parts)
    wanted("OtherJob", walk.u32(), request.split)
    wanted("OtherInput", walk.u32(high=1024), len(files))
    for data in files:
        wanted("OtherInput", int.from_bytes(walk.take(8), "big"), len(data))
    listed = walk.u32()
    if listed > request.most:
        raise No(f"TooManySkips listed {listed}")
    exist, skips = {name for name, *_ in named_records(files, request.split)}, []
    for number in range(listed):
        skip = walk.numbers(2)
        if skips and skip <= skips[-1]:
            raise No(f"SkipOrder skip {number}")
        if skip not in exist:
            raise No(f"NoSuchRecord skip {number}")
        skips.append(skip)
    return skips


def judge_group(walk, pairs, request, p, g, before):
    """One group: its key, and the values of its entries."""
    key, names, values = None, [], []
    for e in range(walk.u32(low=1)):
        name, place = walk.name(names), f"partition {p} group {g} entry {e}"
        if name not in pairs:
            raise No(f"NoSuchPair {place}")
        own, value = pairs[name]
        if e > 0 and name <= names[-1]:
            raise No(f"EntryOrder {place}")
        if e > 0 and own != key:
            raise No(f"KeyDiffers {place}")
        if e == 0 and partition_of(request, own) != p:
            raise No(f"WrongPartition {place}")
        if e == 0 and before is not None and own <= before:
            raise No(f"KeyOrder {place}")
        key = own
        names.append(name)
        values.append(value)
    return key, values


def judge_partition(walk, pairs, request, p, output):
    """One partition; the number of its entries."""
    at, key, entries = 0, None, 0
    for g in range(walk.u32()):
        key, values = judge_group(walk, pairs, request, p, g, key)
        text = text_of(request, key, values)
        for i, byte in enumerate(text):
            if at + i >= len(output) or output[at + i] != byte:
                raise No(f"OutputDiffers partition {p} at {at + i}")
        at, entries = at + len(text), entries + len(values)
    if at < len(output):
        raise No(f"OutputDiffers partition {p} at {at}")
    return entries


def judged(request, files, outputs, data):
    """What `check` prints, whole."""
    try:
        if len(outputs) != request.parts:
            raise No("OutputCount")
        walk = Walk(data)
        skips = judge_header(walk, request, files)
        pairs = pairs_of(request, files, skips)
        entries = sum(judge_partition(walk, pairs, request, p, output) for p, output in enumerate(outputs))
        walk.end()
        if entries < len(pairs):
            raise No(f"Unnamed emitted {len(pairs)} named {entries}")
    except No as fault:
        return f"no: {fault}\n"
    return f"yes: {len(pairs)} pairs, {len(skips)} left out\n" + "".join(f"left out {s} {r}\n" for s, r in skips)
