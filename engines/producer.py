#!/usr/bin/env python3
"""Makes a result with its certificate in Python: producer.py --out DIR --job JOB [options of the job] FILE..

For those whose engine must make outputs itself: what it writes to DIR, part-00000 and so on and certificate, is byte for
byte what `mapred seq` writes, by docs/FORMATS.md alone; --cert 2 spells the names in the certificate short. Whoever makes them, `mapred check` decides. It holds the input
and all names in memory and takes many times the processor time of `mapred seq`: where you can, let your engine start
that in place of this."""
import argparse
import os
import re
import struct
import sys

WORD = re.compile(rb"[0-9A-Za-z\x80-\xff]+")
FOLD = bytes(b + 32 if 0x41 <= b <= 0x5A else b for b in range(256))
JOBS = {"words": 1, "grep": 2, "url": 3, "index": 4, "field": 5}
name_bytes = struct.Struct(">III").pack


def named_records(files, split):
    """(split, number in it, file, start, bytes) of each record: a split has the records whose first byte it has."""
    first = 0
    for file, data in enumerate(files):
        start, here, number = 0, -1, 0
        while start < len(data):
            end = data.find(b"\n", start)
            end = len(data) if end < 0 else end
            if start // split != here:
                here, number = start // split, 0
            yield first + here, number, file, start, data[start:end]
            number += 1
            start = end + 1
        first += -(-len(data) // split)


def resource_of(line):
    """The resource that a line of a log requests, or none: the second word of its first text in quotes."""
    open_quote = line.find(b'"')
    at = open_quote + 1
    while open_quote >= 0 and at < len(line):
        if line[at] == 0x22:
            words = line[open_quote + 1 : at].split(b" ")
            return words[1] if len(words) > 1 and words[1] else None
        at += 2 if line[at] == 0x5C else 1
    return None


def mapper_of(asked):
    """What the job emits for a record: keys, each with what its line ends in where that isn't a total."""
    if asked.job in ("words", "index"):
        fold = None if asked.keep_case else FOLD
        end_in = lambda file: b"%d" % file if asked.job == "index" else None
        return lambda file, start, line: [(word.translate(fold), end_in(file)) for word in WORD.findall(line)]
    if asked.job == "grep":
        table = FOLD if asked.fold else None
        literal = os.fsencode(asked.literal).translate(table)
        return lambda file, start, line: [(line, b"%d:%d" % (file, start))] if literal in line.translate(table) else []
    if asked.job == "field":
        return lambda file, start, line: [(key, None) for key in [field_of(asked, line)] if key is not None]
    return lambda file, start, line: [(key, None) for key in [resource_of(line)] if key is not None]


def separator_of(asked):
    """The byte that separates fields, or nothing where runs of spaces and tabs do."""
    return b"\t" if asked.separator == "\\t" else os.fsencode(asked.separator or "")


def field_of(asked, line):
    """The field of the number asked for, from 1, or none."""
    separator, rest = separator_of(asked), line
    if not separator:
        stretches = line.replace(b"\t", b" ").strip(b" ")
        words = [word for word in stretches.split(b" ") if word]
        return words[asked.field - 1] if asked.field <= len(words) else None
    for _ in range(asked.field - 1):
        _, found, rest = rest.partition(separator)
        if not found:
            return None
    return rest.partition(separator)[0]


def host_of(key):
    """The host of a resource, folded: what stands behind its scheme up to its end; nothing where it has no such scheme."""
    folded = key.translate(FOLD)
    for scheme in (b"http://", b"https://"):
        if folded.startswith(scheme):
            return re.split(rb"[/:?#]", folded[len(scheme) :], maxsplit=1)[0]
    return b""


def partition_of(asked, key):
    """FNV-1a in 64 bits of the key or of its host, modulo the number of partitions."""
    h = 0xCBF29CE484222325
    for byte in host_of(key) if asked.by_host else key:
        h = ((h ^ byte) * 0x100000001B3) & 0xFFFFFFFFFFFFFFFF
    return h % asked.parts


class Group:
    """Of a key the number of its pairs, their names spelled one behind another in their order, and what its lines end in:
    of a search a place for each pair, of an index the files, each once."""

    def __init__(self):
        self.pairs, self.names, self.ends, self.last = 0, bytearray(), [], (0, 0, 0)

    def add_short(self, name):
        """Spells a name as version 2 does: the first number in which it is past the name before by how much it is, those
        before that as 0, those behind it as they are; seven bits a byte, the lowest first, 0x80 where more come."""
        split, number, place = (own - other for own, other in zip(name, self.last))
        for step in (split, *name[1:]) if split else (0, number, name[2]) if number else (0, 0, place):
            while step > 0x7F:
                self.names.append(step & 0x7F | 0x80)
                step >>= 7
            self.names.append(step)
        self.last = name


def grouped(asked, files, skips):
    """The groups by their keys."""
    emitted, groups = mapper_of(asked), {}
    for split, number, file, start, line in named_records(files, asked.split):
        if (split, number) in skips:
            continue
        for place, (key, end) in enumerate(emitted(file, start, line)):
            group = groups.get(key) or groups.setdefault(key, Group())
            group.pairs += 1
            if asked.cert == 1:
                group.names += name_bytes(split, number, place)
            else:
                group.add_short((split, number, place))
            # the pairs of a file come one behind another
            if end is not None and (asked.job != "index" or group.ends[-1:] != [end]):
                group.ends.append(end)
    return groups


def front_of(asked, files, skips):
    """What stands in a certificate before its partitions."""
    literal = separator_of(asked) + b"%d" % asked.field if asked.job == "field" else os.fsencode(asked.literal or "")
    flags = (1 if asked.keep_case else 0) + (2 if asked.fold else 0) + (4 if asked.by_host else 0)
    front = b"MRCERT%d\n" % asked.cert + struct.pack(">III", JOBS[asked.job], flags, len(literal)) + literal
    front += struct.pack(">III", asked.parts, asked.split, len(files)) + b"".join(struct.pack(">Q", len(data)) for data in files)
    return front + struct.pack(">I", len(skips)) + b"".join(struct.pack(">II", *skip) for skip in skips)


def partition(asked, keys, groups):
    """The output of a partition, and what the certificate says of it, given its keys in their order."""
    out, names = [], [struct.pack(">I", len(keys))]
    for key in keys:
        group = groups[key]
        ends = [b",".join(group.ends)] if asked.job == "index" else group.ends or [b"%d" % group.pairs]
        out += [key + b"\t" + end + b"\n" for end in ends]
        names += [struct.pack(">I", group.pairs), group.names]
    return b"".join(out), b"".join(names)


def produce(asked):
    files = []
    for name in asked.files:
        with open(name, "rb") as file:
            files.append(file.read())
    skips = [tuple(map(int, skip.split(":"))) for skip in asked.skips.split(",") if skip]
    groups = grouped(asked, files, set(skips))
    own = [[] for _ in range(asked.parts)]
    for key in sorted(groups):
        own[partition_of(asked, key)].append(key)
    with open(os.path.join(asked.out, "certificate"), "wb") as certificate:
        certificate.write(front_of(asked, files, skips))
        for number, keys in enumerate(own):
            output, names = partition(asked, keys, groups)
            with open(os.path.join(asked.out, f"part-{number:05}"), "wb") as part:
                part.write(output)
            certificate.write(names)
    return sum(group.pairs for group in groups.values())


def main():
    parser = argparse.ArgumentParser(description=__doc__, formatter_class=argparse.RawDescriptionHelpFormatter)
    parser.add_argument("--out", required=True, metavar="DIR", help="a directory that exists")
    parser.add_argument("--job", required=True, choices=JOBS)
    parser.add_argument("--literal", help="what grep looks for")
    parser.add_argument("--fold", action="store_true", help="grep: letters in either case")
    parser.add_argument("--keep-case", action="store_true", help="words, index: capitals are not folded")
    parser.add_argument("--field", type=int, default=0, help="field: the number of the field, from 1")
    parser.add_argument("--separator", help="field: the byte between fields; without it runs of spaces and tabs")
    parser.add_argument("--by-host", action="store_true", help="url: a key's output file is that of its host")
    parser.add_argument("--parts", type=int, default=1, help="partitions, one file each")
    parser.add_argument("--split", type=int, default=67108864, help="bytes of a split")
    parser.add_argument("--skips", default="", help="records to leave out, rising, as SPLIT:RECORD,SPLIT:RECORD")
    parser.add_argument("--cert", type=int, choices=(1, 2), default=1, help="the version of the certificate")
    parser.add_argument("files", nargs="*", metavar="FILE")
    asked = parser.parse_args()
    if asked.job == "grep" and not asked.literal:
        parser.error("grep needs --literal TEXT")
    if asked.job == "field" and not 1 <= asked.field <= 65535:
        parser.error("field needs --field N, from 1 to 65535")
    print(f"made: {asked.parts} files, {produce(asked)} pairs")
    return 0


if __name__ == "__main__":
    sys.exit(main())
