"""Scripts of what shall go wrong in a run, drawn at random, and what a run under a script may answer, by the rules alone.

A line is a tuple of its word and its numbers, as ("lose", 0, 2)."""
import itertools
import re

from plain import named_records, produced


def written(lines):
    """The text of a script."""
    after = lambda words: [*words[:2], "after", words[2]] if words[0] in ("lose", "zombie") else words
    return "".join(" ".join(map(str, after(line))) + "\n" for line in lines).encode()


def drawn(rnd, splits, workers, parts):
    """A script of up to six lines of all kinds, most of which name what is there."""
    split, rec = lambda: rnd.randint(0, splits), lambda: rnd.choice([0, 0, 0, 1, 2, 9])
    worker, early = lambda: rnd.randint(0, workers), lambda: rnd.choice([0, 0, 1, 2, 3, 5])
    kinds = [
        lambda: ("lose", worker(), early()),
        lambda: ("zombie", worker(), early()),
        lambda: ("bad", split(), rec()),
        lambda: ("flaky", split(), rec(), rnd.randint(0, 4)),
        lambda: ("hold", worker()),
        lambda: ("spoil", rnd.randint(0, parts), rnd.choice([0, 1, 2, 7, 500])),
        # a byte of what stands before the pairs, so that the region is none: or one that isn't there
        lambda: ("damage", split(), rnd.randint(0, parts), rnd.choice([0, 7, 8, 12, 19, 100000])),
    ]
    return [rnd.choice(kinds if rnd.random() < 0.4 else kinds[:5])() for _ in range(rnd.randint(0, 6))]


class Allowed:
    """What a run of the request over the files may answer."""

    def __init__(self, request, files, lines, workers, attempts, version=1):
        self.request, self.files, self.lines, self.workers, self.attempts, self.version = request, files, lines, workers, attempts, version
        there = {name for name, *_ in named_records(files, request.split)}
        self.bad = {line[1:3] for line in lines if line[0] == "bad"} & there
        self.flaky = {line[1:3] for line in lines if line[0] == "flaky" and line[3] > 0} & there
        # to be left out a record must have failed twice
        self.twice = {line[1:3] for line in lines if line[0] == "flaky" and line[3] > 1} & there - self.bad
        self.damages = len({line[1:3] for line in lines if line[0] == "damage"})
        self.made = {}

    def has(self, *words):
        return any(line[0] in words for line in self.lines)

    def loses(self, worker):
        return any(line[0] in ("lose", "zombie") and line[1] == worker for line in self.lines)

    def left_out(self):
        """The sets of records that may be left out in the end: all that always fail, and perhaps some that failed twice."""
        room = self.request.most - len(self.bad)
        for more in range(min(room, len(self.twice)) + 1):
            for some in itertools.combinations(sorted(self.twice), more):
                yield tuple(sorted(self.bad | set(some)))

    def result(self, skips):
        """Files, bytes of the certificate, and pairs, without these records."""
        if skips not in self.made:
            outputs, certificate, pairs = produced(self.request, self.files, skips)
            certificate.version = self.version
            self.made[skips] = outputs, certificate.bytes(), pairs
        return self.made[skips]

    def spoiled(self, skips):
        """The first place at which a file is spoiled: partition and byte, None where no line has an effect."""
        flips = [line[1:] for line in self.lines if line[0] == "spoil"]
        outputs = self.result(skips)[0]
        is_there = lambda flip: flip[0] < len(outputs) and flip[1] < len(outputs[flip[0]])
        return min((flip for flip in flips if is_there(flip) and flips.count(flip) % 2), default=None)

    def must_be_done(self):
        """Whether the job can't fail: no worker is lost, no more records fail than may be left out, and there are attempts
        enough. A record that fails always takes three attempts at most, two and one that was under way."""
        if any(self.loses(worker) for worker in range(self.workers)) or len(self.bad | self.twice) > self.request.most:
            return False
        failing = self.bad | self.flaky
        most = max((sum(name[0] == split for name in failing) for split, _ in failing), default=0)
        # a damaged region may cost each of two attempts at it, and others that find the split's output gone
        most = 3 * most + 4 * self.damages
        return self.attempts >= most + 1 and (not self.flaky or self.attempts >= 1 + sum(line[3] for line in self.lines if line[0] == "flaky") + most)

    def certified(self, outputs, certificate, skips, pairs):
        skips = tuple(skips)
        return skips in self.left_out() and self.spoiled(skips) is None and self.result(skips) == (list(outputs), certificate, pairs)

    def failed(self, fault):
        if self.must_be_done():
            return False
        return {
            "NoWorkers": all(self.loses(worker) for worker in range(self.workers)),
            "TooManySkips": len(self.bad | self.twice) > self.request.most,
            "TooManyAttempts": bool(self.bad or self.flaky or self.damages) or any(self.loses(worker) for worker in range(self.workers)),
        }[fault]

    def uncertified(self, fault):
        places = [self.spoiled(skips) for skips in self.left_out()]
        return fault in [f"OutputDiffers partition {place[0]} at {place[1]}" for place in places if place]


class Turns:
    """The history of a run, event by event, against its script: who was lost when, and where attempts failed."""

    def __init__(self, lines):
        self.lines, self.of_attempt, self.reports, self.ended, self.zombies = lines, {}, {}, set(), set()

    def due(self, word, worker):
        return (word, worker, self.reports.get(worker, 0)) in self.lines

    def failing(self, split, skips):
        return [line[2] for line in self.lines if line[0] in ("bad", "flaky") and line[1] == split and line[2] not in skips]

    def asked(self, worker, reply):
        told = re.fullmatch(r"(Map|Reduce) \{ attempt: (\d+), (?:split|partition): (\d+)(?:, skips: Skips \{ items: \[(.*)\] \})? \}", reply)
        if told:
            skips = [int(rec) for rec in (told[4] or "").split(", ") if rec]
            self.of_attempt[int(told[2])] = worker, told[1], int(told[3]), skips
        return worker not in self.ended | self.zombies and not self.due("lose", worker)

    def lost(self, worker):
        if self.due("lose", worker):
            self.ended.add(worker)
            return True
        self.zombies.add(worker)
        return self.due("zombie", worker)

    def reported(self, event, attempt, value):
        worker, kind, number, skips = self.of_attempt[attempt]
        is_due = self.due("zombie", worker)
        good = worker not in self.ended and is_due == (worker in self.zombies)
        self.zombies.discard(worker)
        self.reports[worker] = self.reports.get(worker, 0) + 1
        if event == "MapFailed":
            return good and value in self.failing(number, skips)
        return good and (event == "ReduceDone") == (kind == "Reduce")

    def hears(self, event, reply):
        """Whether the event may come next."""
        name, *numbers = re.findall(r"\w+", event)
        first, *more = map(int, numbers)
        if name == "Ask":
            return self.asked(first, reply)
        if name == "Lose":
            return self.lost(first)
        if name in ("Fetch", "Damaged"):
            return self.of_attempt[first][1] == "Reduce" and (name == "Fetch" or any(line[0] == "damage" for line in self.lines))
        return self.reported(name, first, more[0])


def misstep(lines, events):
    """The first of these events, each with its reply, that doesn't fit the script; None where all do."""
    turns = Turns(lines)
    return next((event for event in events if not turns.hears(*event)), None)
