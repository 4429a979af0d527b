"""The master, event by event: worked histories, and a thousand drawn at random against a plain master.

The library `mr_core` is reached through the small program `mr_rows_tests`, which the gate leaves beside the checked one: a
line of numbers is an event, and the line that answers it tells the reply, made twice or once, and all that can be looked at."""
import random
import re
import subprocess

from libraries import built, words_of

KINDS = {"ask": 1, "fetch": 2, "map done": 3, "map failed": 4, "reduce done": 5, "lose": 6, "damaged": 7}


class Master:
    """The master of the library."""

    def __init__(self):
        self.process = subprocess.Popen(words_of("master"), stdin=subprocess.PIPE, stdout=subprocess.PIPE, text=True, bufsize=1)

    def tell(self, *numbers):
        self.process.stdin.write(" ".join(map(str, numbers)) + "\n")
        self.process.stdin.flush()

    def open(self, *sizes):
        """Opens a master of these splits, partitions, workers, attempts of a task, and records that may be left out."""
        self.tell(0, *sizes)

    def answer(self, event, once=False):
        """The reply, the same once more or `once`, and what can be looked at, as texts; no texts where a call failed."""
        self.tell(KINDS[event[0]], *[*event[1:], 0][:2], int(once))
        reply, again, *looks = self.process.stdout.readline().rstrip("\n").split("|") + [""]
        return reply, again, looks[:-1]

    def close(self):
        self.process.stdin.close()
        self.process.stdout.close()
        return self.process.wait()


# How replies, ends and looks are told.


def map_task(attempt, split, *records):
    return f"Map {{ attempt: {attempt}, split: {split}, skips: Skips {{ items: {sorted(records)} }} }}"


def reduce_task(attempt, partition):
    return f"Reduce {{ attempt: {attempt}, partition: {partition} }}"


def region(output):
    return f"Region {{ output: {output} }}"


def optional(value):
    return "None" if value is None else f"Some({value})"


def truth(value):
    return "true" if value else "false"


WAIT, GONE, ACCEPTED, IGNORED = "Wait", "Gone", "Accepted", "Ignored"
DONE, DISMISSED = "Done", "Dismissed"
NO_WORKERS, TOO_MANY_SKIPS, TOO_MANY_ATTEMPTS = "Failed(NoWorkers)", "Failed(TooManySkips)", "Failed(TooManyAttempts)"


def stop(end):
    return f"Stop({end})"


ONE_SKIP = "Shape { maps: 1, parts: 1, workers: 2, limits: Limits { attempts: 8, skips: 1 } }"

# a record fails twice, while another attempt of its split goes on
FAILED_TWICE = [
    (("ask", 0), map_task(0, 0)),
    (("ask", 1), map_task(1, 0)),
    (("map failed", 0, 5), ACCEPTED),
    (("ask", 0), map_task(2, 0)),
    (("map failed", 2, 5), ACCEPTED),
    (("ask", 0), map_task(3, 0, 5)),
]

# Worked by hand: splits, partitions, workers, attempts and records that may be left out; then events with their replies;
# then looks, each as place and text: of a split whether it is complete, its output and its left-out records.
HISTORIES = {
    "a repeated and a late completion": (
        (1, 1, 2, 8, 0),
        [
            (("ask", 0), map_task(0, 0)),
            (("ask", 1), map_task(1, 0)),
            (("map done", 1, 10), ACCEPTED),
            (("map done", 0, 11), IGNORED),
            (("lose", 1), ACCEPTED),
            (("map done", 1, 13), IGNORED),
            (("ask", 1), stop(DISMISSED)),
            (("ask", 0), map_task(2, 0)),
            (("map done", 2, 12), ACCEPTED),
            (("ask", 0), reduce_task(3, 0)),
            (("fetch", 3, 0), region(12)),
            (("reduce done", 3, 20), ACCEPTED),
            (("ask", 0), stop(DONE)),
        ],
        ["Shape { maps: 1, parts: 1, workers: 2, limits: Limits { attempts: 8, skips: 0 } }", "Some(Done)", "true Some(12) []", "true Some(20)"],
    ),
    "a reduce whose map output is lost": (
        (1, 1, 2, 8, 0),
        [
            (("ask", 0), map_task(0, 0)),
            (("map done", 0, 10), ACCEPTED),
            (("ask", 1), reduce_task(1, 0)),
            (("lose", 0), ACCEPTED),
            (("fetch", 1, 0), GONE),
            (("ask", 1), map_task(2, 0)),
        ],
        ["Shape { maps: 1, parts: 1, workers: 2, limits: Limits { attempts: 8, skips: 0 } }", "None", "false None []", "false None"],
    ),
    "a region that can't be read": (
        (1, 1, 2, 8, 0),
        [
            (("ask", 0), map_task(0, 0)),
            (("map done", 0, 10), ACCEPTED),
            (("ask", 1), reduce_task(1, 0)),
            (("fetch", 1, 0), region(10)),
            (("damaged", 1, 0), ACCEPTED),
            (("damaged", 1, 0), IGNORED),
            (("ask", 0), map_task(2, 0)),
            (("map done", 2, 11), ACCEPTED),
            (("ask", 1), reduce_task(3, 0)),
            (("fetch", 3, 0), region(11)),
            (("reduce done", 3, 20), ACCEPTED),
            (("ask", 1), stop(DONE)),
        ],
        ["Shape { maps: 1, parts: 1, workers: 2, limits: Limits { attempts: 8, skips: 0 } }", "Some(Done)", "true Some(11) []", "true Some(20)"],
    ),
    "damage of a map attempt, of a split that wasn't fetched, and of an output that is gone": (
        (1, 1, 3, 8, 0),
        [
            (("ask", 0), map_task(0, 0)),
            (("damaged", 0, 0), IGNORED),
            (("map done", 0, 10), ACCEPTED),
            (("ask", 1), reduce_task(1, 0)),
            (("damaged", 1, 0), IGNORED),
            (("fetch", 1, 0), IGNORED),
            (("ask", 1), reduce_task(2, 0)),
            (("fetch", 2, 0), region(10)),
            (("lose", 0), ACCEPTED),
            (("ask", 2), map_task(3, 0)),
            (("map done", 3, 11), ACCEPTED),
            (("damaged", 2, 0), ACCEPTED),
            (("ask", 1), reduce_task(4, 0)),
        ],
        ["Shape { maps: 1, parts: 1, workers: 3, limits: Limits { attempts: 8, skips: 0 } }", "None", "true Some(11) []", "false None"],
    ),
    "damage that ends the job": (
        (1, 1, 1, 1, 0),
        [
            (("ask", 0), map_task(0, 0)),
            (("map done", 0, 10), ACCEPTED),
            (("ask", 0), reduce_task(1, 0)),
            (("fetch", 1, 0), region(10)),
            (("damaged", 1, 0), ACCEPTED),
            (("ask", 0), stop(TOO_MANY_ATTEMPTS)),
            (("damaged", 1, 0), IGNORED),
        ],
        ["Shape { maps: 1, parts: 1, workers: 1, limits: Limits { attempts: 1, skips: 0 } }", f"Some({TOO_MANY_ATTEMPTS})", "false None []", "false None"],
    ),
    "a record that fails twice is left out": (
        (1, 1, 2, 8, 1),
        [
            *FAILED_TWICE,
        ],
        [ONE_SKIP, "None", "false None [5]", "false None"],
    ),
    "a set fixed without a failed record": (
        (1, 1, 2, 8, 1),
        [
            *FAILED_TWICE,
            (("map done", 1, 10), ACCEPTED),
        ],
        [ONE_SKIP, "None", "true Some(10) []", "false None"],
    ),
    "another set behind a fixed one": (
        (1, 1, 2, 8, 1),
        [
            *FAILED_TWICE,
            (("map done", 1, 10), ACCEPTED),
            (("lose", 1), ACCEPTED),
            (("map done", 3, 11), IGNORED),
            (("ask", 0), map_task(4, 0)),
        ],
        [ONE_SKIP, "None", "false None []", "false None"],
    ),
    "too many attempts": (
        (1, 1, 1, 1, 0),
        [
            (("ask", 0), map_task(0, 0)),
            (("map failed", 0, 3), ACCEPTED),
            (("ask", 0), stop(TOO_MANY_ATTEMPTS)),
            (("map done", 0, 9), IGNORED),
        ],
        ["Shape { maps: 1, parts: 1, workers: 1, limits: Limits { attempts: 1, skips: 0 } }", f"Some({TOO_MANY_ATTEMPTS})", "false None []", "false None"],
    ),
    "no maps": (
        (0, 1, 2, 8, 0),
        [
            (("ask", 0), reduce_task(0, 0)),
            (("ask", 1), reduce_task(1, 0)),
            (("ask", 0), WAIT),
            (("reduce done", 1, 7), ACCEPTED),
            (("reduce done", 0, 8), IGNORED),
            (("lose", 0), IGNORED),
            (("ask", 0), stop(DONE)),
        ],
        ["Shape { maps: 0, parts: 1, workers: 2, limits: Limits { attempts: 8, skips: 0 } }", "Some(Done)", "true Some(7)"],
    ),
    "no workers": (
        (1, 1, 1, 8, 0),
        [
            (("ask", 5), stop(DISMISSED)),
            (("ask", 0), map_task(0, 0)),
            (("fetch", 0, 0), IGNORED),
            (("lose", 0), ACCEPTED),
            (("lose", 0), IGNORED),
            (("ask", 0), stop(NO_WORKERS)),
        ],
        ["Shape { maps: 1, parts: 1, workers: 1, limits: Limits { attempts: 8, skips: 0 } }", f"Some({NO_WORKERS})", "false None []", "false None"],
    ),
}


def histories_by_hand(harness):
    for once in (False, True):
        for name, (sizes, events, wanted) in HISTORIES.items():
            master = Master()
            master.open(*sizes)
            looks = None
            for event, reply in events:
                told, again, looks = master.answer(event, once)
                harness.check(f"{name}: {event} is answered {reply}", told == reply and again == ("once" if once else reply))
            harness.check(f"{name}: what can be looked at", looks == wanted)
            harness.check(f"{name}: no call fails", master.close() == 0)


def a_whole_job(harness):
    """Each map task asked for and done, then each reduce task asked for, its fetches, and done."""
    master = Master()
    master.open(64, 4, 8, 2, 0)
    given = []
    for number in range(64):
        told, _, _ = master.answer(("ask", number % 8))
        attempt, split = re.fullmatch(r"Map \{ attempt: (\d+), split: (\d+), skips: Skips \{ items: \[\] \} \}", told).groups()
        given.append(split)
        harness.check(f"map {number} is accepted", master.answer(("map done", attempt, 7))[0] == ACCEPTED)
    harness.check("each split is given once", len(set(given)) == 64)
    for number in range(4):
        told, _, _ = master.answer(("ask", number))
        attempt = re.fullmatch(r"Reduce \{ attempt: (\d+), partition: \d+ \}", told).group(1)
        fetched = [master.answer(("fetch", attempt, split))[0] for split in range(64)]
        harness.check(f"reduce {number} gets each output", fetched == [region(7)] * 64)
        _, _, looks = master.answer(("reduce done", attempt, 9))
    harness.check("the job is done", looks[1] == "Some(Done)")
    harness.check("no call fails", master.close() == 0)


class Plain:
    """A plain master: the table of events once more, over lists that are looked through from the front. A task is its
    kind, "Map" or "Reduce", and its number."""

    def __init__(self, maps, parts, workers, attempts, skips):
        self.sizes = (maps, parts, workers, attempts, skips)
        self.splits = [("Map", split) for split in range(maps)]
        self.partitions = [("Reduce", part) for part in range(parts)]
        self.workers, self.most_attempts, self.most_skips = workers, attempts, skips
        self.lost, self.tries, self.over, self.end = set(), [], False, None
        # of a split: the records left out of it, whether they are fixed, and those on which attempts failed
        self.left_out = [set() for _ in range(maps)]
        self.fixed, self.failures = set(), set()
        # of a task that is complete: its output, and of a map task the worker that has it
        self.outputs, self.holders = {}, {}
        self.has_refused, self.damages = False, 0

    # which task may be given

    def attempts(self, task, live=False):
        return [t for t in self.tries if t["task"] == task and (t["live"] or not live)]

    def at_work(self, worker):
        """The live attempt of the worker, by its number, and its task."""
        return next(((n, t["task"]) for n, t in enumerate(self.tries) if t["live"] and t["worker"] == worker), None)

    def is_wanted(self, task):
        is_ready = task in self.splits or task in self.partitions and all(split in self.outputs for split in self.splits)
        return is_ready and task not in self.outputs and len(self.attempts(task)) < self.most_attempts

    def is_new(self, task):
        return self.is_wanted(task) and not self.attempts(task, live=True)

    def may_take(self, worker, task):
        if self.at_work(worker) is not None:
            return False
        has_new = any(map(self.is_new, self.splits + self.partitions))
        return self.is_new(task) or not has_new and self.is_wanted(task) and len(self.attempts(task, live=True)) == 1

    def next_fetch(self, attempt):
        return next((split for _, split in self.splits if split not in self.tries[attempt]["fetched"]), None)

    # events: whether the reply is the table's, whose change is made

    def hears(self, event, reply):
        if self.end is not None:
            return reply == (stop(self.end) if event[0] == "ask" else IGNORED)
        fits = getattr(self, "hears_" + event[0].replace(" ", "_"))(*event[1:], reply)
        self.end = self.end_now()
        return fits

    def hears_ask(self, worker, reply):
        if worker >= self.workers or worker in self.lost:
            return reply == stop(DISMISSED)
        if reply == WAIT:
            return not any(self.may_take(worker, task) for task in self.splits + self.partitions)
        told = re.match(r"(Map|Reduce) \{ attempt: \d+, (?:split|partition): (\d+)", reply)
        if told is None:
            return False
        task = (told[1], int(told[2]))
        fits, number = self.may_take(worker, task), len(self.tries)
        without = self.left_out[task[1]] if task in self.splits else set()
        self.tries.append({"worker": worker, "task": task, "live": True, "without": set(without), "fetched": {}})
        return fits and reply == (map_task(number, task[1], *without) if task in self.splits else reduce_task(number, task[1]))

    def live(self, attempt, kind):
        """The attempt, where it is live and of this kind."""
        if attempt < len(self.tries) and self.tries[attempt]["live"] and self.tries[attempt]["task"][0] == kind:
            return self.tries[attempt]
        return None

    def hears_fetch(self, attempt, split, reply):
        tried, task = self.live(attempt, "Reduce"), ("Map", split)
        if tried is None or task not in self.splits:
            return reply == IGNORED
        if task not in self.outputs:
            tried["live"] = False
            return reply == GONE
        tried["fetched"][split] = self.outputs[task]
        return reply == region(self.outputs[task])

    def hears_damaged(self, attempt, split, reply):
        tried, task = self.live(attempt, "Reduce"), ("Map", split)
        if tried is None:
            return reply == IGNORED
        tried["live"] = False
        if split not in tried["fetched"]:
            return reply == IGNORED
        if self.outputs.get(task) == tried["fetched"][split]:
            del self.outputs[task], self.holders[task]
            self.damages += 1
        return reply == ACCEPTED

    def hears_map_done(self, attempt, output, reply):
        tried = self.live(attempt, "Map")
        if tried is None:
            return reply == IGNORED
        tried["live"] = False
        task, split = tried["task"], tried["task"][1]
        is_free = split not in self.fixed or self.left_out[split] == tried["without"]
        if task in self.outputs or not is_free:
            self.has_refused |= task not in self.outputs
            return reply == IGNORED
        self.outputs[task], self.holders[task], self.left_out[split] = output, tried["worker"], set(tried["without"])
        self.fixed.add(split)
        return reply == ACCEPTED

    def hears_map_failed(self, attempt, record, reply):
        tried = self.live(attempt, "Map")
        if tried is None:
            return reply == IGNORED
        tried["live"] = False
        split = tried["task"][1]
        failed_before = (split, record) in self.failures
        self.failures.add((split, record))
        if failed_before and split not in self.fixed and record not in self.left_out[split]:
            if sum(map(len, self.left_out)) < self.most_skips:
                self.left_out[split].add(record)
            else:
                self.over = True
        return reply == ACCEPTED

    def hears_reduce_done(self, attempt, output, reply):
        tried = self.live(attempt, "Reduce")
        if tried is None:
            return reply == IGNORED
        tried["live"] = False
        if tried["task"] in self.outputs or self.next_fetch(attempt) is not None:
            return reply == IGNORED
        self.outputs[tried["task"]] = output
        return reply == ACCEPTED

    def hears_lose(self, worker, reply):
        if worker >= self.workers or worker in self.lost:
            return reply == IGNORED
        self.lost.add(worker)
        for tried in self.tries:
            tried["live"] = tried["live"] and tried["worker"] != worker
        for task in [task for task, holder in self.holders.items() if holder == worker]:
            del self.outputs[task], self.holders[task]
        return reply == ACCEPTED

    def end_now(self):
        def is_stuck(task):
            return task not in self.outputs and not self.attempts(task, live=True) and len(self.attempts(task)) >= self.most_attempts

        if all(task in self.outputs for task in self.partitions):
            return DONE
        if len(self.lost) == self.workers:
            return NO_WORKERS
        if self.over:
            return TOO_MANY_SKIPS
        return TOO_MANY_ATTEMPTS if any(map(is_stuck, self.splits + self.partitions)) else None

    def looks(self):
        maps, parts, workers, attempts, skips = self.sizes
        limits = f"Limits {{ attempts: {attempts}, skips: {skips} }}"
        shape = f"Shape {{ maps: {maps}, parts: {parts}, workers: {workers}, limits: {limits} }}"
        of_task = lambda task: f"{truth(task in self.outputs)} {optional(self.outputs.get(task))}"
        splits = [f"{of_task(task)} {sorted(self.left_out[task[1]])}" for task in self.splits]
        return [shape, optional(self.end), *splits, *map(of_task, self.partitions)]


class Draws:
    """What happens next, drawn at random, the same from the same start."""

    def __init__(self, start):
        self.numbers = random.Random(start)

    def up_to(self, most):
        return self.numbers.randint(0, most)

    def mostly(self, most):
        """A number from 1 to this, the higher the more often."""
        return most - self.up_to(self.up_to(most - 1))

    def sizes(self, has_contest):
        """The sizes of a small job; one that opens with a contest has one split."""
        maps = 1 if has_contest else self.up_to(4)
        attempts = self.mostly(6) if has_contest else 1 + self.up_to(3)
        return maps, self.mostly(3), self.mostly(4), attempts, self.up_to(2)

    def record(self):
        """A record from 0 to 2, the lower the more often, so that many fail again."""
        return self.up_to(self.up_to(2))

    def event(self, plain, output):
        """Mostly what a worker that has a task would report, or that another asks for one."""
        worker, kind = self.up_to(plain.workers), self.up_to(11)
        if kind < 2:
            return self.any_event(plain, worker, output)
        if kind == 2:
            return "lose", next(iter(plain.holders.values()), worker)
        work = plain.at_work(worker)
        if work is None:
            return "ask", worker
        attempt, task = work
        if task in plain.splits:
            return ("map failed", attempt, self.record()) if self.up_to(2) == 0 else ("map done", attempt, output)
        split, fetched = plain.next_fetch(attempt), sorted(plain.tries[attempt]["fetched"])
        if fetched and self.up_to(9) == 0:
            return "damaged", attempt, fetched[self.up_to(len(fetched) - 1)]
        return ("reduce done", attempt, output) if split is None else ("fetch", attempt, split)

    def any_event(self, plain, worker, output):
        """Any event, also of an attempt or a split that isn't there."""
        attempt = self.up_to(len(plain.tries))
        return [
            ("ask", worker),
            ("fetch", attempt, self.up_to(len(plain.splits))),
            ("map done", attempt, output),
            ("map failed", attempt, self.record()),
            ("reduce done", attempt, output),
            ("damaged", attempt, self.up_to(len(plain.splits))),
            ("lose", worker),
        ][min(self.up_to(7), 6)]


def contest(number, second):
    """An opening after which two live attempts at one split may leave out different records: after six events one
    record or none, after ten two or none."""
    return {1: ("ask", 1), 2: ("map failed", 0, 1), 4: ("map failed", 2, 1), 6: ("map failed", 3, second), 8: ("map failed", 4, second)}.get(number, ("ask", 0))


def rare(plain, replies):
    """What came in a history of what comes seldom."""
    sets = [len(told[1].split(",")) for told in (re.search(r"items: \[(.+)\]", reply) for reply in replies) if told]
    return {
        "a record left out": 1 in sets,
        "two records left out": 2 in sets,
        "waiting": WAIT in replies,
        "an output that is gone": GONE in replies,
        "an output refused for its left-out records": plain.has_refused,
        "an output that was damaged": plain.damages > 0,
        **{end: plain.end == end for end in (DONE, TOO_MANY_ATTEMPTS, TOO_MANY_SKIPS, NO_WORKERS)},
    }


def a_thousand_histories(harness):
    """Reply by reply and look by look, the master of the library is the plain one."""
    draws, master, seen = Draws(2026), Master(), {}
    for history in range(1000):
        contested = {0: 6, 1: 10}.get(draws.up_to(5), 0)
        second = 2 * draws.up_to(1)
        plain = Plain(*draws.sizes(contested > 0))
        master.open(*plain.sizes)
        replies, difference = [], None
        for number in range(30 + draws.up_to(30)):
            event = contest(number, second) if number < contested else draws.event(plain, number)
            reply, again, looks = master.answer(event)
            replies.append(reply)
            if not plain.hears(event, reply) or again != reply or looks != plain.looks():
                difference = event
                break
        harness.check(f"history {history}: as the plain master has it" + (f", but for {difference}" if difference else ""), difference is None)
        for what, came in rare(plain, replies).items():
            seen[what] = seen.get(what, 0) + came
    for what, times in seen.items():
        harness.check(f"{what} comes in some history", times > 0)
    harness.check("no call fails", master.close() == 0)


GROUPS = {"worked histories": built("mr_rows_tests", histories_by_hand), "a whole job": built("mr_rows_tests", a_whole_job), "a thousand histories": built("mr_rows_tests", a_thousand_histories)}
