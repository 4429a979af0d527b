"""The master's book: a worked history through two seats, and a thousand drawn at random against a plain master.

The library `mr_book` is reached through the small program `mr_pool_tests`, which the gate leaves beside the checked
one: a line of numbers is a call with a seat, and the line that answers it tells the reply, the output that comes with
it, and all that can be looked at. At the end of the lines the book is closed, and its history and outputs are told; and
the result that it assembled before, where the job is done, over as many files of one word as there are splits."""
import os
import re
import subprocess

from failing import shim
from libraries import built
from master import ACCEPTED, GONE, KINDS, WAIT, Draws, Plain, map_task, reduce_task, region, truth
from plain import Request, produced

TOP = os.path.dirname(os.path.dirname(os.path.abspath(__file__)))
PROGRAM = os.path.join(TOP, "crates", "mr_pool_tests", "out", "mr_pool_tests")


class Book:
    """A book of the library."""

    def __init__(self, sizes, seats, **environment):
        words = [PROGRAM, "book", *map(str, sizes), str(seats)]
        pipes = {"stdin": subprocess.PIPE, "stdout": subprocess.PIPE, "stderr": subprocess.DEVNULL}
        self.process = subprocess.Popen(words, text=True, bufsize=1, env={**os.environ, **environment}, **pipes)

    def answer(self, seat, event):
        """The reply, the output that comes with it, and what can be looked at; no texts where a call failed."""
        numbers = [KINDS[event[0]], seat, *event[1:]]
        self.process.stdin.write(" ".join(map(str, numbers)) + "\n")
        self.process.stdin.flush()
        reply, output, *looks = self.process.stdout.readline().rstrip("\n").split("|") + [""]
        return reply, output, looks[:-1]

    def close(self):
        """The history, as texts, and the program's status; the lines of the result are kept."""
        self.process.stdin.close()
        told = self.process.stdout.readline().rstrip("\n").split("|")
        self.result = self.process.stdout.read().splitlines()
        self.process.stdout.close()
        return told, self.process.wait()


# How outputs and events are told. The output that is handed in with a number is made for that number alone.


def bytes_told(text):
    return str(list(text.encode()))


def map_told(number):
    return f"Place {{ worker: 0, number: {number} }}"


def reduce_told(number):
    return bytes_told(f"w{number}\t1\n")


def file_told(number):
    return "file " + f"w{number}\t1\n".encode().hex()


def event_told(event, place):
    """An event of the library, as the history tells it: an output's number is its place."""
    name = event[0].title().replace(" ", "")
    numbers = [event[1], place] if event[0] in ("map done", "reduce done") else event[1:]
    return f"{name}({', '.join(map(str, numbers))})"


# Worked by hand: a reduce whose map output is lost. Calls, each with its seat, and replies.
LOST_OUTPUT = [
    (0, ("ask", 0), map_task(0, 0)),
    (1, ("map done", 0, 70), ACCEPTED),
    (0, ("ask", 1), reduce_task(1, 0)),
    (1, ("lose", 0), ACCEPTED),
    (0, ("fetch", 1, 0), GONE),
    (1, ("ask", 1), map_task(2, 0)),
]


def a_lost_output(harness):
    book = Book((1, 1, 2, 8, 0), 2)
    for place, (seat, event, reply) in enumerate(LOST_OUTPUT):
        told, output, looks = book.answer(seat, event)
        harness.check(f"{event} is answered {reply}", told == reply and output == "")
        harness.check(f"{event} is counted by its seat", looks[-2:] == [str(place + 1), str(place // 2 + 1)])
    shape = "Shape { maps: 1, parts: 1, workers: 2, limits: Limits { attempts: 8, skips: 0 } }"
    entries = [f"{event_told(event, place)} {reply}" for place, (_, event, reply) in enumerate(LOST_OUTPUT)]
    told, status = book.close()
    harness.check("the history has its six events, and the output stays stored", told == [shape, *entries, f"1 {map_told(70)}"])
    harness.check("no call fails", status == 0)


class Shadow:
    """What a book must tell, by a plain master."""

    def __init__(self, sizes):
        self.plain = Plain(*sizes)
        self.entries, self.maps, self.reduces, self.handed, self.grown = [], {}, {}, 0, 0

    def hears(self, event, reply, output):
        """Whether reply and output are those of the plain master, whose outputs are numbered by their places."""
        place = len(self.entries)
        own = (event[0], event[1], place) if event[0] in ("map done", "reduce done") else event
        fits = self.plain.hears(own, reply)
        if event[0] in ("map done", "reduce done") and reply == ACCEPTED:
            (self.maps if event[0] == "map done" else self.reduces)[place] = event[2]
        told = re.fullmatch(r"Region \{ output: (\d+) \}", reply)
        wanted = "" if told is None else map_told(self.maps[int(told[1])])
        self.handed += told is not None
        self.grown += not (event[0] == "ask" and reply == WAIT)
        self.entries.append(f"{event_told(event, place)} {reply}")
        return fits and output == wanted

    def looks(self):
        shape, end, *_ = self.plain.looks()
        tasks = [truth(task in self.plain.outputs) for task in self.plain.splits + self.plain.partitions]
        return [shape, end, *tasks, str(self.grown)]

    def closed(self):
        maps = [f"{place} {map_told(number)}" for place, number in self.maps.items()]
        reduces = [f"{place} {reduce_told(number)}" for place, number in self.reduces.items()]
        return [self.looks()[0], *self.entries, *maps, *reduces]

    def files(self):
        """The lines of the files that a done job's book assembles; none of another's."""
        if self.plain.end != "Done":
            return []
        numbers = [self.reduces[self.plain.outputs[task]] for task in self.plain.partitions]
        return [file_told(number) for number in numbers]


def a_thousand_histories(harness):
    """Reply by reply, output by output and look by look, the book of the library is the plain one."""
    draws, seen = Draws(2004), {}
    for history in range(1000):
        sizes, seats = draws.sizes(False), 2 + draws.up_to(6)
        book, shadow, calls, difference = Book(sizes, seats), Shadow(sizes), [0] * seats, None
        for number in range(30 + draws.up_to(30)):
            event, seat = draws.event(shadow.plain, 1000 + 7 * number), draws.up_to(seats - 1)
            reply, output, looks = book.answer(seat, event)
            calls[seat] += 1
            if not shadow.hears(event, reply, output) or looks != [*shadow.looks(), str(calls[seat])]:
                difference = event
                break
        told, status = book.close()
        fits = difference is None and told == shadow.closed() and book.result[: len(shadow.plain.partitions)] == shadow.files() and status == 0
        harness.check(f"history {history}: as the plain master has it" + (f", but for {difference}" if difference else ""), fits)
        came = {"an output that is handed out": shadow.handed, "an output of a reduce task": shadow.reduces, "waiting": shadow.grown < len(shadow.entries)}
        came["an output that stays after a loss"] = len(shadow.maps) > len(shadow.plain.holders)
        for what, has in came.items():
            seen[what] = seen.get(what, 0) + bool(has)
    for what, times in seen.items():
        harness.check(f"{what} comes in some history", times > 0)


# A job that is done: each kind of call, and both kinds of output.
DONE = [
    (0, ("ask", 0)),
    (1, ("ask", 1)),
    (0, ("map failed", 0, 3)),
    (1, ("lose", 2)),
    (1, ("map done", 1, 80)),
    (0, ("ask", 0)),
    (0, ("fetch", 2, 0)),
    (0, ("reduce done", 2, 82)),
    (1, ("ask", 0)),
]


def a_done_job(harness):
    """The committed output of the one partition, and the certificate of its one pair."""
    book = Book((1, 1, 3, 8, 1), 2)
    for seat, event in DONE:
        book.answer(seat, event)
    _, status = book.close()
    certificate = produced(Request("words", split=64, most=1), [b"w\n"])[1].bytes()
    harness.check("a done job is assembled", book.result == [file_told(82), f"certificate {certificate.hex()}"] and status == 0, repr(book.result))


def stands(book, shadow, calls):
    """Goes through the calls of a done job, where one allocation of the program fails: whether each call that isn't
    answered leaves the book as it was, and of which calls outputs were handed back. An ask that is refused ends the program."""
    before, back = None, set()
    for seat, event in DONE:
        try:
            reply, output, looks = book.answer(seat, event)
            if reply == "" and output == "":
                return True, back
            if output.startswith("Shape"):
                told = {"map done": map_told(event[-1]), "reduce done": bytes_told(f"w{event[-1]}\t1\n")}.get(event[0])
                if reply not in ("", told) or before is not None and [output, *looks] != [*before, str(calls[seat])]:
                    return False, back
                back |= {event[0]} if reply else set()
                reply, output, looks = book.answer(seat, event)
        except BrokenPipeError:
            return True, back
        calls[seat] += 1
        if not shadow.hears(event, reply, output) or looks != [*shadow.looks(), str(calls[seat])]:
            return False, back
        before = shadow.looks()
    told, status = book.close()
    # Where memory for the lines of the result is refused, they are cut, and the status tells it.
    is_cut = status == 1 and len(book.result) < 2
    return told == [""] or told == shadow.closed() and (status == 0 or is_cut), back


def each_allocation(harness):
    """Each allocation fails in turn: a call that is refused changes neither book nor seat, and hands an output back."""
    library = shim(harness)
    if library is None:
        return
    number, marked, handed_back = 0, True, set()
    while marked:
        number += 1
        mark = os.path.join(harness.room, f"book-{number}.mark")
        sizes = (1, 1, 3, 8, 1)
        book = Book(sizes, 2, LD_PRELOAD=library, FAIL=f"malloc {number}", FAIL_MARK=mark)
        fits, back = stands(book, Shadow(sizes), [0, 0])
        book.process.kill()
        book.process.wait()
        marked = os.path.exists(mark)
        handed_back |= back
        harness.check(f"allocation {number} of a book fails", fits)
    harness.check("outputs of both kinds of tasks are handed back", handed_back == {"map done", "reduce done"})


ALL = {"a lost output": a_lost_output, "a done job's result": a_done_job, "each allocation of a book": each_allocation, "a thousand histories of a book": a_thousand_histories}
GROUPS = {name: built("mr_pool_tests", group) for name, group in ALL.items()}
