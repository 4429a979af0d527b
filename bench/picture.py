#!/usr/bin/env python3
"""Pictures of runs, opened in a browser: their screenshots, what the console says, and how long a page of 100,000 events takes.

    picture.py MAPRED [--browser chromium] [--dir FOLDER] [--events 100000]

Makes histories by `run` (an easy one, one with two lost workers, a failed one) and one of a simulated master, draws them by `picture`
and `run --picture`, and opens each page. Look at the screenshots that it names. A page with an error on the console, or that takes
more than a second to open, counts as bad; the last line has how many did."""
import argparse, os, random, subprocess, sys, tempfile, time

SCRIPTS = {
    "easy": "",
    "lost": "lose 1 after 2\nzombie 2 after 3\nhold 3\nflaky 0 0 2\nbad 3 1\n",
    "failed": "bad 0 0\n",
    "damaged": "damage 0 0 40\ndamage 1 1 40\nhold 0\n",
}


def words_of(rnd, lines):
    """Lines of words."""
    some = ["the", "cat", "dog", "of", *(f"x{number}" for number in range(50))]
    return "".join(" ".join(rnd.choice(some) for _ in range(8)) + "\n" for _ in range(lines))


def simulated(rnd, events, workers=8, maps=30_000, parts=64):
    """A history of so many events: maps, some of which fail, two lost workers, and reduces that fetch."""
    lines, tasks, work, todo, holder, lost = [], [], {}, list(range(maps)), {}, set()
    while len(lines) < events:
        worker, at = rnd.randrange(workers), len(lines)
        if worker in lost:
            continue
        if at > events // 20 and len(lost) < 2 and rnd.random() < 0.0001:
            lines.append(f"lose {worker}: accepted")
            lost.add(worker)
            gone = [split for split, own in holder.items() if own == worker]
            todo += gone
            for split in gone:
                del holder[split]
            kind, number = tasks[work.pop(worker)] if worker in work else ("", 0)
            todo += [number] if kind == "map" else []
        elif worker not in work and (todo or len(holder) == maps):
            task = ("map", todo.pop(0)) if todo else ("reduce", rnd.randrange(parts))
            lines.append(f"ask {worker}: {task[0]} attempt {len(tasks)} {'split' if todo or task[0] == 'map' else 'partition'} {task[1]}")
            work[worker] = len(tasks)
            tasks.append(task)
        elif worker not in work:
            lines.append(f"ask {worker}: wait")
        else:
            attempt = work[worker]
            kind, number = tasks[attempt]
            if kind == "reduce":
                lines.append(f"fetch attempt {attempt} split {rnd.randrange(maps)}: output {rnd.randrange(at)}")
                continue
            del work[worker]
            if rnd.random() < 0.01:
                lines.append(f"map-failed attempt {attempt} record 0: accepted")
                todo.append(number)
            else:
                lines.append(f"map-done attempt {attempt} output {at}: accepted")
                holder[number] = worker
    return f"history 1 maps {maps} parts {parts} workers {workers} attempts 16 skips 0\n" + "".join(line + "\n" for line in lines)


def opened(asked, page, name, size):
    """Whether a page opens without an error; prints what was seen."""
    shot = os.path.join(asked.dir, f"{name}.png")
    words = [asked.browser, "--headless", "--no-sandbox", "--disable-gpu", "--hide-scrollbars", "--enable-logging=stderr"]
    ran = subprocess.run([*words, f"--screenshot={shot}", f"--window-size={size}", f"file://{page}"], capture_output=True, text=True)
    console = [line for line in ran.stderr.splitlines() if "CONSOLE" in line or "Uncaught" in line]
    good = ran.returncode == 0 and os.path.exists(shot) and not console
    print(f"{name}: {os.path.getsize(page)} bytes, {'good' if good else console or ran.stderr[-500:]}, {shot}", flush=True)
    return good


def timed(asked, page):
    """How much longer the browser takes to open the page and take its screenshot than an empty one, in ms: the least of five each."""
    empty, shot = (os.path.join(asked.dir, name) for name in ("empty.html", "timed.png"))
    with open(empty, "w", encoding="utf-8") as file:
        file.write("<!DOCTYPE html><title>empty</title>")
    least = {}
    for name in [empty, page] * 5:
        began = time.monotonic()
        words = [asked.browser, "--headless", "--no-sandbox", "--disable-gpu", f"--screenshot={shot}", "--window-size=1200,900", f"file://{name}"]
        subprocess.run(words, capture_output=True, check=True)
        least[name] = min(time.monotonic() - began, least.get(name, 1e9))
    return round(1000 * (least[page] - least[empty]))


def main():
    parser = argparse.ArgumentParser(description=__doc__, formatter_class=argparse.RawDescriptionHelpFormatter)
    parser.add_argument("program")
    parser.add_argument("--browser", default="chromium")
    parser.add_argument("--dir", default=None)
    parser.add_argument("--events", type=int, default=100_000)
    asked = parser.parse_args()
    asked.program = os.path.abspath(asked.program)
    asked.dir = os.path.abspath(asked.dir or tempfile.mkdtemp(prefix="mapred-picture-"))
    os.makedirs(asked.dir, exist_ok=True)
    rnd, bad = random.Random(1), 0
    with open(os.path.join(asked.dir, "in"), "w") as file:
        file.write(words_of(rnd, 60))
    for name, script in SCRIPTS.items():
        for folder in (f"out-{name}", f"scratch-{name}"):
            os.makedirs(os.path.join(asked.dir, folder), exist_ok=True)
        with open(os.path.join(asked.dir, "script"), "w") as file:
            file.write(script)
        words = ["run", "--job", "words", "--parts", "3", "--split", "200", "--max-skips", "0" if name == "failed" else "2", "--script", "script"]
        words += ["--scratch", f"scratch-{name}", "--out", f"out-{name}", "--history", f"{name}.history", "--picture", f"{name}.html", "in"]
        subprocess.run([asked.program, *words], cwd=asked.dir)
        for size in ("1200,900", "400,900"):
            bad += not opened(asked, os.path.join(asked.dir, f"{name}.html"), f"{name}-{size.split(',')[0]}", size)
    with open(os.path.join(asked.dir, "large.history"), "w") as file:
        file.write(simulated(rnd, asked.events))
    began = time.time()
    ran = subprocess.run([asked.program, "picture", "large.history", "--out", "large.html"], cwd=asked.dir)
    print(f"{asked.events} events: drawn in {time.time() - began:.3f} s, status {ran.returncode}")
    page = os.path.join(asked.dir, "large.html")
    bad += not opened(asked, page, "large-1200", "1200,900")
    took = timed(asked, page)
    print(f"{asked.events} events: opened in {took} ms, beyond an empty page")
    bad += took > 1000
    print(f"{bad} bad")
    return 0 if bad == 0 else 1


if __name__ == "__main__":
    sys.exit(main())
