#!/usr/bin/env python3
"""Runs mapred and its rivals side by side, alternating, and prints ratios.

    bench.py MAPRED [--mb 16] [--lines 200000] [--rounds 3] [--dir FOLDER] [--jobs words,grep,url,url-by-host,index,field]
             [--timeout 120] [--json FILE] [--real FILE] [--workers 4] [--parts 8] [--no-check-equal]

MAPRED may be '-' (the rivals alone). A job, subcommand or option that the binary does not
have yet (status 2 or 127) is printed as 'missing', any other wrong status as 'FAILED', a run past
--timeout as 'slow', wrong bytes as 'DIFFERS'.
The rounds alternate the rivals, and each rival's least time counts: the machine is shared, so read
the ratios of one run and not the seconds. Needs: python3, rustc, and for the peers mawk, coreutils,
GNU grep, and ripgrep if there (apt-get install mawk ripgrep)."""
import argparse, filecmp, json, os, resource, shutil, subprocess, sys, tempfile, time

HERE = os.path.dirname(os.path.abspath(__file__))
WORD = r"[^0-9A-Za-z\200-\377]+"


def build(room):
    """The native rivals, by rustc with std alone, for the processor level that `rt` builds for."""
    made = []
    for name in ("native", "tuned"):
        source, to = f"{HERE}/{name}.rs", f"{room}/{name}"
        if not os.path.exists(to) or os.path.getmtime(to) < os.path.getmtime(source):
            subprocess.run(["rustc", "--edition", "2024", "-O", "-C", "target-cpu=x86-64-v2", "-o", to, source], check=True)
        made.append(to)
    return made


def data(room, it):
    text, log, hosts = f"{room}/text-{it.mb}.txt", f"{room}/log-{it.lines}.log", f"{room}/hosts-{it.lines}.log"
    if not os.path.exists(text):
        subprocess.run([sys.executable, f"{HERE}/gen_text.py", str(it.mb), text], check=True)
    if not os.path.exists(log):
        subprocess.run([sys.executable, f"{HERE}/gen_log.py", str(it.lines), log], check=True)
    if not os.path.exists(hosts):
        subprocess.run([sys.executable, f"{HERE}/gen_log.py", str(it.lines), hosts, "--absolute"], check=True)
    return it.real or text, log, hosts


def once(words, limit, to="/dev/null"):
    """(seconds, processor seconds, peak MB, status, standard output's start). `words` is a list or a shell line."""
    shell = isinstance(words, str)
    with open(to, "wb") as out:
        began = time.perf_counter()
        child = subprocess.Popen(["bash", "-c", words] if shell else words, stdout=out if to != "/dev/null" else subprocess.PIPE,
                                 stderr=subprocess.PIPE, env={**os.environ, "LC_ALL": "C"}, start_new_session=True)
        try:
            said, wrong = child.communicate(timeout=limit)
        except subprocess.TimeoutExpired:
            os.killpg(child.pid, 9)
            child.communicate()
            return None, None, None, "slow", b""
        wall = time.perf_counter() - began
    return wall, None, None, child.returncode, (said or b"")[:300] + (wrong or b"")[:300]


def timed(words, limit, to="/dev/null"):
    """`once`, with the peak memory and processor time from GNU time where it is there."""
    if not os.path.exists("/usr/bin/time") :
        return once(words, limit, to)
    kept = os.path.join(tempfile.gettempdir(), f"mapred-bench-time.{os.getpid()}")
    wall, _, _, status, said = once(["/usr/bin/time", "-q", "-f", "%U %S %M", "-o", kept, *(["bash", "-c", words] if isinstance(words, str) else words)], limit, to)
    if status == "slow":
        return wall, None, None, status, said
    user, system, peak = open(kept).read().split()[-3:]
    os.remove(kept)
    return wall, float(user) + float(system), int(peak) / 1024, status, said


class Rival:
    def __init__(self, name, words, to="/dev/null", wants=(0,), out=None):
        self.name, self.words, self.to, self.wants, self.out = name, words, to, wants, out
        self.best = self.cpu = self.peak = None
        self.note = ""

    def turn(self, limit):
        if self.note:
            return
        if self.out:
            os.makedirs(self.out, exist_ok=True)
        wall, cpu, peak, status, said = timed(self.words, limit, self.to)
        if status == "slow":
            self.note = f"slow (> {limit:.0f} s)"
        elif status not in self.wants:
            text = said.decode(errors="replace").strip().split("\n")[0][:90]
            self.note = f"{'missing' if status in (2, 127) else 'FAILED'} (status {status}: {text})"
        elif self.best is None or wall < self.best:
            self.best, self.cpu, self.peak = wall, cpu, peak


def race(title, size, rivals, rounds, limit, results, base):
    for _ in range(rounds):
        for rival in rivals:
            rival.turn(limit)
    named = {r.name: r for r in rivals}
    ref = named[base].best if base in named else None
    print(f"\n## {title} ({size / 1e6:.0f} MB)   ratios are time over {base}'s")
    print(f"{'':34}{'seconds':>9}{'MB/s':>8}{'ratio':>8}{'cpu s':>8}{'peak MB':>9}")
    for r in rivals:
        if r.best is None:
            print(f"{r.name:34}   {r.note}")
        else:
            ratio = r.best / ref if ref else float("nan")
            print(f"{r.name:34}{r.best:9.3f}{size / 1e6 / r.best:8.1f}{ratio:8.2f}{r.cpu or 0:8.2f}{r.peak or 0:9.0f}{'  ' + r.note if r.note else ''}")
        results.append({"job": title, "rival": r.name, "seconds": r.best, "cpu": r.cpu, "peak_mb": r.peak, "mb": size / 1e6, "note": r.note})
    return named


def instructions(title, rivals, results, base):
    """Counts by callgrind: free of the machine's noise, but blind to memory's latency. For small files."""
    print(f"\n## {title}: instructions by callgrind")
    counts = {}
    for r in rivals:
        if isinstance(r.words, str) or r.best is None:
            continue
        ran = subprocess.run(["valgrind", "--tool=callgrind", "--callgrind-out-file=/dev/null", *r.words], capture_output=True, text=True, errors="replace")
        said = [x for x in ran.stderr.split("\n") if "Collected :" in x]
        counts[r.name] = int(said[0].split(":")[1]) if said else None
        results.append({"job": title, "rival": r.name, "instructions": counts[r.name]})
    for name, n in counts.items():
        print(f"{name:34}{n / 1e6 if n else float('nan'):10.1f} M{n / counts[base] if n and counts.get(base) else float('nan'):8.2f}")


def same(a, b, parts):
    names = [f"part-{p:05}" for p in range(parts)] + ["certificate"]
    bad = [n for n in names if not (os.path.exists(f"{a}/{n}") and os.path.exists(f"{b}/{n}") and filecmp.cmp(f"{a}/{n}", f"{b}/{n}", False))]
    if bad == ["certificate"] and not os.path.exists(f"{a}/certificate"):
        return "same parts, no certificate yet"
    return "same files" if not bad else "DIFFERS: " + " ".join(bad[:4])


def cut(room, text):
    """The text as sixteen files, cut at line ends: of several files an index tells the most."""
    folder = os.path.join(room, "pieces")
    os.makedirs(folder, exist_ok=True)
    names = [os.path.join(folder, f"{n:02}") for n in range(16)]
    size = os.path.getsize(text) // 16 + 1
    with open(text, "rb") as file:
        for name in names:
            with open(name, "wb") as piece:
                piece.write(file.read(size) + file.readline())
    return names


def explaining(mapred, text, log, rounds, limit, results):
    """A rare key's records beside GNU grep's lines for it, with -i where the job folds; a line for each job."""
    lines = []
    resource = open(log, "rb").read().splitlines()[-1].split(b'"')[1].split(b" ")[1].decode()
    for job, file, key, fold in (("url", log, resource + "~", []), ("url", log, resource, []), ("words", text, "zyzzyva", ["-i"])):
        grep = f"grep -F {' '.join(fold)}".strip()
        rivals = [Rival("mapred explain", [mapred, "explain", "--job", job, "--key", key, file]), Rival(grep, ["env", "LC_ALL=C", "grep", "-a", "-n", "-b", "-F", *fold, "--", key, file], wants=(0, 1))]
        got = race(f"explain: {job} {key}", os.path.getsize(file), rivals, rounds, limit, results, grep)
        if got[grep].best and got["mapred explain"].best:
            lines.append(f"explain {job} {key}: {got['mapred explain'].best / got[grep].best:.2f} x {grep}")
    return lines


def main():
    ask = argparse.ArgumentParser(description=__doc__, formatter_class=argparse.RawDescriptionHelpFormatter)
    ask.add_argument("mapred")
    ask.add_argument("--mb", type=int, default=16)
    ask.add_argument("--lines", type=int, default=200_000)
    ask.add_argument("--rounds", type=int, default=3)
    ask.add_argument("--dir", default=os.path.join(tempfile.gettempdir(), "mapred-bench"))
    ask.add_argument("--jobs", default="words,grep,url,url-by-host,index,field")
    ask.add_argument("--timeout", type=float, default=120)
    ask.add_argument("--workers", type=int, default=4)
    ask.add_argument("--parts", type=int, default=8)
    ask.add_argument("--real", help="a text to use in place of the made one")
    ask.add_argument("--json")
    ask.add_argument("--ir", action="store_true", help="count instructions too (valgrind; use it with --mb 2 --lines 10000)")
    it = ask.parse_args()
    room, it.mapred = os.path.abspath(it.dir), it.mapred if it.mapred == "-" else os.path.abspath(it.mapred)
    os.makedirs(room, exist_ok=True)
    native, tuned = build(room)
    text, log, hosts = data(room, it)
    pieces = cut(room, text)
    results, lines = [], []
    mapred = None if it.mapred == "-" else it.mapred
    rg = shutil.which("rg")
    jobs = {
        "words": ([text], ["--job", "words"], [
            Rival("tr|tr|sort|uniq -c", f"tr -cs '0-9A-Za-z\\200-\\377' '\\n' < {text} | tr A-Z a-z | sort -S 2G --parallel=1 | uniq -c"),
            Rival("mawk RS=.. tolower | sort", f"mawk -v RS='{WORD}' '{{c[tolower($0)]++}} END{{for(k in c) print k \"\\t\" c[k]}}' {text} | sort"),
            Rival("tr|tr|mawk|sort", f"tr -cs '0-9A-Za-z\\200-\\377' '\\n' < {text} | tr A-Z a-z | mawk '{{c[$0]++}} END{{for(k in c) print k \"\\t\" c[k]}}' | sort"),
        ], 4),
        "grep": ([text], ["--job", "grep", "--literal", "because of"], [
            Rival("grep -a -F -b | cat", f"grep -a -F -b 'because of' {text} | cat"),
            *([Rival("rg -a -j1 -F -b | cat", f"rg -a -j1 -F -b -N 'because of' {text} | cat")] if rg else []),
        ], 2),
        "url": ([log], ["--job", "url"], [
            Rival("mawk -F'\"' | sort", f"mawk -F'\"' '{{split($2,a,\" \"); if (a[2]!=\"\") c[a[2]]++}} END{{for(k in c) print k \"\\t\" c[k]}}' {log} | sort"),
            Rival("cut|cut|sort|uniq -c", f"cut -d'\"' -f2 {log} | cut -d' ' -f2 | sort -S 2G --parallel=1 | uniq -c"),
        ], 2),
        # url over a log whose resources name their host
        "url-by-host": ([hosts], ["--job", "url", "--by-host"], [
            Rival("mawk -F'\"' | sort", f"mawk -F'\"' '{{split($2,a,\" \"); if (a[2]!=\"\") c[a[2]]++}} END{{for(k in c) print k \"\\t\" c[k]}}' {hosts} | sort"),
            *([Rival("mapred seq by key", [mapred, "seq", "--job", "url", "--parts", str(it.parts), "--out", f"{room}/by-key", hosts], out=f"{room}/by-key")] if mapred else []),
            Rival("native seq by key", [native, "seq", "--job", "url", "--parts", str(it.parts), "--out", f"{room}/by-key-n", hosts], out=f"{room}/by-key-n"),
        ], 2),
        # the seventh column of the log by gaps, which is what is requested
        "field": ([log], ["--job", "field", "--field", "7"], [
            Rival("mawk n[$7]++", f"mawk '{{n[$7]++}} END{{for(k in n) print k \"\\t\" n[k]}}' {log}"),
            Rival("mawk n[$7]++ | sort", f"mawk '{{n[$7]++}} END{{for(k in n) print k \"\\t\" n[k]}}' {log} | sort"),
        ], 2),
        "index": (pieces, ["--job", "index"], [
            Rival("mawk RS=.. last[k] | sort", f"mawk -v RS='{WORD}' 'FNR==1{{n++}} {{k=tolower($0); if (last[k]!=n) {{last[k]=n; l[k]=l[k] \",\" n-1}}}} END{{for(k in l) print k \"\\t\" substr(l[k],2)}}' {' '.join(pieces)} | sort"),
        ], 2),
    }
    print(f"mapred: {mapred or 'none'}; {it.rounds} rounds; parts {it.parts}; load {os.getloadavg()[0]:.1f} on {os.cpu_count()} processors")
    floor = [Rival("cat FILE | cat > /dev/null", f"cat {text} | cat"), Rival("wc -l", f"wc -l {text}"), Rival("cp", f"cp {text} {room}/copy")]
    race("floor", os.path.getsize(text), floor, it.rounds, it.timeout, results, "cat FILE | cat > /dev/null")
    if mapred:
        lines += explaining(mapred, text, log, it.rounds, it.timeout, results)
    for job in it.jobs.split(","):
        files, words, peers, _ = jobs[job]
        size, common = sum(map(os.path.getsize, files)), [*words, "--parts", str(it.parts)]
        # about 4 map tasks a worker
        split = ["--split", str(max(1, min(67108864, size // (4 * it.workers) + 1)))]
        dirs = {n: f"{room}/{job}-{n}" for n in ("m", "mr", "a", "s", "ar", "t", "c")}
        for d in dirs.values():
            shutil.rmtree(d, ignore_errors=True)
        literal = words + ["--threads"]
        can_tune = job == "words" and size <= 67108864
        rivals = [
            *([Rival("mapred seq", [mapred, "seq", *common, "--out", dirs["m"], *files], out=dirs["m"])] if mapred else []),
            Rival("native seq", [native, "seq", *common, "--out", dirs["a"], *files], out=dirs["a"]),
            Rival("native simple (HashMap of Vecs)", [native, "simple", *common, "--out", dirs["s"], *files], out=dirs["s"]),
            *([Rival("tuned seq", [tuned, "seq", *files, dirs["t"], str(it.parts)], out=dirs["t"])] if can_tune else []),
            Rival("native count (no certificate)", [native, "count", *literal, "1", *files]),
            *peers,
        ]
        got = race(f"{job}: seq", size, rivals, it.rounds, it.timeout, results, "native seq")
        if it.ir:
            instructions(f"{job}: seq", rivals, results, "native seq")
        if mapred and got["mapred seq"].best:
            lines.append(f"{job} seq: {got['mapred seq'].best / got['native seq'].best:.2f} x native; {got['mapred seq'].best / got[peers[0].name].best if peers[0].best else float('nan'):.2f} x {peers[0].name}; files: {same(dirs['m'], dirs['a'], it.parts)}")
        by_key = got.get("mapred seq by key")
        if by_key and by_key.best and got["mapred seq"].best:
            lines.append(f"{job} seq: {got['mapred seq'].best / by_key.best:.2f} x by key")
        # what is judged is the native's: in c cut into many splits, for the threads
        os.makedirs(dirs["c"], exist_ok=True)
        subprocess.run([native, "seq", *common, *split, "--out", dirs["c"], *files], check=True, stdout=subprocess.DEVNULL)
        many = [*common, *split, "--threads", str(it.workers), "--out", dirs["c"], *files]
        rivals = [
            *([Rival("mapred check", [mapred, "check", *common, "--out", dirs["a"], *files]),
               Rival(f"mapred check --threads {it.workers}", [mapred, "check", *many])] if mapred else []),
            Rival("native check", [native, "check", *common, "--out", dirs["a"], *files]),
            Rival(f"native check --threads {it.workers}", [native, "check", *many]),
            *([Rival("tuned check", [tuned, "check", *files, dirs["a"], str(it.parts)])] if can_tune else []),
            *([Rival("mapred seq (again)", [mapred, "seq", *common, "--out", dirs["m"], *files], out=dirs["m"])] if mapred and got["mapred seq"].best else []),
        ]
        got = race(f"{job}: check", size, rivals, it.rounds, it.timeout, results, "native check")
        if it.ir:
            instructions(f"{job}: check", rivals, results, "native check")
        if mapred and got["mapred check"].best:
            of = got.get("mapred seq (again)")
            lines.append(f"{job} check: {got['mapred check'].best / got['native check'].best:.2f} x native; {got['mapred check'].best / of.best if of and of.best else float('nan'):.2f} x mapred seq")
        rivals = [
            *([Rival(f"mapred run --workers {it.workers}", [mapred, "run", *common, *split, "--workers", str(it.workers), "--out", dirs["mr"], *files], out=dirs["mr"]),
               Rival("mapred run --workers 1", [mapred, "run", *common, *split, "--workers", "1", "--out", dirs["mr"], *files], out=dirs["mr"]),
               Rival("mapred seq, same splits", [mapred, "seq", *common, *split, "--out", dirs["m"], *files], out=dirs["m"])] if mapred else []),
            Rival(f"native run --workers {it.workers}", [native, "run", *common, *split, "--workers", str(it.workers), "--out", dirs["ar"], *files], out=dirs["ar"]),
            Rival("native run --workers 1", [native, "run", *common, *split, "--workers", "1", "--out", dirs["ar"], *files], out=dirs["ar"]),
            Rival("native seq, same splits", [native, "seq", *common, *split, "--out", dirs["a"], *files], out=dirs["a"]),
        ]
        got = race(f"{job}: run, which also judges", size, rivals, it.rounds, it.timeout, results, f"native run --workers {it.workers}")
        many = got.get(f"mapred run --workers {it.workers}")
        if many and many.best:
            lines.append(f"{job} run: {many.best / got[f'native run --workers {it.workers}'].best:.2f} x native; "
                         f"{got['mapred seq, same splits'].best / many.best if got['mapred seq, same splits'].best else float('nan'):.2f} x faster than its seq; "
                         f"{got['mapred run --workers 1'].best / many.best if got['mapred run --workers 1'].best else float('nan'):.2f} x faster than one worker; files: {same(dirs['mr'], dirs['a'], it.parts)}")
    print("\n# Summary")
    print("\n".join(lines) or "mapred: nothing to compare")
    if it.json:
        json.dump(results, open(it.json, "w"), indent=1)


if __name__ == "__main__":
    main()
