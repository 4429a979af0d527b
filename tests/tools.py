"""The program against tr, sort, uniq, grep and awk."""
import os
import random
import subprocess

from harness import TOP, parts_of, random_text


def shell(line, where):
    return subprocess.run(["bash", "-c", line], cwd=where, capture_output=True, env={**os.environ, "LC_ALL": "C"}).stdout


def against_tools(harness):
    rnd = random.Random(11)
    text = random_text(rnd, 4_000_000)
    own = b"".join(open(os.path.join(at, n), "rb").read() for at, _, ns in sorted(os.walk(os.path.join(TOP, "crates"))) if "/out" not in at for n in sorted(ns) if n.endswith((".rt", ".antt")))
    count = r"""tr -c '0-9A-Za-z\200-\377' '\n' < input | tr A-Z a-z | grep -v '^$' | sort | uniq -c | awk '{ print $2 "\t" $1 }'"""
    for name, data in (("a generated text", text), ("this repository's own files", own)):
        got = harness.run(["seq", "--job", "words", "--out", ".", "input"], {"input": data})
        harness.check(f"{name} against tr, sort and uniq", got[0] == 0 and parts_of(got[3])[0] == shell(count, got[3]))
    files = {f"f{n}": random_text(rnd, 200_000) + b"\nonly in %d\n" % n for n in range(12)}
    own_words = r"""tr -c '0-9A-Za-z\200-\377' '\n' < f$n | tr A-Z a-z | grep -v '^$' | sort -u | awk -v n=$n '{ print $0 "\t" n }'"""
    joined = r"""awk -F'\t' '$1 "" == key "" { printf ",%s", $2; next } { if (NR > 1) print ""; key = $1; printf "%s\t%s", $1, $2 } END { if (NR) print "" }'"""
    got = harness.run(["seq", "--job", "index", "--out", ".", *files], files)
    harness.check("index against tr, sort and awk", got[0] == 0 and parts_of(got[3])[0] == shell(f"for n in $(seq 0 11); do {own_words}; done | sort -s -t $'\\t' -k 1,1 | {joined}", got[3]))
    got = harness.run(["seq", "--job", "grep", "--literal", "the", "--out", ".", "input"], {"input": text})
    found = shell("grep -F -b -a the input", got[3]).split(b"\n")[:-1]
    want = sorted((line.split(b":", 1)[1], int(line.split(b":", 1)[0])) for line in found)
    harness.check("grep against grep -F -b", parts_of(got[3])[0] == b"".join(line + b"\t0:%d\n" % at for line, at in want))
    log = "\n".join(f'10.0.0.{rnd.randint(1, 250)} - - [t] "GET /{rnd.choice("abc")}{rnd.randint(1, 500)} HTTP/1.1" 200 {rnd.randint(1, 9999)}' for _ in range(50_000)).encode() + b"\n"
    got = harness.run(["seq", "--job", "url", "--out", ".", "input"], {"input": log})
    harness.check("url against awk", parts_of(got[3])[0] == shell("""awk '{ n[$6]++ } END { for (k in n) print k "\\t" n[k] }' input | sort""", got[3]))


GROUPS = {"tools": against_tools}
