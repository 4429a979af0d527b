"""What the groups of checks share: runs of the program in directories of their own, and what was seen to hold."""
import os
import random
import shutil
import subprocess
import tempfile

HERE = os.path.dirname(os.path.abspath(__file__))
TOP = os.path.dirname(HERE)
# The versions of the certificate.
VERSIONS = (1, 2)


class Harness:
    """Runs of one program. `check` keeps what held, and prints what did not."""

    def __init__(self, program):
        self.program = os.path.abspath(program)
        self.room = tempfile.mkdtemp(prefix="mapred-tests-")
        self.passed, self.failed = 0, 0

    def close(self):
        shutil.rmtree(self.room, ignore_errors=True)

    def check(self, name, good, note=""):
        self.passed += bool(good)
        self.failed += not good
        if not good:
            print(f"failed: {name} {note}"[:2000], flush=True)

    def directory(self, files=None, where=None):
        """A directory with these files, a fresh one if none is given."""
        where = where or tempfile.mkdtemp(dir=self.room)
        for name, data in (files or {}).items():
            with open(os.path.join(os.fsencode(where), os.fsencode(name)), "wb") as file:
                file.write(data)
        return where

    def run(self, words, files=None, cwd=None, **more):
        """(status, standard output, standard error, the directory) of one run, in a fresh directory if none is given."""
        where = self.directory(files, cwd)
        ran = subprocess.run([self.program, *words], cwd=where, capture_output=True, **more)
        return ran.returncode, ran.stdout, ran.stderr, where


def write_result(where, outputs, certificate):
    """Writes parts and a certificate."""
    for name, data in [*((f"part-{p:05}", text) for p, text in enumerate(outputs)), ("certificate", certificate)]:
        with open(os.path.join(where, name), "wb") as file:
            file.write(data)


def parts_of(where):
    """The parts of a result, in order."""
    names = sorted(name for name in os.listdir(where) if name.startswith("part-"))
    return [open(os.path.join(where, name), "rb").read() for name in names]


def read_result(where):
    """The parts and the certificate, None where it isn't there."""
    path = os.path.join(where, "certificate")
    return parts_of(where), open(path, "rb").read() if os.path.exists(path) else None


def random_text(rnd, size):
    """Lines of words, some of them empty or ended by CR LF, of about this many bytes."""
    words = ["the", "The", "of", "it's", "Zürich", "x1", "--", "naïve", "a" * 70, "THE", "\t", "42"]
    words += ["".join(rnd.choice("abcdefghij") for _ in range(rnd.randint(1, 9))) for _ in range(300)]
    out, length = [], 0
    while length < size:
        line = " ".join(rnd.choice(words) for _ in range(rnd.randint(0, 14)))
        line += rnd.choice(["\n", "\n", "\n", "\r\n", "\n\n"])
        out.append(line)
        length += len(line)
    return "".join(out).encode()


def random_log(rnd, lines):
    """Lines of an access log, some of them odd."""
    out = []
    for _ in range(lines):
        path = rnd.choice(["", "", "http://a.example", "HTTPS://A.Example:80", "http://b", "http:/", "ftp://a.example"]) + "/" + rnd.choice(["a", "b", "index.html", "x?y=1", 'q\\"uote', "", "z" * 20])
        shape = rnd.choice(['h - - [t] "GET %s HTTP/1.0" 200 1', 'h - - [t] "POST %s" 200 1', 'h "-" %s', "no quotes %s", 'open "GET %s', '"GET  %s"', '" %s"', '"GET /a\\ %s"'])
        out.append(shape % path)
    return "\n".join(out).encode()


def seeded(name):
    """Random numbers that are the same in each run, unless MAPRED_SEED is set; the seed is printed then."""
    seed = os.environ.get("MAPRED_SEED", "")
    if seed:
        print(f"{name}: MAPRED_SEED={seed}")
    return random.Random(name + seed)
