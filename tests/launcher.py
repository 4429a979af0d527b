"""The launcher `./mapred`: which program it runs, when it builds one, and what it tells meanwhile. A copy of it stands over four
small crates with an `rt` that builds nothing: it writes what the kit's would, and puts a copy of `cat` where the program belongs,
which shows its own words and environment."""
import hashlib
import os
import shutil
import subprocess

from harness import TOP

RT = r"""#!/bin/bash
echo "$(basename "$PWD"): $*${GLIBC_TUNABLES+ in large pages}" >>"$MAPRED_CALLS"
cat >>"$MAPRED_CALLS"
case $1:$MAPRED_RT in
all:refuses) printf '== mr_low\nlow is fine\n== mr_high\nfn high: not proved\n== summary\nmr_cli: not run'; exit 1 ;;
all:*) printf '== mr_low\nlow is fine\n== mr_high\nhigh is fine\n== mr_cli\ncli is fine\n== summary\n3 of 3 crates ok\n' ;;
run:stops) echo "clang stopped" >&2; exit 2 ;;
run:makes-nothing) echo "done" ;;
run:*) mkdir -p out; cp "$MAPRED_CAT" out/mr_cli; echo "1.0" ;;
esac
"""
CRATES = "mr_low: memchr\nmr_high: mr_low memchr\nmr_beside: mr_low\nmr_cli: mr_high mr_low clap\n"
CALLS = ["mr_cli: all check --jobs 2", "mr_cli: run -- --version"]
FIRST = b"mapred: proving and building it first, which takes some twenty to forty minutes on four processors\n"
COUNTS = [b"mapred: %d of 3 crates checked\n" % number for number in (1, 2, 3)]
TOLD = FIRST + b"".join(COUNTS)
REFUSED = b"== mr_low\nlow is fine\n== mr_high\nfn high: not proved\n== summary\nmr_cli: not run\n"
FINE = b"== mr_low\nlow is fine\n== mr_high\nhigh is fine\n== mr_cli\ncli is fine\n== summary\n3 of 3 crates ok\n"
NO_RT = b"mapred: it has to be built first, and rt, which does that, is not on the PATH (README.md names the kit)\n"
RUNNING = b"mapred: running dist/mapred, which was built of these sources; ./test proves them and builds it again\n"
CAT = os.path.realpath(shutil.which("cat"))
BUILT, CARRIED = "crates/mr_cli/out/mr_cli", "dist/mapred"
SHOWN = ["/proc/self/cmdline"]
OWN = ("mapred", ".ci/lanes", ".ci/sources", "packaging/start.sh")


class Place:
    """A directory with the launcher, crates, and an `rt` that goes well or as named."""

    def __init__(self, harness, rt="works"):
        self.top, self.rt, self.tools = harness.directory(), rt, os.environ["PATH"]
        self.put("bin/rt", RT, mode=0o755)
        self.put("crates.txt", CRATES)
        self.put("HANDLES", "Handles allowed: none.\n")
        self.put("crates/mr_low/src/lib.rt")
        self.put("crates/mr_high/src/lib.rt")
        self.put("crates/mr_cli/src/main.rt")
        os.mkdir(self.path("tmp"))
        for name in OWN:
            os.makedirs(os.path.dirname(self.path(name)), exist_ok=True)
            shutil.copy(os.path.join(TOP, name), self.path(name))

    def path(self, name):
        return os.path.join(self.top, name)

    def put(self, name, text="", mode=0o644):
        os.makedirs(os.path.dirname(self.path(name)), exist_ok=True)
        with open(self.path(name), "w") as file:
            file.write(text)
        os.chmod(self.path(name), mode)

    def sources(self):
        return subprocess.run([self.path(".ci/sources")], capture_output=True, text=True, check=True).stdout.strip()

    def carry(self, more=b""):
        """Puts a program into dist/, said to be of the sources that stand; `more` behind it is said nowhere."""
        data = open(CAT, "rb").read()
        os.makedirs(self.path("dist"), exist_ok=True)
        with open(self.path(CARRIED), "wb") as file:
            file.write(data + more)
        os.chmod(self.path(CARRIED), 0o755)
        self.put("dist/SOURCES", f"kit: another\nsources: {self.sources()}\nprogram: {hashlib.sha256(data).hexdigest()}\n")

    def run(self, words=SHOWN, given=b"", **more):
        """(status, standard output, standard error) of the launcher, and the calls of `rt` that it made."""
        self.put("calls")
        env = {name: value for name, value in os.environ.items() if name != "GLIBC_TUNABLES"}
        env.update(RT_JOBS="2", TMPDIR=self.path("tmp"), PATH=f"{self.path('bin')}:{self.tools}", **more)
        env.update(MAPRED_RT=self.rt, MAPRED_CALLS=self.path("calls"), MAPRED_CAT=CAT)
        ran = subprocess.run([self.path("mapred"), *words], cwd="/", input=given, capture_output=True, env=env)
        return (ran.returncode, ran.stdout, ran.stderr), open(self.path("calls")).read().splitlines()

    def ran(self, told=b"", calls=()):
        """What `run` gives where the program shows its words, under the name that it has for users, and this was told before."""
        return (0, f"mapred\0{SHOWN[0]}\0".encode(), told), list(calls)

    def which(self, program):
        return f"{os.path.realpath(self.path(program))}\n".encode()

    def built(self):
        return self.ran(told=TOLD, calls=CALLS)


def builds(harness):
    """What a build tells, and that the program runs behind it."""
    place = Place(harness)
    got = place.run()
    harness.check("it is built, and runs", got == place.built(), repr(got))
    got = place.run()
    harness.check("it is built once", got == place.ran(), repr(got))
    got = place.run(["none", "a word", ""])
    harness.check("its words and its status", got[0][0] == 1 and got[0][2].count(b"No such file") == 3, repr(got))
    got = place.run(["--build", *SHOWN])
    harness.check("it is built where that is asked", got == place.built(), repr(got))
    got = place.run(["--build"])
    harness.check("it is built and not run", got == ((0, b"", TOLD), CALLS), repr(got))
    got = place.run(["--which"])
    harness.check("its path", got == ((0, place.which(BUILT), b""), []), repr(got))
    got = Place(harness).run(["-"], b"a line\n")
    harness.check("what comes in is for the program and not for rt", got == ((0, b"a line\n", TOLD), CALLS), repr(got))
    place = Place(harness)
    os.makedirs(place.path("elsewhere/crates/mr_cli"))
    os.mkdir(place.path("a folder"))
    for name in ("mapred", ".ci", "crates", "crates.txt", "HANDLES", "packaging"):
        os.rename(place.path(name), place.path(f"a folder/{name}"))
    os.symlink("a folder/mapred", place.path("mapred"))
    got = place.run(CDPATH=place.path("elsewhere"))
    harness.check("through a link", got == place.ran(TOLD, CALLS), repr(got))


def carried(harness):
    """The program of dist/ runs where it is of the sources that stand, and nothing else decides that."""
    place = Place(harness)
    place.carry()
    got = place.run()
    harness.check("the carried program is named once, and runs", got == place.ran(RUNNING), repr(got))
    got = place.run()
    harness.check("and runs", got == place.ran(), repr(got))
    got = place.run(["--which"])
    harness.check("its path", got == ((0, place.which(CARRIED), b""), []), repr(got))
    for name in ("crates.txt", "crates/mr_low/src/lib.rt", "dist/mapred", "dist/SOURCES"):
        os.utime(place.path(name))
        got = place.run()
        harness.check(f"{name} is touched", got == place.ran(), repr(got))
    for name in ("crates/mr_low/src/lib.rt~", "crates/mr_low/out/kept", "crates/mr_low/must-fail/a.edit", "crates/mr_low/wrong-bodies/a.edit", "crates/mr_beside/src/lib.rt", "docs/NEW.md"):
        place.put(name, "another")
        got = place.run()
        harness.check(f"{name} stands beside", got == place.ran(), repr(got))
    copy = Place(harness)
    shutil.rmtree(copy.top)
    subprocess.run(["cp", "-r", place.top, copy.top], check=True)
    got = copy.run()
    harness.check("a copied tree", got[0][:2] == copy.ran()[0][:2] and not got[1], repr(got))
    for name, text in (("crates.txt", CRATES + "# a comment\n"), ("crates/mr_low/src/lib.rt", "// another\n"), ("crates/mr_cli/specs/Lib.antt", "-- another\n"), ("HANDLES", "Handles allowed: Threads.\n")):
        before = open(place.path(name)).read() if os.path.exists(place.path(name)) else None
        place.put(name, text)
        os.utime(place.path(name), (1_000_000, 1_000_000))
        got = place.run()
        harness.check(f"{name} is another", got == place.built(), repr(got))
        got = place.run(), place.run(["--which"])[0][1]
        harness.check(f"{name} is another, and it is built once", got == (place.ran(), place.which(BUILT)), repr(got))
        os.remove(place.path(name)) if before is None else place.put(name, before)
        got = place.run(), place.run(["--which"])[0][1]
        harness.check(f"{name} is as before", got == (place.ran(RUNNING), place.which(CARRIED)), repr(got))
    got = place.run(["--build", *SHOWN])
    harness.check("it is built where that is asked", got == place.built(), repr(got))
    got = place.run(), place.run(["--which"])[0][1]
    harness.check("what was built here goes before what is carried", got == (place.ran(), place.which(BUILT)), repr(got))
    place = Place(harness)
    place.carry(b"one byte more")
    got = place.run()
    harness.check("a carried program of other bytes isn't run", got == place.built(), repr(got))
    place = Place(harness)
    place.carry()
    place.put("out", "no folder")
    for _ in range(2):
        got = place.run()
        harness.check("a tree that can't be written", got == place.ran(RUNNING), repr(got))


def other_machine(harness):
    """A processor without an instruction that the program may use is told, and nothing is run."""
    place = Place(harness)
    place.carry()
    text = open(place.path("packaging/start.sh")).read()
    place.put("cpuinfo", "processor\t: 0\nflags\t\t: fpu cx16 lahf_lm pni sse4_1 ssse3\n")
    place.put("packaging/start.sh", text.replace("/proc/cpuinfo", place.path("cpuinfo")))
    got = place.run()
    harness.check("another processor", got[0][:2] == (125, b"") and got[0][2].startswith(RUNNING + b"mapred: the program is for Linux on x86-64-v2") and got[0][2].endswith(b"lacks popcnt sse4_2\n"), repr(got))


def large_pages(harness):
    """The setting of the C library for memory in large pages: the user's own, if there is one, an empty one too."""
    place = Place(harness)
    place.run()
    for own in ({}, {"GLIBC_TUNABLES": "glibc.malloc.check=0"}, {"GLIBC_TUNABLES": ""}):
        said = place.run(["/proc/self/environ"], **own)[0][1].split(b"\0")
        got = [word for word in said if word.startswith(b"GLIBC_TUNABLES=")]
        wanted = own.get("GLIBC_TUNABLES", "glibc.malloc.hugetlb=1").encode()
        harness.check(f"large pages, the user's own {own}", got == [b"GLIBC_TUNABLES=" + wanted], repr(got))


def lanes(harness):
    """How many crates are proved at a time: as many as RT_JOBS says, else one at least and no more than there are processors."""
    env = {name: value for name, value in os.environ.items() if name != "RT_JOBS"}
    for own, wanted in (({}, range(1, os.cpu_count() + 1)), ({"RT_JOBS": ""}, range(1, os.cpu_count() + 1)), ({"RT_JOBS": "77"}, [77])):
        got = subprocess.run([os.path.join(TOP, ".ci", "lanes")], capture_output=True, env={**env, **own})
        harness.check(f"crates at a time {own}", got.returncode == 0 and int(got.stdout) in wanted, repr(got))


def fails(harness):
    """A build that fails: all that rt said, status 125, and no program run."""
    for rt, told, said, calls in (("refuses", FIRST + COUNTS[0] + COUNTS[1], REFUSED, 1), ("stops", TOLD, FINE + b"clang stopped\n", 2), ("makes-nothing", TOLD, FINE + b"done\n", 2)):
        place = Place(harness, rt)
        got = place.run()
        wanted = (125, b"", told + said + b"mapred: it could not be built\n")
        harness.check(f"rt {rt}", got == (wanted, CALLS[:calls]) and os.listdir(place.path("tmp")) == [], repr(got))
    place = Place(harness)
    place.run()
    place.rt = "refuses"
    place.put("crates/mr_low/src/lib.rt", "// another\n")
    got = place.run()
    harness.check("no program of other sources is run", got[0][:2] == (125, b"") and got[1] == CALLS[:1], repr(got))
    for is_carried in (False, True):
        place = Place(harness)
        os.remove(place.path("bin/rt"))
        place.tools = place.path("tools")
        os.mkdir(place.tools)
        for name in ("bash", "readlink", "dirname", "find", "awk", "nproc", "sha256sum", "cut", "sort", "xargs", "cksum", "sed", "cat", "mkdir", "mv", "uname"):
            os.symlink(shutil.which(name), place.path(f"tools/{name}"))
        if is_carried:
            place.carry()
        got = place.run()
        wanted = place.ran(RUNNING) if is_carried else ((125, b"", NO_RT), [])
        harness.check(f"no rt, carried {is_carried}", got == wanted, repr(got))


def launcher(harness):
    builds(harness)
    carried(harness)
    other_machine(harness)
    large_pages(harness)
    lanes(harness)
    fails(harness)


GROUPS = {"launcher": launcher}
