"""What ./install and ./package put elsewhere, and the man page and completions that are made from the parser's help. They stand in a
copy, with a `mapred` that only tells where the program is."""
import hashlib
import os
import shutil
import subprocess

from harness import TOP
from plain import JOBS

OWN = ("install", "package", "packaging/layout.sh", "packaging/start.sh", "packaging/mapred", "packaging/pages.py")
INSTALLED = [
    "bin/mapred",
    "lib/mapred/mapred",
    "lib/mapred/start.sh",
    "share/bash-completion/completions/mapred",
    "share/fish/vendor_completions.d/mapred.fish",
    "share/man/man1/mapred.1",
    "share/zsh/site-functions/_mapred",
]


def place(harness):
    """A directory with the scripts, and dist/ made of the program."""
    top = harness.directory()
    for name in OWN:
        os.makedirs(os.path.dirname(os.path.join(top, name)), exist_ok=True)
        shutil.copy(os.path.join(TOP, name), os.path.join(top, name))
    with open(os.path.join(top, "mapred"), "w") as file:
        file.write(f"#!/bin/sh\necho '{harness.program}'\n")
    os.chmod(os.path.join(top, "mapred"), 0o755)
    ran(top, "python3", "packaging/pages.py", harness.program, "dist")
    return top


def ran(top, *words, **more):
    return subprocess.run(words, cwd=top, capture_output=True, text=True, **more)


def files_below(where):
    return sorted(os.path.relpath(os.path.join(at, name), where) for at, _, names in os.walk(where) for name in names)


def pages(harness):
    """Each command and option that help tells stands in the man page and in the completions; a page that isn't so is told."""
    top = place(harness)
    texts = {name: open(os.path.join(top, "dist", name), encoding="utf-8").read() for name in ("mapred.1", *(f"completions/{it}" for it in ("mapred.bash", "_mapred", "mapred.fish")))}
    for command in ("seq", "run", "check", "merge", "verify"):
        said = ran(top, harness.program, command, "--help").stdout
        found = [line.split()[0] for line in said.splitlines() if line.startswith("      --")]
        harness.check(f"{command} has options", "--out" in found, repr(found))
        for name, text in texts.items():
            for option in found:
                shown = {"mapred.1": option.replace("-", "\\-"), "completions/mapred.fish": f"-l {option[2:]} "}.get(name, option)
                harness.check(f"{name}: {command} {option}", shown in text)
    harness.check("as they are made", ran(top, "python3", "packaging/pages.py", "--stale", harness.program, "dist").returncode == 0)
    with open(os.path.join(top, "dist/mapred.1"), "a") as file:
        file.write("more\n")
    got = ran(top, "python3", "packaging/pages.py", "--stale", harness.program, "dist")
    harness.check("a stale page is told", (got.returncode, got.stdout) == (1, "stale: dist/mapred.1\n"), repr(got))
    for shell, name in (("bash", "mapred.bash"), ("zsh", "_mapred"), ("fish", "mapred.fish")):
        if shutil.which(shell):
            got = ran(top, shell, "-n", f"dist/completions/{name}")
            harness.check(f"{shell} reads its completions", got.returncode == 0, repr(got))


def completed(harness):
    """What bash offers behind some words."""
    top = place(harness)
    os.mkdir(os.path.join(top, "counts"))
    rows = [
        (["se"], ["seq"]),
        (["seq", "--job", ""], list(JOBS)),
        (["seq", "--spl"], ["--split"]),
        (["run", "--his"], ["--history"]),
        (["check", "--out", "cou"], ["counts"]),
        (["seq", "--parts", ""], []),
        (["merge", "pack"], ["package", "packaging"]),
    ]
    for words, wanted in rows:
        line = " ".join(f"'{word}'" for word in ["mapred", *words])
        got = ran(top, "bash", "-c", f'. dist/completions/mapred.bash; COMP_WORDS=({line}); COMP_CWORD={len(words)}; _mapred; printf "%s\\n" "${{COMPREPLY[@]}}"')
        harness.check(f"completed {words}", sorted(got.stdout.split()) == sorted(wanted) and not got.stderr, repr(got))


def installed(harness):
    top = place(harness)
    prefix = harness.directory()
    got = ran(top, "./install", "--prefix", prefix)
    version = ran(top, harness.program, "--version").stdout
    harness.check("install tells what and where", got.returncode == 0 and got.stdout.startswith(f"installed {version.strip()} in {prefix}\n"), repr(got))
    harness.check("what is installed", files_below(prefix) == INSTALLED, repr(files_below(prefix)))
    os.symlink(os.path.join(prefix, "bin/mapred"), os.path.join(top, "linked"))
    where = harness.directory({"a.txt": b"a b a\n"})
    got = ran(where, os.path.join(top, "linked"), "seq", "--job", "words", "--out", ".", "a.txt")
    harness.check("the installed program counts", got.stdout == "done: 1 files, 3 pairs, 0 left out\n" and open(os.path.join(where, "part-00000")).read() == "a\t2\nb\t1\n", repr(got))
    got = ran(where, os.path.join(prefix, "bin/mapred"), "seq")
    harness.check("and has its users' name", "Usage: mapred seq" in got.stderr and got.returncode == 2, repr(got))
    with open(os.path.join(prefix, "bin/other"), "w"):
        pass
    got = ran(top, "./install", "--remove", f"--prefix={prefix}")
    harness.check("what is left", (got.returncode, files_below(prefix)) == (0, ["bin/other"]), repr(got))
    got = ran(top, "./install", "--remove", "--prefix", prefix)
    harness.check("removed twice", got.returncode == 0, repr(got))
    for words in (["--prefix"], ["--what"], ["--prefix", ""]):
        got = ran(top, "./install", *words)
        harness.check(f"install {words}", (got.returncode, got.stdout) == (2, ""), repr(got))


def packed(harness):
    top = place(harness)
    got = ran(top, "./package")
    names = got.stdout.split()
    harness.check("packages", got.returncode == (0 if shutil.which("dpkg-deb") else 1) and names and all(os.path.isfile(os.path.join(top, name)) for name in names), repr(got))
    before = [open(os.path.join(top, name), "rb").read() for name in names]
    ran(top, "./package")
    harness.check("the same bytes again", before == [open(os.path.join(top, name), "rb").read() for name in names])
    where = harness.directory()
    ran(where, "tar", "-xzf", os.path.join(top, names[0]), "--strip-components=1")
    harness.check("what the archive holds", files_below(where) == INSTALLED, repr(files_below(where)))
    harness.check("it runs where it was unpacked", ran(where, "bin/mapred", "--version").stdout == ran(top, harness.program, "--version").stdout)
    if shutil.which("dpkg-deb"):
        where = harness.directory()
        ran(where, "dpkg-deb", "-x", os.path.join(top, names[1]), ".")
        harness.check("the package runs", ran(where, "usr/bin/mapred", "--version").stdout == ran(top, harness.program, "--version").stdout)
        said = ran(where, "dpkg-deb", "-I", os.path.join(top, names[1])).stdout
        harness.check("and says what it needs, and that no licence is given", "Depends: libc6 (>= " in said and "No licence is given yet" in said, said)


def released(harness):
    """./release makes dist/ of the program that stands, and refuses where that isn't said to be of the sources that stand."""
    top, built = place(harness), "crates/mr_cli/out/mr_cli"
    shutil.rmtree(os.path.join(top, "dist"))
    for name in ("release", ".ci/sources"):
        os.makedirs(os.path.dirname(os.path.join(top, name)), exist_ok=True)
        shutil.copy(os.path.join(TOP, name), os.path.join(top, name))
    texts = {"crates.txt": "mr_cli: clap\n", "HANDLES": "none\n", "crates/mr_cli/src/main.rt": "", "bin/rt": "#!/bin/sh\necho a kit\n"}
    for name, text in texts.items():
        os.makedirs(os.path.dirname(os.path.join(top, name)), exist_ok=True)
        with open(os.path.join(top, name), "w") as file:
            file.write(text)
    os.chmod(os.path.join(top, "bin/rt"), 0o755)
    os.makedirs(os.path.join(top, os.path.dirname(built)))
    own = {**os.environ, "PATH": f"{os.path.join(top, 'bin')}:{os.environ['PATH']}"}
    refused = (1, "", "release: the program that stands isn't of these sources: run ./test first\n")

    def tried():
        got = ran(top, "./release", env=own)
        return got.returncode, got.stdout, got.stderr

    def say_of(sources):
        with open(os.path.join(top, f"{built}.sources"), "w") as file:
            file.write(f"{sources}\n")

    got = tried()
    harness.check("release: no program", got == refused and not os.path.exists(os.path.join(top, "dist")), repr(got))
    shutil.copy(harness.program, os.path.join(top, built))
    got = tried()
    harness.check("release: of no known sources", got == refused, repr(got))
    say_of("another")
    got = tried()
    harness.check("release: of other sources", got == refused and not os.path.exists(os.path.join(top, "dist")), repr(got))
    sources = ran(top, ".ci/sources").stdout.strip()
    say_of(sources)
    got = tried()
    data = open(harness.program, "rb").read()
    names = ["SOURCES", "completions/_mapred", "completions/mapred.bash", "completions/mapred.fish", "mapred", "mapred.1"]
    harness.check("release", got[0] == 0 and files_below(os.path.join(top, "dist")) == names, repr(got))
    harness.check("the program is carried", open(os.path.join(top, "dist/mapred"), "rb").read() == data and os.access(os.path.join(top, "dist/mapred"), os.X_OK))
    said = open(os.path.join(top, "dist/SOURCES")).read()
    harness.check("and what it is of", said == f"kit: a kit\nsources: {sources}\nprogram: {hashlib.sha256(data).hexdigest()}\n", said)


GROUPS = {"release": released, "pages": pages, "completions": completed, "install": installed, "packages": packed}
