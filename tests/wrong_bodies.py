#!/usr/bin/env python3
"""Wrong bodies: edits of real code that still compile, and that the prover must refuse.

Those in crates/CRATE/must-fail/ the gate tries (`rt ci`), by checks of the whole crate. Those in crates/CRATE/wrong-bodies/
stand beside, and are tried by a check of the function that they change and of those that it calls, which takes seconds:

    python3 tests/wrong_bodies.py [CRATE ..]              all of these crates (of all crates: hours)
    python3 tests/wrong_bodies.py --each-test [CRATE ..]  those with a line `only: FUNCTION`, as each ./test does
    python3 tests/wrong_bodies.py --compile [CRATE ..]    that each of both folders compiles, by the front end alone
    python3 tests/wrong_bodies.py --list [CRATE ..]       prints the names of both folders, which say what the bugs are

It stands on the libraries that the gate left, or builds them, and first sees that the functions are proved as they are.
A body that such a check lets pass is tried by a check of its whole crate. Those of a crate that change different lines
are compiled together, and by halves where that fails; a crate is passed over where out/compiled names the digest of what
is compiled. The last line is 'N passed, M failed'."""
import argparse
import functools
import hashlib
import os
import re
import shutil
import subprocess
import sys
import tempfile
from concurrent.futures import ThreadPoolExecutor

TOP = os.path.dirname(os.path.dirname(os.path.abspath(__file__)))
CRATES = os.path.join(TOP, "crates")
# What a crate is checked from.
PARTS = ("src", "specs", "proofs")
# How long a check may take, in seconds, and what memory it may take; what one of the front end alone takes.
LONGEST, LARGEST, FRONT = 3600, 4_000_000_000, 1_500_000_000
# For each crate whose wrong bodies compiled, a file of its name with the digest of what was compiled.
COMPILED = os.path.join(TOP, "out", "compiled")


class Edit:
    """A wrong body: the file that it changes, what is put in place of what there, and the functions whose check refuses it."""

    def __init__(self, crate, folder, name):
        self.crate, self.folder, self.name = crate, folder, name
        text = read(os.path.join(CRATES, crate, folder, name))
        self.file = re.search(r"^file: (.*)$", text, re.M).group(1)
        self.pairs = re.findall(r"^old: (.*)\nnew: ?(.*)$", text, re.M)
        self.only = re.findall(r"^only: (.*)$", text, re.M)
        # Each text is one line: what stands on a line of its own would be passed over.
        self.is_whole = all(re.match(r"(file|only|old|new):( |$)", line) for line in text.splitlines())

    def __str__(self):
        return f"{self.crate}/{self.folder}/{self.name}"

    def changed(self, text):
        """The file's text with this body; none where that is no other text, or one that it replaces doesn't stand there exactly once."""
        wrong = text
        for old, new in self.pairs:
            if wrong.count(old) != 1:
                return None
            wrong = wrong.replace(old, new)
        return wrong if wrong != text and self.is_whole else None

    def lines(self):
        """The lines of its file that it changes."""
        text = read(os.path.join(CRATES, self.crate, self.file))
        return {(self.file, text.count("\n", 0, max(text.find(old), 0))) for old, _ in self.pairs}

    def functions(self):
        """The functions that its lines `only:` name, else the one that it changes first, by its name and that of the impl around it."""
        if self.only or not self.pairs:
            return self.only
        text = read(os.path.join(CRATES, self.crate, self.file))
        above = text[: max(text.find(self.pairs[0][0]), 0)]
        named = re.findall(r"^( *)(?:pub(?:\([a-z]+\))? )?fn (\w+)", above, re.M)
        if not named:
            return []
        indent, name = named[-1]
        if not indent:
            return [name]
        of_trait, of_type = re.findall(r"^impl(?:<.*?>)? (?:(\w+)(?:<.*?>)? for )?(\w+)", above, re.M)[-1]
        return [f"{of_type}{of_trait}::{name}"]


def read(path):
    with open(path, encoding="utf-8") as file:
        return file.read()


def write(path, text):
    with open(path, "w", encoding="utf-8") as file:
        file.write(text)


def edits():
    """All wrong bodies."""
    for crate in sorted(os.listdir(CRATES)):
        for folder in ("must-fail", "wrong-bodies"):
            where = os.path.join(CRATES, crate, folder)
            if os.path.isdir(where):
                yield from (Edit(crate, folder, name) for name in sorted(os.listdir(where)))


def all_apply(harness):
    for edit in edits():
        harness.check(f"{edit} applies", edit.changed(read(os.path.join(CRATES, edit.crate, edit.file))) is not None)


@functools.lru_cache(maxsize=None)
def kit():
    """Where the kit stands: the folder of the page that `rt doc` names."""
    return os.path.dirname(subprocess.run(["rt", "doc"], capture_output=True, text=True, check=True).stdout.strip())


@functools.lru_cache(maxsize=None)
def crate_named(name):
    return Crate(name)


class Crate:
    """A crate as crates.txt lists it, and how the prover is asked about it."""

    def __init__(self, name):
        listed = {it.partition(":")[0].split()[0]: it.partition(":")[2].split() for it in read(os.path.join(TOP, "crates.txt")).splitlines() if ":" in it and it[0] != "#"}
        self.name, self.folder = name, os.path.join(CRATES, name)
        self.deps = [crate_named(it) for it in listed[name] if it in listed]
        self.of_kit = ["std", *(it for it in listed[name] if it not in listed)]
        self.root = "src/main.rt" if os.path.isfile(os.path.join(self.folder, "src", "main.rt")) else "src/lib.rt"
        self.built = os.path.join(self.folder, "out", "rlib", f"{name}.rlib")

    def below(self):
        """All crates of the repository below this one, each once."""
        return list({it.name: it for dep in self.deps for it in [*dep.below(), dep]}.values())

    def files(self):
        return [os.path.join(at, name) for part in PARTS for at, _, names in os.walk(os.path.join(self.folder, part)) for name in names]

    def is_built(self):
        """Whether what was built of it is newer than what it is built from."""
        return os.path.isdir(self.built) and max(map(os.path.getmtime, self.files())) < os.path.getmtime(self.built)

    def build_below(self):
        """Has the crates below it built where they aren't."""
        if not all(it.is_built() for it in self.below()):
            subprocess.run(["rt", "check", "--only", ""], cwd=self.folder, stdout=subprocess.DEVNULL, stderr=subprocess.DEVNULL)

    def check(self, room, kept, functions):
        """What the prover says of these functions, or of all if none is named, over the files in `room` and what was kept."""
        words = [f"{kit()}/bin/rattle", "check", "--crate-name", self.name, self.root, "-L", f"dependency={kit()}/rlibs"]
        words += [it for name in self.of_kit for it in ("--extern", f"{name}={kit()}/rlibs/{name}.rlib")]
        words += [it for dep in self.deps for it in ("--extern", f"{dep.name}={dep.built}")]
        words += [it for dep in self.below() for it in ("-L", f"dependency={os.path.dirname(dep.built)}")]
        words += ["--antt-project", f"{kit()}/rattle/logic/antt-project.json", "--logic-built", f"{kit()}/logic_built"]
        words += ["--jobs", "1", "--links", f"{self.name}=", "--incremental", kept]
        words += [it for function in functions for it in ("--only", function)]
        how = {"cwd": room, "stdin": subprocess.DEVNULL, "stdout": subprocess.PIPE, "stderr": subprocess.STDOUT}
        return subprocess.run(words, text=True, errors="replace", timeout=LONGEST, **how)


def is_refusal(ran, edit):
    """Whether the prover refuses what the edit changed, and not its spelling: all was read to the end, and a goal is open there or
    an answer fits no longer."""
    last = ran.stdout.rstrip().rpartition("\n")[2]
    counts = re.fullmatch(r"only=(\d+) proved=(\d+)", last)
    is_open = int(counts[2]) < int(counts[1]) if counts else last.startswith("logic=not-proved")
    is_read = not re.search(r"^(\./)?(src|specs)/\S+: error", ran.stdout, re.M)
    told = re.search(rf"^(note: )?(\./)?({re.escape(edit.file)}|proofs/\S+):\d+:\d+:", ran.stdout, re.M)
    return ran.returncode == 1 and is_open and is_read and bool(told)


class Room:
    """A copy of a crate in which its wrong bodies are tried, each over what the checks before it kept."""

    def __init__(self, crate, folder):
        self.crate, self.folder, self.kept = crate_named(crate), folder, os.path.join(folder, "kept")
        for part in PARTS:
            if os.path.isdir(os.path.join(self.crate.folder, part)):
                shutil.copytree(os.path.join(self.crate.folder, part), os.path.join(folder, part))

    def check(self, functions):
        return self.crate.check(self.folder, self.kept, functions)

    def why_not_as_they_are(self, functions):
        """Nothing where these functions are proved with no wrong body, else what was said. Names that the prover doesn't know are dropped."""
        while True:
            ran = self.check(sorted(functions))
            unknown = re.search(r"(?:has no function|several functions are named) `([^`]+)`", ran.stdout) if ran.returncode == 2 else None
            if not unknown or unknown[1] not in functions:
                return ran.stdout[-900:] if ran.returncode else None
            functions.remove(unknown[1])

    def why_let_pass(self, edit, known):
        """Nothing where the wrong body is refused, by a check of its functions or else of the whole crate; else what was said of it."""
        path = os.path.join(self.folder, edit.file)
        text = read(path)
        if edit.changed(text) is None:
            return "it doesn't apply"
        write(path, edit.changed(text))
        try:
            functions = [it for it in edit.functions() if it in known]
            ran = self.check(functions)
            if not is_refusal(ran, edit) and functions:
                ran = self.check([])
        finally:
            write(path, text)
        return None if is_refusal(ran, edit) else "NOT REFUSED: " + ran.stdout[-900:]

    def compiles(self, bodies):
        """Whether the crate compiles with all of these wrong bodies at once."""
        files = {edit.file: read(os.path.join(self.folder, edit.file)) for edit in bodies}
        changed = dict(files)
        for edit in bodies:
            changed[edit.file] = changed[edit.file] and edit.changed(changed[edit.file])
        if None in changed.values():
            return False
        try:
            for name, text in changed.items():
                write(os.path.join(self.folder, name), text)
            return self.check([""]).returncode == 0
        finally:
            for name, text in files.items():
                write(os.path.join(self.folder, name), text)

    def not_compiling(self, bodies):
        """Those of these wrong bodies, which change different lines, that don't compile."""
        if self.compiles(bodies):
            return []
        half = len(bodies) // 2
        return [*self.not_compiling(bodies[:half]), *self.not_compiling(bodies[half:])] if half else bodies


def apart(bodies):
    """These wrong bodies in groups, in each of which all change different lines."""
    groups = []
    for edit in bodies:
        for lines, group in groups:
            if not lines & edit.lines():
                break
        else:
            lines, group = set(), []
            groups.append((lines, group))
        lines.update(edit.lines())
        group.append(edit)
    return [group for _, group in groups]


def digest(crate, bodies):
    """The digest of all that the wrong bodies of a crate are compiled from: the kit, the code of the crate and below it, and the bodies."""
    found = hashlib.sha256(subprocess.run(["rt", "version"], capture_output=True).stdout)
    names = [name for it in [*crate.below(), crate] for name in sorted(it.files()) if name.endswith(".rt")]
    for name in [*names, *(os.path.join(CRATES, edit.crate, edit.folder, edit.name) for edit in bodies)]:
        found.update(f"{os.path.relpath(name, TOP)}\n{read(name)}".encode())
    return found.hexdigest()


def compiled(crate, bodies):
    """For each wrong body of a crate, nothing where it compiles, else why not."""
    found, kept = digest(crate_named(crate), bodies), os.path.join(COMPILED, crate)
    if os.path.isfile(kept) and read(kept) == found:
        return [(edit, None) for edit in bodies]
    crate_named(crate).build_below()
    with tempfile.TemporaryDirectory(prefix="mapred-wrong-") as folder:
        room = Room(crate, folder)
        failed = [edit for group in apart(bodies) for edit in room.not_compiling(group)]
    if not failed:
        os.makedirs(COMPILED, exist_ok=True)
        write(kept, found)
    return [(edit, "it doesn't compile" if edit in failed else None) for edit in bodies]


def tried(crate, of_crate):
    """For each wrong body of a crate, nothing where it is refused, else why not."""
    crate_named(crate).build_below()
    with tempfile.TemporaryDirectory(prefix="mapred-wrong-") as folder:
        room, known = Room(crate, folder), {it for edit in of_crate for it in edit.functions()}
        why = room.why_not_as_they_are(known)
        if why:
            return [(edit, "its functions aren't proved as they are: " + why) for edit in of_crate]
        return [(edit, room.why_let_pass(edit, known)) for edit in of_crate]


def lanes(each):
    """How many checks of this memory run side by side: one for each processor but one, which the checks from outside take."""
    free = 1024 * int(re.search(r"MemAvailable:\s+(\d+)", read("/proc/meminfo")).group(1))
    return max(min(len(os.sched_getaffinity(0)) - 1, free // each), 1)


def print_each(work, found, each, good):
    """Prints what came of each wrong body of these, by crate, and gives how many went well and how many didn't."""
    passed = failed = 0
    with ThreadPoolExecutor(lanes(each)) as pool:
        for given in pool.map(work, found, found.values()):
            for edit, why in given:
                if why or good:
                    print(f"{edit}: {why or good}", flush=True)
                passed, failed = passed + (why is None), failed + (why is not None)
    return passed, failed


def main():
    parser = argparse.ArgumentParser(description=__doc__, formatter_class=argparse.RawDescriptionHelpFormatter)
    parser.add_argument("crates", nargs="*", metavar="CRATE", help="the crates whose wrong bodies are tried")
    parser.add_argument("--each-test", action="store_true", help="try those with a line only: alone")
    parser.add_argument("--compile", action="store_true", help="see that all compile, and try none")
    parser.add_argument("--list", action="store_true", help="print all names, and try none")
    asked = parser.parse_args()
    found = {}
    for edit in edits():
        is_meant = asked.compile or asked.list or (edit.folder == "wrong-bodies" and (edit.only or not asked.each_test))
        if is_meant and (edit.crate in asked.crates or not asked.crates):
            found.setdefault(edit.crate, []).append(edit)
    if asked.list:
        print("\n".join(str(edit) for of_crate in found.values() for edit in of_crate))
        return 0
    passed, failed = print_each(compiled, found, FRONT, None) if asked.compile else print_each(tried, found, LARGEST, "refused")
    print(f"{passed} passed, {failed} failed")
    return 1 if failed else 0


GROUPS = {"wrong bodies": all_apply}

if __name__ == "__main__":
    sys.exit(main())
