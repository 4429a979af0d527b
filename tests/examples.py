"""The examples and README: examples/play.sh plays each script, and fails where a command prints something else than the
script shows, or leaves other files than `wanted/`. So does each block of commands in README, as it stands."""
import os
import re
import shutil
import subprocess

from harness import TOP

FOLDER = os.path.join(TOP, "examples")
# Blocks of README that are not played: the test itself, and the picture.
NOT_PLAYED = ("./test\n", "input files ")


def folders():
    return sorted(name for name in os.listdir(FOLDER) if os.path.isdir(os.path.join(FOLDER, name)))


def played(harness, script):
    """The status of a script that sources play.sh, and what it printed."""
    own = {**os.environ, "MAPRED": harness.program}
    ran = subprocess.run(["bash", script], env=own, stdin=subprocess.DEVNULL, stdout=subprocess.PIPE, stderr=subprocess.STDOUT)
    return ran.returncode, ran.stdout.decode()


def script_of(where, name, text):
    """Writes a script into a folder of its own beside play.sh, and returns its path."""
    folder = os.path.join(where, "examples", name)
    os.makedirs(folder, exist_ok=True)
    shutil.copy(os.path.join(FOLDER, "play.sh"), os.path.join(where, "examples"))
    path = os.path.join(folder, "run.sh")
    with open(path, "w", encoding="utf-8") as out:
        out.write('. "$(dirname "$0")/../play.sh"\n' + text)
    return path


def each_plays(harness):
    for name in folders():
        status, printed = played(harness, os.path.join(FOLDER, name, "run.sh"))
        harness.check(f"{name} is as it shows", status == 0, printed)


def a_lie_fails(harness):
    """An example that shows something else than what is so fails."""
    command = "printf 'a b\\n' > t.txt\nmkdir out\n./mapred seq --job words --out out t.txt\n"
    where = harness.directory()
    for name, text, wanted in [
        ("so", command + "# done: 1 files, 2 pairs, 0 left out\n", 0),
        ("other", command + "# done: 1 files, 3 pairs, 0 left out\n", 1),
        ("silent", command, 1),
        ("more", command + "# done: 1 files, 2 pairs, 0 left out\n# and more\n", 1),
        ("nothing", "# done: 1 files, 2 pairs, 0 left out\n", 1),
    ]:
        status, printed = played(harness, script_of(where, name, text))
        harness.check(f"an example that shows what is {name}", status == wanted, printed)
    path = script_of(where, "so", command + "# done: 1 files, 2 pairs, 0 left out\n")
    os.mkdir(os.path.join(os.path.dirname(path), "wanted"))
    for text, wanted in [("a\t1\nb\t1\n", 0), ("a\t1\nb\t2\n", 1)]:
        part = os.path.join(os.path.dirname(path), "wanted", "out", "part-00000")
        os.makedirs(os.path.dirname(part), exist_ok=True)
        with open(part, "w", encoding="utf-8") as out:
            out.write(text)
        status, printed = played(harness, path)
        harness.check(f"an example that wants {text!r}", status == wanted, printed)


def readme_plays(harness):
    readme = open(os.path.join(TOP, "README.md"), encoding="utf-8").read()
    blocks = re.findall(r"^```[a-z]*\n(.*?)^```$", readme, re.M | re.S)
    where = harness.directory()
    os.symlink(os.path.join(TOP, "engines"), os.path.join(where, "engines"))
    number = 0
    for block in blocks:
        if block.startswith(NOT_PLAYED):
            continue
        number += 1
        path = script_of(where, f"readme-{number}", block)
        status, printed = played(harness, path)
        harness.check(f"README's block {number} is as it shows", status == 0, printed)
    harness.check("README has blocks of commands", number > 2, str(number))


GROUPS = {"examples": each_plays, "lying-examples": a_lie_fails, "readme": readme_plays}
