#!/usr/bin/env python3
"""Makes the man page and the completions of mapred from the help that its parser prints:

    packaging/pages.py PROGRAM DIR           writes DIR/mapred.1, DIR/completions/mapred.bash, _mapred and mapred.fish
    packaging/pages.py --stale PROGRAM DIR   writes nothing; prints each that isn't what it would write, with status 1"""
import os
import re
import subprocess
import sys
from collections import namedtuple

# An option or an argument: its long name or none, what its value is called or none, the texts that the value may be, what the help says.
Argument = namedtuple("Argument", "name value choices help")
# A command: its name, what it does, the line of its usage, its arguments, and what stands behind them.
Command = namedtuple("Command", "name about usage arguments more")
PATHS = ("FILE", "HISTORY", "LIST", "VERDICT")


def said(program, *words):
    """What the program prints, under the name that it has for users."""
    return subprocess.run(["mapred", *words], executable=program, capture_output=True, text=True, check=True).stdout


def sections(text):
    """What help says before its arguments, the lines of these, and what it says behind them."""
    about, _, rest = text.partition("\n\nUsage: ")
    usage, _, rest = rest.partition("\n\n")
    lines = []
    while re.match(r"(Arguments|Options|Commands):\n", rest):
        block, _, rest = rest.partition("\n\n")
        # a line that is further to the right than any name goes on with the one before
        lines += re.sub(r"\n {10,}", " ", block).splitlines()[1:]
    return " ".join(about.split()), " ".join(usage.split()), lines, rest.rstrip("\n")


def argument(line):
    """The argument of a line of help; none where it is a command of another."""
    found = re.match(r"\s+(?:-\w, )?(?:--([a-z-]+))?(?: ?[<\[]([A-Z]+)[>\]](?:\.\.\.)?)?\s\s+(.*)$", line)
    if not found or not (found[1] or found[2]):
        return None
    choices = re.search(r" \[possible values: (.*)\]$", found[3])
    return Argument(found[1], found[2], choices[1].split(", ") if choices else [], found[3][: choices.start()] if choices else found[3])


def command(program, *words):
    about, usage, lines, more = sections(said(program, *words, "--help"))
    return Command(words[-1] if words else "mapred", about, usage, [it for it in map(argument, lines) if it], more)


def commands(program):
    """The program as a whole, and its commands."""
    names = re.findall(r"^  ([a-z]+) ", said(program, "--help").partition("Commands:\n")[2].partition("\n\n")[0], re.M)
    return command(program), [command(program, name) for name in names if name != "help"]


def roff(text):
    return re.sub(r"^([.'])", r"\\&\1", text.replace("\\", "\\e").replace("-", "\\-"), flags=re.M)


def man_page(version, whole, parts):
    out = ['.TH MAPRED 1 "" "mapred %s" "User Commands"' % version, ".SH NAME", "mapred \\- " + roff(whole.about), ".SH SYNOPSIS"]
    for part in parts:
        out += [f".B mapred {part.name}", roff(part.usage.removeprefix(f"mapred {part.name} ")), ".br"]
    out += [".SH DESCRIPTION", ".nf", roff(whole.more), ".fi"]
    for part in parts:
        out += [".SH " + roff(f"mapred {part.name}").upper(), roff(part.about) + ".", ".PP", ".I Usage: " + roff(part.usage)]
        for it in part.arguments:
            named = f"--{it.name}" if it.name else ""
            out += [".TP", f".B {roff(named)}" + (" \\fI%s\\fR" % it.value if it.value else "")]
            out += [roff(it.help)]
        out += [".PP", ".nf", roff(part.more), ".fi"]
    return "\n".join(out) + "\n"


def options(part):
    return [it for it in part.arguments if it.name]


def bash(whole, parts):
    out = ["# Completions of mapred for bash, made from the help of its parser.", "_mapred() {"]
    out += ["    local word=${COMP_WORDS[COMP_CWORD]} before=${COMP_WORDS[COMP_CWORD - 1]}", "    COMPREPLY=()"]
    out += ["    if [ \"$COMP_CWORD\" = 1 ]; then"]
    out += ["        mapfile -t COMPREPLY < <(compgen -W '%s' -- \"$word\")" % " ".join([*(it.name for it in parts), "help", "--help", "--version"])]
    out += ["        return", "    fi", '    case "${COMP_WORDS[1]} $before" in']
    for part in parts:
        for it in options(part):
            if it.value:
                given = f"-W '{' '.join(it.choices)}'" if it.choices else "-d" if it.value == "DIR" else "-f" if it.value in PATHS else ""
                does = f'mapfile -t COMPREPLY < <(compgen {given} -- "$word") && return' if given else "return"
                out += [f"    '{part.name} --{it.name}') {does} ;;"]
    out += ["    esac", '    case "${COMP_WORDS[1]} $word" in']
    for part in parts:
        out += [f"    '{part.name} -'*) mapfile -t COMPREPLY < <(compgen -W '{' '.join('--' + it.name for it in options(part))}' -- \"$word\") ;;"]
    out += ['    *) mapfile -t COMPREPLY < <(compgen -f -- "$word") ;;', "    esac", "}", "complete -o filenames -F _mapred mapred"]
    return "\n".join(out) + "\n"


def quoted(text):
    return text.replace("'", "'\\''")


def zsh(whole, parts):
    escaped = lambda text: quoted(re.sub(r"([\[\]:\\])", r"\\\1", text))
    out = ["#compdef mapred", "# Completions of mapred for zsh, made from the help of its parser.", "_mapred() {", "    local -a commands=("]
    out += [f"        '{part.name}:{escaped(part.about)}'" for part in parts]
    out += ["    )", "    if (( CURRENT == 2 )); then", "        _describe command commands", "        return", "    fi", "    case $words[2] in"]
    for part in parts:
        out += [f"    {part.name})", "        shift words", "        (( CURRENT-- ))", "        _arguments \\"]
        for it in part.arguments:
            does = f"({' '.join(it.choices)})" if it.choices else "_files -/" if it.value == "DIR" else "_files" if it.value in PATHS else ""
            value = f":{it.value}:{does}" if it.value else ""
            out += [f"            '--{it.name}[{escaped(it.help)}]{value}' \\" if it.name else f"            '*{value}' \\"]
        out[-1] = out[-1][:-2]
        out += ["        ;;"]
    out += ["    esac", "}", '_mapred "$@"']
    return "\n".join(out) + "\n"


def fish(whole, parts):
    out = ["# Completions of mapred for fish, made from the help of its parser.", "complete -c mapred -f"]
    for part in parts:
        out += [f"complete -c mapred -n __fish_use_subcommand -a {part.name} -d '{quoted(part.about)}'"]
    for part in parts:
        seen = f"complete -c mapred -n '__fish_seen_subcommand_from {part.name}'"
        for it in part.arguments:
            does = f" -x -a '{' '.join(it.choices)}'" if it.choices else " -x -a '(__fish_complete_directories)'" if it.value == "DIR" else " -r -F" if it.value in PATHS else " -x" if it.value else ""
            out += [f"{seen} -l {it.name}{does} -d '{quoted(it.help)}'" if it.name else f"{seen} -F"]
    return "\n".join(out) + "\n"


def pages(program):
    """What is written, by its path below the directory."""
    version = said(program, "--version").split()[1].rstrip(",")
    whole, parts = commands(program)
    shells = {"mapred.bash": bash, "_mapred": zsh, "mapred.fish": fish}
    return {"mapred.1": man_page(version, whole, parts), **{f"completions/{name}": made(whole, parts) for name, made in shells.items()}}


def read(path):
    return open(path, encoding="utf-8").read() if os.path.exists(path) else None


def main(words):
    stale = words[:1] == ["--stale"]
    program, folder = words[1:] if stale else words
    texts = pages(os.path.abspath(program))
    if stale:
        others = [name for name, text in texts.items() if read(os.path.join(folder, name)) != text]
        print("".join(f"stale: {os.path.join(folder, name)}\n" for name in others), end="")
        return 1 if others else 0
    for name, text in texts.items():
        path = os.path.join(folder, name)
        os.makedirs(os.path.dirname(path), exist_ok=True)
        with open(path, "w", encoding="utf-8") as file:
            file.write(text)
    return 0


if __name__ == "__main__":
    sys.exit(main(sys.argv[1:]))
