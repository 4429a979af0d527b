#!/usr/bin/env python3
"""Checks the built program from outside: run.py PROGRAM [--list] [--only NAME ..]

Each group of checks runs the program in directories of its own and compares files, streams and status with what the
rules of docs/FORMATS.md give, worked out by plain Python or by GNU tools, never by the program itself. A line tells each
group; the last line is 'N passed, M failed'."""
import argparse
import importlib
import os
import sys
import time

sys.path.insert(0, os.path.dirname(os.path.abspath(__file__)))
from harness import Harness

MODULES = ["wrong_bodies", "examples", "documents", "worked", "literals", "emitted", "inverted", "hosts", "fields", "ground", "buffers", "master", "book", "runs", "regions", "pool", "running", "libraries", "colliding", "lanes", "command_line", "hints", "fresh", "files", "failing", "memory", "producer", "judging", "short_names", "verdicts", "merge", "ranges", "verifying", "picturing", "explaining", "reports", "replacing", "runner", "tools", "launcher", "packaging"]


def groups():
    """All groups of checks by name, in the order in which they run."""
    out = {}
    for module in MODULES:
        own = importlib.import_module(module).GROUPS
        twice = sorted(own.keys() & out.keys())
        if twice:
            raise ValueError(f"two groups are named {twice[0]}")
        out.update(own)
    return out


def main():
    parser = argparse.ArgumentParser(description=__doc__, formatter_class=argparse.RawDescriptionHelpFormatter)
    parser.add_argument("program", help="the program to check")
    parser.add_argument("--list", action="store_true", help="tell the groups, and check nothing")
    parser.add_argument("--only", action="append", metavar="NAME", help="check this group alone; may be given again")
    asked = parser.parse_args()
    known = groups()
    if asked.list:
        print("\n".join(known))
        return 0
    for name in asked.only or []:
        if name not in known:
            parser.error(f"no group {name}: --list tells them")
    passed = failed = 0
    for name in asked.only or known:
        harness, began = Harness(asked.program), time.time()
        try:
            known[name](harness)
        finally:
            harness.close()
        print(f"{name}: {harness.passed} passed, {harness.failed} failed ({time.time() - began:.1f} s)", flush=True)
        passed, failed = passed + harness.passed, failed + harness.failed
    print(f"{passed} passed, {failed} failed")
    return 0 if failed == 0 else 1


if __name__ == "__main__":
    sys.exit(main())
