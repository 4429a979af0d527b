"""The documents: each link leads to a file that is there, and docs/GUARANTEES.md claims nothing that no clause carries.

A table of GUARANTEES whose head is `Promise | Function | Clause | Definition` is compared with the sources. Each function of
a row, `crate::function` or `crate::Type::function`, is public in that crate, or is shown by it from another. Each clause of
the row, by its name, or `ensures` for one without a name, is one of a function of the row, and each function has one of
them. Each definition is `Name` in a linked file of specs/, which defines it."""
import os
import re

from harness import TOP

CRATES = os.path.join(TOP, "crates")


def read(path):
    with open(path, encoding="utf-8") as file:
        return file.read()


def documents():
    """Each document by its path."""
    for at, folders, names in os.walk(TOP):
        folders[:] = [name for name in folders if name not in (".git", "out", "target")]
        for name in names:
            if name.endswith(".md"):
                yield os.path.join(at, name)


def links_lead_somewhere(harness):
    for path in documents():
        text = re.sub(r"^```.*?^```", "", read(path), flags=re.M | re.S)
        for target in re.findall(r"\]\(([^)\s]+)\)", text):
            if re.match(r"[a-z]+:|#", target):
                continue
            there = os.path.join(os.path.dirname(path), target.partition("#")[0])
            harness.check(f"{os.path.relpath(path, TOP)} links {target}", os.path.exists(there), there)


def sources(crate):
    folder = os.path.join(CRATES, crate, "src")
    return [read(os.path.join(at, name)) for at, _, names in os.walk(folder) for name in sorted(names) if name.endswith(".rt")]


def contracts(crate, path):
    """The contracts of the public functions of this path in a crate, from the name to the body, or of that which it shows."""
    *of_type, name = path.split("::")
    found = []
    for text in sources(crate):
        for match in re.finditer(rf"^( *)((?:pub )?)(?:unsafe )?fn {name}\b.*?(?=^\1\{{|;$)", text, re.M | re.S):
            above = text[: match.start()]
            around = re.findall(r"^(?:pub )?(?:impl|trait)\b[^{]*", above, re.M)
            is_inside = bool(match[1])
            if is_inside and around:
                is_shown = match[2] or around[-1].startswith("pub trait") or " for " in around[-1]
                if is_shown and of_type and re.search(rf"\b{of_type[-1]}\b", around[-1]):
                    found.append(match[0])
            elif match[2] and not of_type:
                found.append(match[0])
    if not found:
        for text in sources(crate):
            for other, names in re.findall(r"^pub use (mr_\w+)::\{?([^;]*?)\}?;", text, re.M | re.S):
                shown = of_type[0] if of_type else name
                if re.search(rf"\b{shown}\b", names):
                    found += contracts(other, path)
    return found


def rows(text):
    """The rows of the tables with this head, as lists of cells."""
    inside = False
    for line in text.splitlines():
        cells = [cell.strip() for cell in line.strip().strip("|").split("|")]
        if not line.startswith("|"):
            inside = False
        elif cells == ["Promise", "Function", "Clause", "Definition"]:
            inside = True
        elif inside and not re.fullmatch(r"[|\-: ]+", line):
            yield cells


def clauses_are_there(harness):
    known, many = {}, 0
    for cells in rows(read(os.path.join(TOP, "docs", "GUARANTEES.md"))):
        many += 1
        harness.check(f"a row of four cells: {cells[0][:60]}", len(cells) == 4, str(cells))
        if len(cells) != 4:
            continue
        promise, functions, clauses, definitions = cells
        named = re.findall(r"`(mr_\w+)::([\w:]+)`", functions)
        wanted = re.findall(r"`(\w+)`", clauses)
        harness.check(f"functions and clauses are named: {promise[:60]}", bool(named) and bool(wanted), str(cells))
        carried = set()
        for crate, path in named:
            if (crate, path) not in known:
                known[crate, path] = contracts(crate, path)
            own = set()
            for contract in known[crate, path]:
                own |= {name or "ensures" for name in re.findall(r"^ *ensures (?:(\w+) )?\{", contract, re.M)}
            harness.check(f"{crate}::{path} is public", bool(known[crate, path]))
            harness.check(f"{crate}::{path} has a clause of its row", bool(own & set(wanted)), f"{sorted(own)} {wanted}")
            carried |= own
        for clause in wanted:
            harness.check(f"clause {clause} of {functions[:60]}", clause in carried, str(sorted(carried)))
        for name, target in re.findall(r"\[`?([\w.]+)`?\]\(([^)]+)\)", definitions):
            path = os.path.join(TOP, "docs", target)
            defined = os.path.exists(path) and re.search(rf"^ *(?:abbrev |record |data |opaque )*(?:pub )?(?:record |data )?{re.escape(name)}\b", read(path), re.M)
            harness.check(f"{name} is defined in {target}", bool(defined))
    harness.check("GUARANTEES has rows", many > 0, str(many))


def tests_are_there(harness):
    """Each test that `Only tested` names, in the last column of its tables, is a group of run.py or a path."""
    import run

    known = run.groups()
    text = read(os.path.join(TOP, "docs", "GUARANTEES.md")).partition("\n## Only tested\n")[2].partition("\n## ")[0]
    named = [name for line in text.splitlines() if line.startswith("| ") for name in re.findall(r"`([^`]+)`", line.split("|")[-2])]
    for name in named:
        front = name.removesuffix(" ..")
        is_group = name in known or (front != name and any(group.startswith(front) for group in known))
        harness.check(f"a test named {name}", is_group or os.path.exists(os.path.join(TOP, name)))
    harness.check("GUARANTEES names tests", len(named) > 10, str(named))


def layers_are_as_drawn(harness):
    """In ARCHITECTURE's picture each crate is in a higher row than those that crates.txt lists for it, but for tests and the example."""
    picture = re.search(r"^```\n(program.*?)^```", read(os.path.join(TOP, "docs", "ARCHITECTURE.md")), re.M | re.S)[1]
    row = {name: at for at, line in enumerate(picture.splitlines()) for name in re.findall(r"mr_\w+", line)}
    table = read(os.path.join(TOP, "docs", "ARCHITECTURE.md"))
    for line in read(os.path.join(TOP, "crates.txt")).splitlines():
        crate, _, below = line.partition(":")
        harness.check(f"{crate} has a line", f"`{crate}`" in table)
        if not crate.endswith("_tests") and crate != "mr_example":
            lower = [name for name in below.split() if name in row and row[name] <= row.get(crate, -1)]
            harness.check(f"{crate} is drawn above what it uses", crate in row and not lower, str(lower))


GROUPS = {"links": links_lead_somewhere, "guarantees": clauses_are_there, "only tested": tests_are_there, "layers": layers_are_as_drawn}
