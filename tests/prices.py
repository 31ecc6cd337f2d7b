#!/usr/bin/env python3
"""Prints what each crate costs the gate, as the table of docs/PROOFS.md: lines of code with clauses, of definitions and of
proofs (without blanks), the number of edits that must fail, and the processor minutes of its check from nothing, of the check of its tests and
of its edits.

    tests/prices.py [CRATE..]      all crates of crates.txt, or these

It works on a copy of the repository in a new folder, which it removes. Crates that are not priced are proved there over what
earlier checks on this machine kept; a priced one is made new to them by a comment at its end. Each command has one job, and
the load of the machine stands below the table, since processor time rises with it too.
"""
import os
import random
import resource
import shutil
import subprocess
import sys
import tempfile
from pathlib import Path

TOP = Path(__file__).resolve().parent.parent


def crates_of(text):
    """The crates of crates.txt with those below each, lowest first."""
    below = {}
    for line in text.splitlines():
        name, colon, deps = line.partition(":")
        if colon and not line.startswith("#"):
            below[name.split()[0]] = deps.split()
    ordered = []
    while len(ordered) < len(below):
        ordered += [n for n in below if n not in ordered and all(d in ordered or d not in below for d in below[n])]
    return ordered, below


def lines(folder, end):
    """Lines that are not blank, of the files below a folder with this end of their names."""
    return sum(bool(line.strip()) for path in folder.rglob(f"*{end}") for line in path.read_text().splitlines())


def minutes(command, cwd):
    """Processor minutes of a command with all that it starts, and whether it ended well."""
    before = resource.getrusage(resource.RUSAGE_CHILDREN)
    ended = subprocess.run(command, cwd=cwd, stdout=subprocess.DEVNULL, stderr=subprocess.DEVNULL)
    after = resource.getrusage(resource.RUSAGE_CHILDREN)
    spent = after.ru_utime - before.ru_utime + after.ru_stime - before.ru_stime
    return f"{spent / 60:.1f}" + ("" if ended.returncode == 0 else " (failed)")


def from_nothing(crate):
    """Leaves nothing for a check of the crate to begin with."""
    shutil.rmtree(crate / "out", ignore_errors=True)
    (crate / "out/incremental").mkdir(parents=True)


def price(copy, name):
    """The row of a crate in the table."""
    crate = copy / "crates" / name
    sources = "".join(path.read_text() for path in (crate / "src").rglob("*.rt"))
    edits = len(list((crate / "must-fail").glob("*.edit")))
    counts = [lines(crate / "src", ".rt"), lines(crate / "specs", ".antt"), lines(crate / "proofs", ".antt"), edits]
    root = next(path for path in (crate / "src/lib.rt", crate / "src/main.rt") if path.exists())
    root.write_text(root.read_text() + f"// priced {random.random()}\n")
    tests = "-"
    if "#[test]" in sources:
        from_nothing(crate)
        tests = minutes(["rt", "check", "--test", "--jobs", "1"], crate)
    from_nothing(crate)
    check = minutes(["rt", "check", "--jobs", "1"], crate)
    refused = minutes(["rt", "must-fail", name, "--anew"], copy) if edits else "-"
    return f"| {name} | {' | '.join(map(str, counts))} | {check} | {tests} | {refused} |"


def main():
    room = Path(tempfile.mkdtemp(prefix="prices-"))
    try:
        copy = room / "copy"
        shutil.copytree(TOP, copy, ignore=shutil.ignore_patterns("out", ".git"))
        subprocess.run(["git", "init", "-q"], cwd=copy, check=True)
        ordered, below = crates_of((copy / "crates.txt").read_text())
        wanted = sys.argv[1:] or ordered
        needed = set(wanted)
        for name in reversed(ordered):
            if name in needed:
                needed |= {dep for dep in below[name] if dep in below}
        print("| crate | code | definitions | proofs | edits | check | tests | refusals |")
        print("|---|---|---|---|---|---|---|---|", flush=True)
        for name in ordered:
            if name in wanted:
                print(price(copy, name), flush=True)
            elif name in needed:
                subprocess.run(["rt", "check", "--jobs", "1"], cwd=copy / "crates" / name, capture_output=True)
            # built now, so that the crates above do not pay for it
            if name in needed and (copy / "crates" / name / "src/lib.rt").exists():
                subprocess.run(["rt", "lib"], cwd=copy / "crates" / name, capture_output=True)
        load = ", ".join(f"{part:.1f}" for part in os.getloadavg())
        print(f"\n{os.cpu_count()} processors, load {load} at the end.")
    finally:
        shutil.rmtree(room)


if __name__ == "__main__":
    main()
