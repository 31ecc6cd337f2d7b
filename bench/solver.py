"""The solver beside minisat: conflicts, the processor's seconds, and the ratio of their seconds a conflict.

    bench/solver.py PROGRAM [FILE]..     PROGRAM is that of crates/solver_cases, which reads queries

The verdict doesn't tell the conflicts: they are the least budget that isn't spent, found by halves.
"""
import os
import random
import re
import resource
import shutil
import subprocess
import sys
import tempfile

AMPLE = 2**32 - 1


def drawn(variables, seed):
    """3-clauses, 4.26 for each variable."""
    source = random.Random(seed)
    clauses = []
    for _ in range(int(variables * 4.26)):
        chosen = sorted(source.sample(range(1, variables + 1), 3))
        clauses.append([v * source.choice((1, -1)) for v in chosen])
    return variables, clauses


def pigeons(holes):
    """One more pigeon than there are holes."""
    def at(pigeon, hole):
        return pigeon * holes + hole + 1
    clauses = [[at(p, h) for h in range(holes)] for p in range(holes + 1)]
    clauses += [[-at(p, h), -at(q, h)] for h in range(holes) for p in range(holes + 1) for q in range(p + 1, holes + 1)]
    return holes * (holes + 1), clauses


def read(path):
    """The clauses of a DIMACS file as a query may have them: in the order of variables, without repeats and tautologies."""
    clauses, variables = [], 0
    for line in open(path):
        if line[:1] in "cp%" or not line.strip():
            continue
        literals = set(map(int, line.split())) - {0}
        variables = max([variables, *map(abs, literals)])
        if not any(-literal in literals for literal in literals):
            clauses.append(sorted(literals, key=abs))
    return variables, clauses


def run(words, text):
    """What a program prints, and the processor's seconds that it took."""
    def used():
        usage = resource.getrusage(resource.RUSAGE_CHILDREN)
        return usage.ru_utime + usage.ru_stime
    before = used()
    out = subprocess.run(words, input=text, text=True, stdout=subprocess.PIPE, stderr=subprocess.DEVNULL).stdout
    return out, used() - before


def solved(program, variables, clauses):
    """The conflicts and the least of three times in seconds."""
    stated = ",".join(" ".join(map(str, clause)) for clause in clauses)

    def ask(budget):
        return run([program], f"kind {variables} {budget};;{stated}\n")

    seconds = min(ask(AMPLE)[1] for _ in range(3))
    low, high = -1, 1
    while ask(high)[0] == "u":
        low, high = high, 2 * high
    while low + 1 < high:
        middle = (low + high) // 2
        if ask(middle)[0] == "u":
            low = middle
        else:
            high = middle
    return high, seconds


def rival(variables, clauses):
    """The same of minisat, without its simplifier."""
    with tempfile.NamedTemporaryFile("w", suffix=".cnf") as file:
        file.write(f"p cnf {variables} {len(clauses)}\n")
        file.writelines(" ".join(map(str, [*clause, 0])) + "\n" for clause in clauses)
        file.flush()
        runs = [run(["minisat", "-no-pre", file.name], "") for _ in range(3)]
    return int(re.search(r"conflicts\s*:\s*(\d+)", runs[0][0]).group(1)), min(seconds for _, seconds in runs)


def main():
    program, *files = sys.argv[1:]
    instances = [(os.path.basename(path), read(path)) for path in files]
    if not files:
        instances = [(f"drawn, {n} variables, {seed}", drawn(n, seed)) for n in (150, 200) for seed in range(3)]
        instances += [(f"pigeons, {holes} holes", pigeons(holes)) for holes in (6, 7)]
    for name, (variables, clauses) in instances:
        conflicts, seconds = solved(program, variables, clauses)
        line = f"{name:28} {conflicts:8} conflicts {seconds:7.2f} s"
        if shutil.which("minisat"):
            others, time = rival(variables, clauses)
            each = (seconds / max(conflicts, 1)) / (time / max(others, 1))
            line += f"   minisat {others:8} conflicts {time:7.2f} s   a conflict {each:.1f}"
        print(line, flush=True)


main()
