#!/usr/bin/env python3
"""Runs the built program on drawn instances with drawn scripts, and checks what it writes by trying all assignments.

    tests/random_runs.py SEED RUNS

Of each run it checks that the status is 0, that the written instance has a hard model exactly if the original has one, that its
optimum with the offset is the original's, that an optimal answer, carried back, costs just that, also by what `reconstruct` and
`evaluate` say, that the last counts of the log are the sizes of the written instance where nothing is merged, that a map of the
first version is upgraded to the one of the second, and that nothing is written where the text is broken. Then it changes a byte or
a line of the instance, the map and the solution: each must end with 0 or with a status that refuses such a text, and a refusal
writes nothing. It prints the first instance that fails, made as small as it can be by leaving out lines, and ends with status 1. It
is no part of the gate.
"""
import itertools
import os
import random
import subprocess
import sys
import tempfile
from pathlib import Path

PROGRAM = Path(__file__).resolve().parent.parent / "crates/maxpre/out/maxpre"
LETTERS = "usrbvelgmcGfpTKH"


def drawn_instance(draw):
    variables = draw.randint(2, 7)
    signs = draw.choice([(1, -1), (1, 1, 1, -1)])

    def clause(sizes):
        return " ".join(str(draw.choice(signs) * draw.randint(1, variables)) for _ in range(draw.choice(sizes)))

    lines = [f"h {clause([1, 2, 2, 2, 3, 3, 4])} 0" for _ in range(draw.randint(0, 14))]
    lines += [f"{draw.randint(0, 4)} {clause([1, 1, 1, 2, 3])} 0" for _ in range(draw.randint(0, 8))]
    draw.shuffle(lines)
    return lines


def drawn_script(draw):
    groups = []
    for _ in range(draw.randint(1, 3)):
        stages = "".join(draw.choice(LETTERS) + draw.choice(["", "", "{%d}" % draw.randint(0, 6)]) for _ in range(draw.randint(1, 4)))
        groups.append(draw.choice([stages, f"[{stages}]", "[%s]{%d}" % (stages, draw.randint(1, 3))]))
    return "#".join(groups)


def parsed(lines):
    """Hard clauses, soft clauses with their weights, and the greatest variable."""
    hard, soft = [], []
    for words in (line.split() for line in lines if not line.startswith("c")):
        lits = [int(word) for word in words[1:-1]]
        (hard if words[0] == "h" else soft).append(lits if words[0] == "h" else (int(words[0]), lits))
    return hard, soft, max((abs(lit) for c in hard + [c for _, c in soft] for lit in c), default=0)


def cost(hard, soft, values):
    """What the values cost, or none where a hard clause is false."""
    def holds(clause):
        return any(values[abs(lit) - 1] == (lit > 0) for lit in clause)

    return sum(weight for weight, clause in soft if not holds(clause)) if all(map(holds, hard)) else None


def optimum(hard, soft, variables):
    """The least cost with values that have it, or none."""
    found = [(cost(hard, soft, values), values) for values in itertools.product((False, True), repeat=variables)]
    return min((pair for pair in found if pair[0] is not None), default=None)


def run(*words):
    return subprocess.run([PROGRAM, *words], capture_output=True, text=True)


def fault(lines, script, options):
    """What is wrong with the run, or none."""
    for name in ("map", "answer"):
        Path(name).unlink(missing_ok=True)
    Path("instance").write_text("".join(line + "\n" for line in lines))
    did = run("preprocess", "instance", f"--techniques={script}", "--mapfile=map", *options)
    if did.returncode != 0:
        return f"status {did.returncode}: {did.stderr}"
    run("preprocess", "instance", f"--techniques={script}", "--mapfile=first", *options, "--mapversion=1")
    run("upgrade", "first", "--mapfile=upgraded")
    if Path("upgraded").read_bytes() != Path("map").read_bytes():
        return "the map of the first version is upgraded to another one"
    written = did.stdout.splitlines()
    hard, soft, variables = parsed(lines)
    small_hard, small_soft, small_variables = parsed(written)
    offset = int(written[0].split()[2])
    best, small = optimum(hard, soft, variables), optimum(small_hard, small_soft, small_variables)
    if (best is None) != (small is None):
        return "one of both has no hard model"
    stages = [line.split() for line in did.stderr.splitlines() if line.startswith("c stage")]
    sizes = [len(small_hard), sum(map(len, small_hard)), len(small_soft)]
    if stages and not options and not did.stderr.endswith("c refuted\n") and list(map(int, stages[-1][4:])) != sizes:
        return f"the log counts {stages[-1][4:]}, and the instance has {sizes}"
    if best is None:
        return None
    if best[0] != small[0] + offset:
        return f"the optimum is {best[0]}, and {small[0]} with the offset {offset}"
    Path("answer").write_text("s OPTIMUM FOUND\nv " + "".join("01"[value] for value in small[1]) + "\n")
    back = run("reconstruct", "answer", "--mapfile=map", "--original=instance")
    Path("back").write_text(back.stdout)
    told = run("evaluate", "instance", "--solution=back")
    if [back.stdout.split("\n")[0], told.stdout.split("\n")[0]] != [f"o {best[0]}"] * 2:
        return f"the costs that are told are {back.stdout!r} and {told.stdout!r}, not {best[0]}"
    values = [digit == "1" for digit in back.stdout.splitlines()[-1][2:]]
    values += [False] * (variables - len(values))
    if cost(hard, soft, values) != best[0]:
        return f"the answer comes back as {values} at {cost(hard, soft, values)}, not {best[0]}"
    return None


def broken_fault(draw, lines):
    """What is wrong with a run on a text that is cut off within its last clause, or none."""
    Path("map").unlink(missing_ok=True)
    Path("instance").write_text("\n".join(lines)[: -draw.randint(1, 2)])
    did = run("preprocess", "instance", "--mapfile=map")
    if did.returncode != 5 or did.stdout or Path("map").exists():
        return f"a broken text ends with {did.returncode} and {did.stdout!r}"
    return None


def mutated(draw, text):
    """The bytes with a small change."""
    place, end = draw.randrange(len(text) + 1), draw.randrange(len(text) + 1)
    lines = text.splitlines(keepends=True)
    return draw.choice([
        text[:place] + bytes([draw.choice(b"0123456789 -chvos\n\r\t+x\0\xff")]) + text[place:],
        text[:place] + bytes([draw.choice(b"0123456789 -chvos\n\r\t+x\0\xff")]) + text[place + 1 :],
        text[:place] + text[place + 1 :],
        text[:place],
        text[: min(place, end)] + text[max(place, end) :],
        b"".join(draw.sample(lines, len(lines))),
        b"".join(lines + lines[-1:]),
    ])  # fmt: skip


def mutation_fault(draw):
    """What is wrong with runs on changed texts of the files that a run left, or none."""
    runs = {
        "instance": [("preprocess changed --mapfile=made", {0, 5, 6}), ("evaluate changed --solution=answer", {0, 5, 6, 8, 9})],
        "map": [("reconstruct answer --mapfile=changed", {0, 7, 8}), ("upgrade changed --mapfile=made", {0, 7})],
        "answer": [("reconstruct changed --mapfile=map --original=instance", {0, 8, 9}), ("evaluate instance --solution=changed", {0, 8, 9})],
    }
    # there is none where no values are a hard model
    if not Path("answer").exists():
        return None
    for name in runs:
        text = mutated(draw, Path(name).read_bytes())
        Path("changed").write_bytes(text)
        for words, statuses in runs[name]:
            Path("made").unlink(missing_ok=True)
            did = run(*words.split())
            if did.returncode not in statuses:
                return f"{words} ends with {did.returncode} where {name} is {text!r}"
            if did.returncode != 0 and (did.stdout or Path("made").exists() or did.stderr.count("\n") != 1):
                return f"{words} is refused and writes {did.stdout!r}, {did.stderr!r} where {name} is {text!r}"
    return None


def main():
    draw, runs = random.Random(int(sys.argv[1])), int(sys.argv[2])
    with tempfile.TemporaryDirectory() as folder:
        os.chdir(folder)
        for _ in range(runs):
            lines, script, options = drawn_instance(draw), drawn_script(draw), draw.choice([[], ["--merge=yes"]])
            wrong = fault(lines, script, options) or mutation_fault(draw) or (broken_fault(draw, lines) if lines else None)
            if wrong:
                place = 0
                while place < len(lines):
                    fewer = lines[:place] + lines[place + 1 :]
                    if fault(fewer, script, options):
                        lines = fewer
                    else:
                        place += 1
                print("\n".join(lines), f"--techniques={script}", *options, fault(lines, script, options) or wrong, sep="\n")
                sys.exit(1)
    print(f"{runs} runs, none failed")


main()
