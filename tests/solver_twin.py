#!/usr/bin/env python3
"""Queries to the solver, and what a slow twin that tries all assignments says of them.

    tests/solver_twin.py            writes crates/solver_cases/stdin and stdout
    tests/solver_twin.py --check    writes nothing, and fails where one of these files is not current

First comes a table, whose verdicts are wanted as they stand. Then 2,000 drawn queries: 1 to 8 variables, 0 to 30 clauses,
0 to 3 assumptions. Half have a budget of 1,000, which so few variables can't spend: there the verdict has to be a model
(`m`) exactly where some model makes the assumptions true, and a core (`c`) otherwise. The others have a budget of 0 to 10:
there it depends on the decisions whether it is spent, so that the twin wants a verdict that passes its check (`.`). What the
check is, `evaluation.rt` of the program says: every model, core and learnt clause is evaluated, in both halves.
"""
import itertools
import random
import sys
from pathlib import Path

PROGRAM = Path(__file__).resolve().parent.parent / "crates" / "solver_cases"
AMPLE = 1000
IN_A_LINE = 50

PIGEONS = [[1, 2], [3, 4], [5, 6], [-1, -3], [-1, -5], [-3, -5], [-2, -4], [-2, -6], [-4, -6]]

# name, variables, clauses, assumptions, budget, verdict
TABLE = [
    ("one clause", 2, [[1, 2]], [], 0, "model"),
    ("units that clash", 1, [[1], [-1]], [], 0, "core"),
    ("an empty clause", 2, [[1, 2], []], [1], 0, "core"),
    ("an assumption that fails", 3, [[1, 3], [1, -3]], [-1], AMPLE, "core -1"),
    ("the same with nothing to spend", 3, [[1, 3], [1, -3]], [-1], 0, "unknown 0"),
    ("a conflict below every decision needs no clause", 2, [[1], [-1, 2], [-1, -2]], [2], 0, "core"),
    ("an assumption against a unit", 2, [[1]], [-1, 2], 0, "core -1"),
    ("three pigeons in two holes", 6, PIGEONS, [], AMPLE, "core"),
]


def query_of(variables, clauses, assumptions, budget):
    """How a query stands in a line."""
    def words(clause):
        return " ".join(map(str, clause))
    # a lone empty clause would read as no clause at all
    assert clauses != [[]]
    return f"{variables} {budget};{words(assumptions)};{','.join(map(words, clauses))}"


def drawn(source):
    """A query without its budget."""
    variables = source.randint(1, 8)
    def literals(count):
        return [v * source.choice((1, -1)) for v in sorted(source.sample(range(1, variables + 1), count))]
    clauses = [literals(min(variables, source.choice((1, 2, 2, 3, 3, 3, 4)))) for _ in range(source.randint(0, 30))]
    return variables, clauses, literals(source.randint(0, min(3, variables)))


def has_model(variables, clauses, assumptions):
    """Whether some assignment makes all clauses and assumptions true."""
    needed = clauses + [[literal] for literal in assumptions]
    for values in itertools.product((False, True), repeat=variables):
        if all(any(values[abs(literal) - 1] == (literal > 0) for literal in clause) for clause in needed):
            return True
    return False


def tables():
    """What the program reads, and what it must print."""
    lines, wanted = [], []
    for name, variables, clauses, assumptions, budget, verdict in TABLE:
        lines += [f"case {name}", f"show {query_of(variables, clauses, assumptions, budget)}"]
        wanted += [f"case {name}", verdict]
    source = random.Random(20)
    for start in range(0, 2000, IN_A_LINE):
        letters = ""
        for place in range(start, start + IN_A_LINE):
            query = drawn(source)
            if place % 2 == 0:
                lines.append(f"kind {query_of(*query, AMPLE)}")
                letters += "m" if has_model(*query) else "c"
            else:
                lines.append(f"try {query_of(*query, source.randint(0, 10))}")
                letters += "."
        lines.append("line")
        wanted.append(letters)
    return "\n".join(lines) + "\n", "\n".join(wanted) + "\n"


def main():
    lines, wanted = tables()
    files = {PROGRAM / "stdin": lines, PROGRAM / "stdout": wanted}
    if sys.argv[1:] == ["--check"]:
        stale = [path for path, text in files.items() if not path.exists() or path.read_text() != text]
        for path in stale:
            print(f"{path} is not what the twin says: run tests/solver_twin.py")
        sys.exit(bool(stale))
    for path, text in files.items():
        path.write_text(text)


main()
