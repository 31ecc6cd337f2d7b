#!/usr/bin/env python3
"""Prints an instance in the 2022 form: N hard clauses of three literals without units, over N / 4 variables, and a unit
soft clause for every tenth variable; with a second number U, also a chain of U units. The draws are a fixed linear
congruence, so that a size always gives the same bytes."""
import sys

clauses = int(sys.argv[1])
chain = int(sys.argv[2]) if len(sys.argv) > 2 else 0
variables = max(8, clauses // 4)
state = 12345


def draw(below):
    global state
    state = (state * 6364136223846793005 + 1442695040888963407) % 2**64
    return (state >> 33) % below


out = []
for _ in range(clauses):
    first = 1 + draw(variables)
    second = 1 + draw(variables)
    third = 1 + draw(variables)
    lits = [v if draw(2) else -v for v in sorted({first, second, third})]
    while len(lits) < 2:
        lits.append(variables + 1)
    out.append("h " + " ".join(map(str, lits)) + " 0")
for v in range(1, variables, 10):
    out.append(f"{1 + draw(9)} {-v} 0")
if chain:
    base = variables + 1
    out.append(f"h {base + 1} 0")
    for k in range(1, chain):
        out.append(f"h -{base + k} {base + k + 1} 0")
sys.stdout.write("\n".join(out) + "\n")
