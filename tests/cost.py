#!/usr/bin/env python3
"""Prints the cost of the values in a solution (one word of bits) for an instance in the 2022 form, or the first hard clause
that is false. It shares no code with the program."""
import sys

clauses = []
for line in open(sys.argv[1]):
    words = line.split()
    if words and words[0] != "c":
        clauses.append((words[0], [int(word) for word in words[1:-1]]))
bits = [line.split()[1] for line in open(sys.argv[2]) if line.startswith("v ")][0]
value = {variable + 1: bit == "1" for variable, bit in enumerate(bits)}
cost = 0
for number, (mark, literals) in enumerate(clauses, 1):
    if not any(value.get(abs(l), False) == (l > 0) for l in literals):
        if mark == "h":
            sys.exit(f"clause {number} is false")
        cost += int(mark)
print(cost)
