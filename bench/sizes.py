#!/usr/bin/env python3
"""Prints the numbers of clauses and literals of an instance in either form; with a second name, also writes its hard
clauses there in DIMACS CNF, for solvers: sizes.py WCNF [CNF]"""
import sys

top, clauses, literals, greatest, hard = None, 0, 0, 0, []
for line in open(sys.argv[1], "rb"):
    words = line.split()
    if not words or words[0].startswith(b"c"):
        continue
    if words[0] == b"p":
        top = int(words[4]) if len(words) > 4 else 0
        continue
    clauses += 1
    literals += len(words) - 2
    if len(sys.argv) > 2:
        greatest = max([greatest] + [abs(int(word)) for word in words[1:-1]])
        if words[0] == b"h" or (top and int(words[0]) >= top):
            hard.append(b" ".join(words[1:]) + b"\n")
if len(sys.argv) > 2:
    with open(sys.argv[2], "wb") as out:
        out.write(b"p cnf %d %d\n" % (greatest, len(hard)))
        out.writelines(hard)
print(clauses, literals)
