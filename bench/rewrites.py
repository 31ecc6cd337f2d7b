#!/usr/bin/env python3
"""Prints what `yardstick rewrites-ORDER N` is to print, by a plain table of clauses: rewrites.py near|far N"""
import sys

near, many = sys.argv[1] == "near", int(sys.argv[2])
state = 2463534242


def below(bound):
    global state
    state ^= state << 13 & 0xFFFFFFFF
    state ^= state >> 17
    state ^= state << 5 & 0xFFFFFFFF
    return state % bound


def clause(place):
    third = many // 12 + 1
    part = min(third, 64) if near else third
    base = 3 * (place % (third - part + 1)) if near else 0
    lits = []
    for first in (base, base + part, base + 2 * part):
        variable = first + 1 + below(part)
        lits.append(-variable if below(2) == 1 else variable)
    return lits


live = {place: clause(place) for place in range(many)}
fresh, applied = many, 0
for turn in range(many):
    place = turn if near else turn * 2654435761 % max(1, many)
    if place in live:
        added = [clause(place) for _ in range(below(2))]
        del live[place]
        for lits in added:
            live[fresh] = lits
            fresh += 1
        applied += 1
print("begun", many, "applied", applied, "clauses", len(live), "literals", sum(map(len, live.values())))
