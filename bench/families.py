#!/usr/bin/env python3
"""Prints an instance in the 2022 form of a family, of about SIZE literals: families.py NAME SIZE

    chain          implications from each variable to the next
    ring           the same, back to the first: all variables are equivalent
    set-cover      each element is in one of its four drawn sets, and each set costs something
    vertex-cover   one end of each drawn edge is taken, and each vertex costs something
    at-most-ones   groups of a thousand literals of which two are never true together: popular literals
    equal-weights  labels of one weight, most of them in one clause

The draws are a fixed linear congruence, so that a size always gives the same bytes."""
import sys

state = 12345


def draw(below):
    global state
    state = (state * 6364136223846793005 + 1442695040888963407) % 2**64
    return (state >> 33) % below


def chain(size):
    for v in range(1, size // 2):
        yield f"h -{v} {v + 1} 0"
    for v in range(1, size // 2, 10):
        yield f"{1 + draw(9)} -{v} 0"


def ring(size):
    yield from chain(size)
    yield f"h -{size // 2} 1 0"


def set_cover(size):
    sets = max(4, size // 8)
    for _ in range(size // 4):
        yield "h " + " ".join(str(v) for v in sorted({1 + draw(sets) for _ in range(4)})) + " 0"
    for v in range(1, sets + 1):
        yield f"{1 + draw(20)} -{v} 0"


def vertex_cover(size):
    vertices = max(2, size // 6)
    for _ in range(size // 2):
        one = 1 + draw(vertices)
        other = 1 + draw(vertices)
        if one != other:
            yield f"h {one} {other} 0"
    for v in range(1, vertices + 1):
        yield f"{1 + draw(20)} -{v} 0"


def at_most_ones(size):
    for group in range(max(1, size // 1_000_000)):
        variables = range(group * 1000 + 1, group * 1000 + 1001)
        yield "h " + " ".join(map(str, variables)) + " 0"
        for first in variables:
            for second in range(first + 1, variables.stop):
                yield f"h -{first} -{second} 0"
        for v in variables[::7]:
            yield f"{1 + v % 5} -{v} 0"


def equal_weights(size):
    for v in range(1, size // 4, 2):
        yield f"h {v} {v + 1} {size // 4 + 1 + v % 9} 0"
    for v in range(1, size // 4):
        yield f"7 -{v} 0"


name, size = sys.argv[1].replace("-", "_"), int(sys.argv[2])
sys.stdout.writelines(line + "\n" for line in globals()[name](size))
