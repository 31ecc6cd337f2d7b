#!/usr/bin/env python3
"""Prints an instance of some thousand clauses, in the 2022 form, as three kinds of users have them: make.py NAME

    planner    a truck brings parcels along roads; which actions, at which step, at the least cost in all (a plan of a fixed
               number of steps, with frame axioms)
    scheduler  lectures get slots and rooms; some can't be at the same time, and each dislikes slots by more or less
    verifier   an adder of many bits gives wrong sums for known inputs; which gates, as light as can be, are broken

The draws are a fixed linear congruence, so that a name always gives the same bytes."""
import sys


class Instance:
    def __init__(self, seed):
        self.state, self.last, self.lines = seed, 0, []

    def draw(self, below):
        self.state = (self.state * 6364136223846793005 + 1442695040888963407) % 2**64
        return (self.state >> 33) % below

    def variable(self):
        self.last += 1
        return self.last

    def variables(self, *keys):
        return {key: self.variable() for key in keys}

    def hard(self, *lits):
        self.lines.append("h " + " ".join(map(str, lits)) + " 0")

    def soft(self, weight, *lits):
        self.lines.append(f"{weight} " + " ".join(map(str, lits)) + " 0")

    def at_most_one(self, lits):
        for at, first in enumerate(lits):
            for second in lits[at + 1 :]:
                self.hard(-first, -second)

    def exactly_one(self, lits):
        self.hard(*lits)
        self.at_most_one(lits)


def planner(places=9, parcels=4, steps=11):
    """The truck does one action a step, or waits."""
    it = Instance(7)
    roads = sorted({(a, (a + 1) % places) for a in range(places)} | {(0, places // 2), (2, places - 2)})
    roads = sorted(roads + [(b, a) for a, b in roads])
    starts = [it.draw(places) for _ in range(parcels)]
    goals = [(start + 1 + it.draw(places - 1)) % places for start in starts]
    truck = [it.variables(*range(places)) for _ in range(steps + 1)]
    lies = [[it.variables(*range(places)) for _ in range(parcels)] for _ in range(steps + 1)]
    rides = [[it.variable() for _ in range(parcels)] for _ in range(steps + 1)]
    for place in range(places):
        it.hard(truck[0][place] if place == 0 else -truck[0][place])
        for p in range(parcels):
            it.hard(lies[0][p][place] if place == starts[p] else -lies[0][p][place])
    for p in range(parcels):
        it.hard(-rides[0][p])
        it.hard(lies[steps][p][goals[p]])
    for t in range(steps):
        drive = it.variables(*roads)
        load = it.variables(*[(p, a) for p in range(parcels) for a in range(places)])
        drop = it.variables(*[(p, a) for p in range(parcels) for a in range(places)])
        it.at_most_one(list(drive.values()))
        for (a, b), act in drive.items():
            it.hard(-act, truck[t][a])
            it.hard(-act, truck[t + 1][b])
            it.hard(-act, -truck[t + 1][a])
            it.soft(3 + (5 * a + 3 * b) % 7, -act)
        for (p, a), act in load.items():
            it.hard(-act, truck[t][a])
            it.hard(-act, lies[t][p][a])
            it.hard(-act, rides[t + 1][p])
            it.hard(-act, -lies[t + 1][p][a])
            it.soft(1, -act)
        for (p, a), act in drop.items():
            it.hard(-act, truck[t][a])
            it.hard(-act, rides[t][p])
            it.hard(-act, lies[t + 1][p][a])
            it.hard(-act, -rides[t + 1][p])
            it.soft(1, -act)
        for a in range(places):
            # what was not so before and is so now was brought about by an action
            it.hard(truck[t][a], -truck[t + 1][a], *[act for (_, b), act in drive.items() if b == a])
            it.hard(-truck[t][a], truck[t + 1][a], *[act for (b, _), act in drive.items() if b == a])
            for p in range(parcels):
                it.hard(lies[t][p][a], -lies[t + 1][p][a], drop[p, a])
                it.hard(-lies[t][p][a], lies[t + 1][p][a], load[p, a])
        for p in range(parcels):
            it.hard(rides[t][p], -rides[t + 1][p], *[load[p, a] for a in range(places)])
            it.hard(-rides[t][p], rides[t + 1][p], *[drop[p, a] for a in range(places)])
    return it


def scheduler(lectures=18, slots=8, rooms=3):
    """Lectures that share students or a teacher are at different times."""
    it = Instance(11)
    at = [it.variables(*range(slots)) for _ in range(lectures)]
    of = [it.variables(*range(rooms)) for _ in range(lectures)]
    for one in range(lectures):
        it.exactly_one(list(at[one].values()))
        it.exactly_one(list(of[one].values()))
        for slot in range(slots):
            dislike = it.draw(12)
            if dislike:
                it.soft(dislike, -at[one][slot])
        # a large lecture does not fit into the small room
        if it.draw(3) == 0:
            it.soft(20, -of[one][0])
        for other in range(one):
            if it.draw(3) == 0:
                for slot in range(slots):
                    it.hard(-at[one][slot], -at[other][slot])
            for slot in range(slots):
                for room in range(rooms):
                    it.hard(-at[one][slot], -at[other][slot], -of[one][room], -of[other][room])
    return it


def verifier(bits=16, runs=9, broken=(3, 31, 52)):
    """Each gate does what it should, unless it is broken; it costs its size to say that it is."""
    it = Instance(5)
    gates = []
    for bit in range(bits):
        a, b, carry = ("a", bit), ("b", bit), ("carry", bit)
        half, both, through = ("half", bit), ("both", bit), ("through", bit)
        gates += [("xor", half, a, b), ("xor", ("sum", bit), half, carry), ("and", both, a, b)]
        gates += [("and", through, half, carry), ("or", ("carry", bit + 1), both, through)]
    sound = [it.variable() for _ in gates]
    for at, gate in enumerate(gates):
        it.soft({"xor": 3, "and": 2, "or": 2}[gate[0]], sound[at])
    work = {"xor": lambda x, y: x != y, "and": lambda x, y: x and y, "or": lambda x, y: x or y}
    for _ in range(runs):
        values = {("carry", 0): False}
        for bit in range(bits):
            values["a", bit], values["b", bit] = bool(it.draw(2)), bool(it.draw(2))
        inputs = dict(values)
        for at, (kind, out, x, y) in enumerate(gates):
            values[out] = work[kind](values[x], values[y]) != (at in broken)
        wires = {name: it.variable() for name in values}
        for name, value in inputs.items():
            it.hard(wires[name] if value else -wires[name])
        for name, value in values.items():
            if name[0] == "sum" or name == ("carry", bits):
                it.hard(wires[name] if value else -wires[name])
        for ok, (kind, out, x, y) in zip(sound, gates):
            z, x, y = wires[out], wires[x], wires[y]
            if kind == "xor":
                for signs in ((1, 1, -1), (-1, -1, -1), (1, -1, 1), (-1, 1, 1)):
                    it.hard(-ok, signs[0] * x, signs[1] * y, signs[2] * z)
            else:
                sign = 1 if kind == "and" else -1
                it.hard(-ok, -sign * x, -sign * y, sign * z)
                it.hard(-ok, sign * x, -sign * z)
                it.hard(-ok, sign * y, -sign * z)
    return it


FAMILIES = {"planner": planner, "scheduler": scheduler, "verifier": verifier}

if __name__ == "__main__":
    if len(sys.argv) != 2 or sys.argv[1] not in FAMILIES:
        sys.exit(__doc__)
    print("\n".join(FAMILIES[sys.argv[1]]().lines))
