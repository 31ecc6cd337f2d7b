#!/usr/bin/env python3
"""A plain, slow twin of the store and of each single technique, after docs/TECHNIQUES.md. It shares no code with the crates.

    tests/twin.py write              writes tests/library_cases/drawn.jsonl: for each technique what it does with drawn stores,
                                     told by digests (tests/cases.py then brings them to the program)
    tests/twin.py show LETTER PLACE  prints what is digested for one drawn store; library_cases prints the same for the two
                                     lines `@drawn` and `show-drawn LETTER PLACE`
    tests/twin.py count              prints how many of the drawn stores each technique changes, spends its budget on or refutes
"""
import json
import sys
from itertools import combinations
from pathlib import Path

STORES = 1000  # for each letter
GRAIN = 50  # stores told by one digest


def order(lit):
    return (abs(lit), lit < 0)


def normal(lits):
    return tuple(sorted(set(lits), key=order))


def is_tautology(lits):
    return any(-lit in lits for lit in lits)


# ---- the label view ----

def clauses_of(text):
    """Hard clauses, and soft ones with their weights, of a text in the 2022 form without comments."""
    hard, soft, words = [], [], text.split()
    while words:
        end = words.index("0", 1)
        lits = [int(word) for word in words[1:end]]
        (hard if words[0] == "h" else soft).append(lits if words[0] == "h" else (int(words[0]), lits))
        words = words[end + 1:]
    return hard, soft


class Store:
    """Clauses by id (None where one is gone), weights of literals, offset, repairs."""

    def __init__(self, text, more=0):
        hard, soft = clauses_of(text)
        self.vars = max([abs(lit) for c in hard for lit in c] + [abs(lit) for _, c in soft for lit in c], default=0)
        self.slots = [normal(c) for c in hard if not is_tautology(c)]
        self.offset, self.repairs = 0, []
        charges, labels = {}, {}
        for weight, lits in soft:
            if weight == 0 or is_tautology(lits):
                continue
            lits = normal(lits)
            if not lits:
                self.offset += weight
            elif len(lits) == 1:
                charges[-lits[0]] = charges.get(-lits[0], 0) + weight
            else:
                self.vars += 1
                self.slots.append(normal(lits + (self.vars,)))
                labels[self.vars] = weight
        for lit in list(charges):
            lower = min(charges[lit], charges.get(-lit, 0))
            if lit > 0:
                self.offset += lower
                charges[lit] -= lower
                charges[-lit] = charges.get(-lit, 0) - lower
        self.weights = {lit: w for lit, w in {**charges, **labels}.items() if w}
        self.inner = self.vars + more
        self.refuted = () in self.slots
        if self.refuted:
            self.slots, self.weights = [()], {}

    def live(self):
        return [(id, c) for id, c in enumerate(self.slots) if c is not None]

    def having(self, lit):
        return [id for id, c in self.live() if lit in c]

    def occurring(self):
        return sorted({abs(lit) for _, c in self.live() for lit in c})

    def costs(self):
        return sorted(self.weights, key=order)

    def is_plain(self, lit):
        return not self.having(-lit)

    def replace(self, gone, added, repairs=(), weights=(), shift=0, fresh=0):
        """Clauses go, others get the next ids, weights change, repairs come last; an empty clause leaves nothing else."""
        ids = len(self.slots)
        self.offset += shift
        self.vars += fresh
        self.repairs += [(tuple(sets), tuple(clause)) for sets, clause in repairs]
        if () in added:
            self.slots = [None] * ids + [()]
            self.weights, self.refuted = {}, True
            return
        for id in gone:
            self.slots[id] = None
        self.slots += added
        for lit, weight in dict(weights).items():
            self.weights[lit] = weight
            if not weight:
                del self.weights[lit]

    def fix(self, *fixed):
        """Literals become true for good, all together."""
        false = {-lit for lit in fixed}
        touched = [id for id, c in self.live() if set(c) & (false | set(fixed))]
        added = [tuple(l for l in self.slots[id] if l not in false) for id in touched if not set(self.slots[id]) & set(fixed)]
        weights = {l: 0 for lit in fixed for l in (lit, -lit) if l in self.weights}
        self.replace(touched, added, [((lit,), (lit,)) for lit in fixed], weights, sum(self.weights.get(lit, 0) for lit in fixed))

    def handed_on(self):
        """The store of the state that this one hands on."""
        other = Store("")
        other.vars, other.offset, other.refuted = self.vars, self.offset, self.refuted
        other.slots = [c for _, c in self.live()]
        other.weights = dict(self.weights)
        return other


# ---- turns ----

def run_turns(store, candidates, turn, budget):
    """Turns on the candidates in order, and again on those that a change may have made applicable."""
    queue, changed = list(candidates), False
    while queue:
        if budget == 0:
            return "spent", changed
        budget = None if budget is None else budget - 1
        did = turn(store, queue.pop(0))
        if did == "no room":
            return "no room", changed
        if did is not None:
            changed = True
            if store.refuted:
                return "finished", changed
            queue += [item for item in did if item not in queue]
    return "finished", changed


def ids(store):
    return [id for id, _ in store.live()]


def lowest_unit(store):
    return next((c[0] for _, c in store.live() if len(c) == 1), None)


def units(store, _):
    lit = lowest_unit(store)
    if lit is None:
        return None
    store.fix(lit)
    return [0]


def subsume(store, id):
    clause = store.slots[id]
    if clause is None:
        return None
    gone = [other for other, c in store.live() if other != id and set(clause) <= set(c)]
    if not gone:
        return None
    store.replace(gone, [])
    return []


def strengthen(store, id):
    clause = store.slots[id]
    if clause is None:
        return None
    again = []
    for lit in clause:
        pattern = {-lit} | set(clause) - {lit}
        gone = [other for other, c in store.live() if other != id and pattern <= set(c)]
        if gone:
            first = len(store.slots)
            store.replace(gone, [tuple(l for l in store.slots[other] if l != -lit) for other in gone])
            again += range(first, len(store.slots))
            if store.refuted:
                break
    return again or None


def block(store, id):
    clause = store.slots[id]
    if clause is None:
        return None
    for lit in clause:
        clash = lambda c: any(-other in clause for other in c if other != -lit)
        if lit not in store.weights and all(clash(store.slots[other]) for other in store.having(-lit)):
            near = sorted({other for l in clause for other in store.having(-l)})
            store.replace([id], [], [((lit,), clause)])
            return near
    return None


def in_order(clauses):
    return sorted(clauses, key=lambda c: [order(lit) for lit in c])


def eliminate(store, x):
    pos, neg = store.having(x), store.having(-x)
    if not pos + neg or x in store.weights or -x in store.weights or len(pos) * len(neg) > 256:
        return None
    resolvents = [normal((set(store.slots[c]) - {x}) | (set(store.slots[d]) - {-x})) for c in pos for d in neg]
    resolvents = [c for c in resolvents if not is_tautology(c)]
    if len(resolvents) > len(pos) + len(neg):
        return None
    near = {abs(lit) for id in pos + neg for lit in store.slots[id]}
    repairs = [((x,), c) for c in in_order(store.slots[id] for id in pos)] + [((-x,), (-x,))]
    store.replace(pos + neg, resolvents, repairs)
    return [v for v in sorted(near & set(store.occurring())) if v not in store.weights and -v not in store.weights]


def plain_costs(store):
    return [lit for lit in store.costs() if store.is_plain(lit)]


def fix_false(store, l):
    """Fixes a cost literal false. Answers the literals of the clauses that went, those of the clauses that were shortened, and
    those that share a clause with a cost literal that became plain."""
    went = {lit for id in store.having(-l) for lit in store.slots[id]}
    shortened = {lit for id in store.having(l) for lit in store.slots[id]}
    plain = set(plain_costs(store))
    store.fix(-l)
    freed = set(plain_costs(store)) - plain
    beside = {lit for _, c in store.live() if freed & set(c) for lit in c}
    return went, shortened, beside


def costs_among(store, lits):
    return sorted(lits & set(store.weights), key=order)


def drop_label(store, l):
    """A cost literal that is in no clause, or beside one of at most its weight in each, is fixed false."""
    if l not in store.weights:
        return None
    clauses = [set(store.slots[id]) for id in store.having(l)]
    covers = [b for b in plain_costs(store) if b != l and store.weights[b] <= store.weights[l] and all(b in c for c in clauses)]
    if clauses and not covers:
        return None
    went, _, beside = fix_false(store, l)
    return costs_among(store, went | beside)


def greedy_cover_fails(store, l):
    chosen, sum = set(), 0
    for clause in in_order(store.slots[id] for id in store.having(l)):
        if not chosen & set(clause):
            beside = [b for b in clause if b != l and b in store.weights and store.is_plain(b)]
            if not beside:
                return True
            lit = min(beside, key=lambda b: (store.weights[b], order(b)))
            chosen.add(lit)
            sum += store.weights[lit]
    return sum > store.weights[l]


def drop_group_label(store, l):
    """A cost literal is fixed false whose greedy cover does not fail."""
    if l not in store.weights or greedy_cover_fails(store, l):
        return None
    went, shortened, beside = fix_false(store, l)
    return costs_among(store, went | shortened | beside)


def matches(store, l, m):
    if l == m or store.weights[l] != store.weights[m] or not (store.is_plain(l) and store.is_plain(m)):
        return False
    with_l, with_m = ([store.slots[id] for id in store.having(lit)] for lit in (l, m))
    if any(m in c for c in with_l):
        return False
    return all(is_tautology((set(c) - {l}) | (set(d) - {m})) for c in with_l for d in with_m)


def match(store, taken):
    partner = next((m for m in store.costs() if taken in store.weights and matches(store, taken, m)), None)
    if partner is None:
        return None
    l, m = sorted((taken, partner), key=order)
    with_l, with_m = ([store.slots[id] for id in store.having(lit)] for lit in (l, m))
    gone = store.having(m)
    added = [normal((set(store.slots[id]) - {m}) | {l}) for id in gone]
    repairs = [((m,), d) for d in in_order(with_m)] + [((l,), c) for c in in_order(with_l)] + [((-m,), (-m,)), ((-l,), (-l,))]
    store.replace(gone, added, repairs, {m: 0})
    return []


def is_core(store, l, m):
    if l == m or store.weights[l] != store.weights[m] or not (store.is_plain(l) and store.is_plain(m)):
        return False
    both = [c for _, c in store.live() if l in c and m in c]
    if both != [normal((l, m))]:
        return False
    p, q = len(store.having(l)) - 1, len(store.having(m)) - 1
    return p * q <= p + q


def core(store, taken):
    partner = next((m for m in store.costs() if taken in store.weights and is_core(store, taken, m)), None)
    if partner is None:
        return None
    l, m = sorted((taken, partner), key=order)
    pair, w = normal((l, m)), store.weights[l]
    ids_l = [id for id in store.having(l) if store.slots[id] != pair]
    ids_m = [id for id in store.having(m) if store.slots[id] != pair]
    gone = sorted(set(store.having(l)) | set(store.having(m)))
    near = {abs(lit) for id in gone for lit in store.slots[id]}
    added = [normal((set(store.slots[c]) - {l}) | (set(store.slots[d]) - {m}) | {l}) for c in ids_l for d in ids_m]
    added = [c for c in added if not is_tautology(c)]
    repairs = [((l,), pair)] + [((m,), d) for d in in_order(store.slots[id] for id in ids_m)]
    repairs += [((l,), c) for c in in_order(store.slots[id] for id in ids_l)] + [((-m,), (-m,)), ((-l,), (-l,))]
    store.replace(gone, added, repairs, {m: 0}, w)
    return [lit for lit in store.costs() if abs(lit) in near]


def at_most_one(store, first):
    if first not in store.weights:
        return None
    live = {c for _, c in store.live()}
    chosen = [first]
    for lit in store.costs():
        if lit != first and all(normal((lit, other)) in live for other in chosen):
            chosen.append(lit)
    if len(chosen) < 2:
        return None
    if store.vars >= store.inner:
        return "no room"
    w, fresh = min(store.weights[lit] for lit in chosen), store.vars + 1
    weights = {lit: store.weights[lit] - w for lit in chosen} | {fresh: w}
    store.replace([], [normal([-lit for lit in chosen] + [fresh])], [], weights, (len(chosen) - 1) * w, 1)
    return [first] if first in store.weights else []


def classes(store):
    """The classes of two or more literals that reach each other by the binary clauses."""
    step = {}
    for _, c in store.live():
        if len(c) == 2:
            for a, b in (c, c[::-1]):
                step.setdefault(-a, set()).add(b)

    def reached(lit):
        found, left = {lit}, [lit]
        while left:
            for other in step.get(left.pop(), ()):
                if other not in found:
                    found.add(other)
                    left.append(other)
        return found

    every = [lit for v in store.occurring() for lit in (v, -v)]
    reach = {lit: reached(lit) for lit in every}
    found = []
    for lit in every:
        members = normal([other for other in every if other in reach[lit] and lit in reach[other]])
        if len(members) > 1 and members not in found:
            found.append(members)
    return found


def substitute(store, _):
    found = classes(store)
    if not found:
        return None
    if any(is_tautology(members) for members in found):
        store.replace([], [()])
        return [0]
    instead, repairs, weights, shift = {}, [], dict(store.weights), 0
    for r, *others in in_order(members for members in found if members[0] > 0):
        for lit in others:
            x, t = abs(lit), r if lit > 0 else -r
            instead[x], instead[-x] = t, -t
            repairs += [((x,), normal((x, -t))), ((-x,), normal((-x, t)))]
            for old, new in ((x, t), (-x, -t)):
                weights[new] = weights.get(new, 0) + weights.pop(old, 0)
        both = min(weights.get(r, 0), weights.get(-r, 0))
        weights[r], weights[-r] = weights.get(r, 0) - both, weights.get(-r, 0) - both
        shift += both
    gone = [id for id, c in store.live() if any(lit in instead for lit in c)]
    added = [normal([instead.get(lit, lit) for lit in store.slots[id]]) for id in gone]
    changed = {lit: weights.get(lit, 0) for lit in {*weights, *store.weights} if weights.get(lit, 0) != store.weights.get(lit, 0)}
    store.replace(gone, [c for c in added if not is_tautology(c)], repairs, changed, shift)
    return [0]


def propagated(store, lits):
    """What unit propagation derives from the literals, or None where it conflicts."""
    true = set(lits)
    if is_tautology(true):
        return None
    while True:
        more = set()
        for _, c in store.live():
            if not true & set(c):
                free = [lit for lit in c if -lit not in true]
                if not free:
                    return None
                if len(free) == 1:
                    more.add(free[0])
        if not more:
            return true
        true |= more
        if is_tautology(true):
            return None


def literals(store):
    return [lit for v in store.occurring() for lit in (v, -v)]


def fail(store, x):
    if abs(x) not in store.occurring() or propagated(store, [x]) is not None:
        return None
    before = literals(store)
    store.fix(-x)
    return [lit for lit in before if abs(lit) in store.occurring()]


def is_covered(store, a, b):
    return any(set(c) <= {a, b} for _, c in store.live())


def pair(store, b):
    if b not in store.weights:
        return None
    derived = propagated(store, [-b])
    added = [normal((b, other)) for other in store.costs()
             if other != b and not is_covered(store, b, other) and (derived is None or other in derived)]
    if not added:
        return None
    store.replace([], added)
    return [other for other in store.costs() if other != b]


TECHNIQUES = {
    "u": (lambda store: [0], units),
    "s": (ids, subsume),
    "r": (ids, strengthen),
    "b": (ids, block),
    "v": (Store.occurring, eliminate),
    "e": (lambda store: [0], substitute),
    "l": (Store.costs, drop_label),
    "g": (Store.costs, drop_group_label),
    "m": (Store.costs, match),
    "c": (Store.costs, core),
    "G": (Store.costs, at_most_one),
    "f": (literals, fail),
    "p": (Store.costs, pair),
}

# ---- techniques that ask an oracle ----

def assignments(store):
    """All assignments, as sets of true literals, in the order in which the binary numbers count whose lowest digit is the first
    variable."""
    for number in range(2**store.vars):
        yield {v if number >> v - 1 & 1 else -v for v in range(1, store.vars + 1)}


def asked(store, assumptions, budget):
    """What the oracle of drawn stores answers: the first assignment that makes all clauses and assumptions true, else all
    assumptions as a core; `None` where no clause may be learnt and one is needed."""
    clauses = [c for _, c in store.live()]
    for true in assignments(store):
        if true.issuperset(assumptions) and all(true & set(c) for c in clauses):
            return "model", true
    if budget == 0 and is_spent_at_once(store, assumptions):
        return "unknown", None
    return "core", assumptions


def is_spent_at_once(store, assumptions):
    """Whether a search that must fail meets a conflict under an assumption or a decision before it finds an assumption false.
    A conflict without any needs no clause."""
    true = propagated(store, [])
    if true is None:
        return False
    for lit in assumptions:
        if -lit in true:
            return False
        true = propagated(store, true | {lit})
        if true is None:
            return True
    return True


def trim(store, budget):
    found, changed = [], False
    for b in store.costs():
        if any(-b in true for true in found):
            continue
        verdict, what = asked(store, [-b], budget)
        if verdict == "unknown":
            return "spent", changed
        if verdict == "model":
            found.append(what)
            continue
        store.fix(b)
        changed = True
        if store.refuted:
            break
    return "finished", changed


def pair_cores(store, budget):
    found, changed = [], False
    for a, b in combinations(store.costs(), 2):
        if is_covered(store, a, b) or any({-a, -b} <= true for true in found):
            continue
        verdict, what = asked(store, [-a, -b], budget)
        if verdict == "unknown":
            return "spent", changed
        if verdict == "model":
            found.append(what)
            continue
        store.replace([], [normal((a, b))])
        changed = True
    return "finished", changed


def harden(store, budget):
    verdict, true = asked(store, [], budget)
    if verdict == "unknown":
        return "spent", False
    if verdict == "core":
        store.replace([], [()])
        return "finished", True
    bound = sum(weight for lit, weight in store.weights.items() if lit in true)
    dear = [-lit for lit in store.costs() if lit not in true and store.weights[lit] >= bound]
    if dear:
        store.fix(*dear)
    return f"bound {bound}", bool(dear)


ASKING = {"T": trim, "K": pair_cores, "H": harden}

# the techniques that the program has an arm for
WRITTEN = "usrbvelgmcGfpTKH"


# ---- drawn stores ----

# one literal in so many is negative, so many of three variables have a soft unit clause, and so many different weights
PLAIN_MIX = (2, 1, 3)
LABEL_MIX = (4, 2, 2)


class Draws:
    """Pseudo-random numbers (Marsaglia, 2003)."""

    def __init__(self, place):
        self.state = (place * 2_654_435_769 % 2**32) ^ 2_463_534_242

    def below(self, bound):
        self.state ^= self.state << 13 & 0xFFFFFFFF
        self.state ^= self.state >> 17
        self.state ^= self.state << 5 & 0xFFFFFFFF
        return self.state % bound

    def lit(self, vars, one_negative_in):
        variable = 1 + self.below(vars)
        return -variable if self.below(one_negative_in) == 0 else variable

    def clause(self, vars, len, one_negative_in):
        return "".join(f" {self.lit(vars, one_negative_in)}" for _ in range(len)) + " 0\n"

    def text(self, mix):
        one_negative_in, units_of_three, weights = mix
        vars = 2 + self.below(6)
        text = ""
        for _ in range(self.below(13)):
            len = [1, 2, 2, 2, 2, 3, 3, 4][self.below(8)]
            text += "h" + self.clause(vars, len, one_negative_in)
        for variable in range(1, vars + 1):
            if self.below(3) < units_of_three:
                weight = 1 + self.below(weights)
                text += f"{weight} {variable if self.below(4) == 0 else -variable} 0\n"
        for _ in range(self.below(3)):
            text += f"{1 + self.below(weights)}" + self.clause(vars, 2, one_negative_in)
        return text


# ---- what is printed ----

def lits(list):
    return "".join(f" {lit}" for lit in list)


def shown(store):
    live = [c for _, c in store.live()]
    text = f"store {store.vars} ids {len(store.slots)} offset {store.offset} counts {len(live)} "
    text += f"{sum(len(c) for c in live)} {len(store.weights)}" + (" refuted\n" if store.refuted else "\n")
    text += "".join(f"clause {id}:{lits(c)}\n" for id, c in store.live())
    text += "".join(f"cost {lit} {store.weights[lit]}\n" for lit in store.costs())
    return text + "".join(f"repair{lits(sets)} |{lits(clause)}\n" for sets, clause in store.repairs)


def occurrences(store):
    every = [lit for variable in range(1, store.vars + 1) for lit in (variable, -variable)]
    return "".join(f"with {lit}:{lits(store.having(lit))}\n" for lit in every if store.having(lit))


def ran(ending, changed):
    return ending + (", changed\n" if changed else "\n")


def drawn(letter, place, counts=None):
    """What is printed of the drawn store of a place."""
    numbers = Draws(place)
    text = numbers.text(LABEL_MIX if letter in "lgmcGpTKH" else PLAIN_MIX)
    store = Store(text)
    store.inner = store.vars + numbers.below(3)
    printed = text
    if letter == "=":
        for _ in range(10):
            lit = numbers.lit(8, 2)
            if not store.refuted and abs(lit) <= store.vars:
                store.fix(lit)
            printed += shown(store) + occurrences(store)
    elif not store.refuted:
        number = numbers.below(24)
        if letter in ASKING:
            ending, changed = ASKING[letter](store, 0 if number < 6 else 1000)
        else:
            candidates, turn = TECHNIQUES[letter]
            ending, changed = run_turns(store, candidates(store), turn, None if number > 20 else number)
        if counts is not None:
            kind = "bound" if ending.startswith("bound") else ending
            for key, holds in (("changed", changed), (kind, True), ("refuted", store.refuted)):
                counts[key] = counts.get(key, 0) + holds
        printed += ran(ending, changed) + shown(store) + occurrences(store)
    return printed + shown(store.handed_on())


def digest(texts):
    """Fowler, Noll and Vo, FNV-1a."""
    value = 14_695_981_039_346_656_037
    for text in texts:
        for byte in text.encode():
            value = (value ^ byte) * 1_099_511_628_211 % 2**64
    return value


NAMES = {
    "=": "drawn literals fixed in drawn stores",
    "u": "unit propagation on drawn stores",
    "s": "subsumption on drawn stores",
    "r": "self-subsuming resolution on drawn stores",
    "b": "blocked clause elimination on drawn stores",
    "v": "variable elimination on drawn stores",
    "e": "equivalent literals on drawn stores",
    "l": "subsumed label elimination on drawn stores",
    "g": "group-subsumed label elimination on drawn stores",
    "m": "label matching on drawn stores",
    "c": "binary core removal on drawn stores",
    "G": "at-most-ones on drawn stores",
    "f": "failed-literal probing on drawn stores",
    "p": "pair probing on drawn stores",
    "T": "trimming on drawn stores",
    "K": "pair cores on drawn stores",
    "H": "hardening on drawn stores",
}


def write():
    lines = []
    for letter in "=" + WRITTEN:
        given, wanted = [], []
        for first in range(0, STORES, GRAIN):
            given.append(f"draw {letter} {first} {GRAIN}")
            wanted.append(f"digest {digest(drawn(letter, place) for place in range(first, first + GRAIN))}")
        lines.append(json.dumps({"case": NAMES[letter], "lines": given, "prints": wanted}) + "\n")
    path = Path(__file__).resolve().parent / "library_cases/drawn.jsonl"
    path.write_text("".join(lines))


def count():
    for letter in [*TECHNIQUES, *ASKING]:
        counts = {}
        for place in range(STORES):
            drawn(letter, place, counts)
        print(letter, counts)


if __name__ == "__main__":
    if sys.argv[1:] == ["write"]:
        write()
    elif sys.argv[1:] == ["count"]:
        count()
    elif len(sys.argv) == 4 and sys.argv[1] == "show":
        print(drawn(sys.argv[2], int(sys.argv[3])), end="")
    else:
        sys.exit(__doc__)
