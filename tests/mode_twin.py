#!/usr/bin/env python3
"""A plain, slow twin of whole runs, after docs/FORMATS.md and docs/TECHNIQUES.md: scripts with their log, the written and the
merged form, maps of both versions and their upgrade, values carried back with their cost, and the instance of a workload. It
takes the store and the techniques from tests/twin.py, and shares no code with the crates.

    tests/mode_twin.py write    writes tests/cases/drawn.jsonl: drawn instances under drawn words, through all modes
"""
import json
import sys
from pathlib import Path

sys.dont_write_bytecode = True
from twin import Draws, LABEL_MIX, PLAIN_MIX, Store, TECHNIQUES, clauses_of, in_order, lits, normal, order, run_turns

DRAWN = 60  # instances
SCRIPTS = ["#", "u", "b", "[bu]", "v", "e", "c", "m", "lg", "sr", "[bu]#[buvsrgc]", "[usrbve]", "v{1}c", "[vc{2}]{1}", "G", "[fp]"]


# ---- scripts ----

def stages_of(text):
    """Letters with their budgets, none where no number stands behind."""
    stages = []
    while text:
        letter, text, budget = text[0], text[1:], None
        if text.startswith("{"):
            number, text = text[1:].split("}", 1)
            budget = int(number)
        stages.append((letter, budget))
    return stages


def groups_of(script):
    """The groups of a script without nested braces: stages, and whether they are a loop and of how many rounds."""
    groups, rest = [], script
    while rest:
        if rest[0] == "#":
            rest = rest[1:]
        elif rest[0] == "[":
            inner, rest = rest[1:].split("]", 1)
            rounds = None
            if rest.startswith("{"):
                number, rest = rest[1:].split("}", 1)
                rounds = int(number)
            groups.append((stages_of(inner), True, rounds))
        else:
            end = min((at for at in (rest.find("["), rest.find("#")) if at >= 0), default=len(rest))
            groups.append((stages_of(rest[:end]), False, None))
            rest = rest[end:]
    return groups


def sizes(store):
    live = [c for _, c in store.live()]
    return f"{len(live)} {sum(map(len, live))} {len(store.weights)}"


def run_round(store, stages, log):
    """Runs stages in order. Answers whether one changed something, and whether each took all its turns."""
    changed, whole = False, True
    for letter, budget in stages:
        if store.refuted:
            break
        candidates, turn = TECHNIQUES[letter]
        ending, did = run_turns(store, candidates(store), turn, budget)
        log.append(f"c stage {letter} {ending.replace(' ', '')} {sizes(store)}\n")
        changed, whole = changed or did, whole and ending == "finished"
    return changed, whole


def run_script(store, script):
    """Runs a script, and answers the log."""
    log, close = [], "single"
    for stages, is_loop, rounds in groups_of(script):
        close, left = "single" if not is_loop else "unsettled", rounds if is_loop else 1
        while not store.refuted and left != 0:
            changed, whole = run_round(store, stages, log)
            left = None if left is None else left - 1
            if not changed:
                close = "settled" if is_loop and whole else close
                break
    return "".join(log) + f"c {'refuted' if store.refuted else close}\n"


# ---- the written form ----

class Written:
    """What is written of a state: clauses under its numbers, names, offset, and the repairs that the map has."""

    def __init__(self, store, merge):
        self.original, self.inner, self.offset = store.original, store.vars, store.offset
        if store.refuted:
            self.names, self.inner, self.offset, self.repairs = [1], max(1, store.vars), 0, []
            self.hard, self.soft = [(1,), (-1,)], []
            return
        live = [c for _, c in store.live()]
        merged = {}
        for b in store.costs() if merge else []:
            with_b = store.having(b)
            if store.is_plain(b) and len(with_b) == 1 and len(store.slots[with_b[0]]) > 1 and with_b[0] not in merged.values():
                merged[b] = with_b[0]
        self.repairs = list(store.repairs)
        for b, id in merged.items():
            self.repairs.append(((b,), store.slots[id]))
            if b < 0:
                self.repairs.append(((-b,), (-b,)))
        hard = [c for id, c in store.live() if id not in merged.values()]
        soft = [(store.weights[b], tuple(l for l in store.slots[merged[b]] if l != b) if b in merged else (-b,)) for b in store.costs()]
        self.names = sorted({abs(l) for c in hard + [c for _, c in soft] for l in c})
        self.hard = in_order(map(self.renamed, hard))
        self.soft = [(weight, self.renamed(c)) for weight, c in soft]

    def renamed(self, clause):
        number = {name: place for place, name in enumerate(self.names, 1)}
        return tuple(number[abs(l)] if l > 0 else -number[abs(l)] for l in clause)

    def text(self, form):
        top = sum(weight for weight, _ in self.soft) + 1
        head = f"p wcnf {len(self.names)} {len(self.hard) + len(self.soft)} {top}\n" if form == "p" else ""
        mark = str(top) if form == "p" else "h"
        text = f"c offset {self.offset}\n" + head + "".join(f"{mark}{lits(c)} 0\n" for c in self.hard)
        return text + "".join(f"{weight}{lits(c)} 0\n" for weight, c in self.soft)

    def entries(self, version):
        """The repairs as entries: a list that is set, and clauses. Neighbours with the same list are joined in version 2."""
        entries = []
        for sets, clause in self.repairs:
            if version == 2 and entries and entries[-1][0] == sets:
                entries[-1][1].append(clause)
            else:
                entries.append((sets, [clause]))
        return entries

    def map(self, version):
        entries = self.entries(version)
        head = [f"maxpre-map {version}", f"original {self.original}", f"inner {self.inner}", f"written {len(self.names)}"]
        head += [f"offset {self.offset}", f"names{lits(self.names)}", f"repairs {len(entries)}"]
        lines = ["".join(f" {l}" for l in (*sets, 0, *(l for c in clauses for l in (*c, 0))))[1:] for sets, clauses in entries]
        return "".join(f"{line}\n" for line in [*head, *lines, "end"])

    def back(self, values):
        """The values of the original out of those of the written instance."""
        room = [False] * (self.inner + 1)
        for name, value in zip(self.names, values):
            room[name] = value
        for sets, clause in reversed(self.repairs):
            if not any(room[abs(l)] == (l > 0) for l in clause):
                for l in sets:
                    room[abs(l)] = l > 0
        return room[1 : self.original + 1]


# ---- values ----

def cost_of(text, values):
    """The cost of the values, or the place from 1 of the first hard clause that is false."""
    true = lambda clause: any((abs(l) <= len(values) and values[abs(l) - 1]) == (l > 0) for l in clause)
    hard, soft = clauses_of(text)
    wrong = [place for place, clause in enumerate(hard, 1) if not true(clause)]
    return (None, wrong[0]) if wrong else (sum(weight for weight, clause in soft if not true(clause)), None)


def spelled(values, form):
    """The `v` line of values."""
    if form == "bits":
        return "v" + (" " + "".join("01"[value] for value in values) if values else "") + "\n"
    return "v" + lits(place if value else -place for place, value in enumerate(values, 1)) + "\n"


# ---- workloads ----

def workload(tasks):
    """The made instance of so many tasks: each has one of four slots, and one earlier task it may not share its slot with."""
    state, text = tasks, ""

    def draw():
        nonlocal state
        state = (state * 1_103_515_245 + 12_345) % 2**31
        return state // 65_536

    variable = lambda task, slot: 4 * (task - 1) + slot
    for task in range(1, tasks + 1):
        text += "h" + lits(variable(task, slot) for slot in (1, 2, 3, 4)) + " 0\n"
        for slot in (1, 2, 3, 4):
            for later in range(slot + 1, 5):
                text += f"h {-variable(task, slot)} {-variable(task, later)} 0\n"
        if task > 1:
            partner = 1 + draw() % (task - 1)
            for slot in (1, 2, 3, 4):
                text += f"h {-variable(task, slot)} {-variable(partner, slot)} 0\n"
        weight = 1 + draw() % 9
        text += f"{weight} {variable(task, 1 + draw() % 4)} 0\n"
    return text


# ---- cases ----

def state(text):
    """The store of an instance, which knows the number of variables that the instance has."""
    store = Store(text, more=2**24)
    hard, soft = clauses_of(text)
    store.original = max((abs(l) for c in hard + [c for _, c in soft] for l in c), default=0)
    return store


def preprocess_run(text, script, merge, version, form):
    """A run of `preprocess`, and what it wrote."""
    store = state(text)
    log = run_script(store, script)
    written = Written(store, merge)
    words = ["preprocess", "F", f"--techniques={script}", "--mapfile=M"]
    words += ["--merge=yes"] * merge + [f"--mapversion={version}"] * (version == 1) + [f"--form={form}"] * (form == "p")
    run = {"words": words, "files": {"F": text}, "status": 0, "out": written.text(form), "map": written.map(version), "log": log}
    return run, written


def reconstruct_run(text, written, version, values, form, given):
    """A run of `reconstruct` that tells the cost of values carried back, or the first hard clause that they make false."""
    found = written.back(values)
    words = ["reconstruct", "S", "--mapfile=M", "--original=F"] + ["--values=literals"] * (form == "literals")
    files = {"F": text, "M": written.map(version), "S": "s OPTIMUM FOUND\n" + spelled(values, given)}
    cost, place = cost_of(text, found)
    if cost is None:
        return {"words": words, "files": files, "status": 9, "log": f"maxpre: not a model: hard clause {place}\n"}
    return {"words": words, "files": files, "status": 0, "out": f"o {cost}\ns OPTIMUM FOUND\n{spelled(found, form)}"}


def evaluate_run(text, values, given):
    cost, place = cost_of(text, values)
    run = {"words": ["evaluate", "F", "--solution=S"], "files": {"F": text, "S": spelled(values, given)}}
    if cost is None:
        return {**run, "status": 9, "log": f"maxpre: not a model: hard clause {place}\n"}
    return {**run, "status": 0, "out": f"o {cost}\ns SATISFIABLE\n"}


def models(written):
    """The values of the written instance that make its hard clauses true, as many as there are among the first 2^12."""
    count = len(written.names)
    for number in range(2 ** min(count, 12)):
        values = [bool(number >> place & 1) for place in range(count)]
        if all(any(values[abs(l) - 1] == (l > 0) for l in c) for c in written.hard):
            yield values


def drawn_runs(place):
    """The runs of a drawn instance: preprocessed under drawn words, its map upgraded, a model of what is written carried back by
    both maps, drawn values too, and those evaluated."""
    numbers = Draws(place + 1_000_000)
    text = numbers.text(LABEL_MIX if numbers.below(2) else PLAIN_MIX)
    script, merge = SCRIPTS[numbers.below(len(SCRIPTS))], numbers.below(3) > 0
    version, form = 1 + numbers.below(2), "hp"[numbers.below(2)]
    run, written = preprocess_run(text, script, merge, version, form)
    runs = [run]
    if version == 1:
        runs.append({"words": ["upgrade", "M", "--mapfile=N"], "files": {"M": written.map(1)}, "status": 0, "map": written.map(2)})
    some = [values for values, _ in zip(models(written), range(32))]
    spelling = lambda: ["bits", "literals"][numbers.below(2)]
    if some:
        values = some[numbers.below(len(some))]
        runs.append(reconstruct_run(text, written, 1 + numbers.below(2), values, spelling(), spelling()))
    any_values = [numbers.below(2) == 1 for _ in written.names]
    runs.append(reconstruct_run(text, written, version, any_values, spelling(), spelling()))
    runs.append(evaluate_run(text, [numbers.below(2) == 1 for _ in range(written.original)], spelling()))
    return runs


def workload_run(tasks, script):
    text = workload(tasks)
    store = state(text)
    before = sizes(store)
    log = run_script(store, script)
    after = "1 0 0" if store.refuted else sizes(store)
    out = f"c workload {tasks}\nc before {before}\nc after {after}\nc offset {store.offset}\n" + log.splitlines(True)[-1]
    return {"words": ["workload", str(tasks), f"--techniques={script}"], "status": 0, "out": out, "log": log}


def write():
    cases = [{"case": f"drawn instance {place}, through the modes", "runs": drawn_runs(place)} for place in range(DRAWN)]
    for script in ("#", "u", "s", "[bu]", "[bu]#[buvsrgc]", "e{0}"):
        runs = [workload_run(tasks, script) for tasks in range(8)]
        cases.append({"case": f"workloads of up to seven tasks under {script}", "runs": runs})
    path = Path(__file__).resolve().parent / "cases/drawn.jsonl"
    path.write_text("".join(json.dumps(case) + "\n" for case in cases))


if __name__ == "__main__":
    if sys.argv[1:] == ["write"]:
        write()
    else:
        sys.exit(__doc__)
