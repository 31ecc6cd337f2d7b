#!/usr/bin/env python3
"""Whether docs/DEFINITIONS.md lists every definition that is needed to unfold the clauses of the top call.

It begins with the names in the clauses of `top::maxpre` and of `reconstruct::answers_come_back`, follows each one into the
`specs/` files of the crates, name by name through their `use` lines, and looks each up among the words in backquotes of the
tables. Types that the definitions match on are declared in `src/`; they are listed too. Names of the toolchain's own library
are not followed. It prints what is missing, and what is listed and not needed; its status is 1 where something is missing.
"""
import re
import sys
from pathlib import Path

TOP = Path(__file__).resolve().parent.parent
CRATES = TOP / "crates"
WORD = re.compile(r"[A-Za-z_«][A-Za-z0-9_'»]*(?:[.-][A-Za-z_«][A-Za-z0-9_'»]*)*")
HEAD = re.compile(r"^(?:abbrev )?(?:unfoldable )?pub (?:record |data )?([A-Za-z_][A-Za-z0-9_'-]*)\b|^abbrev ([A-Za-z_][A-Za-z0-9_'-]*) :", re.M)
USE = re.compile(r"^\s*(?:ghost )?use Rattle\.([a-z_0-9]+)\.specs\.([A-Za-z0-9_.]+?)(?:\.\{([^}]*)\}| as ([A-Za-z_]+));?$", re.M)


class Module:
    """One file of definitions, or the head of a source file: what it defines and what its names stand for."""

    def __init__(self, crate, name, text):
        self.crate, self.name = crate, name
        self.text = re.sub(r"--.*", "", text)
        self.names, self.aliases = {}, {}
        for crate, module, names, alias in USE.findall(self.text):
            if alias:
                self.aliases[alias] = (crate, module)
            for name in filter(None, (n.strip() for n in names.split(","))):
                self.names[name] = (crate, module)
        self.bodies = {}
        heads = list(HEAD.finditer(self.text))
        for at, head in enumerate(heads):
            end = heads[at + 1].start() if at + 1 < len(heads) else len(self.text)
            self.bodies.setdefault(head.group(1) or head.group(2), "")
            self.bodies[head.group(1) or head.group(2)] += self.text[head.start() : end]
        # a case of a sum of its own leads to that sum
        self.cases = {}
        for name, body in self.bodies.items():
            if re.search(r"\bdata " + re.escape(name) + r"\b", body):
                for case in re.findall(r"^  (?:pub )?([A-Za-z_][A-Za-z0-9_']*) :", body, re.M):
                    self.cases[case] = name


def modules():
    found = {}
    for file in CRATES.glob("*/specs/*.antt"):
        crate = file.parent.parent.name
        found[crate, file.stem] = Module(crate, file.stem, file.read_text())
    return found


def declared(module):
    """The type and its source file, where a module of `declared` is meant, as `declared.refusal.Refusal.TheVariants`."""
    parts = module.split(".")
    if parts[0] != "declared":
        return None
    kept = [p for p in parts[1:] if p != "TheVariants"]
    return kept[-1], "/".join(kept[:-1]) + ".rt"


def resolved(module, word, all_modules):
    """What a word of a body stands for: (crate, file, name), or none."""
    first = word.split(".")[0]
    targets = []
    if first in module.aliases and "." in word:
        targets.append((*module.aliases[first], word.split(".")[1]))
    if word in module.names:
        targets.append((*module.names[word], word))
    if first != word and first in module.names:
        targets.append((*module.names[first], first))
    for crate, file, name in targets:
        found = declared(file)
        if found:
            return crate, "src/" + found[1], found[0]
        if (crate, file) in all_modules:
            other = all_modules[crate, file]
            return crate, file, other.cases.get(name, name)
    for name in (word, first):
        if name in module.bodies or name in module.cases:
            return module.crate, module.name, module.cases.get(name, name)
    return None


def clauses_of(path, function):
    """A source file as a module, and the clauses of one of its public functions."""
    text = path.read_text()
    start = re.search(r"^pub fn " + function + r"\b", text, re.M).start()
    clauses = text[start : text.index("\n{", start)]
    return Module(path.parent.parent.name, path.stem, text[: text.index("\n\nuse ")]), clauses[clauses.index("ensures") :]


def needed():
    all_modules = modules()
    seen, waiting = {}, []
    for file, function in (("top.rt", "maxpre"), ("reconstruct.rt", "answers_come_back")):
        module, text = clauses_of(CRATES / "mp_modes/src" / file, function)
        waiting.append((module, text, function))
    while waiting:
        module, text, origin = waiting.pop()
        for word in WORD.findall(text):
            at = resolved(module, word, all_modules)
            if at is None or at in seen:
                continue
            seen[at] = origin
            crate, file, name = at
            if not file.startswith("src/"):
                other = all_modules[crate, file]
                waiting.append((other, other.bodies.get(name, ""), name))
    return seen


def table_rows(text):
    """The names of each row, each with the words of the row's second cell, which name its files."""
    for line in text.splitlines():
        cells = line.split("|")
        if line.startswith("|") and len(cells) > 3:
            files = set(re.findall(r"[A-Za-z_]+(?:\.rt)?", cells[2]))
            for name in re.findall(r"`([^`]+)`", cells[1]):
                yield name, files


def main():
    listed = list(table_rows((TOP / "docs/DEFINITIONS.md").read_text()))
    found = {at: origin for at, origin in needed().items() if (CRATES / at[0]).is_dir()}
    missing = [at for at in sorted(found) if not any(name == at[2] and at[1].split("/")[-1] in files for name, files in listed)]
    for crate, file, name in missing:
        print(f"missing: {name} ({crate}, {file}), needed by {found[crate, file, name]}")
    names = {name for _, _, name in found}
    print(f"{len(found)} definitions needed, {len(missing)} missing, {len({name for name, _ in listed} - names)} listed besides")
    return 1 if missing else 0


if __name__ == "__main__":
    sys.exit(main())
