#!/usr/bin/env python3
"""Draws what each stage of a run left, as an SVG: stages.py INSTANCE < LOG > PICTURE

INSTANCE is the file in the 2022 form that was preprocessed, LOG what `maxpre preprocess` wrote on standard error. One bar for the
instance and one for each stage that changed something: hard clauses, and soft clauses behind them."""
import sys

NAMES = {
    "u": "unit propagation", "f": "failed literals", "p": "pairs", "b": "blocked clauses", "s": "subsumption", "r": "self-subsumption",
    "v": "variable elimination", "e": "equivalent literals", "l": "subsumed labels", "g": "labels under a group", "m": "label matching",
    "c": "binary cores", "G": "at-most-ones", "T": "trimming", "K": "pair cores", "H": "hardening",
}  # fmt: skip
WIDTH, LEFT, ROW = 760, 190, 22


def bars(log):
    """The stages that left other sizes than the stage before them."""
    last = None
    for line in log:
        words = line.split()
        if words[:2] == ["c", "stage"]:
            now = (int(words[4]), int(words[6]))
            if now != last:
                yield NAMES[words[2]], now
            last = now


def main():
    with open(sys.argv[1], encoding="ascii") as it:
        lines = it.readlines()
    hard = sum(line.startswith("h") for line in lines)
    soft = sum(line[:1].isdigit() for line in lines)
    rows = [("the instance", (hard, soft)), *bars(sys.stdin)]
    scale = (WIDTH - LEFT - 110) / max(1, max(a + b for _, (a, b) in rows))
    height = ROW * len(rows) + 46
    print(f'<svg xmlns="http://www.w3.org/2000/svg" width="{WIDTH}" height="{height}" font-family="sans-serif" font-size="13">')
    print(f'<rect width="{WIDTH}" height="{height}" fill="white"/>')
    for at, (name, (a, b)) in enumerate(rows):
        y = 8 + ROW * at
        print(f'<text x="{LEFT - 8}" y="{y + 13}" text-anchor="end">{name}</text>')
        print(f'<rect x="{LEFT}" y="{y}" width="{a * scale:.1f}" height="{ROW - 6}" fill="#4a6fa5"/>')
        print(f'<rect x="{LEFT + a * scale:.1f}" y="{y}" width="{b * scale:.1f}" height="{ROW - 6}" fill="#e0a458"/>')
        print(f'<text x="{LEFT + (a + b) * scale + 6:.1f}" y="{y + 13}" fill="#444">{a} + {b}</text>')
    y = 8 + ROW * len(rows) + 10
    for x, fill, name in ((LEFT, "#4a6fa5", "hard clauses"), (LEFT + 130, "#e0a458", "soft clauses")):
        print(f'<rect x="{x}" y="{y}" width="12" height="12" fill="{fill}"/><text x="{x + 18}" y="{y + 11}">{name}</text>')
    print("</svg>")


if __name__ == "__main__":
    main()
