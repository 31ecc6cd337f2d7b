#!/usr/bin/env python3
"""Turns the tables of cases into what the programs `cases` and `library_cases` read and what is wanted of them.

    tests/cases.py            writes stdin and stdout of crates/cases from tests/cases/*.jsonl, and those of
                              crates/library_cases from tests/library_cases/*.jsonl
    tests/cases.py --check    writes nothing, and fails where one of these files is not current

A line of tests/cases is a case, in JSON: its name and the runs that it needs, each over a desk of its own.

    {"case": "a chain of units", "runs": [{"words": ["preprocess", "F", ..], "files": {"F": "h 1 0\\n"},
     "status": 0, "out": "c offset 3\\n", "map": "maxpre-map 1\\n..", "log": ""}]}

`out`, `map` and `log` are left out where they are empty, `faults` (how many host calls failed) where it is 0, each character
is a byte. The host is told by `chunk` (bytes that one call moves), `fail` (a list of the places of calls that fail, from 0),
`stop` ({"out": 4}: the port takes 4 bytes) and `quiet` (true: the desk that tells nothing of its ports, so nothing is wanted of
them). Three keys write many runs at once, from a run that ends with status 0:

    "each_call": 7      the run again for every host call, that one failing, where a call moves 7 bytes; and again, the next one
                        failing too
    "each_stop": true   the run again for every port and every number of bytes below its text's length, the port taking so many
    "each_front": "M"   the run again for every proper front of the map file of this name, each refused at its last line

A line of tests/library_cases has a name, the lines that the program reads, each a call of the libraries, and those that it must
print. The table's name says which calls there are (`run_table` in crates/library_cases/src/main.rt). Each case begins anew, and
no line has an `@`, which begins the next table.

    {"case": "a budget of one turn", "lines": ["text h 1 0\\\\nh -1 2 0\\\\n", "store", "technique u 1"], "prints": [".."]}
"""
import json
import sys
from pathlib import Path

TOP = Path(__file__).resolve().parent.parent


def escaped(text):
    """A text in one line: what is no printable ASCII stands as an escape."""
    short = {"\n": "\\n", "\r": "\\r", "\t": "\\t", "\\": "\\\\"}
    return "".join(short.get(c, c if " " <= c <= "~" else f"\\x{ord(c):02x}") for c in text)


def cases_of(table):
    """The cases of a table; a fault of its spelling ends the script with the place."""
    for number, line in enumerate(table.read_text().splitlines(), 1):
        if line.strip():
            try:
                yield json.loads(line)
            except ValueError as error:
                sys.exit(f"{table}:{number}: {error}")


RUN_KEYS = {"words", "files", "status", "out", "map", "log", "faults", "chunk", "fail", "stop", "quiet"}


def lines_of(run):
    """What the program reads of a run."""
    unknown = set(run) - RUN_KEYS
    if unknown:
        sys.exit(f"unknown keys: {unknown}")
    lines = [f"file {name} {escaped(text)}".rstrip(" ") for name, text in run.get("files", {}).items()]
    if "chunk" in run:
        lines.append(f"chunk {run['chunk']}")
    lines += [f"fail {place}" for place in run.get("fail", [])]
    lines += [f"stop {port} {after}" for port, after in run.get("stop", {}).items()]
    if run.get("quiet"):
        lines.append("quiet")
    return lines + [f"word {word}" for word in run["words"]] + ["run"]


def wanted_of(run):
    """What the program must print of a run."""
    lines = [f"status {run['status']} faults {run.get('faults', 0)}"]
    if not run.get("quiet"):
        lines += [f"{port} {escaped(run[port])}" for port in ("map", "out", "log") if run.get(port)]
    return lines


def option(run, name):
    """The values that the words of a run give under a name, one or none."""
    return [word.removeprefix(f"--{name}=") for word in run["words"] if word.startswith(f"--{name}=")]


PORTS = ("map", "out", "log")


def inputs_of(run):
    """The names of the files that a run reads, in their order, and whether it writes a map."""
    mode, operand = [word for word in run["words"] if not word.startswith("-")]
    names = {
        "preprocess": [operand],
        "reconstruct": option(run, "original") + option(run, "mapfile") + [operand],
        "evaluate": [operand] + option(run, "solution"),
        "workload": [],
        "upgrade": [operand],
    }
    return names[mode], mode in ("preprocess", "upgrade") and bool(option(run, "mapfile"))


def calls_of(run, chunk):
    """The host calls of a run that ends well: what each does, and how many bytes it moves. An input is opened and read up to
    a read of no bytes; the map is created and written, where it has a name, then the output, then the log."""
    pieces = lambda port: [(port, min(chunk, len(run[port]) - at)) for at in range(0, len(run.get(port, "")), chunk)]
    names, has_map = inputs_of(run)
    calls = []
    for name in names:
        reads = -(-len(run["files"][name]) // chunk) + 1
        calls += [("open", 0)] + [("read", 0)] * reads
    if has_map:
        calls += [("create", 0)] + pieces("map")
    return calls + pieces("out") + pieces("log")


def failing_runs(run, chunk):
    """The run for each host call that fails, alone and with the next: a fault of an input is told and leaves no output, and the
    next call is the one that tells it; one of an output leaves the texts before it whole and a front of its own, and no call
    follows."""
    calls = calls_of(run, chunk)
    for place, (kind, _) in enumerate(calls):
        failing = {**run, "chunk": chunk}
        if kind in ("open", "read"):
            ends = {"status": 3, "log": "maxpre: read fault\n", "out": "", "map": ""}
            untold = {"log": "", "faults": 2}
        else:
            sent = {port: sum(n for k, n in calls[:place] if k == port) for port in PORTS}
            ends = {port: run.get(port, "")[: sent[port]] for port in PORTS} | {"status": 4}
            untold = {}
        yield {**failing, **ends, "faults": 1, "fail": [place]}
        yield {**failing, **ends, "faults": 1, **untold, "fail": [place, place + 1]}


def stopped_runs(run):
    """The run for each port that takes too few bytes: the ports before it are whole, and those behind it are empty."""
    for number, port in enumerate(PORTS):
        whole = run.get(port, "")
        for taken in range(len(whole)):
            ends = {behind: "" for behind in PORTS[number:]} | {port: whole[:taken]}
            yield {**run, **ends, "status": 4, "faults": 1, "stop": {port: taken}}


def fronts_of(run, name):
    """The run for each proper front of the map: the front is refused at the line of its last byte, that is line 1 if empty."""
    whole = run["files"][name]
    for cut in range(len(whole)):
        front = whole[:cut]
        line = front[:-1].count("\n") + 1
        files = {**run["files"], name: front}
        yield {"words": run["words"], "files": files, "status": 7, "log": f"maxpre: map: line {line}\n"}


def runs_of(case):
    """The runs of a case, those that its short forms write among them."""
    for run in case["runs"]:
        run = dict(run)
        chunk = run.pop("each_call", None)
        stop = run.pop("each_stop", None)
        front = run.pop("each_front", None)
        yield run
        if chunk:
            yield from failing_runs(run, chunk)
        if stop:
            yield from stopped_runs(run)
        if front:
            yield from fronts_of(run, front)


def whole_runs():
    """The input of `cases` and what it must print."""
    given, wanted = [], []
    for table in sorted((TOP / "tests/cases").glob("*.jsonl")):
        for case in cases_of(table):
            given.append(f"case {case['case']}")
            wanted.append(f"case {case['case']}")
            for run in runs_of(case):
                given += lines_of(run)
                wanted += wanted_of(run)
    return given, wanted


def library_calls():
    """The input of `library_cases` and what it must print."""
    given, wanted = [], []
    for table in sorted((TOP / "tests/library_cases").glob("*.jsonl")):
        given.append(f"@{table.stem}")
        for case in cases_of(table):
            if "@" in "".join(case["lines"]) + case["case"]:
                sys.exit(f"{table}: an @ in the case {case['case']}")
            given += [f"case {case['case']}"] + case["lines"]
            wanted += [f"case {case['case']}"] + case["prints"]
    return given, wanted


def main():
    check = sys.argv[1:] == ["--check"]
    stale = []
    for crate, (given, wanted) in (("cases", whole_runs()), ("library_cases", library_calls())):
        for name, lines in (("stdin", given), ("stdout", wanted)):
            path = TOP / "crates" / crate / name
            path.parent.mkdir(exist_ok=True)
            text = "".join(f"{line}\n" for line in lines)
            if check and (not path.exists() or path.read_text() != text):
                stale.append(str(path.relative_to(TOP)))
            elif not check:
                path.write_text(text)
    if stale:
        sys.exit(f"not current, run tests/cases.py: {', '.join(stale)}")


if __name__ == "__main__":
    main()
