#!/usr/bin/env python3
"""Runs commands in turn, so many times, their outputs into files, and prints for each the median of the processor's
seconds and the greatest peak of memory in KB: measured.py TIMES OUTPUT WORD.. [-- OUTPUT WORD..].."""
import os
import sys


def run(output, *words):
    child = os.fork()
    if child == 0:
        out = os.open(output, os.O_WRONLY | os.O_CREAT | os.O_TRUNC, 0o644)
        os.dup2(out, 1)
        os.execvp(words[0], words)
    _, status, used = os.wait4(child, 0)
    # 10 and 20 are the answers of a solver
    if os.waitstatus_to_exitcode(status) not in (0, 10, 20):
        sys.exit(f"measured.py: {' '.join(words)}: status {os.waitstatus_to_exitcode(status)}")
    return used.ru_utime + used.ru_stime, used.ru_maxrss


times, commands = int(sys.argv[1]), [[]]
for word in sys.argv[2:]:
    if word == "--":
        commands.append([])
    else:
        commands[-1].append(word)
runs = [[run(*command) for command in commands] for _ in range(times)]
for place in range(len(commands)):
    seconds = sorted(row[place][0] for row in runs)
    print(f"{seconds[times // 2]:.3f} {max(row[place][1] for row in runs)}")
