#!/usr/bin/env python3
"""Counts the instructions that a packet takes each command, by valgrind.

    bench/instructions.py [CASE..]     the cases of `run.py`, and all by default

Two runs of different length are counted, and their difference is divided by that of the packets, so that the start of the
program doesn't count. Other work on the machine doesn't move the figures. OTHER=path counts another program with the same words
too, which has to be built for a processor that valgrind knows.
"""
import os
import re
import subprocess
import sys
import tempfile

from run import CASES, PROGRAM, make

SHORT, LONG = 4_000, 12_000
COUNTED = re.compile(r"Collected : (\d+)")


def count(command, path):
    """The instructions of a run on a file."""
    with open(path, "rb") as log:
        run = subprocess.run(["valgrind", "--tool=callgrind", "--callgrind-out-file=/dev/null", *command], stdin=log,
                             stdout=subprocess.DEVNULL, stderr=subprocess.PIPE, text=True, check=False)
    found = COUNTED.search(run.stderr)
    if run.returncode or not found:
        sys.exit(f"{' '.join(command)} ended with {run.returncode}: {run.stderr[-300:]}")
    return int(found.group(1))


def main():
    asked = sys.argv[1:]
    programs = {"amrgate": PROGRAM, "other": os.environ.get("OTHER")}
    print(f"{'case':8} {'program':8} {'instructions':>12}")
    with tempfile.TemporaryDirectory() as folder:
        for name, kind, made_by, words in CASES:
            if asked and name not in asked:
                continue
            paths = [os.path.join(folder, f"{name}-{packets}") for packets in (SHORT, LONG)]
            for packets, path in zip((SHORT, LONG), paths):
                make(kind, packets, made_by, path)
            for who, program in programs.items():
                if program:
                    short, long = (count([program, *words], path) for path in paths)
                    print(f"{name:8} {who:8} {(long - short) / (LONG - SHORT):12.0f}", flush=True)


if __name__ == "__main__":
    main()
