#!/usr/bin/env python3
"""Measures the commands beside `cat` on the same inputs, in turns, the best of five runs each.

    bench/run.py [PACKETS [CASE..]]     one million packets by default, and all cases

OTHER=path measures another program with the same words in the same run. Only ratios within one run mean
anything: other work on the machine moves all of its figures.
"""
import os
import subprocess
import sys
import tempfile
import time

HERE = os.path.dirname(os.path.abspath(__file__))
PROGRAM = os.path.join(HERE, "..", "crates", "amr_cli", "out", "amr_cli")
RECORD = ["record", "--codec", "AMR"]
SORTED = ["--codec", "AMR-WB", "--fmtp", "crc=1; robust-sorting=1"]
GROUPS = ["--codec", "AMR", "--fmtp", "interleaving=30"]
SIX = ["--codec", "AMR", "--channels", "6", "--fmtp", "octet-align=1"]

# The case, what `make_log.py` makes for it, the words that make a log of that, and the words that are measured.
CASES = [
    ("speech", "speech", None, RECORD),
    ("reorder", "reorder", None, RECORD),
    ("noise", "noise", None, RECORD),
    ("sorted", "wideband", ["stream", *SORTED, "--blocks", "4"], ["record", *SORTED]),
    ("groups", "file", ["stream", *GROUPS, "--blocks", "6", "--length", "5"], ["record", *GROUPS]),
    ("six", "six", ["stream", *SIX], ["record", *SIX]),
    ("stream", "file", None, ["stream", "--codec", "AMR"]),
    ("coded", "wideband", None, ["stream", *SORTED, "--blocks", "4"]),
    ("convert", "speech", None, ["convert", "--codec", "AMR", "--to-fmtp", "octet-align=1"]),
    ("list", "speech", None, ["list", "--codec", "AMR"]),
]


def once(command, path):
    """Runs a command on a file by a pipe, and gives wall, user and system seconds and its status."""
    feed = subprocess.Popen(["cat", path], stdout=subprocess.PIPE)
    begin = time.perf_counter()
    child = subprocess.Popen(command, stdin=feed.stdout, stdout=subprocess.DEVNULL, stderr=subprocess.DEVNULL)
    feed.stdout.close()
    _, status, used = os.wait4(child.pid, 0)
    wall = time.perf_counter() - begin
    feed.wait()
    child.returncode = os.waitstatus_to_exitcode(status)
    return wall, used.ru_utime, used.ru_stime, child.returncode


def peak(command, path):
    """The most kilobytes that a command held in memory, once it has read all of a file."""
    child = subprocess.Popen(command, stdin=subprocess.PIPE, stdout=subprocess.DEVNULL, stderr=subprocess.DEVNULL)
    with open(path, "rb") as log:
        while piece := log.read(65536):
            child.stdin.write(piece)
    child.stdin.flush()
    with open(f"/proc/{child.pid}/status") as status:
        kilobytes = [line.split()[1] for line in status if line.startswith("VmHWM")]
    child.stdin.close()
    child.wait()
    return int(kilobytes[0])


def make(kind, packets, words, path):
    """Makes the input of a case: what `make_log.py` makes, or the log that the words make of that."""
    with open(path, "wb") as out:
        maker = subprocess.Popen([sys.executable, os.path.join(HERE, "make_log.py"), kind, str(packets)],
                                 stdout=subprocess.PIPE if words else out)
        if words:
            subprocess.run([PROGRAM, *words], stdin=maker.stdout, stdout=out, stderr=subprocess.DEVNULL, check=True)
        if maker.wait():
            sys.exit(f"make_log.py {kind} failed")


def measure(name, path, words, packets):
    """Measures one case, and prints a line for each program."""
    programs = {"cat": ["cat"], "amrgate": [PROGRAM, *words]}
    if os.environ.get("OTHER"):
        programs["other"] = [os.environ["OTHER"], *words]
    size = os.path.getsize(path)
    best = {}
    for _ in range(5):
        for who, command in programs.items():
            run = once(command, path)
            if run[3]:
                sys.exit(f"{name}: {who} ended with {run[3]}")
            if who not in best or run[1] + run[2] < best[who][1] + best[who][2]:
                best[who] = run
    floor = best["cat"][1] + best["cat"][2]
    for who, (wall, user, system, _) in best.items():
        most = peak(programs[who], path)
        print(f"{name:8} {who:8} {size / wall / 1e6:8.0f} {packets / wall:11.0f} {user:7.3f} {system:7.3f}"
              f" {most:8} {(user + system) / floor:8.2f}", flush=True)


def main():
    packets = int(sys.argv[1]) if len(sys.argv) > 1 else 1_000_000
    asked = sys.argv[2:]
    print(f"{'case':8} {'program':8} {'MB/s':>8} {'packets/s':>11} {'user s':>7} {'sys s':>7} {'peak KB':>8} {'CPU/cat':>8}")
    with tempfile.TemporaryDirectory() as folder:
        for name, kind, made_by, words in CASES:
            if asked and name not in asked:
                continue
            path = os.path.join(folder, name)
            make(kind, packets, made_by, path)
            measure(name, path, words, packets)
            os.remove(path)


if __name__ == "__main__":
    main()
