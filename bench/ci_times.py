#!/usr/bin/env python3
"""Processor seconds of a run of `rt ci`, by crate and kind.

    bench/ci_times.py [--out FILE] -- rt ci [NAME..]     runs the command and measures it
    bench/ci_times.py [--out FILE] --pid PID             measures a run that goes on, from now to its end
    bench/ci_times.py --table FILE [FILE..]              prints the table of what was written, crates by cost

The kinds are the proof of a crate, the proof of it with its tests, and its edits that must fail: one more proof,
from which they begin, and each edit. A process is looked at five times a second, and its own time is what it and
those that it has waited for have used; what ends between two looks loses at most that fifth of a second.
Programs and tests themselves are short, and not counted. Works where /proc does.
"""
import argparse
import collections
import os
import re
import subprocess
import sys
import threading
import time

TICK = os.sysconf("SC_CLK_TCK")
KINDS = ["proof", "tests", "edits"]


def look(pid):
    """The parent, and the processor seconds of a process and of those that it has waited for."""
    with open(f"/proc/{pid}/stat") as file:
        fields = file.read().rsplit(")", 1)[1].split()
    return int(fields[1]), sum(int(field) for field in fields[11:15]) / TICK


def words_of(pid):
    with open(f"/proc/{pid}/cmdline", "rb") as file:
        return file.read().decode(errors="replace").split("\0")


def kind_of(words):
    """The crate and the kind of a prover's process, or None."""
    if len(words) < 4 or not words[0].endswith("/rattle") or "--crate-name" not in words:
        return None
    crate = words[words.index("--crate-name") + 1]
    if words[1] == "build":
        return crate, "tests" if "--test" in words else "proof"
    if words[1] == "check":
        return crate, "edits"
    return None


def measure(root):
    """Watches the processes below `root` until it ends."""
    spent = {}
    kinds = {}
    while True:
        parents = {}
        times = {}
        for name in os.listdir("/proc"):
            if name.isdigit():
                try:
                    parents[int(name)], times[int(name)] = look(name)
                except (OSError, IndexError, ValueError):
                    continue
        if root not in parents:
            break
        below = {root}
        grown = True
        while grown:
            more = {pid for pid, parent in parents.items() if parent in below and pid not in below}
            below |= more
            grown = bool(more)
        for pid in below:
            if not kinds.get(pid):
                try:
                    kinds[pid] = kind_of(words_of(pid))
                except OSError:
                    continue
        # A prover's helpers are counted with the first of its processes.
        totals = collections.Counter()
        for pid in below:
            top = pid
            while parents.get(top) in below and kinds.get(parents[top]):
                top = parents[top]
            if kinds.get(top):
                totals[top] += times[pid]
        for pid, total in totals.items():
            spent[pid] = max(spent.get(pid, 0), total)
        time.sleep(0.2)
    result = collections.Counter()
    for pid, total in spent.items():
        result[kinds[pid]] += total
    return result


def write(result, out):
    for (crate, kind), seconds in sorted(result.items()):
        out.write(f"{crate} {kind} {seconds:.1f}\n")


def table(files):
    spent = collections.defaultdict(collections.Counter)
    for name in files:
        with open(name) as file:
            for line in file:
                if re.fullmatch(r"\w+ \w+ [0-9.]+", line.strip()):
                    crate, kind, seconds = line.split()
                    spent[crate][kind] += float(seconds)
    print("| crate | " + " | ".join(KINDS) + " | all |")
    print("|---|" + "---|" * (len(KINDS) + 1))
    for crate, kinds in sorted(spent.items(), key=lambda entry: -sum(entry[1].values())):
        cells = [f"{kinds[kind]:.0f}" if kinds[kind] else "" for kind in KINDS]
        print(f"| `{crate}` | " + " | ".join(cells) + f" | {sum(kinds.values()):.0f} |")
    sums = [sum(kinds[kind] for kinds in spent.values()) / 60 for kind in KINDS]
    print("| minutes | " + " | ".join(f"{minutes:.0f}" for minutes in sums) + f" | {sum(sums):.0f} |")


def main():
    parser = argparse.ArgumentParser(description=__doc__, formatter_class=argparse.RawDescriptionHelpFormatter)
    parser.add_argument("--out")
    parser.add_argument("--pid", type=int)
    parser.add_argument("--table", nargs="+")
    parser.add_argument("command", nargs="*")
    given = parser.parse_args()
    if given.table:
        table(given.table)
        return 0
    status = 0
    if given.pid:
        result = measure(given.pid)
    elif given.command:
        child = subprocess.Popen(given.command)
        waiting = threading.Thread(target=child.wait)
        waiting.start()
        result = measure(child.pid)
        waiting.join()
        status = child.returncode
    else:
        parser.error("a command, --pid or --table is wanted")
    if given.out:
        with open(given.out, "w") as file:
            write(result, file)
    else:
        write(result, sys.stdout)
    return status


if __name__ == "__main__":
    sys.exit(main())
