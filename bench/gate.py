#!/usr/bin/env python3
"""Measures the gate: runs `rt ci --anew` (or the command given) in this repository and prints, for each crate, after how many
seconds it was proved, and the processor seconds of its proofs, its tests and its must-fail edits. Times of the processes that
the run began are read from /proc twice a second, so that one shorter than that isn't counted. What else the machine does isn't
counted, but makes the run longer: for its length, run it on a machine that does nothing else."""
import collections
import os
import pathlib
import re
import subprocess
import sys
import threading
import time

ROOT = pathlib.Path(__file__).resolve().parent.parent
TICKS = os.sysconf("SC_CLK_TCK")


def kind_of(words, folder):
    if "rt-edit-" in folder:
        return "edits"
    return "tests" if "--test" in words else words[1]


def processes():
    """The fields of each process behind its name, by its number: the second is its parent's number."""
    found = {}
    for entry in pathlib.Path("/proc").iterdir():
        if entry.name.isdigit():
            try:
                found[int(entry.name)] = (entry / "stat").read_text().rsplit(")", 1)[1].split()
            except (OSError, IndexError):
                continue
    return found


def is_below(number, run, found):
    while number in found and number != run:
        number = int(found[number][1])
    return number == run


def sample(run, seen):
    """Keeps the processor time that each process of the compiler below this one has used so far."""
    found = processes()
    for number, fields in found.items():
        entry = pathlib.Path("/proc") / str(number)
        try:
            words = (entry / "cmdline").read_bytes().decode(errors="replace").split("\0")
            if not words[0].endswith("/rattle") or "--crate-name" not in words or not is_below(number, run, found):
                continue
            folder = os.readlink(entry / "cwd")
        except OSError:
            continue
        name = words[words.index("--crate-name") + 1]
        used = (int(fields[11]) + int(fields[12])) / TICKS
        seen[(number, fields[19])] = (name, kind_of(words, folder), used)


def main():
    command = sys.argv[1:] or ["rt", "ci", "--anew"]
    begin = time.monotonic()
    seen, proved, ended = {}, {}, threading.Event()

    run = subprocess.Popen(command, cwd=ROOT, stdout=subprocess.PIPE, stderr=subprocess.STDOUT, text=True)

    def watch():
        while not ended.wait(0.5):
            sample(run.pid, seen)

    watcher = threading.Thread(target=watch)
    watcher.start()
    last = ""
    for line in run.stdout:
        last = line.strip() or last
        found = re.match(r"rt: (\w+) proved$", line)
        if found:
            proved[found[1]] = round(time.monotonic() - begin)
    status = run.wait()
    ended.set()
    watcher.join()
    sums = collections.defaultdict(lambda: collections.defaultdict(float))
    for name, kind, used in seen.values():
        sums[name][kind] += used
    kinds = sorted({kind for row in sums.values() for kind in row})
    print("| Crate | Proved after | " + " | ".join(kinds) + " |")
    print("|---|---|" + "---|" * len(kinds))
    for name in sorted(sums, key=lambda name: -sum(sums[name].values())):
        print(f"| {name} | {proved.get(name, '')} | " + " | ".join(f"{sums[name][kind]:.0f}" for kind in kinds) + " |")
    print(f"{last}; status {status}; {time.monotonic() - begin:.0f} s in all")
    return status


if __name__ == "__main__":
    sys.exit(main())
