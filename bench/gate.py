#!/usr/bin/env python3
"""Runs the merge gate and prints what each crate costs it, in seconds of a processor.

usage: bench/gate.py [--anew]     at the top of the repository
With a kit that keeps what an earlier run on this machine passed, that costs nothing; --anew then proves and tries all
again. Other kits don't know the word, and begin from nothing each time. The lines of `rt ci` go to the standard error. Linux only: the times are read from /proc, five times a second.
"""
import os
import resource
import subprocess
import sys
import threading
import time

TICKS = os.sysconf("SC_CLK_TCK")
PHASES = ("proof", "tests", "edits")


def read(path):
    try:
        with open(path, "rb") as file:
            return file.read().decode(errors="replace")
    except OSError:
        return ""


def processes():
    """Returns, for each process, its parent, when it began, and the seconds that it and the children it waited for used."""
    found = {}
    for name in filter(str.isdigit, os.listdir("/proc")):
        fields = read(f"/proc/{name}/stat").rpartition(")")[2].split()
        if fields:
            found[int(name)] = int(fields[1]), int(fields[19]), sum(map(int, fields[11:15])) / TICKS
    return found


def use_of(process):
    """Returns the crate and the phase that a check of the prover works for, or None for another process."""
    words = read(f"/proc/{process}/cmdline").split("\0")
    if len(words) < 2 or os.path.basename(words[0]) != "rattle" or "--crate-name" not in words:
        return None
    crate = words[words.index("--crate-name") + 1]
    try:
        where = os.readlink(f"/proc/{process}/cwd")
    except OSError:
        return None
    return crate, "edits" if "/rt-edit-" in where else "tests" if "--test" in words else "proof"


def sample(top, seen):
    """Notes in `seen` what each check below the process `top` has used so far."""
    found = processes()
    children = {}
    for process, (parent, _, _) in found.items():
        children.setdefault(parent, []).append(process)

    def below(process):
        return found[process][2] + sum(map(below, children.get(process, ())))

    waiting = [top]
    while waiting:
        process = waiting.pop()
        use = process in found and use_of(process)
        if use:
            key = process, found[process][1]
            seen[key] = use, max(below(process), seen.get(key, (use, 0))[1])
        else:
            waiting += children.get(process, ())


def libraries():
    """Returns the libraries of the repository that each crate stands on, by crates.txt."""
    lines = [line.split("#")[0] for line in read("crates.txt").splitlines()]
    named = {head.split()[0]: tail.split() for head, mark, tail in (line.partition(":") for line in lines) if mark}
    return {name: [it for it in of if it in named] for name, of in named.items()}


def chain(name, below, seconds):
    """Returns the dearest chain of proofs that ends with the crate, as its seconds and its crates from the bottom."""
    before = max((chain(it, below, seconds) for it in below[name]), default=(0, []))
    return before[0] + seconds[name], before[1] + [name]


def main():
    if sys.argv[1:] not in ([], ["--anew"]):
        sys.exit(__doc__)
    below, seen, begun = libraries(), {}, time.time()
    gate = subprocess.Popen(["rt", "ci", *sys.argv[1:]], stdin=subprocess.DEVNULL, stdout=sys.stderr)
    ended = threading.Event()

    def watch():
        while not ended.wait(0.2):
            sample(gate.pid, seen)

    watcher = threading.Thread(target=watch)
    watcher.start()
    status = gate.wait()
    ended.set()
    watcher.join()
    costs = {name: dict.fromkeys(PHASES, 0.0) for name in below}
    for (name, phase), used in seen.values():
        costs[name][phase] += used
    print(f"{'crate':20}" + "".join(f"{it:>8}" for it in (*PHASES, "all")))
    for name, by in sorted(costs.items(), key=lambda it: -sum(it[1].values())):
        print(f"{name:20}" + "".join(f"{it:8.0f}" for it in (*by.values(), sum(by.values()))))
    sums = [sum(by[it] for by in costs.values()) for it in PHASES]
    print(f"{'all':20}" + "".join(f"{it:8.0f}" for it in (*sums, sum(sums))))
    used = resource.getrusage(resource.RUSAGE_CHILDREN)
    print(f"{(used.ru_utime + used.ru_stime) / 60:.0f} minutes of a processor in all, {(time.time() - begun) / 60:.0f} minutes by the clock")
    dearest = max(chain(name, below, {it: by["proof"] for it, by in costs.items()}) for name in below)
    print(f"the longest chain of proofs: {dearest[0]:.0f} s, {' '.join(dearest[1])}")
    return status


sys.exit(main())
