#!/usr/bin/env python3
"""Times `jrev run` on several host threads beside one, beside `jrev pick` and beside `java -Xint`, over the programs of bench/hosts.

usage: bench/hosts.py [RUNS]     at the top of the repository, after `./jrev` has built the program; javac and java have to be
                                 there, and the machine should have four processors and nothing else to do

Each program has seven threads beside main, and a row for the usual slice and one for the longest. Each row has the medians of RUNS
(3) of the seconds that a run takes, by the clock, with those of an empty main taken off: under `pick`, under `run` with 1, 2 and 4
workers and slices of this many turns, and under `java -Xint`. Then come the speed of 4 workers beside 1, and the time of `run` with
1 worker beside that of `pick`. All runs have to print the same.

The last column says what the machine has to give: how many times as much four processes of `pick` do at once as one alone. Where its
processors are threads of fewer cores, or others use them too, that is less than 4, and no four workers can do more.
"""
import os
import statistics
import subprocess
import sys
import tempfile
import time

PROGRAM = os.path.join("crates", "jrev_main", "out", "jrev_main")
SOURCES = os.path.join("bench", "hosts")
EMPTY = os.path.join("bench", "java", "Empty.java")
JAVA = ["java", "-Xint", "-XX:+UseSerialGC", "-cp"]
WORKERS = [1, 2, 4]
SLICES = [10000, 1000000]


def timed(words):
    """The seconds that words take by the clock, and what they print."""
    begun = time.perf_counter()
    printed = subprocess.run(words, stdout=subprocess.PIPE, check=True).stdout
    return time.perf_counter() - begun, printed


def median(runs, words, empty, wanted):
    """The median of the seconds that words take without those of an empty main; they have to print what is wanted, if it is given."""
    seconds = []
    for _ in range(runs):
        took, printed = timed(words)
        if wanted is not None and printed != wanted:
            sys.exit(f"{' '.join(words)}: other lines than java")
        seconds.append(took - timed(empty)[0])
    return statistics.median(seconds)


def four_at_once(words):
    """The seconds that four processes of these words take at once."""
    begun = time.perf_counter()
    processes = [subprocess.Popen(words, stdout=subprocess.DEVNULL) for _ in range(4)]
    if any(it.wait() != 0 for it in processes):
        sys.exit(f"{' '.join(words)}: a status that isn't 0")
    return time.perf_counter() - begun


def machine_gives(runs, folder, name):
    """How many times as much four processes do at once as one alone: the median."""
    words = [PROGRAM, "pick", folder, name]
    return statistics.median(4 * timed(words)[0] / four_at_once(words) for _ in range(runs))


def row(runs, folder, name, turns):
    """The medians of a program with slices of this many turns, and their ratios."""
    wanted = timed(JAVA + [folder, name])[1]
    seconds = [median(runs, [PROGRAM, "pick", folder, name], [PROGRAM, "pick", folder, "Empty"], wanted)]
    for workers in WORKERS:
        options = [f"--workers={workers}", f"--slice={turns}"]
        seconds.append(median(runs, [PROGRAM, "run", folder, name] + options, [PROGRAM, "run", folder, "Empty"] + options, wanted))
    seconds.append(median(runs, JAVA + [folder, name], JAVA + [folder, "Empty"], None))
    return seconds, [seconds[1] / seconds[3], seconds[1] / seconds[0], machine_gives(runs, folder, name)]


def main():
    runs = int(sys.argv[1]) if len(sys.argv) > 1 else 3
    if not os.path.exists(PROGRAM):
        sys.exit("./jrev hasn't built the program")
    with tempfile.TemporaryDirectory() as folder:
        sources = [os.path.join(SOURCES, it) for it in sorted(os.listdir(SOURCES))]
        subprocess.run(["javac", "--release", "8", "-Xlint:none", "-d", folder, EMPTY] + sources, check=True)
        titles = ["slice", "pick s"] + [f"run {it} s" for it in WORKERS] + ["java s", "4 : 1", "1 : pick", "machine"]
        print(f"{'class':<10}" + "".join(f"{it:>10}" for it in titles), flush=True)
        for source in sources:
            name = os.path.splitext(os.path.basename(source))[0]
            for turns in SLICES:
                seconds, ratios = row(runs, folder, name, turns)
                print(f"{name:<10}{turns:>10}" + "".join(f"{it:>10.3f}" for it in seconds) + "".join(f"{it:>10.2f}" for it in ratios), flush=True)


main()
