#!/usr/bin/env python3
"""Times `jrev pick` beside `java -Xint` over the loops of bench/java, and prints a table of medians.

usage: bench/interpreter.py [RUNS]     at the top of the repository, after `./jrev` has built the program; javac and
                                       java have to be there

Both run each class RUNS times (5), by turns, and have to print the same. What counts is processor time, so that other
programs on the machine matter less; the time of a class that does nothing, run right after, is taken off. The last rows are a million lines that are printed to a file, beside java with its compilers, and eight
threads of a million instructions each, without and with a seed, with the time a turn.
"""
import os
import resource
import statistics
import subprocess
import sys
import tempfile

PROGRAM = os.path.join("crates", "jrev_main", "out", "jrev_main")
SOURCES = os.path.join("bench", "java")
LOOPS = ["Arithmetic", "Calls", "Fields", "Arrays", "Exceptions", "Monitors", "Appends", "CharAts"]
COMPILED = ["java", "-XX:+UseSerialGC", "-cp"]
JAVA = ["java", "-Xint", "-XX:+UseSerialGC", "-cp"]
TURNS = 8 * 76923 * 13


def timed(words, path):
    """Runs words with a file as their standard output, and gives the seconds and what was printed."""
    with open(path, "wb") as file:
        before = resource.getrusage(resource.RUSAGE_CHILDREN)
        subprocess.run(words, stdout=file, check=True)
        after = resource.getrusage(resource.RUSAGE_CHILDREN)
    with open(path, "rb") as file:
        return after.ru_utime + after.ru_stime - before.ru_utime - before.ru_stime, file.read()


def medians(folder, name, runs, options=(), java=JAVA):
    """The median seconds of a class under pick with these options, and under java, without those of an empty main."""
    path = os.path.join(folder, "out")
    ours, theirs = [], []
    for _ in range(runs):
        seconds, printed = timed([PROGRAM, "pick", folder, name, *options], path)
        ours.append(seconds - timed([PROGRAM, "pick", folder, "Empty"], path)[0])
        seconds, wanted = timed(java + [folder, name], path)
        theirs.append(seconds - timed(java + [folder, "Empty"], path)[0])
        if printed != wanted:
            sys.exit(f"{name}: pick and java print other lines")
    return statistics.median(ours), statistics.median(theirs)


def main():
    runs = int(sys.argv[1]) if len(sys.argv) > 1 else 5
    if not os.path.exists(PROGRAM):
        sys.exit("./jrev hasn't built the program")
    with tempfile.TemporaryDirectory() as folder:
        sources = [os.path.join(SOURCES, it) for it in sorted(os.listdir(SOURCES))]
        subprocess.run(["javac", "--release", "8", "-Xlint:none", "-d", folder] + sources, check=True)
        print(f"{'class':<18}{'pick s':>9}{'java s':>9}{'ratio':>8}", flush=True)

        def row(label, name, options=(), java=JAVA):
            ours, theirs = medians(folder, name, runs, options, java)
            last = f"   {ours / TURNS * 1e9:.1f} ns a turn" if name == "Turns" else f"{ours / theirs:>8.1f}"
            print(f"{label:<18}{ours:>9.3f}{theirs:>9.3f}{last}", flush=True)

        for name in LOOPS:
            row(name, name)
        row("Lines, compiled", "Lines", java=COMPILED)
        row("Turns", "Turns")
        row("Turns, a seed", "Turns", ("--seed=1",))


main()
