#!/usr/bin/env python3
"""Times `jrev trace`, `check` and `migrate` of the greatest journal beside `cat` and `wc` of the same file.

usage: bench/journal.py [RUNS]     at the top of the repository, after `./jrev` has built the program; javac has to be there

The program of the journal writes and reads a field without end, so `trace` ends at the limit of a journal's events. Each command
runs RUNS times (3), by turns. What is printed is the median of the seconds of a processor, and the most memory that a run had
at one time. The memory of `pick` of the same program with few turns is that of the
program's machine.
"""
import os
import statistics
import subprocess
import sys
import tempfile

PROGRAM = os.path.join("crates", "jrev_main", "out", "jrev_main")
SOURCE = """public class Endless {
    static int number;

    public static void main(String[] words) {
        for (int i = 0; ; i++) {
            number = number + i;
        }
    }
}
"""


def measured(words, source, target):
    """The seconds of a processor and the greatest memory in MB of words with these files as their streams, and how they end."""
    with open(source, "rb") as given, open(target, "wb") as taken:
        run = subprocess.Popen(words, stdin=given, stdout=taken, stderr=subprocess.DEVNULL)
        _, status, used = os.wait4(run.pid, 0)
    run.returncode = os.waitstatus_to_exitcode(status)
    return used.ru_utime + used.ru_stime, used.ru_maxrss / 1024, run.returncode


def main():
    runs = int(sys.argv[1]) if len(sys.argv) > 1 else 3
    if not os.path.exists(PROGRAM):
        sys.exit("./jrev hasn't built the program")
    with tempfile.TemporaryDirectory() as folder:
        path = os.path.join(folder, "Endless.java")
        with open(path, "w", encoding="ascii") as file:
            file.write(SOURCE)
        classes = os.path.join(folder, "classes")
        subprocess.run(["javac", "--release", "8", "-Xlint:none", "-d", classes, path], check=True)
        journal, out = os.path.join(folder, "journal"), os.path.join(folder, "out")
        rows = [
            ("pick --turns=1000", [PROGRAM, "pick", classes, "Endless", "--turns=1000"], os.devnull, out),
            ("trace", [PROGRAM, "trace", classes, "Endless"], os.devnull, journal),
            ("check", [PROGRAM, "check", classes, "Endless"], journal, out),
            ("migrate", [PROGRAM, "migrate"], journal, out),
            ("cat", ["cat"], journal, out),
            ("wc", ["wc"], journal, out),
        ]
        seen = {name: [] for name, _, _, _ in rows}
        for _ in range(runs):
            for name, words, source, target in rows:
                seen[name].append(measured(words, source, target))
        size = os.path.getsize(journal)
        with open(journal, "rb") as file:
            lines = sum(block.count(b"\n") for block in iter(lambda: file.read(1 << 20), b""))
        print(f"{lines:,} lines, {size:,} bytes")
        print(f"{'command':<20}{'seconds':>9}{'MB':>8}{'status':>8}")
        for name, measures in seen.items():
            seconds = statistics.median(it[0] for it in measures)
            print(f"{name:<20}{seconds:>9.2f}{max(it[1] for it in measures):>8.0f}{measures[0][2]:>8}")


main()
