#!/usr/bin/env python3
"""Times how long an urgent thread waits for a lock that a slow thread takes again and again, while three threads load the machine.

usage: bench/urgent_hosts.py [RUNS]     at the top of the repository, after `./jrev` has built the program; javac has to be there, and
                                        the machine should have four processors and nothing else to do

The slow thread works under the lock, and then as long without it. The urgent thread works as long, then enters the lock, ENTRIES
times, and all threads end when it is through. Each row has the medians of RUNS (5) of the milliseconds by which an entry makes the
run longer, by the clock, under `run` with a worker for each thread: where the urgent thread has the priority of the slow one, so that
it waits, and where it has a higher one, so that the slow thread is undone. The time of a run in which the urgent thread enters
another lock, so that it never waits, is taken off. The row says how many rounds of the slow thread are under the lock, and how many
turns a slice has.
"""
import os
import statistics
import subprocess
import sys
import tempfile
import time

PROGRAM = os.path.join("crates", "jrev_main", "out", "jrev_main")
ENTRIES = 200
ROUNDS = [(100, 10000), (500, 10000), (5000, 1000000)]
PRIORITIES = [5, 10]
JAVA = """class Urgent extends Thread {
    static final Object lock = new Object(), other = new Object();
    static int over, rounds, entries;
    final int role;

    Urgent(int role, int priority) {
        this.role = role;
        setPriority(priority);
    }

    static void load() {
        int sum = 0;
        while (over == 0) {
            for (int i = 0; i < 1000; i++) sum += i ^ (sum << 3);
        }
    }

    static void work() {
        while (over == 0) {
            synchronized (lock) {
                for (int i = 0; i < ROUNDS; i++) rounds++;
            }
            int sum = 0;
            for (int i = 0; i < ROUNDS; i++) sum += i;
        }
    }

    static void hurry() {
        int sum = 0;
        for (int i = 0; i < ENTRIES; i++) {
            for (int round = 0; round < ROUNDS; round++) sum += round;
            synchronized (LOCK) {
                entries++;
            }
        }
        over = 1;
    }

    public void run() {
        if (role < 3) load();
        else if (role == 3) work();
        else hurry();
    }

    public static void main(String[] arguments) throws InterruptedException {
        Urgent[] threads = new Urgent[5];
        for (int i = 0; i < 5; i++) threads[i] = new Urgent(i, i == 4 ? PRIORITY : 5);
        for (Urgent thread : threads) thread.start();
        for (Urgent thread : threads) thread.join();
        System.out.println(entries);
    }
}
"""


def built(folder, rounds, priority, lock):
    """Compiles the program into a folder of its own, and gives that folder."""
    place = os.path.join(folder, f"{rounds}-{priority}-{lock}")
    os.makedirs(place)
    source = os.path.join(place, "Urgent.java")
    text = JAVA.replace("ROUNDS", str(rounds)).replace("ENTRIES", str(ENTRIES)).replace("PRIORITY", str(priority)).replace("LOCK", lock)
    with open(source, "w", encoding="utf-8") as file:
        file.write(text)
    subprocess.run(["javac", "--release", "8", "-Xlint:none", "-d", place, source], check=True)
    return place


def seconds(folder, turns):
    """The seconds that a run takes with slices of this many turns."""
    begun = time.perf_counter()
    words = [PROGRAM, "run", folder, "Urgent", "--workers=6", f"--slice={turns}", "--turns=1000000000"]
    printed = subprocess.run(words, stdout=subprocess.PIPE, check=True, timeout=300).stdout
    if printed != f"{ENTRIES}\n".encode():
        sys.exit(f"the run printed {printed!r}")
    return time.perf_counter() - begun


def milliseconds(folder, rounds, turns, priority, runs):
    """The milliseconds by which an entry of the urgent thread makes the run longer."""
    medians = []
    for lock in ["other", "lock"]:
        place = built(folder, rounds, priority, lock)
        medians.append(statistics.median(seconds(place, turns) for _ in range(runs)))
    return (medians[1] - medians[0]) * 1000 / ENTRIES


def main():
    runs = int(sys.argv[1]) if len(sys.argv) > 1 else 5
    if not os.path.exists(PROGRAM):
        sys.exit("./jrev hasn't built the program")
    with tempfile.TemporaryDirectory() as folder:
        print(f"{'rounds':>8}{'slice':>10}{'same ms':>12}{'higher ms':>12}")
        for rounds, turns in ROUNDS:
            waits = [milliseconds(folder, rounds, turns, it, runs) for it in PRIORITIES]
            print(f"{rounds:>8}{turns:>10}" + "".join(f"{it:>12.3f}" for it in waits), flush=True)


main()
