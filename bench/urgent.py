#!/usr/bin/env python3
"""Counts for how many turns an urgent thread waits for a lock under which a slow thread works.

usage: bench/urgent.py [--svg]     at the top of the repository, after `./jrev` has built the program; javac has to be there

The slow thread makes a number of rounds under the lock, and each round reads a word, or reads and writes one. When it has
made half of its turns, the urgent thread wants the lock. The table has the turns of the whole section, and how many
turns the slow thread gets from then on until the urgent one can take the lock: where both have the same priority, and
where that of the urgent one is higher. With --svg docs/urgent.svg is drawn of it.

All of it comes from `pick`: an order gives the slow thread N turns and then the urgent one some, which prints a line
under the lock, and then a third thread asks for more memory than there may be, which ends the run. The least N with
which the line is printed is the wait.
"""
import math
import os
import subprocess
import sys
import tempfile

PROGRAM = os.path.join("crates", "jrev_main", "out", "jrev_main")
PICTURE = os.path.join("docs", "urgent.svg")
LENGTHS = [10, 100, 1000, 10000, 100000]
ROUNDS = {"reads": "sum += total;", "writes": "total = total * 31 + i;"}
JAVA = """class Urgent {
    static final Object lock = new Object();
    static int total;

    static class Slow extends Thread {
        public void run() {
            synchronized (lock) {
                int sum = 0;
                for (int i = 0; i < LENGTH; i++) ROUND
            }
        }
    }

    static class Hurried extends Thread {
        public void run() {
            synchronized (lock) {
                System.out.println(7);
            }
        }
    }

    static class Stops extends Thread {
        public void run() {
            int[] words = new int[1000];
        }
    }

    static void race(int priority) {
        Thread slow = new Slow(), hurried = new Hurried(), stops = new Stops();
        slow.setPriority(1);
        hurried.setPriority(priority);
        slow.start();
        hurried.start();
        stops.start();
    }

    static class Same {
        public static void main(String[] arguments) {
            race(1);
        }
    }

    static class Higher {
        public static void main(String[] arguments) {
            race(10);
        }
    }
}
"""


def turns(count):
    """Items of an order that give thread 2 a number of turns."""
    return ["2*1000000"] * (count // 1000000) + ([f"2*{count % 1000000}"] if count % 1000000 else [])


class Section:
    """A program whose slow thread makes rounds of a kind under the lock."""

    def __init__(self, folder, kind, length):
        self.folder = os.path.join(folder, f"{kind}{length}")
        os.mkdir(self.folder)
        source = os.path.join(self.folder, "Urgent.java")
        with open(source, "w") as file:
            file.write(JAVA.replace("LENGTH", str(length)).replace("ROUND", ROUNDS[kind]))
        subprocess.run(["javac", "--release", "8", "-Xlint:-options", "-d", self.folder, source], check=True)

    def run(self, main, before, after):
        """Whether the urgent thread has the lock, and how often levels were undone, by the turns that the slow thread
        gets under the lock before the urgent one wants it, and after."""
        order = ["1@20", "2@12", *turns(before), "3*50", *turns(after), "3*50", "4*50"]
        words = [PROGRAM, "pick", self.folder, f"Urgent${main}", "--order=" + ",".join(order), "--heap=900", "--counts"]
        ran = subprocess.run(words, stdout=subprocess.PIPE, stderr=subprocess.PIPE, text=True)
        limit, counts = ran.stderr.splitlines()
        if ran.returncode != 6 or limit != "limit: heap thread 4":
            sys.exit(f"{main}: status {ran.returncode}, {limit}")
        return ran.stdout == "7\n", int(counts.split()[-1])

    def least(self, holds):
        """The least number for which something holds that holds of all greater ones too."""
        high = 1
        while not holds(high):
            high *= 2
        low = high // 2
        while high - low > 1:
            middle = (low + high) // 2
            low, high = (low, middle) if holds(middle) else (middle, high)
        return high

    def wait(self, main, before):
        """How many turns the slow thread gets until the urgent one can take the lock.

        A thread that was undone takes the lock again, so where the priority is higher what is looked for is the turn with
        which it is undone, the one after it gave the lock back."""
        if main == "Same":
            count = self.least(lambda n: self.run(main, before, n)[0])
        else:
            count = self.least(lambda n: self.run(main, before, n)[1] > 0) - 1
        if not self.run(main, before, count)[0] or count > 1 and self.run(main, before, count - 1)[0]:
            sys.exit(f"{main}: {count} isn't the wait")
        return count


def place(value, least, most, begin, end):
    return begin + (end - begin) * (math.log10(value) - least) / (most - least)


def picture(rows):
    """The waits over the turns of the section, both in powers of ten."""
    across = [turns for _, _, turns, _, _ in rows]
    up = [wait for row in rows for wait in row[3:]]
    left, right = math.floor(math.log10(min(across))), math.ceil(math.log10(max(across)))
    top = math.ceil(math.log10(max(up)))

    def at(turns, wait):
        return f"{place(turns, left, right, 80, 560):.1f},{place(wait, 0, top, 330, 30):.1f}"

    parts = ['<svg xmlns="http://www.w3.org/2000/svg" width="800" height="400" font-family="sans-serif" font-size="13">',
             '<rect width="800" height="400" fill="white"/>']
    for power in range(left, right + 1):
        x = place(10 ** power, left, right, 80, 560)
        parts.append(f'<path d="M{x:.1f} 30V330" stroke="#ddd"/><text x="{x:.1f}" y="350" text-anchor="middle">{10 ** power:,}</text>')
    for power in range(top + 1):
        y = place(10 ** power, 0, top, 330, 30)
        parts.append(f'<path d="M80 {y:.1f}H560" stroke="#ddd"/><text x="72" y="{y + 4:.1f}" text-anchor="end">{10 ** power:,}</text>')
    parts.append('<text x="320" y="380" text-anchor="middle">turns of the section of the slow thread</text>')
    parts.append('<text x="80" y="18">turns of the slow thread that the urgent one waits for</text>')
    curves = [("writes", 3, "#c0392b", "same priority"), ("writes", 4, "#2471a3", "higher, a write each round"),
              ("reads", 4, "#1e8449", "higher, reads alone")]
    for kind, column, colour, label in curves:
        points = [at(row[2], row[column]) for row in rows if row[0] == kind]
        parts.append(f'<polyline points="{" ".join(points)}" fill="none" stroke="{colour}" stroke-width="2"/>')
        parts += [f'<circle cx="{x}" cy="{y}" r="3" fill="{colour}"/>' for x, y in (it.split(",") for it in points)]
        y = float(points[-1].split(",")[1])
        parts.append(f'<text x="570" y="{y + 4:.1f}" fill="{colour}">{label}</text>')
    return "\n".join(parts + ["</svg>"]) + "\n"


def main():
    if not os.path.exists(PROGRAM):
        sys.exit("./jrev hasn't built the program")
    rows = []
    with tempfile.TemporaryDirectory() as folder:
        print(f"{'round':<8}{'rounds':>9}{'section':>11}{'same':>11}{'higher':>11}", flush=True)
        for kind in ROUNDS:
            for length in LENGTHS:
                section = Section(folder, kind, length)
                whole = section.wait("Same", 0)
                half = whole // 2
                rows.append((kind, length, whole, section.wait("Same", half), section.wait("Higher", half)))
                print("{:<8}{:>9,}{:>11,}{:>11,}{:>11,}".format(*rows[-1]), flush=True)
    if sys.argv[1:] == ["--svg"]:
        with open(PICTURE, "w") as file:
            file.write(picture(rows))


if __name__ == "__main__":
    main()
