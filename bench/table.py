#!/usr/bin/env python3
"""Times steps on the table that host threads share beside steps of Rust, and turns on it beside turns on words of one host thread.

usage: bench/table.py [RUNS]     at the top of the repository; rustc has to be there
       bench/table.py --built STEPS TURNS [RUNS]     the same with the two programs, proved and built elsewhere

It makes two programs of the sources in bench/table/ in temporary folders, over copies of the crates, and proves and builds them
there; and one of Rust, by `rustc -C opt-level=3`. They run by turns, and what is printed is the least of the runs of each.

The first lines are nanoseconds a step: 2,000,000 loads, stores, compare-exchanges (each is won) or fetch-adds in each of 1, 2 or 4
host threads, on 64 words of its own. A step of ours is made as `table_words` makes it: the place of the word is computed from the
sizes of the areas, and the step is one call of `atomic_table`. Rust's words are AtomicU64, used with SeqCst: first an array of 64
for each thread, then words in one list whose place is computed as ours is. The last lines are nanoseconds a turn: the first thread
of the program of `table_cases`, from its start to its end in one slice, on a new table each time, and on the same words in a vector.
"""
import os
import subprocess
import sys
import tempfile

import program

SOURCES = os.path.join("bench", "table")
TESTS = os.path.join("crates", "table_cases", "src")
STEPS = 2000000
RUNS_OF_TURNS = 20000
KINDS = ["load", "store", "exchange", "add"]
THREADS = [1, 2, 4]
STEPS_STAND_ON = ["atomic_table", "anyhow", "op_core", "heap_words"]
TURNS_STAND_ON = ["anyhow", "op_core", "fixed_objects", "heap_words", "step_port", "plain_words", "thread_automaton", "thread_moves",
                  "rollback_core", "core_runs", "section_laws", "table_words", "table_hosts", "table_runs", "table_cases"]
INVARIANT = """use Rattle.std.proofs.Common.{{◌≡◌}}
use Rattle.table_steps.proofs.{0}.Given as goal

abbrev pub invariant-loop-i : goal.invariant-loop-i
invariant-loop-i l = (l.seat.table_id ≡ l.fn.words.table.shared.table_id)
"""
ANSWERS = """use Rattle.std.proofs.Common.{{rules}}
use Rattle.table_steps.proofs.Frees.{{free}}
use Rattle.table_steps.proofs.words.SharedWords.{0}.Goals as goal

pub {1}-requires : goal.{1}-requires
{1}-requires c = (search rules, search rules, free _ _ _ _ _ (λ n. n))
"""


def read(*path):
    with open(os.path.join(*path), encoding="utf-8") as source:
        return source.read()


def sources(folder):
    """The files below a folder, whose names end in .txt here, by their paths in a crate."""
    made = {}
    for at, _, names in os.walk(folder):
        for name in names:
            made[os.path.relpath(os.path.join(at, name), folder).removesuffix(".txt")] = read(at, name)
    return made


def step_files():
    """The files of the program that makes steps."""
    made = sources(os.path.join(SOURCES, "steps"))
    for loop in ["loads", "stores", "exchanges", "adds"]:
        made[f"proofs/{loop}/Invariants.antt"] = INVARIANT.format(loop)
    for call, step in [("load", "load"), ("store", "store"), ("exchange", "compare_exchange"), ("add", "fetch_add")]:
        made[f"proofs/words/SharedWords/{call}/Answers.antt"] = ANSWERS.format(call, step)
    return made


def turn_files():
    """The files of the program that gives turns. Its threads run the program that the tests have."""
    return {**sources(os.path.join(SOURCES, "turns")), "src/program.rt": read(TESTS, "program.rt")}


def answer(*words):
    """The numbers that a run prints."""
    printed = subprocess.run(words, stdout=subprocess.PIPE, text=True, check=True).stdout
    return [int(number) for number in printed.split()]


def least(commands, runs):
    """What the commands print first, and the least of the second numbers of each, where they run by turns."""
    seen = [[answer(*command) for command in commands] for _ in range(runs)]
    return [seen[0][side][0] for side in range(len(commands))], [min(row[side][1] for row in seen) for side in range(len(commands))]


def print_steps(ours, rust, runs):
    print("nanoseconds a step     table   array   ratio   placed   ratio")
    for kind in KINDS:
        for threads in THREADS:
            words = [str(threads), str(STEPS)]
            commands = [[ours, kind, *words], [rust, kind, "plain", *words], [rust, kind, "placed", *words]]
            sums, nanos = least(commands, runs)
            if len(set(sums)) != 1:
                sys.exit("the sums differ")
            table, array, placed = (it / STEPS for it in nanos)
            print(f"{kind:10} {threads} threads {table:8.2f} {array:7.2f} {table / array:7.2f} {placed:8.2f} {table / placed:7.2f}")


def print_turns(turns, runs):
    commands = [[turns, words, str(RUNS_OF_TURNS)] for words in ["table", "plain", "clock"]]
    counted, nanos = least(commands, runs)
    if counted[0] != counted[1]:
        sys.exit("the turns differ")
    made = answer(turns, "plain", str(RUNS_OF_TURNS))[2]
    table, plain = ((it - nanos[2]) / made for it in nanos[:2])
    print(f"nanoseconds a turn, {made // RUNS_OF_TURNS} turns a run: table {table:.1f}, vector {plain:.1f}, ratio {table / plain:.2f}")


def main():
    words = sys.argv[1:]
    built = words[1:3] if words[:1] == ["--built"] else []
    words = words[3:] if built else words
    runs = int(words[0]) if words else 15
    with tempfile.TemporaryDirectory() as folder:
        rust = os.path.join(folder, "steps")
        subprocess.run(["rustc", "--edition", "2021", "-C", "opt-level=3", os.path.join(SOURCES, "steps.rs"), "-o", rust], check=True)
        if not built:
            built = [program.build(os.path.join(folder, "a"), "table_steps", STEPS_STAND_ON, step_files()),
                     program.build(os.path.join(folder, "b"), "table_turns", TURNS_STAND_ON, turn_files())]
        print_steps(built[0], rust, runs)
        print_turns(built[1], runs)


if __name__ == "__main__":
    main()
