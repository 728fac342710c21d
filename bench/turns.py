#!/usr/bin/env python3
"""Times turns of threads that run scripts, and counts for how many turns an urgent thread waits for a monitor.

usage: bench/turns.py [RUNS]     at the top of the repository

It makes a program in a temporary folder, over copies of the crates, and proves and builds it there. The first lines are
nanoseconds a step over a million silent steps, a million writes inside a section, and a million entries and exits of a
free monitor; the least of the runs. Each of the others is a section of that many writes to one word: how many turns the
thread that holds it and one that wants its monitor get, by turns, from the middle of the section on until the second
one has ended, where its priority is higher and where it is the same.
"""
import os
import re
import subprocess
import sys
import tempfile

import program

STANDS_ON = ["anyhow", "op_core", "fixed_objects", "section_state", "write_log", "heap_words", "monitor_core", "step_port",
             "plain_words", "thread_automaton", "automaton_rows", "thread_moves", "rollback_core", "toy_code"]
MODES = ["silent", "writes", "monitors"]
STEPS = 1000000
LENGTHS = [10, 100, 1000, 10000, 100000, 1000000]
STOPPED = """//! Why the program can't go on.
use op_core::NoMemory;
use std::alloc::{AllocError, AllocFailed};

/// Something that turns ask isn't so, or there is no memory.
#[derive(Clone, Copy)]
pub struct Stopped;

impl From<AllocError> for Stopped {
    fn from(_error: AllocError) -> Self {
        Stopped
    }
}

impl<T: Drop> From<AllocFailed<T>> for Stopped {
    fn from(_failed: AllocFailed<T>) -> Self {
        Stopped
    }
}

impl From<NoMemory> for Stopped {
    fn from(_error: NoMemory) -> Self {
        Stopped
    }
}
"""
MAIN = """//! Times turns.
#![tactic(auto)]

mod setting;
mod stopped;
mod turning;

use crate::setting::{FIRST, opening, words_of};
use crate::stopped::Stopped;
use crate::turning::{Came, add, give_turn};
use anyhow::Result;
use op_core::{Limits, Op};
use plain_words::PlainWords;
use rollback_core::ReadyThread;
use std::alloc::Global;
use std::env;
use std::rt::{Clock, Env};
use std::time::Instant;
use thread_automaton::Bounds;
use toy_code::{Toy, ToyScript, ToyStep};

const BOUNDS: Bounds = Bounds {
    limits: Limits {
        turns: 1_000_000_000,
        heap: 10,
        sections: 1_100_000,
    },
    first: FIRST,
};

fn push_all(steps: &mut Vec<ToyStep>, of: &[ToyStep]) -> Result<(), Stopped> {
    for step in of {
        steps.push(*step)?;
    }
    Ok(())
}

fn repeated(alloc: Global, before: &[ToyStep], of: &[ToyStep], times: u32, after: &[ToyStep]) -> Result<Vec<ToyStep>, Stopped> {
    let mut steps = Vec::new(alloc);
    push_all(&mut steps, before)?;
    for _time in 0..times {
        push_all(&mut steps, of)?;
    }
    push_all(&mut steps, after)?;
    Ok(steps)
}

fn section(alloc: Global, writes: u32) -> Result<Vec<ToyStep>, Stopped> {
    repeated(alloc, &[ToyStep::Do(Op::Enter(1))], &[ToyStep::Do(Op::Write(5, 0, 7))], writes, &[ToyStep::Do(Op::Exit(1))])
}

fn steps_of(alloc: Global, mode: &str, count: u32) -> Result<Vec<ToyStep>, Stopped> {
    if mode == "silent" {
        repeated(alloc, &[], &[ToyStep::Pass], count, &[])
    } else if mode == "writes" {
        section(alloc, count)
    } else {
        repeated(alloc, &[], &[ToyStep::Do(Op::Enter(1)), ToyStep::Do(Op::Exit(1))], count, &[])
    }
}

fn is_over(threads: &[ReadyThread<Toy<'_>>], place: usize) -> bool {
    match threads.get(place) {
        Some(ready) => ready.thread().is_over(),
        None => true,
    }
}

fn counted(threads: &[ReadyThread<Toy<'_>>], place: usize) -> u64 {
    match threads.get(place) {
        Some(ready) => ready.thread().counted(),
        None => u64::MAX,
    }
}

// Gives a thread turns until it has ended, or has had the given number that count.
fn until(threads: &mut Vec<ReadyThread<Toy<'_>>>, words: &mut PlainWords, place: usize, most: u64) -> Result<u64, Stopped> {
    let mut turns: u64 = 0;
    for _turn in 0..u32::MAX {
        if is_over(threads, place) || counted(threads, place) >= most {
            return Ok(turns);
        }
        if let Came::Spent(_) = give_turn(threads, place, words)? {
            return Err(Stopped);
        }
        turns = turns.saturating_add(1);
    }
    Ok(turns)
}

fn begin<'a>(alloc: Global, scripts: &'a [ToyScript<'a>]) -> Result<(Vec<ReadyThread<Toy<'a>>>, PlainWords), Stopped> {
    let mut threads = Vec::new(alloc);
    let main = Toy::new(alloc, scripts, 0);
    add(&mut threads, ReadyThread::first(alloc, main, 1, 5, BOUNDS))?;
    let words = words_of(alloc, &opening(alloc)?, &BOUNDS.limits)?;
    Ok((threads, words))
}

fn times<R: Print + Clock + AllocGlobal>(rt: &R, mode: &str, count: u32) -> Result<()> {
    let Ok(steps) = steps_of(rt.alloc(), mode, count) else {
        return Ok(());
    };
    let scripts = [ToyScript { object: 0, steps: &steps }];
    let Ok((mut threads, mut words)) = begin(rt.alloc(), &scripts) else {
        return Ok(());
    };
    let start = Instant::now(rt)?;
    let turns = until(&mut threads, &mut words, 0, u64::MAX);
    let nanos = start.elapsed(rt)?.as_nanos();
    if let Ok(turns) = turns {
        println!(rt; "{turns} {nanos}")?;
    }
    Ok(())
}

// The turns of the second and of the third thread, one of each by turns, until the third one has ended.
fn waited(threads: &mut Vec<ReadyThread<Toy<'_>>>, words: &mut PlainWords) -> Result<u64, Stopped> {
    let mut turns: u64 = 0;
    for _turn in 0..u32::MAX {
        if is_over(threads, 2) {
            return Ok(turns);
        }
        let _third = give_turn(threads, 2, words)?;
        let _second = give_turn(threads, 1, words)?;
        turns = turns.saturating_add(2);
    }
    Ok(turns)
}

fn wait_for(alloc: Global, length: u32, priority: u8) -> Result<u64, Stopped> {
    let main = [ToyStep::Do(Op::Start(11, 5)), ToyStep::Do(Op::Start(16, priority))];
    let second = section(alloc, length)?;
    let third = [ToyStep::Do(Op::Enter(1)), ToyStep::Do(Op::Exit(1))];
    let scripts = [
        ToyScript { object: 0, steps: &main },
        ToyScript { object: 11, steps: &second },
        ToyScript { object: 16, steps: &third },
    ];
    let (mut threads, mut words) = begin(alloc, &scripts)?;
    let _main = until(&mut threads, &mut words, 0, u64::MAX)?;
    let _half = until(&mut threads, &mut words, 1, (length / 2) as u64 + 3)?;
    waited(&mut threads, &mut words)
}

fn waits<R: Print + AllocGlobal>(rt: &R, length: u32) -> Result<()> {
    if let (Ok(higher), Ok(same)) = (wait_for(rt.alloc(), length, 10), wait_for(rt.alloc(), length, 5)) {
        println!(rt; "{length} {higher} {same}")?;
    }
    Ok(())
}

fn main(rt: HostRuntime) -> Result<()> {
    let mut count = 0;
    for word in env::args(&rt)?.skip(1) {
        match word.as_str().parse::<u32>() {
            Ok(number) => count = number,
            Err(_) => {
                if word.as_str() == "wait" {
                    waits(&rt, count)?;
                } else {
                    times(&rt, word.as_str(), count)?;
                }
            }
        }
    }
    Ok(())
}
"""


def lent(text):
    """A file of the tests, as the program can have it."""
    text = re.sub(r'Err\(Fail::from\("[^"]*"\)\)', "Err(Stopped)", text)
    text = text.replace("use std::test::Fail;", "use crate::stopped::Stopped;").replace("Fail", "Stopped")
    return text.replace("turns_cases", "turns_bench")


def files():
    """The files of the program, two of them and their words as the cases of the tests have them."""
    made = {"src/main.rt": MAIN, "src/stopped.rt": STOPPED}
    for path in ["src/setting.rt", "src/turning.rt", "specs/MadeSteps.antt", "specs/Lib.antt"]:
        with open(os.path.join("crates", "turns_cases", path)) as source:
            made[path] = lent(source.read())
    return made


def main():
    runs = int(sys.argv[1]) if len(sys.argv) > 1 else 5
    with tempfile.TemporaryDirectory() as folder:
        built = program.build(folder, "turns_bench", STANDS_ON, files())

        def answer(*words):
            return subprocess.run([built, *words], stdout=subprocess.PIPE, text=True, check=True).stdout.split()

        for mode in MODES:
            answers = [answer(str(STEPS), mode) for _ in range(runs)]
            print(f"{mode:12} {min(int(nanos) for _, nanos in answers) / STEPS:8.1f} ns a step, {answers[0][0]} turns")
        for length in LENGTHS:
            print("section of {:>8} writes: higher {:>8} turns, same {:>8}".format(*answer(str(length), "wait")))


if __name__ == "__main__":
    main()
