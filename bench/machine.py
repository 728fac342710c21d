#!/usr/bin/env python3
"""Times the ordinary machine over a script, and prints nanoseconds a step.

usage: bench/machine.py [RUNS]     at the top of the repository

It makes a program in a temporary folder, over copies of the crates, and proves and builds it there. Each mode makes a
million steps of one thread: silent steps through `advance`, operations through `advance`, and silent steps through one
call of `run_silent`. What is printed is the least of the runs.
"""
import subprocess
import sys
import tempfile

import program

STANDS_ON = ["anyhow", "op_core", "fixed_objects", "ordinary_machine"]
MODES = ["silent", "operations", "run"]
STEPS = 1000000
MAIN = """//! Times a million steps of the ordinary machine.
#![tactic(auto)]

use anyhow::Result;
use fixed_objects::{FixedObject, Opening};
use op_core::{Limits, NoMemory, Op, Rows, Script, ScriptStep};
use ordinary_machine::{Advance, Ordinary};
use std::alloc::{AllocError, Global};
use std::env;
use std::rt::{Clock, Env};
use std::time::Instant;

const STEPS: u32 = 1_000_000;

const LIMITS: Limits = Limits {
    turns: 1_000_000_000,
    heap: 1_000_000,
    sections: 1,
};

fn operation_at(place: u32) -> ScriptStep {
    match place % 4 {
        0 => ScriptStep::Operation(Op::Enter(9)),
        1 => ScriptStep::Operation(Op::Write(9, 0, place)),
        2 => ScriptStep::Operation(Op::Read(9, 0)),
        _ => ScriptStep::Operation(Op::Exit(9)),
    }
}

fn script(alloc: Global, is_silent: bool) -> Result<Vec<ScriptStep>, AllocError> {
    let mut steps = Vec::new(alloc);
    for place in 0..STEPS {
        if is_silent {
            steps.push(ScriptStep::Pass)?;
        } else {
            steps.push(operation_at(place))?;
        }
    }
    Ok(steps)
}

fn opening(alloc: Global) -> Result<Opening, AllocError> {
    let mut objects = Vec::new(alloc);
    objects.push(FixedObject {
        reference: 9,
        class: 7,
        length: 0,
        words: Rows::from_vec(Vec::from_slice(alloc, &[0, 0])?),
        started: 0,
    })?;
    Ok(Opening {
        objects: Rows::from_vec(objects),
        ready: Rows::new(alloc),
        classes: 8,
        first: 20,
        main_thread: 0,
    })
}

fn advances(machine: &mut Ordinary<Script<'_>>) -> Result<u32, NoMemory> {
    let mut made: u32 = 0;
    for _ in 0..STEPS {
        if machine.has_begun(1) {
            match machine.advance(1, &LIMITS)? {
                Advance::Silent | Advance::Step(_) => made = made.wrapping_add(1),
                _ => {}
            }
        }
    }
    Ok(made)
}

fn run(machine: &mut Ordinary<Script<'_>>) -> u64 {
    if machine.has_begun(1) {
        machine.run_silent(1, STEPS as u64)
    } else {
        0
    }
}

fn times<R: Print + Clock + AllocGlobal>(rt: &R, mode: &str) -> Result<()> {
    let steps = script(rt.alloc(), mode != "operations")?;
    let opening = opening(rt.alloc())?;
    if !opening.lies_below_first() {
        return Ok(());
    }
    let code = Script::new(rt.alloc(), steps.as_slice());
    let Ok(mut machine) = Ordinary::start(rt.alloc(), &opening, code) else {
        return Ok(());
    };
    let begin = Instant::now(rt)?;
    let made = if mode == "run" {
        run(&mut machine)
    } else {
        advances(&mut machine).unwrap_or(0) as u64
    };
    let nanos = begin.elapsed(rt)?.as_nanos();
    println!(rt; "{made} {nanos}")?;
    Ok(())
}

fn main(rt: HostRuntime) -> Result<()> {
    for mode in env::args(&rt)?.skip(1) {
        times(&rt, mode.as_str())?;
    }
    Ok(())
}
"""


def main():
    runs = int(sys.argv[1]) if len(sys.argv) > 1 else 5
    with tempfile.TemporaryDirectory() as folder:
        built = program.build(folder, "machine_bench", STANDS_ON, {"src/main.rt": MAIN})
        for mode in MODES:
            answers = [subprocess.run([built, mode], stdout=subprocess.PIPE, text=True, check=True).stdout.split()
                       for _ in range(runs)]
            if any(int(made) != STEPS for made, _ in answers):
                sys.exit(f"{mode}: not all steps were made")
            print(f"{mode:12} {min(int(nanos) for _, nanos in answers) / STEPS:8.1f} ns")


if __name__ == "__main__":
    main()
