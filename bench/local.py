#!/usr/bin/env python3
"""Times instructions that need no operation beside `java -Xint`, over one loop of the same class file.

usage: bench/local.py [RUNS]     at the top of the repository; javac and java have to be there

It makes a program in a temporary folder, over copies of the crates, and proves and builds it there. Both run 20,000,000
rounds of `s = (s ^ i) * 31 + i`, by turns, and each takes the time of the loop alone. What is printed is the least of
the runs of each, in nanoseconds a round, and how many times as long as java ours takes.
"""
import os
import subprocess
import sys
import tempfile

import program

ROUNDS = 20000000
STANDS_ON = ["anyhow", "class_read", "code_decode", "frame_snapshot", "interp_local", "link_types"]
JAVA = """public class Loop {
    static int loop(int n) {
        int s = 0;
        for (int i = 0; i < n; i++) {
            s = (s ^ i) * 31 + i;
        }
        return s;
    }

    public static void main(String[] words) {
        int n = Integer.parseInt(words[0]);
        long begin = System.nanoTime();
        int s = loop(n);
        long nanos = System.nanoTime() - begin;
        System.out.println(s);
        System.out.println(nanos);
    }
}
"""
MAIN = """//! `local_bench FILE ROUNDS` times the second method of a class file, many steps in one call.
#![tactic(auto)]

ghost use Rattle.code_decode.specs.Method.{StandsForFile};

use anyhow::Result;
use class_read::{ClassFile, MOST_BYTES, read_class};
use code_decode::{Code, decode_class};
use frame_snapshot::{Caller, Frames, NewFrame, Stage};
use interp_local::{Constant, Constants, make_quicks, run_local};
use link_types::MethodId;
use std::env;
use std::fs::File;
use std::io::Read;
use std::rt::{Clock, Env, Files};
use std::time::Instant;

const METHOD: MethodId = MethodId {
    class: 29,
    method: 1,
};

struct NoConstants;

impl Constants for NoConstants {
    ghost use Rattle.std.specs.Prelude.{[]};

    ghost units = { \u03bb _. [] };

    fn constant(&self, _class: u32, _index: u16) -> Option<Constant> {
        None
    }
}

fn times<R: Print + Clock + AllocGlobal>(rt: &R, code: &Code, rounds: u32) -> Result<()> {
    let mut frames = Frames::launch(rt.alloc(), METHOD, Stage::Begun, 1)?;
    if !frames.has_room(1) {
        return Ok(());
    }
    frames.push_word(rounds);
    let call = NewFrame {
        method: METHOD,
        monitor: 0,
        arguments: 1,
        max_locals: code.max_locals,
        max_stack: code.max_stack,
        caller: Stage::Calls(Caller::Launch),
    };
    if code.max_locals == 0 || frames.push(call).is_err() {
        return Ok(());
    }
    let steps = code.steps.as_slice();
    let quicks = make_quicks(rt.alloc(), steps)?;
    let begin = Instant::now(rt)?;
    let _ = run_local(&NoConstants, steps, quicks.as_slice(), &mut frames, u64::MAX);
    let nanos = begin.elapsed(rt)?.as_nanos();
    if frames.has(1) {
        let answer = frames.word(0).cast_signed();
        println!(rt; "{answer}")?;
    }
    println!(rt; "{nanos}")?;
    Ok(())
}

fn times_second<R: Print + Clock + AllocGlobal>(rt: &R, file: ClassFile, rounds: u32) -> Result<()>
    requires { StandsForFile file }
{
    if let Ok(unit) = decode_class(rt.alloc(), file) {
        if let Some(Some(code)) = unit.codes.as_slice().get(1) {
            return times(rt, code, rounds);
        }
    }
    Ok(())
}

fn times_class<R: Print + Clock + AllocGlobal>(rt: &R, bytes: &[u8], rounds: u32) -> Result<()> {
    match read_class(rt.alloc(), bytes) {
        Ok(file) => times_second(rt, file, rounds),
        Err(_) => Ok(()),
    }
}

fn main(rt: HostRuntime) -> Result<()> {
    let mut bytes = Vec::new(rt.alloc());
    let mut rounds = 0;
    for word in env::args(&rt)?.skip(1) {
        match word.as_str().parse::<u32>() {
            Ok(number) => rounds = number,
            Err(_) => {
                File::open(&rt, word.as_str())?
                    .take(MOST_BYTES as u64)
                    .read_to_end(&mut bytes)?;
            }
        }
    }
    times_class(&rt, bytes.as_slice(), rounds)
}
"""
ANSWERS = """use Rattle.std.proofs.Common.{arith}
use Rattle.local_bench.proofs.times_class.Goals as goal

pub times_second-requires : goal.times_second-requires
times_second-requires g c = (c.args.bytes.now, \u03bb i. omega (arith, c.type_inv.bytes i), c.in-Ok.ensures.found)
"""


def timed(command):
    """What a run answers, and its nanoseconds."""
    answer, nanos = subprocess.run(command, stdout=subprocess.PIPE, text=True, check=True).stdout.split()
    return answer, int(nanos)


def main():
    runs = int(sys.argv[1]) if len(sys.argv) > 1 else 5
    with tempfile.TemporaryDirectory() as folder:
        files = {"src/main.rt": MAIN, "proofs/times_class/Answers.antt": ANSWERS}
        built = program.build(folder, "local_bench", STANDS_ON, files)
        program.write(folder, "Loop.java", JAVA)
        subprocess.run(["javac", "--release", "8", "-Xlint:-options", "Loop.java"], cwd=folder, check=True)
        ours = [built, os.path.join(folder, "Loop.class"), str(ROUNDS)]
        javas = ["java", "-Xint", "-cp", folder, "Loop", str(ROUNDS)]
        seen = [(timed(ours), timed(javas)) for _ in range(runs)]
        if len({answer for pair in seen for answer, _ in pair}) != 1:
            sys.exit("the answers differ")
        our_least, java_least = (min(pair[side][1] for pair in seen) for side in (0, 1))
        print(f"jrev         {our_least / ROUNDS:8.1f} ns a round")
        print(f"java -Xint   {java_least / ROUNDS:8.1f} ns a round")
        print(f"ratio        {our_least / java_least:8.2f}")


if __name__ == "__main__":
    main()
