//! `steps KIND WORDS THREADS COUNT` makes COUNT steps of a kind in each of that many host threads, on 64 words of its own, and
//! prints a sum of the answers and the nanoseconds. The words are "plain", each thread's own array of 64, or "placed", all in one
//! list of which the place of a word is computed at each step.
use std::env;
use std::sync::atomic::{AtomicU64, Ordering::SeqCst};
use std::thread;
use std::time::Instant;

/// How large the areas before the objects are.
struct Areas {
    sections: u32,
    classes: u32,
}

/// The words of a table.
struct Table {
    words: Vec<AtomicU64>,
    areas: Areas,
}

/// The words of one thread.
trait Words: Sync {
    fn word(&self, number: u32) -> &AtomicU64;
}

/// An array of them.
struct Plain<'a>(&'a [AtomicU64; 64]);

impl Words for Plain<'_> {
    fn word(&self, number: u32) -> &AtomicU64 {
        &self.0[number as usize]
    }
}

/// Those objects of a table that begin at a number.
struct Placed<'a>(&'a Table, u32);

impl Words for Placed<'_> {
    fn word(&self, number: u32) -> &AtomicU64 {
        let Areas { sections, classes } = self.0.areas;
        let objects = 8 + u64::from(sections) + 1 + 256 + 256 + u64::from(classes) + 1;
        &self.0.words[(objects + u64::from(self.1 + number)) as usize]
    }
}

fn loads(words: &impl Words, count: u64) -> u64 {
    (0..count).fold(0, |sum: u64, i| sum.wrapping_add(words.word((i % 64) as u32).load(SeqCst)))
}

fn stores(words: &impl Words, count: u64) -> u64 {
    for i in 0..count {
        words.word((i % 64) as u32).store(i, SeqCst);
    }
    words.word(0).load(SeqCst)
}

fn exchanges(words: &impl Words, count: u64) -> u64 {
    let mut sum = 0u64;
    for i in 0..count {
        let exchanged = words.word((i % 64) as u32).compare_exchange(i / 64, i / 64 + 1, SeqCst, SeqCst);
        let (Ok(found) | Err(found)) = exchanged;
        sum = sum.wrapping_add(found);
    }
    sum
}

fn adds(words: &impl Words, count: u64) -> u64 {
    (0..count).fold(0, |sum: u64, i| sum.wrapping_add(words.word((i % 64) as u32).fetch_add(1, SeqCst)))
}

fn steps(words: &impl Words, kind: &str, count: u64) -> u64 {
    match kind {
        "load" => loads(words, count),
        "store" => stores(words, count),
        "exchange" => exchanges(words, count),
        _ => adds(words, count),
    }
}

fn run<W: Words>(own: &[W], kind: &str, count: u64) -> u64 {
    thread::scope(|scope| {
        let others: Vec<_> = own[1..].iter().map(|words| scope.spawn(move || steps(words, kind, count))).collect();
        let first = steps(&own[0], kind, count);
        others.into_iter().fold(first, |sum, other| sum.wrapping_add(other.join().unwrap()))
    })
}

fn main() {
    let args: Vec<String> = env::args().collect();
    let threads: usize = args[3].parse().unwrap();
    let count: u64 = args[4].parse().unwrap();
    let areas = Areas { sections: 1000, classes: 3 };
    let table = Table { words: (0..22_000).map(|_| AtomicU64::new(0)).collect(), areas };
    let plain: Vec<Plain> = (0..threads).map(|thread| Plain(table.words[1 + 4096 * thread..][..64].try_into().unwrap())).collect();
    let placed: Vec<Placed> = (0..threads).map(|thread| Placed(&table, 1 + 4096 * thread as u32)).collect();
    let start = Instant::now();
    let sum = if args[2] == "plain" { run(&plain, &args[1], count) } else { run(&placed, &args[1], count) };
    println!("{sum} {}", start.elapsed().as_nanos());
}
