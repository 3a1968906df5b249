//! The proved archives beside plain Rust: first that both give the same, then how long each takes, and libraries and libc too.

mod calls;
mod causes;
mod client;
mod client_calls;
mod clock;
mod coding;
mod coding_tasks;
mod digests;
mod frames;
mod isal;
mod libraries;
mod operations;
mod parties;
mod piece_calls;
mod pieces;
mod plain;
mod planes;
mod pointers;
mod proved;
mod random;
mod recording_calls;
mod recording_tasks;
mod recordings;
mod records;
mod report;
mod runs;
mod service;
mod sides;
mod tables;
mod tally;
mod titles;
mod wrong;

use proved::Proved;
use random::{Numbers, FIRST};
use service::Service;
use sides::{Parties, Plain};
use std::env;

const F: usize = 4096;
const CALLS: usize = 100_000;
const RUNS: usize = 2000;
const OPERATIONS: usize = 10_000;
const SHAPES: [(usize, usize); 3] = [(2, 4), (4, 8), (8, 16)];

/// Random calls to directory, node and client, beside plain Rust.
fn calls(name: &str, side: &mut dyn Parties, numbers: &mut Numbers) {
    let names = format!("{name} and of plain Rust");
    println!();
    calls::calls(&names, side, &mut Plain, numbers, CALLS);
    println!();
    match client_calls::compare(side, &mut Plain, numbers, CALLS) {
        Ok(tally) => {
            println!("{CALLS} calls to a client of {names}: the same answers and bytes, every refusal among them");
            client_calls::covered(&tally);
        }
        Err((at, detail)) => panic!("{names}, call {at}: {detail}"),
    }
}

/// The same runs three times: the same answers and, by a sum, the same bytes after each event.
fn runs(numbers: &mut Numbers) {
    let seed = numbers.next();
    println!();
    let counts = runs::runs("plain Rust", &mut Plain, seed, RUNS);
    counts.print();
    let mut service = Service::default();
    for (name, side) in [
        ("the archive", &mut Proved as &mut dyn Parties),
        ("the title service", &mut service),
    ] {
        let same = runs::runs(name, side, seed, RUNS) == counts;
        assert!(same, "{name}: the same runs leave other bytes");
        println!("the same answers and bytes as of plain Rust");
    }
    assert_eq!(service.brought, 0, "a part did not stand in the memory");
}

fn times(numbers: &mut Numbers) {
    let mut sections = [
        coding_tasks::whole(numbers),
        coding_tasks::placed(numbers),
        coding_tasks::alone(numbers),
        operations::whole(numbers),
        tables::largest(numbers),
        coding_tasks::longer(numbers),
        coding_tasks::wider(numbers),
        tables::larger(numbers),
        recording_tasks::whole(numbers),
        recording_tasks::longer(numbers),
    ];
    clock::measure(&mut sections);
    for section in &sections {
        (section.print)(&section.tasks);
    }
    println!();
    println!("Best runs in turn. A ratio is the other side's time over the proved one's. Buffers are reused from call to call and never cleared.");
}

fn comparisons(numbers: &mut Numbers) {
    piece_calls::calls(numbers, CALLS);
    calls("the archive", &mut Proved, numbers);
    calls("the title service", &mut Service::default(), numbers);
    runs(numbers);
    println!();
    titles::titles(numbers, OPERATIONS);
    println!();
    wrong::wrong(numbers, 3000);
    println!();
    recording_calls::calls(numbers, CALLS);
}

/// Takes a number to start from, if another is wanted; with the word `times` only what is timed is compared.
fn main() {
    let (mut first, mut all) = (FIRST, true);
    for word in env::args().skip(1) {
        match word.as_str() {
            "times" => all = false,
            _ => first = word.parse().expect("a number, or times"),
        }
    }
    println!("numbers from {first}");
    let mut numbers = Numbers(first.max(1));
    if all {
        comparisons(&mut numbers);
    }
    times(&mut numbers);
}
