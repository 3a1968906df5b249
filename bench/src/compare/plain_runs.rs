//! Plain Rust alone, without an archive: what random calls meet, random runs, and the wrong parties that these must catch.

mod client;
mod client_calls;
mod coding;
mod digests;
mod parties;
mod pointers;
mod random;
mod runs;
mod sides;
mod tally;
mod wrong;

use random::{Numbers, FIRST};
use sides::Plain;
use std::env;

/// With itself plain Rust agrees. What can fail is that a refusal leaves all bytes, and that the calls, as they are made for the archives,
/// meet every refusal and way to end.
fn calls(numbers: &mut Numbers, total: usize) {
    match client_calls::compare(&mut Plain, &mut Plain, numbers, total) {
        Ok(tally) => {
            println!("{total} calls to a client of plain Rust, compared with no other: refusals leave all bytes, every refusal is among them");
            client_calls::covered(&tally);
        }
        Err((at, detail)) => panic!("plain Rust, call {at}: {detail}"),
    }
}

/// Takes the number of runs and a number to start from, if others than these are wanted.
fn main() {
    let mut given = env::args().skip(1).map(|word| word.parse::<u64>());
    let mut next = |other| given.next().map_or(other, |word| word.expect("a number"));
    let (runs, first) = (next(2000) as usize, next(FIRST));
    println!("numbers from {first}");
    let mut numbers = Numbers(first.max(1));
    calls(&mut numbers, 100_000);
    println!();
    let seed = numbers.next();
    runs::runs("plain Rust", &mut Plain, seed, runs).print();
    println!();
    wrong::wrong(&mut numbers, 3000);
}
