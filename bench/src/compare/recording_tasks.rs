//! Recordings by byte plane, timed on the proved side, beside memcpy of the same bytes, and in plain Rust where a sample has 3 bytes. Each
//! input is compared on all sides before it is timed.

use crate::clock::{Section, Task, Work};
use crate::random::Numbers;
use crate::recordings::{Way, PLANES, REARRANGE, RESTORE, SAMPLES, WIDTH};
use crate::report::{cell, head, line, ratio, us};
use std::hint::black_box;

// The sides beside the proved one.
const MEMCPY: usize = 1;
const RUST: usize = 2;

const MB: usize = 1 << 20;

fn task(numbers: &mut Numbers, way: &Way, name: String, width: usize, len: usize) -> Task {
    let (data, out) = (numbers.bytes(len), numbers.bytes(len));
    let (end, answer) = way.same(width, &data, &out);
    assert_eq!(answer, Ok(0), "{name}");
    way.same_back(width, &data, &end);
    let (ours, baseline) = (way.ours, way.baseline);
    let lent = || (data.clone(), out.clone());
    let [(our_data, mut our_out), (copied, mut copy)] = [lent(), lent()];
    let (their_data, mut their_out) = lent();
    let same = baseline(width, &their_data, &mut their_out) == answer && their_out == end;
    assert!(same, "{name}: the baseline differs");
    let in_rust: Work = Box::new(move || {
        black_box(baseline(width, &their_data, &mut their_out)).ok();
    });
    Task::new(name, len, move || {
        black_box(ours(width, &our_data, &mut our_out)).ok();
    })
    .beside(move || {
        black_box(&mut copy[..]).copy_from_slice(black_box(&copied));
    })
    .beside_if((width == WIDTH).then_some(in_rust))
}

/// 1 MB of samples of each width, as many as fit.
pub fn whole(numbers: &mut Numbers) -> Section {
    let mut tasks = Vec::new();
    for width in [1, 2, WIDTH, 4, 8] {
        let len = MB / width * width;
        for way in [PLANES, SAMPLES] {
            let name = format!("{}, width {width}, {len} bytes", way.name);
            tasks.push(task(numbers, &way, name, width, len));
        }
    }
    Section {
        tasks,
        print: print_whole,
    }
}

/// Longer and longer recordings, to see that the time grows with the length.
pub fn longer(numbers: &mut Numbers) -> Section {
    let mut tasks = Vec::new();
    for way in [REARRANGE, RESTORE] {
        for len in [3_000, 30_000, 300_000, 3_000_000] {
            let name = format!("{}, {len} bytes", way.name);
            tasks.push(task(numbers, &way, name, WIDTH, len));
        }
    }
    Section {
        tasks,
        print: print_longer,
    }
}

fn print_whole(tasks: &[Task]) {
    print(tasks, "recordings, 1 MB, beside memcpy", "GB/s", |t| {
        cell(t.ns(0).map(|ns| t.bytes as f64 / ns), 2)
    });
}

fn print_longer(tasks: &[Task]) {
    print(
        tasks,
        "growth with the recording, width 3",
        "ns/byte",
        |t| cell(t.ns(0).map(|ns| ns / t.bytes as f64), 3),
    );
}

fn print(tasks: &[Task], name: &str, column: &str, each: fn(&Task) -> String) {
    head(
        name,
        &[
            "proved us",
            "memcpy us",
            "to memcpy",
            column,
            "Rust us",
            "to Rust",
        ],
    );
    for t in tasks {
        line(
            &t.name,
            &[
                us(t.ns(0)),
                us(t.ns(MEMCPY)),
                cell(t.ratio(MEMCPY), 3),
                each(t),
                us(t.ns(RUST)),
                ratio(t.ratio(RUST)),
            ],
        );
    }
}
