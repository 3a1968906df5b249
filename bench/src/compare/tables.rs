//! The directory and a node with tables of the largest measures, beside what libc does with the same bytes.

use crate::calls::Pair;
use crate::clock::{Section, Task};
use crate::parties::{put_version, write_table, Pointer, Record};
use crate::proved::Proved;
use crate::random::Numbers;
use crate::report::{cell, head, line, ratio, us};
use crate::sides::Plain;
use jolbizna::{parties, Measures, Version};
use std::hint::black_box;

const S: Measures = Measures {
    m: 8,
    n: 16,
    k: 8,
    t: 4,
    f: 4096,
};

const LIBC: usize = 1;

fn on_both<A>(call: impl FnOnce(Pair) -> A) -> A {
    call(Pair {
        ours: &mut Proved,
        theirs: &mut Plain,
    })
}

/// So many pieces of the same length, none of sequence 1.
fn table(numbers: &mut Numbers, s: Measures, count: usize, len: usize) -> Vec<u8> {
    let held = (0..count)
        .map(|j| {
            let version = (2 + (j / s.m) as u32, (j % s.m) as u8);
            (version, numbers.bytes(len))
        })
        .collect();
    let mut table = vec![0; s.table()];
    write_table(s, &held, &mut table);
    table
}

fn message(tag: u8, v: Version, piece: &[u8]) -> Vec<u8> {
    let mut out = vec![tag];
    put_version(&mut out, v);
    out.extend(piece);
    out
}

/// A request that finds nothing, at the front of the table: what takes time is the test of the table's form.
fn not_held(s: Measures, table: &[u8]) -> impl FnMut() {
    let (mut table, mut room) = (table.to_vec(), vec![0; s.answer()]);
    let ask = message(2, (1, 0), &[]);
    let answer = on_both(|mut pair| pair.message(s, 1, &table, &ask, &room).2);
    assert_eq!(answer, Ok(7));
    move || {
        black_box(parties::node_message(s, 1, &mut table, &ask, &mut room)).ok();
    }
}

/// A full table of pieces of one byte, so that every spare byte is tested. Beside it, memcmp with a second table.
fn form_task(numbers: &mut Numbers, m: usize) -> Task {
    let s = Measures { m, ..S };
    let table = table(numbers, s, s.places(), 1);
    let (a, b) = (table.clone(), table.clone());
    let name = format!("form of a full table, m {m}");
    Task::new(name, table.len(), not_held(s, &table)).beside(move || {
        black_box(black_box(&a[..]) == black_box(&b[..]));
    })
}

/// The lowest version is dropped and stored again: every other place moves down, then up. Beside it, two such moves, a place cleared and
/// a place written. The second task is the test of the table's form in both calls, by requests.
fn move_tasks(numbers: &mut Numbers, count: usize, name: &str) -> [Task; 2] {
    let mut table = table(numbers, S, count, S.f);
    let v = (2, 0);
    let piece = table[2 + 7..2 + S.place()].to_vec();
    let (keep, drop) = (message(1, v, &piece), message(3, v, &[]));
    let mut room = vec![0; S.answer()];
    let dropped = on_both(|mut pair| {
        let (dropped, _, answer) = pair.message(S, 1, &table, &drop, &room);
        assert_eq!(answer, Ok(1));
        let (stored, _, answer) = pair.message(S, 1, &dropped, &keep, &room);
        assert!(answer == Ok(6) && stored == table, "the table comes back");
        dropped
    });
    let (mut before, mut after) = (not_held(S, &table), not_held(S, &dropped));
    let (mut moved, kept) = (table.clone(), keep.clone());
    let (at, end) = (2 + S.place(), 2 + count * S.place());
    let moves = Task::new(
        format!("drop and store, {name} table"),
        2 * (end - at),
        move || {
            black_box(parties::node_message(S, 1, &mut table, &drop, &mut room)).ok();
            black_box(parties::node_message(S, 1, &mut table, &keep, &mut room)).ok();
        },
    )
    .beside(move || {
        let moved = black_box(&mut moved[..]);
        moved.copy_within(at..end, 2);
        moved[end - S.place()..end].fill(0);
        let moved = black_box(moved);
        moved.copy_within(2..end - S.place(), at);
        moved[2 + 1..2 + 1 + kept.len()].copy_from_slice(black_box(&kept));
    });
    let forms = Task::new("  form tests of both", 2 * S.table(), move || {
        before();
        after();
    });
    [moves, forms]
}

fn pointer(numbers: &mut Numbers, owner: usize) -> Pointer {
    Pointer {
        version: (1 + numbers.below(1000) as u32, owner as u8),
        nodes: 0x0fff,
        digests: numbers.bytes(32 * 12),
    }
}

/// A scan; beside it, a copy. In a full directory every pointer names its nodes, in a fresh one nearly all bytes are spare.
fn scan_task(numbers: &mut Numbers, full: bool) -> Task {
    let mut room = numbers.bytes(S.directory());
    let table = on_both(|mut pair| {
        let (mut table, _) = pair.directory_fresh(S, &vec![0; S.directory()]);
        for own in 0..if full { S.m } else { 0 } {
            let row = Record {
                written: Some(pointer(numbers, own)),
                frozen: Some((0..S.m).map(|_| pointer(numbers, own)).collect()),
                frozen_indices: Some(vec![7; S.m]),
                reading: Some(9),
            };
            let (end, answer) = pair.update(S, own, &table, &row.write());
            assert_eq!(answer, Ok(0));
            table = end;
        }
        assert_eq!(pair.scan(S, &table, &room).1, Ok(S.directory()));
        table
    });
    let (theirs, mut their_room) = (table.clone(), room.clone());
    let name = if full { "full" } else { "fresh" };
    Task::new(format!("scan, {name} directory"), table.len(), move || {
        black_box(parties::directory_scan(S, &table, &mut room)).ok();
    })
    .beside(move || {
        black_box(&mut their_room[..]).copy_from_slice(black_box(&theirs));
    })
}

pub fn largest(numbers: &mut Numbers) -> Section {
    let mut tasks = vec![form_task(numbers, S.m)];
    tasks.extend(move_tasks(numbers, S.places(), "full"));
    tasks.extend(move_tasks(numbers, S.places() / 2, "half-full"));
    tasks.push(scan_task(numbers, true));
    tasks.push(scan_task(numbers, false));
    Section {
        tasks,
        print: print_largest,
    }
}

fn print_largest(tasks: &[Task]) {
    head(
        "tables, m 8, n 16, k 8, t 4, F 4096",
        &["proved us", "libc us", "to libc", "bytes"],
    );
    for (at, t) in tasks.iter().enumerate() {
        let bytes = t.bytes.to_string();
        line(
            &t.name,
            &[us(t.ns(0)), us(t.ns(LIBC)), ratio(t.ratio(LIBC)), bytes],
        );
        // The form tests stand after what they are a part of.
        if t.ns(LIBC).is_none() {
            let whole = &tasks[at - 1];
            let rest = whole.ns(0).zip(t.ns(0)).map(|(all, forms)| all - forms);
            let libc = whole.ns(LIBC);
            let part = libc.zip(rest).map(|(libc, rest)| libc / rest);
            line("  moves: what is left", &[us(rest), us(libc), ratio(part)]);
        }
    }
}

pub fn larger(numbers: &mut Numbers) -> Section {
    Section {
        tasks: [1, 2, 4, 8].map(|m| form_task(numbers, m)).into(),
        print: print_growth,
    }
}

fn print_growth(tasks: &[Task]) {
    head(
        "growth with the table",
        &["proved us", "memcmp us", "to memcmp", "ns/byte"],
    );
    for t in tasks {
        line(
            &t.name,
            &[
                us(t.ns(0)),
                us(t.ns(LIBC)),
                ratio(t.ratio(LIBC)),
                cell(t.ns(0).map(|ns| ns / t.bytes as f64), 3),
            ],
        );
    }
}
