//! Whole deposits and readings over the title service, beside the work that none can do without.

use crate::clock::{Section, Task};
use crate::pieces::{same_join, same_placed, same_split};
use crate::plain;
use crate::random::Numbers;
use crate::report::{head, line, ratio, us};
use crate::{F, SHAPES};
use jolbizna::{coding, Answer, Measures, Title};
use std::hint::black_box;

// The sides beside the proved operation: the coding that is in it, in plain Rust and proved.
const FLOOR: usize = 1;
const PARTS: usize = 2;

type Split = fn(usize, usize, usize, &[u8], &mut [u8]) -> Answer;
type Join = fn(usize, usize, usize, u16, &[u8], &[u16], &mut [u8]) -> Answer;
type Digest = fn(&[u8], u8, &[u8], &mut [u8]) -> Answer;

/// Of which the digests are taken; its time is every version's.
const VERSION: [u8; 5] = [0, 0, 0, 1, 0];

/// The page is split, and the digests of all n pieces are made with their places.
fn cut(s: Measures, page: &[u8], split: Split, digest: Digest) -> impl FnMut() {
    let (page, mut room) = (page.to_vec(), vec![0; s.n * s.f]);
    let mut out = [0; 32];
    move || {
        black_box(split(s.n, s.k, s.f, &page, &mut room)).ok();
        for (i, piece) in (1..).zip(room.chunks(s.f)) {
            black_box(digest(&VERSION, i, piece, &mut out)).ok();
        }
    }
}

/// The digests of k pieces are made with their places, and the page is joined of them.
fn restore(s: Measures, page: &[u8], join: Join, digest: Digest) -> impl FnMut() {
    let (mut room, mut out) = (vec![0; s.n * s.f], vec![0; s.page()]);
    let len = plain::split(s.n, s.k, s.f, page, &mut room).expect("a full page fits");
    let (lens, present) = (vec![len as u16; s.n], ((1u32 << s.k) - 1) as u16);
    let mut sum = [0; 32];
    move || {
        for (i, piece) in (1..).zip(room.chunks(s.f).take(s.k)) {
            black_box(digest(&VERSION, i, piece, &mut sum)).ok();
        }
        black_box(join(s.n, s.k, s.f, present, &room, &lens, &mut out)).ok();
    }
}

/// The coding in the operations does the same on both sides.
fn same_coding(s: Measures, page: &[u8]) {
    let (pieces, answer) = same_split(s.n, s.k, s.f, page, &vec![0; s.n * s.f]);
    let mut room = vec![0; s.n * s.f];
    let split = plain::split(s.n, s.k, s.f, page, &mut room);
    assert!(split == answer && room == pieces, "the baseline differs");
    for (i, piece) in (1..).zip(pieces.chunks(s.f)) {
        let mut sum = [0; 32];
        let answer = plain::digest_placed(&VERSION, i, piece, &mut sum);
        let same = answer == Ok(0) && same_placed(&VERSION, i, piece, &[0; 32]).0 == sum;
        assert!(same, "the baseline differs");
    }
    let (lens, present) = (vec![s.f as u16; s.n], ((1u32 << s.k) - 1) as u16);
    let mut out = vec![0; s.page()];
    let (end, answer) = same_join(s.n, s.k, s.f, present, &pieces, &lens, &out);
    let join = plain::join(s.n, s.k, s.f, present, &pieces, &lens, &mut out);
    let same = join == answer && out == end && end == page;
    assert!(same, "the page comes back");
}

/// A title with a page that client 0 deposited and client 1 can read.
fn deposited(s: Measures, page: &[u8]) -> Title {
    let mut title = Title::fresh(s).expect("the measures pass");
    assert_eq!(title.read(1), Ok(None));
    assert_eq!(title.deposit(0, page), Ok((1, 0)));
    assert_eq!(title.read(1), Ok(Some(((1, 0), page.to_vec()))));
    title
}

fn deposit_task(s: Measures, page: &[u8]) -> Task {
    let (mut title, own) = (deposited(s, page), page.to_vec());
    let name = format!("deposit ({}, {}), t {}, m {}", s.k, s.n, s.t, s.m);
    Task::new(name, page.len(), move || {
        black_box(title.deposit(0, &own)).expect("served");
    })
    .beside(cut(s, page, plain::split, plain::digest_placed))
    .beside(cut(s, page, coding::split, coding::digest_placed))
}

fn reading_task(s: Measures, page: &[u8]) -> Task {
    let mut title = deposited(s, page);
    let name = format!("reading ({}, {}), t {}, m {}", s.k, s.n, s.t, s.m);
    Task::new(name, page.len(), move || {
        black_box(title.read(1)).expect("served");
    })
    .beside(restore(s, page, plain::join, plain::digest_placed))
    .beside(restore(s, page, coding::join, coding::digest_placed))
}

/// Full pages, as many nodes that may lie as there can be; the largest shape with more clients too, whose tables are larger.
pub fn whole(numbers: &mut Numbers) -> Section {
    let two = SHAPES.map(|(k, n)| (k, n, 2));
    let mut tasks = Vec::new();
    for (k, n, m) in two.into_iter().chain([(8, 16, 4), (8, 16, 8)]) {
        let s = Measures::new(m, n, k, (n - k) / 2, F);
        let page = numbers.bytes(s.page());
        same_coding(s, &page);
        tasks.push(deposit_task(s, &page));
        tasks.push(reading_task(s, &page));
    }
    Section { tasks, print }
}

fn print(tasks: &[Task]) {
    head(
        "whole operations, F 4096",
        &[
            "proved us",
            "floor us",
            "to floor",
            "coding us",
            "its share",
        ],
    );
    for t in tasks {
        line(
            &t.name,
            &[
                us(t.ns(0)),
                us(t.ns(FLOOR)),
                ratio(t.ratio(FLOOR)),
                us(t.ns(PARTS)),
                ratio(t.ratio(PARTS)),
            ],
        );
    }
}
