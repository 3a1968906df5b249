//! Pieces and digests, timed on the proved side, in plain Rust and in a library. Each input is compared on all sides before it is timed.

use crate::clock::{Section, Task, Work};
use crate::isal::{Joiner, Splitter};
use crate::libraries::{Isal, OpenSsl};
use crate::pieces::{same_alone, same_cut, same_digest, same_join, same_placed, same_split};
use crate::plain;
use crate::random::Numbers;
use crate::report::{cell, head, line, ratio, us};
use crate::{F, SHAPES};
use jolbizna::coding;
use std::hint::black_box;

// The sides beside the proved one.
const RUST: usize = 1;
const LIBRARY: usize = 2;
const WITH_ROWS: usize = 3;
const UNPLACED: usize = 3;

// A call whose result nobody reads could be left out, so each goes through a black box.

fn split_task(name: String, n: usize, k: usize, page: &[u8], room: &[u8]) -> Task {
    let (ours, theirs) = (page.to_vec(), page.to_vec());
    let (mut our_room, mut their_room) = (room.to_vec(), room.to_vec());
    let answer = coding::split(n, k, F, page, &mut our_room);
    let same = answer == plain::split(n, k, F, page, &mut their_room) && our_room == their_room;
    assert!(same, "{name}: the baseline differs");
    Task::new(name, page.len(), move || {
        black_box(coding::split(n, k, F, &ours, &mut our_room)).ok();
    })
    .beside(move || {
        black_box(plain::split(n, k, F, &theirs, &mut their_room)).ok();
    })
}

/// ISA-L's pieces are the proved ones. Timed are its encoding alone, of rows that are there, and with the frame and its rows.
fn beside_isal(task: Task, isal: Option<Isal>, k: usize, page: &[u8], pieces: &[u8]) -> Task {
    let Some(isal) = isal else {
        return task;
    };
    let n = pieces.len() / F;
    let splitter = || {
        let (mut splitter, mut room) = (Splitter::new(isal, n, k), vec![7; n * F]);
        splitter.lay_out(page);
        splitter.encode(&mut room);
        assert!(room == pieces, "ISA-L ({k}, {n}): other pieces");
        (splitter, room)
    };
    let (alone, mut alone_room) = splitter();
    let (mut whole, mut whole_room) = splitter();
    let page = page.to_vec();
    task.beside(move || alone.encode(black_box(&mut alone_room)))
        .beside(move || {
            whole.lay_out(black_box(&page));
            whole.encode(black_box(&mut whole_room));
        })
}

/// One join: the measures, the nodes and their pieces.
struct Join<'a> {
    n: usize,
    k: usize,
    present: u16,
    pieces: &'a [u8],
    lens: &'a [u16],
}

impl Join<'_> {
    fn task(&self, name: String, page: &[u8], out: &[u8]) -> Task {
        let Join { n, k, present, .. } = *self;
        let (end, answer) = same_join(n, k, F, present, self.pieces, self.lens, out);
        assert!(
            answer == Ok(page.len()) && end == page,
            "the page comes back"
        );
        let (ours, our_lens) = (self.pieces.to_vec(), self.lens.to_vec());
        let (theirs, their_lens) = (self.pieces.to_vec(), self.lens.to_vec());
        let (mut our_out, mut their_out) = (out.to_vec(), out.to_vec());
        let other = plain::join(n, k, F, present, &theirs, &their_lens, &mut their_out);
        assert!(
            other == answer && their_out == end,
            "{name}: the baseline differs"
        );
        Task::new(name, page.len(), move || {
            black_box(coding::join(
                n,
                k,
                F,
                present,
                &ours,
                &our_lens,
                &mut our_out,
            ))
            .ok();
        })
        .beside(move || {
            black_box(plain::join(
                n,
                k,
                F,
                present,
                &theirs,
                &their_lens,
                &mut their_out,
            ))
            .ok();
        })
    }

    /// ISA-L's page is the same. Timed are inversion, tables and encoding to rows, and with the rows put together to the page.
    fn beside_isal(&self, task: Task, isal: Option<Isal>, page: &[u8]) -> Task {
        let Some(isal) = isal else {
            return task;
        };
        let nodes: Vec<usize> = (1..=self.n)
            .filter(|i| self.present >> (i - 1) & 1 == 1)
            .take(self.k)
            .collect();
        let joiner = || {
            let (mut joiner, mut out) = (Joiner::new(isal, &nodes), vec![7; page.len()]);
            joiner.join(self.pieces);
            joiner.put(&mut out);
            assert!(out == page, "ISA-L ({}, {}): another page", self.k, self.n);
            (joiner, self.pieces.to_vec(), out)
        };
        let (mut alone, alone_pieces, _) = joiner();
        let (mut whole, whole_pieces, mut out) = joiner();
        task.beside(move || alone.join(black_box(&alone_pieces)))
            .beside(move || {
                whole.join(black_box(&whole_pieces));
                whole.put(black_box(&mut out));
            })
    }
}

fn digest_task(numbers: &mut Numbers, len: usize, openssl: Option<OpenSsl>) -> Task {
    let s = numbers.bytes(len);
    let (digest, answer) = same_digest(&s, 32);
    assert_eq!(answer, Ok(0));
    let (mut our_out, mut their_out, mut lib_out) = ([0; 32], [0; 32], [0; 32]);
    let same = plain::digest(&s, &mut their_out) == answer && their_out[..] == digest;
    assert!(same, "digest of {len} bytes: the baseline differs");
    let (ours, theirs, libs) = (s.clone(), s.clone(), s);
    Task::new(format!("digest of {len} bytes"), len, move || {
        black_box(coding::digest(&ours, &mut our_out)).ok();
    })
    .beside(move || {
        black_box(plain::digest(&theirs, &mut their_out)).ok();
    })
    .beside_if(openssl.map(|openssl| -> Work {
        openssl.digest(&libs, &mut lib_out);
        assert!(lib_out[..] == digest, "OpenSSL: another digest");
        Box::new(move || openssl.digest(&libs, black_box(&mut lib_out)))
    }))
}

/// The digest of a piece with its place. OpenSSL gets the whole string, and last stands the proved digest of the piece alone.
fn placed_task(numbers: &mut Numbers, len: usize, openssl: Option<OpenSsl>) -> Task {
    let (version, node) = ([0, 0, 0, 1, 0], 1);
    let piece = numbers.bytes(len);
    let (digest, answer) = same_placed(&version, node, &piece, &[0; 32]);
    assert_eq!(answer, Ok(0));
    let [mut our_out, mut their_out, mut lib_out, mut alone_out] = [[0; 32]; 4];
    let same = plain::digest_placed(&version, node, &piece, &mut their_out) == answer;
    assert!(
        same && their_out[..] == digest,
        "digest of {len} bytes with its place: the baseline differs"
    );
    let string = [&version, &[node][..], &piece].concat();
    let (ours, theirs, alone) = (piece.clone(), piece.clone(), piece);
    let name = format!("digest of {len} bytes, placed");
    Task::new(name, len, move || {
        black_box(coding::digest_placed(&version, node, &ours, &mut our_out)).ok();
    })
    .beside(move || {
        black_box(plain::digest_placed(
            &version,
            node,
            &theirs,
            &mut their_out,
        ))
        .ok();
    })
    .beside_if(openssl.map(|openssl| -> Work {
        openssl.digest(&string, &mut lib_out);
        assert!(lib_out[..] == digest, "OpenSSL: another digest");
        Box::new(move || openssl.digest(&string, black_box(&mut lib_out)))
    }))
    .beside(move || {
        black_box(coding::digest(&alone, &mut alone_out)).ok();
    })
}

/// Full pages.
pub fn whole(numbers: &mut Numbers) -> Section {
    let (isal, openssl) = (Isal::open(), OpenSsl::open());
    let mut tasks = Vec::new();
    for (k, n) in SHAPES {
        let page = numbers.bytes(k * F - 4);
        let room = numbers.bytes(n * F);
        let (pieces, answer) = same_split(n, k, F, &page, &room);
        let lens = vec![answer.expect("a full page fits") as u16; n];
        let task = split_task(format!("split ({k}, {n})"), n, k, &page, &room);
        tasks.push(beside_isal(task, isal, k, &page, &pieces));
        let all = (1u32 << n) - 1;
        for (nodes, present) in [("last", all & !((1 << (n - k)) - 1)), ("odd", all & 0x5555)] {
            let join = Join {
                n,
                k,
                present: present as u16,
                pieces: &pieces,
                lens: &lens,
            };
            let out = numbers.bytes(page.len());
            let task = join.task(format!("join ({k}, {n}), {nodes} nodes"), &page, &out);
            tasks.push(join.beside_isal(task, isal, &page));
        }
    }
    tasks.push(digest_task(numbers, F, openssl));
    Section {
        tasks,
        print: print_whole,
    }
}

/// The library's columns, or where to get it.
fn library(t: &Task) -> Vec<String> {
    if t.ns(LIBRARY).is_some() {
        return vec![us(t.ns(LIBRARY)), ratio(t.ratio(LIBRARY))];
    }
    let package = if t.name.starts_with("digest") {
        "libssl-dev"
    } else {
        "libisal-dev"
    };
    vec![format!(" not present (Debian's {package})")]
}

fn print_whole(tasks: &[Task]) {
    head(
        "full pages, F 4096",
        &[
            "proved us",
            "Rust us",
            "to Rust",
            "library us",
            "to library",
        ],
    );
    for t in tasks {
        let mut cells = vec![us(t.ns(0)), us(t.ns(RUST)), ratio(t.ratio(RUST))];
        cells.extend(library(t));
        line(&t.name, &cells);
        if t.ns(WITH_ROWS).is_some() {
            let mut cells = vec![String::new(); 3];
            cells.extend([us(t.ns(WITH_ROWS)), ratio(t.ratio(WITH_ROWS))]);
            line("  with the rows", &cells);
        }
    }
}

/// A full piece with its place.
pub fn placed(numbers: &mut Numbers) -> Section {
    Section {
        tasks: vec![placed_task(numbers, F, OpenSsl::open())],
        print: print_placed,
    }
}

fn print_placed(tasks: &[Task]) {
    head(
        "a digest with its place, F 4096",
        &[
            "proved us",
            "alone us",
            "to alone",
            "Rust us",
            "to Rust",
            "library us",
            "to library",
        ],
    );
    for t in tasks {
        let mut cells = vec![
            us(t.ns(0)),
            us(t.ns(UNPLACED)),
            ratio(t.ratio(UNPLACED)),
            us(t.ns(RUST)),
            ratio(t.ratio(RUST)),
        ];
        cells.extend(library(t));
        line(&t.name, &cells);
    }
}

// The sides beside the whole split, where pieces are cut alone.
const EACH: usize = 1;
const LAST: usize = 2;
const LAST_IN_RUST: usize = 3;

/// A whole split, each of its pieces cut alone, and the last node's piece on both sides.
fn alone_task(numbers: &mut Numbers, k: usize, n: usize) -> Task {
    let name = format!("cut ({k}, {n})");
    let (page, room) = (numbers.bytes(k * F - 4), numbers.bytes(n * F));
    let (pieces, answer) = same_split(n, k, F, &page, &room);
    same_alone(n, k, F, &page, &pieces, answer.expect("a full page fits"));
    let lent = |bytes: usize| (page.clone(), room[..bytes].to_vec());
    let [(whole, mut areas), (each, mut rooms)] = [lent(n * F), lent(n * F)];
    let [(ours, mut our_room), (theirs, mut their_room)] = [lent(F), lent(F)];
    let (end, answer) = same_cut(n, k, F, n, &page, &our_room);
    let same = plain::cut(n, k, F, n, &page, &mut their_room) == answer && their_room == end;
    assert!(same, "{name}: the baseline differs");
    Task::new(name, page.len(), move || {
        black_box(coding::split(n, k, F, &whole, &mut areas)).ok();
    })
    .beside(move || {
        for (i, room) in (1..=n).zip(rooms.chunks_exact_mut(F)) {
            black_box(coding::cut(n, k, F, i, &each, room)).ok();
        }
    })
    .beside(move || {
        black_box(coding::cut(n, k, F, n, &ours, &mut our_room)).ok();
    })
    .beside(move || {
        black_box(plain::cut(n, k, F, n, &theirs, &mut their_room)).ok();
    })
}

/// Full pages, of which one piece is wanted.
pub fn alone(numbers: &mut Numbers) -> Section {
    let tasks = SHAPES.map(|(k, n)| alone_task(numbers, k, n));
    Section {
        tasks: tasks.into(),
        print: print_alone,
    }
}

fn print_alone(tasks: &[Task]) {
    head(
        "one piece, F 4096",
        &[
            "split us",
            "n cuts us",
            "to n cuts",
            "one cut us",
            "share",
            "Rust us",
            "to Rust",
        ],
    );
    for t in tasks {
        line(
            &t.name,
            &[
                us(t.ns(0)),
                us(t.ns(EACH)),
                ratio(t.over(0, EACH)),
                us(t.ns(LAST)),
                ratio(t.ratio(LAST)),
                us(t.ns(LAST_IN_RUST)),
                ratio(t.over(LAST_IN_RUST, LAST)),
            ],
        );
    }
}

/// A split of so many bytes, its time taken for each of some bytes.
fn part_task(numbers: &mut Numbers, k: usize, n: usize, len: usize, bytes: usize) -> Task {
    let (page, room) = (numbers.bytes(len), numbers.bytes(n * F));
    let answer = same_split(n, k, F, &page, &room).1;
    answer.expect("the page fits");
    let mut task = split_task(format!("split ({k}, {n}), {len} bytes"), n, k, &page, &room);
    task.bytes = bytes;
    task
}

/// Parts of a page and of a piece, to see that the time grows with the length.
pub fn longer(numbers: &mut Numbers) -> Section {
    let mut tasks = Vec::new();
    for part in [8, 4, 2, 1] {
        let len = (4 * F - 4) / part;
        tasks.push(part_task(numbers, 4, 8, len, len));
    }
    for len in [64, 256, 1024, F] {
        tasks.push(digest_task(numbers, len, None));
    }
    Section {
        tasks,
        print: |tasks| print_growth(tasks, "growth with the length", "ns/byte"),
    }
}

/// More and more nodes, to see that the time grows with the bytes of all pieces.
pub fn wider(numbers: &mut Numbers) -> Section {
    let tasks = [5, 6, 8, 9, 12, 16].map(|n| part_task(numbers, 4, n, 4 * F - 4, n * F));
    Section {
        tasks: tasks.into(),
        print: |tasks| print_growth(tasks, "growth with n", "ns/piece b"),
    }
}

fn print_growth(tasks: &[Task], name: &str, each: &str) {
    head(name, &["proved us", "Rust us", "to Rust", each]);
    for t in tasks {
        line(
            &t.name,
            &[
                us(t.ns(0)),
                us(t.ns(RUST)),
                ratio(t.ratio(RUST)),
                cell(t.ns(0).map(|ns| ns / t.bytes as f64), 3),
            ],
        );
    }
}
