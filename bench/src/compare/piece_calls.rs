//! Calls without order to split, cut, join and both digests, valid and damaged: two implementations must answer and leave the same, and
//! each refusal must be met by each of its causes.

use crate::causes::{judge, Cause};
use crate::frames;
use crate::pieces::{same_alone, same_cut, same_digest, same_join, same_placed, same_split};
use crate::random::Numbers;
use crate::tally::Tally;
use std::collections::BTreeSet;

/// A slice that is too short: names for one less, none, and any other number.
pub type Names = [&'static str; 3];

const ROOM: Names = ["room short by one", "room empty", "room shorter"];
const LENGTHS: Names = ["lengths short by one", "lengths empty", "lengths shorter"];
pub const OUTPUT: Names = ["output short by one", "output empty", "output shorter"];
const VERSION: Names = ["version short by one", "version empty", "version shorter"];

/// A node that there is not.
const NODE: Names = ["node 0", "node above n by one", "node far above n"];

const TOO_LONG: &str = "page too long";
const ABOVE: &str = "node above n";
const WRAPS: &str = "a product wraps";

pub fn short(names: Names, len: usize, need: usize) -> Option<Cause> {
    let [one, none, other] = names;
    let name = match need.saturating_sub(len) {
        0 => return None,
        1 => one,
        _ if len == 0 => none,
        _ => other,
    };
    Some((2, name))
}

/// Where n is 0, no number is above it.
fn outside(i: usize, n: usize) -> Option<Cause> {
    let [zero, next, far] = NODE;
    let name = match i.saturating_sub(n) {
        _ if i == 0 => zero,
        0 => return None,
        _ if n == 0 => return None,
        1 => next,
        _ => far,
    };
    Some((3, name))
}

/// More than this is not lent to measures that are out of bounds.
const MOST: usize = 70_000;

/// A length around the one that is needed, if so much can be lent: most times that one; one less, none, any fewer, some more.
pub fn around(numbers: &mut Numbers, need: usize) -> usize {
    if need > MOST {
        return numbers.below(100);
    }
    match numbers.below(30) {
        0 => need.saturating_sub(1),
        1 => 0,
        2 => numbers.below(need.max(1)),
        3..=5 => need + 1 + numbers.below(9),
        6 => need + 300,
        _ => need,
    }
}

/// The measures of splitting and joining.
#[derive(Clone, Copy, Debug)]
struct Shape {
    n: usize,
    k: usize,
    f: usize,
}

impl Shape {
    /// One that passes: most are small, a few as large as can be.
    fn passing(numbers: &mut Numbers) -> Self {
        if numbers.below(600) == 0 {
            return Shape {
                n: 16,
                k: 16,
                f: 4096,
            };
        }
        let n = [16, 1 + numbers.below(16), 1 + numbers.below(16)][numbers.below(3)];
        let k = [n, 1 + numbers.below(n), 1 + numbers.below(n)][numbers.below(3)];
        let least = 4usize.div_ceil(k);
        let f = match numbers.below(400) {
            0 => 4096,
            1..=3 => 300 + numbers.below(3797),
            4..=20 => 20 + numbers.below(280),
            21..=60 => least,
            _ => 1 + numbers.below(12),
        };
        let f = f.max(least);
        Shape { n, k, f }
    }

    /// Any numbers: one that passes with one or more changed.
    fn hostile(numbers: &mut Numbers) -> Self {
        let mut s = Shape::passing(numbers);
        match numbers.below(8) {
            // Products that come out as 0 if they wrap.
            0 => {
                let bit = 1 + numbers.below(63);
                s.f = 1 << (64 - bit);
                *[&mut s.n, &mut s.k][numbers.below(2)] = 1 << bit;
            }
            1 => {
                s.k = 1 + numbers.below(s.n.min(3));
                s.f = 1 + numbers.below(3);
            }
            2 => {
                s.n = odd(numbers, 16);
                s.k = odd(numbers, 16);
                s.f = odd(numbers, 4096);
            }
            3 | 4 => s.f = odd(numbers, 4096),
            5 => s.n = odd(numbers, 16),
            _ => s.k = odd(numbers, s.n),
        }
        s
    }

    fn any(numbers: &mut Numbers) -> Self {
        if numbers.below(10) == 0 {
            return Shape::hostile(numbers);
        }
        Shape::passing(numbers)
    }

    /// The bytes of a room that are needed.
    fn room(self) -> usize {
        self.n.saturating_mul(self.f)
    }

    /// The bytes of the longest page.
    fn page(self) -> usize {
        self.k.saturating_mul(self.f).saturating_sub(4)
    }

    fn faults(self) -> Vec<Cause> {
        let Shape { n, k, f } = self;
        let faults = [
            (n == 0, "n is 0"),
            (n > 16, "n above 16"),
            (k == 0, "k is 0"),
            (k > n && n > 0, "k above n"),
            (f == 0, "F is 0"),
            (f > 4096, "F above 4096"),
            (k > 0 && f > 0 && k.saturating_mul(f) < 4, "kF below 4"),
        ];
        let faults = faults.into_iter().filter(|(holds, _)| *holds);
        faults.map(|(_, name)| (1, name)).collect()
    }

    fn wraps(self) -> bool {
        self.n.checked_mul(self.f).is_none() || self.k.checked_mul(self.f).is_none()
    }

    fn is_largest(self) -> bool {
        (self.n, self.k, self.f) == (16, 16, 4096)
    }
}

/// A number at a bound, near it, or far out.
pub fn odd(numbers: &mut Numbers, bound: usize) -> usize {
    match numbers.below(8) {
        0 => 0,
        1 => bound,
        2 => bound + 1,
        3 => bound + 2 + numbers.below(9),
        4 => usize::MAX - numbers.below(3),
        5 => 1 << numbers.below(64),
        6 => usize::MAX / (1 + numbers.below(40)) + numbers.below(3),
        _ => numbers.below(18),
    }
}

/// Which calls were made, and by what they were refused.
#[derive(Default)]
struct Account {
    calls: Tally,
    split: Tally,
    cut: Tally,
    join: Tally,
    digest: Tally,
    placed: Tally,
    /// The causes of a cut's refusal, where there were two.
    pairs: BTreeSet<[&'static str; 2]>,
    /// And those of the digest of a piece with its place.
    both: BTreeSet<[&'static str; 2]>,
    /// The lengths whose digests were made, and those of pieces with their places.
    lengths: BTreeSet<usize>,
    placed_lengths: BTreeSet<usize>,
}

/// Notes the cases that hold.
fn note_all(tally: &mut Tally, cases: &[(bool, &'static str)], number: u32) {
    for (_, case) in cases.iter().filter(|(holds, _)| *holds) {
        tally.note(case, number);
    }
}

/// A page that fits, or one that is too long.
fn any_page(numbers: &mut Numbers, s: Shape) -> Vec<u8> {
    let most = s.page().min(MOST);
    let len = match numbers.below(8) {
        0 => most,
        1 => most + 1,
        2 => most + 2 + numbers.below(300),
        3 => numbers.below(2),
        _ => numbers.below(most + 1),
    };
    numbers.bytes(len)
}

fn split(numbers: &mut Numbers, account: &mut Account) {
    let s = Shape::any(numbers);
    let Shape { n, k, f } = s;
    let page = any_page(numbers, s);
    let len = page.len();
    let room = around(numbers, s.room());
    let room = numbers.bytes(room);
    let (end, answer) = same_split(n, k, f, &page, &room);
    account.calls.note("split", answer.err().unwrap_or(0));
    let mut causes = s.faults();
    causes.extend(short(ROOM, room.len(), s.room()));
    causes.extend((len > s.page()).then_some((6, TOO_LONG)));
    let tally = &mut account.split;
    judge(tally, &causes, answer, || format!("split {s:?} {len}"));
    let Ok(size) = answer else {
        assert!(end == room, "split {s:?} {len}: refused, but changed");
        let by_one = causes.len() == 1 && len == s.page() + 1;
        let cases = [(s.wraps(), WRAPS), (by_one, "page long by one")];
        note_all(tally, &cases, answer.err().unwrap_or(0));
        return;
    };
    let frame = frames::of_page(k, &page);
    let i = 1 + numbers.below(n);
    let piece = frames::piece(k, i, &frame);
    assert!(
        end[(i - 1) * f..][..size] == piece,
        "split {s:?} {len}: another piece {i}"
    );
    let rest = |room: &[u8]| -> Vec<u8> {
        let (areas, beyond) = room.split_at(n * f);
        let behind = areas.chunks(f).flat_map(|area| &area[size..]);
        behind.chain(beyond).copied().collect()
    };
    assert!(
        rest(&end) == rest(&room),
        "split {s:?} {len}: the rest changed"
    );
    same_alone(n, k, f, &page, &end, size);
    let cases = [
        (page.is_empty(), "served: empty page"),
        (len == s.page(), "served: full page"),
        (frame.len() == 4 + len, "served: no zeros"),
        (room.len() == s.room(), "served: exact room"),
        (len > 10_000, "served: over 10000 bytes"),
        (s.is_largest(), "served: largest measures"),
    ];
    note_all(tally, &cases, 0);
}

/// A node that there is, most times; else 0, one above, or any number.
fn node(numbers: &mut Numbers, n: usize) -> usize {
    let there = 1 + numbers.below(n.max(1));
    match numbers.below(16) {
        0 => 0,
        1 => n.saturating_add(1),
        // The low bits are a node's.
        2 => there.saturating_add(1 << (8 + numbers.below(56))),
        3 => odd(numbers, 16),
        4 => n,
        _ => there,
    }
}

fn cut(numbers: &mut Numbers, account: &mut Account) {
    let s = Shape::any(numbers);
    let Shape { n, k, f } = s;
    let i = node(numbers, n);
    let page = any_page(numbers, s);
    let len = page.len();
    let room = around(numbers, f);
    let room = numbers.bytes(room);
    let (end, answer) = same_cut(n, k, f, i, &page, &room);
    account.calls.note("cut", answer.err().unwrap_or(0));
    let mut causes = s.faults();
    causes.extend(short(ROOM, room.len(), f));
    causes.extend(outside(i, n));
    causes.extend((len > s.page()).then_some((6, TOO_LONG)));
    if let [(_, first), (_, then)] = causes[..] {
        account.pairs.insert([first, then]);
    }
    let tally = &mut account.cut;
    judge(tally, &causes, answer, || format!("cut {s:?} {i} {len}"));
    let Ok(size) = answer else {
        assert!(end == room, "cut {s:?} {i} {len}: refused, but changed");
        let by_one = causes.len() == 1 && len == s.page() + 1;
        let cases = [(s.wraps(), WRAPS), (by_one, "page long by one")];
        note_all(tally, &cases, answer.err().unwrap_or(0));
        return;
    };
    let frame = frames::of_page(k, &page);
    assert!(
        end[..size] == frames::piece(k, i, &frame) && end[size..] == room[size..],
        "cut {s:?} {i} {len}: another piece, or the rest changed"
    );
    let cases = [
        (page.is_empty(), "served: empty page"),
        (len == s.page(), "served: full page"),
        (frame.len() == 4 + len, "served: no zeros"),
        (room.len() == f, "served: exact room"),
        (room.len() > f, "served: longer room"),
        (i == 1, "served: first node"),
        (i == n, "served: last node"),
        (len > 10_000, "served: over 10000 bytes"),
        (s.is_largest(), "served: largest measures"),
    ];
    note_all(tally, &cases, 0);
}

/// What joining is lent, and the frame that its pieces were cut from.
struct Join {
    s: Shape,
    present: u16,
    room: Vec<u8>,
    lens: Vec<u16>,
    out: Vec<u8>,
    frame: Vec<u8>,
    /// Nodes whose piece was changed.
    damaged: BTreeSet<usize>,
}

impl Join {
    fn new(numbers: &mut Numbers) -> Self {
        let s = Shape::any(numbers);
        let [room, lens, out] = [s.room(), s.n, s.page()].map(|need| around(numbers, need));
        let mut join = Join {
            s,
            present: numbers.next() as u16,
            room: numbers.bytes(room),
            lens: (0..lens).map(|_| numbers.next() as u16).collect(),
            out: numbers.bytes(out),
            frame: Vec::new(),
            damaged: BTreeSet::new(),
        };
        if s.faults().is_empty() {
            join.present = present(numbers, s);
            join.frame = frames::any(numbers, s.k, s.f);
            join.lay_out();
            join.put_lengths(numbers);
            if numbers.below(8) == 0 {
                join.damage(numbers);
            }
        }
        join
    }

    /// The bytes of a piece.
    fn size(&self) -> usize {
        self.frame.len() / self.s.k
    }

    /// Right pieces of the frame, as far as the room goes.
    fn lay_out(&mut self) {
        let (size, k, f) = (self.size(), self.s.k, self.s.f);
        for (i, area) in (1..=self.s.n).zip(self.room.chunks_mut(f)) {
            let len = size.min(area.len());
            area[..len].copy_from_slice(&frames::piece(k, i, &self.frame)[..len]);
        }
    }

    /// Right ones, most times; of nodes that are not present, as often as not, any.
    fn put_lengths(&mut self, numbers: &mut Numbers) {
        let (size, f) = (self.size() as u16, self.s.f as u16);
        let other = [0, 1, size - 1, size + 1, f, f + 1, u16::MAX][numbers.below(7)];
        let kind = numbers.below(40);
        let any = numbers.below(2) == 0;
        for (at, len) in self.lens.iter_mut().enumerate() {
            let absent = at < 16 && self.present >> at & 1 == 0;
            *len = match kind {
                _ if any && absent => *len,
                0 => 0,
                1 => f + 1 + numbers.below(3) as u16 * (u16::MAX / 4),
                2 | 3 => other,
                4 => 1 + numbers.below(self.s.f) as u16,
                _ => size,
            };
        }
        // One of them: any, or the last of those present, which is not used if there are more than k.
        let last = 15 - self.present.leading_zeros().min(15) as usize;
        let at = match kind {
            5 | 6 => numbers.below(self.s.n),
            7 | 8 => last,
            _ => return,
        };
        if let Some(len) = self.lens.get_mut(at) {
            *len = other;
        }
    }

    /// One byte of a piece, or a whole one.
    fn damage(&mut self, numbers: &mut Numbers) {
        let (i, size) = (1 + numbers.below(self.s.n), self.size());
        let Some(piece) = self.room.get_mut((i - 1) * self.s.f..) else {
            return;
        };
        let size = size.min(piece.len());
        if size == 0 {
            return;
        }
        if numbers.below(2) == 0 {
            piece[numbers.below(size)] ^= 1 << numbers.below(8);
        } else {
            let bytes = numbers.bytes(size);
            piece[..size].copy_from_slice(&bytes);
        }
        self.damaged.insert(i);
    }

    /// The nodes up to n that are present, and the lengths of their pieces; where a length lacks, it is taken as right.
    fn pieces(&self) -> Vec<(usize, usize)> {
        let there = (1..=self.s.n).filter(|i| self.present >> (i - 1) & 1 == 1);
        let length = |i| {
            self.lens
                .get(i - 1)
                .map_or(self.size(), |len| *len as usize)
        };
        there.map(|i| (i, length(i))).collect()
    }

    /// Whether the pieces that are used are those of the frame.
    fn known(&self, pieces: &[(usize, usize)]) -> bool {
        let used = &pieces[..self.s.k];
        used.iter()
            .all(|(i, len)| *len <= self.size() && !self.damaged.contains(i))
    }

    /// All causes but a broken frame.
    fn causes(&self, pieces: &[(usize, usize)]) -> Vec<Cause> {
        let s = self.s;
        let mut causes = s.faults();
        causes.extend(short(ROOM, self.room.len(), s.room()));
        causes.extend(short(LENGTHS, self.lens.len(), s.n));
        causes.extend(short(OUTPUT, self.out.len(), s.page()));
        if !s.faults().is_empty() {
            return causes;
        }
        let unlike = |pieces: &[(usize, usize)]| pieces.iter().any(|(_, len)| *len != pieces[0].1);
        let lowest = &pieces[..s.k.min(pieces.len())];
        let faults = [
            (u32::from(self.present) >> s.n != 0, (4, ABOVE)),
            (pieces.iter().any(|p| p.1 == 0), (4, "piece of 0 bytes")),
            (pieces.iter().any(|p| p.1 > s.f), (4, "piece over F bytes")),
            (unlike(lowest), (4, "unequal lengths")),
            (
                unlike(pieces) && !unlike(lowest),
                (4, "unequal, not among k lowest"),
            ),
            (pieces.len() < s.k, (9, "fewer than k")),
        ];
        let faults = faults.into_iter().filter(|(holds, _)| *holds);
        causes.extend(faults.map(|(_, cause)| cause));
        causes
    }

    fn call(&self, account: &mut Account) {
        let s = self.s;
        let Shape { n, k, f } = s;
        let (end, answer) = same_join(n, k, f, self.present, &self.room, &self.lens, &self.out);
        let number = answer.err().unwrap_or(0);
        account.calls.note("join", number);
        let tally = &mut account.join;
        let detail = || format!("join {s:?} {:b} {:?}", self.present, self.lens);
        assert!(
            answer.is_ok() || end == self.out,
            "{}: refused, but changed",
            detail()
        );
        if s.wraps() {
            tally.note(WRAPS, number);
        }
        let whole = s.faults().is_empty();
        let pieces = if whole { self.pieces() } else { Vec::new() };
        let mut causes = self.causes(&pieces);
        let formed = |(number, name): &Cause| *number == 2 || *name == ABOVE;
        let mut frame = &self.frame[..];
        if whole && causes.iter().all(formed) {
            if !self.known(&pieces) {
                let due = causes.first().map_or([0, 4], |(first, _)| [*first; 2]);
                assert!(due.contains(&number), "{}: {number}", detail());
                if causes.is_empty() {
                    tally.note("pieces of no made frame", number);
                }
                return;
            }
            frame = &frame[..k * pieces[0].1];
            causes.extend(frames::faults(k, frame).into_iter().map(|name| (4, name)));
        }
        judge(tally, &causes, answer, detail);
        if let Ok(size) = answer {
            assert!(
                end[..size] == *frames::page(frame) && end[size..] == self.out[size..],
                "{}: another page, or the rest changed",
                detail()
            );
            self.note_served(tally, size, &pieces);
        }
    }

    fn note_served(&self, tally: &mut Tally, size: usize, pieces: &[(usize, usize)]) {
        let s = self.s;
        let lent = (self.room.len(), self.lens.len(), self.out.len());
        let present = |i: &usize| self.present >> (i - 1) & 1 == 1;
        let absent = (1..=s.n).filter(|i| !present(i));
        let cases = [
            (size == 0, "served: empty page"),
            (size == s.page(), "served: full page"),
            (lent == (s.room(), s.n, s.page()), "served: exact slices"),
            (pieces.len() == s.k, "served: k pieces"),
            (pieces.len() > s.k, "served: more than k"),
            (
                self.damaged.iter().any(present),
                "served: one not used damaged",
            ),
            (
                absent.map(|i| self.lens[i - 1]).any(|len| len > s.f as u16),
                "served: length of an absent",
            ),
            (size > 10_000, "served: over 10000 bytes"),
            (s.is_largest(), "served: largest measures"),
        ];
        note_all(tally, &cases, 0);
    }
}

/// All nodes, k, more, fewer, none; now and then some above n.
fn present(numbers: &mut Numbers, s: Shape) -> u16 {
    let all = ((1u32 << s.n) - 1) as u16;
    let count = match numbers.below(20) {
        0 => return numbers.next() as u16,
        1 => return all | numbers.next() as u16,
        2 => s.k - 1,
        3 => numbers.below(s.k),
        4..=9 => s.k,
        10..=14 => s.n,
        _ => s.k + numbers.below(s.n - s.k + 1),
    };
    let mut map = 0u16;
    while (map.count_ones() as usize) < count {
        map |= 1 << numbers.below(s.n);
    }
    map
}

/// Every length up to 300 in turn, and now and then a long one.
fn digest(numbers: &mut Numbers, account: &mut Account, turn: usize) {
    let len = match numbers.below(40) {
        0 => numbers.below(MOST + 1),
        1 => 64 * numbers.below(70) + 55 + numbers.below(11),
        _ => turn % 301,
    };
    let out = around(numbers, 32);
    let s = numbers.bytes(len);
    let (end, answer) = same_digest(&s, out);
    account.calls.note("digest", answer.err().unwrap_or(0));
    let causes: Vec<Cause> = short(OUTPUT, out, 32).into_iter().collect();
    let tally = &mut account.digest;
    judge(tally, &causes, answer, || format!("digest of {len} bytes"));
    let front = if answer.is_ok() { 32 } else { 0 };
    assert!(
        end[front..].iter().all(|byte| *byte == 7),
        "digest of {len} bytes: the rest changed"
    );
    if answer.is_ok() {
        account.lengths.insert(len);
        let cases = [
            (out == 32, "served: exact output"),
            (out > 32, "served: longer output"),
            (len > 60_000, "served: over 60000 bytes"),
        ];
        note_all(tally, &cases, 0);
    }
}

/// As many bytes as needed, one less, none, or any number up to the most.
fn near(numbers: &mut Numbers, need: usize, most: usize) -> usize {
    match numbers.below(12) {
        0 => need - 1,
        1 => 0,
        2..=4 => numbers.below(most + 1),
        _ => need,
    }
}

/// Any byte, most times a node's number.
fn place(numbers: &mut Numbers) -> u8 {
    match numbers.below(8) {
        0 => 0,
        1 => 255,
        2 => numbers.next() as u8,
        _ => 1 + numbers.below(16) as u8,
    }
}

/// Of a piece with its place: every length up to 300 in turn, and now and then a long one.
fn placed(numbers: &mut Numbers, account: &mut Account, turn: usize) {
    let len = match numbers.below(40) {
        0 => numbers.below(MOST + 1),
        // With its place it ends near the end of a block.
        1 => 64 * numbers.below(70) + 49 + numbers.below(11),
        _ => turn % 301,
    };
    let (version, out) = (near(numbers, 5, 8), near(numbers, 32, 40));
    let (version, out) = (numbers.bytes(version), numbers.bytes(out));
    let (node, piece) = (place(numbers), numbers.bytes(len));
    let (end, answer) = same_placed(&version, node, &piece, &out);
    let number = answer.err().unwrap_or(0);
    account.calls.note("digest with its place", number);
    let parts = [
        short(VERSION, version.len(), 5),
        short(OUTPUT, out.len(), 32),
    ];
    let causes: Vec<Cause> = parts.into_iter().flatten().collect();
    if let [(_, first), (_, then)] = causes[..] {
        account.both.insert([first, then]);
    }
    let tally = &mut account.placed;
    let detail = || format!("digest of {version:?}, {node} and {len} bytes");
    judge(tally, &causes, answer, detail);
    if answer.is_err() {
        assert!(end == out, "{}: refused, but changed", detail());
        return;
    }
    // No byte of the version counts beyond the fifth.
    let string = [&version[..5], &[node], &piece].concat();
    assert!(
        end[..32] == same_digest(&string, 32).0 && end[32..] == out[32..],
        "{}: another digest, or the rest changed",
        detail()
    );
    account.placed_lengths.insert(len);
    let cases = [
        (version.len() == 5, "served: exact version"),
        (version.len() > 5, "served: longer version"),
        (out.len() == 32, "served: exact output"),
        (out.len() > 32, "served: longer output"),
        (node == 0, "served: node 0"),
        (node > 16, "served: node above 16"),
        (len > 60_000, "served: over 60000 bytes"),
    ];
    note_all(tally, &cases, 0);
}

// What must have been met, with its numbers.

type Due = (&'static str, &'static [u32]);

/// Of split, of cut and of join.
const MEASURES: [Due; 8] = [
    ("n is 0", &[1]),
    ("n above 16", &[1]),
    ("k is 0", &[1]),
    ("k above n", &[1]),
    ("F is 0", &[1]),
    ("F above 4096", &[1]),
    ("kF below 4", &[1]),
    (WRAPS, &[1]),
];

const SPLIT: [Due; 14] = [
    (ROOM[0], &[2]),
    (ROOM[1], &[2]),
    (ROOM[2], &[2]),
    (TOO_LONG, &[6]),
    ("page long by one", &[6]),
    ("1 before 2", &[1]),
    ("1 before 6", &[1]),
    ("2 before 6", &[2]),
    ("served: empty page", &[0]),
    ("served: full page", &[0]),
    ("served: no zeros", &[0]),
    ("served: exact room", &[0]),
    ("served: over 10000 bytes", &[0]),
    ("served: largest measures", &[0]),
];

/// What refuses a cut, measures aside. Every two with different numbers must have been met at once, with no third.
const CUT_CAUSES: [Due; 7] = [
    (ROOM[0], &[2]),
    (ROOM[1], &[2]),
    (ROOM[2], &[2]),
    (NODE[0], &[3]),
    (NODE[1], &[3]),
    (NODE[2], &[3]),
    (TOO_LONG, &[6]),
];

const CUT: [Due; 16] = [
    ("page long by one", &[6]),
    ("1 before 2", &[1]),
    ("1 before 3", &[1]),
    ("1 before 6", &[1]),
    ("2 before 3", &[2]),
    ("2 before 6", &[2]),
    ("3 before 6", &[3]),
    ("served: empty page", &[0]),
    ("served: full page", &[0]),
    ("served: no zeros", &[0]),
    ("served: exact room", &[0]),
    ("served: longer room", &[0]),
    ("served: first node", &[0]),
    ("served: last node", &[0]),
    ("served: over 10000 bytes", &[0]),
    ("served: largest measures", &[0]),
];

const JOIN: [Due; 33] = [
    (ROOM[0], &[2]),
    (ROOM[1], &[2]),
    (ROOM[2], &[2]),
    (LENGTHS[0], &[2]),
    (LENGTHS[1], &[2]),
    (LENGTHS[2], &[2]),
    (OUTPUT[0], &[2]),
    (OUTPUT[1], &[2]),
    (OUTPUT[2], &[2]),
    (ABOVE, &[4]),
    ("piece of 0 bytes", &[4]),
    ("piece over F bytes", &[4]),
    ("unequal lengths", &[4]),
    ("unequal, not among k lowest", &[4]),
    (frames::SHORT, &[4]),
    (frames::BEYOND, &[4]),
    (frames::ZEROS, &[4]),
    (frames::FILLING, &[4]),
    ("fewer than k", &[9]),
    ("pieces of no made frame", &[0, 4]),
    ("1 before 2", &[1]),
    ("2 before 4", &[2]),
    ("2 before 9", &[2]),
    ("4 before 9", &[4]),
    ("served: empty page", &[0]),
    ("served: full page", &[0]),
    ("served: exact slices", &[0]),
    ("served: k pieces", &[0]),
    ("served: more than k", &[0]),
    ("served: one not used damaged", &[0]),
    ("served: length of an absent", &[0]),
    ("served: over 10000 bytes", &[0]),
    ("served: largest measures", &[0]),
];

const DIGEST: [Due; 6] = [
    (OUTPUT[0], &[2]),
    (OUTPUT[1], &[2]),
    (OUTPUT[2], &[2]),
    ("served: exact output", &[0]),
    ("served: longer output", &[0]),
    ("served: over 60000 bytes", &[0]),
];

const PLACED: [Due; 13] = [
    (VERSION[0], &[2]),
    (VERSION[1], &[2]),
    (VERSION[2], &[2]),
    (OUTPUT[0], &[2]),
    (OUTPUT[1], &[2]),
    (OUTPUT[2], &[2]),
    ("served: exact version", &[0]),
    ("served: longer version", &[0]),
    ("served: exact output", &[0]),
    ("served: longer output", &[0]),
    ("served: node 0", &[0]),
    ("served: node above 16", &[0]),
    ("served: over 60000 bytes", &[0]),
];

/// So many calls; each refusal must have been met by each of its causes.
pub fn calls(numbers: &mut Numbers, total: usize) {
    let mut account = Account::default();
    for turn in 0..total {
        match numbers.below(14) {
            0..=2 => split(numbers, &mut account),
            3..=4 => cut(numbers, &mut account),
            5..=9 => Join::new(numbers).call(&mut account),
            10..=11 => digest(numbers, &mut account, turn),
            _ => placed(numbers, &mut account, turn),
        }
    }
    println!("{total} calls to split, cut, join and both digests of the archive and of plain Rust: the same answers and bytes, every refusal by each cause");
    account.calls.print("");
    for (name, tally, due) in [
        ("split", &account.split, [&MEASURES[..], &SPLIT].concat()),
        (
            "cut",
            &account.cut,
            [&MEASURES[..], &CUT_CAUSES, &CUT].concat(),
        ),
        ("join", &account.join, [&MEASURES[..], &JOIN].concat()),
        ("digest", &account.digest, DIGEST.to_vec()),
        ("digest with its place", &account.placed, PLACED.to_vec()),
    ] {
        tally.print(name);
        for (case, met) in due {
            let met = BTreeSet::from_iter(met.iter().copied());
            assert_eq!(tally.met(case), met, "{name}: {case}");
        }
    }
    for (at, (first, number)) in CUT_CAUSES.into_iter().enumerate() {
        let later = CUT_CAUSES.iter().skip(at);
        for (then, _) in later.filter(|(_, other)| *other != number) {
            let met = account.pairs.contains(&[first, then]);
            assert!(met, "cut: {first} and {then} at once");
        }
    }
    for first in VERSION {
        for then in OUTPUT {
            let met = account.both.contains(&[first, then]);
            assert!(met, "digest with its place: {first} and {then} at once");
        }
    }
    for lengths in [&account.lengths, &account.placed_lengths] {
        let every = (0..=300).all(|len| lengths.contains(&len));
        assert!(every, "digests of every length up to 300");
    }
}
