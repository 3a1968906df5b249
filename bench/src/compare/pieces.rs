//! Split, cut, join and both digests on both sides, with the same bytes.

use crate::coding;
use jolbizna::{coding as proved, Answer};
use std::hint::black_box;

/// Splits on both sides into rooms with the same bytes, and hands back the room and the answer.
pub fn same_split(n: usize, k: usize, f: usize, page: &[u8], room: &[u8]) -> (Vec<u8>, Answer) {
    let (mut ours, mut theirs) = (room.to_vec(), room.to_vec());
    let answer = proved::split(n, k, f, page, &mut ours);
    assert_eq!(
        answer,
        coding::split(n, k, f, page, &mut theirs),
        "split {n} {k} {f} {}",
        page.len()
    );
    assert!(
        ours == theirs,
        "split {n} {k} {f} {}: the rooms differ",
        page.len()
    );
    (ours, answer)
}

pub fn same_cut(
    n: usize,
    k: usize,
    f: usize,
    i: usize,
    page: &[u8],
    room: &[u8],
) -> (Vec<u8>, Answer) {
    let (mut ours, mut theirs) = (room.to_vec(), room.to_vec());
    let answer = proved::cut(n, k, f, i, page, &mut ours);
    assert_eq!(
        answer,
        coding::cut(n, k, f, i, page, &mut theirs),
        "cut {n} {k} {f} {i} {}",
        page.len()
    );
    assert!(
        ours == theirs,
        "cut {n} {k} {f} {i} {}: the rooms differ",
        page.len()
    );
    (ours, answer)
}

/// The archive cuts each piece of a whole split alone: the same bytes, and the rest of its room stays.
pub fn same_alone(n: usize, k: usize, f: usize, page: &[u8], pieces: &[u8], size: usize) {
    for (i, area) in (1..=n).zip(pieces.chunks(f)) {
        // At first every byte is another.
        let before: Vec<u8> = area.iter().map(|byte| !byte).collect();
        let mut room = before.clone();
        let answer = proved::cut(n, k, f, i, page, &mut room);
        assert!(
            answer == Ok(size) && room[..size] == area[..size] && room[size..] == before[size..],
            "cut {n} {k} {f} {i} {}: not as in the whole split",
            page.len()
        );
    }
}

pub fn same_join(
    n: usize,
    k: usize,
    f: usize,
    present: u16,
    room: &[u8],
    lens: &[u16],
    out: &[u8],
) -> (Vec<u8>, Answer) {
    let (mut ours, mut theirs) = (out.to_vec(), out.to_vec());
    let answer = proved::join(n, k, f, present, room, lens, &mut ours);
    assert_eq!(
        answer,
        coding::join(n, k, f, present, room, lens, &mut theirs),
        "join {n} {k} {f} {present:b} {lens:?}"
    );
    assert!(
        ours == theirs,
        "join {n} {k} {f} {present:b} {lens:?}: the outputs differ"
    );
    (ours, answer)
}

pub fn same_digest(s: &[u8], out: usize) -> (Vec<u8>, Answer) {
    let (mut ours, mut theirs) = (vec![7; out], vec![7; out]);
    let answer = proved::digest(s, &mut ours);
    assert_eq!(
        answer,
        coding::digest(s, &mut theirs),
        "digest of {} bytes",
        s.len()
    );
    assert!(
        ours == theirs,
        "digest of {} bytes: the digests differ",
        s.len()
    );
    (ours, answer)
}

/// The digest of a piece with its place, which leaves version and piece.
pub fn same_placed(version: &[u8], node: u8, piece: &[u8], out: &[u8]) -> (Vec<u8>, Answer) {
    let (mut ours, mut theirs) = (out.to_vec(), out.to_vec());
    let (of, lent) = (version.to_vec(), piece.to_vec());
    let answer = proved::digest_placed(&of, node, &lent, &mut ours);
    let detail = || format!("digest of {version:?}, {node} and {} bytes", piece.len());
    // Without the boxes the compiler may take for granted that what is only read stays.
    assert!(
        black_box(of) == version && black_box(lent) == piece,
        "{}: version or piece changed",
        detail()
    );
    assert_eq!(
        answer,
        coding::digest_placed(version, node, piece, &mut theirs),
        "{}",
        detail()
    );
    assert!(ours == theirs, "{}: the digests differ", detail());
    (ours, answer)
}
