//! Pointers made at random, and rows whose pointers are another client's.

use crate::parties::{Pointer, Record, NONE};
use crate::random::{version, Numbers};
use jolbizna::Measures;

/// So many bits among the lowest ones.
pub fn bits(numbers: &mut Numbers, count: usize, lowest: usize) -> u16 {
    let mut map = 0u16;
    while (map.count_ones() as usize) < count {
        map |= 1 << numbers.below(lowest);
    }
    map
}

/// A proper pointer of any client.
pub fn some_pointer(numbers: &mut Numbers, s: Measures, step: u32) -> Pointer {
    let nodes = bits(numbers, s.t + s.k, s.n);
    Pointer {
        version: version(numbers, s, step),
        nodes,
        digests: numbers.bytes(32 * (s.t + s.k)),
    }
}

/// A pointer that is none or proper.
pub fn pointer(numbers: &mut Numbers, s: Measures, step: u32) -> Pointer {
    if numbers.below(4) == 0 {
        return Pointer::none();
    }
    some_pointer(numbers, s, step)
}

/// A pointer that may stand in this client's row.
pub fn own_pointer(numbers: &mut Numbers, s: Measures, step: u32, owner: usize) -> Pointer {
    let mut pointer = pointer(numbers, s, step);
    if pointer.version != NONE {
        pointer.version.1 = owner as u8;
    }
    pointer
}

/// Another client than this one, of two or more.
fn other_client(numbers: &mut Numbers, s: Measures, owner: usize) -> usize {
    (owner + 1 + numbers.below(s.m - 1)) % s.m
}

/// One of its pointers, if it has any and there is another client, becomes that one's. None becomes a proper pointer.
pub fn disown(numbers: &mut Numbers, s: Measures, step: u32, owner: usize, record: &mut Record) {
    let frozen = record.frozen.iter_mut().flatten();
    let mut pointers: Vec<&mut Pointer> = record.written.iter_mut().chain(frozen).collect();
    let count = pointers.len();
    if count == 0 || s.m == 1 {
        return;
    }
    // Any one; the first is the written one, which is not to be seldom among many.
    let at = [0, count - 1, numbers.below(count)][numbers.below(3)];
    if *pointers[at] == Pointer::none() {
        *pointers[at] = some_pointer(numbers, s, step);
    }
    pointers[at].version.1 = other_client(numbers, s, owner) as u8;
}

/// A pointer of one row becomes another client's, if there is one; now and then a whole row stands under another's number.
pub fn disown_rows(numbers: &mut Numbers, s: Measures, step: u32, rows: &mut [Record]) {
    let p = numbers.below(s.m);
    if s.m > 1 && numbers.below(4) == 0 {
        let other = other_client(numbers, s, p);
        rows[p] = rows[other].clone();
    }
    disown(numbers, s, step, p, &mut rows[p]);
}
