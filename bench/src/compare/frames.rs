//! Frames made up, whole and broken, and the pieces of any frame: an account of its own, so that joining gets right pieces of wrong frames.

use crate::random::Numbers;

/// Bytes of the page length at the front of a frame.
const FRONT: usize = 4;

pub const SHORT: &str = "frame of under 4 bytes";
pub const BEYOND: &str = "length beyond the frame";
pub const ZEROS: &str = "too many zeros";
pub const FILLING: &str = "other filling";

/// The frame of a page.
pub fn of_page(k: usize, page: &[u8]) -> Vec<u8> {
    let mut frame = vec![0; (FRONT + page.len()).div_ceil(k) * k];
    put_length(&mut frame, page.len());
    frame[FRONT..][..page.len()].copy_from_slice(page);
    frame
}

fn put_length(frame: &mut [u8], length: usize) {
    frame[..FRONT].copy_from_slice(&(length as u32).to_be_bytes());
}

/// A frame whose pieces have 1 to f bytes: half of them a page's, the rest broken in one way or in any.
pub fn any(numbers: &mut Numbers, k: usize, f: usize) -> Vec<u8> {
    let most = k * f - FRONT;
    if numbers.below(2) == 0 {
        let len = [0, most, numbers.below(most + 1), numbers.below(most + 1)][numbers.below(4)];
        return of_page(k, &numbers.bytes(len));
    }
    let least = FRONT.div_ceil(k);
    let len = [least, f, least + numbers.below(f - least + 1)][numbers.below(3)];
    let mut frame = numbers.bytes(k * len);
    let room = frame.len() - FRONT;
    match numbers.below(8) {
        0 | 1 => {
            let length = match numbers.below(4) {
                0 => room + 1,
                1 => room + 1 + numbers.below(2 * k),
                2 => room + (1 << (8 + numbers.below(24))),
                _ => u32::MAX as usize - numbers.below(8),
            };
            put_length(&mut frame, length);
        }
        2 | 3 => {
            // As few as can be too many, as often as not.
            let more = numbers.below(2) * numbers.below(room + 1);
            let length = room.saturating_sub(k + more);
            put_length(&mut frame, length);
            frame[FRONT + length..].fill(0);
        }
        4 | 5 => {
            let length = room - room.min(numbers.below(k + 1));
            put_length(&mut frame, length);
            let filling = &mut frame[FRONT + length..];
            filling.fill(0);
            if !filling.is_empty() {
                filling[numbers.below(filling.len())] = 1 << numbers.below(8);
            }
        }
        6 if k < FRONT => frame.truncate(k * (1 + numbers.below((FRONT - 1) / k))),
        _ => put_length(&mut frame, numbers.below(room + 2)),
    }
    frame
}

/// What breaks a frame's form.
pub fn faults(k: usize, frame: &[u8]) -> Vec<&'static str> {
    let Some(length) = length(frame) else {
        return vec![SHORT];
    };
    let Some(filling) = frame.get(FRONT + length..) else {
        return vec![BEYOND];
    };
    let mut faults = Vec::new();
    if filling.len() >= k {
        faults.push(ZEROS);
    }
    if filling.iter().any(|byte| *byte != 0) {
        faults.push(FILLING);
    }
    faults
}

fn length(frame: &[u8]) -> Option<usize> {
    let front = frame.first_chunk::<FRONT>()?;
    Some(u32::from_be_bytes(*front) as usize)
}

/// The page of a frame that is whole.
pub fn page(frame: &[u8]) -> &[u8] {
    let length = length(frame).expect("a whole frame");
    &frame[FRONT..][..length]
}

/// Piece i of any frame: byte j is the sum over r of frame byte jk + r times i to the power r.
pub fn piece(k: usize, i: usize, frame: &[u8]) -> Vec<u8> {
    let mut powers = vec![1; k];
    for r in 1..k {
        powers[r] = product(powers[r - 1], i as u8);
    }
    let sum = |column: &[u8]| {
        let products = column.iter().zip(&powers).map(|(b, p)| product(*b, *p));
        products.fold(0, |sum, product| sum ^ product)
    };
    frame.chunks(k).map(sum).collect()
}

/// By doubling, from the factor's highest bit down.
fn product(a: u8, b: u8) -> u8 {
    (0..8).rev().fold(0, |sum: u8, bit| {
        let over = (sum >> 7) * 0x1D;
        (sum << 1) ^ over ^ ((b >> bit & 1) * a)
    })
}
