//! Numbers without order, and measures, versions and damage made from them.

use jolbizna::{Measures, Version};

/// Numbers without order, the same in each run that starts from the same number; 0 would give nothing but 0.
pub struct Numbers(pub u64);

/// What is started from if nothing else is said.
pub const FIRST: u64 = 88172645463325252;

impl Numbers {
    pub fn next(&mut self) -> u64 {
        self.0 ^= self.0 << 13;
        self.0 ^= self.0 >> 7;
        self.0 ^= self.0 << 17;
        self.0 >> 16
    }

    pub fn below(&mut self, n: usize) -> usize {
        self.next() as usize % n
    }

    pub fn bytes(&mut self, n: usize) -> Vec<u8> {
        (0..n).map(|_| self.next() as u8).collect()
    }
}

/// Measures that pass; most tables are small, a few as large as can be.
pub fn measures(numbers: &mut Numbers) -> Measures {
    let n = 1 + numbers.below(16);
    let t = numbers.below((n - 1) / 2 + 1);
    let k = 1 + numbers.below(n - 2 * t);
    let most = [2, 3, 8][numbers.below(3)];
    let m = 1 + numbers.below(most);
    let f = match numbers.below(40) {
        0 => 4096,
        1..=6 => 4usize.div_ceil(k),
        7..=9 => 200 + numbers.below(900),
        _ => 1 + numbers.below(40),
    };
    let f = f.max(4usize.div_ceil(k));
    Measures { m, n, k, t, f }
}

/// One of the five is another number.
pub fn other_measures(numbers: &mut Numbers, s: Measures) -> Measures {
    let other = match numbers.below(4) {
        0 => numbers.below(20),
        1 => 4090 + numbers.below(10),
        2 => usize::MAX - numbers.below(2),
        _ => 1 << (60 + numbers.below(4)),
    };
    let mut s = s;
    *[&mut s.m, &mut s.n, &mut s.k, &mut s.t, &mut s.f][numbers.below(5)] = other;
    s
}

/// Once in so many times, most damage is done.
pub const RARE: usize = 14;

/// Now and then.
pub fn rare(numbers: &mut Numbers) -> bool {
    numbers.below(RARE) == 0
}

pub fn number(numbers: &mut Numbers) -> u32 {
    [numbers.below(4) as u32, numbers.next() as u32, u32::MAX][numbers.below(3)]
}

/// Few enough versions that most are met again, at steps that reach every byte of a sequence.
pub fn version(numbers: &mut Numbers, s: Measures, step: u32) -> Version {
    (
        1 + step * numbers.below(3 * s.m + 2) as u32,
        numbers.below(s.m) as u8,
    )
}

pub fn spoil_byte(numbers: &mut Numbers, bytes: &mut [u8], at: usize) {
    if let Some(b) = bytes.get_mut(at) {
        *b = match numbers.below(3) {
            0 => *b ^ 1 << numbers.below(8),
            1 => numbers.below(3) as u8,
            _ => numbers.next() as u8,
        };
    }
}

/// Other bytes: one changed, some fewer, one more, the last five again.
pub fn spoil(numbers: &mut Numbers, bytes: &mut Vec<u8>) {
    let len = bytes.len();
    match numbers.below(5) {
        0 => bytes.truncate(len - numbers.below(len + 1).min(1 + numbers.below(6))),
        1 => bytes.push(numbers.below(2) as u8),
        2 => bytes.extend_from_within(len.saturating_sub(5)..),
        3 => {
            let at = numbers.below(len.max(1));
            spoil_byte(numbers, bytes, at);
        }
        _ => {
            let at = numbers.below(12);
            spoil_byte(numbers, bytes, at);
        }
    }
}

pub fn spoil_directory(numbers: &mut Numbers, s: Measures, table: &mut [u8]) {
    let row = numbers.below(s.m) * s.row();
    let at = match numbers.below(4) {
        0 => row,
        1 => row + s.row() - 1 - numbers.below(3),
        2 => row + numbers.below(s.row().min(50)),
        _ => row + numbers.below(s.row()),
    };
    spoil_byte(numbers, table, at);
}

/// The number of a client or node, now and then out of bounds.
pub fn who(numbers: &mut Numbers, from: usize, count: usize) -> usize {
    if rare(numbers) {
        [0, count, count + 1, usize::MAX][numbers.below(4)]
    } else {
        from + numbers.below(count)
    }
}
