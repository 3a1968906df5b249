//! Cutting a page into pieces, or one of them alone, joining pieces, SHA-256, and the digest of a piece with its place, as documents 01
//! and 02 and FIPS 180-4 define them.

use jolbizna::Answer;

/// Bytes of a digest.
pub const DIGEST: usize = 32;

/// Bytes of the page length at the front of a frame.
const LENGTH: usize = 4;

/// Bytes of a version.
const VERSION: usize = 5;

pub fn split(n: usize, k: usize, f: usize, page: &[u8], room: &mut [u8]) -> Answer {
    measured(n, k, f)?;
    if room.len() < n * f {
        return Err(2);
    }
    if page.len() > k * f - LENGTH {
        return Err(6);
    }
    let frame = frame(k, page);
    for i in 1..=n {
        let piece = piece(k, i, &frame);
        room[(i - 1) * f..][..piece.len()].copy_from_slice(&piece);
    }
    Ok(frame.len() / k)
}

/// One piece alone; `plain-runs` has no use for it.
#[allow(dead_code)]
pub fn cut(n: usize, k: usize, f: usize, i: usize, page: &[u8], room: &mut [u8]) -> Answer {
    measured(n, k, f)?;
    if room.len() < f {
        return Err(2);
    }
    if i == 0 || i > n {
        return Err(3);
    }
    if page.len() > k * f - LENGTH {
        return Err(6);
    }
    let piece = piece(k, i, &frame(k, page));
    room[..piece.len()].copy_from_slice(&piece);
    Ok(piece.len())
}

pub fn join(
    n: usize,
    k: usize,
    f: usize,
    present: u16,
    room: &[u8],
    lens: &[u16],
    out: &mut [u8],
) -> Answer {
    measured(n, k, f)?;
    if room.len() < n * f || lens.len() < n || out.len() < k * f - LENGTH {
        return Err(2);
    }
    let nodes: Vec<usize> = (1..=16).filter(|i| present >> (i - 1) & 1 == 1).collect();
    if nodes.iter().any(|&i| i > n) {
        return Err(4);
    }
    let lengths: Vec<usize> = nodes.iter().map(|&i| lens[i - 1].into()).collect();
    if lengths
        .iter()
        .any(|&length| length != lengths[0] || length == 0 || length > f)
    {
        return Err(4);
    }
    if nodes.len() < k {
        return Err(9);
    }
    let pieces: Vec<&[u8]> = nodes
        .iter()
        .zip(lengths)
        .map(|(i, length)| &room[(i - 1) * f..][..length])
        .collect();
    let frame = interpolate(&nodes[..k], &pieces[..k]);
    let page = page_of(k, &frame).ok_or(4u32)?;
    out[..page.len()].copy_from_slice(page);
    Ok(page.len())
}

pub fn digest(bytes: &[u8], out: &mut [u8]) -> Answer {
    if out.len() < DIGEST {
        return Err(2);
    }
    out[..DIGEST].copy_from_slice(&sha256(bytes));
    Ok(0)
}

/// Of version, node and piece, one after the other.
pub fn digest_placed(version: &[u8], node: u8, piece: &[u8], out: &mut [u8]) -> Answer {
    if version.len() < VERSION || out.len() < DIGEST {
        return Err(2);
    }
    let string = [&version[..VERSION], &[node], piece].concat();
    out[..DIGEST].copy_from_slice(&sha256(&string));
    Ok(0)
}

/// Any numbers may come, so each is bounded before it is multiplied.
fn measured(n: usize, k: usize, f: usize) -> Result<(), u32> {
    let bounded = (1..=16).contains(&n) && (1..=n).contains(&k) && (1..=4096).contains(&f);
    if bounded && k * f >= LENGTH {
        Ok(())
    } else {
        Err(1)
    }
}

fn frame(k: usize, page: &[u8]) -> Vec<u8> {
    let mut frame = (page.len() as u32).to_be_bytes().to_vec();
    frame.extend(page);
    frame.resize(frame.len().next_multiple_of(k), 0);
    frame
}

/// The page of a frame that is just what this page gives.
fn page_of(k: usize, joined: &[u8]) -> Option<&[u8]> {
    let (length, rest) = joined.split_first_chunk::<LENGTH>()?;
    let page = rest.get(..u32::from_be_bytes(*length) as usize)?;
    (frame(k, page) == joined).then_some(page)
}

/// Each k bytes of the frame are a polynomial, lowest power first, whose value at i is a byte of piece i.
fn piece(k: usize, i: usize, frame: &[u8]) -> Vec<u8> {
    frame
        .chunks(k)
        .map(|polynomial| value(polynomial, i as u8))
        .collect()
}

fn value(polynomial: &[u8], at: u8) -> u8 {
    polynomial
        .iter()
        .rev()
        .fold(0, |sum, &factor| times(sum, at) ^ factor)
}

/// The frame whose pieces at these nodes are these, by Lagrange's polynomials.
fn interpolate(nodes: &[usize], pieces: &[&[u8]]) -> Vec<u8> {
    let k = nodes.len();
    let points: Vec<u8> = nodes.iter().map(|&i| i as u8).collect();
    let mut frame = vec![0; k * pieces[0].len()];
    for (&point, piece) in points.iter().zip(pieces) {
        let basis = basis(point, &points);
        for (polynomial, &byte) in frame.chunks_mut(k).zip(*piece) {
            for (sum, &factor) in polynomial.iter_mut().zip(&basis) {
                *sum ^= times(factor, byte);
            }
        }
    }
    frame
}

/// The polynomial that is 1 at one of the points and 0 at the others.
fn basis(point: u8, points: &[u8]) -> Vec<u8> {
    let mut polynomial = vec![1];
    for &other in points.iter().filter(|&&other| other != point) {
        polynomial = times_root(&polynomial, other);
    }
    let scale = inverse(value(&polynomial, point));
    polynomial
        .into_iter()
        .map(|factor| times(factor, scale))
        .collect()
}

/// The product with (x + root); minus is plus in this field.
fn times_root(polynomial: &[u8], root: u8) -> Vec<u8> {
    let mut product = vec![0; polynomial.len() + 1];
    for (power, &factor) in polynomial.iter().enumerate() {
        product[power] ^= times(factor, root);
        product[power + 1] ^= factor;
    }
    product
}

/// The product of polynomials over the bits, modulo hex 11D.
fn times(a: u8, b: u8) -> u8 {
    let mut product = (0..8)
        .filter(|bit| b >> bit & 1 == 1)
        .fold(0, |sum, bit| sum ^ u16::from(a) << bit);
    for bit in (8..15).rev() {
        if product >> bit & 1 == 1 {
            product ^= 0x11D << (bit - 8);
        }
    }
    product as u8
}

/// By trial; 0, which has none, is never asked for.
fn inverse(a: u8) -> u8 {
    (1..=255).find(|&b| times(a, b) == 1).unwrap_or(0)
}

/// FIPS 180-4, 4.2.2: the cube roots of the first 64 primes, 32 bits behind the point.
const ROUND: [u32; 64] = [
    0x428a2f98, 0x71374491, 0xb5c0fbcf, 0xe9b5dba5, 0x3956c25b, 0x59f111f1, 0x923f82a4, 0xab1c5ed5,
    0xd807aa98, 0x12835b01, 0x243185be, 0x550c7dc3, 0x72be5d74, 0x80deb1fe, 0x9bdc06a7, 0xc19bf174,
    0xe49b69c1, 0xefbe4786, 0x0fc19dc6, 0x240ca1cc, 0x2de92c6f, 0x4a7484aa, 0x5cb0a9dc, 0x76f988da,
    0x983e5152, 0xa831c66d, 0xb00327c8, 0xbf597fc7, 0xc6e00bf3, 0xd5a79147, 0x06ca6351, 0x14292967,
    0x27b70a85, 0x2e1b2138, 0x4d2c6dfc, 0x53380d13, 0x650a7354, 0x766a0abb, 0x81c2c92e, 0x92722c85,
    0xa2bfe8a1, 0xa81a664b, 0xc24b8b70, 0xc76c51a3, 0xd192e819, 0xd6990624, 0xf40e3585, 0x106aa070,
    0x19a4c116, 0x1e376c08, 0x2748774c, 0x34b0bcb5, 0x391c0cb3, 0x4ed8aa4a, 0x5b9cca4f, 0x682e6ff3,
    0x748f82ee, 0x78a5636f, 0x84c87814, 0x8cc70208, 0x90befffa, 0xa4506ceb, 0xbef9a3f7, 0xc67178f2,
];

/// FIPS 180-4, 5.3.3: the square roots of the first 8 primes, 32 bits behind the point.
const START: [u32; 8] = [
    0x6a09e667, 0xbb67ae85, 0x3c6ef372, 0xa54ff53a, 0x510e527f, 0x9b05688c, 0x1f83d9ab, 0x5be0cd19,
];

fn sha256(bytes: &[u8]) -> [u8; DIGEST] {
    let hash = padded(bytes).chunks(64).fold(START, compress);
    let mut digest = [0; DIGEST];
    for (place, word) in digest.chunks_mut(4).zip(hash) {
        place.copy_from_slice(&word.to_be_bytes());
    }
    digest
}

/// A one bit, zeros, and the number of bits in 8 bytes, up to whole blocks.
fn padded(bytes: &[u8]) -> Vec<u8> {
    let mut message = bytes.to_vec();
    message.push(0x80);
    let whole = (message.len() + 8).next_multiple_of(64);
    message.resize(whole - 8, 0);
    message.extend((bytes.len() as u64 * 8).to_be_bytes());
    message
}

fn compress(hash: [u32; 8], block: &[u8]) -> [u32; 8] {
    let mut work = hash;
    for (word, constant) in schedule(block).into_iter().zip(ROUND) {
        work = round(work, word.wrapping_add(constant));
    }
    std::array::from_fn(|i| hash[i].wrapping_add(work[i]))
}

fn schedule(block: &[u8]) -> [u32; 64] {
    let mut words = [0; 64];
    for (word, bytes) in words.iter_mut().zip(block.chunks(4)) {
        *word = bytes
            .iter()
            .fold(0, |number, &byte| number << 8 | u32::from(byte));
    }
    for i in 16..64 {
        let (early, late) = (words[i - 15], words[i - 2]);
        let small = early.rotate_right(7) ^ early.rotate_right(18) ^ early >> 3;
        let large = late.rotate_right(17) ^ late.rotate_right(19) ^ late >> 10;
        words[i] = large
            .wrapping_add(words[i - 7])
            .wrapping_add(small)
            .wrapping_add(words[i - 16]);
    }
    words
}

fn round([a, b, c, d, e, f, g, h]: [u32; 8], word: u32) -> [u32; 8] {
    let sum_e = e.rotate_right(6) ^ e.rotate_right(11) ^ e.rotate_right(25);
    let choice = (e & f) ^ (!e & g);
    let first = h
        .wrapping_add(sum_e)
        .wrapping_add(choice)
        .wrapping_add(word);
    let sum_a = a.rotate_right(2) ^ a.rotate_right(13) ^ a.rotate_right(22);
    let majority = (a & b) ^ (a & c) ^ (b & c);
    let second = sum_a.wrapping_add(majority);
    [
        first.wrapping_add(second),
        a,
        b,
        c,
        d.wrapping_add(first),
        e,
        f,
        g,
    ]
}
