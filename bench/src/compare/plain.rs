//! The baseline of the timings: the same work in plain Rust, one product by the two tables for each byte of the frame; a recording
//! byte by byte.

use jolbizna::Answer;

const fn exp_table() -> [u8; 255] {
    let mut exp = [0; 255];
    let mut x = 1u32;
    let mut i = 0;
    while i < 255 {
        exp[i] = x as u8;
        x <<= 1;
        if x & 256 != 0 {
            x ^= 0x11d;
        }
        i += 1;
    }
    exp
}

const fn log_table() -> [u8; 256] {
    let exp = exp_table();
    let mut log = [0; 256];
    let mut i = 0;
    while i < 255 {
        log[exp[i] as usize] = i as u8;
        i += 1;
    }
    log
}

static EXP: [u8; 255] = exp_table();
static LOG: [u8; 256] = log_table();

fn mul(a: u8, b: u8) -> u8 {
    if a == 0 || b == 0 {
        return 0;
    }
    EXP[(LOG[a as usize] as usize + LOG[b as usize] as usize) % 255]
}

fn inverse(a: u8) -> u8 {
    EXP[(255 - LOG[a as usize] as usize) % 255]
}

pub fn powers(x: u8, k: usize) -> Vec<u8> {
    let mut row = vec![1; k];
    for r in 1..k {
        row[r] = mul(row[r - 1], x);
    }
    row
}

fn proper(n: usize, k: usize, f: usize) -> bool {
    (1..=16).contains(&n) && (1..=n).contains(&k) && (1..=4096).contains(&f) && k * f >= 4
}

fn frame(k: usize, page: &[u8]) -> Vec<u8> {
    let len = (4 + page.len()).div_ceil(k);
    let mut frame = Vec::with_capacity(len * k);
    frame.extend((page.len() as u32).to_be_bytes());
    frame.extend(page);
    frame.resize(len * k, 0);
    frame
}

pub fn split(n: usize, k: usize, f: usize, page: &[u8], room: &mut [u8]) -> Answer {
    if !proper(n, k, f) {
        return Err(1);
    }
    if room.len() < n * f {
        return Err(2);
    }
    if k * f - 4 < page.len() {
        return Err(6);
    }
    let frame = frame(k, page);
    let len = frame.len() / k;
    for i in 0..n {
        put_piece(k, i + 1, &frame, &mut room[i * f..i * f + len]);
    }
    Ok(len)
}

fn put_piece(k: usize, i: usize, frame: &[u8], piece: &mut [u8]) {
    let powers = powers(i as u8, k);
    for (byte, column) in piece.iter_mut().zip(frame.chunks_exact(k)) {
        let mut sum = 0;
        for (b, p) in column.iter().zip(&powers) {
            sum ^= mul(*b, *p);
        }
        *byte = sum;
    }
}

pub fn cut(n: usize, k: usize, f: usize, i: usize, page: &[u8], room: &mut [u8]) -> Answer {
    if !proper(n, k, f) {
        return Err(1);
    }
    if room.len() < f {
        return Err(2);
    }
    if i < 1 || n < i {
        return Err(3);
    }
    if k * f - 4 < page.len() {
        return Err(6);
    }
    let frame = frame(k, page);
    let len = frame.len() / k;
    put_piece(k, i, &frame, &mut room[..len]);
    Ok(len)
}

/// The inverse of the grid of the nodes' powers, by elimination; distinct nodes leave no pivot at 0.
fn inverted(nodes: &[u8]) -> Vec<Vec<u8>> {
    let k = nodes.len();
    let mut grid: Vec<Vec<u8>> = nodes.iter().map(|x| powers(*x, k)).collect();
    for (s, row) in grid.iter_mut().enumerate() {
        row.resize(2 * k, 0);
        row[k + s] = 1;
    }
    for c in 0..k {
        let f = inverse(grid[c][c]);
        for e in grid[c].iter_mut() {
            *e = mul(*e, f);
        }
        let pivot = grid[c].clone();
        for (r, row) in grid.iter_mut().enumerate() {
            if r != c {
                let f = row[c];
                for (e, p) in row.iter_mut().zip(&pivot) {
                    *e ^= mul(f, *p);
                }
            }
        }
    }
    grid.into_iter().map(|row| row[k..].to_vec()).collect()
}

pub fn join(
    n: usize,
    k: usize,
    f: usize,
    present: u16,
    room: &[u8],
    lens: &[u16],
    out: &mut [u8],
) -> Answer {
    if !proper(n, k, f) {
        return Err(1);
    }
    if room.len() < n * f || lens.len() < n || out.len() < k * f - 4 {
        return Err(2);
    }
    if (present as u32) >> n != 0 {
        return Err(4);
    }
    let nodes: Vec<u8> = (1..=n as u8)
        .filter(|i| present >> (i - 1) & 1 == 1)
        .collect();
    let lens: Vec<usize> = nodes
        .iter()
        .map(|i| lens[*i as usize - 1] as usize)
        .collect();
    if lens
        .iter()
        .any(|len| *len != lens[0] || *len < 1 || *len > f)
    {
        return Err(4);
    }
    if nodes.len() < k {
        return Err(9);
    }
    let nodes = &nodes[..k];
    let len = lens[0];
    let grid = inverted(nodes);
    let pieces: Vec<&[u8]> = nodes
        .iter()
        .map(|i| &room[(*i as usize - 1) * f..][..len])
        .collect();
    let mut frame = vec![0; len * k];
    for (j, column) in frame.chunks_exact_mut(k).enumerate() {
        for (byte, weights) in column.iter_mut().zip(&grid) {
            let mut sum = 0;
            for (piece, w) in pieces.iter().zip(weights) {
                sum ^= mul(piece[j], *w);
            }
            *byte = sum;
        }
    }
    if frame.len() < 4 {
        return Err(4);
    }
    let size = u32::from_be_bytes([frame[0], frame[1], frame[2], frame[3]]) as usize;
    if frame.len() - 4 < size
        || k <= frame.len() - 4 - size
        || frame[4 + size..].iter().any(|b| *b != 0)
    {
        return Err(4);
    }
    out[..size].copy_from_slice(&frame[4..4 + size]);
    Ok(size)
}

const K: [u32; 64] = [
    0x428a2f98, 0x71374491, 0xb5c0fbcf, 0xe9b5dba5, 0x3956c25b, 0x59f111f1, 0x923f82a4, 0xab1c5ed5,
    0xd807aa98, 0x12835b01, 0x243185be, 0x550c7dc3, 0x72be5d74, 0x80deb1fe, 0x9bdc06a7, 0xc19bf174,
    0xe49b69c1, 0xefbe4786, 0x0fc19dc6, 0x240ca1cc, 0x2de92c6f, 0x4a7484aa, 0x5cb0a9dc, 0x76f988da,
    0x983e5152, 0xa831c66d, 0xb00327c8, 0xbf597fc7, 0xc6e00bf3, 0xd5a79147, 0x06ca6351, 0x14292967,
    0x27b70a85, 0x2e1b2138, 0x4d2c6dfc, 0x53380d13, 0x650a7354, 0x766a0abb, 0x81c2c92e, 0x92722c85,
    0xa2bfe8a1, 0xa81a664b, 0xc24b8b70, 0xc76c51a3, 0xd192e819, 0xd6990624, 0xf40e3585, 0x106aa070,
    0x19a4c116, 0x1e376c08, 0x2748774c, 0x34b0bcb5, 0x391c0cb3, 0x4ed8aa4a, 0x5b9cca4f, 0x682e6ff3,
    0x748f82ee, 0x78a5636f, 0x84c87814, 0x8cc70208, 0x90befffa, 0xa4506ceb, 0xbef9a3f7, 0xc67178f2,
];

fn compress(state: &mut [u32; 8], block: &[u8]) {
    let mut w = [0u32; 64];
    for (word, bytes) in w.iter_mut().zip(block.chunks_exact(4)) {
        *word = u32::from_be_bytes([bytes[0], bytes[1], bytes[2], bytes[3]]);
    }
    for t in 16..64 {
        let a = w[t - 15];
        let b = w[t - 2];
        let s0 = a.rotate_right(7) ^ a.rotate_right(18) ^ (a >> 3);
        let s1 = b.rotate_right(17) ^ b.rotate_right(19) ^ (b >> 10);
        w[t] = w[t - 16]
            .wrapping_add(s0)
            .wrapping_add(w[t - 7])
            .wrapping_add(s1);
    }
    let [mut a, mut b, mut c, mut d, mut e, mut f, mut g, mut h] = *state;
    for t in 0..64 {
        let s1 = e.rotate_right(6) ^ e.rotate_right(11) ^ e.rotate_right(25);
        let ch = (e & f) ^ (!e & g);
        let t1 = h
            .wrapping_add(s1)
            .wrapping_add(ch)
            .wrapping_add(K[t])
            .wrapping_add(w[t]);
        let s0 = a.rotate_right(2) ^ a.rotate_right(13) ^ a.rotate_right(22);
        let maj = (a & b) ^ (a & c) ^ (b & c);
        let t2 = s0.wrapping_add(maj);
        h = g;
        g = f;
        f = e;
        e = d.wrapping_add(t1);
        d = c;
        c = b;
        b = a;
        a = t1.wrapping_add(t2);
    }
    for (s, v) in state.iter_mut().zip([a, b, c, d, e, f, g, h]) {
        *s = s.wrapping_add(v);
    }
}

/// SHA-256. What does not fill a block goes through the padding.
pub fn digest(s: &[u8], out: &mut [u8]) -> Answer {
    if out.len() < 32 {
        return Err(2);
    }
    let mut state = [
        0x6a09e667, 0xbb67ae85, 0x3c6ef372, 0xa54ff53a, 0x510e527f, 0x9b05688c, 0x1f83d9ab,
        0x5be0cd19,
    ];
    let mut blocks = s.chunks_exact(64);
    for block in &mut blocks {
        compress(&mut state, block);
    }
    let rest = blocks.remainder();
    let mut last = [0u8; 128];
    last[..rest.len()].copy_from_slice(rest);
    last[rest.len()] = 0x80;
    let end = if rest.len() < 56 { 64 } else { 128 };
    last[end - 8..end].copy_from_slice(&(s.len() as u64 * 8).to_be_bytes());
    for block in last[..end].chunks_exact(64) {
        compress(&mut state, block);
    }
    for (bytes, word) in out.chunks_exact_mut(4).zip(state) {
        bytes.copy_from_slice(&word.to_be_bytes());
    }
    Ok(0)
}

/// Of a piece with its place: version, node and piece are put together first.
pub fn digest_placed(version: &[u8], node: u8, piece: &[u8], out: &mut [u8]) -> Answer {
    if version.len() < 5 || out.len() < 32 {
        return Err(2);
    }
    let mut string = Vec::with_capacity(6 + piece.len());
    string.extend(&version[..5]);
    string.push(node);
    string.extend(piece);
    digest(&string, out)
}

/// How many samples there are.
fn sampled(width: usize, data: &[u8], out: &[u8]) -> Result<usize, u32> {
    if out.len() < data.len() {
        return Err(2);
    }
    if !(1..=8).contains(&width) || !data.len().is_multiple_of(width) {
        return Err(15);
    }
    Ok(data.len() / width)
}

/// Byte p of sample s goes to place p * n + s.
pub fn planes(width: usize, data: &[u8], out: &mut [u8]) -> Answer {
    let n = sampled(width, data, out)?;
    for s in 0..n {
        for p in 0..width {
            out[p * n + s] = data[s * width + p];
        }
    }
    Ok(0)
}

/// The way back.
pub fn samples(width: usize, data: &[u8], out: &mut [u8]) -> Answer {
    let n = sampled(width, data, out)?;
    for s in 0..n {
        for p in 0..width {
            out[s * width + p] = data[p * n + s];
        }
    }
    Ok(0)
}
