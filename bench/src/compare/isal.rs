//! The same pieces by ISA-L, for full pages: it encodes rows of bytes, so that a frame is taken apart into k rows, row r with the bytes
//! r, k + r, 2k + r and so on, and put together from them.

use crate::libraries::Isal;
use crate::plain::powers;
use crate::F;

fn take_apart<const K: usize>(frame: &[u8], rows: &mut [u8]) {
    for (r, row) in rows.chunks_exact_mut(F).enumerate() {
        for (byte, column) in row.iter_mut().zip(frame.chunks_exact(K)) {
            *byte = column[r];
        }
    }
}

fn put_together<const K: usize>(rows: &[u8], frame: &mut [u8]) {
    for (j, column) in frame.chunks_exact_mut(K).enumerate() {
        for (r, byte) in column.iter_mut().enumerate() {
            *byte = rows[r * F + j];
        }
    }
}

/// Rows of the grid: the powers of the nodes' numbers.
fn grid(nodes: impl Iterator<Item = usize>, k: usize) -> Vec<u8> {
    nodes.flat_map(|i| powers(i as u8, k)).collect()
}

fn places(count: usize) -> Vec<usize> {
    (0..count).map(|i| i * F).collect()
}

pub struct Splitter {
    isal: Isal,
    k: usize,
    tables: Vec<u8>,
    frame: Vec<u8>,
    rows: Vec<u8>,
    sources: Vec<usize>,
    targets: Vec<usize>,
}

impl Splitter {
    /// The tables are made once.
    pub fn new(isal: Isal, n: usize, k: usize) -> Self {
        let mut tables = vec![0; 32 * n * k];
        isal.tables(k, &grid(1..=n, k), &mut tables);
        Splitter {
            isal,
            k,
            tables,
            frame: vec![0; k * F],
            rows: vec![0; k * F],
            sources: places(k),
            targets: places(n),
        }
    }

    /// The page's frame, taken apart into rows.
    pub fn lay_out(&mut self, page: &[u8]) {
        assert_eq!(page.len(), self.k * F - 4);
        self.frame[..4].copy_from_slice(&(page.len() as u32).to_be_bytes());
        self.frame[4..].copy_from_slice(page);
        match self.k {
            2 => take_apart::<2>(&self.frame, &mut self.rows),
            4 => take_apart::<4>(&self.frame, &mut self.rows),
            8 => take_apart::<8>(&self.frame, &mut self.rows),
            k => panic!("no loop for k {k}"),
        }
    }

    /// The pieces of the rows, straight into the room.
    pub fn encode(&self, room: &mut [u8]) {
        self.isal.encode(
            F,
            &self.tables,
            &self.rows,
            &self.sources,
            room,
            &self.targets,
        );
    }
}

pub struct Joiner {
    isal: Isal,
    k: usize,
    grid: Vec<u8>,
    used: Vec<u8>,
    inverse: Vec<u8>,
    tables: Vec<u8>,
    frame: Vec<u8>,
    rows: Vec<u8>,
    sources: Vec<usize>,
    targets: Vec<usize>,
}

impl Joiner {
    /// Of the pieces of k nodes.
    pub fn new(isal: Isal, nodes: &[usize]) -> Self {
        let k = nodes.len();
        Joiner {
            isal,
            k,
            grid: grid(nodes.iter().copied(), k),
            used: vec![0; k * k],
            inverse: vec![0; k * k],
            tables: vec![0; 32 * k * k],
            frame: vec![0; k * F],
            rows: vec![0; k * F],
            sources: nodes.iter().map(|i| (i - 1) * F).collect(),
            targets: places(k),
        }
    }

    /// The frame's rows: the grid is inverted, and its tables are made, each time.
    pub fn join(&mut self, room: &[u8]) {
        self.used.copy_from_slice(&self.grid);
        self.isal.invert(self.k, &mut self.used, &mut self.inverse);
        self.isal.tables(self.k, &self.inverse, &mut self.tables);
        self.isal.encode(
            F,
            &self.tables,
            room,
            &self.sources,
            &mut self.rows,
            &self.targets,
        );
    }

    /// The rows, put together, and the page out of them.
    pub fn put(&mut self, out: &mut [u8]) {
        match self.k {
            2 => put_together::<2>(&self.rows, &mut self.frame),
            4 => put_together::<4>(&self.rows, &mut self.frame),
            8 => put_together::<8>(&self.rows, &mut self.frame),
            k => panic!("no loop for k {k}"),
        }
        out.copy_from_slice(&self.frame[4..]);
    }
}
