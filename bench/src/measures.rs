//! The measures, and the lengths of lent slices that follow from them.

/// m clients, n nodes; any k pieces make a page, t nodes may lie, and the longest piece has f bytes.
#[derive(Clone, Copy, Debug, PartialEq)]
pub struct Measures {
    pub m: usize,
    pub n: usize,
    pub k: usize,
    pub t: usize,
    pub f: usize,
}

/// Sequence and client; pairs are ordered as versions are.
pub type Version = (u32, u8);

impl Measures {
    /// In the order of `config`.
    pub fn new(m: usize, n: usize, k: usize, t: usize, f: usize) -> Self {
        Measures { m, n, k, t, f }
    }
}

/// Lengths in bytes, of measures that pass.
impl Measures {
    /// The longest page.
    pub fn page(self) -> usize {
        self.k * self.f - 4
    }

    /// The longest pointer.
    pub fn pointer(self) -> usize {
        7 + 32 * (self.t + self.k)
    }

    pub fn row(self) -> usize {
        1 + (self.m + 1) * self.pointer() + 4 * self.m + 4
    }

    pub fn directory(self) -> usize {
        self.m * self.row()
    }

    /// How many pieces a node holds at most.
    pub fn places(self) -> usize {
        2 * self.m * self.m
    }

    pub fn place(self) -> usize {
        7 + self.f
    }

    pub fn table(self) -> usize {
        2 + self.places() * self.place()
    }

    /// The longest answer of a node: tag, version, 1 and a piece.
    pub fn answer(self) -> usize {
        7 + self.f
    }

    /// What an open operation keeps.
    pub fn work(self) -> usize {
        self.pointer() + 4 + self.n * (34 + self.f)
    }

    /// A client's record.
    pub fn record(self) -> usize {
        5 + (self.m + 1) * self.pointer() + 9 * self.m + self.work()
    }

    /// What an event at a client sends.
    pub fn room(self) -> usize {
        self.row() + 6 + self.n * self.f
    }

    /// The title service's: directory, n tables, m records.
    pub fn memory(self) -> usize {
        self.directory() + self.n * self.table() + self.m * self.record()
    }
}
