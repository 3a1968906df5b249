//! The functions of recordings on both sides, with the same bytes, and the archive's way back.

use crate::plain;
use crate::planes;
use jolbizna::{recordings as proved, Answer};

/// Of a width, the data and the output.
pub type Call = fn(usize, &[u8], &mut [u8]) -> Answer;

/// A sample's bytes where no width is handed in.
pub const WIDTH: usize = 3;

/// One of the functions.
pub struct Way {
    pub name: &'static str,
    /// Whether the width is handed in.
    pub wide: bool,
    pub ours: Call,
    theirs: Call,
    /// The archive's function that must give the data again.
    back: Call,
    /// Plain Rust that is timed.
    pub baseline: Call,
}

pub const PLANES: Way = Way {
    name: "planes",
    wide: true,
    ours: proved::planes,
    theirs: planes::planes,
    back: proved::samples,
    baseline: plain::planes,
};

pub const SAMPLES: Way = Way {
    name: "samples",
    wide: true,
    ours: proved::samples,
    theirs: planes::samples,
    back: proved::planes,
    baseline: plain::samples,
};

pub const REARRANGE: Way = Way {
    name: "rearrange",
    wide: false,
    ours: |_, data, out| proved::rearrange(data, out),
    back: |_, data, out| proved::restore(data, out),
    ..PLANES
};

pub const RESTORE: Way = Way {
    name: "restore",
    wide: false,
    ours: |_, data, out| proved::restore(data, out),
    back: |_, data, out| proved::rearrange(data, out),
    ..SAMPLES
};

/// Bytes before and behind the output, which are not lent; an odd number, so that the output stands at no even address.
const MARGIN: [u8; 13] = [7; 13];

impl Way {
    /// Calls both sides with the same bytes, and hands back the output and the answer.
    pub fn same(&self, width: usize, data: &[u8], out: &[u8]) -> (Vec<u8>, Answer) {
        let detail = format!("{} {width} {}", self.name, data.len());
        let mut ours = [&MARGIN[..], out, &MARGIN].concat();
        let (mut theirs, our_data) = (ours.clone(), data.to_vec());
        let lent = MARGIN.len()..MARGIN.len() + out.len();
        let answer = (self.ours)(width, &our_data, &mut ours[lent.clone()]);
        let other = (self.theirs)(width, data, &mut theirs[lent.clone()]);
        assert_eq!(answer, other, "{detail}");
        assert!(ours == theirs, "{detail}: the outputs differ");
        assert!(our_data == data, "{detail}: the data changed");
        (ours[lent].to_vec(), answer)
    }

    /// The archive's way back from what was written gives the data.
    pub fn same_back(&self, width: usize, data: &[u8], written: &[u8]) {
        // At first every byte is another.
        let mut out: Vec<u8> = data.iter().map(|byte| !byte).collect();
        let answer = (self.back)(width, written, &mut out);
        assert!(
            answer == Ok(0) && out == data,
            "{} {width} {}: not the way back",
            self.name,
            data.len()
        );
    }
}
