//! Recordings by byte plane. None of the functions requires anything of its caller but that a slice is one.

use crate::answer::{of_code, Answer};

mod archive {
    extern "C" {
        pub fn recordings_planes(
            width: usize,
            data: *const u8,
            data_len: usize,
            out: *mut u8,
            out_len: usize,
        ) -> u64;
        pub fn recordings_samples(
            width: usize,
            data: *const u8,
            data_len: usize,
            out: *mut u8,
            out_len: usize,
        ) -> u64;
        pub fn recordings_rearrange(
            data: *const u8,
            data_len: usize,
            out: *mut u8,
            out_len: usize,
        ) -> u64;
        pub fn recordings_restore(
            data: *const u8,
            data_len: usize,
            out: *mut u8,
            out_len: usize,
        ) -> u64;
    }
}

/// Of samples of 1 to 8 bytes, all first bytes, then all second, and so on, go to the front of the output; the answer is 0.
pub fn planes(width: usize, data: &[u8], out: &mut [u8]) -> Answer {
    // SAFETY: the pointers and lengths are those of live slices, and the output is lent to this call alone.
    of_code(unsafe {
        archive::recordings_planes(
            width,
            data.as_ptr(),
            data.len(),
            out.as_mut_ptr(),
            out.len(),
        )
    })
}

/// The way back: the samples of these planes go to the front of the output; the answer is 0.
pub fn samples(width: usize, data: &[u8], out: &mut [u8]) -> Answer {
    // SAFETY: as above.
    of_code(unsafe {
        archive::recordings_samples(
            width,
            data.as_ptr(),
            data.len(),
            out.as_mut_ptr(),
            out.len(),
        )
    })
}

/// The planes of a recording with samples of 3 bytes.
pub fn rearrange(data: &[u8], out: &mut [u8]) -> Answer {
    // SAFETY: as above.
    of_code(unsafe {
        archive::recordings_rearrange(data.as_ptr(), data.len(), out.as_mut_ptr(), out.len())
    })
}

/// The recording with samples of 3 bytes that was rearranged.
pub fn restore(data: &[u8], out: &mut [u8]) -> Answer {
    // SAFETY: as above.
    of_code(unsafe {
        archive::recordings_restore(data.as_ptr(), data.len(), out.as_mut_ptr(), out.len())
    })
}
