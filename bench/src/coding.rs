//! Pieces and digests. None of the functions requires anything of its caller but that a slice is one.

use crate::answer::{of_code, Answer};

mod archive {
    extern "C" {
        pub fn coding_split(
            n: usize,
            k: usize,
            f: usize,
            page: *const u8,
            page_len: usize,
            room: *mut u8,
            room_len: usize,
        ) -> u64;
        pub fn coding_cut(
            n: usize,
            k: usize,
            f: usize,
            i: usize,
            page: *const u8,
            page_len: usize,
            room: *mut u8,
            room_len: usize,
        ) -> u64;
        pub fn coding_join(
            n: usize,
            k: usize,
            f: usize,
            present: u16,
            room: *const u8,
            room_len: usize,
            lens: *const u16,
            lens_len: usize,
            out: *mut u8,
            out_len: usize,
        ) -> u64;
        pub fn coding_digest(s: *const u8, s_len: usize, out: *mut u8, out_len: usize) -> u64;
        pub fn coding_digest_placed(
            version: *const u8,
            version_len: usize,
            node: u8,
            piece: *const u8,
            piece_len: usize,
            out: *mut u8,
            out_len: usize,
        ) -> u64;
    }
}

/// Piece i of the page goes to the front of the room's i-th area of f bytes; the answer is the pieces' length.
pub fn split(n: usize, k: usize, f: usize, page: &[u8], room: &mut [u8]) -> Answer {
    // SAFETY: the pointers and lengths are those of live slices, and the room is lent to this call alone.
    of_code(unsafe {
        archive::coding_split(
            n,
            k,
            f,
            page.as_ptr(),
            page.len(),
            room.as_mut_ptr(),
            room.len(),
        )
    })
}

/// Piece i of the page alone, as in the whole split, goes to the front of a room of f bytes; the answer is its length.
pub fn cut(n: usize, k: usize, f: usize, i: usize, page: &[u8], room: &mut [u8]) -> Answer {
    // SAFETY: as above.
    of_code(unsafe {
        archive::coding_cut(
            n,
            k,
            f,
            i,
            page.as_ptr(),
            page.len(),
            room.as_mut_ptr(),
            room.len(),
        )
    })
}

/// The page of the k lowest pieces that the bit map names goes to the front of the output; the answer is its length.
pub fn join(
    n: usize,
    k: usize,
    f: usize,
    present: u16,
    room: &[u8],
    lens: &[u16],
    out: &mut [u8],
) -> Answer {
    // SAFETY: as above, for the output.
    of_code(unsafe {
        archive::coding_join(
            n,
            k,
            f,
            present,
            room.as_ptr(),
            room.len(),
            lens.as_ptr(),
            lens.len(),
            out.as_mut_ptr(),
            out.len(),
        )
    })
}

/// SHA-256, 32 bytes at the front of the output.
pub fn digest(s: &[u8], out: &mut [u8]) -> Answer {
    // SAFETY: as above, for the output.
    of_code(unsafe { archive::coding_digest(s.as_ptr(), s.len(), out.as_mut_ptr(), out.len()) })
}

/// The digest of a piece with its place, at the front of the output: SHA-256 of the version's first 5 bytes, the node's number and the
/// piece.
pub fn digest_placed(version: &[u8], node: u8, piece: &[u8], out: &mut [u8]) -> Answer {
    // SAFETY: as above, for the output.
    of_code(unsafe {
        archive::coding_digest_placed(
            version.as_ptr(),
            version.len(),
            node,
            piece.as_ptr(),
            piece.len(),
            out.as_mut_ptr(),
            out.len(),
        )
    })
}
