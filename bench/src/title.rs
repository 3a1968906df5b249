//! The title service: one page's tables and client records in one lent memory, and each event handed to its party.

use crate::answer::{of_code, of_numbers, Answer, ClientAnswer};
use crate::measures::Measures;

mod archive {
    extern "C" {
        pub fn title_fresh(
            m: usize,
            n: usize,
            k: usize,
            t: usize,
            f: usize,
            memory: *mut u8,
            memory_len: usize,
        ) -> u64;
        pub fn title_deposit(
            m: usize,
            n: usize,
            k: usize,
            t: usize,
            f: usize,
            c: usize,
            memory: *mut u8,
            memory_len: usize,
            page: *const u8,
            page_len: usize,
            answer: *mut u64,
        );
        pub fn title_read(
            m: usize,
            n: usize,
            k: usize,
            t: usize,
            f: usize,
            c: usize,
            memory: *mut u8,
            memory_len: usize,
            room: *mut u8,
            room_len: usize,
            answer: *mut u64,
        );
        pub fn title_updated(
            m: usize,
            n: usize,
            k: usize,
            t: usize,
            f: usize,
            c: usize,
            memory: *mut u8,
            memory_len: usize,
            room: *mut u8,
            room_len: usize,
            answer: *mut u64,
        );
        pub fn title_scanned(
            m: usize,
            n: usize,
            k: usize,
            t: usize,
            f: usize,
            c: usize,
            memory: *mut u8,
            memory_len: usize,
            rows: *const u8,
            rows_len: usize,
            room: *mut u8,
            room_len: usize,
            answer: *mut u64,
        );
        pub fn title_to_client(
            m: usize,
            n: usize,
            k: usize,
            t: usize,
            f: usize,
            c: usize,
            i: usize,
            memory: *mut u8,
            memory_len: usize,
            message: *const u8,
            message_len: usize,
            room: *mut u8,
            room_len: usize,
            out: *mut u8,
            out_len: usize,
            answer: *mut u64,
        );
        pub fn title_update(
            m: usize,
            n: usize,
            k: usize,
            t: usize,
            f: usize,
            c: usize,
            memory: *mut u8,
            memory_len: usize,
            fields: *const u8,
            fields_len: usize,
        ) -> u64;
        pub fn title_scan(
            m: usize,
            n: usize,
            k: usize,
            t: usize,
            f: usize,
            memory: *const u8,
            memory_len: usize,
            room: *mut u8,
            room_len: usize,
        ) -> u64;
        pub fn title_to_node(
            m: usize,
            n: usize,
            k: usize,
            t: usize,
            f: usize,
            i: usize,
            memory: *mut u8,
            memory_len: usize,
            message: *const u8,
            message_len: usize,
            room: *mut u8,
            room_len: usize,
        ) -> u64;
    }
}

/// Fresh tables and records.
pub fn fresh(s: Measures, memory: &mut [u8]) -> Answer {
    // SAFETY: the pointers and lengths are those of live slices, and the memory is lent to this call alone.
    of_code(unsafe {
        archive::title_fresh(s.m, s.n, s.k, s.t, s.f, memory.as_mut_ptr(), memory.len())
    })
}

/// A deposit starts at client c.
pub fn deposit(s: Measures, c: usize, memory: &mut [u8], page: &[u8]) -> ClientAnswer {
    // SAFETY: as above, for the memory and the numbers.
    of_numbers(|answer| unsafe {
        archive::title_deposit(
            s.m,
            s.n,
            s.k,
            s.t,
            s.f,
            c,
            memory.as_mut_ptr(),
            memory.len(),
            page.as_ptr(),
            page.len(),
            answer,
        )
    })
}

/// A reading starts at client c.
pub fn read(s: Measures, c: usize, memory: &mut [u8], room: &mut [u8]) -> ClientAnswer {
    // SAFETY: as above, for the memory, the room and the numbers.
    of_numbers(|answer| unsafe {
        archive::title_read(
            s.m,
            s.n,
            s.k,
            s.t,
            s.f,
            c,
            memory.as_mut_ptr(),
            memory.len(),
            room.as_mut_ptr(),
            room.len(),
            answer,
        )
    })
}

/// The directory's acknowledgement is handed to client c.
pub fn updated(s: Measures, c: usize, memory: &mut [u8], room: &mut [u8]) -> ClientAnswer {
    // SAFETY: as above, for the memory, the room and the numbers.
    of_numbers(|answer| unsafe {
        archive::title_updated(
            s.m,
            s.n,
            s.k,
            s.t,
            s.f,
            c,
            memory.as_mut_ptr(),
            memory.len(),
            room.as_mut_ptr(),
            room.len(),
            answer,
        )
    })
}

/// The rows of its scan are handed to client c. A pointer of another client than its row's is refused 14, and rows are still awaited if
/// they were.
pub fn scanned(
    s: Measures,
    c: usize,
    memory: &mut [u8],
    rows: &[u8],
    room: &mut [u8],
) -> ClientAnswer {
    // SAFETY: as above, for the memory, the room and the numbers.
    of_numbers(|answer| unsafe {
        archive::title_scanned(
            s.m,
            s.n,
            s.k,
            s.t,
            s.f,
            c,
            memory.as_mut_ptr(),
            memory.len(),
            rows.as_ptr(),
            rows.len(),
            room.as_mut_ptr(),
            room.len(),
            answer,
        )
    })
}

/// A message from node i is handed to client c.
pub fn to_client(
    s: Measures,
    c: usize,
    i: usize,
    memory: &mut [u8],
    message: &[u8],
    room: &mut [u8],
    out: &mut [u8],
) -> ClientAnswer {
    // SAFETY: as above, for the memory, the room, the output and the numbers.
    of_numbers(|answer| unsafe {
        archive::title_to_client(
            s.m,
            s.n,
            s.k,
            s.t,
            s.f,
            c,
            i,
            memory.as_mut_ptr(),
            memory.len(),
            message.as_ptr(),
            message.len(),
            room.as_mut_ptr(),
            room.len(),
            out.as_mut_ptr(),
            out.len(),
            answer,
        )
    })
}

/// Client c's update is carried out at the directory. A record with a bad bit map is refused 4, one of a wrong length 11, and one with a
/// pointer that breaks its rule 12. A pointer of another client than its row's, in the record or in the directory, is refused 14.
pub fn update(s: Measures, c: usize, memory: &mut [u8], fields: &[u8]) -> Answer {
    // SAFETY: as above, for the memory.
    of_code(unsafe {
        archive::title_update(
            s.m,
            s.n,
            s.k,
            s.t,
            s.f,
            c,
            memory.as_mut_ptr(),
            memory.len(),
            fields.as_ptr(),
            fields.len(),
        )
    })
}

/// A scan of the directory; the rows go to the room. A pointer of another client than its row's is refused 14.
pub fn scan(s: Measures, memory: &[u8], room: &mut [u8]) -> Answer {
    // SAFETY: as above, for the room.
    of_code(unsafe {
        archive::title_scan(
            s.m,
            s.n,
            s.k,
            s.t,
            s.f,
            memory.as_ptr(),
            memory.len(),
            room.as_mut_ptr(),
            room.len(),
        )
    })
}

/// A message is handed to node i; its answer goes to the room.
pub fn to_node(
    s: Measures,
    i: usize,
    memory: &mut [u8],
    message: &[u8],
    room: &mut [u8],
) -> Answer {
    // SAFETY: as above, for the memory and the room.
    of_code(unsafe {
        archive::title_to_node(
            s.m,
            s.n,
            s.k,
            s.t,
            s.f,
            i,
            memory.as_mut_ptr(),
            memory.len(),
            message.as_ptr(),
            message.len(),
            room.as_mut_ptr(),
            room.len(),
        )
    })
}
