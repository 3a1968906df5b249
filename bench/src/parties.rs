//! Directory, data node and client, each over a table or record in lent memory. None requires anything of its caller but that a slice is one.

use crate::answer::{of_code, of_numbers, Answer, ClientAnswer};
use crate::measures::Measures;

mod archive {
    extern "C" {
        pub fn directory_fresh(
            m: usize,
            n: usize,
            k: usize,
            t: usize,
            f: usize,
            table: *mut u8,
            table_len: usize,
        ) -> u64;
        pub fn directory_update(
            m: usize,
            n: usize,
            k: usize,
            t: usize,
            f: usize,
            own: usize,
            table: *mut u8,
            table_len: usize,
            fields: *const u8,
            fields_len: usize,
        ) -> u64;
        pub fn directory_scan(
            m: usize,
            n: usize,
            k: usize,
            t: usize,
            f: usize,
            table: *const u8,
            table_len: usize,
            room: *mut u8,
            room_len: usize,
        ) -> u64;
        pub fn node_fresh(
            m: usize,
            n: usize,
            k: usize,
            t: usize,
            f: usize,
            table: *mut u8,
            table_len: usize,
        ) -> u64;
        pub fn node_message(
            m: usize,
            n: usize,
            k: usize,
            t: usize,
            f: usize,
            i: usize,
            table: *mut u8,
            table_len: usize,
            message: *const u8,
            message_len: usize,
            room: *mut u8,
            room_len: usize,
        ) -> u64;
        pub fn client_fresh(
            m: usize,
            n: usize,
            k: usize,
            t: usize,
            f: usize,
            record: *mut u8,
            record_len: usize,
            answer: *mut u64,
        );
        pub fn client_deposit(
            m: usize,
            n: usize,
            k: usize,
            t: usize,
            f: usize,
            own: usize,
            record: *mut u8,
            record_len: usize,
            page: *const u8,
            page_len: usize,
            answer: *mut u64,
        );
        pub fn client_read(
            m: usize,
            n: usize,
            k: usize,
            t: usize,
            f: usize,
            own: usize,
            record: *mut u8,
            record_len: usize,
            room: *mut u8,
            room_len: usize,
            answer: *mut u64,
        );
        pub fn client_updated(
            m: usize,
            n: usize,
            k: usize,
            t: usize,
            f: usize,
            own: usize,
            record: *mut u8,
            record_len: usize,
            room: *mut u8,
            room_len: usize,
            answer: *mut u64,
        );
        pub fn client_scanned(
            m: usize,
            n: usize,
            k: usize,
            t: usize,
            f: usize,
            own: usize,
            record: *mut u8,
            record_len: usize,
            rows: *const u8,
            rows_len: usize,
            room: *mut u8,
            room_len: usize,
            answer: *mut u64,
        );
        pub fn client_receive(
            m: usize,
            n: usize,
            k: usize,
            t: usize,
            f: usize,
            own: usize,
            node: usize,
            record: *mut u8,
            record_len: usize,
            message: *const u8,
            message_len: usize,
            room: *mut u8,
            room_len: usize,
            out: *mut u8,
            out_len: usize,
            answer: *mut u64,
        );
    }
}

/// Pointers none, indices 0.
pub fn directory_fresh(s: Measures, table: &mut [u8]) -> Answer {
    // SAFETY: the pointers and lengths are those of live slices, and the table is lent to this call alone.
    of_code(unsafe {
        archive::directory_fresh(s.m, s.n, s.k, s.t, s.f, table.as_mut_ptr(), table.len())
    })
}

/// A record of changed fields is put into the row of client `own`. A record with a bad bit map is refused 4, one of a wrong length 11, and
/// one with a pointer that breaks its rule 12. A pointer of another client than its row's, in the record or in the table, is refused 14.
pub fn directory_update(s: Measures, own: usize, table: &mut [u8], fields: &[u8]) -> Answer {
    // SAFETY: as above, for the table.
    of_code(unsafe {
        archive::directory_update(
            s.m,
            s.n,
            s.k,
            s.t,
            s.f,
            own,
            table.as_mut_ptr(),
            table.len(),
            fields.as_ptr(),
            fields.len(),
        )
    })
}

/// All rows go to the room. A pointer of another client than its row's is refused 14.
pub fn directory_scan(s: Measures, table: &[u8], room: &mut [u8]) -> Answer {
    // SAFETY: as above, for the room.
    of_code(unsafe {
        archive::directory_scan(
            s.m,
            s.n,
            s.k,
            s.t,
            s.f,
            table.as_ptr(),
            table.len(),
            room.as_mut_ptr(),
            room.len(),
        )
    })
}

/// A table that holds nothing.
pub fn node_fresh(s: Measures, table: &mut [u8]) -> Answer {
    // SAFETY: as above, for the table.
    of_code(unsafe {
        archive::node_fresh(s.m, s.n, s.k, s.t, s.f, table.as_mut_ptr(), table.len())
    })
}

/// A message to node i; its answer goes to the room.
pub fn node_message(
    s: Measures,
    i: usize,
    table: &mut [u8],
    message: &[u8],
    room: &mut [u8],
) -> Answer {
    // SAFETY: as above, for the table and the room.
    of_code(unsafe {
        archive::node_message(
            s.m,
            s.n,
            s.k,
            s.t,
            s.f,
            i,
            table.as_mut_ptr(),
            table.len(),
            message.as_ptr(),
            message.len(),
            room.as_mut_ptr(),
            room.len(),
        )
    })
}

/// An idle record.
pub fn client_fresh(s: Measures, record: &mut [u8]) -> ClientAnswer {
    // SAFETY: as above, for the record and the numbers.
    of_numbers(|answer| unsafe {
        archive::client_fresh(
            s.m,
            s.n,
            s.k,
            s.t,
            s.f,
            record.as_mut_ptr(),
            record.len(),
            answer,
        )
    })
}

/// A deposit starts at client `own`.
pub fn client_deposit(s: Measures, own: usize, record: &mut [u8], page: &[u8]) -> ClientAnswer {
    // SAFETY: as above, for the record and the numbers.
    of_numbers(|answer| unsafe {
        archive::client_deposit(
            s.m,
            s.n,
            s.k,
            s.t,
            s.f,
            own,
            record.as_mut_ptr(),
            record.len(),
            page.as_ptr(),
            page.len(),
            answer,
        )
    })
}

/// A reading starts.
pub fn client_read(s: Measures, own: usize, record: &mut [u8], room: &mut [u8]) -> ClientAnswer {
    // SAFETY: as above, for the record, the room and the numbers.
    of_numbers(|answer| unsafe {
        archive::client_read(
            s.m,
            s.n,
            s.k,
            s.t,
            s.f,
            own,
            record.as_mut_ptr(),
            record.len(),
            room.as_mut_ptr(),
            room.len(),
            answer,
        )
    })
}

/// The directory has carried out the update.
pub fn client_updated(s: Measures, own: usize, record: &mut [u8], room: &mut [u8]) -> ClientAnswer {
    // SAFETY: as above, for the record, the room and the numbers.
    of_numbers(|answer| unsafe {
        archive::client_updated(
            s.m,
            s.n,
            s.k,
            s.t,
            s.f,
            own,
            record.as_mut_ptr(),
            record.len(),
            room.as_mut_ptr(),
            room.len(),
            answer,
        )
    })
}

/// The directory's rows. A pointer of another client than its row's is refused 14, and rows are still awaited if they were.
pub fn client_scanned(
    s: Measures,
    own: usize,
    record: &mut [u8],
    rows: &[u8],
    room: &mut [u8],
) -> ClientAnswer {
    // SAFETY: as above, for the record, the room and the numbers.
    of_numbers(|answer| unsafe {
        archive::client_scanned(
            s.m,
            s.n,
            s.k,
            s.t,
            s.f,
            own,
            record.as_mut_ptr(),
            record.len(),
            rows.as_ptr(),
            rows.len(),
            room.as_mut_ptr(),
            room.len(),
            answer,
        )
    })
}

/// A node's message.
pub fn client_receive(
    s: Measures,
    own: usize,
    node: usize,
    record: &mut [u8],
    message: &[u8],
    room: &mut [u8],
    out: &mut [u8],
) -> ClientAnswer {
    // SAFETY: as above, for the record, the room, the output and the numbers.
    of_numbers(|answer| unsafe {
        archive::client_receive(
            s.m,
            s.n,
            s.k,
            s.t,
            s.f,
            own,
            node,
            record.as_mut_ptr(),
            record.len(),
            message.as_ptr(),
            message.len(),
            room.as_mut_ptr(),
            room.len(),
            out.as_mut_ptr(),
            out.len(),
            answer,
        )
    })
}
