//! The parties behind one trait, so that the same calls and runs are made with plain Rust, with the proved archives, or with a party that
//! does something else.

use crate::client;
use crate::parties;
use jolbizna::{Answer, ClientAnswer, Measures};

/// Directory, nodes and clients. What is not said otherwise is plain Rust.
pub trait Parties {
    fn directory_fresh(&mut self, s: Measures, table: &mut [u8]) -> Answer {
        parties::directory_fresh(s, table)
    }

    fn directory_update(
        &mut self,
        s: Measures,
        own: usize,
        table: &mut [u8],
        fields: &[u8],
    ) -> Answer {
        parties::directory_update(s, own, table, fields)
    }

    fn directory_scan(&mut self, s: Measures, table: &[u8], room: &mut [u8]) -> Answer {
        parties::directory_scan(s, table, room)
    }

    fn node_fresh(&mut self, s: Measures, table: &mut [u8]) -> Answer {
        parties::node_fresh(s, table)
    }

    fn node_message(
        &mut self,
        s: Measures,
        i: usize,
        table: &mut [u8],
        message: &[u8],
        room: &mut [u8],
    ) -> Answer {
        parties::node_message(s, i, table, message, room)
    }

    fn fresh(&mut self, s: Measures, record: &mut [u8]) -> ClientAnswer {
        client::fresh(s, record)
    }

    fn deposit(&mut self, s: Measures, own: usize, record: &mut [u8], page: &[u8]) -> ClientAnswer {
        client::deposit(s, own, record, page)
    }

    fn read(
        &mut self,
        s: Measures,
        own: usize,
        record: &mut [u8],
        room: &mut [u8],
    ) -> ClientAnswer {
        client::read(s, own, record, room)
    }

    fn updated(
        &mut self,
        s: Measures,
        own: usize,
        record: &mut [u8],
        room: &mut [u8],
    ) -> ClientAnswer {
        client::updated(s, own, record, room)
    }

    fn scanned(
        &mut self,
        s: Measures,
        own: usize,
        record: &mut [u8],
        rows: &[u8],
        room: &mut [u8],
    ) -> ClientAnswer {
        client::scanned(s, own, record, rows, room)
    }

    #[allow(clippy::too_many_arguments)]
    fn receive(
        &mut self,
        s: Measures,
        own: usize,
        node: usize,
        record: &mut [u8],
        message: &[u8],
        room: &mut [u8],
        out: &mut [u8],
    ) -> ClientAnswer {
        client::receive(s, own, node, record, message, room, out)
    }

    /// What the client of the last event sends to every node beside what its answer says: nothing, unless it is a wrong one.
    fn aside(&mut self) -> Option<Vec<u8>> {
        None
    }
}

pub struct Plain;

impl Parties for Plain {}
