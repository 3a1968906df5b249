//! The archive of directory, node and client as parties.

use crate::sides::Parties;
use jolbizna::{parties, Answer, ClientAnswer, Measures};

pub struct Proved;

impl Parties for Proved {
    fn directory_fresh(&mut self, s: Measures, table: &mut [u8]) -> Answer {
        parties::directory_fresh(s, table)
    }

    fn directory_update(
        &mut self,
        s: Measures,
        own: usize,
        table: &mut [u8],
        fields: &[u8],
    ) -> Answer {
        parties::directory_update(s, own, table, fields)
    }

    fn directory_scan(&mut self, s: Measures, table: &[u8], room: &mut [u8]) -> Answer {
        parties::directory_scan(s, table, room)
    }

    fn node_fresh(&mut self, s: Measures, table: &mut [u8]) -> Answer {
        parties::node_fresh(s, table)
    }

    fn node_message(
        &mut self,
        s: Measures,
        i: usize,
        table: &mut [u8],
        message: &[u8],
        room: &mut [u8],
    ) -> Answer {
        parties::node_message(s, i, table, message, room)
    }

    fn fresh(&mut self, s: Measures, record: &mut [u8]) -> ClientAnswer {
        parties::client_fresh(s, record)
    }

    fn deposit(&mut self, s: Measures, own: usize, record: &mut [u8], page: &[u8]) -> ClientAnswer {
        parties::client_deposit(s, own, record, page)
    }

    fn read(
        &mut self,
        s: Measures,
        own: usize,
        record: &mut [u8],
        room: &mut [u8],
    ) -> ClientAnswer {
        parties::client_read(s, own, record, room)
    }

    fn updated(
        &mut self,
        s: Measures,
        own: usize,
        record: &mut [u8],
        room: &mut [u8],
    ) -> ClientAnswer {
        parties::client_updated(s, own, record, room)
    }

    fn scanned(
        &mut self,
        s: Measures,
        own: usize,
        record: &mut [u8],
        rows: &[u8],
        room: &mut [u8],
    ) -> ClientAnswer {
        parties::client_scanned(s, own, record, rows, room)
    }

    fn receive(
        &mut self,
        s: Measures,
        own: usize,
        node: usize,
        record: &mut [u8],
        message: &[u8],
        room: &mut [u8],
        out: &mut [u8],
    ) -> ClientAnswer {
        parties::client_receive(s, own, node, record, message, room, out)
    }
}
