//! Parties that do something else than documents 01 and 02 say. Each must be caught by the clauses of random runs; those that take
//! digests in another way, by random calls.

use crate::client::{read_message, Client, Message, Step};
use crate::client_calls;
use crate::digests::{alone, no_node, no_version, node_first, place, placed, Taken};
use crate::parties::{pass, put_version, read_rows, write_rows, Bytes, Pointer, Record, NONE};
use crate::random::Numbers;
use crate::runs::{run, Counts, Fault};
use crate::sides::{Parties, Plain};
use jolbizna::{Answer, ClientAnswer, Measures, Version};
use std::collections::{BTreeMap, BTreeSet};

/// The record's values, where there are any.
fn shown(s: Measures, record: &[u8]) -> Option<Client> {
    (pass(s) && record.len() >= s.record()).then(|| Client::read(s, record))?
}

/// Rows of a scan, altered.
fn altered(s: Measures, rows: &[u8], change: impl Fn(usize, &mut Record)) -> Vec<u8> {
    let mut out = rows.to_vec();
    if rows.len() < s.directory() {
        return out;
    }
    if let Some(mut values) = read_rows(s, rows) {
        for (p, row) in values.iter_mut().enumerate() {
            change(p, row);
        }
        write_rows(s, &values, &mut out);
    }
    out
}

/// A list to drop.
fn freeing(list: BTreeSet<Version>) -> Vec<u8> {
    let mut message = vec![3];
    for version in list {
        put_version(&mut message, version);
    }
    message
}

/// The previous version is freed when the update is acknowledged, before the second scan.
#[derive(Default)]
struct FreesEarly(Option<Vec<u8>>);

impl Parties for FreesEarly {
    fn updated(
        &mut self,
        s: Measures,
        own: usize,
        record: &mut [u8],
        room: &mut [u8],
    ) -> ClientAnswer {
        let before = shown(s, record);
        let answer = Plain.updated(s, own, record, room);
        if let (ClientAnswer::Scan, Some(client)) = (answer, before) {
            if let Step::Updating(_) = client.step {
                let mut list = BTreeSet::from([client.written.version]);
                for version in client.frozen.iter().map(|p| p.version) {
                    list.remove(&version);
                }
                for version in client.reserved.iter().chain([&NONE]) {
                    list.remove(version);
                }
                self.0 = Some(freeing(list));
            }
        }
        answer
    }

    fn aside(&mut self) -> Option<Vec<u8>> {
        self.0.take()
    }
}

/// A reading takes the written pointer of each row, whatever is frozen for it.
struct SkipsFrozen;

impl Parties for SkipsFrozen {
    fn scanned(
        &mut self,
        s: Measures,
        own: usize,
        record: &mut [u8],
        rows: &[u8],
        room: &mut [u8],
    ) -> ClientAnswer {
        let rows = match shown(s, record).map(|client| client.step) {
            Some(Step::Picking) => altered(s, rows, |_, row| {
                if let Some(index) = row.frozen_indices.iter_mut().flatten().nth(own) {
                    *index = 0;
                }
            }),
            _ => rows.to_vec(),
        };
        Plain.scanned(s, own, record, &rows, room)
    }
}

/// A second acknowledgement of one node stands for another node's.
struct CountsTwice;

impl Parties for CountsTwice {
    fn receive(
        &mut self,
        s: Measures,
        own: usize,
        node: usize,
        record: &mut [u8],
        message: &[u8],
        room: &mut [u8],
        out: &mut [u8],
    ) -> ClientAnswer {
        let mut node = node;
        if let (Some(client), Some(Message::Stored(of))) =
            (shown(s, record), read_message(s, message))
        {
            match client.step {
                Step::Storing {
                    version, stored, ..
                } if of == version && stored.contains(&node) => {
                    node = (1..=s.n).find(|i| !stored.contains(i)).unwrap_or(node);
                }
                _ => {}
            }
        }
        Plain.receive(s, own, node, record, message, room, out)
    }
}

/// The list to drop is always empty.
struct NeverDrops;

impl Parties for NeverDrops {
    fn scanned(
        &mut self,
        s: Measures,
        own: usize,
        record: &mut [u8],
        rows: &[u8],
        room: &mut [u8],
    ) -> ClientAnswer {
        match Plain.scanned(s, own, record, rows, room) {
            ClientAnswer::Deposited(version, _) => ClientAnswer::Deposited(version, 1),
            answer => answer,
        }
    }
}

/// The first deposit of a client is right; after it nothing is dropped.
struct RightOnce;

impl Parties for RightOnce {
    fn scanned(
        &mut self,
        s: Measures,
        own: usize,
        record: &mut [u8],
        rows: &[u8],
        room: &mut [u8],
    ) -> ClientAnswer {
        let first = shown(s, record).is_none_or(|client| client.written.version == NONE);
        match Plain.scanned(s, own, record, rows, room) {
            ClientAnswer::Deposited(version, _) if !first => ClientAnswer::Deposited(version, 1),
            answer => answer,
        }
    }
}

/// The last version of a list to drop stands there twice.
struct ListsTwice;

impl Parties for ListsTwice {
    fn scanned(
        &mut self,
        s: Measures,
        own: usize,
        record: &mut [u8],
        rows: &[u8],
        room: &mut [u8],
    ) -> ClientAnswer {
        match Plain.scanned(s, own, record, rows, room) {
            ClientAnswer::Deposited(version, len @ 6..) => {
                room.copy_within(len - 5..len, len);
                ClientAnswer::Deposited(version, len + 5)
            }
            answer => answer,
        }
    }
}

/// A deposit freezes for the readings that its first scan shows, and its own update publishes that; later readings wait for the next deposit.
#[derive(Default)]
struct PublishesAtOnce {
    /// The reading indices of the first scan, by client.
    indices: BTreeMap<usize, Vec<u32>>,
    /// What the freeze set free.
    free: BTreeMap<usize, BTreeSet<Version>>,
}

impl PublishesAtOnce {
    fn freeze(&mut self, own: usize, client: &mut Client, written: &Pointer) {
        let free = self.free.entry(own).or_default();
        let indices = self.indices.get(&own).into_iter().flatten();
        for (p, index) in indices.enumerate().take(client.kept.len()) {
            if p != own && *index > client.kept[p] {
                free.extend([client.frozen[p].version, client.reserved[p]]);
                client.frozen[p] = written.clone();
                client.reserved[p] = client.written.version;
                client.kept[p] = *index;
            }
        }
    }

    /// The list, with what the freeze set free before.
    fn list(&mut self, own: usize, client: &Client, listed: &[u8]) -> Vec<u8> {
        let mut list = self.free.remove(&own).unwrap_or_default();
        let mut b = Bytes(listed);
        list.extend(std::iter::from_fn(|| b.version()));
        list.retain(|v| {
            *v != NONE
                && !client.reserved.contains(v)
                && client.frozen.iter().all(|p| p.version != *v)
        });
        freeing(list)
    }
}

impl Parties for PublishesAtOnce {
    fn scanned(
        &mut self,
        s: Measures,
        own: usize,
        record: &mut [u8],
        rows: &[u8],
        room: &mut [u8],
    ) -> ClientAnswer {
        let rows = match shown(s, record).map(|client| client.step) {
            Some(Step::Freezing(_)) => altered(s, rows, |_, row| row.reading = Some(0)),
            _ => rows.to_vec(),
        };
        let answer = Plain.scanned(s, own, record, &rows, room);
        match (answer, shown(s, record)) {
            (ClientAnswer::Stores(..), _) => {
                let rows = read_rows(s, &rows).into_iter().flatten();
                let indices = rows.map(|row| row.reading.unwrap_or(0)).collect();
                self.indices.insert(own, indices);
                self.free.remove(&own);
                answer
            }
            (ClientAnswer::Deposited(version, len), Some(client)) => {
                let message = self.list(own, &client, &room[1..len]);
                room[..message.len()].copy_from_slice(&message);
                ClientAnswer::Deposited(version, message.len())
            }
            _ => answer,
        }
    }

    fn receive(
        &mut self,
        s: Measures,
        own: usize,
        node: usize,
        record: &mut [u8],
        message: &[u8],
        room: &mut [u8],
        out: &mut [u8],
    ) -> ClientAnswer {
        let answer = Plain.receive(s, own, node, record, message, room, out);
        let (ClientAnswer::Update(_), Some(mut client)) = (answer, shown(s, record)) else {
            return answer;
        };
        let Step::Updating(pointer) = client.step.clone() else {
            return answer;
        };
        self.freeze(own, &mut client, &pointer);
        client.write(s, record);
        let fields = Record {
            written: Some(pointer),
            frozen: Some(client.frozen),
            frozen_indices: Some(client.kept),
            reading: None,
        };
        let bytes = fields.write();
        room[..bytes.len()].copy_from_slice(&bytes);
        ClientAnswer::Update(bytes.len())
    }
}

/// Nothing is kept as reserved.
struct ReservesNothing;

impl Parties for ReservesNothing {
    fn scanned(
        &mut self,
        s: Measures,
        own: usize,
        record: &mut [u8],
        rows: &[u8],
        room: &mut [u8],
    ) -> ClientAnswer {
        let previous = shown(s, record).map(|client| client.written.version);
        let answer = Plain.scanned(s, own, record, rows, room);
        if let (ClientAnswer::Deposited(version, _), Some(mut client), Some(previous)) =
            (answer, shown(s, record), previous)
        {
            client.reserved = vec![NONE; s.m];
            client.write(s, record);
            let list = [previous].into_iter().filter(|v| *v != NONE);
            let message = freeing(list.collect());
            room[..message.len()].copy_from_slice(&message);
            return ClientAnswer::Deposited(version, message.len());
        }
        answer
    }
}

/// The sequence is one above the client's own last one.
struct OwnSequence;

impl Parties for OwnSequence {
    fn scanned(
        &mut self,
        s: Measures,
        own: usize,
        record: &mut [u8],
        rows: &[u8],
        room: &mut [u8],
    ) -> ClientAnswer {
        let rows = match shown(s, record).map(|client| client.step) {
            Some(Step::Scanning { .. }) => altered(s, rows, |p, row| {
                if p != own {
                    row.written = Some(Pointer::none());
                }
            }),
            _ => rows.to_vec(),
        };
        Plain.scanned(s, own, record, &rows, room)
    }
}

/// The sequence is one above the highest of the other clients.
struct OthersSequence;

impl Parties for OthersSequence {
    fn scanned(
        &mut self,
        s: Measures,
        own: usize,
        record: &mut [u8],
        rows: &[u8],
        room: &mut [u8],
    ) -> ClientAnswer {
        let rows = match shown(s, record).map(|client| client.step) {
            Some(Step::Scanning { .. }) => altered(s, rows, |p, row| {
                if p == own {
                    row.written = Some(Pointer::none());
                }
            }),
            _ => rows.to_vec(),
        };
        Plain.scanned(s, own, record, &rows, room)
    }
}

/// Every client draws versions as client 0.
struct OneName;

impl Parties for OneName {
    fn scanned(
        &mut self,
        s: Measures,
        own: usize,
        record: &mut [u8],
        rows: &[u8],
        room: &mut [u8],
    ) -> ClientAnswer {
        let own = match shown(s, record).map(|client| client.step) {
            Some(Step::Scanning { .. }) if own < s.m => 0,
            _ => own,
        };
        Plain.scanned(s, own, record, rows, room)
    }
}

/// A reading finds nothing.
struct AlwaysEmpty;

impl Parties for AlwaysEmpty {
    fn scanned(
        &mut self,
        s: Measures,
        own: usize,
        record: &mut [u8],
        rows: &[u8],
        room: &mut [u8],
    ) -> ClientAnswer {
        let rows = match shown(s, record).map(|client| client.step) {
            Some(Step::Picking) => altered(s, rows, |_, row| {
                row.written = Some(Pointer::none());
                row.frozen = Some(vec![Pointer::none(); s.m]);
            }),
            _ => rows.to_vec(),
        };
        Plain.scanned(s, own, record, &rows, room)
    }
}

/// A reply's piece is taken without a look at its digest.
struct TrustsPieces;

impl Parties for TrustsPieces {
    fn receive(
        &mut self,
        s: Measures,
        own: usize,
        node: usize,
        record: &mut [u8],
        message: &[u8],
        room: &mut [u8],
        out: &mut [u8],
    ) -> ClientAnswer {
        let before = record.to_vec();
        if let (Some(mut client), Some(Message::Reply(_, Some(piece)))) =
            (shown(s, record), read_message(s, message))
        {
            if let Step::Fetching { pointer, .. } = &mut client.step {
                if let Some(at) = place(pointer, node) {
                    let taken = placed(pointer.version, node, piece);
                    pointer.digests[at].copy_from_slice(&taken);
                    client.write(s, record);
                }
            }
        }
        let answer = Plain.receive(s, own, node, record, message, room, out);
        if answer.number() > 0 {
            record.copy_from_slice(&before);
        }
        answer
    }
}

/// A node that acknowledges and keeps nothing.
struct KeepsNothing;

impl Parties for KeepsNothing {
    fn node_message(
        &mut self,
        s: Measures,
        i: usize,
        table: &mut [u8],
        message: &[u8],
        room: &mut [u8],
    ) -> Answer {
        let before = table.to_vec();
        let answer = Plain.node_message(s, i, table, message, room);
        table.copy_from_slice(&before);
        answer
    }
}

/// A directory whose scan shows each row under the next client's number.
struct MovesRows;

impl Parties for MovesRows {
    fn directory_scan(&mut self, s: Measures, table: &[u8], room: &mut [u8]) -> Answer {
        let answer = Plain.directory_scan(s, table, room);
        if let Ok(len) = answer {
            room[..len].rotate_right(s.row());
        }
        answer
    }
}

/// A refused deposit whose page is too long has begun all the same.
struct BeginsRefused;

impl Parties for BeginsRefused {
    fn deposit(&mut self, s: Measures, own: usize, record: &mut [u8], page: &[u8]) -> ClientAnswer {
        let answer = Plain.deposit(s, own, record, page);
        if answer == ClientAnswer::Refused(6) {
            Plain.deposit(s, own, record, &page[..s.page()]);
        }
        answer
    }
}

/// A reading gives its page up if a node says "not held".
struct GivesUp;

impl Parties for GivesUp {
    fn receive(
        &mut self,
        s: Measures,
        own: usize,
        node: usize,
        record: &mut [u8],
        message: &[u8],
        room: &mut [u8],
        out: &mut [u8],
    ) -> ClientAnswer {
        let reading =
            shown(s, record).filter(|client| matches!(client.step, Step::Fetching { .. }));
        let missing = matches!(read_message(s, message), Some(Message::Reply(_, None)));
        let answer = Plain.receive(s, own, node, record, message, room, out);
        if let (ClientAnswer::Waits, Some(mut client), true) = (answer, reading, missing) {
            client.step = Step::Idle;
            client.write(s, record);
            return ClientAnswer::Failed;
        }
        answer
    }
}

/// A reading gives one byte otherwise.
struct AltersPage;

impl Parties for AltersPage {
    fn receive(
        &mut self,
        s: Measures,
        own: usize,
        node: usize,
        record: &mut [u8],
        message: &[u8],
        room: &mut [u8],
        out: &mut [u8],
    ) -> ClientAnswer {
        let answer = Plain.receive(s, own, node, record, message, room, out);
        if let ClientAnswer::Page(_, len @ 1..) = answer {
            out[len - 1] ^= 1;
        }
        answer
    }
}

/// The page is right, and the rest of the output cleared.
struct ClearsOutput;

impl Parties for ClearsOutput {
    fn receive(
        &mut self,
        s: Measures,
        own: usize,
        node: usize,
        record: &mut [u8],
        message: &[u8],
        room: &mut [u8],
        out: &mut [u8],
    ) -> ClientAnswer {
        let answer = Plain.receive(s, own, node, record, message, room, out);
        if let ClientAnswer::Page(_, len) = answer {
            out[len..].fill(0);
        }
        answer
    }
}

/// The published pointer has a higher sequence than the one that was drawn.
struct PublishesAnother;

impl Parties for PublishesAnother {
    fn receive(
        &mut self,
        s: Measures,
        own: usize,
        node: usize,
        record: &mut [u8],
        message: &[u8],
        room: &mut [u8],
        out: &mut [u8],
    ) -> ClientAnswer {
        let answer = Plain.receive(s, own, node, record, message, room, out);
        if let ClientAnswer::Update(_) = answer {
            // The sequence's lowest byte, after the map.
            room[4] = room[4].wrapping_add(1);
        }
        answer
    }
}

/// No acknowledgement counts.
struct CountsNone;

impl Parties for CountsNone {
    fn receive(
        &mut self,
        s: Measures,
        own: usize,
        node: usize,
        record: &mut [u8],
        message: &[u8],
        room: &mut [u8],
        out: &mut [u8],
    ) -> ClientAnswer {
        let before = record.to_vec();
        let room_before = room.to_vec();
        let answer = Plain.receive(s, own, node, record, message, room, out);
        let stored = matches!(read_message(s, message), Some(Message::Stored(_)));
        if stored && answer.number() == 0 {
            record.copy_from_slice(&before);
            room.copy_from_slice(&room_before);
            return ClientAnswer::Waits;
        }
        answer
    }
}

/// An idle client scans when a node has dropped its list.
struct ScansIdle;

impl Parties for ScansIdle {
    fn receive(
        &mut self,
        s: Measures,
        own: usize,
        node: usize,
        record: &mut [u8],
        message: &[u8],
        room: &mut [u8],
        out: &mut [u8],
    ) -> ClientAnswer {
        let idle = shown(s, record).is_some_and(|client| client.step == Step::Idle);
        let answer = Plain.receive(s, own, node, record, message, room, out);
        match (answer, read_message(s, message)) {
            (ClientAnswer::Waits, Some(Message::Freed)) if idle => ClientAnswer::Scan,
            _ => answer,
        }
    }
}

/// A number out of bounds is said before a slice that is too short.
struct NumberFirst;

impl Parties for NumberFirst {
    fn read(
        &mut self,
        s: Measures,
        own: usize,
        record: &mut [u8],
        room: &mut [u8],
    ) -> ClientAnswer {
        match Plain.read(s, own, record, room) {
            ClientAnswer::Refused(2) if own >= s.m => ClientAnswer::Refused(3),
            answer => answer,
        }
    }
}

/// A deposit publishes the digests of its first and its last node one for the other.
struct ExchangesDigests;

impl Parties for ExchangesDigests {
    fn scanned(
        &mut self,
        s: Measures,
        own: usize,
        record: &mut [u8],
        rows: &[u8],
        room: &mut [u8],
    ) -> ClientAnswer {
        let answer = Plain.scanned(s, own, record, rows, room);
        if let (ClientAnswer::Stores(..), Some(mut client)) = (answer, shown(s, record)) {
            if let Step::Storing { digests, .. } = &mut client.step {
                digests.swap(0, s.n - 1);
            }
            client.write(s, record);
        }
        answer
    }
}

/// A deposit takes digests in one way, and a reading reads digests of some ways.
struct TakesDigests {
    deposit: Taken,
    reading: Vec<Taken>,
}

impl TakesDigests {
    /// In both the same.
    fn as_one(taken: Taken) -> Self {
        TakesDigests {
            deposit: taken,
            reading: vec![taken],
        }
    }

    /// The kept digest becomes the right one if the piece is to match, else another; hands back the one that was kept.
    fn put(&self, pointer: &mut Pointer, node: usize, piece: &[u8]) -> Option<Vec<u8>> {
        let at = place(pointer, node)?;
        let kept = pointer.digests[at.clone()].to_vec();
        let mut due = placed(pointer.version, node, piece);
        let reads = |taken: &Taken| taken(pointer.version, node, piece) == kept;
        if !self.reading.iter().any(reads) {
            due[0] ^= 1;
        }
        pointer.digests[at].copy_from_slice(&due);
        Some(kept)
    }
}

impl Parties for TakesDigests {
    fn scanned(
        &mut self,
        s: Measures,
        own: usize,
        record: &mut [u8],
        rows: &[u8],
        room: &mut [u8],
    ) -> ClientAnswer {
        let answer = Plain.scanned(s, own, record, rows, room);
        if let (ClientAnswer::Stores(version, len), Some(mut client)) = (answer, shown(s, record)) {
            if let Step::Storing { digests, .. } = &mut client.step {
                let areas = (1..).zip(room[6..].chunks(s.f));
                for (digest, (i, area)) in digests.iter_mut().zip(areas) {
                    *digest = (self.deposit)(version, i, &area[..len]);
                }
            }
            client.write(s, record);
        }
        answer
    }

    fn receive(
        &mut self,
        s: Measures,
        own: usize,
        node: usize,
        record: &mut [u8],
        message: &[u8],
        room: &mut [u8],
        out: &mut [u8],
    ) -> ClientAnswer {
        let before = record.to_vec();
        let mut kept = None;
        if let (Some(mut client), Some(Message::Reply(_, Some(piece)))) =
            (shown(s, record), read_message(s, message))
        {
            if let Step::Fetching { pointer, .. } = &mut client.step {
                kept = self.put(pointer, node, piece);
                client.write(s, record);
            }
        }
        let answer = Plain.receive(s, own, node, record, message, room, out);
        if let ClientAnswer::Refused(_) = answer {
            record.copy_from_slice(&before);
        } else if let (Some(kept), Some(mut client)) = (kept, shown(s, record)) {
            if let Step::Fetching { pointer, .. } = &mut client.step {
                if let Some(at) = place(pointer, node) {
                    pointer.digests[at].copy_from_slice(&kept);
                }
            }
            client.write(s, record);
        }
        answer
    }
}

/// Makes runs until one is caught; gives the runs made and what caught it.
fn caught(side: &mut dyn Parties, numbers: &mut Numbers, most: usize) -> Option<(usize, Fault)> {
    let mut counts = Counts::default();
    (1..=most).find_map(|at| {
        let fault = run(side, &mut counts, numbers).err()?;
        Some((at, fault))
    })
}

fn parties() -> Vec<(&'static str, Box<dyn Parties>)> {
    vec![
        (
            "frees before the second scan",
            Box::new(FreesEarly::default()),
        ),
        (
            "publishes a freeze at once",
            Box::new(PublishesAtOnce::default()),
        ),
        ("skips frozen pointers", Box::new(SkipsFrozen)),
        ("counts a node twice", Box::new(CountsTwice)),
        ("never drops", Box::new(NeverDrops)),
        ("drops at its first deposit alone", Box::new(RightOnce)),
        ("lists a version twice", Box::new(ListsTwice)),
        ("reserves nothing", Box::new(ReservesNothing)),
        ("draws above its own", Box::new(OwnSequence)),
        ("draws above the others alone", Box::new(OthersSequence)),
        ("draws under one name", Box::new(OneName)),
        ("publishes another version", Box::new(PublishesAnother)),
        ("always finds nothing", Box::new(AlwaysEmpty)),
        ("trusts every piece", Box::new(TrustsPieces)),
        ("exchanges two digests", Box::new(ExchangesDigests)),
        ("alters a page", Box::new(AltersPage)),
        ("gives up at \"not held\"", Box::new(GivesUp)),
        ("counts no acknowledgement", Box::new(CountsNone)),
        ("scans when idle", Box::new(ScansIdle)),
        ("begins a refused deposit", Box::new(BeginsRefused)),
        ("clears the output", Box::new(ClearsOutput)),
        ("says 3 before 2", Box::new(NumberFirst)),
        ("a node that keeps nothing", Box::new(KeepsNothing)),
        ("a scan that moves rows", Box::new(MovesRows)),
    ]
}

/// Digests are taken in another way. A deposit and a reading that do so alike go well together: of a run's clauses only the one that works
/// the digest out itself can tell. And no run has a pointer with an older digest. So it is the calls that must catch each of these.
fn by_calls() -> Vec<(&'static str, TakesDigests)> {
    let older = TakesDigests {
        deposit: placed,
        reading: vec![placed, alone],
    };
    vec![
        ("leaves the version out", TakesDigests::as_one(no_version)),
        ("leaves the node out", TakesDigests::as_one(no_node)),
        (
            "takes the node before the version",
            TakesDigests::as_one(node_first),
        ),
        ("reads older digests too", older),
    ]
}

/// So many calls to a client are made until its answer or bytes differ from plain Rust's.
const CALLS: usize = 20_000;

/// So many runs are made with a party that only the calls must catch.
const FEW_RUNS: usize = 100;

/// The call at which a party's answer or bytes first differ, if there is one, and how.
fn differs(side: &mut dyn Parties, numbers: &mut Numbers) -> Option<(usize, String)> {
    client_calls::compare(&mut Plain, side, numbers, CALLS).err()
}

fn at_or_none<T>(found: &Option<(usize, T)>) -> String {
    found
        .as_ref()
        .map_or(String::from("-"), |(at, _)| at.to_string())
}

/// Every wrong party is caught within so many runs. Beside it, after how many calls to a client its answers or bytes differ.
fn wrong_in_runs(numbers: &mut Numbers, most: usize) {
    println!(
        "{:<34} {:>6} {:>7}   caught by",
        "wrong parties", "runs", "calls"
    );
    // What a party keeps from the calls would come into the runs, so that these get another one of its kind.
    for ((name, mut called), (_, mut side)) in parties().into_iter().zip(parties()) {
        let calls = at_or_none(&differs(called.as_mut(), numbers));
        let Some((at, fault)) = caught(side.as_mut(), numbers, most) else {
            panic!("{name}: not caught in {most} runs");
        };
        println!(
            "{name:<34} {at:>6} {calls:>7}   {}: {}",
            fault.clause, fault.detail
        );
    }
}

/// Every party that takes digests in another way is caught by the calls. Beside it, the runs that it took, if a clause caught it.
fn wrong_in_calls(numbers: &mut Numbers) {
    println!(
        "{:<34} {:>6} {:>7}   the call",
        "wrong digests", "runs", "calls"
    );
    for (name, mut side) in by_calls() {
        let Some((at, detail)) = differs(&mut side, numbers) else {
            panic!("{name}: not caught in {CALLS} calls");
        };
        let runs = at_or_none(&caught(&mut side, numbers, FEW_RUNS));
        println!("{name:<34} {runs:>6} {at:>7}   {detail}");
    }
}

pub fn wrong(numbers: &mut Numbers, most: usize) {
    wrong_in_runs(numbers, most);
    println!();
    wrong_in_calls(numbers);
}
