//! Calls without order to a client's events, valid and damaged: two implementations must answer and leave the same.

use crate::client::{digest, map_of, nodes_of, read_message, Client, Message, Nodes, Step};
use crate::coding;
use crate::digests::OTHERWISE;
use crate::parties::{put_version, read_rows, write_rows, Pointer, Record, NONE};
use crate::pointers::{disown_rows, own_pointer, pointer, some_pointer};
use crate::random::{
    measures, number, other_measures, rare, spoil, spoil_byte, spoil_directory, version, who,
    Numbers, RARE,
};
use crate::sides::Parties;
use crate::tally::Tally;
use jolbizna::{ClientAnswer, Measures, Version};
use std::collections::{BTreeMap, BTreeSet};

/// So many nodes of 1 to n.
fn some_nodes(numbers: &mut Numbers, s: Measures, count: usize) -> Nodes {
    let mut nodes = Nodes::new();
    while nodes.len() < count {
        nodes.insert(1 + numbers.below(s.n));
    }
    nodes
}

fn all_but_one(numbers: &mut Numbers, nodes: &Nodes) -> Nodes {
    let one = numbers.below(nodes.len());
    let others = nodes.iter().enumerate().filter(|(at, _)| *at != one);
    others.map(|(_, i)| *i).collect()
}

fn reserved(numbers: &mut Numbers, s: Measures, step: u32) -> Version {
    if numbers.below(4) == 0 {
        return NONE;
    }
    version(numbers, s, step)
}

/// Rows as they are handed in, and what they were made with.
struct Rows {
    bytes: Vec<u8>,
    /// The last sequence is written.
    last: bool,
    /// Whether a written pointer, and whether a frozen one, is another client's than its row's.
    foreign: [bool; 2],
    spoilt: bool,
}

impl Rows {
    /// Of all kinds. Now and then the last sequence is written, as often as not where a pointer is another client's; and now and then
    /// the bytes are damaged.
    fn new(numbers: &mut Numbers, s: Measures, step: u32) -> Self {
        let disowned = numbers.below(RARE / 2) == 0;
        let last = numbers.below(if disowned { 2 } else { 12 }) == 0;
        let mut rows = own_rows(numbers, s, step, last);
        if disowned {
            disown_rows(numbers, s, step, &mut rows);
        }
        let spare = numbers.below(3);
        let mut bytes = numbers.bytes(s.directory() + spare);
        write_rows(s, &rows, &mut bytes);
        let spoilt = rare(numbers);
        if spoilt {
            spoil_directory(numbers, s, &mut bytes);
        }
        if rare(numbers) {
            bytes.truncate(s.directory() - 1 - numbers.below(3));
        }
        let mut written = rows.iter().flat_map(|row| &row.written);
        Rows {
            bytes,
            last: written.any(|pointer| pointer.version.0 == u32::MAX),
            foreign: foreign(&rows),
            spoilt,
        }
    }

    /// What another client's pointer is met with, where nothing refuses before.
    fn cases(&self, step: &Step) -> Vec<&'static str> {
        let mut cases = vec![FOREIGN_AT[step.number() as usize]];
        let first = matches!(step, Step::Scanning { .. });
        cases.extend((first && self.last).then_some(FOREIGN_LAST));
        cases.extend((self.foreign == [true, false]).then_some(FOREIGN_WRITTEN));
        cases.extend((self.foreign == [false, true]).then_some(FOREIGN_FROZEN));
        cases
    }
}

fn another(pointer: &Pointer, owner: usize) -> bool {
    pointer.version != NONE && usize::from(pointer.version.1) != owner
}

/// Whether a written pointer, and whether a frozen one, is another client's than its row's.
fn foreign(rows: &[Record]) -> [bool; 2] {
    let mut found = [false; 2];
    for (p, row) in rows.iter().enumerate() {
        found[0] |= row.written.iter().any(|pointer| another(pointer, p));
        let mut frozen = row.frozen.iter().flatten();
        found[1] |= frozen.any(|pointer| another(pointer, p));
    }
    found
}

/// In a client's own record, where it is no fault.
fn keeps_another(client: &Client, own: usize) -> bool {
    let mut pointers = client.frozen.iter().chain([&client.written]);
    pointers.any(|pointer| another(pointer, own))
}

/// Rows with pointers of their own clients, or fresh ones.
fn own_rows(numbers: &mut Numbers, s: Measures, step: u32, last: bool) -> Vec<Record> {
    if numbers.below(8) == 0 {
        return vec![fresh_row(s); s.m];
    }
    let row = |p| {
        let mut own = || own_pointer(numbers, s, step, p);
        let mut written = own();
        let frozen = (0..s.m).map(|_| own()).collect();
        if last && written.version != NONE {
            written.version.0 = u32::MAX;
        }
        Record {
            written: Some(written),
            frozen: Some(frozen),
            frozen_indices: Some((0..s.m).map(|_| number(numbers)).collect()),
            reading: Some(number(numbers)),
        }
    };
    (0..s.m).map(row).collect()
}

fn fresh_row(s: Measures) -> Record {
    Record {
        written: Some(Pointer::none()),
        frozen: Some(vec![Pointer::none(); s.m]),
        frozen_indices: Some(vec![0; s.m]),
        reading: Some(0),
    }
}

/// The n pieces of a page; or pieces of one length that are no page's, or of any lengths.
fn pieces(numbers: &mut Numbers, s: Measures) -> Vec<Vec<u8>> {
    let page = numbers.below(s.page() + 1);
    let page = numbers.bytes(page);
    let mut room = vec![0; s.n * s.f];
    let len = coding::split(s.n, s.k, s.f, &page, &mut room).expect("the page fits");
    let mut pieces: Vec<Vec<u8>> = room.chunks(s.f).map(|area| area[..len].to_vec()).collect();
    let kind = numbers.below(8);
    let short = 1 + numbers.below(s.f);
    for piece in &mut pieces {
        match kind {
            0 => *piece = numbers.bytes(short),
            1 => {
                let len = 1 + numbers.below(s.f);
                *piece = numbers.bytes(len);
            }
            _ => {}
        }
    }
    pieces
}

// What another client's pointer in rows is met with: what refuses before; or else the client's step, the last sequence at its first scan,
// and nothing but written or frozen ones. Last, such a pointer in the client's record and none in the rows.
const FOREIGN_SHORT: &str = "client, another's: short";
const FOREIGN_OUTSIDE: &str = "client, another's: number";
const FOREIGN_RECORD: &str = "client, another's: record";
const FOREIGN_BROKEN: &str = "client, another's: rows";
const FOREIGN_AT: [&str; 8] = [
    "client, another's: step 0",
    "client, another's: step 1",
    "client, another's: step 2",
    "client, another's: step 3",
    "client, another's: step 4",
    "client, another's: step 5",
    "client, another's: step 6",
    "client, another's: step 7",
];
const FOREIGN_LAST: &str = "client, another's: last";
const FOREIGN_WRITTEN: &str = "client, another's: written";
const FOREIGN_FROZEN: &str = "client, another's: frozen";
const FOREIGN_KEPT: &str = "client, another's: kept";

// Where a named node's sound piece is awaited and its digest is taken in one of the other ways. At k = 1 all pieces of the page are the
// same bytes: nothing but the place tells them apart.
const TAKEN_ALIKE: [&str; OTHERWISE.len()] = [
    "digest, k 1: piece alone",
    "digest, k 1: no version",
    "digest, k 1: no node",
    "digest, k 1: node first",
    "digest, k 1: other node",
    "digest, k 1: other version",
];
const TAKEN: [&str; OTHERWISE.len()] = [
    "digest, k > 1: piece alone",
    "digest, k > 1: no version",
    "digest, k > 1: no node",
    "digest, k > 1: node first",
    "digest, k > 1: other node",
    "digest, k > 1: other version",
];

/// The page of a client, its record, and the pieces that it reads.
struct Session<'a> {
    sides: [&'a mut dyn Parties; 2],
    tally: &'a mut Tally,
    s: Measures,
    step: u32,
    own: usize,
    record: Vec<u8>,
    pieces: Vec<Vec<u8>>,
    /// The version that the made record waits for.
    version: Version,
    /// The pointer that was made last for a reading, and the ways of those nodes whose digest in it is taken otherwise.
    made: Pointer,
    ways: BTreeMap<usize, usize>,
}

/// What is lent to a call beside the record.
struct Lent {
    s: Measures,
    record: Vec<u8>,
    room: Vec<u8>,
    out: Vec<u8>,
    /// Nothing is damaged but what a liar may send.
    whole: bool,
}

type Outcome = Result<ClientAnswer, String>;

impl<'a> Session<'a> {
    fn new(sides: [&'a mut dyn Parties; 2], tally: &'a mut Tally, numbers: &mut Numbers) -> Self {
        let s = measures(numbers);
        let step = [1, 255, 65_537, 16_777_259][numbers.below(4)];
        let own = numbers.below(s.m);
        Session {
            sides,
            tally,
            s,
            step,
            own,
            record: vec![0; s.record()],
            pieces: Vec::new(),
            version: (1, 0),
            made: Pointer::none(),
            ways: BTreeMap::new(),
        }
    }

    // ---- records

    /// A proper record at any step.
    fn make(&mut self, numbers: &mut Numbers) {
        let (s, step) = (self.s, self.step);
        self.pieces = pieces(numbers, s);
        self.version = version(numbers, s, step);
        let client = Client {
            step: self.make_step(numbers),
            index: number(numbers),
            written: pointer(numbers, s, step),
            frozen: (0..s.m).map(|_| pointer(numbers, s, step)).collect(),
            reserved: (0..s.m).map(|_| reserved(numbers, s, step)).collect(),
            kept: (0..s.m).map(|_| number(numbers)).collect(),
        };
        let spare = numbers.below(3);
        self.record = numbers.bytes(s.record() + spare);
        client.write(s, &mut self.record);
    }

    fn make_step(&mut self, numbers: &mut Numbers) -> Step {
        let s = self.s;
        match numbers.below(12) {
            0 => Step::Idle,
            1 => {
                let len = numbers.below(s.page() + 1);
                let page = numbers.bytes(len);
                Step::Scanning { page }
            }
            2 | 3 => {
                let count = numbers.below(s.t + s.k);
                Step::Storing {
                    version: self.version,
                    stored: some_nodes(numbers, s, count),
                    digests: (1..)
                        .zip(&self.pieces)
                        .map(|(i, piece)| digest(self.version, i, piece))
                        .collect(),
                }
            }
            4 => Step::Updating(some_pointer(numbers, s, self.step)),
            5 => Step::Freezing(some_pointer(numbers, s, self.step)),
            6 => Step::Raising,
            7 => Step::Picking,
            _ => self.make_fetching(numbers),
        }
    }

    /// To the pieces of the page. In every other one some digests are taken otherwise, so that these pieces must not match.
    fn make_pointer(&mut self, numbers: &mut Numbers) -> Pointer {
        let named = some_nodes(numbers, self.s, self.s.t + self.s.k);
        let (version, some) = (self.version, numbers.below(2) == 0);
        let mut digests = Vec::new();
        self.ways.clear();
        for &i in &named {
            let piece = &self.pieces[i - 1];
            if some && numbers.below(2) == 0 {
                let way = numbers.below(OTHERWISE.len());
                digests.extend(OTHERWISE[way].digest(numbers, version, i, piece));
                self.ways.insert(i, way);
            } else {
                digests.extend(digest(version, i, piece));
            }
        }
        self.made = Pointer {
            version,
            nodes: map_of(&named),
            digests,
        };
        self.made.clone()
    }

    fn make_fetching(&mut self, numbers: &mut Numbers) -> Step {
        let s = self.s;
        let pointer = self.make_pointer(numbers);
        let matching = if numbers.below(2) == 0 {
            s.k - 1
        } else {
            numbers.below(s.k)
        };
        if numbers.below(2) == 0 {
            self.make_loose(numbers, pointer, matching)
        } else {
            self.make_counted(numbers, pointer, matching)
        }
    }

    /// Few more nodes have to reply, as often as not. Some that are not named may stand among the counted, and have pieces.
    fn make_counted(&self, numbers: &mut Numbers, pointer: Pointer, matching: usize) -> Step {
        let s = self.s;
        let named = pointer.named();
        let matching: Nodes = named.iter().copied().take(matching).collect();
        let mut counted = matching.clone();
        if numbers.below(2) == 0 {
            counted.extend(all_but_one(numbers, &named));
        }
        if rare(numbers) {
            counted.insert(1 + numbers.below(16));
        }
        let mut kept = matching.clone();
        if rare(numbers) {
            kept.insert(1 + numbers.below(s.n));
        }
        Step::Fetching {
            pointer,
            counted,
            matching,
            pieces: kept
                .iter()
                .map(|i| (*i, self.pieces[i - 1].clone()))
                .collect(),
        }
    }

    /// Maps, lengths and pieces without regard to each other, as far as the form allows: nodes that match and are not counted or not
    /// named, or of which no piece is kept; pieces of nodes that do not match.
    fn make_loose(&self, numbers: &mut Numbers, pointer: Pointer, matching: usize) -> Step {
        let s = self.s;
        let counted = match numbers.below(4) {
            0 => Nodes::new(),
            1 => nodes_of(numbers.next() as u16),
            2 => nodes_of(pointer.nodes & numbers.next() as u16),
            _ => all_but_one(numbers, &pointer.named()),
        };
        let mut pieces = BTreeMap::new();
        for i in 1..=s.n {
            match numbers.below(8) {
                0 => {}
                1 => {
                    let len = 1 + numbers.below(s.f);
                    pieces.insert(i, numbers.bytes(len));
                }
                _ => {
                    pieces.insert(i, self.pieces[i - 1].clone());
                }
            }
        }
        Step::Fetching {
            pointer,
            counted,
            matching: some_nodes(numbers, s, matching),
            pieces,
        }
    }

    fn spoil_record(&self, numbers: &mut Numbers, record: &mut [u8]) {
        let s = self.s;
        let (pointers, work) = ((s.m + 1) * s.pointer(), s.record() - s.work());
        let at = match numbers.below(8) {
            0 => 0,
            1 => 1 + numbers.below(4),
            2 => 5 + numbers.below(s.m + 1) * s.pointer() + numbers.below(8),
            3 => 5 + numbers.below(pointers),
            4 => 5 + pointers + numbers.below(5 * s.m),
            5 => work + numbers.below(s.work().min(16)),
            6 => work + numbers.below(s.work()),
            _ => s.record() - 1,
        };
        spoil_byte(numbers, record, at);
    }

    // ---- one call

    /// What is lent, now and then damaged: another measure, a slice that is too short, a broken record.
    fn lend(&mut self, numbers: &mut Numbers) -> Lent {
        let own = self.s;
        if numbers.below(3) == 0 {
            self.make(numbers);
        }
        let mut record = self.record.clone();
        let (other, spoilt) = (rare(numbers), rare(numbers));
        if spoilt {
            self.spoil_record(numbers, &mut record);
        }
        let spare = numbers.below(3);
        let mut room = numbers.bytes(own.room() + spare);
        let mut out = numbers.bytes(own.page() + spare);
        for (slice, need) in [
            (&mut record, own.record()),
            (&mut room, own.room()),
            (&mut out, own.page()),
        ] {
            // One byte too few, or many.
            if numbers.below(30) == 0 {
                let less = 1 + numbers.below(2) * numbers.below(need.max(1));
                slice.truncate(need.saturating_sub(less));
            }
        }
        let s = if other {
            other_measures(numbers, own)
        } else {
            own
        };
        let whole = !other && !spoilt;
        Lent {
            s,
            record,
            room,
            out,
            whole,
        }
    }

    /// The call on both sides, with the same bytes.
    fn same(
        &mut self,
        name: &'static str,
        lent: Lent,
        call: impl Fn(&mut dyn Parties, Measures, &mut [u8], &mut [u8], &mut [u8]) -> ClientAnswer,
    ) -> Outcome {
        let s = lent.s;
        let mut ends = Vec::new();
        for side in &mut self.sides {
            let (mut record, mut room) = (lent.record.clone(), lent.room.clone());
            let mut out = lent.out.clone();
            let answer = call(*side, s, &mut record, &mut room, &mut out);
            ends.push((answer, record, room, out));
        }
        let (theirs, ours) = (ends.pop().unwrap(), ends.pop().unwrap());
        let answer = ours.0;
        if answer != theirs.0 {
            return Err(format!("{name} {s:?}: {answer:?} and {:?}", theirs.0));
        }
        if ours != theirs {
            return Err(format!("{name} {s:?}: {answer:?}, the bytes differ"));
        }
        let same = ours.1 == lent.record && ours.2 == lent.room && ours.3 == lent.out;
        if let (ClientAnswer::Refused(_), false) = (answer, same) {
            return Err(format!("{name} {s:?}: {answer:?}, but the bytes changed"));
        }
        self.tally.note(name, answer.number());
        if lent.whole && lent.record.len() >= s.record() {
            self.record = ours.1;
        }
        Ok(answer)
    }

    fn fresh(&mut self, numbers: &mut Numbers) -> Outcome {
        let lent = self.lend(numbers);
        self.same("client, fresh", lent, |side, s, record, _, _| {
            side.fresh(s, record)
        })
    }

    fn deposit(&mut self, numbers: &mut Numbers) -> Outcome {
        let lent = self.lend(numbers);
        let own = self.who(numbers);
        let most = self.s.page() + 1 + 4 * rare(numbers) as usize;
        let len = numbers.below(most) + 5 * rare(numbers) as usize;
        let page = numbers.bytes(len);
        self.same("client, deposit", lent, |side, s, record, _, _| {
            side.deposit(s, own, record, &page)
        })
    }

    fn read(&mut self, numbers: &mut Numbers) -> Outcome {
        let lent = self.lend(numbers);
        let own = self.who(numbers);
        self.same("client, read", lent, |side, s, record, room, _| {
            side.read(s, own, record, room)
        })
    }

    fn updated(&mut self, numbers: &mut Numbers) -> Outcome {
        let lent = self.lend(numbers);
        let own = self.who(numbers);
        self.same("client, updated", lent, |side, s, record, room, _| {
            side.updated(s, own, record, room)
        })
    }

    fn scanned(&mut self, numbers: &mut Numbers) -> Outcome {
        let lent = self.lend(numbers);
        let own = self.who(numbers);
        let rows = Rows::new(numbers, self.s, self.step);
        let cases = self.foreign_cases(&lent, own, &rows);
        let answer = self.same("client, scanned", lent, |side, s, record, room, _| {
            side.scanned(s, own, record, &rows.bytes, room)
        })?;
        for case in cases {
            self.tally.note(case, answer.number());
        }
        match answer {
            ClientAnswer::Stores(..) => self.tally.note("client, scanned: stores", 0),
            ClientAnswer::Deposited(_, 1) => self.tally.note("client, scanned: frees none", 0),
            ClientAnswer::Deposited(..) => self.tally.note("client, scanned: frees some", 0),
            ClientAnswer::Requests(..) => self.tally.note("client, scanned: requests", 0),
            ClientAnswer::Empty => self.tally.note("client, scanned: empty", 0),
            _ => {}
        }
        Ok(answer)
    }

    /// What another client's pointer is met with, in rows or in the client's own record. Of other measures, and of damage that may have put
    /// the pointer right, nothing is said.
    fn foreign_cases(&self, lent: &Lent, own: usize, rows: &Rows) -> Vec<&'static str> {
        if lent.s != self.s {
            return Vec::new();
        }
        let foreign = rows.foreign != [false; 2];
        match self.sound(lent, own, rows) {
            Err(before) if foreign => vec![before],
            Ok(client) if foreign && !rows.spoilt => rows.cases(&client.step),
            Ok(client) if !rows.spoilt && keeps_another(&client, own) => vec![FOREIGN_KEPT],
            _ => Vec::new(),
        }
    }

    /// The client, or what refuses before it is looked at whose the rows' pointers are.
    fn sound(&self, lent: &Lent, own: usize, rows: &Rows) -> Result<Client, &'static str> {
        let s = self.s;
        let slices = [
            (&lent.record, s.record()),
            (&lent.room, s.room()),
            (&rows.bytes, s.directory()),
        ];
        if slices.iter().any(|(slice, need)| slice.len() < *need) {
            return Err(FOREIGN_SHORT);
        }
        if own >= s.m {
            return Err(FOREIGN_OUTSIDE);
        }
        let client = Client::read(s, &lent.record).ok_or(FOREIGN_RECORD)?;
        read_rows(s, &rows.bytes).ok_or(FOREIGN_BROKEN)?;
        Ok(client)
    }

    /// An acknowledgement or a reply, as often as not what the client awaits, and most times of the version that it waits for.
    fn message(&self, numbers: &mut Numbers, client: Option<&Client>, node: usize) -> Vec<u8> {
        let s = self.s;
        let step = client.map(|client| &client.step);
        let tag = match (step, numbers.below(2)) {
            (Some(Step::Storing { .. }), 0) => 4,
            (Some(Step::Fetching { .. }), 0) => 6,
            _ => [4, 4, 4, 6, 6, 6, 6, 6, 6, 5][numbers.below(10)],
        };
        let mut out = vec![tag];
        if tag == 5 {
            return out;
        }
        let of = if numbers.below(6) == 0 {
            version(numbers, s, self.step)
        } else {
            self.version
        };
        put_version(&mut out, of);
        if tag == 6 {
            let true_piece = self.pieces.get(node.wrapping_sub(1));
            match (numbers.below(12), true_piece) {
                (0, _) => out.push(0),
                (1, _) => out.push(1),
                (2, _) => {
                    let len = s.f + 1 + numbers.below(3);
                    out.push(1);
                    out.extend(numbers.bytes(len));
                }
                (3, _) | (_, None) => {
                    let len = 1 + numbers.below(s.f);
                    out.push(1);
                    out.extend(numbers.bytes(len));
                }
                (_, Some(piece)) => {
                    out.push(1);
                    out.extend(piece);
                }
            }
        }
        match numbers.below(28) {
            0 | 1 => spoil(numbers, &mut out),
            2 => out[0] = numbers.below(9) as u8,
            3 => out.clear(),
            _ => {}
        }
        out
    }

    /// The node that a message comes from: as often as not one whose reply would count, if there is any.
    fn sender(&self, numbers: &mut Numbers, client: Option<&Client>) -> usize {
        if let Some(Step::Fetching {
            pointer, counted, ..
        }) = client.map(|client| &client.step)
        {
            let open: Vec<usize> = pointer.named().difference(counted).copied().collect();
            if !open.is_empty() && numbers.below(2) == 0 {
                return open[numbers.below(open.len())];
            }
        }
        who(numbers, 1, self.s.n)
    }

    /// The sound piece of a node whose digest is taken otherwise: as often as not, if the reading awaits one.
    fn otherwise_reply(
        &self,
        numbers: &mut Numbers,
        client: Option<&Client>,
    ) -> Option<(usize, Vec<u8>)> {
        let Step::Fetching {
            pointer, counted, ..
        } = &client?.step
        else {
            return None;
        };
        let nodes = self.ways.keys().copied();
        let open: Vec<usize> = nodes.filter(|i| !counted.contains(i)).collect();
        if *pointer != self.made || open.is_empty() || numbers.below(2) == 0 {
            return None;
        }
        let node = open[numbers.below(open.len())];
        let mut message = vec![6];
        put_version(&mut message, pointer.version);
        message.push(1);
        message.extend(&self.pieces[node - 1]);
        Some((node, message))
    }

    fn receive(&mut self, numbers: &mut Numbers) -> Outcome {
        let lent = self.lend(numbers);
        let own = self.who(numbers);
        let client = Client::read(self.s, &lent.record).filter(|_| lent.whole);
        let (node, message) = self
            .otherwise_reply(numbers, client.as_ref())
            .unwrap_or_else(|| {
                let node = self.sender(numbers, client.as_ref());
                (node, self.message(numbers, client.as_ref(), node))
            });
        let sound = client.is_some() && read_message(self.s, &message).is_some();
        let name = match message.first() {
            Some(4) => "client, stored",
            Some(5) => "client, freed",
            Some(6) => "client, reply",
            _ => "client, no message",
        };
        let answer = self.same(name, lent, |side, s, record, room, out| {
            side.receive(s, own, node, record, &message, room, out)
        })?;
        match answer {
            ClientAnswer::Update(_) => self.tally.note("client, stored: published", 0),
            ClientAnswer::Page(..) => self.tally.note("client, reply: page", 0),
            ClientAnswer::Refused(4) if sound => self.tally.note("client, reply: no frame", 4),
            _ => {}
        }
        // Refused for something else than the reply, it shows nothing of the record.
        if let (Some(client), 0 | 4 | 9) = (client, answer.number()) {
            self.note_loose(&client, node, &message, answer);
            self.judge_otherwise(&client, node, &message, answer)?;
        }
        Ok(answer)
    }

    /// In which way the digest of the awaited sound piece is taken that this message brings, if not in the right one.
    fn otherwise(&self, step: &Step, node: usize, message: &[u8]) -> Option<usize> {
        let (
            Step::Fetching {
                pointer, counted, ..
            },
            Some(Message::Reply(version, Some(piece))),
        ) = (step, read_message(self.s, message))
        else {
            return None;
        };
        let way = self.ways.get(&node).filter(|_| *pointer == self.made)?;
        let awaited = version == pointer.version && !counted.contains(&node);
        (awaited && self.pieces[node - 1] == piece).then_some(*way)
    }

    /// Such a piece is counted and does not match: the reading goes on with the pieces that it has, or ends without a page.
    fn judge_otherwise(
        &mut self,
        before: &Client,
        node: usize,
        message: &[u8],
        answer: ClientAnswer,
    ) -> Result<(), String> {
        let Some(way) = self.otherwise(&before.step, node, message) else {
            return Ok(());
        };
        let mut due = before.step.clone();
        if let Step::Fetching { counted, .. } = &mut due {
            counted.insert(node);
        }
        let after = Client::read(self.s, &self.record).map(|client| client.step);
        let holds = match answer {
            ClientAnswer::Waits => after == Some(due),
            ClientAnswer::Failed => after == Some(Step::Idle),
            _ => false,
        };
        let names = if self.s.k == 1 { TAKEN_ALIKE } else { TAKEN };
        if !holds {
            return Err(format!("{}: {answer:?}, as if it matched", names[way]));
        }
        // Now and then the pieces are no page's, and at k = 1 not alike.
        if self.s.k > 1 || self.pieces.iter().all(|piece| *piece == self.pieces[0]) {
            self.tally.note(names[way], answer.number());
        }
        Ok(())
    }

    /// Replies that count at a record whose maps, lengths and pieces do not agree.
    fn note_loose(&mut self, client: &Client, node: usize, message: &[u8], answer: ClientAnswer) {
        let (
            Step::Fetching {
                pointer,
                counted,
                matching,
                pieces,
            },
            Some(Message::Reply(version, _)),
        ) = (&client.step, read_message(self.s, message))
        else {
            return;
        };
        let named = pointer.named();
        if version != pointer.version || !named.contains(&node) || counted.contains(&node) {
            return;
        }
        if matching.contains(&node) {
            self.tally
                .note("client, reply: not counted", answer.number());
        }
        match answer {
            ClientAnswer::Page(..) if !matching.is_subset(&named) => {
                self.tally.note("client, reply: one unnamed", 0);
            }
            ClientAnswer::Waits if pieces.contains_key(&node) && !matching.contains(&node) => {
                self.tally.note("client, reply: piece kept", 0);
            }
            ClientAnswer::Refused(_) if matching.iter().any(|i| !pieces.contains_key(i)) => {
                self.tally
                    .note("client, reply: no piece kept", answer.number());
            }
            _ => {}
        }
    }

    fn who(&self, numbers: &mut Numbers) -> usize {
        if numbers.below(3) == 0 {
            return who(numbers, 0, self.s.m);
        }
        self.own
    }

    fn turn(&mut self, numbers: &mut Numbers) -> Outcome {
        match numbers.below(20) {
            0 => self.fresh(numbers),
            1..=2 => self.deposit(numbers),
            3..=4 => self.read(numbers),
            5..=6 => self.updated(numbers),
            7..=11 => self.scanned(numbers),
            _ => self.receive(numbers),
        }
    }
}

/// So many calls on both sides; gives their tally, or the first call at which they differ.
pub fn compare(
    ours: &mut dyn Parties,
    theirs: &mut dyn Parties,
    numbers: &mut Numbers,
    total: usize,
) -> Result<Tally, (usize, String)> {
    let mut tally = Tally::default();
    let mut done = 0;
    while done < total {
        let mut session = Session::new([&mut *ours, &mut *theirs], &mut tally, numbers);
        // Large records take as long as a hundred small ones.
        let turns = if session.s.room() > 20_000 { 20 } else { 200 };
        session.make(numbers);
        for _ in 0..turns {
            done += 1;
            session.turn(numbers).map_err(|detail| (done, detail))?;
        }
    }
    Ok(tally)
}

/// Each refusal that there is must have been met, and each way to end.
pub fn covered(tally: &Tally) {
    tally.print("");
    for (name, met) in [
        ("client, fresh", vec![0, 1, 2]),
        ("client, deposit", vec![0, 1, 2, 3, 4, 5, 6]),
        ("client, read", vec![0, 1, 2, 3, 4, 5, 7]),
        ("client, updated", vec![0, 1, 2, 3, 4, 5]),
        ("client, scanned", vec![0, 1, 2, 3, 4, 5, 7, 14]),
        ("client, scanned: stores", vec![0]),
        ("client, scanned: frees none", vec![0]),
        ("client, scanned: frees some", vec![0]),
        ("client, scanned: requests", vec![0]),
        ("client, scanned: empty", vec![0]),
        (FOREIGN_SHORT, vec![2]),
        (FOREIGN_OUTSIDE, vec![3]),
        (FOREIGN_RECORD, vec![4]),
        (FOREIGN_BROKEN, vec![4]),
        (FOREIGN_LAST, vec![14]),
        (FOREIGN_WRITTEN, vec![14]),
        (FOREIGN_FROZEN, vec![14]),
        (FOREIGN_KEPT, vec![0, 5, 7]),
        ("client, stored", vec![0, 1, 2, 3, 4]),
        ("client, stored: published", vec![0]),
        ("client, freed", vec![0, 1, 2, 3, 4]),
        ("client, reply", vec![0, 1, 2, 3, 4, 9]),
        ("client, reply: page", vec![0]),
        ("client, reply: no frame", vec![4]),
        ("client, reply: not counted", vec![0, 9]),
        ("client, reply: piece kept", vec![0]),
        ("client, reply: no piece kept", vec![4]),
        ("client, reply: one unnamed", vec![0]),
        ("client, no message", vec![1, 2, 3, 4]),
    ] {
        assert_eq!(tally.met(name), BTreeSet::from_iter(met), "{name}");
    }
    for name in FOREIGN_AT {
        assert_eq!(tally.met(name), BTreeSet::from([14]), "{name}");
    }
    for name in TAKEN_ALIKE.into_iter().chain(TAKEN) {
        assert_eq!(tally.met(name), BTreeSet::from([0, 9]), "{name}");
    }
}
