//! The client, as document 01, document 02 (i) and (k) and docs/LAYOUTS.md define it.

use std::collections::{BTreeMap, BTreeSet};

use crate::coding::{self, DIGEST};
use crate::parties::{
    directory_bytes, drawn, ensure, owned, pass, pointer_bytes, put_area, put_front, put_version,
    read_rows, row_bytes, Bytes, Pointer, Record, NONE,
};
use jolbizna::{ClientAnswer, Measures, Version};

/// Numbers of nodes, from 1 on.
pub type Nodes = BTreeSet<usize>;

/// An event's answer, or the number of its refusal.
type Outcome = Result<ClientAnswer, u32>;

pub fn nodes_of(map: u16) -> Nodes {
    (1..=16).filter(|i| map >> (i - 1) & 1 == 1).collect()
}

pub fn map_of(nodes: &Nodes) -> u16 {
    nodes.iter().fold(0, |map, i| map | 1 << (i - 1))
}

/// Of a node's piece of a version, with its place.
pub fn digest(version: Version, node: usize, piece: &[u8]) -> Vec<u8> {
    let (mut place, mut out) = (Vec::new(), vec![0; DIGEST]);
    put_version(&mut place, version);
    coding::digest_placed(&place, node as u8, piece, &mut out)
        .expect("version and output are long enough");
    out
}

impl Pointer {
    pub fn named(&self) -> Nodes {
        nodes_of(self.nodes)
    }

    /// To the nodes that stored, with their digests out of those of all nodes.
    fn new(version: Version, stored: &Nodes, digests: &[Vec<u8>]) -> Self {
        let digests = stored
            .iter()
            .flat_map(|i| &digests[i - 1])
            .copied()
            .collect();
        Pointer {
            version,
            nodes: map_of(stored),
            digests,
        }
    }

    /// Whether a piece that came with this version is the one of this node.
    fn matches(&self, node: usize, piece: &[u8]) -> bool {
        let place = self.named().iter().position(|&i| i == node);
        place.is_some_and(|place| {
            self.digests[place * DIGEST..][..DIGEST] == digest(self.version, node, piece)
        })
    }
}

/// What the client awaits, with what it works on: steps 0 to 7.
#[derive(Clone, Debug, PartialEq)]
pub enum Step {
    Idle,
    Scanning {
        page: Vec<u8>,
    },
    Storing {
        version: Version,
        stored: Nodes,
        digests: Vec<Vec<u8>>,
    },
    Updating(Pointer),
    Freezing(Pointer),
    Raising,
    Picking,
    Fetching {
        pointer: Pointer,
        counted: Nodes,
        matching: Nodes,
        /// Those of length at least 1.
        pieces: BTreeMap<usize, Vec<u8>>,
    },
}

impl Step {
    pub fn number(&self) -> u8 {
        match self {
            Step::Idle => 0,
            Step::Scanning { .. } => 1,
            Step::Storing { .. } => 2,
            Step::Updating(_) => 3,
            Step::Freezing(_) => 4,
            Step::Raising => 5,
            Step::Picking => 6,
            Step::Fetching { .. } => 7,
        }
    }

    /// Leaves the spare bytes.
    fn read(s: Measures, number: u8, work: &mut Bytes) -> Option<Self> {
        match number {
            0 => Some(Step::Idle),
            1 => Step::read_scanning(s, work),
            2 => Step::read_storing(s, work),
            3 => read_new(s, work).map(Step::Updating),
            4 => read_new(s, work).map(Step::Freezing),
            5 => Some(Step::Raising),
            6 => Some(Step::Picking),
            7 => Step::read_fetching(s, work),
            _ => None,
        }
    }

    fn read_scanning(s: Measures, work: &mut Bytes) -> Option<Self> {
        let length = work.u32()? as usize;
        let page = work.take(length)?.to_vec();
        (length <= page_bytes(s)).then_some(Step::Scanning { page })
    }

    fn read_storing(s: Measures, work: &mut Bytes) -> Option<Self> {
        let version = work.version()?;
        let stored = nodes_of(work.u16()?);
        let digests = (0..s.n)
            .map(|_| work.take(DIGEST).map(<[u8]>::to_vec))
            .collect::<Option<_>>()?;
        let formed = drawn(s, version) && stored.len() < s.t + s.k && within(s, &stored);
        formed.then_some(Step::Storing {
            version,
            stored,
            digests,
        })
    }

    fn read_fetching(s: Measures, work: &mut Bytes) -> Option<Self> {
        let pointer = read_new(s, work)?;
        let counted = nodes_of(work.u16()?);
        let matching = nodes_of(work.u16()?);
        let pieces = read_pieces(s, work)?;
        let formed = matching.len() < s.k && within(s, &matching);
        formed.then_some(Step::Fetching {
            pointer,
            counted,
            matching,
            pieces,
        })
    }

    /// Without the spare bytes.
    fn write(&self, s: Measures) -> Vec<u8> {
        let mut out = Vec::new();
        match self {
            Step::Idle | Step::Raising | Step::Picking => {}
            Step::Scanning { page } => {
                out.extend((page.len() as u32).to_be_bytes());
                out.extend(page);
            }
            Step::Storing {
                version,
                stored,
                digests,
            } => {
                put_version(&mut out, *version);
                out.extend(map_of(stored).to_be_bytes());
                out.extend(digests.concat());
            }
            Step::Updating(pointer) | Step::Freezing(pointer) => pointer.write(&mut out),
            Step::Fetching {
                pointer,
                counted,
                matching,
                pieces,
            } => {
                pointer.write(&mut out);
                out.extend(map_of(counted).to_be_bytes());
                out.extend(map_of(matching).to_be_bytes());
                let (lens, room) = spread(s, pieces);
                out.extend(lens.iter().flat_map(|length| length.to_be_bytes()));
                out.extend(room);
            }
        }
        out
    }
}

/// Nodes that there are.
fn within(s: Measures, nodes: &Nodes) -> bool {
    nodes.iter().all(|&i| i <= s.n)
}

/// A pointer that is not none.
fn read_new(s: Measures, bytes: &mut Bytes) -> Option<Pointer> {
    Pointer::read(s, bytes).filter(|pointer| *pointer != Pointer::none())
}

/// Lengths of all nodes' pieces, then their areas.
fn read_pieces(s: Measures, work: &mut Bytes) -> Option<BTreeMap<usize, Vec<u8>>> {
    let lengths: Vec<u16> = (0..s.n).map(|_| work.u16()).collect::<Option<_>>()?;
    let mut pieces = BTreeMap::new();
    for (i, length) in (1..).zip(lengths) {
        let mut area = Bytes(work.take(s.f)?);
        let piece = area.take(length.into())?;
        if !area.zeros() {
            return None;
        }
        if !piece.is_empty() {
            pieces.insert(i, piece.to_vec());
        }
    }
    Some(pieces)
}

/// Lengths of all nodes' pieces, and the room of pieces.
fn spread(s: Measures, pieces: &BTreeMap<usize, Vec<u8>>) -> (Vec<u16>, Vec<u8>) {
    let mut lens = Vec::new();
    let mut room = Vec::new();
    for i in 1..=s.n {
        let piece = pieces.get(&i).map_or(&[][..], Vec::as_slice);
        lens.push(piece.len() as u16);
        put_area(&mut room, piece, s.f);
    }
    (lens, room)
}

/// A client's record.
#[derive(Clone, Debug, PartialEq)]
pub struct Client {
    pub step: Step,
    pub index: u32,
    /// Of the last deposit that ended.
    pub written: Pointer,
    pub frozen: Vec<Pointer>,
    pub reserved: Vec<Version>,
    /// The reading indices last kept.
    pub kept: Vec<u32>,
}

impl Client {
    fn fresh(s: Measures) -> Self {
        Client {
            step: Step::Idle,
            index: 0,
            written: Pointer::none(),
            frozen: vec![Pointer::none(); s.m],
            reserved: vec![NONE; s.m],
            kept: vec![0; s.m],
        }
    }

    pub fn read(s: Measures, record: &[u8]) -> Option<Self> {
        let mut bytes = Bytes(record.get(..record_bytes(s))?);
        let number = bytes.u8()?;
        let index = bytes.u32()?;
        let written = read_area(s, &mut bytes)?;
        let frozen = (0..s.m)
            .map(|_| read_area(s, &mut bytes))
            .collect::<Option<_>>()?;
        let reserved = (0..s.m)
            .map(|_| read_reserved(s, &mut bytes))
            .collect::<Option<_>>()?;
        let kept = (0..s.m).map(|_| bytes.u32()).collect::<Option<_>>()?;
        let step = Step::read(s, number, &mut bytes)?;
        bytes.zeros().then_some(Client {
            step,
            index,
            written,
            frozen,
            reserved,
            kept,
        })
    }

    pub fn write(&self, s: Measures, record: &mut [u8]) {
        let mut out = vec![self.step.number()];
        out.extend(self.index.to_be_bytes());
        for pointer in [&self.written].into_iter().chain(&self.frozen) {
            let mut bytes = Vec::new();
            pointer.write(&mut bytes);
            put_area(&mut out, &bytes, pointer_bytes(s));
        }
        for &version in &self.reserved {
            put_version(&mut out, version);
        }
        for index in &self.kept {
            out.extend(index.to_be_bytes());
        }
        put_area(&mut out, &self.step.write(s), work_bytes(s));
        put_front(record, &out);
    }
}

/// A pointer in an area of its own.
fn read_area(s: Measures, bytes: &mut Bytes) -> Option<Pointer> {
    let mut area = Bytes(bytes.take(pointer_bytes(s))?);
    let pointer = Pointer::read(s, &mut area)?;
    area.zeros().then_some(pointer)
}

fn read_reserved(s: Measures, bytes: &mut Bytes) -> Option<Version> {
    bytes
        .version()
        .filter(|&version| version == NONE || drawn(s, version))
}

/// Bytes of the longest page.
fn page_bytes(s: Measures) -> usize {
    s.k * s.f - 4
}

/// Bytes of a record's work area.
fn work_bytes(s: Measures) -> usize {
    pointer_bytes(s) + 4 + s.n * (2 + DIGEST + s.f)
}

/// Bytes of a record.
fn record_bytes(s: Measures) -> usize {
    5 + (s.m + 1) * pointer_bytes(s) + 9 * s.m + work_bytes(s)
}

/// Bytes of an event's room.
fn room_bytes(s: Measures) -> usize {
    row_bytes(s) + 6 + s.n * s.f
}

/// A message to a client.
pub enum Message<'a> {
    Stored(Version),
    Freed,
    /// With a piece, or "not held".
    Reply(Version, Option<&'a [u8]>),
}

pub fn read_message(s: Measures, message: &[u8]) -> Option<Message<'_>> {
    let mut bytes = Bytes(message);
    match bytes.u8()? {
        4 => {
            let version = read_named(s, &mut bytes)?;
            bytes.0.is_empty().then_some(Message::Stored(version))
        }
        5 => bytes.0.is_empty().then_some(Message::Freed),
        6 => {
            let version = read_named(s, &mut bytes)?;
            match bytes.u8()? {
                0 => bytes.0.is_empty().then_some(Message::Reply(version, None)),
                1 => Some(Message::Reply(version, Some(bytes.0))),
                _ => None,
            }
        }
        _ => None,
    }
}

/// A version as messages name it.
fn read_named(s: Measures, bytes: &mut Bytes) -> Option<Version> {
    bytes.version().filter(|&version| drawn(s, version))
}

pub fn fresh(s: Measures, record: &mut [u8]) -> ClientAnswer {
    try_fresh(s, record).unwrap_or_else(ClientAnswer::Refused)
}

fn try_fresh(s: Measures, record: &mut [u8]) -> Outcome {
    ensure(pass(s), 1)?;
    ensure(record.len() >= record_bytes(s), 2)?;
    Client::fresh(s).write(s, record);
    Ok(ClientAnswer::Waits)
}

pub fn deposit(s: Measures, own: usize, record: &mut [u8], page: &[u8]) -> ClientAnswer {
    try_deposit(s, own, record, page).unwrap_or_else(ClientAnswer::Refused)
}

fn try_deposit(s: Measures, own: usize, record: &mut [u8], page: &[u8]) -> Outcome {
    ensure(pass(s), 1)?;
    ensure(record.len() >= record_bytes(s), 2)?;
    ensure(own < s.m, 3)?;
    let mut client = Client::read(s, record).ok_or(4u32)?;
    ensure(client.step == Step::Idle, 5)?;
    ensure(page.len() <= page_bytes(s), 6)?;
    client.step = Step::Scanning {
        page: page.to_vec(),
    };
    client.write(s, record);
    Ok(ClientAnswer::Scan)
}

pub fn read(s: Measures, own: usize, record: &mut [u8], room: &mut [u8]) -> ClientAnswer {
    try_read(s, own, record, room).unwrap_or_else(ClientAnswer::Refused)
}

fn try_read(s: Measures, own: usize, record: &mut [u8], room: &mut [u8]) -> Outcome {
    ensure(pass(s), 1)?;
    ensure(
        record.len() >= record_bytes(s) && room.len() >= room_bytes(s),
        2,
    )?;
    ensure(own < s.m, 3)?;
    let mut client = Client::read(s, record).ok_or(4u32)?;
    ensure(client.step == Step::Idle, 5)?;
    client.index = client.index.checked_add(1).ok_or(7u32)?;
    client.step = Step::Raising;
    let update = Record {
        reading: Some(client.index),
        ..Record::default()
    }
    .write();
    client.write(s, record);
    put_front(room, &update);
    Ok(ClientAnswer::Update(update.len()))
}

pub fn updated(s: Measures, own: usize, record: &mut [u8], room: &mut [u8]) -> ClientAnswer {
    try_updated(s, own, record, room).unwrap_or_else(ClientAnswer::Refused)
}

fn try_updated(s: Measures, own: usize, record: &mut [u8], room: &mut [u8]) -> Outcome {
    ensure(pass(s), 1)?;
    ensure(
        record.len() >= record_bytes(s) && room.len() >= room_bytes(s),
        2,
    )?;
    ensure(own < s.m, 3)?;
    let mut client = Client::read(s, record).ok_or(4u32)?;
    client.step = match client.step {
        Step::Updating(pointer) => Step::Freezing(pointer),
        Step::Raising => Step::Picking,
        _ => return Err(5),
    };
    client.write(s, record);
    Ok(ClientAnswer::Scan)
}

pub fn scanned(
    s: Measures,
    own: usize,
    record: &mut [u8],
    rows: &[u8],
    room: &mut [u8],
) -> ClientAnswer {
    try_scanned(s, own, record, rows, room).unwrap_or_else(ClientAnswer::Refused)
}

fn try_scanned(
    s: Measures,
    own: usize,
    record: &mut [u8],
    rows: &[u8],
    room: &mut [u8],
) -> Outcome {
    ensure(pass(s), 1)?;
    ensure(
        record.len() >= record_bytes(s)
            && rows.len() >= directory_bytes(s)
            && room.len() >= room_bytes(s),
        2,
    )?;
    ensure(own < s.m, 3)?;
    let mut client = Client::read(s, record).ok_or(4u32)?;
    let rows = read_rows(s, rows).ok_or(4u32)?;
    ensure(owned(&rows), 14)?;
    let answer = match client.step.clone() {
        Step::Scanning { page } => client.draw(s, own, &page, &rows, room),
        Step::Freezing(pointer) => client.freeze(own, pointer, &rows, room),
        Step::Picking => client.pick(own, &rows, room),
        _ => return Err(5),
    };
    client.write(s, record);
    Ok(answer)
}

pub fn receive(
    s: Measures,
    own: usize,
    node: usize,
    record: &mut [u8],
    message: &[u8],
    room: &mut [u8],
    out: &mut [u8],
) -> ClientAnswer {
    try_receive(s, own, node, record, message, room, out).unwrap_or_else(ClientAnswer::Refused)
}

fn try_receive(
    s: Measures,
    own: usize,
    node: usize,
    record: &mut [u8],
    message: &[u8],
    room: &mut [u8],
    out: &mut [u8],
) -> Outcome {
    ensure(pass(s), 1)?;
    ensure(
        record.len() >= record_bytes(s)
            && room.len() >= room_bytes(s)
            && out.len() >= page_bytes(s),
        2,
    )?;
    ensure(own < s.m && (1..=s.n).contains(&node), 3)?;
    let mut client = Client::read(s, record).ok_or(4u32)?;
    let answer = match read_message(s, message).ok_or(4u32)? {
        Message::Stored(version) => client.acknowledged(s, node, version, room),
        Message::Freed => ClientAnswer::Waits,
        Message::Reply(version, piece) => client.replied(s, node, version, piece, out)?,
    };
    client.write(s, record);
    Ok(answer)
}

/// The steps of a deposit.
impl Client {
    /// Draws a version and sends the pieces.
    fn draw(
        &mut self,
        s: Measures,
        own: usize,
        page: &[u8],
        rows: &[Record],
        room: &mut [u8],
    ) -> ClientAnswer {
        let highest = rows
            .iter()
            .flat_map(|row| &row.written)
            .map(|pointer| pointer.version.0)
            .max();
        let Some(sequence) = highest.unwrap_or(0).checked_add(1) else {
            self.step = Step::Idle;
            return ClientAnswer::Spent;
        };
        let version = (sequence, own as u8);
        put_front(room, &message(1, &[version]));
        let pieces = &mut room[6..];
        let length = coding::split(s.n, s.k, s.f, page, pieces)
            .expect("the page and the room were measured");
        let digests = (1..=s.n)
            .zip(pieces.chunks(s.f))
            .map(|(i, area)| digest(version, i, &area[..length]))
            .collect();
        self.step = Step::Storing {
            version,
            stored: Nodes::new(),
            digests,
        };
        ClientAnswer::Stores(version, length)
    }

    /// Counts a node once; the node that makes t + k brings the update.
    fn acknowledged(
        &mut self,
        s: Measures,
        node: usize,
        acknowledged: Version,
        room: &mut [u8],
    ) -> ClientAnswer {
        let Step::Storing {
            version,
            stored,
            digests,
        } = &mut self.step
        else {
            return ClientAnswer::Waits;
        };
        if acknowledged != *version {
            return ClientAnswer::Waits;
        }
        stored.insert(node);
        if stored.len() < s.t + s.k {
            return ClientAnswer::Waits;
        }
        let pointer = Pointer::new(*version, stored, digests);
        self.step = Step::Updating(pointer.clone());
        let update = Record {
            written: Some(pointer),
            frozen: Some(self.frozen.clone()),
            frozen_indices: Some(self.kept.clone()),
            reading: None,
        };
        let update = update.write();
        put_front(room, &update);
        ClientAnswer::Update(update.len())
    }

    /// Freezes and reserves for new readings, and ends the deposit with the list of versions to drop.
    fn freeze(
        &mut self,
        own: usize,
        pointer: Pointer,
        rows: &[Record],
        room: &mut [u8],
    ) -> ClientAnswer {
        let version = pointer.version;
        let previous = self.written.version;
        let mut free = BTreeSet::from([previous]);
        for (other, row) in rows.iter().enumerate().filter(|(other, _)| *other != own) {
            let index = row.reading.unwrap_or(0);
            if index > self.kept[other] {
                free.extend([self.frozen[other].version, self.reserved[other]]);
                self.frozen[other] = pointer.clone();
                self.reserved[other] = previous;
                self.kept[other] = index;
            }
        }
        free.retain(|freed| *freed != NONE && !self.retains(*freed));
        self.written = pointer;
        self.step = Step::Idle;
        let message = message(3, &Vec::from_iter(free));
        put_front(room, &message);
        ClientAnswer::Deposited(version, message.len())
    }

    /// Whether a version is frozen or reserved for any client.
    fn retains(&self, version: Version) -> bool {
        self.frozen.iter().any(|pointer| pointer.version == version)
            || self.reserved.contains(&version)
    }
}

/// The steps of a reading.
impl Client {
    /// Asks the nodes of the highest pointer, if there is one.
    fn pick(&mut self, own: usize, rows: &[Record], room: &mut [u8]) -> ClientAnswer {
        let mut highest = &Pointer::none();
        for pointer in rows.iter().filter_map(|row| offered(row, own, self.index)) {
            if pointer.version > highest.version {
                highest = pointer;
            }
        }
        if highest.version == NONE {
            self.step = Step::Idle;
            return ClientAnswer::Empty;
        }
        put_front(room, &message(2, &[highest.version]));
        self.step = Step::Fetching {
            pointer: highest.clone(),
            counted: Nodes::new(),
            matching: Nodes::new(),
            pieces: BTreeMap::new(),
        };
        ClientAnswer::Requests(highest.version, highest.nodes)
    }

    /// Counts a named node's first reply; the k-th piece that matches ends the reading, and so does the last reply.
    fn replied(
        &mut self,
        s: Measures,
        node: usize,
        replied: Version,
        piece: Option<&[u8]>,
        out: &mut [u8],
    ) -> Outcome {
        let Step::Fetching {
            pointer,
            counted,
            matching,
            pieces,
        } = &mut self.step
        else {
            return Ok(ClientAnswer::Waits);
        };
        let named = pointer.named();
        if replied != pointer.version || !named.contains(&node) || !counted.insert(node) {
            return Ok(ClientAnswer::Waits);
        }
        let version = pointer.version;
        let proper = piece.filter(|piece| (1..=s.f).contains(&piece.len()));
        if let Some(piece) = proper.filter(|piece| pointer.matches(node, piece)) {
            matching.insert(node);
            pieces.insert(node, piece.to_vec());
        }
        if matching.len() >= s.k {
            let (lens, room) = spread(s, pieces);
            let length = coding::join(s.n, s.k, s.f, map_of(matching), &room, &lens, out)?;
            self.step = Step::Idle;
            return Ok(ClientAnswer::Page(version, length));
        }
        if named.is_subset(counted) {
            self.step = Step::Idle;
            return Ok(ClientAnswer::Failed);
        }
        Ok(ClientAnswer::Waits)
    }
}

/// The pointer that a row offers to this reading.
fn offered(row: &Record, own: usize, index: u32) -> Option<&Pointer> {
    if index > *row.frozen_indices.as_ref()?.get(own)? {
        row.written.as_ref()
    } else {
        row.frozen.as_ref()?.get(own)
    }
}

/// A tag and versions.
fn message(tag: u8, versions: &[Version]) -> Vec<u8> {
    let mut message = vec![tag];
    for &version in versions {
        put_version(&mut message, version);
    }
    message
}
