//! The directory and the data node, as document 01, document 02 (g) and (k) and docs/LAYOUTS.md define them.

use std::collections::BTreeMap;

use crate::coding::DIGEST;
use jolbizna::{Answer, Measures, Version};

/// Below all versions that are drawn.
pub const NONE: Version = (0, 255);

/// Any numbers may come, so each is bounded before it is multiplied.
pub fn pass(s: Measures) -> bool {
    let clients = (1..=8).contains(&s.m);
    let nodes =
        (1..=16).contains(&s.n) && (1..=s.n).contains(&s.k) && s.t <= s.n && 2 * s.t + s.k <= s.n;
    let pieces = (1..=4096).contains(&s.f);
    clients && nodes && pieces && s.k * s.f >= 4
}

/// Bytes of the longest pointer.
pub fn pointer_bytes(s: Measures) -> usize {
    7 + DIGEST * (s.t + s.k)
}

/// Bytes of a row's area.
pub fn row_bytes(s: Measures) -> usize {
    1 + (s.m + 1) * pointer_bytes(s) + 4 * s.m + 4
}

/// Bytes of a directory table, and of a scan's answer.
pub fn directory_bytes(s: Measures) -> usize {
    s.m * row_bytes(s)
}

/// Pieces that a node has places for.
fn places(s: Measures) -> usize {
    2 * s.m * s.m
}

/// Bytes of a node table.
fn node_bytes(s: Measures) -> usize {
    2 + places(s) * (7 + s.f)
}

/// A refusal with this number, unless the condition holds.
pub fn ensure(holds: bool, number: u32) -> Result<(), u32> {
    if holds {
        Ok(())
    } else {
        Err(number)
    }
}

/// A version that a deposit may have drawn.
pub fn drawn(s: Measures, (sequence, client): Version) -> bool {
    sequence >= 1 && usize::from(client) < s.m
}

/// What is left to read.
pub struct Bytes<'a>(pub &'a [u8]);

impl<'a> Bytes<'a> {
    pub fn take(&mut self, n: usize) -> Option<&'a [u8]> {
        let (front, rest) = self.0.split_at_checked(n)?;
        self.0 = rest;
        Some(front)
    }

    pub fn u8(&mut self) -> Option<u8> {
        Some(self.take(1)?[0])
    }

    pub fn u16(&mut self) -> Option<u16> {
        Some(u16::from_be_bytes(self.take(2)?.try_into().ok()?))
    }

    pub fn u32(&mut self) -> Option<u32> {
        Some(u32::from_be_bytes(self.take(4)?.try_into().ok()?))
    }

    pub fn version(&mut self) -> Option<Version> {
        Some((self.u32()?, self.u8()?))
    }

    pub fn zeros(&self) -> bool {
        self.0.iter().all(|&byte| byte == 0)
    }
}

pub fn put_version(out: &mut Vec<u8>, (sequence, client): Version) {
    out.extend(sequence.to_be_bytes());
    out.push(client);
}

/// Adds bytes in an area, with zeros behind them.
pub fn put_area(out: &mut Vec<u8>, bytes: &[u8], area: usize) {
    let end = out.len() + area;
    out.extend(bytes);
    out.resize(end, 0);
}

/// Writes at the front; the rest stays.
pub fn put_front(slice: &mut [u8], bytes: &[u8]) {
    slice[..bytes.len()].copy_from_slice(bytes);
}

#[derive(Clone, Debug, PartialEq)]
pub struct Pointer {
    pub version: Version,
    /// Bit i - 1 for node i.
    pub nodes: u16,
    /// Those of the nodes named, ascending.
    pub digests: Vec<u8>,
}

impl Pointer {
    pub fn none() -> Self {
        Pointer {
            version: NONE,
            nodes: 0,
            digests: Vec::new(),
        }
    }

    /// By its length alone: 7 bytes, and a digest for each bit that stands.
    fn read_any(bytes: &mut Bytes) -> Option<Self> {
        let version = bytes.version()?;
        let nodes = bytes.u16()?;
        let digests = bytes.take(DIGEST * nodes.count_ones() as usize)?.to_vec();
        Some(Pointer {
            version,
            nodes,
            digests,
        })
    }

    pub fn read(s: Measures, bytes: &mut Bytes) -> Option<Self> {
        Pointer::read_any(bytes).filter(|pointer| pointer.keeps_rule(s))
    }

    fn keeps_rule(&self, s: Measures) -> bool {
        *self == Pointer::none() || self.points(s)
    }

    /// To t + k nodes that there are.
    fn points(&self, s: Measures) -> bool {
        let above = u32::from(self.nodes) >> s.n;
        drawn(s, self.version) && above == 0 && self.nodes.count_ones() as usize == s.t + s.k
    }

    /// None, or of this client.
    fn belongs(&self, owner: usize) -> bool {
        *self == Pointer::none() || usize::from(self.version.1) == owner
    }

    pub fn write(&self, out: &mut Vec<u8>) {
        put_version(out, self.version);
        out.extend(self.nodes.to_be_bytes());
        out.extend(&self.digests);
    }
}

/// The bit map of all fields: a row has it, and no map is above it.
const ALL_FIELDS: u8 = 0x0F;

/// A directory record: the fields that are there.
#[derive(Clone, Default)]
pub struct Record {
    pub written: Option<Pointer>,
    pub frozen: Option<Vec<Pointer>>,
    pub frozen_indices: Option<Vec<u32>>,
    pub reading: Option<u32>,
}

impl Record {
    /// Of a row at first.
    fn fresh(s: Measures) -> Self {
        Record {
            written: Some(Pointer::none()),
            frozen: Some(vec![Pointer::none(); s.m]),
            frozen_indices: Some(vec![0; s.m]),
            reading: Some(0),
        }
    }

    /// The fields of a bit map, by their lengths alone; leaves what stands behind them.
    fn read_fields(s: Measures, map: u8, bytes: &mut Bytes) -> Option<Self> {
        let mut record = Record::default();
        if map & 1 != 0 {
            record.written = Some(Pointer::read_any(bytes)?);
        }
        if map & 2 != 0 {
            record.frozen = Some(
                (0..s.m)
                    .map(|_| Pointer::read_any(bytes))
                    .collect::<Option<_>>()?,
            );
        }
        if map & 4 != 0 {
            record.frozen_indices = Some((0..s.m).map(|_| bytes.u32()).collect::<Option<_>>()?);
        }
        if map & 8 != 0 {
            record.reading = Some(bytes.u32()?);
        }
        Some(record)
    }

    /// Leaves what stands behind the record.
    pub fn read(s: Measures, bytes: &mut Bytes) -> Option<Self> {
        let map = bytes.u8().filter(|map| *map <= ALL_FIELDS)?;
        Record::read_fields(s, map, bytes).filter(|record| record.keeps_rules(s))
    }

    fn pointers(&self) -> impl Iterator<Item = &Pointer> {
        self.written.iter().chain(self.frozen.iter().flatten())
    }

    fn keeps_rules(&self, s: Measures) -> bool {
        self.pointers().all(|pointer| pointer.keeps_rule(s))
    }

    fn belongs(&self, owner: usize) -> bool {
        self.pointers().all(|pointer| pointer.belongs(owner))
    }

    fn map(&self) -> u8 {
        let fields = [
            self.written.is_some(),
            self.frozen.is_some(),
            self.frozen_indices.is_some(),
            self.reading.is_some(),
        ];
        fields
            .iter()
            .rev()
            .fold(0, |map, &there| map << 1 | u8::from(there))
    }

    pub fn write(&self) -> Vec<u8> {
        let mut out = vec![self.map()];
        for pointer in self.pointers() {
            pointer.write(&mut out);
        }
        for index in self.frozen_indices.iter().flatten().chain(&self.reading) {
            out.extend(index.to_be_bytes());
        }
        out
    }

    /// Takes over the fields that are there.
    fn update(&mut self, fields: Record) {
        self.written = fields.written.or(self.written.take());
        self.frozen = fields.frozen.or(self.frozen.take());
        self.frozen_indices = fields.frozen_indices.or(self.frozen_indices.take());
        self.reading = fields.reading.or(self.reading);
    }
}

pub fn read_rows(s: Measures, table: &[u8]) -> Option<Vec<Record>> {
    table
        .get(..directory_bytes(s))?
        .chunks(row_bytes(s))
        .map(|area| read_row(s, area))
        .collect()
}

fn read_row(s: Measures, area: &[u8]) -> Option<Record> {
    let mut bytes = Bytes(area);
    let row = Record::read(s, &mut bytes)?;
    (row.map() == ALL_FIELDS && bytes.zeros()).then_some(row)
}

/// Whether the pointers of each row are none or of its own client.
pub fn owned(rows: &[Record]) -> bool {
    rows.iter().enumerate().all(|(p, row)| row.belongs(p))
}

pub fn write_rows(s: Measures, rows: &[Record], table: &mut [u8]) {
    let mut out = Vec::new();
    for row in rows {
        put_area(&mut out, &row.write(), row_bytes(s));
    }
    put_front(table, &out);
}

pub fn directory_fresh(s: Measures, table: &mut [u8]) -> Answer {
    ensure(pass(s), 1)?;
    ensure(table.len() >= directory_bytes(s), 2)?;
    write_rows(s, &vec![Record::fresh(s); s.m], table);
    Ok(0)
}

pub fn directory_update(s: Measures, own: usize, table: &mut [u8], fields: &[u8]) -> Answer {
    ensure(pass(s), 1)?;
    ensure(table.len() >= directory_bytes(s), 2)?;
    ensure(own < s.m, 3)?;
    let mut rows = read_rows(s, table).ok_or(4u32)?;
    let fields = read_update(s, fields).map_err(Damage::number)?;
    ensure(fields.belongs(own) && owned(&rows), 14)?;
    rows[own].update(fields);
    write_rows(s, &rows, table);
    Ok(0)
}

/// What is wrong with the record of an update.
enum Damage {
    Map,
    /// It is empty, or its length is not the one that its fields need.
    Length,
    /// A pointer breaks its rule.
    Rule,
}

impl Damage {
    fn number(self) -> u32 {
        match self {
            Damage::Map => 4,
            Damage::Length => 11,
            Damage::Rule => 12,
        }
    }
}

/// A record and nothing more: first the bit map, then all lengths, then the rules of pointers.
fn read_update(s: Measures, record: &[u8]) -> Result<Record, Damage> {
    let mut bytes = Bytes(record);
    let map = bytes.u8().ok_or(Damage::Length)?;
    if map > ALL_FIELDS {
        return Err(Damage::Map);
    }
    let fields = Record::read_fields(s, map, &mut bytes).ok_or(Damage::Length)?;
    if !bytes.0.is_empty() {
        return Err(Damage::Length);
    }
    if !fields.keeps_rules(s) {
        return Err(Damage::Rule);
    }
    Ok(fields)
}

pub fn directory_scan(s: Measures, table: &[u8], room: &mut [u8]) -> Answer {
    ensure(pass(s), 1)?;
    ensure(
        table.len() >= directory_bytes(s) && room.len() >= directory_bytes(s),
        2,
    )?;
    let rows = read_rows(s, table).ok_or(4u32)?;
    ensure(owned(&rows), 14)?;
    write_rows(s, &rows, room);
    Ok(directory_bytes(s))
}

/// The pieces of a node.
pub type Held = BTreeMap<Version, Vec<u8>>;

pub fn read_table(s: Measures, table: &[u8]) -> Option<Held> {
    let mut bytes = Bytes(table.get(..node_bytes(s))?);
    let mut held = Held::new();
    for _ in 0..bytes.u16()? {
        let (version, piece) = read_place(s, bytes.take(7 + s.f)?)?;
        if held
            .last_key_value()
            .is_some_and(|(last, _)| *last >= version)
        {
            return None;
        }
        held.insert(version, piece);
    }
    bytes.zeros().then_some(held)
}

fn read_place(s: Measures, place: &[u8]) -> Option<(Version, Vec<u8>)> {
    let mut bytes = Bytes(place);
    let version = bytes.version()?;
    let length = bytes.u16()?;
    let piece = bytes.take(length.into())?.to_vec();
    (drawn(s, version) && !piece.is_empty() && bytes.zeros()).then_some((version, piece))
}

pub fn write_table(s: Measures, held: &Held, table: &mut [u8]) {
    let mut out = (held.len() as u16).to_be_bytes().to_vec();
    for (&version, piece) in held {
        put_version(&mut out, version);
        out.extend((piece.len() as u16).to_be_bytes());
        put_area(&mut out, piece, s.f);
    }
    out.resize(node_bytes(s), 0);
    put_front(table, &out);
}

/// A message to a node.
enum Order<'a> {
    Store(Version, &'a [u8]),
    Request(Version),
    Free(Vec<Version>),
}

fn read_order(s: Measures, message: &[u8]) -> Option<Order<'_>> {
    let mut bytes = Bytes(message);
    match bytes.u8()? {
        1 => {
            let version = bytes.version()?;
            let formed = drawn(s, version) && (1..=s.f).contains(&bytes.0.len());
            formed.then_some(Order::Store(version, bytes.0))
        }
        2 => {
            let version = bytes.version()?;
            (drawn(s, version) && bytes.0.is_empty()).then_some(Order::Request(version))
        }
        3 => read_list(s, bytes).map(Order::Free),
        _ => None,
    }
}

/// Versions, strictly ascending, to the end.
fn read_list(s: Measures, mut bytes: Bytes) -> Option<Vec<Version>> {
    let mut list = Vec::new();
    while !bytes.0.is_empty() {
        list.push(bytes.version()?);
    }
    (list.iter().all(|&version| drawn(s, version)) && list.is_sorted_by(|a, b| a < b))
        .then_some(list)
}

pub fn node_fresh(s: Measures, table: &mut [u8]) -> Answer {
    ensure(pass(s), 1)?;
    ensure(table.len() >= node_bytes(s), 2)?;
    write_table(s, &Held::new(), table);
    Ok(0)
}

pub fn node_message(
    s: Measures,
    i: usize,
    table: &mut [u8],
    message: &[u8],
    room: &mut [u8],
) -> Answer {
    ensure(pass(s), 1)?;
    ensure(table.len() >= node_bytes(s) && room.len() >= 7 + s.f, 2)?;
    ensure((1..=s.n).contains(&i), 3)?;
    let mut held = read_table(s, table).ok_or(4u32)?;
    let order = read_order(s, message).ok_or(4u32)?;
    let answer = carry_out(s, &mut held, order)?;
    write_table(s, &held, table);
    put_front(room, &answer);
    Ok(answer.len())
}

/// What the node answers.
fn carry_out(s: Measures, held: &mut Held, order: Order) -> Result<Vec<u8>, u32> {
    match order {
        Order::Store(version, piece) => {
            ensure(held.contains_key(&version) || held.len() < places(s), 8)?;
            held.insert(version, piece.to_vec());
            Ok(stored(version))
        }
        Order::Request(version) => Ok(reply(version, held.get(&version))),
        Order::Free(list) => {
            held.retain(|version, _| !list.contains(version));
            Ok(vec![5])
        }
    }
}

fn stored(version: Version) -> Vec<u8> {
    let mut message = vec![4];
    put_version(&mut message, version);
    message
}

fn reply(version: Version, piece: Option<&Vec<u8>>) -> Vec<u8> {
    let mut message = vec![6];
    put_version(&mut message, version);
    message.push(piece.is_some().into());
    message.extend(piece.into_iter().flatten());
    message
}
