//! Records of updates, whole and damaged, and what refuses an update or a scan for its bytes: worked out from these, without plain Rust's
//! readers.

use crate::causes::Cause;
use crate::parties::{Pointer, Record, NONE};
use crate::pointers::{bits, disown, own_pointer};
use crate::random::{number, rare, version, Numbers};
use jolbizna::Measures;

pub const TABLE: Cause = (4, "table broken");
const MAP: Cause = (4, "map above hex 0F");
const EMPTY: Cause = (11, "record empty");
const EARLY: Cause = (11, "record ends early");
const LEFT: Cause = (11, "bytes left over");
const BITS: Cause = (12, "pointer: number of bits");
const ABOVE: Cause = (12, "pointer: bit above n");
const NAMING: Cause = (12, "pointer: none with a bit");
const SEQUENCE: Cause = (12, "pointer: sequence 0");
const CLIENT: Cause = (12, "pointer: client m or above");
const WRITTEN: Cause = (14, "record: written, another's");
const FROZEN: Cause = (14, "record: frozen, another's");
pub const ROW_WRITTEN: Cause = (14, "table: written, another's");
pub const ROW_FROZEN: Cause = (14, "table: frozen, another's");

/// What of a table is another client's than the row's.
pub const ROWS: [Cause; 2] = [ROW_WRITTEN, ROW_FROZEN];

/// What refuses an update for its bytes, by kind: the table's form, the map, the length, a pointer's rule, whose the pointers of the record
/// and of the table are.
const KINDS: [&[Cause]; 6] = [
    &[TABLE],
    &[MAP],
    &[EMPTY, EARLY, LEFT],
    &[BITS, ABOVE, NAMING, SEQUENCE, CLIENT],
    &[WRITTEN, FROZEN],
    &ROWS,
];

/// What refuses an update for its bytes.
pub fn all_causes() -> impl Iterator<Item = Cause> {
    KINDS.into_iter().flatten().copied()
}

fn of_table(cause: Cause) -> bool {
    cause == TABLE || ROWS.contains(&cause)
}

/// Every two causes of different kinds that can hold at once: with an empty record nothing else can be wrong but the table.
pub fn pairs() -> Vec<[Cause; 2]> {
    let mut pairs = Vec::new();
    for (at, kind) in KINDS.into_iter().enumerate() {
        for first in kind {
            let later = KINDS.into_iter().skip(at + 1).flatten();
            pairs.extend(later.map(|then| [*first, *then]));
        }
    }
    pairs.retain(|pair| !pair.contains(&EMPTY) || pair.iter().any(|cause| of_table(*cause)));
    pairs
}

fn all(faults: &[(bool, Cause)]) -> Vec<Cause> {
    let faults = faults.iter().filter(|(holds, _)| *holds);
    faults.map(|(_, cause)| *cause).collect()
}

/// A pointer by its first 7 bytes, which say its length too.
struct Front<'a> {
    written: bool,
    bytes: &'a [u8],
}

impl Front<'_> {
    fn faults(&self, s: Measures) -> Vec<Cause> {
        let front = self.bytes;
        let nodes = u16::from_be_bytes([front[5], front[6]]);
        if front[..5] == [0, 0, 0, 0, 255] {
            return all(&[(nodes != 0, NAMING)]);
        }
        all(&[
            (nodes.count_ones() as usize != s.t + s.k, BITS),
            (u32::from(nodes) >> s.n != 0, ABOVE),
            (front[..4] == [0; 4], SEQUENCE),
            (usize::from(front[4]) >= s.m, CLIENT),
        ])
    }

    /// Of another client that there is; of one that there is not the rule tells.
    fn foreign(&self, s: Measures, owner: usize) -> bool {
        let client = usize::from(self.bytes[4]);
        client < s.m && client != owner
    }
}

/// Where the fields of a record end by their lengths alone, and the pointers whose first bytes are there.
fn walk(s: Measures, record: &[u8]) -> (usize, Vec<Front<'_>>) {
    let bit = |at: usize| usize::from(record[0] >> at & 1);
    let (mut end, mut fronts) = (1, Vec::new());
    for at in 0..bit(0) + s.m * bit(1) {
        if let Some(bytes) = record.get(end..end + 7) {
            let written = at < bit(0);
            fronts.push(Front { written, bytes });
            end += 32 * (bytes[5].count_ones() + bytes[6].count_ones()) as usize;
        }
        end += 7;
    }
    (end + 4 * (s.m * bit(2) + bit(3)), fronts)
}

/// Whether the written pointer, and whether a frozen one, is another client's.
fn foreign(s: Measures, owner: usize, fronts: &[Front]) -> [bool; 2] {
    [true, false].map(|written| {
        let mut fronts = fronts.iter().filter(|front| front.written == written);
        fronts.any(|front| front.foreign(s, owner))
    })
}

/// Where the map is bad, its lower bits are followed all the same.
fn record_faults(s: Measures, own: usize, record: &[u8]) -> Vec<Cause> {
    if record.is_empty() {
        return vec![EMPTY];
    }
    let (end, fronts) = walk(s, record);
    let mut faults: Vec<Cause> = fronts.iter().flat_map(|front| front.faults(s)).collect();
    let [written, frozen] = foreign(s, own, &fronts);
    faults.extend(all(&[
        (record[0] > 0x0F, MAP),
        (record.len() < end, EARLY),
        (record.len() > end, LEFT),
        (written, WRITTEN),
        (frozen, FROZEN),
    ]));
    faults
}

fn is_row(s: Measures, area: &[u8]) -> bool {
    let (end, fronts) = walk(s, area);
    let sound = fronts.iter().all(|front| front.faults(s).is_empty());
    let zeros = |spare: &[u8]| spare.iter().all(|byte| *byte == 0);
    area[0] == 0x0F && sound && area.get(end..).is_some_and(zeros)
}

/// Of each row whether the written pointer, and whether a frozen one, is another client's.
fn foreign_rows(s: Measures, table: &[u8]) -> Vec<[bool; 2]> {
    let areas = table[..s.directory()].chunks(s.row()).enumerate();
    areas
        .map(|(p, area)| foreign(s, p, &walk(s, area).1))
        .collect()
}

/// What is wrong with a table, under measures that pass. Of one that is too short nothing is said.
pub fn table_faults(s: Measures, table: &[u8]) -> Vec<Cause> {
    let Some(table) = table.get(..s.directory()) else {
        return Vec::new();
    };
    let broken = !table.chunks(s.row()).all(|area| is_row(s, area));
    let rows = foreign_rows(s, table);
    all(&[
        (broken, TABLE),
        (rows.iter().any(|[written, _]| *written), ROW_WRITTEN),
        (rows.iter().any(|[_, frozen]| *frozen), ROW_FROZEN),
    ])
}

/// What is wrong with the bytes of an update, under measures that pass, each cause once.
pub fn causes(s: Measures, own: usize, table: &[u8], record: &[u8]) -> Vec<Cause> {
    let mut faults = record_faults(s, own, record);
    faults.extend(table_faults(s, table));
    all_causes()
        .filter(|cause| faults.contains(cause))
        .collect()
}

/// Whether an update would replace every pointer of the table that is another client's.
pub fn would_replace(s: Measures, own: usize, table: &[u8], record: &[u8]) -> bool {
    let stays = |p: usize, bit: u8| p != own || record[0] & bit == 0;
    let mut rows = foreign_rows(s, table).into_iter().enumerate();
    rows.all(|(p, [written, frozen])| !(written && stays(p, 1) || frozen && stays(p, 2)))
}

/// A pointer that breaks its rule, most times in one way. It has a digest for each of its bits.
fn broken_pointer(numbers: &mut Numbers, s: Measures, step: u32, owner: usize) -> Pointer {
    let named = s.t + s.k;
    let mut version = (version(numbers, s, step).0, owner as u8);
    let mut nodes = bits(numbers, named, s.n);
    match numbers.below(12) {
        0 => nodes = bits(numbers, named - 1, s.n),
        1 => {
            let count = numbers.below(s.n);
            nodes = bits(numbers, count + (count >= named) as usize, s.n);
        }
        2 => nodes = numbers.next() as u16,
        3 | 4 if s.n < 16 => {
            let above = s.n + numbers.below(16 - s.n);
            nodes = bits(numbers, named - 1, s.n) | 1 << above;
        }
        3..=6 => {
            let count = [1, named][numbers.below(2)];
            nodes = bits(numbers, count, s.n);
            version = NONE;
        }
        7 | 8 => version.0 = 0,
        9 | 10 => version.1 = [(s.m + numbers.below(3)) as u8, 255][numbers.below(2)],
        // None, but for its client or its sequence.
        _ => {
            nodes = 0;
            version = [(0, version.1), (version.0, 255)][numbers.below(2)];
        }
    }
    Pointer {
        version,
        nodes,
        digests: numbers.bytes(32 * nodes.count_ones() as usize),
    }
}

/// One of its pointers, if it has any.
fn damage_pointer(
    numbers: &mut Numbers,
    s: Measures,
    step: u32,
    owner: usize,
    record: &mut Record,
) {
    let frozen = record.frozen.iter_mut().flatten();
    let mut pointers: Vec<&mut Pointer> = record.written.iter_mut().chain(frozen).collect();
    if !pointers.is_empty() {
        let at = numbers.below(pointers.len());
        *pointers[at] = broken_pointer(numbers, s, step, owner);
    }
}

/// No bytes, some fewer, some more, or a field's bit more or less.
fn damage_length(numbers: &mut Numbers, record: &mut Vec<u8>) {
    let len = record.len();
    let more = 1 + numbers.below(2) * numbers.below(40);
    match numbers.below(9) {
        0 => record.clear(),
        1 => record.truncate(len - 1),
        2..=4 => record.truncate(1 + numbers.below(len.max(2) - 1)),
        5 => record.resize(len + more, 0),
        6 | 7 => record.extend(numbers.bytes(more)),
        _ => record[0] ^= 1 << numbers.below(4),
    }
}

/// Which kinds of damage are done to an update's table and record.
pub struct Damage {
    pub table: bool,
    /// A pointer of the table is another client's.
    pub rows: bool,
    map: bool,
    length: bool,
    rule: bool,
    /// A pointer of the record is another client's.
    owner: bool,
}

impl Damage {
    /// As often as not one or two kinds; else each for itself, now and then.
    pub fn new(numbers: &mut Numbers) -> Self {
        let mut kinds = [false; 6];
        if numbers.below(2) == 0 {
            kinds = kinds.map(|_| rare(numbers));
        } else {
            for _ in 0..2 {
                kinds[numbers.below(6)] = true;
            }
        }
        let [table, rows, map, length, rule, owner] = kinds;
        Damage {
            table,
            rows,
            map,
            length,
            rule,
            owner,
        }
    }

    /// The map of a record's fields: with pointers if one is to be damaged, with all of them if two are.
    fn fields(&self, numbers: &mut Numbers) -> usize {
        let pointers = [0, 1 + numbers.below(3), 3];
        numbers.below(16) | pointers[self.rule as usize + self.owner as usize]
    }
}

/// A client's record of any fields, with such damage.
pub fn record(
    numbers: &mut Numbers,
    s: Measures,
    step: u32,
    owner: usize,
    damage: &Damage,
) -> Vec<u8> {
    let fields = damage.fields(numbers);
    let mut record = whole(numbers, s, step, owner, fields);
    if damage.rule {
        damage_pointer(numbers, s, step, owner, &mut record);
    }
    if damage.owner {
        disown(numbers, s, step, owner, &mut record);
    }
    let mut bytes = record.write();
    if damage.map {
        bytes[0] |= (1 + numbers.below(15) as u8) << 4;
    }
    if damage.length {
        damage_length(numbers, &mut bytes);
    }
    bytes
}

fn whole(numbers: &mut Numbers, s: Measures, step: u32, owner: usize, map: usize) -> Record {
    let mut pointer = || own_pointer(numbers, s, step, owner);
    let written = (map & 1 != 0).then(&mut pointer);
    let frozen = (map & 2 != 0).then(|| (0..s.m).map(|_| pointer()).collect());
    Record {
        written,
        frozen,
        frozen_indices: (map & 4 != 0).then(|| (0..s.m).map(|_| number(numbers)).collect()),
        reading: (map & 8 != 0).then(|| number(numbers)),
    }
}
