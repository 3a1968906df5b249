//! Calls without order to the directory and a node, valid and damaged: two implementations must answer and leave the same, and each
//! refusal of an update or a scan must be met by each of its causes.

use crate::causes::{judge, Cause};
use crate::parties::{pass, put_version, read_rows, write_rows};
use crate::pointers::disown_rows;
use crate::random::{
    measures, other_measures, rare, spoil, spoil_byte, spoil_directory, version, who, Numbers, RARE,
};
use crate::records::{self, Damage, ROWS, ROW_FROZEN, ROW_WRITTEN, TABLE};
use crate::sides::Parties;
use crate::tally::Tally;
use jolbizna::{Answer, Measures, Version};
use std::collections::BTreeSet;

/// The refusal's number, or 0 for served.
fn refused(answer: Answer) -> u32 {
    answer.err().unwrap_or(0)
}

/// Two implementations, each call made on both with the same bytes.
pub struct Pair<'a> {
    pub ours: &'a mut dyn Parties,
    pub theirs: &'a mut dyn Parties,
}

impl Pair<'_> {
    pub fn directory_fresh(&mut self, s: Measures, table: &[u8]) -> (Vec<u8>, Answer) {
        let (mut ours, mut theirs) = (table.to_vec(), table.to_vec());
        let answer = self.ours.directory_fresh(s, &mut ours);
        let other = self.theirs.directory_fresh(s, &mut theirs);
        assert_eq!(answer, other, "fresh directory {s:?}");
        assert!(ours == theirs, "fresh directory {s:?}: the tables differ");
        (ours, answer)
    }

    pub fn update(
        &mut self,
        s: Measures,
        own: usize,
        table: &[u8],
        fields: &[u8],
    ) -> (Vec<u8>, Answer) {
        let (mut ours, mut theirs) = (table.to_vec(), table.to_vec());
        let answer = self.ours.directory_update(s, own, &mut ours, fields);
        let other = self.theirs.directory_update(s, own, &mut theirs, fields);
        assert_eq!(answer, other, "update {s:?} {own} {fields:?}");
        assert!(
            ours == theirs,
            "update {s:?} {own} {fields:?}: the tables differ"
        );
        (ours, answer)
    }

    pub fn scan(&mut self, s: Measures, table: &[u8], room: &[u8]) -> (Vec<u8>, Answer) {
        let (mut ours, mut theirs) = (room.to_vec(), room.to_vec());
        let answer = self.ours.directory_scan(s, table, &mut ours);
        let other = self.theirs.directory_scan(s, table, &mut theirs);
        assert_eq!(answer, other, "scan {s:?}");
        assert!(ours == theirs, "scan {s:?}: the rooms differ");
        (ours, answer)
    }

    pub fn node_fresh(&mut self, s: Measures, table: &[u8]) -> (Vec<u8>, Answer) {
        let (mut ours, mut theirs) = (table.to_vec(), table.to_vec());
        let answer = self.ours.node_fresh(s, &mut ours);
        let other = self.theirs.node_fresh(s, &mut theirs);
        assert_eq!(answer, other, "fresh table {s:?}");
        assert!(ours == theirs, "fresh table {s:?}: the tables differ");
        (ours, answer)
    }

    pub fn message(
        &mut self,
        s: Measures,
        i: usize,
        table: &[u8],
        message: &[u8],
        room: &[u8],
    ) -> (Vec<u8>, Vec<u8>, Answer) {
        let (mut ours, mut theirs) = (table.to_vec(), table.to_vec());
        let (mut our_room, mut their_room) = (room.to_vec(), room.to_vec());
        let answer = self
            .ours
            .node_message(s, i, &mut ours, message, &mut our_room);
        let other = self
            .theirs
            .node_message(s, i, &mut theirs, message, &mut their_room);
        assert_eq!(answer, other, "message {s:?} {i} {message:?}");
        assert!(
            ours == theirs && our_room == their_room,
            "message {s:?} {i} {message:?}: the bytes differ"
        );
        (ours, our_room, answer)
    }
}

fn message(numbers: &mut Numbers, s: Measures, step: u32) -> Vec<u8> {
    let kind = numbers.below(20);
    let mut out = match kind {
        0..=11 => vec![1],
        12..=15 => vec![2],
        16..=18 => vec![3],
        _ => vec![numbers.below(9) as u8],
    };
    match out[0] {
        1 => {
            put_version(&mut out, version(numbers, s, step));
            let len = match numbers.below(12) {
                0 => 0,
                1 => s.f + 1,
                2..=5 => s.f,
                _ => 1 + numbers.below(s.f),
            };
            out.extend(numbers.bytes(len));
        }
        3 => {
            let count = numbers.below(7);
            let list: BTreeSet<Version> = (0..count).map(|_| version(numbers, s, step)).collect();
            for v in list {
                put_version(&mut out, v);
            }
        }
        _ => put_version(&mut out, version(numbers, s, step)),
    }
    out
}

fn spoil_table(numbers: &mut Numbers, s: Measures, table: &mut [u8]) {
    let count = u16::from_be_bytes([table[0], table[1]]) as usize;
    let place = 2 + numbers.below((count + 1).min(s.places())) * s.place();
    let at = match numbers.below(8) {
        0 => 0,
        1 => 1,
        // No piece, or one too long.
        7 => {
            let len = [0, s.f as u16 + 1][numbers.below(2)];
            table[place + 7..place + s.place()].fill(0);
            table[place + 5..place + 7].copy_from_slice(&len.to_be_bytes());
            return;
        }
        2 => place + numbers.below(7),
        3 => place + s.place() - 1,
        4 => place + numbers.below(s.place()),
        5 => numbers.below(s.table()),
        // Two places change theirs, or one stands twice.
        _ => {
            let other = 2 + numbers.below(s.places()) * s.place();
            let (a, b) = (
                table[place..place + s.place()].to_vec(),
                table[other..other + s.place()].to_vec(),
            );
            table[other..other + s.place()].copy_from_slice(&a);
            if numbers.below(2) == 0 {
                table[place..place + s.place()].copy_from_slice(&b);
            }
            return;
        }
    };
    spoil_byte(numbers, table, at);
}

/// A slice of the length needed, or a little more, or a little less.
fn cut(numbers: &mut Numbers, bytes: &[u8], need: usize) -> Vec<u8> {
    let mut bytes = bytes.to_vec();
    if rare(numbers) {
        bytes.truncate(need - 1 - numbers.below(3).min(need - 1));
    }
    bytes
}

/// Which calls were made, and by what updates and scans were refused.
#[derive(Default)]
struct Account {
    calls: Tally,
    updates: Refusals,
    scans: Refusals,
}

const MEASURES: Cause = (1, "measures out of bounds");
const SHORT: Cause = (2, "table short");
const ROOM: Cause = (2, "room short");
const OUTSIDE: Cause = (3, "client out of bounds");

/// What refuses an update for what its caller says.
const CALLER: [Cause; 3] = [MEASURES, SHORT, OUTSIDE];

/// Which number of an update is told, where there are two.
const ORDERS: [Cause; 15] = [
    (2, "2 before 3"),
    (2, "2 before 4"),
    (2, "2 before 11"),
    (2, "2 before 12"),
    (2, "2 before 14"),
    (3, "3 before 4"),
    (3, "3 before 11"),
    (3, "3 before 12"),
    (3, "3 before 14"),
    (4, "4 before 11"),
    (4, "4 before 12"),
    (4, "4 before 14"),
    (11, "11 before 12"),
    (11, "11 before 14"),
    (12, "12 before 14"),
];

const NO_FIELDS: Cause = (14, "another's, the record map 0");
const REPLACED: Cause = (14, "another's, to be replaced");

/// Updates that only a pointer of the table refuses, though they do not touch it, or would replace it.
const IN_VAIN: [Cause; 2] = [NO_FIELDS, REPLACED];

/// All that refuses a scan.
const SCAN: [Cause; 6] = [MEASURES, SHORT, ROOM, TABLE, ROW_WRITTEN, ROW_FROZEN];

/// Which number of a scan is told, where there are two.
const SCAN_ORDERS: [Cause; 3] = [(2, "2 before 4"), (2, "2 before 14"), (4, "4 before 14")];

/// What refuses a scan at once: of a short table nothing else is said.
const SCAN_PAIRS: [[Cause; 2]; 5] = [
    [ROOM, TABLE],
    [ROOM, ROW_WRITTEN],
    [ROOM, ROW_FROZEN],
    [TABLE, ROW_WRITTEN],
    [TABLE, ROW_FROZEN],
];

/// What refuses an update. Of measures that do not pass nothing else is worked out.
fn update_causes(s: Measures, own: usize, table: &[u8], fields: &[u8]) -> Vec<Cause> {
    if !pass(s) {
        return vec![MEASURES];
    }
    let short = (table.len() < s.directory()).then_some(SHORT);
    let outside = (own >= s.m).then_some(OUTSIDE);
    let caller = short.into_iter().chain(outside);
    let bytes = records::causes(s, own, table, fields);
    caller.chain(bytes).collect()
}

/// What refuses a scan.
fn scan_causes(s: Measures, table: &[u8], room: &[u8]) -> Vec<Cause> {
    if !pass(s) {
        return vec![MEASURES];
    }
    let slices = [(table, SHORT), (room, ROOM)].into_iter();
    let short = slices.filter(|(slice, _)| slice.len() < s.directory());
    let caller = short.map(|(_, cause)| cause);
    caller.chain(records::table_faults(s, table)).collect()
}

/// By what calls of one kind were refused.
#[derive(Default)]
struct Refusals {
    cases: Tally,
    /// The causes, where there were two.
    pairs: BTreeSet<[Cause; 2]>,
}

impl Refusals {
    fn note(&mut self, causes: &[Cause], answer: Answer, detail: impl Fn() -> String) {
        judge(&mut self.cases, causes, answer, detail);
        if let [first, then] = causes {
            self.pairs.insert([*first, *then]);
        }
    }

    /// Each case must have been met, always with its number, and each two causes at once.
    fn covered(&self, name: &str, cases: impl Iterator<Item = Cause>, pairs: &[[Cause; 2]]) {
        for (number, case) in cases {
            let met = BTreeSet::from([number]);
            assert_eq!(self.cases.met(case), met, "{name}: {case}");
        }
        for pair in pairs {
            assert!(self.pairs.contains(pair), "{name}: {pair:?} at once");
        }
    }
}

impl Account {
    fn covered(&self) {
        let causes = CALLER.into_iter().chain(records::all_causes());
        let cases = causes.chain(ORDERS).chain(IN_VAIN);
        self.updates.covered("update", cases, &records::pairs());
        let cases = SCAN.into_iter().chain(SCAN_ORDERS);
        self.scans.covered("scan", cases, &SCAN_PAIRS);
    }
}

/// One page's tables under one set of measures.
struct Session<'a> {
    pair: Pair<'a>,
    account: &'a mut Account,
    s: Measures,
    step: u32,
    directory: Vec<u8>,
    table: Vec<u8>,
}

impl<'a> Session<'a> {
    fn new(mut pair: Pair<'a>, account: &'a mut Account, numbers: &mut Numbers) -> Self {
        let s = measures(numbers);
        let step = [1, 255, 65_537, 16_777_259][numbers.below(4)];
        let spare = numbers.below(4);
        let (directory, answer) = pair.directory_fresh(s, &numbers.bytes(s.directory() + spare));
        account.calls.note("directory, fresh", refused(answer));
        let (table, answer) = pair.node_fresh(s, &numbers.bytes(s.table() + spare));
        account.calls.note("node, fresh", refused(answer));
        Session {
            pair,
            account,
            s,
            step,
            directory,
            table,
        }
    }

    fn fresh(&mut self, numbers: &mut Numbers) {
        let s = if numbers.below(3) == 0 {
            other_measures(numbers, self.s)
        } else {
            self.s
        };
        let table = cut(numbers, &self.directory, self.s.directory());
        let (end, answer) = self.pair.directory_fresh(s, &table);
        self.account.calls.note("directory, fresh", refused(answer));
        assert!(answer.is_ok() || end == table);
        let table = cut(numbers, &self.table, self.s.table());
        let (end, answer) = self.pair.node_fresh(s, &table);
        self.account.calls.note("node, fresh", refused(answer));
        assert!(answer.is_ok() || end == table);
    }

    /// The directory; if so, with a pointer of another client than its row's.
    fn imported(&self, numbers: &mut Numbers, foreign: bool) -> Vec<u8> {
        let mut table = self.directory.clone();
        if foreign {
            let mut rows = read_rows(self.s, &table).expect("the session's own is proper");
            disown_rows(numbers, self.s, self.step, &mut rows);
            write_rows(self.s, &rows, &mut table);
        }
        table
    }

    /// The measures, now and then other ones, and the table that is lent, damaged if so. Says whether they are as they were.
    fn lend(
        &self,
        numbers: &mut Numbers,
        own: &[u8],
        need: usize,
        spoil: fn(&mut Numbers, Measures, &mut [u8]),
        spoilt: bool,
    ) -> (Measures, Vec<u8>, bool) {
        let mut table = own.to_vec();
        let other = rare(numbers);
        if spoilt {
            spoil(numbers, self.s, &mut table);
        }
        let table = cut(numbers, &table, need);
        let s = if other {
            other_measures(numbers, self.s)
        } else {
            self.s
        };
        (s, table, !other && !spoilt)
    }

    fn update(&mut self, numbers: &mut Numbers) {
        let damage = Damage::new(numbers);
        let need = self.s.directory();
        let directory = self.imported(numbers, damage.rows);
        let (s, table, whole) = self.lend(numbers, &directory, need, spoil_directory, damage.table);
        let own = who(numbers, 0, self.s.m);
        let owner = if own < self.s.m {
            own
        } else {
            numbers.below(self.s.m)
        };
        let mut fields = records::record(numbers, self.s, self.step, owner, &damage);
        if rare(numbers) {
            spoil(numbers, &mut fields);
        }
        let (end, answer) = self.pair.update(s, own, &table, &fields);
        let causes = update_causes(s, own, &table, &fields);
        let detail = || format!("update {s:?} {own} {fields:?}");
        self.account
            .calls
            .note("directory, update", refused(answer));
        self.account.updates.note(&causes, answer, detail);
        if !causes.is_empty() && causes.iter().all(|cause| ROWS.contains(cause)) {
            self.note_in_vain(s, own, &table, &fields, answer);
        }
        assert!(answer.is_ok() || end == table);
        // What is served has no other client's pointer, and is the session's own but for the update.
        if whole && answer.is_ok() {
            self.directory = end;
        }
    }

    /// Of an update that nothing refuses but pointers of the table.
    fn note_in_vain(
        &mut self,
        s: Measures,
        own: usize,
        table: &[u8],
        fields: &[u8],
        answer: Answer,
    ) {
        let cases = &mut self.account.updates.cases;
        if fields == [0] {
            cases.note(NO_FIELDS.1, refused(answer));
        }
        if records::would_replace(s, own, table, fields) {
            cases.note(REPLACED.1, refused(answer));
        }
    }

    /// One of three has its table damaged so often that two causes are met at once.
    fn scan(&mut self, numbers: &mut Numbers) {
        let odds = [RARE, RARE, 3][numbers.below(3)];
        let [spoilt, foreign] = [(); 2].map(|_| numbers.below(odds) == 0);
        let need = self.s.directory();
        let directory = self.imported(numbers, foreign);
        let (s, table, _) = self.lend(numbers, &directory, need, spoil_directory, spoilt);
        let spare = numbers.below(3);
        let room = numbers.bytes(need + spare);
        let room = cut(numbers, &room, need);
        let (end, answer) = self.pair.scan(s, &table, &room);
        let causes = scan_causes(s, &table, &room);
        self.account.calls.note("directory, scan", refused(answer));
        self.account
            .scans
            .note(&causes, answer, || format!("scan {s:?}"));
        assert!(answer.is_ok() || end == room);
    }

    fn message(&mut self, numbers: &mut Numbers) {
        let spoilt = rare(numbers);
        let (s, table, whole) =
            self.lend(numbers, &self.table, self.s.table(), spoil_table, spoilt);
        let i = who(numbers, 1, self.s.n);
        let mut message = message(numbers, self.s, self.step);
        if rare(numbers) {
            spoil(numbers, &mut message);
        }
        let spare = numbers.below(3);
        let room = numbers.bytes(self.s.answer() + spare);
        let room = cut(numbers, &room, self.s.answer());
        let (end, reply, answer) = self.pair.message(s, i, &table, &message, &room);
        let kind = match message.first() {
            Some(1) => "node, store",
            Some(2) => "node, request",
            Some(3) => "node, free",
            _ => "node, no message",
        };
        self.account.calls.note(kind, refused(answer));
        assert!(answer.is_ok() || (end == table && reply == room));
        if answer.is_ok() {
            let case = match (message[0], table[..2] == end[..2]) {
                (1, true) => "node, store: over a held one",
                (1, false) => "node, store: new",
                (2, _) if reply[6] == 0 => "node, request: not held",
                (2, _) => "node, request: held",
                (_, true) => "node, free: none held",
                (_, false) => "node, free: some held",
            };
            self.account.calls.note(case, refused(answer));
        }
        if whole && answer.is_ok() {
            self.table = end;
        }
    }
}

/// So many calls; each refusal that there is must have been met.
pub fn calls(
    names: &str,
    ours: &mut dyn Parties,
    theirs: &mut dyn Parties,
    numbers: &mut Numbers,
    total: usize,
) {
    let mut account = Account::default();
    let mut done = 0;
    while done < total {
        let pair = Pair {
            ours: &mut *ours,
            theirs: &mut *theirs,
        };
        let mut session = Session::new(pair, &mut account, numbers);
        done += 2;
        // A large table takes as long as a hundred small ones.
        let turns = 20 + numbers.below(if session.s.table() > 100_000 { 20 } else { 300 });
        for _ in 0..turns {
            done += 1;
            match numbers.below(20) {
                0 => {
                    done += 1;
                    session.fresh(numbers);
                }
                1..=6 => session.update(numbers),
                7..=9 => session.scan(numbers),
                _ => session.message(numbers),
            }
        }
    }
    println!("{done} calls to the directory and the node of {names}: the same answers and bytes, every refusal among them, of updates and scans by each cause");
    account.calls.print("");
    account.updates.cases.print("update");
    account.scans.cases.print("scan");
    account.covered();
    for (name, met) in [
        ("directory, fresh", vec![0, 1, 2]),
        ("directory, update", vec![0, 1, 2, 3, 4, 11, 12, 14]),
        ("directory, scan", vec![0, 1, 2, 4, 14]),
        ("node, fresh", vec![0, 1, 2]),
        ("node, store", vec![0, 1, 2, 3, 4, 8]),
        ("node, request", vec![0, 1, 2, 3, 4]),
        ("node, free", vec![0, 1, 2, 3, 4]),
        ("node, no message", vec![1, 2, 3, 4]),
    ] {
        assert_eq!(account.calls.met(name), BTreeSet::from_iter(met), "{name}");
    }
    for case in [
        "node, store: over a held one",
        "node, store: new",
        "node, request: not held",
        "node, request: held",
        "node, free: none held",
        "node, free: some held",
    ] {
        assert!(!account.calls.met(case).is_empty(), "{case}");
    }
}
