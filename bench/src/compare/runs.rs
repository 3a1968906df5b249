//! Whole random runs: a directory, nodes and clients from fresh tables, events in any order, up to t nodes that lie, clients that stop,
//! calls that are refused. After every event the clauses of demand 3 are tested on what it touched, and at the end on everything.

use crate::client::{nodes_of, read_message, Client, Message, Nodes, Step};
use crate::coding;
use crate::digests;
use crate::parties::{put_version, read_rows, read_table, Bytes, Held, Pointer, Record, NONE};
use crate::random::{spoil, Numbers};
use crate::sides::Parties;
use crate::tally::Tally;
use jolbizna::{Answer, ClientAnswer, Measures, Version};
use std::collections::{BTreeMap, BTreeSet, VecDeque};

// The clauses of demand 3, and what is tested beside them.
pub const EQUAL: &str = "equal versions: the same deposit";
pub const ALIKE: &str = "the same deposit: equal versions";
pub const ORDER: &str = "a later operation: no lower";
pub const STRICT: &str = "a later deposit: higher";
pub const BYTES: &str = "exact bytes";
pub const HELD: &str = "named honest nodes hold";
pub const FEW: &str = "at most 2m pieces of a writer";
pub const MATCH: &str = "matches exactly the node's own piece";
pub const NEVER: &str = "no 7, 8, 9, 11, 12 or 14";
pub const FORM: &str = "4 for liars' bytes alone";
pub const NUMBER: &str = "the number of a refusal";
pub const SAME: &str = "refused: bytes as they came";
pub const REST: &str = "the rest of the output stays";
pub const PLACE: &str = "an answer in its place";
pub const ENDS: &str = "all delivered: ended";

const CLAUSES: [&str; 15] = [
    EQUAL, ALIKE, ORDER, STRICT, BYTES, HELD, FEW, MATCH, NEVER, FORM, NUMBER, SAME, REST, PLACE,
    ENDS,
];

/// Events, with the numbers that come.
const EVENTS: [(&str, &[u32]); 11] = [
    ("start of a deposit", &[0, 3, 5, 6]),
    ("start of a reading", &[0, 2, 3, 5]),
    ("update carried out", &[0, 3]),
    ("scan carried out", &[0, 2]),
    ("update's answer", &[0, 2, 3]),
    ("scan's answer", &[0, 2, 3]),
    ("message to a node", &[0, 2, 3]),
    ("message to a liar", &[0]),
    ("message to a client", &[0, 2, 3]),
    ("lie", &[0, 2, 3, 4]),
    ("client stops", &[0]),
];

/// What else happens.
const MET: [&str; 35] = [
    "deposits ended",
    "deposits ended, a store under way",
    "readings ended with a page",
    "readings ended empty",
    "readings kept an older page",
    "deposits left by a stop",
    "readings left by a stop",
    "deposits left open",
    "readings left open",
    "runs without liars",
    "runs with liars",
    "runs brought to rest",
    "runs broken off",
    "runs that end with 2m pieces",
    "refused before: call carried out",
    "refused before: answer handed over",
    "refused before: message to a node",
    "refused before: message to a client",
    "lie: acknowledgement",
    "lie: acknowledgement again",
    "lie: true piece",
    "lie: another piece",
    "lie: altered piece",
    "lie: empty piece",
    "lie: long piece",
    "lie: not held",
    "lie: passed over",
    "pieces that match",
    "pieces that do not match",
    "lied piece, k 1: matches",
    "lied piece, k 1: another deposit's",
    "lied piece, k > 1: matches",
    "lied piece, k > 1: another node's",
    "lied piece, k > 1: another deposit's",
    "lied piece: nobody's",
];

/// With fewer runs something may not be met by chance.
const ENOUGH: usize = 500;

/// A clause that does not hold.
#[derive(Debug)]
pub struct Fault {
    pub clause: &'static str,
    pub detail: String,
}

type Verdict = Result<(), Fault>;

fn fault<T>(clause: &'static str, detail: String) -> Result<T, Fault> {
    Err(Fault { clause, detail })
}

fn test(holds: bool, clause: &'static str, detail: impl FnOnce() -> String) -> Verdict {
    if holds {
        return Ok(());
    }
    fault(clause, detail())
}

/// What was done, and how often each clause was tested. The same runs of other parties that do the same have the same counts.
#[derive(Default, PartialEq)]
pub struct Counts {
    pub runs: usize,
    pub events: usize,
    tally: Tally,
    tested: BTreeMap<&'static str, usize>,
    met: BTreeMap<&'static str, usize>,
    /// A sum of all bytes that the events left.
    sum: u64,
}

impl Counts {
    fn left(&mut self, parts: &[&[u8]]) {
        for byte in parts.iter().copied().flatten() {
            self.sum = self.sum.wrapping_mul(0x100000001b3) ^ *byte as u64;
        }
    }

    fn event(&mut self, name: &'static str, number: u32) {
        self.events += 1;
        self.tally.note(name, number);
    }

    fn tested(&mut self, clause: &'static str) {
        *self.tested.entry(clause).or_default() += 1;
    }

    fn met(&mut self, what: &'static str) {
        *self.met.entry(what).or_default() += 1;
    }

    /// Stops unless every clause was tested, and everything that is counted was met.
    fn covered(&self) {
        for clause in CLAUSES {
            assert!(self.tested.contains_key(clause), "not tested: {clause}");
        }
        let met: BTreeSet<&str> = self.met.keys().copied().collect();
        assert_eq!(met, BTreeSet::from(MET), "what the runs met");
        for (event, numbers) in EVENTS {
            let numbers = BTreeSet::from_iter(numbers.iter().copied());
            assert_eq!(self.tally.met(event), numbers, "{event}");
        }
    }

    pub fn print(&self) {
        self.tally.print("");
        for (head, counts) in [("met", &self.met), ("tested", &self.tested)] {
            println!("{:<36} {head:>10}", "");
            for (name, count) in counts {
                println!("{name:<36} {count:>10}");
            }
        }
    }
}

/// A deposit concerns itself, a reading the deposit whose update first put its pointer in as written.
#[derive(Clone, Copy, Debug, PartialEq)]
enum Concern {
    Deposit(usize),
    Nothing,
}

struct Operation {
    client: usize,
    began: usize,
    ended: Option<usize>,
    /// A deposit's page, and its n pieces; of a reading there is none.
    page: Option<Vec<u8>>,
    pieces: Vec<Vec<u8>>,
    /// Borne once drawn, or once picked.
    version: Option<Version>,
    /// What a reading picked, and the page that it ended with.
    pointer: Option<Pointer>,
    given: Option<Vec<u8>>,
}

impl Operation {
    fn is_deposit(&self) -> bool {
        self.page.is_some()
    }
}

#[derive(Clone)]
enum Call {
    Scan,
    Update(Vec<u8>),
}

#[derive(Clone)]
enum Told {
    Rows(Vec<u8>),
    Updated,
}

#[derive(Clone, Copy)]
enum Event {
    Deposit(usize),
    Read(usize),
    /// The directory carries out a client's call; its answer is handed over.
    Carry(usize),
    Tell(usize),
    /// The oldest message from a client to a node, or from a node to a client.
    Bring(usize, usize),
    Deliver(usize, usize),
    Lie(usize, usize),
    Stop(usize),
}

/// Where something is under way.
#[derive(Clone, Copy, PartialEq, Eq, PartialOrd, Ord)]
enum Channel {
    Call(usize),
    Told(usize),
    ToNode(usize, usize),
    ToClient(usize, usize),
}

/// What a caller gets wrong; the lowest number is that of the short slice.
#[derive(Clone, Copy, Default)]
struct Slip {
    short: bool,
    number: bool,
}

impl Slip {
    /// None, most times.
    fn new(numbers: &mut Numbers) -> Self {
        let kind = numbers.below(40);
        Slip {
            short: kind == 0 || kind == 1,
            number: kind == 0 || kind == 2,
        }
    }

    /// The number that must be given, if that of the rest is this one; 0 is for served.
    fn number(self, rest: u32) -> u32 {
        match self {
            Slip { short: true, .. } => 2,
            Slip { number: true, .. } => 3,
            _ => rest,
        }
    }

    /// A room of any bytes, and long enough unless the caller slips.
    fn room(self, numbers: &mut Numbers, need: usize) -> Vec<u8> {
        let len = if self.short {
            numbers.below(need.max(1))
        } else {
            need + numbers.below(3)
        };
        numbers.bytes(len)
    }

    fn own(self, numbers: &mut Numbers, s: Measures, c: usize) -> usize {
        if self.number {
            return [s.m, s.m + 1, usize::MAX][numbers.below(3)];
        }
        c
    }

    fn node(self, numbers: &mut Numbers, s: Measures, i: usize) -> usize {
        if self.number {
            return [0, s.n + 1, usize::MAX][numbers.below(3)];
        }
        i
    }
}

/// How often each channel is served beside the others; now and then all change.
struct Paces {
    deposits: Vec<usize>,
    readings: Vec<usize>,
    calls: Vec<usize>,
    told: Vec<usize>,
    bring: Vec<usize>,
    deliver: Vec<usize>,
}

impl Paces {
    fn new(numbers: &mut Numbers, s: Measures) -> Self {
        let mut some = |count: usize| -> Vec<usize> {
            (0..count)
                .map(|_| [1, 4, 16, 64][numbers.below(4)])
                .collect()
        };
        let told = some(s.m);
        // A slow client is slow in all that it waits for.
        let slow = |pace: usize, c: usize| pace.min(told[c]);
        Paces {
            deposits: some(s.m),
            readings: some(s.m),
            calls: (0..)
                .zip(some(s.m))
                .map(|(c, pace)| slow(pace, c))
                .collect(),
            bring: some(s.m * s.n),
            deliver: (0..)
                .zip(some(s.m * s.n))
                .map(|(at, pace)| slow(pace, at / s.n))
                .collect(),
            told,
        }
    }
}

struct Run<'a> {
    side: &'a mut dyn Parties,
    counts: &'a mut Counts,
    s: Measures,
    liars: Nodes,
    directory: Vec<u8>,
    tables: Vec<Vec<u8>>,
    records: Vec<Vec<u8>>,
    // What is under way.
    calls: Vec<Option<Call>>,
    told: Vec<Option<Told>>,
    to_node: BTreeMap<(usize, usize), VecDeque<Vec<u8>>>,
    to_client: BTreeMap<(usize, usize), VecDeque<Vec<u8>>>,
    /// Where the next thing was refused before.
    refused: BTreeSet<Channel>,
    stopped: BTreeSet<usize>,
    // The history.
    now: usize,
    operations: Vec<Operation>,
    last: Vec<Option<usize>>,
    puts: Vec<(Pointer, usize)>,
    /// What the honest nodes' tables show.
    held: Vec<Held>,
    /// The operation that the event marked.
    touched: Option<usize>,
    closing: bool,
}

/// Mostly small, with room for nodes that lie.
fn measures(numbers: &mut Numbers) -> Measures {
    let large = numbers.below(25) == 0;
    let t = if large {
        numbers.below(6)
    } else {
        [0, 1, 1, 2][numbers.below(4)]
    };
    let k = 1 + numbers.below(if large { 16 - 2 * t } else { 3 });
    let n = (2 * t + k + numbers.below(2)).min(16);
    let m = 1 + numbers.below(if large { 8 } else { 4 });
    let f = 4usize.div_ceil(k) + numbers.below(if large { 300 } else { 8 });
    Measures { m, n, k, t, f }
}

impl<'a> Run<'a> {
    fn new(side: &'a mut dyn Parties, counts: &'a mut Counts, numbers: &mut Numbers) -> Self {
        let s = measures(numbers);
        let count = [0, s.t, s.t, numbers.below(s.t + 1)][numbers.below(4)];
        let mut liars = Nodes::new();
        while liars.len() < count {
            liars.insert(1 + numbers.below(s.n));
        }
        let spare = numbers.below(3);
        let mut directory = numbers.bytes(s.directory() + spare);
        assert_eq!(side.directory_fresh(s, &mut directory), Ok(0));
        let mut tables = vec![numbers.bytes(s.table() + spare); s.n];
        for table in &mut tables {
            assert_eq!(side.node_fresh(s, table), Ok(0));
        }
        counts.met(if liars.is_empty() {
            "runs without liars"
        } else {
            "runs with liars"
        });
        let mut records = vec![numbers.bytes(s.record() + spare); s.m];
        for record in &mut records {
            assert_eq!(side.fresh(s, record), ClientAnswer::Waits);
        }
        Run {
            side,
            counts,
            s,
            liars,
            directory,
            tables,
            records,
            calls: vec![None; s.m],
            told: vec![None; s.m],
            to_node: BTreeMap::new(),
            to_client: BTreeMap::new(),
            refused: BTreeSet::new(),
            stopped: BTreeSet::new(),
            now: 0,
            operations: Vec::new(),
            last: vec![None; s.m],
            puts: Vec::new(),
            held: vec![Held::new(); s.n],
            touched: None,
            closing: false,
        }
    }

    /// The client's operation, if one is open.
    fn open(&self, c: usize) -> Option<usize> {
        self.last[c].filter(|o| self.operations[*o].ended.is_none())
    }

    // ---- choosing

    fn choices(&self, paces: &Paces) -> Vec<(Event, usize)> {
        let mut out = Vec::new();
        for c in 0..self.s.m {
            if self.calls[c].is_some() {
                out.push((Event::Carry(c), paces.calls[c]));
            }
            if self.stopped.contains(&c) {
                continue;
            }
            if self.told[c].is_some() {
                out.push((Event::Tell(c), paces.told[c]));
            }
            if !self.closing && self.open(c).is_none() {
                out.push((Event::Deposit(c), paces.deposits[c]));
                out.push((Event::Read(c), paces.readings[c]));
            }
        }
        for ((c, i), queue) in &self.to_node {
            if !queue.is_empty() {
                out.push((Event::Bring(*c, *i), paces.bring[c * self.s.n + i - 1]));
            }
        }
        for ((c, i), queue) in &self.to_client {
            if !queue.is_empty() && !self.stopped.contains(c) {
                out.push((Event::Deliver(*c, *i), paces.deliver[c * self.s.n + i - 1]));
            }
        }
        out
    }

    fn choose(&self, numbers: &mut Numbers, paces: &Paces) -> Option<Event> {
        let c = numbers.below(self.s.m);
        if !self.closing && !self.stopped.contains(&c) {
            // Seldom a client stops, or is asked to start whether it is its turn or not.
            match numbers.below(900) {
                0 => return Some(Event::Stop(c)),
                1..=5 => return Some(Event::Deposit(c)),
                6..=10 => return Some(Event::Read(c)),
                _ => {}
            }
            let liar = self.liars.iter().nth(numbers.below(3));
            if let (Some(i), 0) = (liar, numbers.below(2)) {
                return Some(Event::Lie(*i, c));
            }
        }
        let choices = self.choices(paces);
        let total: usize = choices.iter().map(|(_, weight)| weight).sum();
        let mut at = numbers.below(total.max(1));
        for (event, weight) in choices {
            if at < weight {
                return Some(event);
            }
            at -= weight;
        }
        None
    }

    // ---- events

    fn carry_out(&mut self, numbers: &mut Numbers, event: Event) -> Verdict {
        let slip = if self.closing {
            Slip::default()
        } else {
            Slip::new(numbers)
        };
        match event {
            Event::Deposit(c) => self.deposit(numbers, c, slip),
            Event::Read(c) => self.read(numbers, c, slip),
            Event::Carry(c) => self.carry(numbers, c, slip),
            Event::Tell(c) => self.tell(numbers, c, slip),
            Event::Bring(c, i) => self.bring(numbers, c, i, slip),
            Event::Deliver(c, i) => self.deliver(numbers, c, i, slip),
            Event::Lie(i, c) => {
                let message = self.lie(numbers, i, c);
                let kind = self.kind_of_lie(i, c, &message);
                if self.hand(numbers, "lie", c, i, &message, slip)? {
                    self.counts.met(kind);
                }
                Ok(())
            }
            Event::Stop(c) => {
                self.counts.event("client stops", 0);
                self.stopped.insert(c);
                Ok(())
            }
        }
    }

    fn begin(&mut self, c: usize, page: Option<Vec<u8>>) {
        let pieces = page.as_ref().map_or(Vec::new(), |page| self.cut(page));
        self.last[c] = Some(self.operations.len());
        self.operations.push(Operation {
            client: c,
            began: self.now,
            ended: None,
            page,
            pieces,
            version: None,
            pointer: None,
            given: None,
        });
    }

    fn cut(&self, page: &[u8]) -> Vec<Vec<u8>> {
        let s = self.s;
        let mut room = vec![0; s.n * s.f];
        let len = coding::split(s.n, s.k, s.f, page, &mut room).expect("the page fits");
        room.chunks(s.f).map(|area| area[..len].to_vec()).collect()
    }

    fn deposit(&mut self, numbers: &mut Numbers, c: usize, slip: Slip) -> Verdict {
        let s = self.s;
        // No room is lent; what may be wrong beside the number is the page.
        let long = numbers.below(20) == 0;
        let len = if long {
            s.page() + 1 + numbers.below(4)
        } else {
            numbers.below(s.page() + 1)
        };
        let page = numbers.bytes(len);
        let busy = self.open(c).is_some();
        let slip = Slip {
            short: false,
            ..slip
        };
        let wants = slip.number(if busy { 5 } else { 6 * long as u32 });
        let own = slip.own(numbers, s, c);
        let call = Lent::new(self, c, Vec::new(), Vec::new());
        let served = call.of("start of a deposit", wants, |side, record, _, _| {
            side.deposit(s, own, record, &page)
        })?;
        self.begins(c, served, Some(page))
    }

    fn read(&mut self, numbers: &mut Numbers, c: usize, slip: Slip) -> Verdict {
        let s = self.s;
        let wants = slip.number(5 * self.open(c).is_some() as u32);
        let own = slip.own(numbers, s, c);
        let room = slip.room(numbers, s.room());
        let call = Lent::new(self, c, room, Vec::new());
        let served = call.of("start of a reading", wants, |side, record, room, _| {
            side.read(s, own, record, room)
        })?;
        self.begins(c, served, None)
    }

    fn begins(&mut self, c: usize, served: Option<Served>, page: Option<Vec<u8>>) -> Verdict {
        let Some(served) = served else {
            return Ok(());
        };
        self.begin(c, page);
        self.follow(c, served)
    }

    fn carry(&mut self, numbers: &mut Numbers, c: usize, slip: Slip) -> Verdict {
        match self.calls[c].clone() {
            Some(Call::Update(fields)) => self.update(numbers, c, &fields, slip),
            Some(Call::Scan) => self.scan(numbers, c, slip),
            None => Ok(()),
        }
    }

    fn update(&mut self, numbers: &mut Numbers, c: usize, fields: &[u8], slip: Slip) -> Verdict {
        let s = self.s;
        let slip = Slip {
            short: false,
            ..slip
        };
        let own = slip.own(numbers, s, c);
        let before = self.directory.clone();
        let answer = self
            .side
            .directory_update(s, own, &mut self.directory, fields);
        let same = before == self.directory;
        self.counts.left(&[&self.directory]);
        if !self.served("update carried out", answer, slip.number(0), same)? {
            return self.stays(Channel::Call(c));
        }
        self.goes(Channel::Call(c));
        let written = Record::read(s, &mut Bytes(fields)).and_then(|record| record.written);
        if let (Some(pointer), Some(o)) = (written, self.last[c]) {
            self.puts.push((pointer, o));
        }
        self.calls[c] = None;
        self.told[c] = Some(Told::Updated);
        Ok(())
    }

    fn scan(&mut self, numbers: &mut Numbers, c: usize, slip: Slip) -> Verdict {
        let slip = Slip {
            number: false,
            ..slip
        };
        let mut room = slip.room(numbers, self.s.directory());
        let before = room.clone();
        let answer = self.side.directory_scan(self.s, &self.directory, &mut room);
        self.counts.left(&[&room]);
        if !self.served("scan carried out", answer, slip.number(0), before == room)? {
            return self.stays(Channel::Call(c));
        }
        self.goes(Channel::Call(c));
        room.truncate(answer.unwrap_or(0));
        self.calls[c] = None;
        self.told[c] = Some(Told::Rows(room));
        Ok(())
    }

    /// The directory's answer is handed to the client.
    fn tell(&mut self, numbers: &mut Numbers, c: usize, slip: Slip) -> Verdict {
        let Some(told) = self.told[c].clone() else {
            return Ok(());
        };
        let s = self.s;
        let own = slip.own(numbers, s, c);
        let room = slip.room(numbers, s.room());
        let call = Lent::new(self, c, room, Vec::new());
        let wants = slip.number(0);
        let served = match &told {
            Told::Updated => call.of("update's answer", wants, |side, record, room, _| {
                side.updated(s, own, record, room)
            })?,
            Told::Rows(rows) => call.of("scan's answer", wants, |side, record, room, _| {
                side.scanned(s, own, record, rows, room)
            })?,
        };
        let Some(served) = served else {
            return self.stays(Channel::Told(c));
        };
        self.goes(Channel::Told(c));
        if let (ClientAnswer::Requests(version, _), Told::Rows(rows)) = (served.answer, &told) {
            self.note_older(version, rows);
        }
        self.told[c] = None;
        self.follow(c, served)
    }

    /// A reading that picked less than the highest written version was kept a page.
    fn note_older(&mut self, version: Version, rows: &[u8]) {
        let rows = read_rows(self.s, rows).into_iter().flatten();
        let highest = rows.filter_map(|row| row.written).map(|p| p.version).max();
        if highest > Some(version) {
            self.counts.met("readings kept an older page");
        }
    }

    fn bring(&mut self, numbers: &mut Numbers, c: usize, i: usize, slip: Slip) -> Verdict {
        let message = self.to_node.get(&(c, i)).and_then(|queue| queue.front());
        let Some(message) = message.cloned() else {
            return Ok(());
        };
        if self.liars.contains(&i) {
            self.counts.event("message to a liar", 0);
            self.to_node.entry((c, i)).or_default().pop_front();
            return Ok(());
        }
        let s = self.s;
        let node = slip.node(numbers, s, i);
        let mut room = slip.room(numbers, s.answer());
        let before = (self.tables[i - 1].clone(), room.clone());
        let table = &mut self.tables[i - 1];
        let answer = self.side.node_message(s, node, table, &message, &mut room);
        let same = before.0 == self.tables[i - 1] && before.1 == room;
        self.counts.left(&[&self.tables[i - 1], &room]);
        if !self.served("message to a node", answer, slip.number(0), same)? {
            return self.stays(Channel::ToNode(c, i));
        }
        self.goes(Channel::ToNode(c, i));
        self.held[i - 1] = match read_table(s, &self.tables[i - 1]) {
            Some(held) => held,
            None => return fault(FORM, format!("the table of node {i} is out of form")),
        };
        room.truncate(answer.unwrap_or(0));
        self.to_node.entry((c, i)).or_default().pop_front();
        self.to_client.entry((c, i)).or_default().push_back(room);
        Ok(())
    }

    fn deliver(&mut self, numbers: &mut Numbers, c: usize, i: usize, slip: Slip) -> Verdict {
        let message = self.to_client.get(&(c, i)).and_then(|queue| queue.front());
        let Some(message) = message.cloned() else {
            return Ok(());
        };
        if !self.hand(numbers, "message to a client", c, i, &message, slip)? {
            return self.stays(Channel::ToClient(c, i));
        }
        self.goes(Channel::ToClient(c, i));
        self.to_client.entry((c, i)).or_default().pop_front();
        Ok(())
    }

    /// What was refused stays under way.
    fn stays(&mut self, channel: Channel) -> Verdict {
        self.refused.insert(channel);
        Ok(())
    }

    fn goes(&mut self, channel: Channel) {
        if self.refused.remove(&channel) {
            self.counts.met(match channel {
                Channel::Call(_) => "refused before: call carried out",
                Channel::Told(_) => "refused before: answer handed over",
                Channel::ToNode(..) => "refused before: message to a node",
                Channel::ToClient(..) => "refused before: message to a client",
            });
        }
    }

    /// A message is handed to a client. Says whether it was used up.
    fn hand(
        &mut self,
        numbers: &mut Numbers,
        name: &'static str,
        c: usize,
        i: usize,
        message: &[u8],
        slip: Slip,
    ) -> Result<bool, Fault> {
        let s = self.s;
        // Only a liar's bytes may be out of form, and only a lie may be refused for them.
        let broken = read_message(s, message).is_none() && self.liars.contains(&i);
        let wants = slip.number(4 * broken as u32);
        let (mut own, mut node) = (c, i);
        if numbers.below(2) == 0 {
            own = slip.own(numbers, s, c);
        } else {
            node = slip.node(numbers, s, i);
        }
        // Of two slices one is short; an output of no bytes cannot be.
        let by_output = s.page() > 0 && numbers.below(2) == 0;
        let (first, second) = if by_output {
            (Slip::default(), slip)
        } else {
            (slip, Slip::default())
        };
        let room = first.room(numbers, s.room());
        let out = second.room(numbers, s.page());
        let call = Lent::new(self, c, room, out);
        let served = call.of(name, wants, |side, record, room, out| {
            side.receive(s, own, node, record, message, room, out)
        })?;
        let Some(served) = served else {
            return Ok(false);
        };
        self.follow(c, served)?;
        self.test_match(i, message)?;
        Ok(true)
    }

    /// Whether a call to the directory or a node was served, as it should be.
    fn served(
        &mut self,
        name: &'static str,
        answer: Answer,
        wants: u32,
        same: bool,
    ) -> Result<bool, Fault> {
        let number = answer.err().unwrap_or(0);
        self.judge(name, number, wants, same)?;
        Ok(number == 0)
    }

    fn judge(&mut self, name: &'static str, number: u32, wants: u32, same: bool) -> Verdict {
        self.counts.event(name, number);
        self.counts.tested(NEVER);
        self.counts.tested(FORM);
        self.counts.tested(NUMBER);
        let detail = || format!("{name}: {number} where {wants} is due");
        test(![7, 8, 9, 11, 12, 14].contains(&number), NEVER, detail)?;
        test(number != 4 || wants == 4, FORM, detail)?;
        test(number == wants, NUMBER, detail)?;
        if number > 0 {
            self.counts.tested(SAME);
            test(same, SAME, detail)?;
        }
        Ok(())
    }

    // ---- what follows from a client's answer

    fn follow(&mut self, c: usize, served: Served) -> Verdict {
        let s = self.s;
        let room = &served.room;
        if let Some(message) = self.side.aside() {
            self.send_all(c, &message);
        }
        match served.answer {
            ClientAnswer::Waits => Ok(()),
            ClientAnswer::Scan => self.ask(c, Call::Scan),
            ClientAnswer::Update(len) => self.ask(c, Call::Update(room[..len].to_vec())),
            ClientAnswer::Stores(version, len) => {
                let o = self.marked(c, true)?;
                self.operations[o].version = Some(version);
                for i in 1..=s.n {
                    let piece = &room[6 + (i - 1) * s.f..][..len];
                    self.send(c, i, [&room[..6], piece].concat());
                }
                Ok(())
            }
            ClientAnswer::Deposited(version, len) => {
                let o = self.marked(c, true)?;
                self.bears(o, version)?;
                self.note_slow(c, version);
                self.send_all(c, &room[..len]);
                self.counts.met("deposits ended");
                self.end(o)
            }
            ClientAnswer::Requests(version, nodes) => {
                let o = self.marked(c, false)?;
                let pointer = self.picked(c)?;
                self.operations[o].version = Some(pointer.version);
                self.bears(o, version)?;
                self.operations[o].pointer = Some(pointer);
                for i in nodes_of(nodes) {
                    self.send(c, i, room[..6].to_vec());
                }
                Ok(())
            }
            ClientAnswer::Empty => {
                let o = self.marked(c, false)?;
                self.operations[o].version = Some(NONE);
                self.operations[o].pointer = Some(Pointer::none());
                self.counts.met("readings ended empty");
                self.end(o)
            }
            ClientAnswer::Page(version, len) => {
                let o = self.marked(c, false)?;
                self.bears(o, version)?;
                self.operations[o].given = Some(served.out[..len].to_vec());
                self.counts.met("readings ended with a page");
                self.end(o)
            }
            // Judged before.
            ClientAnswer::Refused(_) | ClientAnswer::Spent | ClientAnswer::Failed => Ok(()),
        }
    }

    /// A deposit may end while its piece for a slow node is still under way.
    fn note_slow(&mut self, c: usize, version: Version) {
        let mut store = vec![1];
        put_version(&mut store, version);
        let queues = self.to_node.iter().filter(|((of, _), _)| *of == c);
        let mut messages = queues.flat_map(|(_, queue)| queue);
        if messages.any(|message| message.starts_with(&store)) {
            self.counts.met("deposits ended, a store under way");
        }
    }

    /// The client's open operation, which must be of the kind that its answer speaks of.
    fn marked(&mut self, c: usize, deposit: bool) -> Result<usize, Fault> {
        self.counts.tested(PLACE);
        let open = self.open(c);
        match open.filter(|o| self.operations[*o].is_deposit() == deposit) {
            Some(o) => {
                self.touched = Some(o);
                Ok(o)
            }
            None => fault(PLACE, format!("client {c} has no such operation open")),
        }
    }

    fn bears(&mut self, o: usize, version: Version) -> Verdict {
        self.counts.tested(PLACE);
        let borne = self.operations[o].version;
        test(borne == Some(version), PLACE, || {
            format!("operation {o} bears {borne:?}, its answer has {version:?}")
        })
    }

    /// The pointer in the client's record.
    fn picked(&self, c: usize) -> Result<Pointer, Fault> {
        match Client::read(self.s, &self.records[c]).map(|client| client.step) {
            Some(Step::Fetching { pointer, .. }) => Ok(pointer),
            _ => fault(PLACE, format!("client {c} shows no pointer")),
        }
    }

    fn ask(&mut self, c: usize, call: Call) -> Verdict {
        self.counts.tested(PLACE);
        let free = self.calls[c].is_none() && self.told[c].is_none() && self.open(c).is_some();
        self.calls[c] = Some(call);
        test(free, PLACE, || format!("client {c} calls out of turn"))
    }

    fn end(&mut self, o: usize) -> Verdict {
        self.operations[o].ended = Some(self.now);
        Ok(())
    }

    fn send(&mut self, c: usize, i: usize, message: Vec<u8>) {
        self.to_node.entry((c, i)).or_default().push_back(message);
    }

    fn send_all(&mut self, c: usize, message: &[u8]) {
        for i in 1..=self.s.n {
            self.send(c, i, message.to_vec());
        }
    }

    // ---- lies

    /// A version of this run, most times the one that the client waits for.
    fn lied_version(&self, numbers: &mut Numbers, c: usize) -> Version {
        let own = self.last[c].and_then(|o| self.operations[o].version);
        let some = match numbers.below(4) {
            0 if !self.operations.is_empty() => {
                self.operations[numbers.below(self.operations.len())].version
            }
            1 => None,
            _ => own,
        };
        some.filter(|v| *v != NONE)
            .unwrap_or((1 + numbers.below(6) as u32, numbers.below(self.s.m) as u8))
    }

    /// A piece of a deposit of this version, of this or another node; or of another deposit.
    fn lied_piece(&self, numbers: &mut Numbers, version: Version, i: usize) -> Vec<u8> {
        let other = numbers.below(3) == 0;
        let deposits: Vec<&Operation> = self
            .operations
            .iter()
            .filter(|o| o.is_deposit() && (other || o.version == Some(version)))
            .collect();
        if deposits.is_empty() {
            let len = 1 + numbers.below(self.s.f);
            return numbers.bytes(len);
        }
        let pieces = &deposits[numbers.below(deposits.len())].pieces;
        let node = if numbers.below(4) == 0 {
            numbers.below(self.s.n)
        } else {
            i - 1
        };
        pieces[node].clone()
    }

    /// Any bytes: acknowledgements, also repeated; true, old, altered, short and long pieces; "not held"; broken messages.
    fn lie(&self, numbers: &mut Numbers, i: usize, c: usize) -> Vec<u8> {
        let s = self.s;
        let version = self.lied_version(numbers, c);
        // As often as not what the client waits for, 0 to 3 an acknowledgement, from 5 on a reply.
        let kind = match (self.open(c), numbers.below(2)) {
            (Some(o), 0) if self.operations[o].is_deposit() => 0,
            (Some(_), 0) => 5 + numbers.below(9),
            _ => numbers.below(14),
        };
        let mut out = vec![[4, 4, 4, 4, 5, 6, 6, 6, 6, 6, 6, 6, 6, 6][kind]];
        if kind != 4 {
            put_version(&mut out, version);
        }
        if kind >= 5 {
            let mut piece = self.lied_piece(numbers, version, i);
            match kind {
                5 => piece.clear(),
                6 => piece.resize(s.f + 1 + numbers.below(3), 7),
                7 => spoil(numbers, &mut piece),
                8 => piece.extend([0; 300]),
                _ => {}
            }
            out.push((kind != 9) as u8);
            if kind != 9 {
                out.extend(piece);
            }
        }
        match numbers.below(10) {
            0 => spoil(numbers, &mut out),
            1 => out[0] = numbers.below(9) as u8,
            2 => {
                let len = numbers.below(40);
                out = numbers.bytes(len);
            }
            _ => {}
        }
        out
    }

    /// What a lie is to the client that it is handed to.
    fn kind_of_lie(&self, i: usize, c: usize, message: &[u8]) -> &'static str {
        let client = Client::read(self.s, &self.records[c]);
        match (
            read_message(self.s, message),
            client.map(|client| client.step),
        ) {
            (
                Some(Message::Stored(of)),
                Some(Step::Storing {
                    version, stored, ..
                }),
            ) if of == version => {
                if stored.contains(&i) {
                    "lie: acknowledgement again"
                } else {
                    "lie: acknowledgement"
                }
            }
            (
                Some(Message::Reply(of, piece)),
                Some(Step::Fetching {
                    pointer, counted, ..
                }),
            ) if of == pointer.version && pointer.named().contains(&i) && !counted.contains(&i) => {
                piece.map_or("lie: not held", |piece| {
                    self.kind_of_piece(i, &pointer, piece)
                })
            }
            _ => "lie: passed over",
        }
    }

    fn kind_of_piece(&self, i: usize, pointer: &Pointer, piece: &[u8]) -> &'static str {
        let put = self.puts.iter().find(|(put, _)| put == pointer);
        let due = put.and_then(|(_, deposit)| self.operations[*deposit].pieces.get(i - 1));
        let mut pieces = self.operations.iter().flat_map(|o| &o.pieces);
        if piece.is_empty() {
            "lie: empty piece"
        } else if piece.len() > self.s.f {
            "lie: long piece"
        } else if due.is_some_and(|due| due == piece) {
            "lie: true piece"
        } else if pieces.any(|other| other == piece) {
            "lie: another piece"
        } else {
            "lie: altered piece"
        }
    }

    // ---- the clauses

    fn concern(&self, o: usize) -> Result<Concern, Fault> {
        let operation = &self.operations[o];
        let Some(pointer) = &operation.pointer else {
            return Ok(Concern::Deposit(o));
        };
        if pointer.version == NONE {
            return Ok(Concern::Nothing);
        }
        match self.puts.iter().find(|(put, _)| put == pointer) {
            Some((_, deposit)) => Ok(Concern::Deposit(*deposit)),
            None => fault(
                EQUAL,
                format!("no update put in the pointer of operation {o}"),
            ),
        }
    }

    /// Two version numbers borne are equal exactly when their operations concern the same deposit, or both found nothing.
    fn test_equal(&mut self, o: usize) -> Verdict {
        let Some(version) = self.operations[o].version else {
            return Ok(());
        };
        let concern = self.concern(o)?;
        for (p, other) in self.operations.iter().enumerate() {
            let Some(borne) = other.version.filter(|_| p != o) else {
                continue;
            };
            let alike = self.concern(p)? == concern;
            let detail = || format!("operations {o} and {p}: {version:?} and {borne:?}");
            self.counts.tested(if alike { ALIKE } else { EQUAL });
            test(!alike || version == borne, ALIKE, detail)?;
            test(alike || version != borne, EQUAL, detail)?;
        }
        Ok(())
    }

    /// If one operation ended before another began, its number is no higher, and lower if the later is a deposit.
    fn test_order(&mut self, o: usize) -> Verdict {
        let later = &self.operations[o];
        let Some(version) = later.version else {
            return Ok(());
        };
        for (p, earlier) in self.operations.iter().enumerate() {
            let before = earlier.ended.is_some_and(|ended| ended < later.began);
            let Some(borne) = earlier.version.filter(|_| before) else {
                continue;
            };
            let detail = || format!("operation {p} with {borne:?}, later {o} with {version:?}");
            if later.is_deposit() {
                self.counts.tested(STRICT);
                test(borne < version, STRICT, detail)?;
            } else {
                self.counts.tested(ORDER);
                test(borne <= version, ORDER, detail)?;
            }
        }
        Ok(())
    }

    /// A reading that ended with a page gave its deposit's exact bytes.
    fn test_bytes(&mut self, o: usize) -> Verdict {
        let Some(given) = &self.operations[o].given else {
            return Ok(());
        };
        let Concern::Deposit(d) = self.concern(o)? else {
            return fault(BYTES, format!("operation {o} gave a page of nothing"));
        };
        self.counts.tested(BYTES);
        test(
            self.operations[d].page.as_ref() == Some(given),
            BYTES,
            || format!("operation {o} gave other bytes than deposit {d}"),
        )
    }

    /// Every honest node named by an open reading's pointer holds its piece of that reading's deposit.
    fn test_held(&mut self) -> Verdict {
        for c in 0..self.s.m {
            let Some(o) = self.open(c) else {
                continue;
            };
            let Some(pointer) = &self.operations[o].pointer else {
                continue;
            };
            let Concern::Deposit(d) = self.concern(o)? else {
                continue;
            };
            for i in pointer.named().difference(&self.liars) {
                let piece = self.held[i - 1].get(&pointer.version);
                self.counts.tested(HELD);
                test(piece == self.operations[d].pieces.get(i - 1), HELD, || {
                    format!(
                        "node {i} lacks {:?}, which client {c} reads",
                        pointer.version
                    )
                })?;
            }
        }
        Ok(())
    }

    /// No honest node holds over 2m pieces of one writer.
    fn test_few(&mut self) -> Verdict {
        for (i, held) in (1..).zip(&self.held) {
            if self.liars.contains(&i) {
                continue;
            }
            let mut count = [0; 256];
            for (_, writer) in held.keys() {
                count[*writer as usize] += 1;
            }
            for (w, count) in count.iter().enumerate().take(self.s.m) {
                self.counts.tested(FEW);
                test(*count <= 2 * self.s.m, FEW, || {
                    format!("node {i} holds {count} pieces of client {w}")
                })?;
            }
        }
        Ok(())
    }

    /// A named node's piece that comes with the version of a reading, open or ended, matches exactly when it is that deposit's piece at
    /// that node.
    fn test_match(&mut self, i: usize, message: &[u8]) -> Verdict {
        let Some(Message::Reply(version, Some(piece))) = read_message(self.s, message) else {
            return Ok(());
        };
        for (o, pointer) in self.pointers(version) {
            let (Some(place), Concern::Deposit(d)) =
                (digests::place(&pointer, i), self.concern(o)?)
            else {
                continue;
            };
            let matches = pointer.digests[place] == digests::placed(version, i, piece);
            let due = self.operations[d].pieces[i - 1] == piece;
            self.counts.tested(MATCH);
            test(matches == due, MATCH, || {
                let found = if matches { "matches" } else { "does not match" };
                format!("a piece of {version:?} from node {i} {found}")
            })?;
            self.counts.met(if matches {
                "pieces that match"
            } else {
                "pieces that do not match"
            });
            if self.liars.contains(&i) {
                self.counts.met(self.kind_of_lied(d, i, piece));
            }
        }
        Ok(())
    }

    /// What readings of this version picked, each pointer once, with one of its readings.
    fn pointers(&self, version: Version) -> Vec<(usize, Pointer)> {
        let picked = |(o, of): (usize, &Operation)| Some((o, of.pointer.clone()?));
        let mut pointers: Vec<(usize, Pointer)> = (0..)
            .zip(&self.operations)
            .filter_map(picked)
            .filter(|(_, pointer)| pointer.version == version)
            .collect();
        pointers.dedup_by(|(_, other), (_, pointer)| other == pointer);
        pointers
    }

    /// Whose piece a liar sends under the version of a deposit. At k = 1 every node's piece of that deposit is the same bytes.
    fn kind_of_lied(&self, d: usize, i: usize, piece: &[u8]) -> &'static str {
        let among = |operation: &Operation| operation.pieces.iter().any(|other| other == piece);
        let deposit = &self.operations[d];
        match self.s.k {
            1 if deposit.pieces[i - 1] == piece => "lied piece, k 1: matches",
            _ if deposit.pieces[i - 1] == piece => "lied piece, k > 1: matches",
            _ if among(deposit) => "lied piece, k > 1: another node's",
            1 if self.operations.iter().any(among) => "lied piece, k 1: another deposit's",
            _ if self.operations.iter().any(among) => "lied piece, k > 1: another deposit's",
            _ => "lied piece: nobody's",
        }
    }

    fn clauses(&mut self) -> Verdict {
        if let Some(o) = self.touched.take() {
            self.test_equal(o)?;
            self.test_order(o)?;
            self.test_bytes(o)?;
        }
        self.test_held()?;
        self.test_few()
    }

    /// Everything once more, and that what could end has ended if nothing is under way any more.
    fn at_end(&mut self, rested: bool) -> Verdict {
        self.counts.met(if rested {
            "runs brought to rest"
        } else {
            "runs broken off"
        });
        for o in 0..self.operations.len() {
            self.test_equal(o)?;
            self.test_order(o)?;
            self.test_bytes(o)?;
        }
        self.test_held()?;
        self.test_few()?;
        for (o, operation) in self.operations.iter().enumerate() {
            let stopped = self.stopped.contains(&operation.client);
            if operation.ended.is_none() {
                self.counts.met(match (stopped, operation.is_deposit()) {
                    (true, true) => "deposits left by a stop",
                    (true, false) => "readings left by a stop",
                    (false, true) => "deposits left open",
                    (false, false) => "readings left open",
                });
            }
            if rested && !stopped {
                self.counts.tested(ENDS);
                test(operation.ended.is_some(), ENDS, || {
                    format!("operation {o} has not ended")
                })?;
            }
        }
        let full = 2 * self.s.m;
        if self.held.iter().any(|held| {
            (0..self.s.m).any(|w| held.keys().filter(|v| v.1 as usize == w).count() == full)
        }) {
            self.counts.met("runs that end with 2m pieces");
        }
        Ok(())
    }

    fn go(&mut self, numbers: &mut Numbers) -> Verdict {
        let mut paces = Paces::new(numbers, self.s);
        let events = 100 + numbers.below(700);
        // Half of the runs are brought to rest at the end.
        let rest = numbers.below(2) == 0;
        while self.now < events || rest {
            self.closing = self.now >= events;
            if numbers.below(150) == 0 {
                paces = Paces::new(numbers, self.s);
            }
            let Some(event) = self.choose(numbers, &paces) else {
                return self.at_end(true);
            };
            self.now += 1;
            self.carry_out(numbers, event)?;
            self.clauses()?;
        }
        self.at_end(false)
    }
}

/// What a client's event left, if it was not refused.
struct Served {
    answer: ClientAnswer,
    room: Vec<u8>,
    out: Vec<u8>,
}

/// An event at a client, with what is lent beside its record.
struct Lent<'r, 'a> {
    run: &'r mut Run<'a>,
    c: usize,
    room: Vec<u8>,
    out: Vec<u8>,
}

impl<'r, 'a> Lent<'r, 'a> {
    fn new(run: &'r mut Run<'a>, c: usize, room: Vec<u8>, out: Vec<u8>) -> Self {
        Lent { run, c, room, out }
    }

    fn of(
        self,
        name: &'static str,
        wants: u32,
        event: impl FnOnce(&mut dyn Parties, &mut [u8], &mut [u8], &mut [u8]) -> ClientAnswer,
    ) -> Result<Option<Served>, Fault> {
        let Lent {
            run,
            c,
            mut room,
            mut out,
        } = self;
        let before = (run.records[c].clone(), room.clone(), out.clone());
        let answer = event(run.side, &mut run.records[c], &mut room, &mut out);
        let same = before.0 == run.records[c] && before.1 == room && before.2 == out;
        run.counts.left(&[&run.records[c], &room, &out]);
        run.judge(name, answer.number(), wants, same)?;
        if answer.number() > 0 {
            return Ok(None);
        }
        let front = match answer {
            ClientAnswer::Page(_, len) => len,
            _ => 0,
        };
        if front < out.len() {
            run.counts.tested(REST);
        }
        test(out[front..] == before.2[front..], REST, || {
            format!("{name}: {answer:?}")
        })?;
        Ok(Some(Served { answer, room, out }))
    }
}

/// One run from fresh tables; gives what does not hold.
pub fn run(side: &mut dyn Parties, counts: &mut Counts, numbers: &mut Numbers) -> Verdict {
    counts.runs += 1;
    Run::new(side, counts, numbers).go(numbers)
}

/// So many runs, in all of which every clause must hold.
pub fn runs(name: &str, side: &mut dyn Parties, seed: u64, total: usize) -> Counts {
    let mut numbers = Numbers(seed);
    let mut counts = Counts::default();
    for at in 0..total {
        if let Err(fault) = run(side, &mut counts, &mut numbers) {
            panic!("{name}, run {at}: {}: {}", fault.clause, fault.detail);
        }
    }
    println!(
        "{total} random runs of {name}, {} events: every clause holds after each",
        counts.events
    );
    if total >= ENOUGH {
        counts.covered();
    } else {
        println!("fewer than {ENOUGH} runs: it is not asserted what they meet");
    }
    counts
}
