//! The title service as parties: what a call is lent is a part of the service's one memory, which goes from call to call.

use crate::parties::pass;
use crate::sides::Parties;
use jolbizna::{title, Answer, ClientAnswer, Measures};

/// What stands beyond the memory that is needed.
const SPARE: [u8; 3] = [0xee; 3];

/// A part of the memory.
#[derive(Clone, Copy)]
enum Part {
    Directory,
    Table(usize),
    Record(usize),
}

impl Part {
    fn size(self, s: Measures) -> usize {
        match self {
            Part::Directory => s.directory(),
            Part::Table(_) => s.table(),
            Part::Record(_) => s.record(),
        }
    }

    /// Where it begins, if there is one of that number.
    fn at(self, s: Measures) -> Option<usize> {
        match self {
            Part::Directory => Some(0),
            Part::Table(i) => (1..=s.n)
                .contains(&i)
                .then(|| s.directory() + (i - 1) * s.table()),
            Part::Record(c) => (c < s.m).then(|| s.directory() + s.n * s.table() + c * s.record()),
        }
    }
}

#[derive(Default)]
pub struct Service {
    s: Option<Measures>,
    memory: Vec<u8>,
    /// The parts as the calls left them, each for itself.
    parts: Vec<u8>,
    /// How many calls came with other bytes than stood in the memory.
    pub brought: usize,
}

impl Service {
    /// A fresh memory, over bytes of any kind.
    fn renew(&mut self, s: Measures) -> Answer {
        self.s = Some(s);
        self.memory = vec![0xa5; s.memory()];
        self.memory.extend(SPARE);
        let answer = title::fresh(s, &mut self.memory);
        self.parts = self.memory.clone();
        assert!(self.memory.ends_with(&SPARE), "fresh wrote too far");
        answer
    }

    fn hold(&mut self, s: Measures) {
        if self.s != Some(s) {
            assert_eq!(self.renew(s), Ok(0));
        }
    }

    /// The call on a memory with this part in its place; nothing else in the memory may change. Where the part is too short, so is the
    /// memory.
    fn on<A>(
        &mut self,
        s: Measures,
        part: Part,
        lent: &mut [u8],
        call: impl FnOnce(&mut [u8]) -> A,
    ) -> A {
        if !pass(s) {
            return call(lent);
        }
        self.hold(s);
        let size = part.size(s);
        let place = match part.at(s) {
            Some(at) if lent.len() >= size => at..at + size,
            _ => 0..0,
        };
        let lacks = size.saturating_sub(lent.len());
        let end = if lacks > 0 {
            s.memory() - lacks
        } else {
            self.memory.len()
        };
        let lent = &mut lent[..place.len()];
        if self.memory[place.clone()] != *lent {
            self.brought += 1;
            self.memory[place.clone()].copy_from_slice(lent);
        }
        let answer = call(&mut self.memory[..end]);
        lent.copy_from_slice(&self.memory[place.clone()]);
        self.parts[place].copy_from_slice(lent);
        assert!(self.memory == self.parts, "{s:?}: another part changed");
        answer
    }

    /// A fresh part is the first of its kind in a fresh memory.
    fn fresh_part(&mut self, s: Measures, part: Part, lent: &mut [u8]) -> Answer {
        if !pass(s) || lent.len() < part.size(s) {
            return self.on(s, part, lent, |memory| title::fresh(s, memory));
        }
        let answer = self.renew(s);
        let at = part.at(s).unwrap_or(0);
        lent[..part.size(s)].copy_from_slice(&self.memory[at..][..part.size(s)]);
        answer
    }
}

impl Parties for Service {
    fn directory_fresh(&mut self, s: Measures, table: &mut [u8]) -> Answer {
        self.fresh_part(s, Part::Directory, table)
    }

    fn directory_update(
        &mut self,
        s: Measures,
        own: usize,
        table: &mut [u8],
        fields: &[u8],
    ) -> Answer {
        self.on(s, Part::Directory, table, |memory| {
            title::update(s, own, memory, fields)
        })
    }

    fn directory_scan(&mut self, s: Measures, table: &[u8], room: &mut [u8]) -> Answer {
        self.on(s, Part::Directory, &mut table.to_vec(), |memory| {
            title::scan(s, memory, room)
        })
    }

    fn node_fresh(&mut self, s: Measures, table: &mut [u8]) -> Answer {
        self.fresh_part(s, Part::Table(1), table)
    }

    fn node_message(
        &mut self,
        s: Measures,
        i: usize,
        table: &mut [u8],
        message: &[u8],
        room: &mut [u8],
    ) -> Answer {
        self.on(s, Part::Table(i), table, |memory| {
            title::to_node(s, i, memory, message, room)
        })
    }

    fn fresh(&mut self, s: Measures, record: &mut [u8]) -> ClientAnswer {
        match self.fresh_part(s, Part::Record(0), record) {
            Ok(_) => ClientAnswer::Waits,
            Err(number) => ClientAnswer::Refused(number),
        }
    }

    fn deposit(&mut self, s: Measures, own: usize, record: &mut [u8], page: &[u8]) -> ClientAnswer {
        self.on(s, Part::Record(own), record, |memory| {
            title::deposit(s, own, memory, page)
        })
    }

    fn read(
        &mut self,
        s: Measures,
        own: usize,
        record: &mut [u8],
        room: &mut [u8],
    ) -> ClientAnswer {
        self.on(s, Part::Record(own), record, |memory| {
            title::read(s, own, memory, room)
        })
    }

    fn updated(
        &mut self,
        s: Measures,
        own: usize,
        record: &mut [u8],
        room: &mut [u8],
    ) -> ClientAnswer {
        self.on(s, Part::Record(own), record, |memory| {
            title::updated(s, own, memory, room)
        })
    }

    fn scanned(
        &mut self,
        s: Measures,
        own: usize,
        record: &mut [u8],
        rows: &[u8],
        room: &mut [u8],
    ) -> ClientAnswer {
        self.on(s, Part::Record(own), record, |memory| {
            title::scanned(s, own, memory, rows, room)
        })
    }

    fn receive(
        &mut self,
        s: Measures,
        own: usize,
        node: usize,
        record: &mut [u8],
        message: &[u8],
        room: &mut [u8],
        out: &mut [u8],
    ) -> ClientAnswer {
        self.on(s, Part::Record(own), record, |memory| {
            title::to_client(s, own, node, memory, message, room, out)
        })
    }
}
