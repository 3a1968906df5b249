//! Deposits and readings from start to end over the title service, all nodes being honest. What is under way is kept here; the rest is
//! the service's.

use crate::answer::ClientAnswer;
use crate::measures::{Measures, Version};
use crate::title;
use std::collections::VecDeque;

/// A message's tag and version.
const FRONT: usize = 6;

/// What is under way between a client and the directory or a node.
enum Parcel {
    Scan,
    Rows(Vec<u8>),
    Update(Vec<u8>),
    Updated,
    ToNode(usize, Vec<u8>),
    ToClient(usize, Vec<u8>),
}

/// One page, with all that its service is lent.
pub struct Title {
    s: Measures,
    memory: Vec<u8>,
    room: Vec<u8>,
    out: Vec<u8>,
    /// Each with its client, the oldest first.
    under_way: VecDeque<(usize, Parcel)>,
}

impl Title {
    /// Nothing is deposited yet. A refusal is document 01's number.
    pub fn fresh(s: Measures) -> Result<Self, u32> {
        // Lengths are worked out of measures that pass, so the service judges them first, by no memory at all.
        if title::fresh(s, &mut []) == Err(1) {
            return Err(1);
        }
        let mut memory = vec![0; s.memory()];
        title::fresh(s, &mut memory)?;
        Ok(Title {
            s,
            memory,
            room: vec![0; s.room().max(s.directory()).max(s.answer())],
            out: vec![0; s.page()],
            under_way: VecDeque::new(),
        })
    }

    /// Client c deposits a page; the version that it drew.
    pub fn deposit(&mut self, c: usize, page: &[u8]) -> Result<Version, u32> {
        let start = title::deposit(self.s, c, &mut self.memory, page);
        match self.operate(c, start)? {
            ClientAnswer::Deposited(version, _) => Ok(version),
            other => Err(other.number()),
        }
    }

    /// Client c reads; the page with its version, or nothing if none was deposited.
    pub fn read(&mut self, c: usize) -> Result<Option<(Version, Vec<u8>)>, u32> {
        let start = title::read(self.s, c, &mut self.memory, &mut self.room);
        match self.operate(c, start)? {
            ClientAnswer::Empty => Ok(None),
            ClientAnswer::Page(version, len) => Ok(Some((version, self.out[..len].to_vec()))),
            other => Err(other.number()),
        }
    }

    /// Hands over until nothing is under way. That the operation has ended then is executed and not proved.
    fn operate(&mut self, c: usize, start: ClientAnswer) -> Result<ClientAnswer, u32> {
        let mut end = self.follow(c, start)?;
        while let Some((c, parcel)) = self.under_way.pop_front() {
            end = self.hand_over(c, parcel)?.or(end);
        }
        Ok(end.expect("nothing is under way, and the operation is open"))
    }

    /// The ending, if it is one.
    fn hand_over(&mut self, c: usize, parcel: Parcel) -> Result<Option<ClientAnswer>, u32> {
        let (s, memory, room) = (self.s, &mut self.memory, &mut self.room);
        let answer = match parcel {
            Parcel::Rows(rows) => title::scanned(s, c, memory, &rows, room),
            Parcel::Updated => title::updated(s, c, memory, room),
            Parcel::ToClient(i, message) => {
                title::to_client(s, c, i, memory, &message, room, &mut self.out)
            }
            other => {
                let reply = self.reply(c, other)?;
                self.send(c, reply);
                return Ok(None);
            }
        };
        self.follow(c, answer)
    }

    /// What the directory or a node says.
    fn reply(&mut self, c: usize, parcel: Parcel) -> Result<Parcel, u32> {
        let (s, memory, room) = (self.s, &mut self.memory, &mut self.room);
        Ok(match parcel {
            Parcel::Update(fields) => {
                title::update(s, c, memory, &fields)?;
                Parcel::Updated
            }
            Parcel::ToNode(i, message) => {
                let len = title::to_node(s, i, memory, &message, room)?;
                Parcel::ToClient(i, room[..len].to_vec())
            }
            _ => {
                let len = title::scan(s, memory, room)?;
                Parcel::Rows(room[..len].to_vec())
            }
        })
    }

    fn send(&mut self, c: usize, parcel: Parcel) {
        self.under_way.push_back((c, parcel));
    }

    /// Sends what a client's answer says; the answer, if it is an ending.
    fn follow(&mut self, c: usize, answer: ClientAnswer) -> Result<Option<ClientAnswer>, u32> {
        match answer {
            ClientAnswer::Refused(number) => return Err(number),
            ClientAnswer::Waits => {}
            ClientAnswer::Scan => self.send(c, Parcel::Scan),
            ClientAnswer::Update(len) => {
                let fields = self.room[..len].to_vec();
                self.send(c, Parcel::Update(fields));
            }
            ClientAnswer::Stores(_, len) => self.send_pieces(c, len),
            ClientAnswer::Requests(_, nodes) => self.send_all(c, nodes, FRONT),
            ClientAnswer::Deposited(_, len) => {
                self.send_all(c, u16::MAX, len);
                return Ok(Some(answer));
            }
            _ => return Ok(Some(answer)),
        }
        Ok(None)
    }

    /// The room's front and piece i go to node i.
    fn send_pieces(&mut self, c: usize, len: usize) {
        for i in 1..=self.s.n {
            let area = &self.room[FRONT + (i - 1) * self.s.f..];
            let message = [&self.room[..FRONT], &area[..len]].concat();
            self.send(c, Parcel::ToNode(i, message));
        }
    }

    /// So many bytes of the room go to each node of the bit map.
    fn send_all(&mut self, c: usize, nodes: u16, len: usize) {
        for i in (1..=self.s.n).filter(|i| nodes >> (i - 1) & 1 == 1) {
            let message = self.room[..len].to_vec();
            self.send(c, Parcel::ToNode(i, message));
        }
    }
}
