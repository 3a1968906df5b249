//! What the functions answer.

use crate::measures::Version;

/// A length, or the number of the refusal: document 01's, or document 02's 11, 12, 14 and 15.
pub type Answer = Result<usize, u32>;

/// What an event at a client says, with the version and the bytes that it speaks of.
#[derive(Clone, Copy, Debug, PartialEq)]
pub enum ClientAnswer {
    Refused(u32),
    Waits,
    Scan,
    Update(usize),
    /// Pieces of a length.
    Stores(Version, usize),
    /// To the nodes of a bit map.
    Requests(Version, u16),
    /// With a list to drop.
    Deposited(Version, usize),
    Empty,
    Page(Version, usize),
    /// 7 in a deposit, which ended.
    Spent,
    /// 9 in a reading, which ended.
    Failed,
}

impl ClientAnswer {
    /// Document 01's number or document 02's 14, 0 for an answer that has none.
    pub fn number(self) -> u32 {
        match self {
            ClientAnswer::Refused(number) => number,
            ClientAnswer::Spent => 7,
            ClientAnswer::Failed => 9,
            _ => 0,
        }
    }
}

// The bit above a length says that the rest is a refusal's number.
#[cfg(feature = "archives")]
pub(crate) fn of_code(code: u64) -> Answer {
    if code < 1 << 32 {
        Ok(code as usize)
    } else {
        Err((code - (1 << 32)) as u32)
    }
}

/// Calls with room for kind, sequence, client and value.
#[cfg(feature = "archives")]
pub(crate) fn of_numbers(call: impl FnOnce(*mut u64)) -> ClientAnswer {
    let mut numbers = [u64::MAX; 4];
    call(numbers.as_mut_ptr());
    let version = (numbers[1] as u32, numbers[2] as u8);
    let len = numbers[3] as usize;
    // What a kind does not have is 0.
    match numbers {
        [0, 0, 0, number] => ClientAnswer::Refused(number as u32),
        [1, 0, 0, 0] => ClientAnswer::Waits,
        [2, 0, 0, 0] => ClientAnswer::Scan,
        [3, 0, 0, _] => ClientAnswer::Update(len),
        [4, ..] => ClientAnswer::Stores(version, len),
        [5, _, _, nodes] => ClientAnswer::Requests(version, nodes as u16),
        [6, ..] => ClientAnswer::Deposited(version, len),
        [7, 0, 0, 0] => ClientAnswer::Empty,
        [8, ..] => ClientAnswer::Page(version, len),
        [9, 0, 0, 0] => ClientAnswer::Spent,
        [10, 0, 0, 0] => ClientAnswer::Failed,
        other => panic!("{other:?} is no answer of a client"),
    }
}
