//! What refuses a call, and which of several numbers is told.

use crate::tally::Tally;
use jolbizna::Answer;

/// What refuses a call, with its number.
pub type Cause = (u32, &'static str);

/// Document 01's numbers from the lowest on, and document 02's where it puts them.
const ORDER: [u32; 15] = [1, 13, 2, 15, 3, 4, 11, 12, 14, 5, 6, 7, 8, 9, 10];

/// The number that is due, 0 if nothing refuses.
pub fn due(causes: &[Cause]) -> u32 {
    let holds = |number: &u32| causes.iter().any(|(other, _)| other == number);
    ORDER.into_iter().find(holds).unwrap_or(0)
}

/// Which number comes before which, and how that is noted.
const PAIRS: [(u32, u32, &str); 22] = [
    (1, 2, "1 before 2"),
    (1, 3, "1 before 3"),
    (1, 6, "1 before 6"),
    (2, 3, "2 before 3"),
    (2, 4, "2 before 4"),
    (2, 11, "2 before 11"),
    (2, 12, "2 before 12"),
    (2, 14, "2 before 14"),
    (2, 6, "2 before 6"),
    (2, 9, "2 before 9"),
    (3, 4, "3 before 4"),
    (3, 11, "3 before 11"),
    (3, 12, "3 before 12"),
    (3, 14, "3 before 14"),
    (3, 6, "3 before 6"),
    (4, 11, "4 before 11"),
    (4, 12, "4 before 12"),
    (4, 14, "4 before 14"),
    (4, 9, "4 before 9"),
    (11, 12, "11 before 12"),
    (11, 14, "11 before 14"),
    (12, 14, "12 before 14"),
];

/// The answer must have the number that is due. A cause is noted if it is alone, else which number came before which.
pub fn judge(tally: &mut Tally, causes: &[Cause], answer: Answer, detail: impl Fn() -> String) {
    let number = answer.err().unwrap_or(0);
    assert_eq!(number, due(causes), "{}: {causes:?}", detail());
    if let [(_, name)] = causes {
        tally.note(name, number);
    }
    for (first, then, order) in PAIRS {
        if first == number && causes.iter().any(|(other, _)| *other == then) {
            tally.note(order, number);
        }
    }
}
