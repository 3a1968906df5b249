//! Calls without order to the functions of recordings, valid and damaged: two implementations must answer and leave the same, each refusal
//! must be met by each of its causes, and the way back must give the data.

use crate::causes::{due, Cause};
use crate::piece_calls::{around, odd, short, OUTPUT};
use crate::random::Numbers;
use crate::recordings::{Way, PLANES, REARRANGE, RESTORE, SAMPLES, WIDTH};
use crate::tally::Tally;
use std::collections::BTreeSet;

const WAYS: [Way; 4] = [PLANES, SAMPLES, REARRANGE, RESTORE];

/// A width that there is not.
const WIDTHS: [&str; 4] = ["width 0", "width 9", "width above 9", "width above 255"];

const NO_MULTIPLE: &str = "length no multiple";
const NO_BYTES: &str = "no bytes";
const ORDER: &str = "2 before 15";

/// How many samples were rearranged.
const SERVED: [&str; 4] = [
    "served: no bytes",
    "served: 1 sample",
    "served: few samples",
    "served: over 100 samples",
];

/// More bytes are not handed in.
const MOST: usize = 20_000;

fn outside(width: usize) -> Option<Cause> {
    let [zero, next, above, far] = WIDTHS;
    let name = match width {
        0 => zero,
        1..=8 => return None,
        9 => next,
        10..=255 => above,
        _ => far,
    };
    Some((15, name))
}

/// At width 0 it is the width alone that refuses.
fn uneven(width: usize, len: usize) -> Option<Cause> {
    (width > 0 && !len.is_multiple_of(width)).then_some((15, NO_MULTIPLE))
}

fn amount(samples: usize) -> &'static str {
    let [none, one, few, many] = SERVED;
    match samples {
        0 => none,
        1 => one,
        2..=100 => few,
        _ => many,
    }
}

/// One of 1 to 8, most times; else 0, 9, a little more, or any number.
fn any_width(numbers: &mut Numbers) -> usize {
    let width = 1 + numbers.below(8);
    match numbers.below(20) {
        0 => 0,
        1 => 9,
        2 => 10 + numbers.below(20),
        // The low bits are those of a width that there is.
        3 => width + 256 * (1 + numbers.below(8)),
        4 => width + (1 << (8 + numbers.below(56))),
        5 => odd(numbers, 8),
        _ => width,
    }
}

/// A multiple of the width, most times; of its low bits, where so much is not handed in.
fn any_length(numbers: &mut Numbers, width: usize) -> usize {
    let each = match width {
        1..=MOST => width,
        _ => (width % 16).max(1),
    };
    let most = MOST / each;
    let samples = match numbers.below(60) {
        0..=4 => 0,
        5..=9 => 1,
        10 => numbers.below(most + 1),
        11..=13 => numbers.below(400),
        _ => numbers.below(24),
    };
    let len = samples.min(most) * each;
    match numbers.below(6) {
        0 => (len + 1 + numbers.below(8)).min(MOST),
        _ => len,
    }
}

/// Which calls were made, and what they met.
#[derive(Default)]
struct Account {
    calls: Tally,
    cases: Tally,
    /// By function, the causes that held at once.
    causes: BTreeSet<(&'static str, Vec<&'static str>)>,
    /// By function, the widths and amounts that were served.
    served: BTreeSet<(&'static str, usize, &'static str)>,
}

impl Account {
    /// Notes what held, and hands back the number that is due.
    fn note_causes(&mut self, way: &Way, causes: &[Cause], len: usize) -> u32 {
        let due = due(causes);
        let mut names: Vec<&str> = causes.iter().map(|(_, name)| *name).collect();
        match names[..] {
            [name] => self.cases.note(name, due),
            _ if due == 2 => self.cases.note(ORDER, due),
            _ => (),
        }
        if len == 0 {
            names.push(NO_BYTES);
        }
        self.causes.insert((way.name, names));
        due
    }

    fn note_served(&mut self, way: &Way, width: usize, len: usize, out: usize) {
        let amount = amount(len / width);
        self.served.insert((way.name, width, amount));
        self.cases.note(amount, 0);
        for (holds, case) in [
            (out == len, "served: exact output"),
            (out > len, "served: longer output"),
            (len > 10_000, "served: over 10000 bytes"),
        ] {
            if holds {
                self.cases.note(case, 0);
            }
        }
    }

    /// Each cause alone, every two with different numbers at once, and every width with each amount must have been met.
    fn covered(&self, way: &Way) {
        let outside = if way.wide { &WIDTHS[..] } else { &[] };
        let unfit = [outside, &[NO_MULTIPLE]].concat();
        let alone = OUTPUT.iter().chain(&unfit).map(|name| vec![*name]);
        let both = OUTPUT
            .iter()
            .flat_map(|first| unfit.iter().map(|then| vec![*first, *then]));
        let without = outside.iter().map(|name| vec![*name, NO_BYTES]);
        for names in alone.chain(both).chain(without) {
            let detail = format!("{}: {}", way.name, names.join(" and "));
            assert!(self.causes.contains(&(way.name, names)), "{detail}");
        }
        for width in if way.wide { 1..=8 } else { WIDTH..=WIDTH } {
            for amount in SERVED {
                let met = self.served.contains(&(way.name, width, amount));
                assert!(met, "{}: width {width}, {amount}", way.name);
            }
        }
    }
}

fn call(numbers: &mut Numbers, way: &Way, account: &mut Account) {
    let width = if way.wide { any_width(numbers) } else { WIDTH };
    let len = any_length(numbers, width);
    let out = around(numbers, len);
    let (data, out) = (numbers.bytes(len), numbers.bytes(out));
    let (end, answer) = way.same(width, &data, &out);
    let number = answer.err().unwrap_or(0);
    account.calls.note(way.name, number);
    let mut causes: Vec<Cause> = short(OUTPUT, out.len(), len).into_iter().collect();
    causes.extend(outside(width));
    causes.extend(uneven(width, len));
    let detail = || format!("{} {width} {len}", way.name);
    let due = account.note_causes(way, &causes, len);
    assert_eq!(number, due, "{}: {causes:?}", detail());
    if number > 0 {
        assert!(end == out, "{}: refused, but changed", detail());
        return;
    }
    let (written, beyond) = end.split_at(len);
    assert!(beyond == &out[len..], "{}: the rest changed", detail());
    way.same_back(width, &data, written);
    account.note_served(way, width, len, out.len());
}

/// So many calls; each refusal must have been met by each of its causes.
pub fn calls(numbers: &mut Numbers, total: usize) {
    let mut account = Account::default();
    for _ in 0..total {
        // Twice as many have a width.
        let way = [0, 0, 1, 1, 2, 3][numbers.below(6)];
        call(numbers, &WAYS[way], &mut account);
    }
    println!("{total} calls to planes, samples, rearrange and restore of the archive and of plain Rust: the same answers and bytes, every refusal by each cause, and each way back");
    account.calls.print("");
    account.cases.print("recordings");
    for way in &WAYS {
        account.covered(way);
    }
}
