//! Whole deposits and readings of titles: with every message handed over, a reading gives the last page.

use crate::parties::pass;
use crate::random::{measures, other_measures, rare, who, Numbers};
use crate::tally::Tally;
use jolbizna::{Measures, Title, Version};
use std::collections::BTreeSet;

type Last = Option<(Version, Vec<u8>)>;

/// What must come of a deposit: the next sequence, unless client or page is refused.
fn due(s: Measures, c: usize, page: &[u8], last: &Last) -> Result<Version, u32> {
    let sequence = last.as_ref().map_or(0, |((sequence, _), _)| *sequence);
    if c >= s.m {
        Err(3)
    } else if page.len() > s.page() {
        Err(6)
    } else {
        Ok((sequence + 1, c as u8))
    }
}

fn operation(
    numbers: &mut Numbers,
    s: Measures,
    title: &mut Title,
    last: &mut Last,
    tally: &mut Tally,
) {
    let c = who(numbers, 0, s.m);
    if numbers.below(2) == 0 {
        let due = if c < s.m { Ok(last.clone()) } else { Err(3) };
        tally.note("title, read", due.as_ref().err().copied().unwrap_or(0));
        assert_eq!(title.read(c), due, "{s:?}: client {c} reads");
        return;
    }
    let len = numbers.below(s.page() + 1) + (s.page() + 1) * rare(numbers) as usize;
    let page = numbers.bytes(len);
    let due = due(s, c, &page, last);
    tally.note("title, deposit", due.err().unwrap_or(0));
    assert_eq!(title.deposit(c, &page), due, "{s:?}: client {c} deposits");
    if let Ok(version) = due {
        *last = Some((version, page));
    }
}

/// So many operations; each refusal that there is must have been met.
pub fn titles(numbers: &mut Numbers, total: usize) {
    let mut tally = Tally::default();
    let mut done = 0;
    while done < total {
        let mut s = measures(numbers);
        if numbers.below(4) == 0 {
            s = other_measures(numbers, s);
        }
        let title = Title::fresh(s);
        assert_eq!(title.as_ref().err().copied(), (!pass(s)).then_some(1));
        tally.note("title, fresh", (!pass(s)) as u32);
        if let Ok(mut title) = title {
            let mut last = None;
            for _ in 0..20 {
                done += 1;
                operation(numbers, s, &mut title, &mut last, &mut tally);
            }
        }
    }
    println!("{done} deposits and readings of titles: each reading gives the last page, every refusal among them");
    tally.print("");
    for (name, met) in [
        ("title, fresh", vec![0, 1]),
        ("title, deposit", vec![0, 3, 6]),
        ("title, read", vec![0, 3]),
    ] {
        assert_eq!(tally.met(name), BTreeSet::from_iter(met), "{name}");
    }
}
