//! Counts of answers.

use std::collections::{BTreeMap, BTreeSet};

/// How often each call was answered in each way.
#[derive(Default, PartialEq)]
pub struct Tally(BTreeMap<&'static str, BTreeMap<u32, usize>>);

impl Tally {
    /// 0 is no refusal's number, and stands for served.
    pub fn note(&mut self, name: &'static str, number: u32) {
        *self.0.entry(name).or_default().entry(number).or_default() += 1;
    }

    pub fn met(&self, name: &str) -> BTreeSet<u32> {
        self.0
            .get(name)
            .into_iter()
            .flat_map(|counts| counts.keys().copied())
            .collect()
    }

    pub fn print(&self, head: &str) {
        println!("{head:<28} {:>10}   refused", "served");
        for (name, counts) in &self.0 {
            let served = counts.get(&0).copied().unwrap_or(0);
            let refused: Vec<String> = counts
                .iter()
                .filter(|(number, _)| **number > 0)
                .map(|(number, count)| format!("{number}: {count}"))
                .collect();
            let line = format!("{name:<28} {served:>10}   {}", refused.join(", "));
            println!("{}", line.trim_end());
        }
    }
}
