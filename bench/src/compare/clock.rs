//! Timing. What else the machine does comes and goes, so the sides of a task run in turn, all tasks run in rounds, and the best run of
//! each side counts.

use std::time::Instant;

const ROUNDS: usize = 40;
const TURNS: usize = 15;
// A run is long enough that the clock's own step does not show.
const RUN_NS: u128 = 250_000;

pub type Work = Box<dyn FnMut()>;

struct Side {
    work: Work,
    times: usize,
    ns: f64,
}

impl Side {
    fn new(work: Work) -> Self {
        Side {
            work,
            times: 1,
            ns: f64::MAX,
        }
    }

    fn count(&mut self) {
        let began = Instant::now();
        (self.work)();
        self.times = (RUN_NS / began.elapsed().as_nanos().max(1)).clamp(1, 10_000) as usize;
    }

    fn run(&mut self) {
        let began = Instant::now();
        for _ in 0..self.times {
            (self.work)();
        }
        let ns = began.elapsed().as_nanos() as f64 / self.times as f64;
        self.ns = self.ns.min(ns);
    }
}

/// The same work on several sides, the proved one first. A side may be absent.
pub struct Task {
    pub name: String,
    pub bytes: usize,
    sides: Vec<Option<Side>>,
}

impl Task {
    pub fn new(name: impl Into<String>, bytes: usize, proved: impl FnMut() + 'static) -> Self {
        Task {
            name: name.into(),
            bytes,
            sides: vec![Some(Side::new(Box::new(proved)))],
        }
    }

    pub fn beside(self, work: impl FnMut() + 'static) -> Self {
        self.beside_if(Some(Box::new(work)))
    }

    pub fn beside_if(mut self, work: Option<Work>) -> Self {
        self.sides.push(work.map(Side::new));
        self
    }

    /// The best run's time for one call.
    pub fn ns(&self, side: usize) -> Option<f64> {
        Some(self.sides.get(side)?.as_ref()?.ns)
    }

    /// A side's time over the proved one's.
    pub fn ratio(&self, side: usize) -> Option<f64> {
        self.over(side, 0)
    }

    /// A side's time over another's.
    pub fn over(&self, side: usize, other: usize) -> Option<f64> {
        Some(self.ns(side)? / self.ns(other)?)
    }

    fn measure(&mut self) {
        let mut sides: Vec<&mut Side> = self.sides.iter_mut().flatten().collect();
        for side in &mut sides {
            side.count();
        }
        for _ in 0..TURNS {
            for side in &mut sides {
                side.run();
            }
        }
    }
}

/// Tasks that are printed together.
pub struct Section {
    pub tasks: Vec<Task>,
    pub print: fn(&[Task]),
}

pub fn measure(sections: &mut [Section]) {
    for _ in 0..ROUNDS {
        for task in sections.iter_mut().flat_map(|section| &mut section.tasks) {
            task.measure();
        }
    }
}
