//! Times of several works, which take turns.

use std::hint::black_box;
use std::time::{Duration, Instant};

/// Something that is measured. It answers a number that depends on what it did.
pub type Work<'a> = Box<dyn FnMut() -> u64 + 'a>;

/// How long is measured.
#[derive(Clone, Copy)]
pub struct Effort {
    /// Each work is given about so much time.
    pub time: Duration,
    /// The turns of a work, at the least and at the most; both odd.
    pub least: usize,
    pub most: usize,
}

/// A work that takes less is done several times in one turn, so that reading the clock costs little beside it.
pub const SHORTEST: Duration = Duration::from_micros(5);

/// A work with the number of its turns, how often it is done in each, and the times of the turns.
struct Contender<'a> {
    work: Work<'a>,
    turns: usize,
    batch: u32,
    times: Vec<Duration>,
}

fn time(work: &mut Work, batch: u32) -> Duration {
    let start = Instant::now();
    for _ in 0..batch {
        black_box(work());
    }
    start.elapsed()
}

impl Contender<'_> {
    /// The batch and the number of turns follow from a first try. A short work is tried again, when it is warm.
    fn new(mut work: Work<'_>, effort: Effort) -> Contender<'_> {
        let mut batch = 1;
        let mut tried = time(&mut work, batch);
        if tried < effort.time / 20 {
            tried = time(&mut work, batch);
        }
        while tried < SHORTEST {
            batch *= 2;
            tried = time(&mut work, batch);
        }
        let turns = (effort.time.as_nanos() / tried.as_nanos()) as usize;
        let turns = turns.clamp(effort.least, effort.most) | 1;
        Contender { work, turns, batch, times: Vec::with_capacity(turns) }
    }

    /// Whether it takes part in this one of all turns. Its own turns are spread evenly.
    fn takes_part(&self, turn: usize, all: usize) -> bool {
        (turn + 1) * self.turns / all > turn * self.turns / all
    }

    fn take_turn(&mut self) {
        let time = time(&mut self.work, self.batch);
        self.times.push(time);
    }

    /// The median time of one work, in microseconds.
    fn median(self) -> f64 {
        median(self.times) / f64::from(self.batch)
    }
}

/// The median of some times, in microseconds.
pub fn median(mut times: Vec<Duration>) -> f64 {
    times.sort();
    times[times.len() / 2].as_secs_f64() * 1e6
}

/// The median time of each work in microseconds; they take turns.
pub fn medians<const N: usize>(works: [Work; N], effort: Effort) -> [f64; N] {
    let mut contenders = works.map(|work| Contender::new(work, effort));
    let all = contenders.iter().map(|contender| contender.turns).max().unwrap_or(0);
    for turn in 0..all {
        for contender in &mut contenders {
            if contender.takes_part(turn, all) {
                contender.take_turn();
            }
        }
    }
    contenders.map(Contender::median)
}
