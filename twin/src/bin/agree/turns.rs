//! The inputs, turn by turn: each has a number and its own seed, so
//! that any of them can be replayed alone.

use crate::books::books;
use crate::compare::Compare;
use crate::rng::Rng;
use crate::runs::{run, Room, Stop};
use crate::watch::Watch;

/// What was seen along the undamaged runs.
#[derive(Default)]
pub struct Seen {
    pub runs: u64,
    pub watched: u64,
    pub granted: u64,
    /// Runs with votes in more than one round.
    pub contested: u64,
    pub lines: u64,
    pub readings: u64,
    pub above_zero: u64,
}

impl Seen {
    pub fn add(&mut self, watch: &Watch) {
        self.runs += 1;
        self.watched += watch.passed;
        self.granted += watch.granted;
        self.contested += u64::from(watch.voted.len() > 1);
        self.lines += watch.lines_learned;
        self.readings += watch.readings_learned;
        self.above_zero += watch.learned_above_zero;
    }
}

/// One numbered turn: a run, and every fourth time a set of books.
pub fn turn(compare: &mut Compare, seed: u64, number: u64) -> Result<Watch, Stop> {
    let mut rng = Rng::new(seed, number);
    let watch = run(compare, &mut Room::new(), &mut rng)?;
    if number.is_multiple_of(4) {
        books(compare, &mut rng)?;
    }
    Ok(watch)
}
