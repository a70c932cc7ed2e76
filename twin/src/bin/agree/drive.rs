//! Chooses steps that mostly are granted: messages of fitting kinds, rounds
//! above the current ones, some agents busy and some that lag behind, so that
//! rounds compete and votes get learned.

use twin::layout::*;
use twin::{box_step, Step};

use crate::numbers;
use crate::rng::Rng;
use crate::view::*;

/// How likely each step is where it is open. A start calls for many steps of
/// others, and offers and readings taken again only fill the post.
const WEIGHTS: [usize; 13] = [3, 2, 8, 10, 14, 10, 6, 16, 8, 6, 10, 10, 6];

/// How many codes are tried before a step that isn't open is taken.
const TRIES: usize = 60;

pub struct Driver {
    weights: [usize; 13],
    busy: [[usize; MAX_RACKS]; 4],
    /// How often a message is taken from anywhere in the post, late or twice,
    /// and not from among the newest.
    late: usize,
}

impl Driver {
    pub fn new(rng: &mut Rng) -> Driver {
        Driver {
            weights: WEIGHTS.map(|weight| weight * rng.pick(&[1, 2, 2, 4])),
            busy: std::array::from_fn(|_| std::array::from_fn(|_| rng.pick(&[1, 8, 8, 24]))),
            late: rng.pick(&[10, 40, 90]),
        }
    }

    /// The next step for this hall; now and then one that isn't open.
    pub fn step(&self, rng: &mut Rng, hall: &[u8]) -> Step {
        let mut last = [1, 0, 0, 0, 0, 0, 65_536];
        let careless = rng.percent(8);
        for turn in 0..TRIES {
            let code = 1 + rng.weighted(&self.weights) as u32;
            let Some(mut step) = self.candidate(rng, hall, code) else { continue };
            numbers::fill_unnamed(rng, &mut step);
            last = step;
            // With little else open it is time for a new round.
            let patient = turn < TRIES / 2;
            if careless || is_open(rng, hall, &step, patient) {
                break;
            }
        }
        last
    }

    /// A step of this code by some agent, with a message that it may read if
    /// there is one.
    fn candidate(&self, rng: &mut Rng, hall: &[u8], code: u32) -> Option<Step> {
        let sort = sort(code);
        let agent = rng.weighted(&self.busy[sort][..agents(hall, sort)]);
        let row = block(hall, SORTS[sort].1 + agent);
        let mut step = [code, agent as u32, 0, 0, 0, 0, 0];
        match code {
            1 => step[6] = numbers::reading(rng),
            2 => {
                step[3] = self.next_n(rng, hall, row);
                step[5] = numbers::cf(rng, agents(hall, 2));
            }
            5 => {}
            13 => [step[3], step[4], step[5]] = held_round(rng, row),
            _ => step[2] = self.message(rng, hall, code)?,
        }
        Some(step)
    }

    /// An n that is mostly above this coordinator's, and often the same as
    /// another coordinator's.
    fn next_n(&self, rng: &mut Rng, hall: &[u8], row: &Block) -> u32 {
        let own = half(row, ROUND);
        let highest = (0..agents(hall, 0))
            .map(|agent| half(block(hall, COORDINATORS_AT + agent), ROUND))
            .max()
            .unwrap_or(0);
        match rng.below(40) {
            0 => 65_535,
            1 => own,
            2..=15 => highest.max(1),
            _ => highest + 1,
        }
    }

    fn message(&self, rng: &mut Rng, hall: &[u8], code: u32) -> Option<u32> {
        let fitting = |number: &usize| fits(code, block(hall, POST_AT + number));
        let mut numbers = [0; MAX_POST];
        let mut found = 0;
        for number in (0..count(hall)).filter(fitting) {
            numbers[found] = number as u32;
            found += 1;
        }
        let numbers = &numbers[..found];
        let newest = numbers.len().saturating_sub(4);
        match numbers {
            [] => None,
            _ if rng.percent(self.late) => Some(rng.pick(numbers)),
            _ => Some(rng.pick(&numbers[newest..])),
        }
    }
}

/// A round of which this reader holds a vote, or round Zero.
pub fn held_round(rng: &mut Rng, row: &Block) -> [u32; 3] {
    let from = rng.below(MAX_BOXES);
    (0..MAX_BOXES)
        .map(|turn| HELD + (from + turn) % MAX_BOXES * HELD_SIZE)
        .find(|&slot| row[slot] == 1)
        .map_or([0, row[C0].into(), row[CF0].into()], |slot| round(row, slot + HELD_ROUND))
}

/// Whether the step would be granted and is worth its turn: one that changes
/// nothing is seldom taken, and a full post takes no more.
fn is_open(rng: &mut Rng, hall: &[u8], step: &Step, patient: bool) -> bool {
    if sends(step[0]) && count(hall) == MAX_POST && !rng.percent(2) {
        return false;
    }
    let before = block(hall, row_place(step, hall));
    let message = if names_message(step[0]) {
        block(hall, POST_AT + (step[2] as usize).min(MAX_POST - 1))
    } else {
        before
    };
    let mut row = *before;
    let answer = box_step(&mut row, message, &mut [0; BLOCK], *step);
    let offers = (0..count(hall)).filter(|n| block(hall, POST_AT + n)[KIND] == PROPOSE).count();
    let idle = match step[0] {
        1 => offers > agents(hall, 2) + 1,
        // A start puts away what was heard, so it mostly waits.
        2 => patient,
        _ => row == *before,
    };
    answer == 0 && (!idle || rng.percent(3))
}
