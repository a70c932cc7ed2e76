//! Times one case: library and twin by turns in one run, best of many.

use std::hint::black_box;
use std::time::{Duration, Instant};

use twin::calls::{Calls, LIBRARY, TWIN};
use twin::layout::*;
use twin::Step;

use crate::cases::{row_place, Case, Input};

/// Calls in a row under one reading of the clock, each on bytes of its own
/// that are put back before.
const CALLS: usize = 16;

/// How long one case is repeated, and at least how often.
const PATIENCE: Duration = Duration::from_millis(120);
const LEAST: usize = 15;

/// ns per call.
pub struct Best {
    pub library: f64,
    pub twin: f64,
}

pub fn best(case: &Case) -> Best {
    match &case.input {
        Input::C { row, message, step } => {
            let mut rows = vec![row.clone(); CALLS];
            let mut sent = vec![[0; BLOCK]; CALLS];
            by_turns(CALLS, |calls| {
                for lent in &mut rows {
                    lent.copy_from_slice(row);
                }
                let began = Instant::now();
                for (row, sent) in rows.iter_mut().zip(&mut sent) {
                    let answer = calls.box_step(row, message, sent, black_box(*step));
                    check(case, answer.into());
                }
                began.elapsed()
            })
        }
        Input::Hall { hall, step } => {
            let mut halls = vec![hall.clone(); CALLS];
            let places = changed(hall, step);
            by_turns(CALLS, |calls| {
                for lent in &mut halls {
                    for &place in &places {
                        let block = place * BLOCK..(place + 1) * BLOCK;
                        lent[block.clone()].copy_from_slice(&hall[block]);
                    }
                }
                let began = Instant::now();
                for hall in &mut halls {
                    check(case, calls.hall_step(hall, black_box(*step)).into());
                }
                began.elapsed()
            })
        }
        Input::Setup { numbers } => {
            let mut hall = vec![0; HALL];
            by_turns(1, |calls| {
                let began = Instant::now();
                check(case, calls.hall_setup(&mut hall, black_box(*numbers)).into());
                began.elapsed()
            })
        }
        Input::Book { blocks } => {
            let mut list = [0; MAX_BOOK * MAX_RACKS];
            by_turns(1, |calls| {
                let began = Instant::now();
                check(case, calls.book(black_box(blocks), &mut list));
                began.elapsed()
            })
        }
        Input::Instance { numbers, steps } => {
            let mut hall = vec![0; HALL];
            by_turns(1, |calls| {
                let began = Instant::now();
                check(case, calls.hall_setup(&mut hall, *numbers).into());
                for step in steps {
                    check(case, calls.hall_step(&mut hall, black_box(*step)).into());
                }
                began.elapsed()
            })
        }
    }
}

/// A case that answers something else measures something else.
#[inline(always)]
fn check(case: &Case, answer: u64) {
    assert!(answer == case.answer, "{}: answered {answer}", case.name);
}

/// The blocks that a granted step changes: head, row, new message.
fn changed(hall: &[u8], step: &Step) -> Vec<usize> {
    let posted = POST_AT + usize::from(hall[BODY]);
    let places = [0, row_place(step), posted];
    places.into_iter().filter(|place| (place + 1) * BLOCK <= hall.len()).collect()
}

fn by_turns(calls: usize, mut time: impl FnMut(&Calls) -> Duration) -> Best {
    let mut least = [Duration::MAX; 2];
    let began = Instant::now();
    let mut turns = 0;
    while turns < LEAST || began.elapsed() < PATIENCE {
        // Who goes first changes, so that neither always finds warm bytes.
        let order = if turns % 2 == 0 { [0, 1] } else { [1, 0] };
        for side in order {
            let spent = time(if side == 0 { &LIBRARY } else { &TWIN });
            least[side] = least[side].min(spent);
        }
        turns += 1;
    }
    let [library, twin] = least.map(|spent| spent.as_nanos() as f64 / calls as f64);
    Best { library, twin }
}

/// What a call can hardly do without, ns for one block: summing it as the twin
/// does, word by word; the same in eight lanes side by side; clearing it, one
/// among many in a row.
pub struct Floor {
    pub sum: f64,
    pub sum_in_lanes: f64,
    pub write: f64,
}

pub fn floor() -> Floor {
    const BLOCKS: usize = HALL_BLOCKS;
    let mut blocks = vec![[0x5a; BLOCK]; BLOCKS];
    assert_eq!(lanes(&blocks[0]), words(&blocks[0]));
    let mut time = |work: &mut dyn FnMut(&mut [Block])| {
        let mut least = Duration::MAX;
        let began = Instant::now();
        while began.elapsed() < PATIENCE {
            let started = Instant::now();
            work(black_box(&mut blocks));
            least = least.min(started.elapsed());
        }
        least.as_nanos() as f64 / BLOCKS as f64
    };
    let each = |blocks: &mut [Block], sum: fn(&Block) -> (u32, u32)| {
        for block in blocks {
            black_box(sum(block));
        }
    };
    Floor {
        sum: time(&mut |blocks| each(blocks, words)),
        sum_in_lanes: time(&mut |blocks| each(blocks, lanes)),
        write: time(&mut |blocks| blocks.as_flattened_mut().fill(0)),
    }
}

fn words(block: &Block) -> (u32, u32) {
    twin::check::check_words::<{ twin::mistake::NONE }>(block)
}

/// The check words by eight running sums side by side, for comparison: word
/// 8r + j is in lane j, and the second sum has it once for each row from r on,
/// times eight, less j.
#[inline(never)]
fn lanes(block: &Block) -> (u32, u32) {
    const LANES: usize = 8;
    let (rows, rest) = block[..FIRST_CHECK].as_chunks::<{ 4 * LANES }>();
    let (mut sums, mut runs) = ([0u32; LANES], [0u32; LANES]);
    for row in rows {
        let (words, _) = row.as_chunks::<4>();
        for lane in 0..LANES {
            sums[lane] = sums[lane].wrapping_add(u32::from_le_bytes(words[lane]));
            runs[lane] = runs[lane].wrapping_add(sums[lane]);
        }
    }
    let (mut first, mut second) = (1u32, (rows.len() * LANES) as u32);
    for lane in 0..LANES {
        let less = sums[lane].wrapping_mul(lane as u32);
        first = first.wrapping_add(sums[lane]);
        second = second.wrapping_add(runs[lane].wrapping_mul(LANES as u32)).wrapping_sub(less);
    }
    for word in rest.as_chunks::<4>().0 {
        first = first.wrapping_add(u32::from_le_bytes(*word));
        second = second.wrapping_add(first);
    }
    (first, second)
}
