//! The book over reader blocks of halls of instances 0, 1, 2 and on, whole
//! and damaged.

use twin::layout::*;
use twin::SetupNumbers;

use crate::compare::Compare;
use crate::damage::damage_block;
use crate::numbers;
use crate::rng::Rng;
use crate::runs::{agree, Stop};
use crate::synthetic::Stock;
use crate::view::*;

/// How many times one set of halls is looked through.
const LOOKS: usize = 60;

pub fn books(compare: &mut Compare, rng: &mut Rng) -> Result<(), Stop> {
    let mut setup = numbers::setup(rng);
    let instances = rng.pick(&[0, 1, 2, 3, 5, 9, 20, 63, 64, 64]);
    let reader = rng.below(setup[4] as usize);
    let mut hall = vec![0; HALL];
    let mut blocks = Vec::with_capacity(instances * BLOCK);
    for instance in 0..instances {
        setup[0] = instance as u32;
        play(rng, &mut hall, setup, reader);
        blocks.extend_from_slice(block(&hall, READERS_AT + reader));
    }
    let stock = Stock::new(rng, setup);
    for _ in 0..LOOKS {
        look(compare, rng, &blocks, &stock)?;
    }
    Ok(())
}

/// Plays one instance out on the twin: every fast rack offers or is blank,
/// boxes take what they get in any order, and one reader learns. Steps that
/// are refused are simply passed over.
fn play(rng: &mut Rng, hall: &mut [u8], setup: SetupNumbers, reader: usize) {
    let [_, racks, boxes, _, _, c0, cf0] = setup;
    twin::hall_setup(hall, setup);
    let mut take = |step| twin::hall_step(hall, step);
    // One in ten is left unfinished: lines stay absent, the walk stops there.
    let unfinished = rng.percent(if racks > 4 { 4 } else { 10 });
    let mut posted = 0;
    let mut post = |answer: u32| posted += u32::from(answer == 0);
    let mut readings = vec![];
    for rack in (0..racks).filter(|rack| cf0 >> rack & 1 == 1) {
        if readings.is_empty() || rng.percent(70) {
            post(take([1, rack, 0, 0, 0, 0, numbers::reading(rng)]));
            readings.push(rack);
        }
    }
    let offers = readings.len() as u32;
    for (&rack, offer) in readings.iter().zip(0..) {
        post(take([7, rack, offer, 0, 0, 0, 0]));
    }
    for rack in (0..racks).filter(|rack| cf0 >> rack & 1 == 1 && !readings.contains(rack)) {
        post(take([8, rack, offers, 0, 0, 0, 0]));
    }
    let first_vote = offers + cf0.count_ones();
    for taking in 0..boxes {
        let from = rng.below(readings.len()) as u32;
        let taken = if unfinished { 1 } else { offers };
        for turn in 0..taken {
            post(take([10, taking, offers + (from + turn) % offers, 0, 0, 0, 0]));
        }
    }
    for number in offers..first_vote {
        take([12, reader as u32, number, 0, 0, 0, 0]);
    }
    for number in first_vote..posted {
        take([11, reader as u32, number, 0, 0, 0, 0]);
    }
    take([13, reader as u32, 0, 0, c0, cf0, 0]);
}

/// One look at the first some of the blocks, mostly undamaged, with a lent row
/// that is mostly long enough or just too short.
fn look(compare: &mut Compare, rng: &mut Rng, all: &[u8], stock: &Stock) -> Result<(), Stop> {
    let whole = all.len() / BLOCK;
    let some = if rng.percent(60) { whole } else { rng.below(whole + 1) };
    let mut blocks = all[..some * BLOCK].to_vec();
    match rng.below(12) {
        0 => blocks.truncate(blocks.len().saturating_sub(rng.between(1, BLOCK))),
        1 => blocks.resize(blocks.len() + rng.pick(&[1, BLOCK, 65 * BLOCK]), 0),
        2..=6 if some > 0 => {
            for _ in 0..rng.between(1, 2) {
                spoil(rng, &mut blocks, some, stock);
            }
        }
        _ => {}
    }
    // The twin's own count says where the edge of the lent row is.
    let count = (twin::book(&blocks, &mut [0; MAX_BOOK * MAX_RACKS]) / 65_536) as usize;
    let room = match rng.below(6) {
        0 => 0,
        1 => count,
        2 => count.saturating_sub(1),
        3 => count + 1,
        4 => rng.below(600),
        _ => 512,
    };
    agree(compare.book(&blocks, room))?;
    Ok(())
}

fn spoil(rng: &mut Rng, blocks: &mut [u8], some: usize, stock: &Stock) {
    let (place, other) = (rng.below(some), rng.below(some));
    let mut changed = *block(blocks, place);
    match rng.below(6) {
        0 => {
            let there = *block(blocks, other);
            put(blocks, place, &there);
            put(blocks, other, &changed);
            return;
        }
        1 => changed = stock.any_row(rng),
        // A block that has its place in the run: a page with any lines, or a
        // good block of another kind.
        2 | 3 => {
            let kind = rng.pick(&[READER, READER, COORDINATOR, BOX, RACK]);
            changed = stock.row(rng, kind, changed[AGENT].into());
            set_half(&mut changed, INSTANCE, place as u16);
            seal(&mut changed);
        }
        4 => {
            changed[KIND] = rng.pick(&[READER, READER, BOX, RACK, HEAD, PROPOSE]);
            changed[AGENT] = rng.below(3) as u8;
            seal(&mut changed);
        }
        _ => damage_block(rng, &mut changed),
    }
    put(blocks, place, &changed);
}
