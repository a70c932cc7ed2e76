//! One run: a hall from its setup, driven by mostly granted steps, and beside
//! it the same hall damaged, and the C step on its rows and messages.

use twin::layout::*;
use twin::Step;

use crate::compare::{Compare, Pair};
use crate::damage::{damage_block, damage_hall};
use crate::drive::{held_round, Driver};
use crate::numbers;
use crate::rng::Rng;
use crate::synthetic::Stock;
use crate::view::*;
use crate::watch::Watch;

/// Where a run ended: with its watch, or at a difference or a broken promise.
pub type Ended = Result<Watch, Stop>;

pub enum Stop {
    Differ,
    Broken(String),
}

/// The room for one run, lent again to the next.
pub struct Room {
    halls: Pair,
    damaged: Pair,
}

impl Room {
    pub fn new() -> Room {
        Room { halls: Pair::new(HALL), damaged: Pair::new(HALL) }
    }
}

pub fn run(compare: &mut Compare, room: &mut Room, rng: &mut Rng) -> Ended {
    let numbers = numbers::setup(rng);
    let stock = Stock::new(rng, numbers);
    let driver = Driver::new(rng);
    // Every byte must be written, whatever stood there.
    let before = rng.byte();
    room.halls.change(|hall| hall.fill(before));
    setups(compare, room, rng)?;
    agree(compare.hall_setup(&mut room.halls, numbers))?;
    let mut watch = Watch::new(&room.halls.right);

    // A full post ends most of what is open, so only a little is done after it.
    let mut after_full = rng.below(24);
    for _ in 0..rng.between(30, 240) {
        if count(&room.halls.right) == MAX_POST {
            if after_full == 0 {
                break;
            }
            after_full -= 1;
        }
        let mut step = driver.step(rng, &room.halls.right);
        if rng.percent(7) {
            unfit(rng, &mut step, &room.halls.right);
        }
        if rng.percent(25) {
            damaged(compare, room, rng, &driver, &stock, step)?;
        }
        if rng.percent(50) {
            c_step(compare, &room.halls.right, rng, &stock, step)?;
        }
        let answer = agree(compare.hall_step(&mut room.halls, step))?;
        watch.after(&step, answer, &room.halls.right).map_err(Stop::Broken)?;
    }
    Ok(watch)
}

/// A number out of its range, at the edge of it, or any other.
fn unfit(rng: &mut Rng, step: &mut Step, hall: &[u8]) {
    if rng.percent(50) {
        numbers::spoil(rng, step);
    } else {
        let sizes = [agents(hall, sort(step[0])), agents(hall, 2), agents(hall, 0), count(hall)];
        numbers::edge(rng, step, sizes);
    }
}

/// A comparison that found a difference ends the run: the bytes are no longer
/// the same.
pub fn agree(answer: Option<u32>) -> Result<u32, Stop> {
    answer.ok_or(Stop::Differ)
}

/// Setups that are mostly refused, and lent bytes of wrong lengths.
fn setups(compare: &mut Compare, room: &mut Room, rng: &mut Rng) -> Result<(), Stop> {
    for _ in 0..4 {
        agree(compare.hall_setup(&mut room.halls, numbers::any_setup(rng)))?;
    }
    let length = odd_length(rng);
    let mut odd = Pair::new(length);
    odd.change(|bytes| bytes.fill(0x33));
    agree(compare.hall_setup(&mut odd, numbers::setup(rng)))?;
    Ok(())
}

fn odd_length(rng: &mut Rng) -> usize {
    rng.pick(&[0, 1, 511, 512, 513, HALL - BLOCK, HALL - 1, HALL + 1, HALL + BLOCK])
}

/// The step on a damaged copy of the hall, and some steps after it: damage
/// that passes the rules goes on to work.
fn damaged(
    compare: &mut Compare,
    room: &mut Room,
    rng: &mut Rng,
    driver: &Driver,
    stock: &Stock,
    step: Step,
) -> Result<(), Stop> {
    if rng.percent(2) {
        let length = odd_length(rng);
        let mut odd = Pair::new(length);
        let known = length.min(HALL);
        odd.change(|bytes| bytes[..known].copy_from_slice(&room.halls.right[..known]));
        agree(compare.hall_step(&mut odd, step))?;
        return Ok(());
    }
    room.damaged.copy_from(&room.halls.right);
    let mut step = step;
    for turn in 0..rng.between(1, 6) {
        if turn > 0 {
            step = driver.step(rng, &room.damaged.right);
        }
        if rng.percent(10) {
            unfit(rng, &mut step, &room.damaged.right);
        }
        let row = row_place(&step, &room.damaged.right);
        let message = POST_AT + (step[2] as usize).min(MAX_POST - 1);
        let reads = names_message(step[0]);
        let focus: &[usize] = if reads { &[0, row, row, message, message] } else { &[0, row, row] };
        if turn == 0 || rng.percent(30) {
            room.damaged.change(|hall| {
                for _ in 0..rng.pick(&[1, 1, 1, 2, 3]) {
                    damage_hall(rng, hall, focus, stock);
                }
            });
            if step[0] == 13 && rng.percent(90) {
                [step[3], step[4], step[5]] = held_round(rng, block(&room.damaged.right, row));
            }
        }
        agree(compare.hall_step(&mut room.damaged, step))?;
    }
    Ok(())
}

/// The C step on the row and the message of a hall step, on damaged ones, and
/// on made-up ones.
fn c_step(
    compare: &mut Compare,
    hall: &[u8],
    rng: &mut Rng,
    stock: &Stock,
    step: Step,
) -> Result<(), Stop> {
    let mut row = *block(hall, row_place(&step, hall));
    let mut message = *block(hall, POST_AT + (step[2] as usize).min(MAX_POST - 1));
    let sent = [rng.byte(); BLOCK];
    agree(compare.box_step(&row, &message, &sent, step))?;

    // Damaged, or exchanged with others of the hall.
    match rng.below(4) {
        0 => row = *block(hall, rng.below(POST_AT + 8)),
        1 => message = *block(hall, rng.below(HALL_BLOCKS)),
        2 => damage_block(rng, &mut row),
        _ => damage_block(rng, &mut message),
    }
    let mut other = step;
    if rng.percent(20) {
        unfit(rng, &mut other, hall);
    }
    agree(compare.box_step(&row, &message, &sent, other))?;

    for _ in 0..3 {
        made_up(compare, rng, stock)?;
    }
    if rng.percent(4) {
        let length = |rng: &mut Rng| rng.pick(&[0, 1, 511, 512, 512, 512, 513]);
        let longest = [0x44; BLOCK + 1];
        let (row, message, sent) = (length(rng), length(rng), length(rng));
        let lent = [&longest[..row], &longest[..message], &longest[..sent]];
        agree(compare.box_step(lent[0], lent[1], lent[2], other))?;
    }
    Ok(())
}

/// A step on a made-up row, with a made-up message that mostly fits.
fn made_up(compare: &mut Compare, rng: &mut Rng, stock: &Stock) -> Result<(), Stop> {
    let code = 1 + rng.below(13) as u32;
    let kind = SORTS[sort(code)].0;
    let mut row = if rng.percent(96) { stock.row_of(rng, kind) } else { stock.any_row(rng) };
    let mut message = stock.any_message(rng);
    for _ in 0..20 {
        if fits(code, &message) {
            break;
        }
        message = stock.any_message(rng);
    }
    if rng.percent(8) {
        damage_block(rng, &mut row);
    }
    if rng.percent(8) {
        damage_block(rng, &mut message);
    }
    let [n, c, cf] = match code {
        2 => [1 + rng.below(3) as u32, 0, numbers::cf(rng, stock.racks())],
        _ if kind == READER => round(&row, HELD + rng.below(2) * HELD_SIZE + HELD_ROUND),
        _ => [0; 3],
    };
    let mut step = [code, 0, 0, n, c, cf, numbers::reading(rng)];
    numbers::fill_unnamed(rng, &mut step);
    if rng.percent(4) {
        numbers::spoil(rng, &mut step);
    }
    agree(compare.box_step(&row, &message, &[rng.byte(); BLOCK], step))?;
    Ok(())
}
