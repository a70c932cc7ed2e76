//! Damage to blocks and halls: bytes flipped, fields changed with the check
//! words redone, kinds wrong, blocks exchanged.

use twin::layout::*;

use crate::numbers;
use crate::rng::Rng;
use crate::synthetic::Stock;
use crate::view::{put, seal, SORTS};

/// Damages one block in one way.
pub fn damage_block(rng: &mut Rng, block: &mut Block) {
    match rng.below(20) {
        0..=2 => {
            for _ in 0..rng.between(1, 3) {
                block[rng.below(BLOCK)] ^= 1 << rng.below(8);
            }
        }
        3 => check_words(rng, block),
        4 => *block = [rng.pick(&[0, 0, 0xff, 1]); BLOCK],
        5 => block.fill_with(|| rng.byte()),
        _ => {
            field(rng, block);
            if rng.percent(25) {
                field(rng, block);
            }
            seal(block);
        }
    }
}

/// Check words that are wrong in a way that a mistaken sum would not see.
fn check_words(rng: &mut Rng, block: &mut Block) {
    let (first, second) = (word(block, FIRST_CHECK), word(block, SECOND_CHECK));
    let (first, second) = match rng.below(6) {
        0 => (second, first),
        1 => (first.wrapping_add(1), second),
        2 => (first, second.wrapping_sub(1)),
        // As if the first sum had begun at 0.
        3 => (first.wrapping_sub(1), second.wrapping_sub(126)),
        4 => (0, 0),
        // A byte more in one word and a byte less in another: first sum stays.
        _ => {
            let (one, other) = (rng.below(126) * 4, rng.below(126) * 4);
            set_word(block, one, word(block, one).wrapping_add(1));
            set_word(block, other, word(block, other).wrapping_sub(1));
            (first, second)
        }
    };
    set_word(block, FIRST_CHECK, first);
    set_word(block, SECOND_CHECK, second);
}

/// Where a kind's body has rounds, lines and flags.
struct Places {
    rounds: Vec<usize>,
    lines: Vec<usize>,
    flags: Vec<usize>,
}

fn places(kind: u8) -> Places {
    let page = |at: usize| (0..MAX_RACKS).map(move |rack| at + rack * LINE_SIZE);
    let mut places = Places { rounds: vec![ROUND], lines: vec![], flags: vec![] };
    match kind {
        ONE_B | BOX => {
            places.rounds.push(VRND);
            places.flags.push(VOTE);
            places.lines.extend(page(VOTE + 1));
        }
        TWO_S | TWO_B => places.lines.extend(page(AFTER_ROUND)),
        TWO_A | RACK => places.lines.push(AFTER_ROUND),
        COORDINATOR => {
            places.flags.push(CVAL);
            places.lines.extend(page(CVAL + 1));
            for slot in (0..MAX_BOXES).map(|heard| HEARD + heard * HEARD_SIZE) {
                places.flags.extend([slot, slot + HEARD_VOTE]);
                places.rounds.push(slot + HEARD_VRND);
                places.lines.extend(page(slot + HEARD_VOTE + 1));
            }
        }
        READER => {
            places.lines.extend(page(PAGE));
            for slot in (0..MAX_BOXES).map(|held| HELD + held * HELD_SIZE) {
                places.flags.push(slot);
                places.rounds.push(slot + HELD_ROUND);
                places.lines.extend(page(slot + HELD_PAGE));
            }
            for slot in (0..MAX_RACKS).map(|rack| BLANKS + rack * BLANK_SIZE) {
                places.flags.push(slot);
                places.rounds.push(slot + BLANK_ROUND);
            }
        }
        _ => {}
    }
    places
}

/// Changes one field, mostly to something that could stand there.
fn field(rng: &mut Rng, block: &mut Block) {
    let Places { rounds, lines, flags } = places(block[KIND]);
    match rng.below(12) {
        0 => block[rng.below(KIND)] = rng.pick(&[0, 1, 2, 255]),
        1 => {
            let other = [1, 2, 3, 4, 5, 6, 16, 17, 18, 19, 20, 0, 7, 15, 21, 255];
            block[KIND] = rng.pick(&other);
        }
        2 => block[rng.between(RACKS, CF0)] = rng.pick(&[0, 1, 2, 3, 4, 5, 6, 8, 9, 255]),
        3 => block[AGENT] = rng.pick(&[0, 0, 1, 1, 2, 3, 4, 5, 7, 8, 255]),
        4..=6 => change_round(rng, block, &rounds),
        7 | 8 if !lines.is_empty() => {
            let at = rng.pick(&lines);
            block[at] = rng.pick(&[0, 1, 2, 2, 3]);
            let reading = if block[at] == READING { numbers::reading(rng) } else { 0 };
            set_word(block, at + 1, if rng.percent(90) { reading } else { numbers::any(rng) });
        }
        9 if !flags.is_empty() => block[rng.pick(&flags)] = rng.pick(&[0, 1, 1, 2]),
        10 => block[rng.below(FIRST_CHECK)] = rng.pick(&[0, 1, 2, 128, 255]),
        _ => block[rng.below(READER_END)] = rng.byte(),
    }
}

fn change_round(rng: &mut Rng, block: &mut Block, rounds: &[usize]) {
    let at = rng.pick(rounds);
    let other = rng.pick(rounds);
    match rng.below(6) {
        0 => block.copy_within(other..other + ROUND_SIZE, at),
        1 => block[at] = rng.pick(&[0, 1, 2, 255]),
        2 => block[at + 1] = rng.pick(&[0, 1, 255]),
        3 => block[at + 2] = rng.below(5) as u8,
        // The same n and c under another cf is what no run of a hall brings.
        _ => block[at + 3] = rng.pick(&[1, 2, 3, 5, 7, 255, block[CF0], 0]),
    }
}

/// The kind and the agent of the row that belongs at a place of the hall.
fn row_at(place: usize) -> Option<(u8, usize)> {
    let mut sorts = SORTS.iter().rev();
    let &(kind, first, _) = sorts.find(|(_, first, _)| (*first..POST_AT).contains(&place))?;
    Some((kind, place - first))
}

/// Damages a hall in one way; mostly in the blocks that a step is about to
/// read, which are those in `focus`.
pub fn damage_hall(rng: &mut Rng, hall: &mut [u8], focus: &[usize], stock: &Stock) {
    let place = |rng: &mut Rng| match rng.below(10) {
        0 => rng.below(HALL_BLOCKS),
        1 => rng.below(POST_AT + 8),
        _ => rng.pick(focus),
    };
    let at = place(rng);
    let mut block: Block = *crate::view::block(hall, at);
    match rng.below(12) {
        0 | 1 => {
            let other = if rng.percent(50) { place(rng) } else { rng.below(POST_AT + 8) };
            let there = *crate::view::block(hall, other);
            put(hall, at, &there);
            if rng.percent(50) {
                put(hall, other, &block);
            }
        }
        2..=4 => {
            let made = match row_at(at) {
                Some((kind, agent)) if rng.percent(85) => stock.row(rng, kind, agent),
                _ if at < POST_AT => stock.any_row(rng),
                _ => stock.any_message(rng),
            };
            put(hall, at, &made);
        }
        5 => {
            // A head with another count.
            let mut head = *crate::view::block(hall, 0);
            set_half(&mut head, BODY, rng.pick(&[0, 1, 2, 5, 94, 95, 96, 97, 255, 65_535]));
            seal(&mut head);
            put(hall, 0, &head);
        }
        _ => {
            damage_block(rng, &mut block);
            put(hall, at, &block);
        }
    }
}
