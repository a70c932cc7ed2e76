//! A hall over its lent bytes: setup and the hall step. Document 01, "Rows at
//! the start", "Refusals and their order" and the last paragraph of "Blocks".

use crate::check::seal;
use crate::layout::*;
use crate::mistake::*;
use crate::refusal::*;
use crate::round::{same_hall, Setup};
use crate::rules::good;
use crate::steps::{fits, in_range, reads_message, row_kind, sends, take, Step};

/// Instance, P, A, C, L, c0, cf0.
pub type SetupNumbers = [u32; 7];

/// What stands in a message's place for a step that names none.
static NO_MESSAGE: Block = [0; BLOCK];

pub fn setup<const M: u8>(hall: &mut [u8], numbers: SetupNumbers) -> u32 {
    let (blocks, rest) = hall.as_chunks_mut::<BLOCK>();
    if blocks.len() != HALL_BLOCKS || !rest.is_empty() {
        return LENGTH;
    }
    let Some((instance, setup)) = setup_of(numbers) else { return RANGE };
    let mut front: Block = [0; BLOCK];
    set_half(&mut front, INSTANCE, instance);
    front[RACKS] = setup.racks;
    front[BOXES] = setup.boxes;
    front[COORDINATORS] = setup.coordinators;
    front[READERS] = setup.readers;
    front[C0] = setup.c0;
    front[CF0] = setup.cf0;

    if M != SETUP_LEAVES_UNUSED {
        blocks.as_flattened_mut().fill(0);
    }
    let row = |block: &mut Block, kind: u8, agent: u8| {
        *block = front;
        block[KIND] = kind;
        block[AGENT] = agent;
        // A reader has no round of its own; every other row begins in Zero.
        match kind {
            READER | HEAD => {}
            _ => setup.zero().write(block, ROUND),
        }
        if kind == BOX {
            setup.zero().write(block, VRND);
        }
        if kind == COORDINATOR && agent == setup.c0 {
            block[CVAL] = 1;
        }
        seal::<M>(block);
    };
    row(&mut blocks[0], HEAD, 0);
    for (kind, at, agents) in [
        (COORDINATOR, COORDINATORS_AT, setup.coordinators),
        (BOX, BOXES_AT, setup.boxes),
        (RACK, RACKS_AT, setup.racks),
        (READER, READERS_AT, setup.readers),
    ] {
        for (agent, block) in (0..agents).zip(&mut blocks[at..]) {
            row(block, kind, agent);
        }
    }
    GRANTED
}

/// The numbers of a setup, narrowed once each is known to be in range.
fn setup_of(numbers: SetupNumbers) -> Option<(u16, Setup)> {
    let [instance, racks, boxes, coordinators, readers, c0, cf0] = numbers;
    let setup = Setup {
        racks: u8::try_from(racks).ok()?,
        boxes: u8::try_from(boxes).ok()?,
        coordinators: u8::try_from(coordinators).ok()?,
        readers: u8::try_from(readers).ok()?,
        c0: u8::try_from(c0).ok()?,
        cf0: u8::try_from(cf0).ok()?,
    };
    let instance = u16::try_from(instance).ok()?;
    setup.in_range().then_some((instance, setup))
}

/// One step of the hall. Order: 1, head block 2, 4, 11, row 2, message 2, 3,
/// then 5 to 10 by number.
#[inline(always)]
pub fn step<const M: u8>(hall: &mut [u8], mut step: Step) -> u32 {
    let (blocks, rest) = hall.as_chunks_mut::<BLOCK>();
    if blocks.len() != HALL_BLOCKS || !rest.is_empty() {
        return LENGTH;
    }
    let (rows, post) = blocks.split_at_mut(POST_AT);
    let [head, rows @ ..] = rows else { return LENGTH };
    if head[KIND] != HEAD || !good::<M>(head) {
        return BAD_BLOCK;
    }
    let setup = Setup::of(head);
    let count = half(head, BODY) as usize;

    if M == AGENT_NARROWED {
        step[1] &= 0xff;
    }
    let [code, agent, message_number, ..] = step;
    let (agents, at) = match row_kind(code) {
        Some(COORDINATOR) => (setup.coordinators, COORDINATORS_AT),
        Some(BOX) => (setup.boxes, BOXES_AT),
        Some(RACK) => (setup.racks, RACKS_AT),
        Some(READER) => (setup.readers, READERS_AT),
        _ => return NO_SUCH,
    };
    let counted = reads_message(code) || M == MESSAGE_ALWAYS_COUNTED;
    if agent >= u32::from(agents) || counted && message_number >= count as u32 {
        return NO_SUCH;
    }
    if !in_range::<M>(setup, &step) {
        return RANGE;
    }

    // The head is not among these rows, so they begin one place earlier.
    let row = &mut rows[at - 1 + agent as usize];
    if !good::<M>(row) {
        return BAD_BLOCK;
    }
    let (posted, free) = post.split_at_mut(count);
    let message = if reads_message(code) {
        let message = &posted[message_number as usize];
        if !good::<M>(message) {
            return BAD_BLOCK;
        }
        if M == FIVE_BEFORE_THREE && !fits(code, row, message) {
            return WRONG;
        }
        if !same_hall(head, message) {
            return DIFFERS;
        }
        message
    } else {
        &NO_MESSAGE
    };
    if !same_hall(head, row) || u32::from(row[AGENT]) != agent {
        return DIFFERS;
    }

    let sent = match free {
        [_] if M == POST_HOLDS_95 => None,
        [] if M == FULL_BEFORE_ROUND && sends(code) && fits(code, row, message) => return FULL,
        [sent, ..] => Some(sent),
        [] => None,
    };
    let answer = take::<M>(&step, row, message, sent);
    let counts = match M {
        HEAD_WRITTEN_ON_REFUSAL => sends(code) && answer != FULL,
        COUNT_WITHOUT_SEND => answer == GRANTED && count < MAX_POST,
        _ => answer == GRANTED && sends(code),
    };
    if counts {
        set_half(head, BODY, count as u16 + 1);
        seal::<M>(head);
    }
    answer
}
