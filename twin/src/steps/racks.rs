//! Steps 1, 6, 7 and 8: offer, prepare, fast, blank.

use super::begin;
use crate::check::seal;
use crate::layout::*;
use crate::mistake::PREPARE_EQUAL_ROUND;
use crate::page::{line, line_of, set_line, LINE_ABSENT, LINE_NIL};
use crate::refusal::{DONE, FULL, GRANTED, ROUND_UNFIT};
use crate::round::{Order, Round};

/// prnd and pval of a rack's row.
const PRND: usize = ROUND;
const PVAL: usize = AFTER_ROUND;

pub fn offer<const M: u8>(row: &Block, sent: Option<&mut Block>, reading: u32) -> u32 {
    let Some(sent) = sent else { return FULL };
    begin(sent, row, PROPOSE);
    set_word(sent, BODY, reading);
    seal::<M>(sent);
    GRANTED
}

pub fn prepare<const M: u8>(row: &mut Block, message: &Block) -> u32 {
    let round = Round::read(message, ROUND);
    match round.to::<M>(Round::read(row, PRND)) {
        Order::Above => {}
        Order::Same if M == PREPARE_EQUAL_ROUND => {}
        _ => return ROUND_UNFIT,
    }
    round.write(row, PRND);
    // On the empty page this rack's line is absent, which is how none is kept.
    let own = line(message, line_of(AFTER_ROUND, usize::from(row[AGENT])));
    set_line(row, PVAL, own);
    seal::<M>(row);
    GRANTED
}

pub fn fast<const M: u8>(row: &mut Block, message: &Block, sent: Option<&mut Block>) -> u32 {
    if !Round::read(row, PRND).is_fast_for(row[AGENT]) {
        return ROUND_UNFIT;
    }
    propose::<M>(row, sent, word(message, BODY))
}

pub fn blank<const M: u8>(row: &mut Block, message: &Block, sent: Option<&mut Block>) -> u32 {
    let prnd = Round::read(row, PRND);
    let same = Round::read(message, ROUND).to::<M>(prnd) == Order::Same;
    if !same || !prnd.is_fast_for(row[AGENT]) {
        return ROUND_UNFIT;
    }
    propose::<M>(row, sent, LINE_NIL)
}

/// Sets pval, once in a round, and tells it in a 2A.
#[inline(always)]
fn propose<const M: u8>(row: &mut Block, sent: Option<&mut Block>, pval: u32) -> u32 {
    if line(row, PVAL) != LINE_ABSENT {
        return DONE;
    }
    let Some(sent) = sent else { return FULL };
    set_line(row, PVAL, pval);
    seal::<M>(row);
    // prnd and pval stand in the row where a 2A has its round and line.
    begin(sent, row, TWO_A);
    sent[BODY..LINE_END].copy_from_slice(&row[BODY..LINE_END]);
    seal::<M>(sent);
    GRANTED
}
