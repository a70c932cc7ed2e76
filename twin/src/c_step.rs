//! The step that the boxes' firmware calls, on three separate lent blocks.

use crate::layout::{Block, BLOCK};
use crate::mistake::{FIVE_BEFORE_THREE, SENT_LEFT_AS_IT_WAS};
use crate::refusal::*;
use crate::round::{same_hall, Setup};
use crate::rules::good;
use crate::steps::{fits, in_range, reads_message, row_kind, sends, take, Step};

/// One step on a row of any sort of agent. Order: 1, 4 (code only), row 2, 11,
/// message 2, 3, then 5 to 9. The step's agent and message number are ignored.
#[inline(always)]
pub fn step<const M: u8>(row: &mut [u8], message: &[u8], sent: &mut [u8], step: Step) -> u32 {
    let (Ok(row), Ok(message), Ok(sent)) =
        (<&mut Block>::try_from(row), <&Block>::try_from(message), <&mut Block>::try_from(sent))
    else {
        return LENGTH;
    };
    let code = step[0];
    if row_kind(code).is_none() {
        return NO_SUCH;
    }
    if !good::<M>(row) {
        return BAD_BLOCK;
    }
    if !in_range::<M>(Setup::of(row), &step) {
        return RANGE;
    }
    if reads_message(code) {
        if !good::<M>(message) {
            return BAD_BLOCK;
        }
        if M == FIVE_BEFORE_THREE && !fits(code, row, message) {
            return WRONG;
        }
        if !same_hall(row, message) {
            return DIFFERS;
        }
    }
    let answer = take::<M>(&step, row, message, Some(sent));
    if answer == GRANTED && !sends(code) && M != SENT_LEFT_AS_IT_WAS {
        *sent = [0; BLOCK];
    }
    answer
}
