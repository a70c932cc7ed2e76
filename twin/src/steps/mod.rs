//! The thirteen steps on one row, one message read and one message sent:
//! refusals 5 to 10, then the change. Whoever calls has found the blocks good
//! and of one hall, and the numbers in range.

mod boxes;
mod coordinators;
mod racks;
mod readers;

use crate::layout::*;
use crate::mistake::READING_65535;
use crate::refusal::*;
use crate::round::Setup;

/// Code, agent, message number, n, c, cf, reading.
pub type Step = [u32; 7];

/// Which sort of row a step is for, as the kind of that row; none for a code
/// that isn't 1 to 13.
#[inline(always)]
pub fn row_kind(code: u32) -> Option<u8> {
    match code {
        1 | 6..=8 => Some(RACK),
        2 | 4 | 5 => Some(COORDINATOR),
        3 | 9 | 10 => Some(BOX),
        11..=13 => Some(READER),
        _ => None,
    }
}

/// Whether the step names a message that it reads.
#[inline(always)]
pub fn reads_message(code: u32) -> bool {
    matches!(code, 3 | 4 | 6..=12)
}

/// Whether the step sends a message when it is granted.
#[inline(always)]
pub fn sends(code: u32) -> bool {
    matches!(code, 1..=3 | 5 | 7..=10)
}

/// Refusal 11 of a step. Step 2 takes its c from the agent, so the number c
/// is looked at by step 13 alone.
#[inline(always)]
pub fn in_range<const M: u8>(setup: Setup, step: &Step) -> bool {
    let [code, _, _, n, c, cf, reading] = *step;
    match code {
        1 if M == READING_65535 => reading >= LEAST_READING - 1,
        1 => reading >= LEAST_READING,
        2 => n != 0 && n <= LARGEST_N && setup.has_racks(cf),
        13 => setup.round(n, c, cf).is_some(),
        _ => true,
    }
}

/// Refusal 5: the row's sort, and the message's kind and content.
#[inline(always)]
pub fn fits(code: u32, row: &Block, message: &Block) -> bool {
    let state = message[AFTER_ROUND];
    row_kind(code) == Some(row[KIND])
        && match code {
            3 => message[KIND] == ONE_A,
            4 => message[KIND] == ONE_B,
            6 => message[KIND] == TWO_S,
            7 => message[KIND] == PROPOSE,
            8 | 10 => message[KIND] == TWO_A && state == READING,
            // A good 2S is empty or complete, so its first line tells which.
            9 => message[KIND] == TWO_S && state != ABSENT,
            11 => message[KIND] == TWO_B,
            12 => message[KIND] == TWO_A && state == NIL,
            _ => true,
        }
}

/// Takes the step: refusals 5 to 10, or row and message written. Where the
/// post is full there is no block to send into.
#[inline(always)]
pub fn take<const M: u8>(
    step: &Step,
    row: &mut Block,
    message: &Block,
    sent: Option<&mut Block>,
) -> u32 {
    let [code, _, _, n, c, cf, reading] = *step;
    if !fits(code, row, message) {
        return WRONG;
    }
    match code {
        1 => racks::offer::<M>(row, sent, reading),
        2 => coordinators::start::<M>(row, sent, n, cf),
        3 => boxes::join::<M>(row, message, sent),
        4 => coordinators::hear::<M>(row, message),
        5 => coordinators::open::<M>(row, sent),
        6 => racks::prepare::<M>(row, message),
        7 => racks::fast::<M>(row, message, sent),
        8 => racks::blank::<M>(row, message, sent),
        9 => boxes::take_page::<M>(row, message, sent),
        10 => boxes::take_reading::<M>(row, message, sent),
        11 => readers::note_vote::<M>(row, message),
        12 => readers::note_blank::<M>(row, message),
        13 => readers::learn::<M>(row, n, c, cf),
        _ => NO_SUCH,
    }
}

/// Begins a message of this row's agent: all but the kind stands in the row's
/// own first bytes.
#[inline(always)]
fn begin(sent: &mut Block, row: &Block, kind: u8) {
    *sent = [0; BLOCK];
    sent[..BODY].copy_from_slice(&row[..BODY]);
    sent[KIND] = kind;
}
