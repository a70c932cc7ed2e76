//! Steps 3, 9 and 10: join, take page, take reading.

use super::begin;
use crate::check::seal;
use crate::layout::*;
use crate::mistake::{JOIN_FORGETS_RND, NO_NIL_OUTSIDE_CF, TAKE_PAGE_TWICE, ZERO_HAS_VOTED};
use crate::page::{append, line, LINE_NIL};
use crate::refusal::{DONE, FULL, GRANTED, ROUND_UNFIT};
use crate::round::{Order, Round, Setup};

/// rnd, vrnd and vval of a box's row; vval's page follows its flag.
const RND: usize = ROUND;
const VVAL: usize = VOTE;
const VVAL_PAGE: usize = VVAL + 1;

pub fn join<const M: u8>(row: &mut Block, message: &Block, sent: Option<&mut Block>) -> u32 {
    let round = Round::read(message, ROUND);
    if round.to::<M>(Round::read(row, RND)) != Order::Above {
        return ROUND_UNFIT;
    }
    let Some(sent) = sent else { return FULL };
    if M != JOIN_FORGETS_RND {
        round.write(row, RND);
    }
    seal::<M>(row);
    // vrnd and vval stand in the row where a 1B has them.
    begin(sent, row, ONE_B);
    round.write(sent, ROUND);
    sent[VRND..VOTE_END].copy_from_slice(&row[VRND..VOTE_END]);
    seal::<M>(sent);
    GRANTED
}

pub fn take_page<const M: u8>(row: &mut Block, message: &Block, sent: Option<&mut Block>) -> u32 {
    let round = Round::read(message, ROUND);
    let Some(voted) = voted_at::<M>(row, round) else { return ROUND_UNFIT };
    if voted && M != TAKE_PAGE_TWICE {
        return DONE;
    }
    let Some(sent) = sent else { return FULL };
    row[VVAL_PAGE..VVAL_PAGE + PAGE_SIZE].copy_from_slice(&message[AFTER_ROUND..PAGE_END]);
    vote::<M>(row, round, sent)
}

pub fn take_reading<const M: u8>(
    row: &mut Block,
    message: &Block,
    sent: Option<&mut Block>,
) -> u32 {
    let round = Round::read(message, ROUND);
    let Some(voted) = voted_at::<M>(row, round) else { return ROUND_UNFIT };
    let Some(sent) = sent else { return FULL };
    if !voted {
        // The vote of a lower round goes; Nil only where this round isn't fast.
        row[VVAL_PAGE..VVAL_PAGE + PAGE_SIZE].fill(0);
        let outside = Setup::of(row).all_racks() & !round.cf();
        for rack in 0..MAX_RACKS {
            if outside >> rack & 1 == 1 && M != NO_NIL_OUTSIDE_CF {
                append::<M>(row, VVAL_PAGE, rack, LINE_NIL);
            }
        }
    }
    let rack = usize::from(message[AGENT]);
    append::<M>(row, VVAL_PAGE, rack, line(message, AFTER_ROUND));
    vote::<M>(row, round, sent)
}

/// Whether this box has a vote in `round`; nothing where rnd or vrnd is above
/// it or shares n and c with it under another cf.
#[inline(always)]
fn voted_at<const M: u8>(row: &Block, round: Round) -> Option<bool> {
    let (rnd, vrnd) = (Round::read(row, RND), Round::read(row, VRND));
    match (rnd.to::<M>(round), vrnd.to::<M>(round)) {
        (Order::Above | Order::Clash, _) | (_, Order::Above | Order::Clash) => None,
        // vrnd Zero alone is no vote: only vval tells.
        (_, Order::Same) => Some(row[VVAL] != 0 || M == ZERO_HAS_VOTED),
        (_, Order::Below) => Some(false),
    }
}

/// Sets rnd and vrnd under the page that is already in place, and tells the
/// vote in a 2B.
#[inline(always)]
fn vote<const M: u8>(row: &mut Block, round: Round, sent: &mut Block) -> u32 {
    round.write(row, RND);
    round.write(row, VRND);
    row[VVAL] = 1;
    seal::<M>(row);
    begin(sent, row, TWO_B);
    round.write(sent, ROUND);
    sent[AFTER_ROUND..PAGE_END].copy_from_slice(&row[VVAL_PAGE..VVAL_PAGE + PAGE_SIZE]);
    seal::<M>(sent);
    GRANTED
}
