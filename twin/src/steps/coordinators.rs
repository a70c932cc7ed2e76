//! Steps 2, 4 and 5: start, hear, open.

use super::begin;
use crate::check::seal;
use crate::layout::*;
use crate::mistake::{OPEN_ANY_VRND, OPEN_NIL_OVER_CF, START_KEEPS_HEARD, ZERO_HAS_VOTED};
use crate::page::{line, line_of, write_page, Lines, LINE_ABSENT, LINE_NIL};
use crate::refusal::{CLASH, DONE, FULL, GRANTED, NO_MAJORITY, ROUND_UNFIT};
use crate::round::{Order, Round, Setup};

/// crnd of a coordinator's row; cval's page follows its flag.
const CRND: usize = ROUND;
const CVAL_PAGE: usize = CVAL + 1;

pub fn start<const M: u8>(row: &mut Block, sent: Option<&mut Block>, n: u32, cf: u32) -> u32 {
    let round = Round::new(n, u32::from(row[AGENT]), cf);
    if round.to::<M>(Round::read(row, CRND)) != Order::Above {
        return ROUND_UNFIT;
    }
    let Some(sent) = sent else { return FULL };
    round.write(row, CRND);
    let emptied = if M == START_KEEPS_HEARD { HEARD } else { COORDINATOR_END };
    row[CVAL..emptied].fill(0);
    seal::<M>(row);
    begin(sent, row, ONE_A);
    round.write(sent, ROUND);
    seal::<M>(sent);
    GRANTED
}

pub fn hear<const M: u8>(row: &mut Block, message: &Block) -> u32 {
    let crnd = Round::read(row, CRND);
    if Round::read(message, ROUND).to::<M>(crnd) != Order::Same {
        return ROUND_UNFIT;
    }
    let slot = heard(usize::from(message[AGENT]));
    if row[CVAL] != 0 || row[slot] != 0 {
        return DONE;
    }
    // vrnd and vote stand side by side in a 1B as in the slot.
    row[slot] = 1;
    row[slot + HEARD_VRND..slot + HEARD_SIZE].copy_from_slice(&message[VRND..VOTE_END]);
    seal::<M>(row);
    GRANTED
}

pub fn open<const M: u8>(row: &mut Block, sent: Option<&mut Block>) -> u32 {
    let setup = Setup::of(row);
    let crnd = Round::read(row, CRND);
    if crnd.c() != u32::from(row[AGENT]) {
        return ROUND_UNFIT;
    }
    let Some(votes) = highest_votes::<M>(row, setup) else { return ROUND_UNFIT };
    if row[CVAL] != 0 {
        return DONE;
    }
    let filled = slots(setup).filter(|&slot| row[slot] != 0).count();
    if (filled as u32) < setup.majority::<M>() {
        return NO_MAJORITY;
    }
    let mut cval: Lines = [LINE_ABSENT; MAX_RACKS];
    if let Some(rank) = votes {
        for slot in slots(setup).filter(|&slot| has_vote::<M>(row, slot)) {
            let vrnd = Round::read(row, slot + HEARD_VRND);
            if vrnd.rank::<M>() == rank || M == OPEN_ANY_VRND {
                for (rack, joined) in cval.iter_mut().enumerate() {
                    let own = line(row, line_of(slot + HEARD_VOTE + 1, rack));
                    if *joined == LINE_ABSENT {
                        *joined = own;
                    } else if own != LINE_ABSENT && own != *joined && M != OPEN_ANY_VRND {
                        return CLASH;
                    }
                }
            }
        }
        for (rack, joined) in cval.iter_mut().enumerate().take(usize::from(setup.racks)) {
            let extended = M != OPEN_NIL_OVER_CF || crnd.is_fast_for(rack as u8);
            if *joined == LINE_ABSENT && extended {
                *joined = LINE_NIL;
            }
        }
    }
    let Some(sent) = sent else { return FULL };
    row[CVAL] = 1;
    write_page(row, CVAL_PAGE, &cval);
    seal::<M>(row);
    begin(sent, row, TWO_S);
    crnd.write(sent, ROUND);
    sent[AFTER_ROUND..PAGE_END].copy_from_slice(&row[CVAL_PAGE..CVAL_PAGE + PAGE_SIZE]);
    seal::<M>(sent);
    GRANTED
}

/// The rank of the highest vrnd that has a vote, if any has one. Nothing at
/// all where the vrnds of any two votes share n and c and not cf.
#[inline(always)]
fn highest_votes<const M: u8>(row: &Block, setup: Setup) -> Option<Option<u32>> {
    let mut highest: Option<u32> = None;
    for slot in slots(setup).filter(|&slot| has_vote::<M>(row, slot)) {
        let vrnd = Round::read(row, slot + HEARD_VRND);
        let clash = |&other: &usize| {
            has_vote::<M>(row, other)
                && vrnd.to::<M>(Round::read(row, other + HEARD_VRND)) == Order::Clash
        };
        if slots(setup).take_while(|&other| other < slot).any(|other| clash(&other)) {
            return None;
        }
        highest = highest.max(Some(vrnd.rank::<M>()));
    }
    Some(highest)
}

/// A slot's vote is its own flag: a box that was heard with vrnd Zero may or
/// may not have voted.
#[inline(always)]
fn has_vote<const M: u8>(row: &Block, slot: usize) -> bool {
    row[slot + HEARD_VOTE] != 0 || M == ZERO_HAS_VOTED && row[slot] != 0
}

#[inline(always)]
fn heard(heard_box: usize) -> usize {
    HEARD + heard_box * HEARD_SIZE
}

#[inline(always)]
fn slots(setup: Setup) -> impl Iterator<Item = usize> {
    (0..usize::from(setup.boxes)).map(heard)
}
