//! Whether a block is good: its check words and the rules of document 01,
//! "Blocks". All of it is one refusal, so the cheap tests stand first.

use crate::check::sealed;
use crate::layout::*;
use crate::mistake::REST_NOT_LOOKED_AT;
use crate::page::{line_good, marks};
use crate::round::{Round, Setup};

/// Whether the block passes its check and every rule of its kind.
pub fn good<const M: u8>(block: &Block) -> bool {
    let setup = Setup::of(block);
    setup.in_range() && sealed::<M>(block) && body_good::<M>(block, setup)
}

#[inline(always)]
fn body_good<const M: u8>(block: &Block, setup: Setup) -> bool {
    let agent = block[AGENT];
    match block[KIND] {
        PROPOSE => {
            agent < setup.racks
                && word(block, BODY) >= LEAST_READING
                && rest_zero::<M>(block, PROPOSE_END)
        }
        ONE_A => {
            agent < setup.coordinators
                && own_round(block, setup)
                && rest_zero::<M>(block, ROUND_END)
        }
        ONE_B => {
            let (round, vrnd) = (Round::read(block, ROUND), Round::read(block, VRND));
            agent < setup.boxes
                && setup.allows(round)
                && vrnd.rank::<M>() < round.rank::<M>()
                && vote_good(block, VRND, VOTE, setup)
                && rest_zero::<M>(block, VOTE_END)
        }
        TWO_S => {
            agent < setup.coordinators
                && own_round(block, setup)
                && whole_page_good(block, AFTER_ROUND, setup)
                && rest_zero::<M>(block, PAGE_END)
        }
        TWO_A => {
            let round = Round::read(block, ROUND);
            agent < setup.racks
                && setup.allows(round)
                && round.is_fast_for(agent)
                && block[AFTER_ROUND] != ABSENT
                && line_good(block, AFTER_ROUND)
                && rest_zero::<M>(block, LINE_END)
        }
        TWO_B => {
            agent < setup.boxes
                && setup.allows(Round::read(block, ROUND))
                && valued_page_good(block, AFTER_ROUND, setup)
                && rest_zero::<M>(block, PAGE_END)
        }
        HEAD => {
            agent == 0 && half(block, BODY) <= MAX_POST as u32 && rest_zero::<M>(block, HEAD_END)
        }
        COORDINATOR => {
            agent < setup.coordinators
                && coordinator_good::<M>(block, setup)
                && rest_zero::<M>(block, COORDINATOR_END)
        }
        BOX => {
            let (rnd, vrnd) = (Round::read(block, ROUND), Round::read(block, VRND));
            agent < setup.boxes
                && setup.allows(rnd)
                && vrnd.rank::<M>() <= rnd.rank::<M>()
                && vote_good(block, VRND, VOTE, setup)
                && rest_zero::<M>(block, VOTE_END)
        }
        RACK => {
            agent < setup.racks
                && setup.allows(Round::read(block, ROUND))
                && line_good(block, AFTER_ROUND)
                && rest_zero::<M>(block, LINE_END)
        }
        READER => {
            agent < setup.readers && reader_good(block, setup) && rest_zero::<M>(block, READER_END)
        }
        _ => false,
    }
}

#[inline(always)]
fn rest_zero<const M: u8>(block: &Block, from: usize) -> bool {
    M == REST_NOT_LOOKED_AT || zero(&block[from..FIRST_CHECK])
}

/// The round of a 1A or 2S: n of 1 or more and c the agent.
#[inline(always)]
fn own_round(block: &Block, setup: Setup) -> bool {
    let round = Round::read(block, ROUND);
    setup.allows(round) && round.n() != 0 && round.c() == u32::from(block[AGENT])
}

/// A vrnd and the vote of that round: no vote means vrnd Zero.
#[inline(always)]
fn vote_good(block: &Block, vrnd: usize, vote: usize, setup: Setup) -> bool {
    let round = Round::read(block, vrnd);
    setup.allows(round)
        && match block[vote] {
            0 => round == setup.zero() && zero(&block[vote + 1..vote + VOTE_SIZE]),
            1 => valued_page_good(block, vote + 1, setup),
            _ => false,
        }
}

#[inline(always)]
fn valued_page_good(block: &Block, page: usize, setup: Setup) -> bool {
    marks(block, page, setup.all_racks()).is_some_and(|marks| marks.valued())
}

/// The page of a 2S or a cval: empty, or complete and valued.
#[inline(always)]
fn whole_page_good(block: &Block, page: usize, setup: Setup) -> bool {
    let all = setup.all_racks();
    marks(block, page, all)
        .is_some_and(|marks| marks.empty() || marks.complete(all) && marks.valued())
}

fn coordinator_good<const M: u8>(block: &Block, setup: Setup) -> bool {
    let crnd = Round::read(block, ROUND);
    let is_zero = crnd == setup.zero();
    setup.allows(crnd)
        && (is_zero || crnd.c() == u32::from(block[AGENT]))
        && match block[CVAL] {
            0 => zero(&block[CVAL + 1..CVAL + VOTE_SIZE]),
            1 => whole_page_good(block, CVAL + 1, setup),
            _ => false,
        }
        && (0..MAX_BOXES).all(|heard_box| {
            let slot = HEARD + heard_box * HEARD_SIZE;
            match block[slot] {
                0 => zero(&block[slot + 1..slot + HEARD_SIZE]),
                1 => {
                    let vrnd = Round::read(block, slot + HEARD_VRND);
                    !is_zero
                        && heard_box < usize::from(setup.boxes)
                        && vrnd.rank::<M>() < crnd.rank::<M>()
                        && vote_good(block, slot + HEARD_VRND, slot + HEARD_VOTE, setup)
                }
                _ => false,
            }
        })
}

fn reader_good(block: &Block, setup: Setup) -> bool {
    let all = setup.all_racks();
    let page = marks(block, PAGE, all);
    page.is_some_and(|marks| !marks.trivial(all))
        && (0..MAX_BOXES).all(|held_box| {
            let slot = HELD + held_box * HELD_SIZE;
            match block[slot] {
                0 => zero(&block[slot + 1..slot + HELD_SIZE]),
                1 => {
                    held_box < usize::from(setup.boxes)
                        && setup.allows(Round::read(block, slot + HELD_ROUND))
                        && valued_page_good(block, slot + HELD_PAGE, setup)
                }
                _ => false,
            }
        })
        && (0..MAX_RACKS).all(|rack| {
            let slot = BLANKS + rack * BLANK_SIZE;
            let round = Round::read(block, slot + BLANK_ROUND);
            match block[slot] {
                0 => word(block, slot + BLANK_ROUND) == 0,
                1 => rack < usize::from(setup.racks) && setup.allows(round),
                _ => false,
            }
        })
}
