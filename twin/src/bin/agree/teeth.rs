//! Shows that the comparison has teeth: the twin with a single mistake must be
//! told apart from the twin without it.

use twin::calls::{mistaken_calls as mistaken, Calls, TWIN};
use twin::mistake::*;

use crate::compare::Compare;
use crate::turns;

/// Inputs after which a mistake counts as not found.
const PATIENCE: u64 = 400_000;

#[rustfmt::skip]
const MISTAKES: [(&str, Calls); 31] = [
    ("document 01: learns only the common part of all boxes held", mistaken::<LEARN_COMMON_PART>()),
    ("document 01: opens on votes of any vrnd, by rack", mistaken::<OPEN_ANY_VRND>()),
    ("document 01: Nil-extends at open over cf only", mistaken::<OPEN_NIL_OVER_CF>()),
    ("document 01: takes vrnd Zero as 'has voted'", mistaken::<ZERO_HAS_VOTED>()),
    ("append overwrites a line", mistaken::<APPEND_OVERWRITES>()),
    ("half of the boxes is a majority", mistaken::<HALF_IS_MAJORITY>()),
    ("rounds are ordered by c first", mistaken::<ORDER_BY_C_FIRST>()),
    ("cf is not compared", mistaken::<CF_NOT_COMPARED>()),
    ("take reading sets no Nil outside cf", mistaken::<NO_NIL_OUTSIDE_CF>()),
    ("note vote accepts an equal page", mistaken::<NOTE_EQUAL_PAGE>()),
    ("learn extends over blanks of any round", mistaken::<BLANK_OF_ANY_ROUND>()),
    ("learn accepts a page of Nil alone", mistaken::<TRIVIAL_IS_LEARNED>()),
    ("start keeps what was heard", mistaken::<START_KEEPS_HEARD>()),
    ("join does not set rnd", mistaken::<JOIN_FORGETS_RND>()),
    ("prepare accepts its own round again", mistaken::<PREPARE_EQUAL_ROUND>()),
    ("take page votes twice in a round", mistaken::<TAKE_PAGE_TWICE>()),
    ("5 before 3", mistaken::<FIVE_BEFORE_THREE>()),
    ("10 before 6 to 9", mistaken::<FULL_BEFORE_ROUND>()),
    ("the post holds 95", mistaken::<POST_HOLDS_95>()),
    ("reading 65,535 is granted", mistaken::<READING_65535>()),
    ("the agent is narrowed to a byte first", mistaken::<AGENT_NARROWED>()),
    ("message numbers are looked at by every step", mistaken::<MESSAGE_ALWAYS_COUNTED>()),
    ("the first check word starts at 0", mistaken::<CHECK_FROM_0>()),
    ("bytes after the body are not looked at", mistaken::<REST_NOT_LOOKED_AT>()),
    ("the head is written on a refusal", mistaken::<HEAD_WRITTEN_ON_REFUSAL>()),
    ("the count is raised without a send", mistaken::<COUNT_WITHOUT_SEND>()),
    ("the message sent is left where none is sent", mistaken::<SENT_LEFT_AS_IT_WAS>()),
    ("setup leaves unused blocks as they were", mistaken::<SETUP_LEAVES_UNUSED>()),
    ("the book does not stop at an absent line", mistaken::<BOOK_DOES_NOT_STOP>()),
    ("the book lists a reading again", mistaken::<BOOK_REPEATS>()),
    ("the book refuses a list that just fits", mistaken::<BOOK_FULL_IS_TOO_SHORT>()),
];

/// Prints a line for each mistake; answers how many were and were not told
/// apart.
pub fn teeth(seed: u64) -> (u64, u64) {
    let (mut told_apart, mut missed) = (0, 0);
    for (name, calls) in MISTAKES {
        let mut compare = Compare::new(Box::new(calls), TWIN);
        let mut runs = 0;
        while compare.difference.is_none() && compare.inputs < PATIENCE {
            let _ = turns::turn(&mut compare, seed, runs);
            runs += 1;
        }
        match compare.difference {
            Some(_) => {
                println!("told apart after {:>6} inputs: {name}", compare.inputs);
                told_apart += 1;
            }
            None => {
                println!("NOT told apart in {} inputs: {name}", compare.inputs);
                missed += 1;
            }
        }
    }
    (told_apart, missed)
}
