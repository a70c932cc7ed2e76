//! Steps 11, 12 and 13: note vote, note blank, learn.

use crate::check::seal;
use crate::layout::*;
use crate::mistake::{BLANK_OF_ANY_ROUND, LEARN_COMMON_PART, NOTE_EQUAL_PAGE, TRIVIAL_IS_LEARNED};
use crate::page::{line, line_of, prefixes, write_page, Lines, LINE_ABSENT, LINE_NIL};
use crate::refusal::{CLASH, DONE, GRANTED, NO_MAJORITY, ROUND_UNFIT};
use crate::round::{Order, Round, Setup};

pub fn note_vote<const M: u8>(row: &mut Block, message: &Block) -> u32 {
    let round = Round::read(message, ROUND);
    let slot = HELD + usize::from(message[AGENT]) * HELD_SIZE;
    let page = slot + HELD_PAGE;
    if row[slot] != 0 {
        match round.to::<M>(Round::read(row, slot + HELD_ROUND)) {
            Order::Above => {}
            Order::Below | Order::Clash => return ROUND_UNFIT,
            Order::Same => {
                let (extends, within) = prefixes(row, page, message, AFTER_ROUND);
                if within && !(extends && M == NOTE_EQUAL_PAGE) {
                    return DONE;
                }
                if !extends {
                    return CLASH;
                }
            }
        }
    }
    // Round and page stand side by side in a 2B as in the slot.
    row[slot] = 1;
    row[slot + HELD_ROUND..slot + HELD_SIZE].copy_from_slice(&message[ROUND..PAGE_END]);
    seal::<M>(row);
    GRANTED
}

pub fn note_blank<const M: u8>(row: &mut Block, message: &Block) -> u32 {
    let round = Round::read(message, ROUND);
    let slot = BLANKS + usize::from(message[AGENT]) * BLANK_SIZE;
    if row[slot] != 0 {
        match round.to::<M>(Round::read(row, slot + BLANK_ROUND)) {
            Order::Above => {}
            Order::Same => return DONE,
            Order::Below | Order::Clash => return ROUND_UNFIT,
        }
    }
    row[slot] = 1;
    round.write(row, slot + BLANK_ROUND);
    seal::<M>(row);
    GRANTED
}

pub fn learn<const M: u8>(row: &mut Block, n: u32, c: u32, cf: u32) -> u32 {
    let setup = Setup::of(row);
    let round = Round::new(n, c, cf);
    // The pages held at exactly that round.
    let mut pages = [0; MAX_BOXES];
    let mut held = 0;
    for held_box in 0..usize::from(setup.boxes) {
        let slot = HELD + held_box * HELD_SIZE;
        if row[slot] != 0 && Round::read(row, slot + HELD_ROUND) == round {
            pages[held] = slot + HELD_PAGE;
            held += 1;
        }
    }
    let pages = &pages[..held];
    let mut needed = setup.majority::<M>() as usize;
    if held < needed {
        return NO_MAJORITY;
    }
    if M == LEARN_COMMON_PART {
        needed = held;
    }
    let racks = usize::from(setup.racks);
    let mut learned: Lines = [LINE_ABSENT; MAX_RACKS];
    for (rack, new) in learned.iter_mut().enumerate().take(racks) {
        let blank = BLANKS + rack * BLANK_SIZE;
        let is_blank = row[blank] != 0
            && round.is_fast_for(rack as u8)
            && (M == BLANK_OF_ANY_ROUND || Round::read(row, blank + BLANK_ROUND) == round);
        let mut lines = [LINE_ABSENT; MAX_BOXES];
        for (extended, &page) in lines.iter_mut().zip(pages) {
            *extended = match line(row, line_of(page, rack)) {
                LINE_ABSENT if is_blank => LINE_NIL,
                own => own,
            };
        }
        // A line is on a chosen page exactly when a majority has it: that line
        // alone is then a prefix of all their pages. Two majorities meet, so
        // at most one line of a rack is chosen.
        let lines = &lines[..held];
        let chosen = lines.iter().copied().find(|&candidate| {
            let agree = lines.iter().filter(|&&line| line == candidate).count();
            candidate != LINE_ABSENT && agree >= needed
        });
        let own = line(row, line_of(PAGE, rack));
        *new = match chosen {
            Some(line) if own != LINE_ABSENT && own != line => return CLASH,
            Some(line) => line,
            None => own,
        };
    }
    if learned[..racks].iter().all(|&line| line == LINE_NIL) && M != TRIVIAL_IS_LEARNED {
        return CLASH;
    }
    write_page(row, PAGE, &learned);
    seal::<M>(row);
    GRANTED
}
