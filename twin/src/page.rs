//! Lines and pages, in place in a block: document 01, "Pages and rounds".
//!
//! In a register a line is one number: 0 absent, 1 Nil, else the reading. No
//! reading is that low, so two lines are equal when their numbers are.

use crate::layout::*;
use crate::mistake::APPEND_OVERWRITES;

pub const LINE_ABSENT: u32 = 0;
pub const LINE_NIL: u32 = 1;

/// A page taken out of its block where a step must know all of it before it
/// may write.
pub type Lines = [u32; MAX_RACKS];

/// The line whose bytes begin at `at`. In a good block the four bytes are zero
/// under the states absent and Nil, so no branch is needed.
#[inline(always)]
pub fn line(block: &Block, at: usize) -> u32 {
    word(block, at + 1) | u32::from(block[at] & NIL)
}

#[inline(always)]
pub fn set_line(block: &mut Block, at: usize, line: u32) {
    let (state, reading) = match line {
        LINE_ABSENT => (ABSENT, 0),
        LINE_NIL => (NIL, 0),
        reading => (READING, reading),
    };
    block[at] = state;
    set_word(block, at + 1, reading);
}

/// The place of a rack's line on the page that begins at `page`.
#[inline(always)]
pub fn line_of(page: usize, rack: usize) -> usize {
    page + rack * LINE_SIZE
}

/// Append: changes the line only where it is absent.
#[inline(always)]
pub fn append<const M: u8>(block: &mut Block, page: usize, rack: usize, new: u32) {
    let at = line_of(page, rack);
    if block[at] == ABSENT || M == APPEND_OVERWRITES {
        set_line(block, at, new);
    }
}

/// Which racks have a line on a page, and which of those a reading, as bits.
#[derive(Clone, Copy)]
pub struct Marks {
    present: u32,
    readings: u32,
}

impl Marks {
    #[inline(always)]
    pub fn empty(self) -> bool {
        self.present == 0
    }

    #[inline(always)]
    pub fn valued(self) -> bool {
        self.readings != 0
    }

    #[inline(always)]
    pub fn complete(self, all: u32) -> bool {
        self.present == all
    }

    #[inline(always)]
    pub fn trivial(self, all: u32) -> bool {
        self.complete(all) && !self.valued()
    }
}

#[inline(always)]
pub fn line_good(block: &Block, at: usize) -> bool {
    let (state, reading) = (block[at], word(block, at + 1));
    match state {
        ABSENT | NIL => reading == 0,
        READING => reading >= LEAST_READING,
        _ => false,
    }
}

/// The marks of the page at `page`, or nothing if it is no page of these
/// racks (`all`, as bits). Always all eight lines, without a branch on them.
#[inline(always)]
pub fn marks(block: &Block, page: usize, all: u32) -> Option<Marks> {
    let bytes = &block[page..page + PAGE_SIZE];
    let (mut present, mut readings, mut bad) = (0, 0, false);
    for rack in 0..MAX_RACKS {
        let at = rack * LINE_SIZE;
        let state = bytes[at];
        let reading =
            u32::from_le_bytes([bytes[at + 1], bytes[at + 2], bytes[at + 3], bytes[at + 4]]);
        bad |= if state == READING {
            reading < LEAST_READING
        } else {
            (state > READING) | (reading != 0)
        };
        present |= u32::from(state != ABSENT) << rack;
        readings |= u32::from(state == READING) << rack;
    }
    (!bad && present & !all == 0).then_some(Marks { present, readings })
}

/// Whether the page at `from` is a prefix of the page at `to` of another block,
/// and the other way round: each present line of the one is equal in the other.
#[inline(always)]
pub fn prefixes(one: &Block, from: usize, other: &Block, to: usize) -> (bool, bool) {
    let (mut of_other, mut of_one) = (true, true);
    for rack in 0..MAX_RACKS {
        let mine = line(one, line_of(from, rack));
        let theirs = line(other, line_of(to, rack));
        of_other &= mine == theirs || mine == LINE_ABSENT;
        of_one &= mine == theirs || theirs == LINE_ABSENT;
    }
    (of_other, of_one)
}

#[inline(always)]
pub fn write_page(block: &mut Block, page: usize, lines: &Lines) {
    for (rack, &line) in lines.iter().enumerate() {
        set_line(block, line_of(page, rack), line);
    }
}
