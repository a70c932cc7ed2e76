//! The book: the yearly list out of one reader's blocks. Document 01, "The
//! book".

use crate::layout::*;
use crate::mistake::{BOOK_DOES_NOT_STOP, BOOK_FULL_IS_TOO_SHORT, BOOK_REPEATS};
use crate::page::{line, line_of, LINE_ABSENT, LINE_NIL};
use crate::refusal::*;
use crate::round::same_setup;
use crate::rules::good;

/// The longest list: every line of every page another reading.
const MAX_LIST: usize = MAX_BOOK * MAX_RACKS;

/// The refusal and the count, which is 0 if refused.
pub fn book<const M: u8>(blocks: &[u8], list: &mut [u32]) -> (u32, u32) {
    let (blocks, rest) = blocks.as_chunks::<BLOCK>();
    if blocks.len() > MAX_BOOK || !rest.is_empty() {
        return (LENGTH, 0);
    }
    // Each refusal over all blocks before the next.
    if !blocks.iter().all(good::<M>) {
        return (BAD_BLOCK, 0);
    }
    if !blocks.iter().enumerate().all(|(place, block)| follows(&blocks[0], place, block)) {
        return (DIFFERS, 0);
    }
    if !blocks.iter().all(|block| block[KIND] == READER) {
        return (WRONG, 0);
    }
    // Nothing may be written to the lent row before the list is known to fit.
    let mut readings = [0; MAX_LIST];
    let count = walk::<M>(blocks, &mut readings);
    if count > list.len() || M == BOOK_FULL_IS_TOO_SHORT && count == list.len() {
        return (FULL, 0);
    }
    list[..count].copy_from_slice(&readings[..count]);
    (GRANTED, count as u32)
}

/// Whether a block has the first one's agent and setup, and its place as its
/// instance.
fn follows(first: &Block, place: usize, block: &Block) -> bool {
    half(block, INSTANCE) == place as u32
        && same_setup(first, block)
        && first[AGENT] == block[AGENT]
}

/// By instance, then rack: the readings, each once, up to the first absent
/// line of any instance.
fn walk<const M: u8>(blocks: &[Block], readings: &mut [u32; MAX_LIST]) -> usize {
    let mut count = 0;
    'walk: for block in blocks {
        for rack in 0..usize::from(block[RACKS]) {
            match line(block, line_of(PAGE, rack)) {
                LINE_ABSENT if M == BOOK_DOES_NOT_STOP => {}
                LINE_ABSENT => break 'walk,
                LINE_NIL => {}
                reading if M != BOOK_REPEATS && readings[..count].contains(&reading) => {}
                reading => {
                    readings[count] = reading;
                    count += 1;
                }
            }
        }
    }
    count
}
