//! The two check words of a block. Document 01 names the form: two 32-bit
//! sums by wrapping add over the 126 words.

use crate::layout::{set_word, word, Block, FIRST_CHECK, SECOND_CHECK};
use crate::mistake::CHECK_FROM_0;

/// Words to a turn of the loop; 126 is 14 times 9. A loop over single words is
/// left rolled up by the compiler and takes nearly twice as long.
const TURN: usize = 9;

/// The first and the second check word that this block's words give.
#[inline(always)]
pub fn check_words<const M: u8>(block: &Block) -> (u32, u32) {
    let (words, _) = block[..FIRST_CHECK].as_chunks::<4>();
    let (turns, _) = words.as_chunks::<TURN>();
    let mut first: u32 = if M == CHECK_FROM_0 { 0 } else { 1 };
    let mut second: u32 = 0;
    for turn in turns {
        for word in turn {
            first = first.wrapping_add(u32::from_le_bytes(*word));
            second = second.wrapping_add(first);
        }
    }
    (first, second)
}

#[inline(always)]
pub fn sealed<const M: u8>(block: &Block) -> bool {
    check_words::<M>(block) == (word(block, FIRST_CHECK), word(block, SECOND_CHECK))
}

/// Ends every change of a block.
#[inline(always)]
pub fn seal<const M: u8>(block: &mut Block) {
    let (first, second) = check_words::<M>(block);
    set_word(block, FIRST_CHECK, first);
    set_word(block, SECOND_CHECK, second);
}
