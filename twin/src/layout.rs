//! Where everything stands in a block and in a hall, and the limits: document
//! 01, "What is built" and "Blocks". Every size is named here and nowhere else.

/// One record.
pub const BLOCK: usize = 512;
pub type Block = [u8; BLOCK];

/// The 126 words that are summed end where the two check words begin.
pub const FIRST_CHECK: usize = 504;
pub const SECOND_CHECK: usize = 508;

pub const MAX_RACKS: usize = 8;
pub const MAX_BOXES: usize = 5;
pub const MAX_COORDINATORS: usize = 4;
pub const MAX_READERS: usize = 4;
pub const MAX_POST: usize = 96;
pub const MAX_BOOK: usize = 64;

/// Headset 0 does not exist, so no reading is lower.
pub const LEAST_READING: u32 = 65_536;
/// Instance numbers and the n of a round fill two bytes.
pub const LARGEST_INSTANCE: u32 = 65_535;
pub const LARGEST_N: u32 = 65_535;

// The places that every block has.
pub const INSTANCE: usize = 0;
pub const KIND: usize = 2;
pub const RACKS: usize = 3;
pub const BOXES: usize = 4;
pub const COORDINATORS: usize = 5;
pub const READERS: usize = 6;
pub const C0: usize = 7;
pub const CF0: usize = 8;
pub const AGENT: usize = 9;
pub const BODY: usize = 10;

// Kinds.
pub const PROPOSE: u8 = 1;
pub const ONE_A: u8 = 2;
pub const ONE_B: u8 = 3;
pub const TWO_S: u8 = 4;
pub const TWO_A: u8 = 5;
pub const TWO_B: u8 = 6;
pub const HEAD: u8 = 16;
pub const COORDINATOR: u8 = 17;
pub const BOX: u8 = 18;
pub const RACK: u8 = 19;
pub const READER: u8 = 20;

// Parts of bodies.
pub const ROUND_SIZE: usize = 4;
pub const LINE_SIZE: usize = 5;
pub const PAGE_SIZE: usize = MAX_RACKS * LINE_SIZE;
pub const VOTE_SIZE: usize = 1 + PAGE_SIZE;

// Line states.
pub const ABSENT: u8 = 0;
pub const NIL: u8 = 1;
pub const READING: u8 = 2;

// A message's body, and that of a box or a rack, begins with a round (that of
// PROPOSE is its reading). What follows it stands here in 2S, 2A, 2B and rack.
pub const ROUND: usize = BODY;
pub const AFTER_ROUND: usize = ROUND + ROUND_SIZE;

// 1B and box: round (rnd), vrnd, vote (vval).
pub const VRND: usize = AFTER_ROUND;
pub const VOTE: usize = VRND + ROUND_SIZE;

// Coordinator.
pub const CVAL: usize = AFTER_ROUND;
pub const HEARD: usize = CVAL + VOTE_SIZE;
pub const HEARD_SIZE: usize = 1 + ROUND_SIZE + VOTE_SIZE;
pub const HEARD_VRND: usize = 1;
pub const HEARD_VOTE: usize = HEARD_VRND + ROUND_SIZE;

// Reader.
pub const PAGE: usize = BODY;
pub const HELD: usize = PAGE + PAGE_SIZE;
pub const HELD_SIZE: usize = 1 + ROUND_SIZE + PAGE_SIZE;
pub const HELD_ROUND: usize = 1;
pub const HELD_PAGE: usize = HELD_ROUND + ROUND_SIZE;
pub const BLANKS: usize = HELD + MAX_BOXES * HELD_SIZE;
pub const BLANK_SIZE: usize = 1 + ROUND_SIZE;
pub const BLANK_ROUND: usize = 1;

// Where each body ends; from there to the check words all is zero.
pub const PROPOSE_END: usize = BODY + 4;
pub const ROUND_END: usize = AFTER_ROUND;
pub const LINE_END: usize = AFTER_ROUND + LINE_SIZE;
pub const PAGE_END: usize = AFTER_ROUND + PAGE_SIZE;
pub const VOTE_END: usize = VOTE + VOTE_SIZE;
pub const HEAD_END: usize = BODY + 2;
pub const COORDINATOR_END: usize = HEARD + MAX_BOXES * HEARD_SIZE;
pub const READER_END: usize = BLANKS + MAX_RACKS * BLANK_SIZE;

// A hall, in blocks: the head, then the rows, then the post.
pub const COORDINATORS_AT: usize = 1;
pub const BOXES_AT: usize = COORDINATORS_AT + MAX_COORDINATORS;
pub const RACKS_AT: usize = BOXES_AT + MAX_BOXES;
pub const READERS_AT: usize = RACKS_AT + MAX_RACKS;
pub const POST_AT: usize = READERS_AT + MAX_READERS;
pub const HALL_BLOCKS: usize = POST_AT + MAX_POST;
pub const HALL: usize = HALL_BLOCKS * BLOCK;

#[inline(always)]
pub fn half(block: &Block, at: usize) -> u32 {
    u32::from(u16::from_le_bytes([block[at], block[at + 1]]))
}

#[inline(always)]
pub fn set_half(block: &mut Block, at: usize, value: u16) {
    block[at..at + 2].copy_from_slice(&value.to_le_bytes());
}

#[inline(always)]
pub fn word(block: &Block, at: usize) -> u32 {
    u32::from_le_bytes([block[at], block[at + 1], block[at + 2], block[at + 3]])
}

#[inline(always)]
pub fn set_word(block: &mut Block, at: usize, value: u32) {
    block[at..at + 4].copy_from_slice(&value.to_le_bytes());
}

/// Whether all these bytes are zero, looked at eight at a time.
#[inline(always)]
pub fn zero(bytes: &[u8]) -> bool {
    let (words, rest) = bytes.as_chunks::<8>();
    let mut any = 0;
    for word in words {
        any |= u64::from_le_bytes(*word);
    }
    for &byte in rest {
        any |= u64::from(byte);
    }
    any == 0
}
