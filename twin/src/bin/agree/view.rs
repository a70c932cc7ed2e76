//! A look into a hall's bytes, for choosing steps and for watching them. Good
//! for damaged halls too: it only reads what stands there.

use twin::layout::*;

/// The four sorts of agent: the kind of their rows, where the rows stand, and
/// which byte of the setup counts them.
pub const SORTS: [(u8, usize, usize); 4] = [
    (COORDINATOR, COORDINATORS_AT, COORDINATORS),
    (BOX, BOXES_AT, BOXES),
    (RACK, RACKS_AT, RACKS),
    (READER, READERS_AT, READERS),
];

/// The sort of agent that a step is for, as a place in `SORTS`.
pub fn sort(code: u32) -> usize {
    match code {
        2 | 4 | 5 => 0,
        3 | 9 | 10 => 1,
        1 | 6..=8 => 2,
        _ => 3,
    }
}

pub fn sends(code: u32) -> bool {
    ![4, 6, 11, 12, 13].contains(&code)
}

pub fn names_message(code: u32) -> bool {
    ![1, 2, 5, 13].contains(&code)
}

pub fn block(hall: &[u8], place: usize) -> &Block {
    hall[place * BLOCK..][..BLOCK].try_into().expect("a whole block")
}

pub fn put(hall: &mut [u8], place: usize, block: &Block) {
    hall[place * BLOCK..][..BLOCK].copy_from_slice(block);
}

/// The message count as the head has it, at most what a hall can hold.
pub fn count(hall: &[u8]) -> usize {
    (half(block(hall, 0), BODY) as usize).min(MAX_POST)
}

/// How many agents of a sort the head says there are, at least one and at
/// most as many as there are places.
pub fn agents(hall: &[u8], sort: usize) -> usize {
    let most = [MAX_COORDINATORS, MAX_BOXES, MAX_RACKS, MAX_READERS][sort];
    let said = hall.get(SORTS[sort].2).copied().unwrap_or(1);
    usize::from(said).clamp(1, most)
}

/// The place of the row that a step is for.
pub fn row_place(step: &[u32; 7], hall: &[u8]) -> usize {
    let sort = sort(step[0]);
    SORTS[sort].1 + (step[1] as usize).min(agents(hall, sort) - 1)
}

/// Whether a message is of the kind and content that a step names.
pub fn fits(code: u32, message: &Block) -> bool {
    let (kind, state) = (message[KIND], message[AFTER_ROUND]);
    match code {
        3 => kind == ONE_A,
        4 => kind == ONE_B,
        6 => kind == TWO_S,
        7 => kind == PROPOSE,
        8 | 10 => kind == TWO_A && state == READING,
        9 => kind == TWO_S && state != ABSENT,
        11 => kind == TWO_B,
        12 => kind == TWO_A && state == NIL,
        _ => true,
    }
}

/// n, c, cf of the round at `at`.
pub fn round(block: &Block, at: usize) -> [u32; 3] {
    [half(block, at), block[at + 2].into(), block[at + 3].into()]
}

/// Writes the check words of changed bytes, so that only rules can refuse.
pub fn seal(block: &mut Block) {
    twin::check::seal::<{ twin::mistake::NONE }>(block);
}
