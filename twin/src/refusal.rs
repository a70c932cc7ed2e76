//! The refusal numbers of document 01, "Refusals and their order".

pub const GRANTED: u32 = 0;
/// A lent buffer has the wrong length.
pub const LENGTH: u32 = 1;
/// A block that the step reads fails its check or rules.
pub const BAD_BLOCK: u32 = 2;
/// Blocks differ in setup or instance, or a row's agent number is not its place.
pub const DIFFERS: u32 = 3;
/// Code not 1 to 13, no such agent, message number not below the count.
pub const NO_SUCH: u32 = 4;
/// Wrong row or message.
pub const WRONG: u32 = 5;
/// The round doesn't fit.
pub const ROUND_UNFIT: u32 = 6;
/// Already done.
pub const DONE: u32 = 7;
/// No majority.
pub const NO_MAJORITY: u32 = 8;
/// Lines clash, or a page would be all Nil.
pub const CLASH: u32 = 9;
/// Post full, or book output too short.
pub const FULL: u32 = 10;
/// Setup, round or reading out of range.
pub const RANGE: u32 = 11;
