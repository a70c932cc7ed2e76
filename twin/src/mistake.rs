//! Single mistakes that can be put into the twin, so that the agreement
//! program can show that it would notice them. They are a const parameter:
//! in the twin itself (`NONE`) each of them compiles away.

pub const NONE: u8 = 0;

// Document 01, "Plausible errors".
pub const LEARN_COMMON_PART: u8 = 1;
pub const OPEN_ANY_VRND: u8 = 2;
pub const OPEN_NIL_OVER_CF: u8 = 3;
pub const ZERO_HAS_VOTED: u8 = 4;

// Pages and rounds.
pub const APPEND_OVERWRITES: u8 = 5;
pub const HALF_IS_MAJORITY: u8 = 6;
pub const ORDER_BY_C_FIRST: u8 = 7;
pub const CF_NOT_COMPARED: u8 = 8;

// Steps.
pub const NO_NIL_OUTSIDE_CF: u8 = 9;
pub const NOTE_EQUAL_PAGE: u8 = 10;
pub const BLANK_OF_ANY_ROUND: u8 = 11;
pub const TRIVIAL_IS_LEARNED: u8 = 12;
pub const START_KEEPS_HEARD: u8 = 13;
pub const JOIN_FORGETS_RND: u8 = 14;
pub const PREPARE_EQUAL_ROUND: u8 = 15;
pub const TAKE_PAGE_TWICE: u8 = 16;

// Refusals and their order.
pub const FIVE_BEFORE_THREE: u8 = 17;
pub const FULL_BEFORE_ROUND: u8 = 18;
pub const POST_HOLDS_95: u8 = 19;
pub const READING_65535: u8 = 20;
pub const AGENT_NARROWED: u8 = 21;
pub const MESSAGE_ALWAYS_COUNTED: u8 = 22;

// Blocks and lent bytes.
pub const CHECK_FROM_0: u8 = 23;
pub const REST_NOT_LOOKED_AT: u8 = 24;
pub const HEAD_WRITTEN_ON_REFUSAL: u8 = 25;
pub const COUNT_WITHOUT_SEND: u8 = 26;
pub const SENT_LEFT_AS_IT_WAS: u8 = 27;
pub const SETUP_LEAVES_UNUSED: u8 = 28;

// The book.
pub const BOOK_DOES_NOT_STOP: u8 = 29;
pub const BOOK_REPEATS: u8 = 30;
pub const BOOK_FULL_IS_TOO_SHORT: u8 = 31;
