//! Rounds and the setup that bounds them: document 01, "Pages and rounds".

use crate::layout::*;
use crate::mistake::{CF_NOT_COMPARED, HALF_IS_MAJORITY, ORDER_BY_C_FIRST};

/// A round as its four bytes stand in a block: n, then c, then cf. Kept as one
/// word, so that rounds are equal only if all three agree.
#[derive(Clone, Copy, PartialEq, Eq)]
pub struct Round(u32);

/// How one round stands to another. `Clash`: n and c agree and cf does not,
/// which no step that compares two rounds accepts.
#[derive(Clone, Copy, PartialEq, Eq)]
pub enum Order {
    Below,
    Same,
    Above,
    Clash,
}

impl Round {
    #[inline(always)]
    pub fn new(n: u32, c: u32, cf: u32) -> Round {
        Round(n | c << 16 | cf << 24)
    }

    #[inline(always)]
    pub fn read(block: &Block, at: usize) -> Round {
        Round(word(block, at))
    }

    #[inline(always)]
    pub fn write(self, block: &mut Block, at: usize) {
        set_word(block, at, self.0);
    }

    #[inline(always)]
    pub fn n(self) -> u32 {
        self.0 & 0xffff
    }

    #[inline(always)]
    pub fn c(self) -> u32 {
        self.0 >> 16 & 0xff
    }

    #[inline(always)]
    pub fn cf(self) -> u32 {
        self.0 >> 24
    }

    #[inline(always)]
    pub fn is_fast_for(self, rack: u8) -> bool {
        self.cf() >> rack & 1 == 1
    }

    /// By n, then c: a number that orders rounds as document 01 does.
    #[inline(always)]
    pub fn rank<const M: u8>(self) -> u32 {
        if M == ORDER_BY_C_FIRST {
            self.c() << 16 | self.n()
        } else {
            self.n() << 8 | self.c()
        }
    }

    /// How this round stands to `other`.
    #[inline(always)]
    pub fn to<const M: u8>(self, other: Round) -> Order {
        let (mine, theirs) = (self.rank::<M>(), other.rank::<M>());
        if mine < theirs {
            Order::Below
        } else if mine > theirs {
            Order::Above
        } else if self == other || M == CF_NOT_COMPARED {
            Order::Same
        } else {
            Order::Clash
        }
    }
}

/// The six numbers of a setup, as every block carries them.
#[derive(Clone, Copy)]
pub struct Setup {
    pub racks: u8,
    pub boxes: u8,
    pub coordinators: u8,
    pub readers: u8,
    pub c0: u8,
    pub cf0: u8,
}

impl Setup {
    #[inline(always)]
    pub fn of(block: &Block) -> Setup {
        Setup {
            racks: block[RACKS],
            boxes: block[BOXES],
            coordinators: block[COORDINATORS],
            readers: block[READERS],
            c0: block[C0],
            cf0: block[CF0],
        }
    }

    #[inline(always)]
    pub fn in_range(self) -> bool {
        let within = |count: u8, max: usize| count.wrapping_sub(1) < max as u8;
        within(self.racks, MAX_RACKS)
            && within(self.boxes, MAX_BOXES)
            && within(self.coordinators, MAX_COORDINATORS)
            && within(self.readers, MAX_READERS)
            && self.c0 < self.coordinators
            && self.has_racks(u32::from(self.cf0))
    }

    /// Whether these bits are a non-empty set of this hall's racks.
    #[inline(always)]
    pub fn has_racks(self, cf: u32) -> bool {
        cf != 0 && cf <= self.all_racks()
    }

    /// The set of all racks, as bits.
    #[inline(always)]
    pub fn all_racks(self) -> u32 {
        (1u32 << (self.racks & 15)) - 1
    }

    /// Round Zero is the setup's own; it is never stored as four zero bytes.
    #[inline(always)]
    pub fn zero(self) -> Round {
        Round::new(0, u32::from(self.c0), u32::from(self.cf0))
    }

    /// A stored round's rules.
    #[inline(always)]
    pub fn allows(self, round: Round) -> bool {
        round.c() < u32::from(self.coordinators)
            && self.has_racks(round.cf())
            && (round.n() != 0 || round == self.zero())
    }

    /// Three numbers of a step as a round, if they are one. They may be any
    /// 32-bit numbers, so they are compared whole before they are narrowed.
    #[inline(always)]
    pub fn round(self, n: u32, c: u32, cf: u32) -> Option<Round> {
        if n > LARGEST_N || c >= u32::from(self.coordinators) || !self.has_racks(cf) {
            return None;
        }
        let round = Round::new(n, c, cf);
        self.allows(round).then_some(round)
    }

    /// How many boxes a majority needs.
    #[inline(always)]
    pub fn majority<const M: u8>(self) -> u32 {
        let boxes = u32::from(self.boxes);
        if M == HALF_IS_MAJORITY {
            boxes.div_ceil(2)
        } else {
            boxes / 2 + 1
        }
    }
}

/// Whether two blocks agree in setup, whatever their instances and kinds are:
/// bytes 3 to 8, of which the first five are compared as one word.
#[inline(always)]
pub fn same_setup(one: &Block, other: &Block) -> bool {
    let counts = |block: &Block| u64::from(word(block, 0)) | u64::from(word(block, 4)) << 32;
    (counts(one) ^ counts(other)) >> (8 * RACKS) == 0 && one[CF0] == other[CF0]
}

/// Whether two blocks agree in instance and setup.
#[inline(always)]
pub fn same_hall(one: &Block, other: &Block) -> bool {
    half(one, INSTANCE) == half(other, INSTANCE) && same_setup(one, other)
}
