//! Document 01 written a second time, from the document alone and without
//! proofs: in place on lent bytes, no heap, no unsafe code but at the boundary
//! to C. The verified library is compared with it in every answer and every
//! lent byte, and in speed.
//!
//! It is no part of what is shipped and proves nothing. What it shows is that
//! the contracts of the verified library are the ones that were wanted.

#![deny(unsafe_code)]

mod book;
mod c_step;
pub mod calls;
pub mod check;
mod hall;
pub mod layout;
pub mod mistake;
mod page;
pub mod refusal;
pub mod rehearsal;
mod round;
mod rules;
mod steps;

pub use hall::SetupNumbers;
pub use steps::Step;

use mistake::NONE;

/// Sets up a hall of 118 blocks: instance, P, A, C, L, c0, cf0.
pub fn hall_setup(hall: &mut [u8], numbers: SetupNumbers) -> u32 {
    mistaken::hall_setup::<NONE>(hall, numbers)
}

/// One step of a hall: code, agent, message number, n, c, cf, reading.
pub fn hall_step(hall: &mut [u8], step: Step) -> u32 {
    mistaken::hall_step::<NONE>(hall, step)
}

/// One step on a row of any sort of agent, a message read and a message sent,
/// of 512 bytes each.
pub fn box_step(row: &mut [u8], message: &[u8], sent: &mut [u8], step: Step) -> u32 {
    mistaken::box_step::<NONE>(row, message, sent, step)
}

/// The list of readings out of 0 to 64 reader blocks: answer + 65,536 × count.
pub fn book(blocks: &[u8], list: &mut [u32]) -> u64 {
    mistaken::book::<NONE>(blocks, list)
}

/// The same four with a single mistake in them, or `mistake::NONE`.
pub mod mistaken {
    use super::{SetupNumbers, Step};

    #[inline(always)]
    pub fn hall_setup<const M: u8>(hall: &mut [u8], numbers: SetupNumbers) -> u32 {
        super::hall::setup::<M>(hall, numbers)
    }

    #[inline(always)]
    pub fn hall_step<const M: u8>(hall: &mut [u8], step: Step) -> u32 {
        super::hall::step::<M>(hall, step)
    }

    #[inline(always)]
    pub fn box_step<const M: u8>(
        row: &mut [u8],
        message: &[u8],
        sent: &mut [u8],
        step: Step,
    ) -> u32 {
        super::c_step::step::<M>(row, message, sent, step)
    }

    #[inline(always)]
    pub fn book<const M: u8>(blocks: &[u8], list: &mut [u32]) -> u64 {
        let (answer, count) = super::book::book::<M>(blocks, list);
        u64::from(answer) + 65_536 * u64::from(count)
    }
}
