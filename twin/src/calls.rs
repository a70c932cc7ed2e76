//! The four functions of the C interface, as a set: the verified library, the
//! twin, the twin with a mistake, or functions that do nothing. All are called
//! the same way, so that neither answers nor times depend on how.
//!
//! The only module of this library with unsafe code: a slice is handed over as its
//! pointer and its length, and taken up again from them.

#![allow(unsafe_code)]

use crate::mistake::NONE;
use crate::{SetupNumbers, Step};

/// Says the C interface once: each function's name and type as include/chinchor.h
/// has them, and what the twin does behind it. Out of that come the types, the
/// library's functions where it is linked, the twin's with any mistake M, and
/// those that do nothing.
macro_rules! interface {
    ($($name:ident: $type:ident = ($($parameter:ident: $kind:ty),*) -> $answer:ty $body:block)*) => {
        $(pub type $type = unsafe extern "C" fn($($parameter: $kind),*) -> $answer;)*

        #[cfg(linked)]
        mod linked {
            extern "C" {
                $(pub fn $name($($parameter: $kind),*) -> $answer;)*
            }
        }

        // SAFETY of each: `Calls` hands over every pointer with the length of its
        // own lent slice.
        mod twin {
            use crate::mistaken;
            use std::slice::{from_raw_parts, from_raw_parts_mut};

            $(pub unsafe extern "C" fn $name<const M: u8>($($parameter: $kind),*) -> $answer {
                unsafe { $body }
            })*
        }

        mod nothing {
            $(pub unsafe extern "C" fn $name($(_: $kind),*) -> $answer {
                0
            })*
        }
    };
}

interface! {
    chinchor_hall_setup: HallSetup = (
        hall: *mut u8, hall_len: usize,
        instance: u32, racks: u32, boxes: u32, coordinators: u32, readers: u32, c0: u32, cf0: u32
    ) -> u32 {
        let numbers = [instance, racks, boxes, coordinators, readers, c0, cf0];
        mistaken::hall_setup::<M>(from_raw_parts_mut(hall, hall_len), numbers)
    }

    chinchor_hall_step: HallStep = (
        hall: *mut u8, hall_len: usize,
        code: u32, agent: u32, message_number: u32, n: u32, c: u32, cf: u32, reading: u32
    ) -> u32 {
        let step = [code, agent, message_number, n, c, cf, reading];
        mistaken::hall_step::<M>(from_raw_parts_mut(hall, hall_len), step)
    }

    chinchor_box_step: BoxStep = (
        row: *mut u8, row_len: usize, message: *const u8, message_len: usize,
        sent: *mut u8, sent_len: usize,
        code: u32, agent: u32, message_number: u32, n: u32, c: u32, cf: u32, reading: u32
    ) -> u32 {
        let step = [code, agent, message_number, n, c, cf, reading];
        let (row, message) = (from_raw_parts_mut(row, row_len), from_raw_parts(message, message_len));
        mistaken::box_step::<M>(row, message, from_raw_parts_mut(sent, sent_len), step)
    }

    chinchor_book: Book = (
        blocks: *const u8, blocks_len: usize, list: *mut u32, list_len: usize
    ) -> u64 {
        let list = from_raw_parts_mut(list, list_len);
        mistaken::book::<M>(from_raw_parts(blocks, blocks_len), list)
    }
}

/// One make of the four functions, each of which keeps to the slices that it is
/// lent.
#[derive(Clone, Copy)]
pub struct Calls {
    hall_setup: HallSetup,
    hall_step: HallStep,
    box_step: BoxStep,
    book: Book,
}

macro_rules! calls_of {
    ($make:ident $($mistake:tt)*) => {
        Calls {
            hall_setup: $make::chinchor_hall_setup $($mistake)*,
            hall_step: $make::chinchor_hall_step $($mistake)*,
            box_step: $make::chinchor_box_step $($mistake)*,
            book: $make::chinchor_book $($mistake)*,
        }
    };
}

pub const IS_LINKED: bool = cfg!(linked);

/// The verified library; where it is not linked the twin stands in for it, so
/// that the programs can be built and tried.
#[cfg(linked)]
pub const LIBRARY: Calls = calls_of!(linked);
#[cfg(not(linked))]
pub const LIBRARY: Calls = TWIN;

pub const TWIN: Calls = mistaken_calls::<NONE>();

/// The twin with a single mistake in it.
pub const fn mistaken_calls<const M: u8>() -> Calls {
    calls_of!(twin::<M>)
}

/// Functions that do nothing, to tell how much the call itself takes.
pub const NOTHING: Calls = calls_of!(nothing);

impl Calls {
    #[inline(always)]
    pub fn hall_setup(&self, hall: &mut [u8], numbers: SetupNumbers) -> u32 {
        let [instance, racks, boxes, coordinators, readers, c0, cf0] = numbers;
        let (hall, length) = (hall.as_mut_ptr(), hall.len());
        // SAFETY: pointer and length are those of one lent slice.
        unsafe {
            (self.hall_setup)(hall, length, instance, racks, boxes, coordinators, readers, c0, cf0)
        }
    }

    #[inline(always)]
    pub fn hall_step(&self, hall: &mut [u8], step: Step) -> u32 {
        let [code, agent, message_number, n, c, cf, reading] = step;
        let (hall, length) = (hall.as_mut_ptr(), hall.len());
        // SAFETY: pointer and length are those of one lent slice.
        unsafe { (self.hall_step)(hall, length, code, agent, message_number, n, c, cf, reading) }
    }

    #[inline(always)]
    pub fn box_step(&self, row: &mut [u8], message: &[u8], sent: &mut [u8], step: Step) -> u32 {
        let [code, agent, message_number, n, c, cf, reading] = step;
        // SAFETY: each pointer stands beside the length of its own lent slice,
        // and the three slices do not overlap.
        unsafe {
            (self.box_step)(
                row.as_mut_ptr(),
                row.len(),
                message.as_ptr(),
                message.len(),
                sent.as_mut_ptr(),
                sent.len(),
                code,
                agent,
                message_number,
                n,
                c,
                cf,
                reading,
            )
        }
    }

    #[inline(always)]
    pub fn book(&self, blocks: &[u8], list: &mut [u32]) -> u64 {
        // SAFETY: each pointer stands beside the length of its own lent slice,
        // and the two slices do not overlap.
        unsafe { (self.book)(blocks.as_ptr(), blocks.len(), list.as_mut_ptr(), list.len()) }
    }
}
