//! The C step's own order of refusals: 1, 4, row 2, 11, message 2, 3, 5 to 9.

mod common;
use common::*;
use twin::box_step;

const BAD: [u8; 512] = ZEROS;

fn lengths(row: usize, message: usize, sent: usize, code: u32) -> u32 {
    let (mut row, mut sent) = (vec![0x11; row], vec![0x22; sent]);
    let answer = box_step(&mut row, &vec![0; message], &mut sent, [code, 0, 0, 0, 0, 0, 0]);
    assert!(row.iter().all(|&byte| byte == 0x11) && sent.iter().all(|&byte| byte == 0x22));
    answer
}

#[test]
fn all_three_lengths_are_looked_at_always() {
    for code in [0, 1, 2, 5, 10, 13, 14, u32::MAX] {
        for length in [0, 511, 513, 1024] {
            assert_eq!(lengths(length, 512, 512, code), 1);
            assert_eq!(lengths(512, length, 512, code), 1);
            assert_eq!(lengths(512, 512, length, code), 1);
        }
    }
    assert_eq!(lengths(512, 512, 512, 1), 2);
}

#[test]
fn code_comes_before_the_row() {
    for code in [0, 14, 256, 257, 65_537, u32::MAX] {
        assert_eq!(answer(code, &BAD, &BAD), 4);
        assert_eq!(answer(code, &rack_row(0, ZERO, Absent), &BAD), 4);
    }
    for code in 1..=13 {
        assert_eq!(answer(code, &BAD, &BAD), 2);
    }
}

#[test]
fn row_then_range_then_sort() {
    let rack = rack_row(0, ZERO, Absent);
    let sealed_bad = block(RACK, 7).round(ZERO).done();
    // A bad row is 2 also where the numbers are out of range.
    for code in [1, 2, 13] {
        assert_eq!(answer(code, &sealed_bad, &BAD), 2);
    }
    // Out of range is 11 also where the row is of another sort.
    let box_row = box_row(0, ZERO, ZERO, None);
    assert_eq!(step(1, &box_row, &BAD, [0, 0, 0, 65_535]).0, 11);
    assert_eq!(step(1, &box_row, &BAD, [0, 0, 0, 65_536]).0, 5);
    assert_eq!(step(2, &box_row, &BAD, [0, 0, 3, 0]).0, 11);
    assert_eq!(step(2, &box_row, &BAD, [1, 0, 4, 0]).0, 11);
    assert_eq!(step(2, &box_row, &BAD, [1, 0, 3, 0]).0, 5);
    assert_eq!(step(2, &box_row, &BAD, [1, 99, 3, 0]).0, 5);
    assert_eq!(step(13, &rack, &BAD, [0, 0, 1, 0]).0, 11);
    assert_eq!(step(13, &rack, &BAD, [0, 0, 3, 0]).0, 5);
    // The racks and coordinators in range are those of the row's own setup.
    let eight = block_of(0, [8, 1, 4, 1, 0, 255], BOX, 0).round((0, 0, 255)).round((0, 0, 255));
    assert_eq!(step(2, &eight.clone().done(), &BAD, [1, 0, 255, 0]).0, 5);
    assert_eq!(step(2, &eight.clone().done(), &BAD, [1, 0, 256, 0]).0, 11);
    assert_eq!(step(13, &eight.clone().done(), &BAD, [1, 3, 128, 0]).0, 5);
    assert_eq!(step(13, &eight.done(), &BAD, [1, 4, 128, 0]).0, 11);
}

#[test]
fn message_then_hall_then_sort() {
    let rack = rack_row(0, ZERO, Absent);
    for code in [3, 4, 6, 7, 8, 9, 10, 11, 12] {
        assert_eq!(answer(code, &rack, &BAD), 2, "step {code}");
        let elsewhere = block_of(6, SETUP, PROPOSE, 0).word(V).done();
        assert_eq!(answer(code, &rack, &elsewhere), 3, "step {code}");
        // A row or a head in the message's place is 5 if it is good.
        assert_eq!(answer(code, &rack, &rack), 5, "step {code}");
        assert_eq!(answer(code, &rack, &block(HEAD, 0).done()), 5, "step {code}");
    }
    // Steps that name no message read none.
    assert_eq!(step(1, &rack, &BAD, [0, 0, 0, V]).0, 0);
    for code in [2, 5, 13] {
        assert_eq!(step(code, &rack, &BAD, [1, 0, 3, 0]).0, 5, "step {code}");
    }
}

#[test]
fn instance_and_each_byte_of_the_setup() {
    let row = rack_row(0, ZERO, Absent);
    let offered = |instance, setup| {
        let message = block_of(instance, setup, PROPOSE, 0).word(V).done();
        answer(7, &row, &message)
    };
    assert_eq!(offered(INSTANCE, SETUP), 0);
    for instance in [INSTANCE + 1, INSTANCE + 256, 0] {
        assert_eq!(offered(instance, SETUP), 3);
    }
    for (at, value) in [(0, 3), (1, 4), (2, 3), (3, 1), (4, 1), (5, 1)] {
        let mut setup = SETUP;
        setup[at] = value;
        assert_eq!(offered(INSTANCE, setup), 3, "byte {at}");
    }
}

#[test]
fn nothing_is_sent_by_five_steps() {
    // 4, 6, 11, 12 and 13 leave the message sent all zero when granted.
    let coordinator = block(COORDINATOR, 0).round((1, 0, 3)).none().done();
    let reader = block(READER, 0).done();
    let cases = [
        (4, coordinator, one_b(0, (1, 0, 3), ZERO, None)),
        (6, rack_row(0, ZERO, Absent), two_s((1, 0, 3), &[])),
        (11, reader, two_b(0, ZERO, &[Reading(V)])),
        (12, reader, two_a(0, ZERO, Nil)),
    ];
    for (code, row, message) in cases {
        let (answer, _, sent) = on(code, &row, &message);
        assert_eq!((answer, sent), (0, ZEROS), "step {code}");
    }
    let held = block(READER, 0).page(&[]).held(ZERO, &[Reading(V)]).held(ZERO, &[Reading(V)]);
    let (answer, _, sent) = step(13, &held.done(), &ZEROS, [0, 0, 3, 0]);
    assert_eq!((answer, sent), (0, ZEROS));
}
