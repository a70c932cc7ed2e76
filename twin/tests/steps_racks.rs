//! Steps 1, 6, 7 and 8, each refusal and the exact bytes of what is granted.

mod common;
use common::*;

#[test]
fn offer() {
    let row = rack_row(1, (4, 1, 1), Nil);
    let offer = |reading| step(1, &row, &ZEROS, [0, 0, 0, reading]);
    for reading in [0, 1, 65_535] {
        assert_eq!(offer(reading).0, 11);
    }
    for reading in [65_536, V, u32::MAX] {
        assert_eq!(offer(reading), (0, row, propose(1, reading)));
    }
    // No message is read, whatever stands there.
    let (answer, _, _) = step(1, &row, &[0x77; 512], [0, 0, 0, V]);
    assert_eq!(answer, 0);
}

#[test]
fn prepare() {
    let row = rack_row(1, (4, 0, 1), Reading(V));
    // (4,0) itself, whatever its cf, and all below it do not fit.
    for round in [(4, 0, 1), (4, 0, 3), (3, 1, 1), (1, 0, 3)] {
        assert_eq!(answer(6, &row, &two_s(round, &[])), 6);
    }
    for round in [(4, 1, 1), (5, 0, 2)] {
        assert_eq!(on(6, &row, &two_s(round, &[])), (0, rack_row(1, round, Absent), ZEROS));
        let page = [Reading(V), Nil];
        assert_eq!(on(6, &row, &two_s(round, &page)), (0, rack_row(1, round, Nil), ZEROS));
        let page = [Nil, Reading(W)];
        assert_eq!(on(6, &row, &two_s(round, &page)), (0, rack_row(1, round, Reading(W)), ZEROS));
    }
    assert_eq!(answer(6, &row, &two_a(0, (5, 0, 3), Nil)), 5);
}

#[test]
fn fast() {
    let row = rack_row(1, (4, 0, 2), Absent);
    let granted = (0, rack_row(1, (4, 0, 2), Reading(V)), two_a(1, (4, 0, 2), Reading(V)));
    assert_eq!(on(7, &row, &propose(1, V)), granted);
    // The proposal of any rack will do.
    assert_eq!(on(7, &row, &propose(0, V)), granted);
    // Not in prnd's cf: 6, also where pval is set.
    assert_eq!(answer(7, &rack_row(1, (4, 0, 1), Absent), &propose(1, V)), 6);
    assert_eq!(answer(7, &rack_row(1, (4, 0, 1), Nil), &propose(1, V)), 6);
    for pval in [Nil, Reading(V), Reading(W)] {
        assert_eq!(answer(7, &rack_row(1, ZERO, pval), &propose(1, V)), 7);
    }
    assert_eq!(answer(7, &row, &two_a(0, (4, 0, 3), Reading(V))), 5);
}

#[test]
fn blank() {
    let row = rack_row(1, (4, 0, 3), Absent);
    let granted = (0, rack_row(1, (4, 0, 3), Nil), two_a(1, (4, 0, 3), Nil));
    assert_eq!(on(8, &row, &two_a(0, (4, 0, 3), Reading(V))), granted);
    // A 2A of its own is a 2A with a reading like any other.
    assert_eq!(on(8, &row, &two_a(1, (4, 0, 3), Reading(V))), granted);
    assert_eq!(answer(8, &row, &two_a(0, (4, 0, 3), Nil)), 5);
    assert_eq!(answer(8, &row, &propose(0, V)), 5);
    for round in [(4, 0, 1), (3, 0, 3), (4, 1, 3), (5, 0, 3), ZERO] {
        assert_eq!(answer(8, &row, &two_a(0, round, Reading(V))), 6);
    }
    // The round fits and the rack isn't in cf.
    let outside = rack_row(1, (4, 0, 1), Absent);
    assert_eq!(answer(8, &outside, &two_a(0, (4, 0, 1), Reading(V))), 6);
    let done = rack_row(1, (4, 0, 3), Nil);
    assert_eq!(answer(8, &done, &two_a(0, (4, 0, 3), Reading(V))), 7);
    assert_eq!(answer(8, &done, &two_a(0, (5, 0, 3), Reading(V))), 6);
}

#[test]
fn rows_of_another_sort() {
    let rows = [
        box_row(0, ZERO, ZERO, None),
        block(COORDINATOR, 0).round(ZERO).done(),
        block(READER, 0).done(),
        block(HEAD, 0).done(),
        two_s((1, 0, 3), &[]),
    ];
    for row in rows {
        assert_eq!(step(1, &row, &ZEROS, [0, 0, 0, V]).0, 5);
        assert_eq!(answer(6, &row, &two_s((5, 0, 3), &[])), 5);
        assert_eq!(answer(7, &row, &propose(0, V)), 5);
        assert_eq!(answer(8, &row, &two_a(0, ZERO, Reading(V))), 5);
    }
}
