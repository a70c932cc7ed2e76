//! Steps 3, 9 and 10, each refusal and the exact bytes of what is granted.

mod common;
use common::*;

const VOTE: &[Line] = &[Reading(V)];

#[test]
fn join() {
    let row = box_row(2, (4, 0, 1), (3, 1, 2), Some(VOTE));
    for round in [(4, 0, 1), (4, 0, 3), (3, 1, 2), (1, 0, 3)] {
        assert_eq!(answer(3, &row, &one_a(round)), 6);
    }
    for round in [(4, 1, 1), (5, 0, 3), (65_535, 1, 3)] {
        let after = box_row(2, round, (3, 1, 2), Some(VOTE));
        let sent = one_b(2, round, (3, 1, 2), Some(VOTE));
        assert_eq!(on(3, &row, &one_a(round)), (0, after, sent));
    }
    let fresh = box_row(0, ZERO, ZERO, None);
    let round = (1, 0, 1);
    let granted = (0, box_row(0, round, ZERO, None), one_b(0, round, ZERO, None));
    assert_eq!(on(3, &fresh, &one_a(round)), granted);
    assert_eq!(answer(3, &fresh, &two_s((1, 0, 1), &[])), 5);
}

#[test]
fn take_page() {
    let page: &[Line] = &[Nil, Reading(W)];
    let voted = |round| (0, box_row(1, round, round, Some(page)), two_b(1, round, page));
    let row = box_row(1, (4, 0, 1), (3, 1, 2), Some(VOTE));
    for round in [(4, 0, 1), (4, 1, 1), (5, 0, 3)] {
        assert_eq!(on(9, &row, &two_s(round, page)), voted(round));
    }
    for round in [(3, 1, 2), (3, 0, 3), (4, 0, 3)] {
        assert_eq!(answer(9, &row, &two_s(round, page)), 6);
    }
    assert_eq!(answer(9, &row, &two_s((5, 0, 3), &[])), 5);
    assert_eq!(answer(9, &row, &two_b(0, (5, 0, 3), page)), 5);
    // Already voted in this round, with the same page or another.
    for vote in [page, VOTE] {
        let row = box_row(1, (4, 0, 1), (4, 0, 1), Some(vote));
        assert_eq!(answer(9, &row, &two_s((4, 0, 1), page)), 7);
    }
    // Joined and never voted.
    let row = box_row(1, (4, 0, 1), ZERO, None);
    assert_eq!(on(9, &row, &two_s((4, 0, 1), page)), voted((4, 0, 1)));
    // vrnd shares n and c with rnd and not cf: it doesn't fit either round.
    let row = box_row(1, (4, 0, 1), (4, 0, 3), Some(VOTE));
    assert_eq!(answer(9, &row, &two_s((4, 0, 1), page)), 6);
    assert_eq!(answer(9, &row, &two_s((4, 0, 3), page)), 6);
}

#[test]
fn take_reading_first() {
    let fresh = box_row(0, ZERO, ZERO, None);
    // vrnd is Zero and so is the round, yet there is no vote to append to.
    let granted = (0, box_row(0, ZERO, ZERO, Some(VOTE)), two_b(0, ZERO, VOTE));
    assert_eq!(on(10, &fresh, &two_a(0, ZERO, Reading(V))), granted);
    // Rack 0 isn't fast in this round, so it is Nil at once.
    let page: &[Line] = &[Nil, Reading(W)];
    let round = (1, 1, 2);
    let granted = (0, box_row(0, round, round, Some(page)), two_b(0, round, page));
    assert_eq!(on(10, &fresh, &two_a(1, round, Reading(W))), granted);
    // A vote of a lower round is put away whole.
    let old = box_row(0, (1, 0, 3), (1, 0, 3), Some(&[Reading(V), Reading(V)]));
    assert_eq!(on(10, &old, &two_a(1, round, Reading(W))), granted);
    assert_eq!(answer(10, &fresh, &two_a(1, round, Nil)), 5);
    assert_eq!(answer(10, &fresh, &two_s(round, page)), 5);
}

#[test]
fn take_reading_more() {
    let round = (2, 0, 3);
    let row = box_row(0, round, round, Some(VOTE));
    let both: &[Line] = &[Reading(V), Reading(W)];
    let granted = (0, box_row(0, round, round, Some(both)), two_b(0, round, both));
    assert_eq!(on(10, &row, &two_a(1, round, Reading(W))), granted);
    // Append changes a line only where it is absent; the vote is sent again.
    let again = (0, row, two_b(0, round, VOTE));
    assert_eq!(on(10, &row, &two_a(0, round, Reading(W))), again);
    assert_eq!(on(10, &row, &two_a(0, round, Reading(V))), again);
    // Racks outside cf got Nil with the first line only: here one is absent.
    let narrow = (2, 0, 1);
    let row = box_row(0, narrow, narrow, Some(VOTE));
    let again = (0, row, two_b(0, narrow, VOTE));
    assert_eq!(on(10, &row, &two_a(0, narrow, Reading(W))), again);
}

#[test]
fn take_reading_rounds() {
    let row = box_row(0, (4, 1, 3), (4, 0, 3), Some(VOTE));
    for round in [(4, 0, 3), (3, 1, 3), (4, 1, 1), ZERO] {
        assert_eq!(answer(10, &row, &two_a(0, round, Reading(W))), 6);
    }
    for round in [(4, 1, 3), (5, 0, 3)] {
        let page: &[Line] = &[Reading(W)];
        let granted = (0, box_row(0, round, round, Some(page)), two_b(0, round, page));
        assert_eq!(on(10, &row, &two_a(0, round, Reading(W))), granted);
    }
    let row = box_row(0, (4, 1, 3), (4, 1, 1), Some(VOTE));
    assert_eq!(answer(10, &row, &two_a(0, (4, 1, 3), Reading(W))), 6);
    assert_eq!(answer(10, &row, &two_a(0, (4, 1, 1), Reading(W))), 6);
    assert_eq!(answer(10, &row, &two_a(0, (5, 0, 1), Reading(W))), 0);
}
