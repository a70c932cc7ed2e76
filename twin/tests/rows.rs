//! The rules of heads and rows, both sides of each: document 01, "Blocks".

mod common;
use common::*;

const VOTE: &[Line] = &[Reading(V)];

#[test]
fn head() {
    let count = |low, high| block(HEAD, 0).byte(low).byte(high);
    all_good(&[count(0, 0), count(1, 0), count(96, 0)]);
    all_bad(&[count(97, 0), count(0, 1), count(255, 255)]);
}

#[test]
fn boxes() {
    let row = |rnd, vrnd| block(BOX, 0).round(rnd).round(vrnd);
    all_good(&[
        row(ZERO, ZERO).none(),
        row(ZERO, ZERO).some(VOTE),
        row((3, 1, 1), ZERO).none(),
        row((3, 1, 1), (3, 1, 1)).some(VOTE),
        row((3, 1, 1), (3, 0, 2)).some(VOTE),
        // "Not above" goes by n and c alone.
        row((3, 1, 1), (3, 1, 2)).some(VOTE),
    ]);
    all_bad(&[
        row(ZERO, (1, 0, 3)).some(VOTE),
        row((3, 0, 1), (3, 1, 1)).some(VOTE),
        row((3, 1, 1), (1, 0, 3)).none(),
        row((3, 1, 1), ZERO).some(&[Nil]),
        row((3, 1, 1), ZERO).byte(0).page(VOTE),
        row((3, 1, 1), ZERO).byte(2).page(VOTE),
        row((3, 1, 1), (0, 0, 0)).none(),
    ]);
}

#[test]
fn coordinators() {
    let row = |agent, crnd| block(COORDINATOR, agent).round(crnd);
    all_good(&[
        row(0, ZERO).some(&[]),
        row(0, ZERO).none(),
        row(1, ZERO).none(),
        // cval under round Zero has no rule of its own.
        row(1, ZERO).some(&[Reading(V), Nil]),
        row(1, (1, 1, 3)).none(),
        row(1, (1, 1, 3)).some(&[Nil, Reading(V)]),
    ]);
    all_bad(&[
        row(1, (1, 0, 3)).none(),
        row(0, ZERO).some(&[Reading(V)]),
        row(0, ZERO).some(&[Nil, Nil]),
        row(0, ZERO).byte(0).page(&[Reading(V), Nil]),
        row(0, ZERO).byte(2).page(&[]),
        row(0, (0, 1, 3)).none(),
    ]);
}

#[test]
fn heard() {
    let row = |crnd| block(COORDINATOR, 1).round(crnd).none();
    let at_2 = || row((2, 1, 3));
    all_good(&[
        at_2().heard(ZERO, None),
        at_2().heard(ZERO, Some(VOTE)),
        at_2().no_heard().heard((2, 0, 1), Some(VOTE)).heard((1, 1, 2), Some(VOTE)),
    ]);
    all_bad(&[
        // Under crnd Zero nothing is heard.
        row(ZERO).heard(ZERO, None),
        // vrnd below crnd, by n and c.
        at_2().heard((2, 1, 3), Some(VOTE)),
        at_2().heard((2, 1, 1), Some(VOTE)),
        at_2().heard((3, 0, 1), Some(VOTE)),
        // No vote means vrnd Zero; votes are valued.
        at_2().heard((1, 0, 3), None),
        at_2().heard((1, 0, 3), Some(&[Nil])),
        at_2().heard((1, 0, 3), Some(&[])),
        // Three boxes: the fourth slot stays empty.
        at_2().zeros(3 * 46).heard(ZERO, None),
        // Under flag 0 all is zero; there is no flag 2.
        at_2().byte(0).round(ZERO),
        at_2().byte(2).round(ZERO),
        at_2().byte(1).round(ZERO).byte(2),
    ]);
}

#[test]
fn readers() {
    let page = |lines: &[Line]| block(READER, 0).page(lines);
    all_good(&[
        page(&[]),
        page(&[Nil]),
        page(&[Absent, Nil]),
        page(&[Reading(V), Nil]),
        page(&[Reading(V), Reading(V)]),
    ]);
    all_bad(&[page(&[Nil, Nil]), page(&[Reading(V), Nil, Nil]), page(&[Reading(65_535)])]);

    let empty = || block(READER, 0).page(&[]);
    all_good(&[
        empty().held(ZERO, VOTE),
        empty().no_held().no_held().held((9, 1, 1), &[Nil, Reading(V)]),
    ]);
    all_bad(&[
        empty().held(ZERO, &[Nil]),
        empty().held(ZERO, &[]),
        empty().held((0, 0, 0), VOTE),
        empty().zeros(3 * 45).held(ZERO, VOTE),
        empty().byte(0).round(ZERO),
        empty().byte(2).round(ZERO).page(VOTE),
    ]);

    let blanks = || empty().zeros(5 * 45);
    all_good(&[
        blanks().blank(ZERO).blank((1, 0, 3)),
        // A blank's rack need not be in its round's cf.
        blanks().blank((1, 0, 2)),
    ]);
    all_bad(&[
        blanks().no_blank().no_blank().blank(ZERO),
        blanks().blank((0, 0, 0)),
        blanks().byte(0).round(ZERO),
        blanks().byte(2).round(ZERO),
    ]);
}

#[test]
fn one_rack_alone() {
    // With one rack a page with its line Nil is complete, so trivial.
    let reader = |lines: &[Line]| block_of(0, [1, 1, 1, 1, 0, 1], READER, 0).page(lines);
    all_good(&[reader(&[]), reader(&[Reading(V)])]);
    all_bad(&[reader(&[Nil]), reader(&[Reading(V), Reading(V)])]);
}
