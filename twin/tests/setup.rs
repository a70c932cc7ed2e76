//! Setup: refusals and every block that it writes.

mod common;
use common::*;
use twin::hall_setup;

const HALL: usize = 60_416;

fn refused(numbers: [u32; 7]) -> u32 {
    let mut hall = vec![0x55; HALL];
    let answer = hall_setup(&mut hall, numbers);
    assert!(answer == 0 || hall.iter().all(|&byte| byte == 0x55));
    answer
}

#[test]
fn length_comes_before_range() {
    for length in [0, 1, 512, HALL - 512, HALL - 1, HALL + 1, HALL + 512] {
        let mut hall = vec![0x55; length];
        assert_eq!(hall_setup(&mut hall, [0, 2, 3, 1, 1, 0, 3]), 1);
        assert_eq!(hall_setup(&mut hall, [0; 7]), 1);
        assert!(hall.iter().all(|&byte| byte == 0x55));
    }
}

#[test]
fn both_sides_of_each_range() {
    let good = [0, 2, 3, 1, 1, 0, 3];
    assert_eq!(refused(good), 0);
    // Instance, P, A, C, L, c0, cf0: in range, and just out of it. Where P or
    // C change, cf0 = 1 and c0 = 0 fit them all.
    let cases: [(usize, &[u32], &[u32]); 7] = [
        (0, &[0, 1, 65_535], &[65_536, 1 << 17, u32::MAX]),
        (1, &[1, 2, 8], &[0, 9, 257, u32::MAX]),
        (2, &[1, 5], &[0, 6, 259, u32::MAX]),
        (3, &[1, 4], &[0, 5, 257, u32::MAX]),
        (4, &[1, 4], &[0, 5, 257, u32::MAX]),
        (5, &[0], &[1, 256, u32::MAX]),
        (6, &[1, 2, 3], &[0, 4, 255, 256, 257, u32::MAX]),
    ];
    for (at, fits, unfit) in cases {
        let with = |number| {
            let mut numbers = if at == 1 { [0, 2, 3, 1, 1, 0, 1] } else { good };
            numbers[at] = number;
            refused(numbers)
        };
        assert!(fits.iter().all(|&number| with(number) == 0), "field {at}");
        assert!(unfit.iter().all(|&number| with(number) == 11), "field {at}");
    }
    assert_eq!(refused([0, 8, 5, 4, 4, 3, 255]), 0);
    assert_eq!(refused([0, 8, 5, 4, 4, 4, 255]), 11);
    assert_eq!(refused([0, 7, 5, 4, 4, 3, 128]), 11);
    assert_eq!(refused([0, 1, 1, 1, 1, 0, 2]), 11);
}

#[test]
fn every_block_of_a_fresh_hall() {
    let mut hall = vec![0x55; HALL];
    assert_eq!(hall_setup(&mut hall, [300, 3, 2, 4, 1, 2, 5]), 0);
    let setup = [3, 2, 4, 1, 2, 5];
    let zero = (0, 2, 5);
    let start = |kind, agent| block_of(300, setup, kind, agent);
    let mut expected = vec![ZEROS; 118];
    expected[0] = start(HEAD, 0).done();
    for agent in 0..4u8 {
        let row = start(COORDINATOR, agent).round(zero);
        // cval is the empty page at c0 and none elsewhere.
        expected[1 + usize::from(agent)] =
            if agent == 2 { row.some(&[]).done() } else { row.none().done() };
    }
    for agent in 0..2u8 {
        expected[5 + usize::from(agent)] = start(BOX, agent).round(zero).round(zero).done();
    }
    for agent in 0..3u8 {
        expected[10 + usize::from(agent)] = start(RACK, agent).round(zero).done();
    }
    expected[18] = start(READER, 0).done();
    for (place, block) in expected.iter().enumerate() {
        assert_eq!(hall[place * 512..][..512], block[..], "block {place}");
    }
}

#[test]
fn fullest_and_smallest_hall_have_their_blocks_in_place() {
    let kinds = |numbers| {
        let mut hall = vec![0x55; HALL];
        assert_eq!(hall_setup(&mut hall, numbers), 0);
        (0..118).map(|place| hall[place * 512 + 2]).collect::<Vec<_>>()
    };
    let mut full = vec![0; 118];
    full[0] = HEAD;
    full[1..5].fill(COORDINATOR);
    full[5..10].fill(BOX);
    full[10..18].fill(RACK);
    full[18..22].fill(READER);
    assert_eq!(kinds([65_535, 8, 5, 4, 4, 3, 255]), full);
    let mut small = vec![0; 118];
    small[0] = HEAD;
    small[1] = COORDINATOR;
    small[5] = BOX;
    small[10] = RACK;
    small[18] = READER;
    assert_eq!(kinds([0, 1, 1, 1, 1, 0, 1]), small);
}
