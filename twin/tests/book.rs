//! The book: refusals, each over all blocks, and the list.

mod common;
use common::*;
use twin::book;

const UNTOUCHED: u32 = 0xdead_beef;

fn page(instance: u16, lines: &[Line]) -> [u8; 512] {
    block_of(instance, SETUP, READER, 1).page(lines).done()
}

/// The answer and the list; numbers after the count must stay.
fn listed(blocks: &[[u8; 512]], room: usize) -> (u32, Vec<u32>) {
    let mut list = vec![UNTOUCHED; room];
    let result = book(&blocks.concat(), &mut list);
    let (answer, count) = ((result % 65_536) as u32, (result / 65_536) as usize);
    assert!(answer == 0 || count == 0);
    assert!(list[count..].iter().all(|&number| number == UNTOUCHED));
    list.truncate(count);
    (answer, list)
}

fn granted(blocks: &[[u8; 512]]) -> Vec<u32> {
    let (answer, list) = listed(blocks, 1_000);
    assert_eq!(answer, 0);
    list
}

#[test]
fn whole_blocks_0_to_64() {
    assert_eq!(listed(&[], 0), (0, vec![]));
    assert_eq!(listed(&[], 9), (0, vec![]));
    let full: Vec<_> = (0..65).map(|place| page(place, &[Nil, Reading(V)])).collect();
    assert_eq!(listed(&full[..64], 1), (0, vec![V]));
    assert_eq!(listed(&full, 1), (1, vec![]));
    // Length comes before bad blocks.
    let bytes = full.concat();
    for length in [1, 511, 513, 64 * 512 - 1, 64 * 512 + 1, 66 * 512] {
        assert_eq!(book(&vec![0; length], &mut [0; 9]), 1);
    }
    assert_eq!(book(&bytes[..64 * 512], &mut []), 10);
}

#[test]
fn each_refusal_over_all_blocks() {
    let first = page(0, &[Reading(V)]);
    let other_kind = block_of(0, SETUP, BOX, 1).round(ZERO).round(ZERO).done();
    // 2 in the last block comes before 3 in the one before.
    assert_eq!(listed(&[first, page(7, &[]), ZEROS], 9).0, 2);
    assert_eq!(listed(&[ZEROS], 9).0, 2);
    // 3: instances 0, 1, 2 and on; one reader; one setup.
    assert_eq!(listed(&[page(1, &[])], 9).0, 3);
    assert_eq!(listed(&[first, page(2, &[])], 9).0, 3);
    assert_eq!(listed(&[first, page(0, &[])], 9).0, 3);
    assert_eq!(listed(&[first, page(257, &[])], 9).0, 3);
    assert_eq!(listed(&[first, block_of(1, SETUP, READER, 0).done()], 9).0, 3);
    let racks = block_of(1, [3, 3, 2, 2, 0, 3], READER, 1).done();
    assert_eq!(listed(&[first, racks], 9).0, 3);
    // 3 comes before 5, and looks at good blocks of any kind.
    assert_eq!(listed(&[other_kind, page(2, &[])], 9).0, 3);
    assert_eq!(listed(&[other_kind], 9).0, 5);
    assert_eq!(listed(&[other_kind, page(1, &[])], 9).0, 5);
    let box_1 = block_of(1, SETUP, BOX, 1).round(ZERO).round(ZERO).done();
    assert_eq!(listed(&[first, box_1], 9).0, 5);
    // 5 comes before 10.
    assert_eq!(listed(&[first, box_1], 0).0, 5);
    assert_eq!(listed(&[first], 0).0, 10);
}

#[test]
fn by_instance_then_rack() {
    let blocks = [
        page(0, &[Reading(W), Reading(V)]),
        page(1, &[Nil, Reading(70_000)]),
        page(2, &[Reading(V), Reading(80_000)]),
    ];
    assert_eq!(granted(&blocks), [W, V, 70_000, 80_000]);
}

#[test]
fn stops_at_the_first_absent_line() {
    let whole = page(0, &[Reading(V), Nil]);
    let cut = page(1, &[Reading(W)]);
    let after = page(2, &[Reading(70_000), Nil]);
    assert_eq!(granted(&[whole, cut, after]), [V, W]);
    let empty = page(1, &[]);
    assert_eq!(granted(&[whole, empty, after]), [V]);
    let late = page(1, &[Absent, Reading(W)]);
    assert_eq!(granted(&[whole, late, after]), [V]);
}

#[test]
fn ten_exactly_if_the_list_is_longer() {
    let blocks = [page(0, &[Reading(V), Reading(W)]), page(1, &[Reading(V), Reading(70_000)])];
    assert_eq!(listed(&blocks, 3), (0, vec![V, W, 70_000]));
    assert_eq!(listed(&blocks, 2), (10, vec![]));
    assert_eq!(listed(&blocks, 4), (0, vec![V, W, 70_000]));
}

#[test]
fn the_longest_list() {
    let setup = [8, 1, 1, 1, 0, 255];
    let blocks: Vec<_> = (0..64u16)
        .map(|place| {
            let lines: Vec<_> =
                (0..8).map(|rack| Reading(65_536 + u32::from(place) * 8 + rack)).collect();
            block_of(place, setup, READER, 0).page(&lines).done()
        })
        .collect();
    let all: Vec<u32> = (65_536..65_536 + 512).collect();
    assert_eq!(listed(&blocks, 512), (0, all.clone()));
    assert_eq!(listed(&blocks, 513), (0, all));
    assert_eq!(listed(&blocks, 511), (10, vec![]));
}
