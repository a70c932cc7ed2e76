//! Document 01, "Both sides of each edge": the check words.

use twin::check::check_words;
use twin::mistake::NONE;

fn sums(words: &[(usize, u32)]) -> (u32, u32) {
    let mut block = [0; 512];
    for &(at, word) in words {
        block[4 * at..4 * at + 4].copy_from_slice(&word.to_le_bytes());
    }
    check_words::<NONE>(&block)
}

#[test]
fn as_the_document_gives_them() {
    assert_eq!(sums(&[]), (1, 126));
    assert_eq!(sums(&[(0, 5)]), (6, 756));
    assert_eq!(sums(&[(125, 5)]), (6, 131));
    assert_eq!(sums(&[(0, u32::MAX)]), (0, 0));
}

#[test]
fn little_endian_and_in_order() {
    // 1 + 256 from word 1 on: 1, then 125 times 257.
    assert_eq!(sums(&[(1, 256)]), (257, 1 + 125 * 257));
    assert_eq!(sums(&[(0, 1), (1, 2)]), (4, 2 + 125 * 4));
}

#[test]
fn check_words_are_not_summed() {
    assert_eq!(sums(&[(126, 9), (127, 9)]), (1, 126));
}
