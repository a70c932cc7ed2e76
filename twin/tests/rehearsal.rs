//! The rehearsal: document 01's example, and lines of every shape.

use twin::rehearsal::Rehearsal;

/// The output, which must not depend on how the input is cut into pieces.
fn output(input: &[u8]) -> String {
    let cut = |size: usize| {
        let mut rehearsal = Rehearsal::new();
        let mut out = Vec::new();
        for piece in input.chunks(size) {
            if !rehearsal.read(piece, &mut out).unwrap() {
                break;
            }
        }
        rehearsal.finish(&mut out).unwrap();
        String::from_utf8(out).unwrap()
    };
    let whole = cut(65_536);
    assert_eq!(cut(1), whole);
    assert_eq!(cut(7), whole);
    whole
}

/// The lines that these steps print in a hall of two racks and one reader.
fn lines(steps: &str) -> Vec<String> {
    let all = output(format!("0 2 3 1 1 0 3\n{steps}").as_bytes());
    let rest = all.strip_prefix("0 0\n").unwrap();
    let rest = rest.strip_suffix("L 0 0 -\nL 0 1 -\n").unwrap();
    rest.lines().map(str::to_owned).collect()
}

#[test]
fn example() {
    let input = "0 2 3 1 1 0 3
1 0 0 0 0 0 459602
7 0 0 0 0 0 0
8 1 1 0 0 0 0
10 0 1 0 0 0 0
10 1 1 0 0 0 0
11 0 3 0 0 0 0
13 0 0 0 0 3 0
11 0 4 0 0 0 0
13 0 0 0 0 3 0
12 0 2 0 0 0 0
13 0 0 0 0 3 0
";
    let expected = "0 0\n0 1\n0 2\n0 3\n0 4\n0 5\n0 5\n8 5\n0 5\n0 5\n0 5\n0 5\n\
                    L 0 0 459602\nL 0 1 nil\n";
    assert_eq!(output(input.as_bytes()), expected);
    // The last line may lack its LF.
    assert_eq!(output(input.trim_end().as_bytes()), expected);
}

#[test]
fn setup_lines() {
    assert_eq!(output(b""), "");
    assert_eq!(output(b"\n"), "?\n");
    assert_eq!(output(b"\n0 2 3 1 1 0 3\n"), "?\n");
    assert_eq!(output(b"hello"), "?\n");
    assert_eq!(output(b"0 2 3 1 1 0\n1 0 0 0 0 0 65536\n"), "?\n");
    // Refused: its number and 0, and what follows is not read.
    assert_eq!(output(b"0 2 3 1 1 0 4\n1 0 0 0 0 0 65536\n"), "11 0\n");
    assert_eq!(output(b"65536 2 3 1 1 0 3"), "11 0\n");
    assert_eq!(output(b"65535 1 1 1 1 0 1"), "0 0\nL 0 0 -\n");
    let two = "0 0\nL 0 0 -\nL 0 1 -\nL 1 0 -\nL 1 1 -\n";
    assert_eq!(output(b"0 2 1 1 2 0 1"), two);
    assert_eq!(output(b"0 2 1 1 2 0 1\n"), two);
}

#[test]
fn unreadable_lines_change_nothing_and_the_run_goes_on() {
    let offer = "1 0 0 0 0 0 65536";
    for line in [
        "",
        " ",
        "?",
        "1 0 0 0 0 0",
        "1 0 0 0 0 0 65536 0",
        " 1 0 0 0 0 0 65536",
        "1 0 0 0 0 0 65536 ",
        "1  0 0 0 0 0 65536",
        "1\t0 0 0 0 0 65536",
        "1 0 0 0 0 0 65536\r",
        "+1 0 0 0 0 0 65536",
        "-1 0 0 0 0 0 65536",
        "1 0 0 0 0 0 0x10000",
        "1 0 0 0 0 0 4294967296",
        "1 0 0 0 0 0 99999999999999999999999999",
        "1 18446744073709551616 0 0 0 0 65536",
        "1 0 0 0 0 0 65536\0",
        "1 0 0 0 0 0 65536\u{e9}",
        "1,0,0,0,0,0,65536",
    ] {
        assert_eq!(lines(&format!("{line}\n{offer}\n")), ["?", "0 1"], "{line:?}");
        if !line.is_empty() {
            assert_eq!(lines(&format!("{offer}\n{line}")), ["0 1", "?"], "{line:?}");
        }
    }
    assert_eq!(lines("\n\n\n"), ["?", "?", "?"]);
}

#[test]
fn decimals() {
    assert_eq!(lines("1 0 4294967295 0 0 0 4294967295"), ["0 1"]);
    assert_eq!(lines("01 00 000 0 0 0 0000000000000000000000065536"), ["0 1"]);
    assert_eq!(lines("1 0 0 0 0 0 65535"), ["11 0"]);
    assert_eq!(lines("4294967295 0 0 0 0 0 0"), ["4 0"]);
    assert_eq!(lines("0 0 0 0 0 0 0"), ["4 0"]);
    assert_eq!(lines("14 0 0 0 0 0 0"), ["4 0"]);
}

#[test]
fn lines_of_any_length() {
    let zeros = "0".repeat(200_000);
    assert_eq!(lines(&format!("{zeros}1 0 0 0 0 0 {zeros}65536\n")), ["0 1"]);
    assert_eq!(lines(&format!("{}\n1 0 0 0 0 0 65536", "9".repeat(200_000))), ["?", "0 1"]);
    assert_eq!(lines(&format!("{}\n1 0 0 0 0 0 65536", " ".repeat(200_000))), ["?", "0 1"]);
}

#[test]
fn the_post_fills_up() {
    let offers = "1 1 0 0 0 0 70000\n".repeat(98);
    let expected: Vec<String> = (1..=98)
        .map(|sent| if sent <= 96 { format!("0 {sent}") } else { "10 96".into() })
        .collect();
    assert_eq!(lines(&offers), expected);
}
