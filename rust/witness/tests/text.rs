//! The program's rules for its text, each with the output written by hand: the
//! two limits, what is a malformed line and which one is named, and what is
//! printed.

use witness::outline;
use witness::text::{MOST_BYTES, MOST_LINES};

fn prints(input: impl AsRef<[u8]>, expected: &str) {
    let input = input.as_ref();
    let printed = String::from_utf8(outline(input)).unwrap();
    let shown = String::from_utf8_lossy(&input[..input.len().min(80)]);
    assert_eq!(printed, expected, "input {:?}", shown);
}

#[test]
fn empty_input_is_the_empty_list() {
    prints("", "accepted 0 0 0\n");
}

#[test]
fn edges_come_last_first() {
    let input = "0 0 4 2 0\n4 2 1 5 0\n1 5 0 0 0\n";
    prints(input, "accepted 1 1 4\n2 1 0\n1 1 2\n0 1 1\n");
    let input = "-1 -1 0 -1 7\n0 -1 -1 -1 7\n5 5 6 5 255\n6 5 5 5 255\n";
    prints(input, "accepted 2 1 6\n3 1 0\n2 1 1\n1 2 0\n0 2 1\n");
}

/// Lines that are no edge, each for a reason of its own.
const MALFORMED: [&str; 35] = [
    "",
    " ",
    "0",
    "0 0 1",
    "0 0 1 1",
    "0 0 1 1 2 1",
    "0 0 1 1 2 ",
    " 0 0 1 1 2",
    "0  0 1 1 2",
    "0 0 1 1  2",
    "0 0 1 1 2\r",
    "0\t0 1 1 2",
    "00 0 1 1 2",
    "01 0 1 1 2",
    "0 0 1 1 -0",
    "-00 0 1 1 2",
    "-01 0 1 1 2",
    "+1 0 1 1 2",
    "0 0 1 1 12345678",
    "0 0 1 -12345678 2",
    "0 0 1 1 00000001",
    "- 0 1 1 2",
    "--1 0 1 1 2",
    "1- 0 1 1 2",
    "0 0 1 1 2.0",
    "0 0 1 1 x",
    "0,0,1,1,2",
    "0 0 1 1 2#",
    "\u{0}",
    "0 0 1 1 \u{661}",
    "0 0 1 1 2\u{a0}",
    "0 0 1 1 2e0",
    "0x0 0 1 1 2",
    "0 0 1 1 2\u{b}",
    "\u{feff}0 0 1 1 2",
];

#[test]
fn malformed_lines() {
    for line in MALFORMED {
        prints(format!("{}\n", line), "refused 15 1\n");
        let input = format!("0 0 1 1 0\n1 1 0 0 0\n{}\n0 0\n", line);
        prints(input, "refused 15 3\n");
    }
}

#[test]
fn bytes_that_are_no_text() {
    prints([0xff], "refused 15 1\n");
    prints([b'0', b' ', 0xe9, b'\n'], "refused 15 1\n");
    prints(b"0 0 1 1 0\n1 1 0 0 0\xc2\xa0\n", "refused 15 2\n");
}

#[test]
fn an_unended_last_line_is_malformed() {
    prints("0 0 1 1 0\n1 1 0 0 0", "refused 15 2\n");
    prints("0 0 1 1 0\n1 1 0 0 0\n", "accepted 1 1 3\n1 1 0\n0 1 1\n");
    prints("0 0 1 1 0\n1 1 0 0 0\n\n", "refused 15 3\n");
    prints("0 0 1 1 0\n1 1 0 0 0\n ", "refused 15 3\n");
    prints("0 0 1 1 0", "refused 15 1\n");
}

#[test]
fn numbers_at_their_longest() {
    let input = "-1000000 -1000000 1000000 1000000 0\n1000000 1000000 -1000000 -1000000 0\n";
    prints(input, "accepted 1 1 3\n1 1 0\n0 1 1\n");
    prints("0 0 1000001 0 0\n", "refused 5 0\n");
    prints("0 0 1 1 0\n0 0 1 -9999999 0\n", "refused 5 1\n");
    prints("9999999 9999999 9999999 9999999 0\n", "refused 5 0\n");
    prints("0 0 10000000 0 0\n", "refused 15 1\n");
    prints(
        "0 0 1 1 255\n1 1 0 0 255\n",
        "accepted 1 1 3\n1 1 0\n0 1 1\n",
    );
    prints("0 0 1 1 256\n", "refused 16 0\n");
    prints("0 0 1 1 0\n1 1 0 0 -1\n", "refused 16 1\n");
    prints("0 0 1 1 -9999999\n", "refused 16 0\n");
    prints("0 0 1000001 0 256\n", "refused 5 0\n");
    prints("0 0 1 1 10000000\n", "refused 15 1\n");
}

#[test]
fn refusals_of_the_list() {
    prints("5 5 5 5 0\n", "refused 6 0\n");
    prints("4 2 1 5 0\n0 0 4 2 0\n1 5 0 0 0\n", "refused 7 1\n");
    prints(
        "0 0 4 2 0\n0 0 4 2 0\n4 2 1 5 0\n1 5 0 0 0\n",
        "refused 8 1\n",
    );
    prints("0 0 4 2 0\n4 2 1 5 0\n", "refused 9 0\n");
    prints("5 5 5 5 0\n5 5 5 5\n", "refused 15 2\n");
}

/// Edges there and back, one pair above the other.
fn pairs(count: usize) -> String {
    let pair = |at: usize| format!("0 {0} 1 {0} 3\n1 {0} 0 {0} 3\n", at);
    (0..count).map(pair).collect()
}

#[test]
fn the_most_lines() {
    let printed = String::from_utf8(outline(pairs(256).as_bytes())).unwrap();
    assert!(printed.starts_with("accepted 256 1 768\n511 1 0\n510 1 1\n509 2 0\n"));
    assert!(printed.ends_with("\n1 256 0\n0 256 1\n"));
    assert_eq!(printed.lines().count(), 1 + MOST_LINES);
    prints(pairs(256) + "\n", "refused 2 0\n");
    prints(pairs(256) + "x", "refused 2 0\n");
    prints(pairs(255) + "0 0 0 0 0\nx", "refused 15 512\n");
    prints("\n".repeat(512), "refused 15 1\n");
    prints("\n".repeat(513), "refused 2 0\n");
    prints("\n".repeat(512) + "x", "refused 2 0\n");
    prints("\n".repeat(511) + "x", "refused 15 1\n");
}

#[test]
fn the_most_bytes() {
    prints("x".repeat(MOST_BYTES), "refused 15 1\n");
    prints("x".repeat(MOST_BYTES + 1), "refused 2 0\n");
    let edges = "-1000000 -1000000 -1000000 -1000000 0\n".repeat(500);
    let longest = edges.clone() + &"x".repeat(MOST_BYTES - edges.len());
    prints(&longest, "refused 15 501\n");
    prints(longest + "x", "refused 2 0\n");
    prints(edges, "refused 6 0\n");
}

/// Outlines with two lowest points each, which close, left to right, only above
/// all of them. Each takes two rows while it waits.
fn waiting(outlines: i32) -> String {
    let lower = |at: i32| {
        let (x, y) = (4 * at, 3 * at);
        let peak = format!("{} {}", x + 1, y + 2);
        format!("{} {} {} 0\n{} {} {} 0\n", x, y, peak, peak, x + 2, y + 1)
    };
    let upper = |at: i32| {
        let (x, y) = (4 * at, 3 * at);
        let peak = format!("{} {}", x + 3, 3 * outlines + at);
        format!("{} {} {} 0\n{} {} {} 0\n", x + 2, y + 1, peak, peak, x, y)
    };
    let all = 0..outlines;
    all.clone().map(lower).chain(all.map(upper)).collect()
}

/// The program lends 256 rows for 512 lines, and no sheet was found that needs
/// more than half as many rows as it has edges.
#[test]
fn the_most_lines_with_the_most_rows() {
    let printed = String::from_utf8(outline(waiting(128).as_bytes())).unwrap();
    assert!(printed.starts_with("accepted 128 256 896\n511 1 0\n"));
    assert_eq!(printed.lines().count(), 1 + MOST_LINES);
}
