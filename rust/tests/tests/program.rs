//! The program `outline`, started as a person would: its output must be what
//! the vector files and the witness say, byte for byte, for every text.
//!
//! The program is the one that `OUTLINE_PROGRAM` names, or the one that
//! `tools/build outline` has left in target/bin.

use std::io::{Read, Write};
use std::thread::sleep;
use std::time::Duration;

use tests::held::{assemble, refusal};
use tests::process::{program, start};
use witness::call::Call;
use witness::generate::{any, mosaic, pixels, saws, Random, Seed};
use witness::text::{MOST_BYTES, MOST_LINES, PROGRAM_ROWS};
use witness::vectors::{all_cases, Work};

/// What the program prints for an input that comes in these pieces, with a
/// pause after each. It must end well and read no more than it wants.
fn printed(pieces: &[&[u8]]) -> String {
    let mut child = start(&program());
    let mut input = child.stdin.take().unwrap();
    for piece in pieces {
        // The program may have seen enough and gone.
        if input.write_all(piece).and_then(|()| input.flush()).is_err() {
            break;
        }
        if pieces.len() > 1 {
            sleep(Duration::from_millis(15));
        }
    }
    drop(input);
    let mut output = Vec::new();
    child
        .stdout
        .take()
        .unwrap()
        .read_to_end(&mut output)
        .unwrap();
    let status = child.wait().unwrap();
    assert!(status.success(), "{}", status);
    String::from_utf8_lossy(&output).into_owned()
}

/// What the witness says that it prints.
fn wanted(input: &[u8]) -> String {
    String::from_utf8(witness::outline(input)).unwrap()
}

/// The program and the witness agree on an input; gives what they print.
fn check(input: &[u8]) -> String {
    let printed = printed(&[input]);
    let start = String::from_utf8_lossy(&input[..input.len().min(200)]).into_owned();
    assert_eq!(printed, wanted(input), "on {:?}", start);
    printed
}

/// A sheet as the program reads it.
fn text(sheet: &[i32]) -> Vec<u8> {
    outline::text::write_sheet(sheet).into_bytes()
}

#[test]
fn the_cases_of_the_vectors() {
    let mut cases = 0;
    for case in &all_cases().unwrap() {
        if let Work::Program(input, expected) = &case.work {
            case.check_printed(printed(&[input]).as_bytes(), expected);
            cases += 1;
        }
    }
    assert_eq!(cases, 241);
}

#[test]
fn the_triangle() {
    let printed = check(b"0 0 4 2 0\n4 2 1 5 0\n1 5 0 0 0\n");
    assert_eq!(printed, "accepted 1 1 4\n2 1 0\n1 1 2\n0 1 1\n");
}

/// The pixels of 02's example, and two lines that cross.
#[test]
fn corners() {
    let pixels =
        b"1 0 2 0 0\n0 1 1 1 0\n1 1 1 0 0\n2 0 2 1 0\n2 1 1 1 0\n0 2 0 1 0\n1 1 1 2 0\n1 2 0 2 0\n";
    let numbers = "7 1 0\n6 1 3\n5 1 1\n4 2 0\n3 2 3\n2 2 1\n1 1 2\n0 2 2\n";
    assert_eq!(check(pixels), format!("accepted 2 2 10\n{numbers}"));
    let lines = b"1 -1 -1 -1 0\n-1 -1 0 0 0\n0 0 1 -1 0\n-1 1 0 0 0\n0 0 1 1 0\n1 1 -1 1 0\n";
    assert_eq!(check(lines), "refused 17 1\n");
}

#[test]
fn no_input() {
    assert_eq!(check(b""), "accepted 0 0 0\n");
}

#[test]
fn no_last_newline() {
    assert_eq!(check(b"0 0 1 1 0"), "refused 15 1\n");
    assert_eq!(check(b"0 0 1 1 0\n1 1 0 0 0"), "refused 15 2\n");
    assert_eq!(check(b"0 0 1 1 0\n1 1 0 0 0\n0"), "refused 15 3\n");
}

/// Pairs of edges there and back, as lines.
fn lines(count: usize) -> Vec<u8> {
    let line = |at: usize| match at % 2 {
        0 => format!("0 {} 1 {} 255\n", at, at + 1),
        _ => format!("1 {} 0 {} 255\n", at, at - 1),
    };
    (0..count).map(line).collect::<String>().into_bytes()
}

#[test]
fn the_most_lines_and_one_more() {
    let most = lines(MOST_LINES);
    assert!(check(&most).starts_with("accepted 256 1 768\n511 1 0\n"));
    assert_eq!(check(&lines(MOST_LINES + 1)), "refused 2 0\n");
    let unended = [&most[..], b"7"].concat();
    assert_eq!(check(&unended), "refused 2 0\n");
    let malformed = [b"x\n", &most[..]].concat();
    assert_eq!(check(&malformed), "refused 2 0\n");
    let last_malformed = [&lines(MOST_LINES - 1)[..], b"x\n"].concat();
    assert_eq!(check(&last_malformed), "refused 15 512\n");
}

/// Lines of 40 bytes, the longest that may be sound, fill the most bytes.
#[test]
fn the_most_bytes_and_one_more() {
    let sound = "-1000000 -1000000 -1000000 -1000000 255\n".repeat(MOST_LINES);
    assert_eq!(sound.len(), MOST_BYTES);
    assert_eq!(check(sound.as_bytes()), "refused 6 0\n");
    let far = "-9999999 -9999999 -9999999 -9999999 0\n";
    let spaces = " ".repeat(40 - far.len());
    let longest = far.repeat(MOST_LINES);
    assert!(longest.len() < MOST_BYTES);
    assert_eq!(check(longest.as_bytes()), "refused 5 0\n");
    let padded = far.replace('\n', &(spaces + "\n")).repeat(MOST_LINES);
    assert_eq!(padded.len(), MOST_BYTES);
    assert_eq!(check(padded.as_bytes()), "refused 15 1\n");
    let one_more = padded.clone() + "\n";
    assert_eq!(check(one_more.as_bytes()), "refused 2 0\n");
    let one_line = vec![b'1'; MOST_BYTES];
    assert_eq!(check(&one_line), "refused 15 1\n");
    assert_eq!(check(&vec![b'1'; MOST_BYTES + 1]), "refused 2 0\n");
    assert_eq!(check(&vec![b'1'; 5 * MOST_BYTES]), "refused 2 0\n");
    assert_eq!(check(&vec![b'\n'; MOST_LINES]), "refused 15 1\n");
    assert_eq!(check(&vec![b'\n'; MOST_LINES + 1]), "refused 2 0\n");
}

#[test]
fn bytes_that_are_no_ascii() {
    for byte in 128..=255_u8 {
        if byte % 7 == 0 || byte == 255 {
            let input = [b"0 0 1 1 0\n1 1 0 0 ", &[byte][..], b"\n"].concat();
            assert_eq!(check(&input), "refused 15 2\n");
        }
    }
    check("0 0 1 1 0\n1 1 0 ０ 0\n".as_bytes());
    check(b"\xff\xfe0 0 1 1 0\n");
    check(b"0 0 1 1 0\n\0");
    check(b"\0\0\0\0");
    check(b"0 0 1\x001 0\n1 1 0 0 0\n");
}

#[test]
fn numbers_and_lines_almost_right() {
    let words = [
        "00",
        "-0",
        "01",
        "-01",
        "+1",
        "",
        "-",
        "--1",
        "1-",
        "1.0",
        "0x1",
        "12345678",
        "-12345678",
        "1e3",
        "９",
        "1,0",
        "9999999",
        "-9999999",
        "1000001",
        "-1000000",
        "255",
        "256",
        "-1",
    ];
    for word in words {
        for at in 0..5 {
            let mut numbers = ["5", "6", "7", "8", "9"];
            numbers[at] = word;
            check(format!("{}\n", numbers.join(" ")).as_bytes());
        }
    }
    let lines = [
        "0 0 1 1 0 \n",
        " 0 0 1 1 0\n",
        "0  0 1 1 0\n",
        "0\t0 1 1 0\n",
        "0 0 1 1 0\r\n",
        "0 0 1 1\n",
        "0 0 1 1 1 1\n",
        "\n",
        " \n",
        "0 0 1 1 0\n\n1 1 0 0 0\n",
        "0 0 1 1 0\n1 1 0 0 0\n\n",
    ];
    for line in lines {
        assert!(check(line.as_bytes()).starts_with("refused 15 "));
    }
}

#[test]
fn input_in_pieces() {
    let triangle = b"0 0 4 2 0\n4 2 1 5 0\n1 5 0 0 0\n";
    let bytes: Vec<&[u8]> = triangle.chunks(1).collect();
    assert_eq!(printed(&bytes), wanted(triangle));
    let most = lines(MOST_LINES);
    for size in [7, 1_000, 4_096] {
        let pieces: Vec<&[u8]> = most.chunks(size.max(most.len() / 40)).collect();
        assert_eq!(printed(&pieces), wanted(&most));
    }
    let too_many = vec![b'1'; MOST_BYTES + 1];
    let pieces: Vec<&[u8]> = too_many.chunks(MOST_BYTES).collect();
    assert_eq!(printed(&pieces), "refused 2 0\n");
}

/// The program lends 256 rows for 512 lines, and no sheet was found that needs
/// more than half as many rows as it has edges. These need as many as that: many
/// outlines of a few lowest points each, or one of many, all open at once.
#[test]
fn as_many_rows_as_the_program_lends() {
    let random = &mut Random::new(10);
    let threes = [vec![vec![3]; 84], vec![vec![4]]].concat();
    let most = [
        vec![vec![2]; 128],
        vec![vec![4]; 64],
        threes,
        vec![vec![2; 128]],
    ];
    for outlines in most {
        let sheet = saws(random, &outlines);
        let printed = check(&text(&sheet));
        let accepted = format!("accepted {} {PROGRAM_ROWS} ", outlines.len());
        assert!(printed.starts_with(&accepted), "{printed}");
        assert_eq!(printed.lines().count(), 1 + MOST_LINES);
        let one_fewer = Call::fitting(sheet, PROGRAM_ROWS - 1);
        assert_eq!(refusal(assemble(random, &one_fewer)), 10);
    }
}

#[test]
fn random_sheets() {
    for seed in 0..40 {
        let seed = Seed(seed);
        let random = &mut seed.random();
        check(&text(&any(random)));
        check(&text(&pixels(random, 12, 9, 50, true)));
        check(&text(&mosaic(random, 8, 8, &[0, 1, 255], true)));
    }
}
