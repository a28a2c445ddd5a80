//! What is refused: one line says what and where, the status is 1, and nothing is
//! written. What is not understood has status 2.

mod painting;
mod running;

use std::fs;

use painting::{announced, chessboard, colours, rgba, Layout};
use png::{BitDepth, ColorType};
use running::{fault, line_of, made, run, sample, sample_bytes, text, Folder};

/// What the command says to a picture on standard input; both commands that take
/// one say the same.
fn refused(picture: &[u8]) -> String {
    let said = fault(&["sheet"], picture);
    assert_eq!(fault(&["cut"], picture), said);
    let said = said.strip_prefix("standard input: ");
    said.unwrap().to_string()
}

#[test]
fn more_colours_than_films() {
    let said = "row 1, column 257: #010007 is colour number 257, and a sheet has 256 films";
    assert_eq!(refused(&colours(257)), said);
    assert_eq!(refused(&colours(400)), said);
    let greys = (0..257).map(|grey| 3 * grey).collect();
    let layout = Layout::plain(ColorType::Grayscale, BitDepth::Sixteen);
    let said = "row 1, column 257: #030003000300 is colour number 257, and a sheet has 256 films";
    assert_eq!(refused(&layout.painted(257, &[greys])), said);
}

#[test]
fn more_edges_than_a_list_holds() {
    assert_eq!(
        made(&["sheet"], &chessboard(2, 1_024)).lines().count(),
        4_096
    );
    let engine = "the list has more than 4,096 edges (refusal 2, TooMany): split the sheet";
    let said = |edges| format!("it makes {} edges: {}", edges, engine);
    assert_eq!(refused(&chessboard(2, 1_025)), said(4_100));
    assert_eq!(refused(&chessboard(64, 64)), said(8_192));
    let cells = "#.#.#.#.#.#.#.#.\n.#.#.#.#.#.#.#.#\n".repeat(65);
    assert_eq!(refused(cells.as_bytes()), said(4_160));
}

/// A pixel of so many units may reach past the range.
#[test]
fn too_large() {
    let sheet = |pixel| ["sheet", "--pixel", pixel];
    assert_eq!(made(&sheet("1000000"), b"#\n").lines().count(), 4);
    for pixel in ["500001", "1000000"] {
        let said = fault(&sheet(pixel), b"##\n");
        assert!(said.contains(" (refusal 5, PastRange): "), "{}", said);
    }
    // So far that a number of 32 bits would come round to where it began.
    let far = ".".repeat(4_294) + "#\n";
    let said = fault(&sheet("1000000"), far.as_bytes());
    assert!(said.contains(" (refusal 5, PastRange): "), "{}", said);
}

#[test]
fn partly_transparent() {
    let film = [1, 2, 3, 255];
    for alpha in [1, 128, 254] {
        let picture = rgba(&[vec![film; 3], vec![film, film, [1, 2, 3, alpha]]]);
        let said = "row 2, column 3: a pixel that is partly transparent, alpha";
        assert_eq!(refused(&picture), format!("{} {} of 255", said, alpha));
    }
    let layout = Layout::plain(ColorType::GrayscaleAlpha, BitDepth::Sixteen);
    let said = "row 1, column 1: a pixel that is partly transparent, alpha 255 of 65535";
    assert_eq!(refused(&layout.painted(1, &[vec![7, 255]])), said);
}

#[test]
fn a_picture_that_is_none() {
    let none = |why: &str| format!("neither a PNG picture nor a text of cells: {}", why);
    assert_eq!(refused(b""), none("it is empty"));
    assert_eq!(
        refused(b"\xff\xd8\xff\xe0"),
        none("byte 1, 0xff, is no text")
    );
    assert_eq!(refused(b"##\n#\xe4\n"), none("byte 5, 0xe4, is no text"));
    let said = "line 2, column 2: '*' stands for no film";
    assert_eq!(refused(b"0.\n.*\n"), none(said));
}

/// A sheet is made of figures and spaces, as a text of cells may be.
#[test]
fn a_sheet_for_a_picture() {
    for sheet in [&sample_bytes("portrait.txt")[..], b"1 1 1 1 1\n"] {
        let said = refused(sheet);
        let begin = "a sheet, and no picture: `workshop instructions` takes it";
        assert!(said.starts_with(begin), "{}", said);
    }
    let stripes = made(&["sheet"], b"1.1.1.1.1\n");
    assert_eq!(stripes.lines().count(), 4 * 5);
    assert_eq!(made(&["sheet"], b"1 1 1 1 1 \n"), stripes);
}

/// A PNG picture at whose end, or in whose middle, something is wrong.
#[test]
fn a_broken_picture() {
    let whole = chessboard(20, 20);
    let begin = "a PNG picture that cannot be read: ";
    for length in [8, 20, 33, 40, whole.len() - 20] {
        let said = refused(&whole[..length]);
        assert!(said.starts_with(begin), "{}", said);
    }
    for place in [17, 30, 45, whole.len() - 14] {
        let mut broken = whole.clone();
        broken[place] ^= 0xff;
        let said = refused(&broken);
        assert!(
            said.starts_with(begin) || said.contains(" pixels: "),
            "{}",
            said
        );
    }
}

/// Of a picture that is too large not even the pixels are looked at: here they
/// are missing.
#[test]
fn too_many_pixels() {
    let said = "5 by 838861 pixels: 4194304 are the most";
    assert_eq!(refused(&announced(5, 838_861)), said);
    let most = 2_147_483_647;
    let said = "2147483647 by 2147483647 pixels: 4194304 are the most";
    assert_eq!(refused(&announced(most, most)), said);
    let said = refused(&announced(2_048, 2_048));
    let begin = "a PNG picture that cannot be read: ";
    assert!(said.starts_with(begin), "{}", said);
}

/// The encoder makes no such pictures: here the size is written over, with its
/// checksum.
#[test]
fn no_pixels() {
    let mut picture = chessboard(1, 1);
    picture[16..24].copy_from_slice(&[0, 0, 0, 0, 0, 0, 0, 5]);
    picture[29..33].copy_from_slice(&[0x6b, 0x46, 0xed, 0xa1]);
    assert_eq!(refused(&picture), "a PNG picture of 0 by 5 pixels");
}

/// The first frame of a picture that moves is to be all of it.
#[test]
fn a_first_frame_that_is_smaller() {
    let said = "a PNG picture whose first frame is not all of it";
    assert_eq!(refused(MOVING), said);
}

/// Four by four pixels, of which the first frame has two by two.
const MOVING: &[u8] = b"\
    \x89\x50\x4e\x47\x0d\x0a\x1a\x0a\x00\x00\x00\x0d\x49\x48\x44\x52\x00\x00\
    \x00\x04\x00\x00\x00\x04\x08\x00\x00\x00\x00\x8c\x9a\xc1\xa2\x00\x00\x00\
    \x08\x61\x63\x54\x4c\x00\x00\x00\x01\x00\x00\x00\x00\xb4\x2d\xe9\xa0\x00\
    \x00\x00\x1a\x66\x63\x54\x4c\x00\x00\x00\x00\x00\x00\x00\x02\x00\x00\x00\
    \x02\x00\x00\x00\x00\x00\x00\x00\x00\x00\x01\x00\x01\x00\x00\xe4\x01\x33\
    \xe1\x00\x00\x00\x0e\x49\x44\x41\x54\x78\xda\x63\x60\x64\x64\x60\x64\x04\
    \x00\x00\x12\x00\x05\x48\x71\x8f\x5a\x00\x00\x00\x00\x49\x45\x4e\x44\xae\
    \x42\x60\x82\
";

/// A sheet is refused with the line of its text.
#[test]
fn a_sheet_that_is_refused() {
    for command in ["numbers", "draw", "instructions"] {
        let said = fault(&[command], b"4 2 1 5 0\n0 0 4 2 0\n1 5 0 0 0\n");
        let begin = "standard input: line 2: edge 1 (counted from 0) has its higher end below ";
        assert!(said.starts_with(begin), "{}", said);
        assert!(said.contains(" (refusal 7, TopFalls): sort "), "{}", said);
        let said = fault(&[command], b"0 0 4 2 0\n4 2 1,5 0\n");
        let begin = "standard input: line 2 is malformed (refusal 15, Malformed): ";
        assert!(said.starts_with(begin), "{}", said);
        let said = fault(&[command, &sample("portrait.png")], b"");
        assert!(said.ends_with(": a picture, and no sheet: `workshop sheet` makes one of it"));
    }
}

/// What stands where the output should go is left as it is, and nothing is put
/// beside it.
#[test]
fn a_refusal_writes_no_file() {
    let folder = Folder::new("a_refusal_writes_no_file");
    let picture = folder.holding("many.png", &colours(257));
    let (old, new) = (folder.holding("old", b"as it was"), folder.file("new"));
    for target in [&old, &new] {
        for command in ["cut", "sheet"] {
            let said = fault(&[command, &picture, "-o", target], b"");
            assert!(
                said.starts_with(&format!("{}: row 1, ", picture)),
                "{}",
                said
            );
        }
        let said = fault(&["numbers", "-o", target], b"0 0 4 2 0\n");
        assert!(said.starts_with("standard input: line 1: "), "{}", said);
    }
    assert_eq!(fs::read(&old).unwrap(), b"as it was");
    assert_eq!(folder.names(), ["many.png", "old"]);
}

#[test]
fn what_cannot_be_read() {
    let folder = Folder::new("what_cannot_be_read");
    for command in ["cut", "sheet", "numbers", "draw", "instructions"] {
        for file in [folder.file("no such"), folder.file(".")] {
            let output = run(&[command, &file, "-o", &folder.file("new")], b"");
            let begin = format!("cannot read {}: ", file);
            assert!(line_of(&output).starts_with(&begin));
        }
    }
    assert!(folder.names().is_empty());
}

/// A name with a newline in it does not make two lines of one.
#[test]
fn one_line_whatever_the_name() {
    let said = fault(&["sheet", "no\nsuch\tfile"], b"");
    assert!(said.starts_with("cannot read no such file: "), "{}", said);
}

#[test]
fn what_is_not_understood() {
    let wrong: [&[&str]; 8] = [
        &[],
        &["paint"],
        &["sheet", "-x"],
        &["sheet", "a", "b"],
        &["sheet", "--machine", "flatbed"],
        &["cut", "--machine", "plotter"],
        &["cut", "-o"],
        &["numbers", "--blade"],
    ];
    for arguments in wrong {
        let output = run(arguments, b"#\n");
        assert_eq!(output.status.code(), Some(2), "{:?}", arguments);
        assert_eq!(text(&output.stdout), "");
        let said = text(&output.stderr);
        assert!(said.contains("--help"), "{}", said);
    }
}
