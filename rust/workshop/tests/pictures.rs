//! PNG pictures of every colour type and depth: the same pixels make the same
//! sheet, whatever they are stored as.

mod painting;
mod running;

use painting::{colours, rgba, Layout};
use png::{BitDepth, ColorType};
use running::made;

/// What these pictures show, as a text of cells: two films, and none.
const CELLS: &str = "00.0.\n1.011\n.1100\n";

/// The rows of a picture of these cells, with the samples of each: of film 0, of
/// film 1, and of film 2 or none.
fn rows_of(cells: &str, samples: [&[u16]; 3]) -> Vec<Vec<u16>> {
    let of_cell = |cell: char| samples[cell.to_digit(3).unwrap_or(2) as usize].to_vec();
    let of_row = |row: &str| row.chars().flat_map(of_cell).collect();
    cells.lines().map(of_row).collect()
}

/// The rows of [`CELLS`].
fn rows(first: &[u16], second: &[u16], none: &[u16]) -> Vec<Vec<u16>> {
    rows_of(CELLS, [first, second, none])
}

fn check(picture: &[u8], what: &str) {
    let wanted = made(&["sheet"], CELLS.as_bytes());
    assert_eq!(made(&["sheet"], picture), wanted, "{}", what);
}

/// Colours with a sample for how much of them is there. What is transparent is no
/// film, whatever its colour.
#[test]
fn with_alpha() {
    for (depth, all) in [(BitDepth::Eight, 255), (BitDepth::Sixteen, 65_535)] {
        let greys = rows(&[5, all], &[200, all], &[5, 0]);
        let grey = Layout::plain(ColorType::GrayscaleAlpha, depth);
        check(&grey.painted(5, &greys), "grey with alpha");
        let colours = rows(&[5, 6, 7, all], &[7, 6, 5, all], &[5, 6, 7, 0]);
        let colour = Layout::plain(ColorType::Rgba, depth);
        check(&colour.painted(5, &colours), "colours with alpha");
    }
}

/// One colour is named as the transparent one.
#[test]
fn with_a_transparent_colour() {
    let depths = [
        BitDepth::Two,
        BitDepth::Four,
        BitDepth::Eight,
        BitDepth::Sixteen,
    ];
    for depth in depths {
        let grey = Layout {
            transparent: Some(&[0, 2]),
            ..Layout::plain(ColorType::Grayscale, depth)
        };
        let greys = rows(&[3], &[1], &[2]);
        check(&grey.painted(5, &greys), "grey");
    }
    for depth in [BitDepth::Eight, BitDepth::Sixteen] {
        let colour = Layout {
            transparent: Some(&[0, 9, 0, 8, 0, 7]),
            ..Layout::plain(ColorType::Rgb, depth)
        };
        let colours = rows(&[9, 8, 6], &[9, 7, 7], &[9, 8, 7]);
        check(&colour.painted(5, &colours), "colours");
    }
}

/// A film has the number of its colour's turn, not that of its place in the
/// palette; two places with one colour are one film.
#[test]
fn with_a_palette() {
    let palette = [[1, 2, 3], [4, 5, 6], [7, 8, 9], [4, 5, 6]].concat();
    for depth in [BitDepth::Two, BitDepth::Four, BitDepth::Eight] {
        let layout = Layout {
            palette: Some(&palette),
            transparent: Some(&[255, 255, 0]),
            ..Layout::plain(ColorType::Indexed, depth)
        };
        check(&layout.painted(5, &rows(&[1], &[0], &[2])), "palette");
        let mut twice = rows(&[1], &[0], &[2]);
        twice[0][3] = 3;
        check(&layout.painted(5, &twice), "a colour twice in the palette");
    }
}

/// Where nothing is transparent every pixel is film.
#[test]
fn with_nothing_transparent() {
    let cells = "00102\n20100\n";
    let palette = [[1, 2, 3], [4, 5, 6], [7, 8, 9]].concat();
    let indexed = Layout {
        palette: Some(&palette),
        ..Layout::plain(ColorType::Indexed, BitDepth::Two)
    };
    let plain = Layout::plain;
    let pictures: [(Layout, [&[u16]; 3]); 5] = [
        (indexed, [&[2], &[0], &[1]]),
        (
            plain(ColorType::Grayscale, BitDepth::Four),
            [&[9], &[0], &[15]],
        ),
        (
            plain(ColorType::Grayscale, BitDepth::Sixteen),
            [&[256], &[257], &[513]],
        ),
        (
            plain(ColorType::Rgb, BitDepth::Eight),
            [&[1, 2, 3], &[3, 2, 1], &[1, 2, 4]],
        ),
        (
            plain(ColorType::Rgb, BitDepth::Sixteen),
            [&[256, 2, 3], &[257, 2, 3], &[256, 2, 259]],
        ),
    ];
    let wanted = made(&["sheet"], cells.as_bytes());
    for (layout, samples) in pictures {
        let picture = layout.painted(5, &rows_of(cells, samples));
        assert_eq!(made(&["sheet"], &picture), wanted);
    }
}

#[test]
fn black_and_white() {
    let layout = Layout::plain(ColorType::Grayscale, BitDepth::One);
    let picture = layout.painted(3, &[vec![1, 0, 0], vec![1, 1, 0]]);
    assert_eq!(made(&["sheet"], &picture), made(&["sheet"], b"011\n001\n"));
    let layout = Layout {
        transparent: Some(&[0, 0]),
        ..layout
    };
    let picture = layout.painted(3, &[vec![1, 0, 0], vec![1, 1, 0]]);
    assert_eq!(made(&["sheet"], &picture), made(&["sheet"], b"#..\n##.\n"));
}

/// The top row of the picture is the highest, and its left is left.
#[test]
fn the_right_way_up() {
    let (blue, none) = ([0, 0, 255, 255], [0; 4]);
    let picture = rgba(&[vec![none, blue], vec![none, none], vec![none, none]]);
    let square = "1 2 2 2 0\n1 3 1 2 0\n2 2 2 3 0\n2 3 1 3 0\n";
    assert_eq!(made(&["sheet"], &picture), square);
}

/// Grey, a byte a pixel, stored in seven passes: the encoder makes none of these.
#[test]
fn interlaced() {
    assert_eq!(
        made(&["sheet"], INTERLACED),
        made(&["sheet"], b"00122\n12010\n22211\n")
    );
}

#[test]
fn as_many_colours_as_films() {
    let sheet = made(&["sheet"], &colours(256));
    assert!(sheet.lines().any(|edge| edge.ends_with(" 255")));
    assert_eq!(sheet.lines().count(), 4 * 256);
}

#[test]
fn a_picture_without_film() {
    let picture = rgba(&[vec![[1, 2, 3, 0]; 4]]);
    for command in ["sheet", "cut"] {
        assert_eq!(made(&[command], &picture), "");
    }
}

/// Five by three pixels.
const INTERLACED: &[u8] = b"\
    \x89\x50\x4e\x47\x0d\x0a\x1a\x0a\x00\x00\x00\x0d\x49\x48\x44\x52\x00\x00\
    \x00\x05\x00\x00\x00\x03\x08\x00\x00\x00\x01\x09\x5a\xaa\xb2\x00\x00\x00\
    \x1c\x49\x44\x41\x54\x78\xda\x63\xe0\x62\x90\x63\x10\x61\x90\x93\x13\x61\
    \xe0\x92\x63\x00\x92\x22\x72\x5c\x22\x5c\x00\x0d\x22\x01\x41\xf8\x81\xb8\
    \x01\x00\x00\x00\x00\x49\x45\x4e\x44\xae\x42\x60\x82\
";
