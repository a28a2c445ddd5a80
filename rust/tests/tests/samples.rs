//! The sample sheets: the program can read them, the engine accepts them, they
//! show what they are meant to show, and the pictures beside them are theirs.

use std::fs;
use std::path::{Path, PathBuf};

use outline::{picture, text, Outlines, Refusal};
use witness::declared::touching_sites;
use witness::geometry::{read_edges, twice_area, Edge};
use witness::worked::TRIANGLE;

fn sample(name: &str) -> PathBuf {
    let samples = Path::new(env!("CARGO_MANIFEST_DIR")).join("../../samples");
    samples.join(name)
}

fn bytes(name: &str) -> Vec<u8> {
    fs::read(sample(name)).unwrap_or_else(|error| panic!("{}: {}", name, error))
}

/// A sample sheet that the program accepts.
fn sheet(name: &str) -> Vec<i32> {
    let text = bytes(name);
    assert!(
        witness::outline(&text).starts_with(b"accepted "),
        "{}",
        name
    );
    text::read_sheet(&text).unwrap()
}

#[test]
fn the_triangle() {
    assert_eq!(sheet("triangle.txt"), TRIANGLE);
}

#[test]
fn the_touching_sheet() {
    let touching = sheet("touching.txt");
    assert_eq!(Outlines::of(&touching).unwrap().count(), 2);
    assert_eq!(touching_sites(&read_edges(&touching)).len(), 1);
}

/// The picture of a sample sheet is the one that is drawn of it.
fn check_picture(name: &str, draw: fn(&[i32]) -> Result<String, Refusal>, options: &str) {
    let (text, svg) = (format!("{name}.txt"), format!("{name}{options}.svg"));
    let drawn = draw(&sheet(&text)).unwrap();
    assert!(
        drawn.as_bytes() == bytes(&svg),
        "samples/{svg} is not what outline-svg draws of samples/{text}"
    );
}

#[test]
fn the_pictures() {
    check_picture("touching", picture::draw, "");
    check_picture("portrait", picture::draw, "");
    check_picture("portrait", picture::draw_blade, "-blade");
}

/// A face in film 0 and a scarf in film 1, which share the three sides of the
/// neck. The two pixels of the earring hang on the face and on one another corner
/// to corner, and are outlines of their own; pixels of the face touch so at the
/// corners of the mouth, which is one hole.
#[test]
fn the_portrait() {
    let portrait = sheet("portrait.txt");
    let edges = read_edges(&portrait);
    let outlines = Outlines::of(&portrait).unwrap();
    assert_eq!(outlines.count(), 11);
    assert_eq!(touching_sites(&edges).len(), 6);
    let area = |number: usize| {
        let places = outlines.places(number).iter();
        let round: Vec<Edge> = places.map(|place| edges[*place as usize]).collect();
        twice_area(&round)
    };
    let areas: Vec<i64> = (1..=outlines.count()).map(area).collect();
    let (pixel, mouth) = (2, -2 * 12);
    let of_area = |wanted: i64| areas.iter().filter(|area| **area == wanted).count();
    assert_eq!((of_area(pixel), of_area(mouth)), (2, 1), "{areas:?}");
    let bitmap = bytes("portrait.pixels");
    for (film, mark) in [(0, b'0'), (1, b'1')] {
        let pixels = bitmap.iter().filter(|byte| **byte == mark).count();
        let of_film = |edge: &&Edge| edge.film == film;
        let of_film: Vec<Edge> = edges.iter().filter(of_film).copied().collect();
        assert_eq!(twice_area(&of_film), 2 * pixels as i64);
    }
    let shared = |edge: &&Edge| edge.film == 0 && edges.contains(&edge.reversed().in_film(1));
    assert_eq!(edges.iter().filter(shared).count(), 3);
}
