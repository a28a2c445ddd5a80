//! The whole way from picture to blade, and each of its steps: with files, with
//! standard input and output, and through pipes.

mod painting;
mod running;

use std::fs;
use std::process::Stdio;

use outline::text::write_sheet;
use painting::Layout;
use png::{BitDepth, ColorType};
use running::{ended, made, run, sample, sample_bytes, text, workshop, Folder};
use witness::generate::{any, Seed};

const TRIANGLE: &[u8] = b"0 0 4 2 0\n4 2 1 5 0\n1 5 0 0 0\n";

const FLATBED: &str = "\
travel 0.015625 0.078125
cut 0 0
cut 0.0625 0.03125
cut 0.015625 0.078125
lift
";

const ROLL_FEEDER: &str = "\
travel 0.078125 -0.015625
cut 0 0
cut 0.03125 -0.0625
cut 0.078125 -0.015625
lift
";

/// The portrait's colours: those of films 0 and 1 in its drawing, and none.
const PALETTE: [u8; 9] = [0x1b, 0x69, 0xb6, 0xb6, 0x1b, 0x3b, 0, 0, 0];

/// The portrait painted with a palette, pixel by pixel as its text of cells says.
fn portrait() -> Vec<u8> {
    let index = |cell: char| cell.to_digit(10).unwrap_or(2) as u16;
    let cells = text(&sample_bytes("portrait.pixels"));
    let rows: Vec<Vec<u16>> = cells
        .lines()
        .map(|row| row.chars().map(index).collect())
        .collect();
    let layout = Layout {
        palette: Some(&PALETTE),
        transparent: Some(&[255, 255, 0]),
        ..Layout::plain(ColorType::Indexed, BitDepth::Two)
    };
    layout.painted(rows[0].len(), &rows)
}

/// Makes the sample anew: `cargo test -- --ignored paint_the_sample`.
#[test]
#[ignore]
fn paint_the_sample() {
    fs::write(sample("portrait.png"), portrait()).unwrap();
}

#[test]
fn the_portrait_is_the_same_sheet_from_png_and_from_cells() {
    let sheet = text(&sample_bytes("portrait.txt"));
    for name in ["portrait.png", "portrait.pixels"] {
        assert_eq!(made(&["sheet", &sample(name)], b""), sheet);
        assert_eq!(made(&["sheet"], &sample_bytes(name)), sheet);
        assert_eq!(made(&["sheet", "-", "-o", "-"], &sample_bytes(name)), sheet);
    }
    assert_eq!(made(&["sheet"], &portrait()), sheet);
}

/// What the program `outline` prints, which the witness prints too.
#[test]
fn numbers_are_as_the_program_prints_them() {
    for name in ["portrait.txt", "touching.txt", "triangle.txt"] {
        let wanted = text(&witness::outline(&sample_bytes(name)));
        assert_eq!(made(&["numbers", &sample(name)], b""), wanted);
    }
    assert_eq!(made(&["numbers"], b""), "accepted 0 0 0\n");
    let mut compared = 0;
    for seed in 0..20 {
        let sheet = write_sheet(&any(&mut Seed(seed).random()));
        let wanted = text(&witness::outline(sheet.as_bytes()));
        // The program takes fewer lines than the library.
        if wanted != "refused 2 0\n" {
            assert_eq!(made(&["numbers"], sheet.as_bytes()), wanted);
            compared += 1;
        }
    }
    assert!(compared > 10, "{} of 20 were compared", compared);
}

#[test]
fn the_drawings_are_the_samples() {
    let sheet = sample("portrait.txt");
    let drawing = text(&sample_bytes("portrait.svg"));
    assert_eq!(made(&["draw", &sheet], b""), drawing);
    let blade = text(&sample_bytes("portrait-blade.svg"));
    assert_eq!(made(&["draw", "--blade", &sheet], b""), blade);
    assert_eq!(
        made(&["draw", "--blade"], &sample_bytes("portrait.txt")),
        blade
    );
}

#[test]
fn instructions_for_either_machine() {
    assert_eq!(made(&["instructions"], TRIANGLE), FLATBED);
    let told = |machine| made(&["instructions", "--machine", machine], TRIANGLE);
    assert_eq!(told("flatbed"), FLATBED);
    assert_eq!(told("roll-feeder"), ROLL_FEEDER);
}

/// In one command as in two with a pipe between them, or with a file.
#[test]
fn from_picture_to_blade() {
    let folder = Folder::new("from_picture_to_blade");
    for machine in ["flatbed", "roll-feeder"] {
        let picture = sample("portrait.png");
        let told = made(&["cut", &picture, "--machine", machine], b"");
        assert_eq!(
            told,
            made(&["cut", "-m", machine], &sample_bytes("portrait.png"))
        );
        assert_eq!(
            told,
            made(&["cut", &sample("portrait.pixels"), "-m", machine], b"")
        );

        let mut first = workshop(&["sheet", &picture]).spawn().unwrap();
        let pipe = Stdio::from(first.stdout.take().unwrap());
        let second = workshop(&["instructions", "-m", machine])
            .stdin(pipe)
            .output();
        assert_eq!(text(&second.unwrap().stdout), told);
        assert!(ended(first, b"").status.success());

        let (sheet, cut) = (folder.file("sheet.txt"), folder.file("portrait.cut"));
        assert_eq!(made(&["sheet", &picture, "-o", &sheet], b""), "");
        let arguments = ["instructions", &sheet, "-m", machine, "--output", &cut];
        assert_eq!(made(&arguments, b""), "");
        assert_eq!(fs::read(&sheet).unwrap(), sample_bytes("portrait.txt"));
        assert_eq!(fs::read_to_string(&cut).unwrap(), told);
        assert_eq!(folder.names(), ["portrait.cut", "sheet.txt"]);
    }
}

/// Where no machine is named it is the flatbed.
#[test]
fn the_machine_that_is_meant() {
    let cells = b"#\n";
    let flatbed = made(&["cut", "-m", "flatbed"], cells);
    assert_eq!(made(&["cut"], cells), flatbed);
    assert_ne!(made(&["cut", "-m", "roll-feeder"], cells), flatbed);
}

#[test]
fn pixels_of_a_millimetre() {
    let cut = "travel 1 1\ncut 0 1\ncut 0 0\ncut 1 0\ncut 1 1\nlift\n";
    assert_eq!(made(&["cut", "--pixel", "64"], b"7\n"), cut);
    let square = "0 0 5 0 7\n0 5 0 0 7\n5 0 5 5 7\n5 5 0 5 7\n";
    assert_eq!(made(&["sheet", "--pixel", "5"], b"7\n"), square);
    for units in ["0", "-1", "1000001", "x", ""] {
        let output = run(&["sheet", "--pixel", units], b"7\n");
        assert_eq!((output.status.code(), output.stdout.len()), (Some(2), 0));
    }
}

#[test]
fn help_shows_the_whole_way() {
    let help = made(&["--help"], b"");
    let steps = ["cut", "sheet", "numbers", "draw", "instructions"];
    for step in steps {
        assert!(help.contains(&format!("\n  workshop {} portrait.", step)) || step == "draw");
        let of_step = made(&[step, "--help"], b"");
        assert!(of_step.contains(&format!("\n  workshop {} portrait.", step)));
        assert_eq!(made(&["help", step], b""), of_step);
    }
    assert!(help.contains("\n  workshop draw --blade portrait.txt -o portrait-blade.svg\n"));
    assert!(help.contains(" | workshop instructions "));
    assert_eq!(made(&["--version"], b""), "workshop 0.1.0\n");
}
