//! The functions as they are exported, with nothing of the safe crate
//! between: what the answers hold in the fields that do not apply, a C program
//! that includes the header and is linked with the same archive, and that the
//! archive exports nothing else.

use std::collections::BTreeSet;
use std::path::{Path, PathBuf};
use std::process::Command;

use tests::c::{compiled, of_repository, printed, Kind};
use tests::numbers;
use witness::call::{Call, CutCall, TurnCall};
use witness::checks::IN_ORDER;
use witness::generate::{any, any_cutting, damaged, spoil_cutting, Random, Seed};
use witness::instructions::CUT_IN_ORDER;
use witness::{Answer, Machine, Refusal, TurnAnswer};

#[repr(C)]
#[derive(Clone, Copy, PartialEq, Eq, Debug)]
struct Sheet {
    refusal: u32,
    place: u32,
    polygons: u32,
    peak: u32,
    records: u32,
}

#[repr(C)]
#[derive(Clone, Copy, PartialEq, Eq, Debug)]
struct Turned {
    refusal: u32,
    place: u32,
    polygons: u32,
}

#[repr(C)]
#[derive(Clone, Copy)]
struct Cut {
    refusal: u32,
    place: u32,
    what: u32,
    x: f32,
    y: f32,
}

extern "C" {
    fn outline_assemble(
        edges: *const i32,
        edges_length: usize,
        polygons: *mut u32,
        polygons_length: usize,
        sequences: *mut u32,
        sequences_length: usize,
        turns: *mut u32,
        turns_length: usize,
        journal: *mut i32,
        journal_length: usize,
        rows: *mut i32,
        rows_length: usize,
    ) -> Sheet;

    fn outline_turns(
        polygons: *const u32,
        polygons_length: usize,
        sequences: *const u32,
        sequences_length: usize,
        turns: *mut u32,
        turns_length: usize,
    ) -> Turned;

    fn outline_flatbed(
        edges: *const i32,
        edges_length: usize,
        polygons: *const u32,
        polygons_length: usize,
        sequences: *const u32,
        sequences_length: usize,
        turns: *const u32,
        turns_length: usize,
        k: u32,
    ) -> Cut;

    fn outline_roll_feeder(
        edges: *const i32,
        edges_length: usize,
        polygons: *const u32,
        polygons_length: usize,
        sequences: *const u32,
        sequences_length: usize,
        turns: *const u32,
        turns_length: usize,
        k: u32,
    ) -> Cut;
}

/// The engine's own answer to a call.
fn sheet(call: &Call) -> Sheet {
    // The crate is used so that its archive is linked.
    let _ = outline::MOST_EDGES;
    let mut polygons = vec![0; call.polygons];
    let mut sequences = vec![0; call.sequences];
    let mut turns = vec![0; call.turns];
    let mut journal = vec![0; call.journal];
    let mut rows = vec![0; call.rows];
    // SAFETY: pointers and lengths are those of slices that are not shared.
    unsafe {
        outline_assemble(
            call.edges.as_ptr(),
            call.edges.len(),
            polygons.as_mut_ptr(),
            polygons.len(),
            sequences.as_mut_ptr(),
            sequences.len(),
            turns.as_mut_ptr(),
            turns.len(),
            journal.as_mut_ptr(),
            journal.len(),
            rows.as_mut_ptr(),
            rows.len(),
        )
    }
}

/// The same for a turn list.
fn turned(call: &TurnCall) -> Turned {
    let mut turns = vec![0; call.turns];
    // SAFETY: as above.
    unsafe {
        outline_turns(
            call.polygons.as_ptr(),
            call.polygons.len(),
            call.sequences.as_ptr(),
            call.sequences.len(),
            turns.as_mut_ptr(),
            turns.len(),
        )
    }
}

/// The same for an instruction: refusal, place, what, and the bits of x and y.
fn cut(call: &CutCall) -> [u32; 5] {
    let function = match call.machine {
        Machine::Flatbed => outline_flatbed,
        Machine::RollFeeder => outline_roll_feeder,
    };
    // SAFETY: as above.
    let cut = unsafe {
        function(
            call.edges.as_ptr(),
            call.edges.len(),
            call.polygons.as_ptr(),
            call.polygons.len(),
            call.sequences.as_ptr(),
            call.sequences.len(),
            call.turns.as_ptr(),
            call.turns.len(),
            call.k,
        )
    };
    let (x, y) = (cut.x.to_bits(), cut.y.to_bits());
    [cut.refusal, cut.place, cut.what, x, y]
}

/// What the fields must be for an answer of the witness.
fn fields(answer: Answer) -> Sheet {
    let [refusal, place, polygons, peak, records] = numbers::of_sheet(answer);
    Sheet {
        refusal,
        place,
        polygons,
        peak,
        records,
    }
}

fn turn_fields(answer: TurnAnswer) -> Turned {
    let [refusal, place, polygons] = numbers::of_turned(answer);
    Turned {
        refusal,
        place,
        polygons,
    }
}

#[test]
fn every_field_of_an_assembling_call() {
    for seed in 0..300 {
        let seed = Seed(seed);
        let random = &mut seed.random();
        let edges = any(random);
        let rows = outline::rows_enough(&edges);
        let mut calls = vec![Call::fitting(edges, rows)];
        // Lists that are too long are slow to make.
        let refusals = IN_ORDER.into_iter().filter(|refusal| *refusal != 2);
        calls.extend(refusals.map(|refusal| damaged(random, refusal)));
        for call in calls {
            let answer = call.outcome(witness::assemble).answer;
            assert_eq!(sheet(&call), fields(answer), "{:?}", call);
        }
    }
    let call = damaged(&mut Random::new(0), 2);
    let wanted = fields(Answer::Refused(Refusal::at(2, 0)));
    assert_eq!(sheet(&call), wanted);
}

#[test]
fn every_field_of_a_turn_list() {
    for seed in 0..2_000 {
        let seed = Seed(seed);
        let random = &mut seed.random();
        let edges = random.below(5);
        let mut list = || -> Vec<u32> { (0..edges).map(|_| random.below(3) as u32).collect() };
        let mut call = TurnCall::fitting(list(), list());
        if seed.0 % 10 == 0 {
            call.turns += 1;
        }
        let answer = call.outcome(witness::turns).answer;
        assert_eq!(turned(&call), turn_fields(answer), "{:?}", call);
    }
}

#[test]
fn every_field_of_an_instruction() {
    let mut met = BTreeSet::new();
    for seed in 0..500 {
        let seed = Seed(seed);
        let random = &mut seed.random();
        let call = any_cutting(random);
        let spoilt = CUT_IN_ORDER.into_iter().map(|refusal| {
            let mut call = call.clone();
            spoil_cutting(random, &mut call, refusal);
            call
        });
        for call in [call.clone()].into_iter().chain(spoilt) {
            let fields = cut(&call);
            assert_eq!(fields, numbers::of_cut(call.answer()), "{:?}", call);
            met.insert((fields[0], fields[2]));
        }
    }
    let instructions = [(0, 0), (0, 1), (0, 2)].into_iter();
    let refusals = CUT_IN_ORDER.into_iter().map(|refusal| (refusal, 0));
    assert_eq!(met, instructions.chain(refusals).collect());
}

const C_PROGRAM: &str = r#"
#include <stdio.h>
#include "outline.h"

int main(void)
{
    static const int32_t triangle[] = {0, 0, 4, 2, 7, 4, 2, 1, 5, 7, 1, 5, 0, 0, 7};
    static const int32_t no_film[] = {0, 0, 4, 2, OUTLINE_MOST_FILM + 1};
    uint32_t polygons[3], sequences[3], turns[3], again[3];
    int32_t journal[3 * OUTLINE_JOURNAL_NUMBERS_PER_EDGE];
    int32_t rows[OUTLINE_NUMBERS_PER_ROW];
    outline_sheet sheet = outline_assemble(triangle, 3 * OUTLINE_NUMBERS_PER_EDGE,
                                           polygons, 3, sequences, 3, turns, 3,
                                           journal, 24, rows, 8);
    outline_turned turned = outline_turns(polygons, 3, sequences, 3, again, 3);
    outline_sheet open = outline_assemble(triangle, 10, polygons, 2, sequences, 2,
                                          turns, 2, journal, 24, rows, 8);
    outline_sheet film = outline_assemble(no_film, 5, polygons, 1, sequences, 1,
                                          turns, 1, journal, 24, rows, 8);
    outline_sheet list = outline_assemble(triangle, 15, polygons, 3, sequences, 3,
                                          turns, 2, journal, 24, rows, 8);
    printf("%u %u %u %u %u\n", (unsigned)sheet.refusal, (unsigned)sheet.place,
           (unsigned)sheet.polygons, (unsigned)sheet.peak, (unsigned)sheet.records);
    printf("%u %u %u\n", (unsigned)turned.refusal, (unsigned)turned.place,
           (unsigned)turned.polygons);
    printf("%u %u %u\n", (unsigned)turns[0], (unsigned)turns[1], (unsigned)turns[2]);
    printf("%u %u %u\n", (unsigned)again[0], (unsigned)again[1], (unsigned)again[2]);
    printf("%d %d %d\n", open.refusal == OUTLINE_UNEVEN,
           film.refusal == OUTLINE_FILM_PAST_RANGE,
           list.refusal == OUTLINE_LISTS_DIFFER);
    static const char *const words[] = {"travel", "cut", "lift"};
    for (uint32_t k = 0;; k++) {
        outline_cut flat = outline_flatbed(triangle, 15, polygons, 3, sequences, 3,
                                           turns, 3, k);
        outline_cut roll = outline_roll_feeder(triangle, 15, polygons, 3, sequences,
                                               3, turns, 3, k);
        if (flat.refusal == OUTLINE_PAST_LAST && roll.refusal == OUTLINE_PAST_LAST)
            break;
        printf("%s %g %g %s %g %g\n", words[flat.what], flat.x, flat.y,
               words[roll.what], roll.x, roll.y);
    }
    turns[0] = turns[2];
    outline_cut other = outline_flatbed(triangle, 15, polygons, 3, sequences, 3,
                                        turns, 3, 0);
    sequences[0] = 0, sequences[2] = 1, turns[0] = 0, turns[1] = 2;
    outline_cut broken = outline_flatbed(triangle, 15, polygons, 3, sequences, 3,
                                         turns, 3, 0);
    printf("%d %d\n", other.refusal == OUTLINE_TURNS_DIFFER,
           broken.refusal == OUTLINE_HEAD_NOT_TAIL);
    return 0;
}
"#;

/// What the program prints: the answers, the two turn lists, three refusals; the
/// instructions of both machines; two refusals more.
const C_PRINTED: &str = "\
0 0 1 1 4
0 0 1
2 0 1
2 0 1
1 1 1
travel 0.015625 0.078125 travel 0.078125 -0.015625
cut 0 0 cut 0 0
cut 0.0625 0.03125 cut 0.03125 -0.0625
cut 0.015625 0.078125 cut 0.078125 -0.015625
lift 0 0 lift 0 0
1 1
";

/// What a C program with the header prints, for both kinds of machine, compiled
/// without a complaint and linked with the archive of the tests, or for Arm with
/// the one in `dist/`.
fn printed_by(name: &str, program: &str) -> String {
    let folder = PathBuf::from(env!("CARGO_TARGET_TMPDIR"));
    let archives = [
        (Kind::Own, PathBuf::from(env!("ENGINE_ARCHIVE"))),
        (Kind::Arm, of_repository("dist/aarch64/libdesk.a")),
    ];
    let [own, arm] = archives.map(|(kind, archive)| {
        let program = compiled(kind, &folder, name, program, &archive);
        String::from_utf8(printed(kind, &program, Vec::new())).unwrap()
    });
    assert_eq!(own, arm);
    own
}

#[test]
fn a_c_program_with_the_header() {
    assert_eq!(printed_by("header", C_PROGRAM), C_PRINTED);
}

#[test]
fn the_c_program_of_the_readme() {
    let readme = include_str!("../../../README.md");
    let program = readme.split("```c\n").nth(1).unwrap();
    let program = program.split("```").next().unwrap();
    let printed = printed_by("readme", program);
    let shown = format!("./a.out\n{}```", printed);
    assert!(readme.contains(&shown), "{}", printed);
}

/// The names that an archive exports, as the linker sees them; nothing where
/// there is no such tool.
fn exported(tool: &str, archive: &Path) -> Option<BTreeSet<String>> {
    let output = Command::new(tool)
        .args(["--extern-only", "--defined-only"])
        .arg(archive)
        .output()
        .ok()?;
    assert!(output.status.success(), "{:?}", output);
    let listed = String::from_utf8(output.stdout).unwrap();
    // A line that names a symbol has its address and its kind before it.
    let names = listed.lines().filter_map(|line| line.splitn(3, ' ').nth(2));
    Some(names.map(str::to_string).collect())
}

/// A caller from before numbers and turns were one call fails at the link, since
/// what it calls is there no more.
#[test]
fn nothing_else_is_exported() {
    let archives = [
        PathBuf::from(env!("ENGINE_ARCHIVE")),
        of_repository("dist/x86_64/libdesk.a"),
        of_repository("dist/aarch64/libdesk.a"),
    ];
    let expected = [
        "outline_assemble",
        "outline_flatbed",
        "outline_roll_feeder",
        "outline_turns",
    ];
    let expected = expected.map(str::to_string);
    let own = format!("{}-linux-gnu-nm", std::env::consts::ARCH);
    for archive in archives {
        let tools = [own.as_str(), "nm"];
        let names = tools.iter().find_map(|tool| exported(tool, &archive));
        assert_eq!(names.expect("nm"), BTreeSet::from(expected.clone()));
    }
}
