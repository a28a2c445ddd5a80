//! The engine and the program for Arm Linux, as they are in `dist/`: outside
//! what the prover speaks of, so every number of every slice that a call leaves,
//! and every byte that the program prints, is held against the witness. They are
//! run by the machine, or by an emulator where it is of the other kind.

use std::collections::BTreeSet;
use std::fs::{self, File};
use std::io::Write;
use std::path::PathBuf;
use std::process::Stdio;
use std::thread::sleep;
use std::time::Duration;

use tests::c::{arm_command, compiled, of_repository, printed, Kind};
use tests::numbers;
use tests::process::program;
use witness::call::{Call, CutCall, TurnCall};
use witness::checks::IN_ORDER;
use witness::generate::{
    any, any_cutting, chessboard, comb, damaged, mosaic, spoil_cutting, Random, Seed,
};
use witness::instructions::CUT_IN_ORDER;
use witness::text::{MOST_BYTES, MOST_LINES};
use witness::vectors::{all_cases, Work};
use witness::Machine;

/// Makes calls as they are written on standard input, 32 bits a number: which
/// function, then each slice with its length before it. Writes the numbers of
/// each answer and of all slices.
const CALLS: &str = r#"
#include <stdio.h>
#include <stdlib.h>
#include <string.h>
#include "outline.h"

enum { MOST = 6 };

static uint32_t *slices[MOST];
static uint32_t lengths[MOST];

static uint32_t number(void)
{
    uint32_t n;
    if (fread(&n, sizeof n, 1, stdin) != 1)
        exit(1);
    return n;
}

static void take(int count)
{
    for (int k = 0; k < count; k++) {
        lengths[k] = number();
        slices[k] = malloc(4 * (size_t)lengths[k] + 1);
        if (slices[k] == NULL || fread(slices[k], 4, lengths[k], stdin) != lengths[k])
            exit(1);
    }
}

static void give(const void *answer, size_t bytes, int count)
{
    fwrite(answer, 1, bytes, stdout);
    for (int k = 0; k < count; k++) {
        fwrite(slices[k], 4, lengths[k], stdout);
        free(slices[k]);
    }
}

int main(void)
{
    uint32_t which;
    while (fread(&which, sizeof which, 1, stdin) == 1) {
        if (which == 0) {
            take(6);
            outline_sheet sheet = outline_assemble((int32_t *)slices[0], lengths[0],
                slices[1], lengths[1], slices[2], lengths[2], slices[3], lengths[3],
                (int32_t *)slices[4], lengths[4], (int32_t *)slices[5], lengths[5]);
            give(&sheet, sizeof sheet, 6);
        } else if (which == 1) {
            take(3);
            outline_turned turned = outline_turns(slices[0], lengths[0], slices[1],
                lengths[1], slices[2], lengths[2]);
            give(&turned, sizeof turned, 3);
        } else {
            take(4);
            outline_cut cut = (which == 2 ? outline_flatbed : outline_roll_feeder)(
                (int32_t *)slices[0], lengths[0], slices[1], lengths[1], slices[2],
                lengths[2], slices[3], lengths[3], number());
            give(&cut, sizeof cut, 4);
        }
    }
    return 0;
}
"#;

/// Calls that are to be made, and the numbers that must come of each.
#[derive(Default)]
struct Calls {
    made: Vec<u32>,
    wanted: Vec<(String, Vec<u32>)>,
}

fn unsigned(numbers: &[i32]) -> Vec<u32> {
    numbers.iter().map(|number| *number as u32).collect()
}

impl Calls {
    /// Notes a call of a function with its slices and a last number, and its
    /// outcome.
    fn add(&mut self, which: u32, before: &[Vec<u32>], last: Option<u32>, after: Vec<u32>) {
        self.made.push(which);
        for slice in before {
            self.made.push(slice.len() as u32);
            self.made.extend(slice);
        }
        self.made.extend(last);
        let call = format!("function {which} on {before:?}, {last:?}");
        self.wanted.push((call, after));
    }

    fn assemble(&mut self, call: &Call) {
        let edges = unsigned(&call.edges);
        let fill = |length| vec![call.fill as u32; length];
        let lent = [
            edges.clone(),
            fill(call.polygons),
            fill(call.sequences),
            fill(call.turns),
            fill(call.journal),
            fill(call.rows),
        ];
        let left = call.outcome(witness::assemble);
        let after = [
            numbers::of_sheet(left.answer).to_vec(),
            edges,
            left.polygons,
            left.sequences,
            left.turns,
            unsigned(&left.journal),
            unsigned(&left.rows),
        ];
        self.add(0, &lent, None, after.concat());
    }

    fn turns(&mut self, call: &TurnCall) {
        let (polygons, sequences) = (&call.polygons, &call.sequences);
        let list = vec![call.fill; call.turns];
        let left = call.outcome(witness::turns);
        let answer = numbers::of_turned(left.answer);
        let after = [&answer[..], polygons, sequences, &left.turns].concat();
        let lent = [polygons.clone(), sequences.clone(), list];
        self.add(1, &lent, None, after);
    }

    fn cut(&mut self, call: &CutCall) {
        let lent = [
            unsigned(&call.edges),
            call.polygons.clone(),
            call.sequences.clone(),
            call.turns.clone(),
        ];
        let after = [&numbers::of_cut(call.answer())[..], &lent.concat()].concat();
        let which = match call.machine {
            Machine::Flatbed => 2,
            Machine::RollFeeder => 3,
        };
        self.add(which, &lent, Some(call.k), after);
    }

    /// Has the archive for Arm answer them all.
    fn check(&self, name: &str) {
        let folder = PathBuf::from(env!("CARGO_TARGET_TMPDIR"));
        let archive = of_repository("dist/aarch64/libdesk.a");
        let program = compiled(Kind::Arm, &folder, name, CALLS, &archive);
        let input = self.made.iter().flat_map(|n| n.to_le_bytes()).collect();
        let output = printed(Kind::Arm, &program, input);
        let mut given = output
            .chunks(4)
            .map(|word| u32::from_le_bytes([word[0], word[1], word[2], word[3]]));
        for (call, wanted) in &self.wanted {
            let given: Vec<u32> = given.by_ref().take(wanted.len()).collect();
            assert!(given == *wanted, "{given:?}, not {wanted:?}, from {call}");
        }
        assert_eq!(given.next(), None);
    }
}

#[test]
fn assembling_calls() {
    let mut calls = Calls::default();
    for seed in 0..150 {
        let random = &mut Seed(seed).random();
        let edges = any(random);
        let rows = outline::rows_enough(&edges);
        calls.assemble(&Call::fitting(edges, rows));
        for refusal in IN_ORDER.into_iter().filter(|refusal| *refusal != 2) {
            calls.assemble(&damaged(random, refusal));
        }
    }
    let random = &mut Random::new(0);
    calls.assemble(&damaged(random, 2));
    for edges in [comb(random, 1_024), chessboard(random, 2, 1_023)] {
        let rows = outline::rows_enough(&edges);
        calls.assemble(&Call::fitting(edges, rows));
    }
    calls.check("arm-assembling");
}

#[test]
fn turn_lists() {
    let mut calls = Calls::default();
    for seed in 0..2_000 {
        let random = &mut Seed(seed).random();
        let edges = random.below(5);
        let mut list = || -> Vec<u32> { (0..edges).map(|_| random.below(3) as u32).collect() };
        let mut call = TurnCall::fitting(list(), list());
        call.turns += usize::from(seed % 10 == 0);
        calls.turns(&call);
    }
    calls.check("arm-turns");
}

#[test]
fn instructions() {
    let mut calls = Calls::default();
    let mut met = BTreeSet::new();
    for seed in 0..300 {
        let random = &mut Seed(seed).random();
        let call = any_cutting(random);
        calls.cut(&call);
        for refusal in CUT_IN_ORDER {
            let mut spoilt = call.clone();
            spoil_cutting(random, &mut spoilt, refusal);
            calls.cut(&spoilt);
            met.insert((refusal, call.machine == Machine::Flatbed));
        }
    }
    assert_eq!(met.len(), 2 * CUT_IN_ORDER.len());
    calls.check("arm-instructions");
}

/// The program for Arm and the witness agree on an input.
fn check(input: &[u8]) {
    let given = printed(
        Kind::Arm,
        &of_repository("dist/aarch64/outline"),
        input.to_vec(),
    );
    let wanted = witness::outline(input);
    let [given, wanted] = [&given, &wanted].map(|text| String::from_utf8_lossy(text));
    assert_eq!(given, wanted, "on {:?}", String::from_utf8_lossy(input));
}

#[test]
fn the_program_on_the_samples() {
    for sample in ["portrait", "touching", "triangle"] {
        let sheet = fs::read(of_repository(&format!("samples/{sample}.txt"))).unwrap();
        check(&sheet);
        let arm = of_repository("dist/aarch64/outline");
        let given = printed(Kind::Arm, &arm, sheet.clone());
        assert_eq!(given, printed(Kind::Own, &program(), sheet), "{sample}");
    }
}

#[test]
fn the_program_on_the_cases_of_the_vectors() {
    let arm = of_repository("dist/aarch64/outline");
    for case in &all_cases().unwrap() {
        if let Work::Program(input, expected) = &case.work {
            case.check_printed(&printed(Kind::Arm, &arm, input.clone()), expected);
        }
    }
}

#[test]
fn the_program_on_sheets_of_all_sizes() {
    for seed in 0..20 {
        let random = &mut Seed(seed).random();
        check(outline::text::write_sheet(&any(random)).as_bytes());
        let sheet = mosaic(random, 8, 8, &[0, 1, 255], true);
        check(outline::text::write_sheet(&sheet).as_bytes());
    }
    check(b"");
    check(&"1 1 0 0 255\n".repeat(MOST_LINES).into_bytes());
    for bytes in [MOST_BYTES, MOST_BYTES + 1, 5 * MOST_BYTES] {
        check(&vec![b'1'; bytes]);
    }
}

/// Input that comes in pieces, that cannot be read, and output that cannot be
/// written: as the program for x86-64 does.
#[test]
fn the_program_where_reading_or_writing_fails() {
    let arm = of_repository("dist/aarch64/outline");
    let mut started = arm_command(&arm);
    let mut child = started
        .stdin(Stdio::piped())
        .stdout(Stdio::piped())
        .spawn()
        .unwrap();
    let mut input = child.stdin.take().unwrap();
    for piece in ["0 0 4 2 0\n4 ", "2 1 5 0\n1 5 0 0", " 0\n"] {
        input.write_all(piece.as_bytes()).unwrap();
        sleep(Duration::from_millis(30));
    }
    drop(input);
    let numbered = child.wait_with_output().unwrap().stdout;
    assert_eq!(numbered, b"accepted 1 1 4\n2 1 0\n1 1 2\n0 1 1\n");

    let full = File::options().write(true).open("/dev/full").unwrap();
    let runs = [
        (
            File::open("/").unwrap(),
            Stdio::piped(),
            "outline: standard input cannot be read\n",
        ),
        (
            File::open("/dev/null").unwrap(),
            full.into(),
            "outline: standard output cannot be written\n",
        ),
    ];
    for (input, output, complaint) in runs {
        let child = arm_command(&arm)
            .stdin(input)
            .stdout(output)
            .stderr(Stdio::piped())
            .spawn()
            .unwrap();
        let ran = child.wait_with_output().unwrap();
        assert_eq!(String::from_utf8_lossy(&ran.stderr), complaint);
        assert!(ran.status.success() && ran.stdout.is_empty());
    }
}
