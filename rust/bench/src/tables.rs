//! The tables, in Markdown, each with the words that say what it shows.

use witness::generate::Random;

use crate::chart::Group;
use crate::compare::{self, Named};
use crate::cutting::Cutting;
use crate::rivals::{Desk, Desks, ENGINE, FAST, FEW_ROWS, HASHED};
use crate::sheets::{Shape, LARGEST, SHAPES};
use crate::timing::Rounds;

/// What the first table shows.
const ASSEMBLING: &str = "\
Numbers and turns in one call (`outline_assemble`), in nanoseconds an edge, the best
of all rounds over different sheets of a shape, in each size as many as have about
4,096 edges together; edges and peak are those of the first. Engine, hash map and fast
joiner check the same refusals and fill the same three lists; the engine clears and
fills the rest of what is lent too, with as many rows as the sheet's peak. The fast
joiner is the hash map with a multiplying hasher instead of std's. The three are timed
in turn, round after round; the middle of the rounds is that of engine / hash map
within each round. Growth is the engine's time an edge beside that of the shape's
first line.

| sheet | edges | peak | engine | hash map | fast joiner | engine / hash map | middle of rounds | engine / fast joiner | growth |
|---|--:|--:|--:|--:|--:|--:|--:|--:|--:|";

/// What the second table shows.
const WITNESS: &str = "\
The same call by the witness, in nanoseconds an edge: it checks the same refusals and
fills all that is lent as the engine does. Its two sweeps are timed once more without
its checks and its turn list; they find the corners that are apart for themselves. The
engine's times are those of the first table.

| sheet | edges | engine | witness | its sweeps | engine / witness | engine / its sweeps |
|---|--:|--:|--:|--:|--:|--:|";

/// What the third table shows.
const TURN_LISTS: &str = "\
The turn list read from the same numbers, as if they came from elsewhere
(`outline_turns`), in nanoseconds an edge; both check refusals 11 to 14. Beside it
the same list laid by the engine inside `outline_assemble`, where it knows the numbers.

| sheet | edges | engine | witness | engine / witness | growth | inside the call | inside / engine |
|---|--:|--:|--:|--:|--:|--:|--:|";

/// What the fourth table shows.
const INSTRUCTIONS: &str = "\
All instructions of a sheet for the flatbed, a call for each (`outline_flatbed`): in
microseconds a call, and in milliseconds for the whole sheet. Plain Rust does the same
checks in passes over the lists, with no sort.

| sheet | edges | instructions | engine, a call | plain Rust, a call | engine / plain Rust | engine, the sheet | plain Rust, the sheet |
|---|--:|--:|--:|--:|--:|--:|--:|";

/// What the fifth table shows.
const ROWS: &str = "\
Rows lent for pixel art of about 4,096 edges, in microseconds. Much memory is cleared
more slowly between other work than again and again, so beside the engine and the
clearing alone stands both: all of them cleared, then a call that is lent 1,000.

| rows lent | engine | clearing them alone | the rest | clearing them, then a call with 1,000 |
|--:|--:|--:|--:|--:|";

/// A shape in one size, compared and ready to be timed: the edges and the peak of
/// the first sheet, and the edges of all.
pub struct Line {
    shape: &'static Shape,
    size: usize,
    edges: usize,
    peak: usize,
    all: usize,
    desks: Desks,
}

impl Line {
    /// All shapes in all sizes.
    ///
    /// # Panics
    /// When results differ on one of them.
    pub fn all() -> Vec<Line> {
        let of_shape = |shape: &'static Shape| {
            let sizes = shape.sizes.iter();
            sizes.map(move |size| Line::of(shape, *size))
        };
        SHAPES.iter().flat_map(of_shape).collect()
    }

    fn of(shape: &'static Shape, size: usize) -> Line {
        let sheets = shape.sheets(size).into_iter().zip(1..);
        let desks = Desks::new(sheets.map(|(sheet, number)| {
            let name = format!("{} of about {} edges, sheet {}", shape.name, size, number);
            let _named = Named(name);
            let peak = compare::sheet(&mut Random::new(number), &sheet);
            (sheet, peak)
        }));
        let ((edges, peak), all) = (desks.first(), desks.count());
        Line {
            shape,
            size,
            edges,
            peak,
            all,
            desks,
        }
    }

    /// A time for one of the edges.
    fn an_edge(&self, time: f64) -> f64 {
        time / self.all as f64
    }

    /// Whether it is the shape's first.
    fn is_first(&self) -> bool {
        self.size == self.shape.sizes[0]
    }
}

/// The first table; gives all that was measured for it.
pub fn assembling(lines: &mut [Line], rounds: usize) -> Vec<Rounds<3>> {
    println!("{}", ASSEMBLING);
    let (mut all, mut first) = (Vec::new(), 0.0);
    for line in lines {
        let times = line.desks.time_in_turn(rounds);
        let an_edge = |rival: usize| line.an_edge(times.best(rival));
        if line.is_first() {
            first = an_edge(ENGINE);
        }
        println!(
            "| {} | {} | {} | {:.1} | {:.1} | {:.1} | {:.2} | {:.2} | {:.2} | {:.2} |",
            line.shape.name,
            line.edges,
            line.peak,
            an_edge(ENGINE),
            an_edge(HASHED),
            an_edge(FAST),
            times.ratio(ENGINE, HASHED),
            times.middle_ratio(ENGINE, HASHED),
            times.ratio(ENGINE, FAST),
            an_edge(ENGINE) / first
        );
        all.push(times);
    }
    all
}

/// What the picture shows of the first table: its lines of the largest size.
pub fn groups(lines: &[Line], times: &[Rounds<3>]) -> Vec<Group> {
    let all = lines.iter().zip(times);
    let largest = all.filter(|(line, _)| line.size == LARGEST);
    let group = |(line, times): (&Line, &Rounds<3>)| Group {
        name: line.shape.name,
        times: [ENGINE, HASHED, FAST].map(|rival| line.an_edge(times.best(rival))),
    };
    largest.map(group).collect()
}

/// The second table, with the engine's times of the first.
pub fn witness(lines: &mut [Line], times: &[Rounds<3>]) {
    println!("\n{}", WITNESS);
    for (line, times) in lines.iter_mut().zip(times) {
        let [witness, sweeps] = line.desks.time_witness();
        let engine = times.best(ENGINE);
        println!(
            "| {} | {} | {:.1} | {:.1} | {:.1} | {:.2} | {:.2} |",
            line.shape.name,
            line.edges,
            line.an_edge(engine),
            line.an_edge(witness),
            line.an_edge(sweeps),
            engine / witness,
            engine / sweeps
        );
    }
}

/// The third table.
pub fn turn_lists(lines: &mut [Line]) {
    println!("\n{}", TURN_LISTS);
    let mut first = 0.0;
    for line in lines {
        let [engine, witness] = line.desks.time_turns();
        let laid = line.desks.time_laying();
        let inside = laid.map_or("not timed | ".to_string(), |laying| {
            format!("{:.1} | {:.2}", line.an_edge(laying), laying / engine)
        });
        if line.is_first() {
            first = line.an_edge(engine);
        }
        println!(
            "| {} | {} | {:.1} | {:.1} | {:.2} | {:.2} | {} |",
            line.shape.name,
            line.edges,
            line.an_edge(engine),
            line.an_edge(witness),
            engine / witness,
            line.an_edge(engine) / first,
            inside
        );
    }
}

/// The fourth table: the largest sheets.
pub fn instructions() {
    println!("\n{}", INSTRUCTIONS);
    let large = |shape: &&Shape| shape.sizes.contains(&LARGEST);
    for shape in SHAPES.iter().filter(large) {
        let cutting = Cutting::of(&shape.sheets(LARGEST)[0]);
        let (engine, plain) = (cutting.time_engine(), cutting.time_plain());
        let a_call = |time: f64| time / 1e3 / f64::from(cutting.count);
        println!(
            "| {} | {} | {} | {:.2} | {:.2} | {:.2} | {:.1} | {:.1} |",
            shape.name,
            cutting.edges(),
            cutting.count,
            a_call(engine),
            a_call(plain),
            engine / plain,
            engine / 1e6,
            plain / 1e6
        );
    }
}

/// The fifth table: a thousand rows lent and a million, with what clearing them
/// costs by itself.
pub fn rows(rounds: usize) {
    println!("\n{}", ROWS);
    let sheet = &SHAPES[0].sheets(LARGEST)[0];
    for rows in [FEW_ROWS, 1_000_000] {
        compare::with_rows(&mut Random::new(1), sheet, rows);
        let times = Desk::new(sheet.clone(), rows).time_clearing(rounds);
        let [engine, clearing, both] = [0, 1, 2].map(|rival| times.best(rival) / 1e3);
        let rest = engine - clearing;
        println!("| {rows} | {engine:.0} | {clearing:.0} | {rest:.0} | {both:.0} |");
    }
}
