//! What docs/ROWS.md and its picture show: for drawn sheets the peak of rows
//! beside the numbers that are proved to be enough and the peak of before M-103.

use std::fmt::Write;

use witness::generate::{comb, patchwork, pixels, saw, saws, spiral, squares, Random, Sheet};

/// A sheet that is measured: its family, its name within it, its edges.
pub struct Shape {
    /// Shapes of one family are drawn as one line.
    pub family: &'static str,
    /// What distinguishes it from the others of its family.
    pub name: String,
    /// The list.
    pub sheet: Sheet,
}

impl Shape {
    /// Family and name.
    pub fn title(&self) -> String {
        format!("{}, {}", self.family, self.name)
    }
}

/// The figures of one sheet.
pub struct Measured {
    /// Its family.
    pub family: &'static str,
    /// Its family and its name within it.
    pub title: String,
    /// How many edges it has.
    pub edges: usize,
    /// L: the edges of its longest outline.
    pub longest: usize,
    /// C: the most edges that pass any one point.
    pub passing: usize,
    /// C times F, the whole part of log2 L.
    pub demanded: usize,
    /// 1 + F(C - 2).
    pub bound: usize,
    /// What the sizing function says before L is known.
    pub lent: usize,
    /// The peak of before M-103, where edges were joined then as now.
    pub before: Option<usize>,
    /// The peak that the engine reports.
    pub peak: usize,
}

/// All the shapes, family by family, small to large.
pub fn shapes() -> Vec<Shape> {
    let random = &mut Random::new(9);
    let mut all = Vec::new();
    for order in 2..=11 {
        let sheet = saw(random, order);
        all.push(shape("saw", format!("order {order}"), sheet));
    }
    all.extend(full_saws(random));
    all.extend(saws_near_the_bound());
    for size in [16, 64, 256, 1_024] {
        let sheet = comb(random, size);
        all.push(shape("comb", format!("{size} teeth"), sheet));
    }
    for size in [32, 128, 512, 2_048] {
        let sheet = spiral(random, size);
        all.push(shape("spiral", format!("{size} corners a side"), sheet));
    }
    for side in [4, 8, 16, 32] {
        let sheet = squares(random, side, side);
        all.push(shape("squares", format!("{side} by {side}"), sheet));
    }
    for side in [13, 26, 52] {
        let sheet = pixels(random, side, side, 50, false);
        all.push(shape("pixel art", format!("{side} by {side}"), sheet));
    }
    for side in [4, 8, 16, 32] {
        let sheet = patchwork(random, side, side);
        all.push(shape("many films", format!("{side} by {side}"), sheet));
    }
    all
}

/// Shapes made of teeth, each with the most edges a list may have.
fn full_saws(random: &mut Random) -> Vec<Shape> {
    let teeth = |order: u32| (0..order).rev().map(|halvings| 1 << halvings);
    let one_more = |order| teeth(order).chain([1]).collect::<Vec<usize>>();
    vec![
        full(random, "order 11 and a tooth", &[one_more(11)]),
        full(random, "order 10, twice", &[one_more(10), one_more(10)]),
        full(random, "one tooth", &[vec![2_048]]),
        full(random, "16 teeth, one outline", &[vec![128; 16]]),
        full(random, "128 outlines of 32", &vec![vec![16]; 128]),
        full(random, "1,024 outlines of 4", &vec![vec![2]; 1_024]),
    ]
}

/// Two more of them: the nearest to the bound, and one that needs half as many
/// rows as it has edges with a smaller C.
fn saws_near_the_bound() -> Vec<Shape> {
    let random = &mut Random::new(10);
    let forty_eights = [vec![vec![24]; 85], vec![vec![8]]].concat();
    let sixes = [vec![vec![3]; 682], vec![vec![2]]].concat();
    vec![
        full(random, "85 outlines of 48, one of 16", &forty_eights),
        full(random, "682 outlines of 6, one of 4", &sixes),
    ]
}

fn full(random: &mut Random, name: &str, outlines: &[Vec<usize>]) -> Shape {
    shape("4,096 edges", name.to_string(), saws(random, outlines))
}

/// A sheet with its family and its name.
pub fn shape(family: &'static str, name: String, sheet: Sheet) -> Shape {
    Shape {
        family,
        name,
        sheet,
    }
}

/// The table, in Markdown.
pub fn table(all: &[Measured]) -> String {
    let mut text = String::from(
        "| Sheet | Edges | L | C | C times F | 1 + F(C - 2) | `rows_enough` | Peak before | Peak | Peak of 1 + F(C - 2) |\n\
         |---|--:|--:|--:|--:|--:|--:|--:|--:|--:|\n",
    );
    for m in all {
        let (title, share) = (&m.title, 100 * m.peak / m.bound);
        let numbers = [m.edges, m.longest, m.passing, m.demanded, m.bound, m.lent];
        let numbers = numbers.map(|number| number.to_string()).join(" | ");
        let before = m.before.map_or("-".to_string(), |peak| peak.to_string());
        let peak = m.peak;
        writeln!(
            text,
            "| {title} | {numbers} | {before} | {peak} | {share} % |"
        )
        .unwrap();
    }
    text
}

const COLOURS: [&str; 7] = [
    "#1b6ca8", "#b3411e", "#3c7d3c", "#7a4fa0", "#a07a10", "#555555", "#0f8b8d",
];

/// The plot: on both axes powers of two, across the smaller bound, upwards the
/// peak; a sheet on the slanting line needs every row that the bound gives it.
pub fn plot(all: &[Measured]) -> String {
    let mut text = String::from(
        "<svg xmlns=\"http://www.w3.org/2000/svg\" viewBox=\"0 0 720 640\" \
         font-family=\"sans-serif\" font-size=\"13\">\n\
         <rect width=\"720\" height=\"640\" fill=\"white\"/>\n",
    );
    for power in 0..=15 {
        grid_line(&mut text, power);
    }
    let ((left, low), (right, high)) = (at(1, 1), at(1 << 15, 1 << 15));
    writeln!(text, "<path d=\"M{left:.1} {low:.1}L{right:.1} {high:.1}\" stroke=\"black\" stroke-dasharray=\"5 4\"/>").unwrap();
    text.push_str("<text x=\"330\" y=\"630\" text-anchor=\"middle\">rows that are proved enough: 1 + F(C - 2)</text>\n");
    text.push_str("<text transform=\"translate(16 300) rotate(-90)\" text-anchor=\"middle\">peak: rows that are needed; a ring: before M-103</text>\n");
    let mut families: Vec<&str> = all.iter().map(|m| m.family).collect();
    families.dedup();
    for (place, family) in families.into_iter().enumerate() {
        let of_family: Vec<&Measured> = all.iter().filter(|m| m.family == family).collect();
        draw_family(&mut text, COLOURS[place], &of_family);
        name_family(&mut text, family, COLOURS[place], 60 + 20 * place);
    }
    text.push_str("</svg>\n");
    text
}

/// Where a bound and a peak lie in the picture.
fn at(bound: usize, peak: usize) -> (f64, f64) {
    let step = |number: usize| 37.0 * (number as f64).log2();
    (60.0 + step(bound), 590.0 - step(peak))
}

/// One line across, one upwards, and their numbers.
fn grid_line(text: &mut String, power: u32) {
    let (x, y) = at(1 << power, 1 << power);
    writeln!(
        text,
        "<path d=\"M60 {y:.1}H615M{x:.1} 590V35\" stroke=\"#dddddd\"/>"
    )
    .unwrap();
    if power % 3 == 0 {
        let number = 1_u32 << power;
        writeln!(
            text,
            "<text x=\"54\" y=\"{:.1}\" text-anchor=\"end\">{number}</text>",
            y + 4.0
        )
        .unwrap();
        writeln!(
            text,
            "<text x=\"{x:.1}\" y=\"608\" text-anchor=\"middle\">{number}</text>"
        )
        .unwrap();
    }
}

/// A dot at the peak of each sheet of a family, and a ring at the peak of before
/// where that is another.
fn draw_family(text: &mut String, colour: &str, of_family: &[&Measured]) {
    let mut circle = |bound: usize, peak: usize, look: &str| {
        let (x, y) = at(bound, peak);
        writeln!(text, "<circle cx=\"{x:.1}\" cy=\"{y:.1}\" {look}/>").unwrap();
    };
    let ring = format!("r=\"3.5\" fill=\"none\" stroke=\"{colour}\"");
    let dot = format!("r=\"4\" fill=\"{colour}\"");
    for m in of_family {
        if let Some(before) = m.before.filter(|before| *before != m.peak) {
            circle(m.bound, before, &ring);
        }
        circle(m.bound, m.peak, &dot);
    }
}

/// A family's name beside its colour.
fn name_family(text: &mut String, family: &str, colour: &str, y: usize) {
    let middle = y - 4;
    writeln!(
        text,
        "<circle cx=\"80\" cy=\"{middle}\" r=\"4\" fill=\"{colour}\"/>\n\
         <text x=\"92\" y=\"{y}\">{family}</text>"
    )
    .unwrap();
}
