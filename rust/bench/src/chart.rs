//! The picture of the first table: for each shape at its largest a bar for each
//! rival, as long as its time an edge. Plain SVG on a ground of its own, so that
//! it is read as well on a dark page as on a light one.

use std::fmt::Write;

/// A shape and the rivals' times an edge, in nanoseconds.
pub struct Group {
    /// The shape's name.
    pub name: &'static str,
    /// The times, in the order of the rivals.
    pub times: [f64; 3],
}

/// The rivals with their colours.
const RIVALS: [(&str, &str); 3] = [
    ("engine", "#1b6ca8"),
    ("hash map", "#c8792b"),
    ("fast joiner", "#8b95a1"),
];

/// Where the bars begin, how long the longest may be, and the picture's width.
const LEFT: f64 = 112.0;
const LONGEST: f64 = 620.0;
const WIDTH: f64 = 800.0;

/// How a time behind its bar is written: small, and clear of the axis's lines.
const BEHIND: &str =
    "font-size=\"11\" stroke=\"#ffffff\" stroke-width=\"3\" paint-order=\"stroke\"";

/// Where the first group begins, and the heights of a bar and of a group.
const TOP: f64 = 84.0;
const BAR: f64 = 15.0;
const GROUP: f64 = 3.0 * BAR + 15.0;

/// The picture of some groups, with a line that says what they show.
pub fn draw(title: &str, groups: &[Group]) -> String {
    let bottom = TOP + GROUP * groups.len() as f64;
    let height = bottom + 52.0;
    let mut text = format!(
        "<svg xmlns=\"http://www.w3.org/2000/svg\" viewBox=\"0 0 {WIDTH} {height}\" role=\"img\" \
         font-family=\"sans-serif\" font-size=\"13\" fill=\"#1d2939\">\n\
         <title>{title}</title>\n\
         <rect width=\"{WIDTH}\" height=\"{height}\" fill=\"#ffffff\"/>\n\
         <text x=\"16\" y=\"28\" font-size=\"15\" font-weight=\"bold\">{title}</text>\n"
    );
    name_rivals(&mut text);
    let times = groups.iter().flat_map(|group| group.times);
    let axis = Axis::of(times.fold(0.0, f64::max));
    axis.draw(&mut text, bottom);
    for (place, group) in groups.iter().enumerate() {
        draw_group(&mut text, &axis, TOP + GROUP * place as f64, group);
    }
    text.push_str("</svg>\n");
    text
}

/// The rivals' names beside their colours, in a line.
fn name_rivals(text: &mut String) {
    for (place, (name, colour)) in RIVALS.iter().enumerate() {
        let x = LEFT + 120.0 * place as f64;
        let after = x + 18.0;
        writeln!(
            text,
            "<rect x=\"{x}\" y=\"45\" width=\"12\" height=\"12\" fill=\"{colour}\"/>\
             <text x=\"{after}\" y=\"56\">{name}</text>"
        )
        .unwrap();
    }
}

/// The axis: lines so many nanoseconds apart, from none to the last.
struct Axis {
    step: f64,
    last: f64,
}

impl Axis {
    /// The axis for times up to the longest: at most eight lines, one, two or five
    /// times a power of ten apart.
    fn of(longest: f64) -> Axis {
        let powers = (0..).map(|power| 10_f64.powi(power));
        let mut steps = powers.flat_map(|power| [power, 2.0 * power, 5.0 * power]);
        let step = steps.find(|step| 8.0 * step >= longest).unwrap_or(longest);
        let last = step * (longest / step).ceil().max(1.0);
        Axis { step, last }
    }

    /// How far a time reaches.
    fn reach(&self, time: f64) -> f64 {
        LONGEST * time / self.last
    }

    /// Draws the lines down to the bottom, with their numbers and what they are.
    fn draw(&self, text: &mut String, bottom: f64) {
        for line in 0..=(self.last / self.step) as usize {
            let time = self.step * line as f64;
            let (x, top, below) = (LEFT + self.reach(time), TOP - 8.0, bottom + 16.0);
            writeln!(
                text,
                "<path d=\"M{x:.1} {top}V{bottom}\" stroke=\"#d5dae0\"/>\
                 <text x=\"{x:.1}\" y=\"{below}\" text-anchor=\"middle\" fill=\"#475467\">{time}</text>"
            )
            .unwrap();
        }
        let (middle, below) = (LEFT + LONGEST / 2.0, bottom + 38.0);
        writeln!(
            text,
            "<text x=\"{middle}\" y=\"{below}\" text-anchor=\"middle\">nanoseconds an edge</text>"
        )
        .unwrap();
    }
}

/// A shape's name and its bars, each with its time behind it.
fn draw_group(text: &mut String, axis: &Axis, top: f64, group: &Group) {
    let (x, middle) = (LEFT - 10.0, top + 1.5 * BAR + 4.5);
    let name = group.name;
    writeln!(
        text,
        "<text x=\"{x}\" y=\"{middle}\" text-anchor=\"end\">{name}</text>"
    )
    .unwrap();
    for (place, (time, (_, colour))) in group.times.iter().zip(RIVALS).enumerate() {
        let (y, length) = (top + BAR * place as f64, axis.reach(*time));
        let (end, thick, base) = (LEFT + length + 5.0, BAR - 2.0, y + 11.0);
        writeln!(
            text,
            "<rect x=\"{LEFT}\" y=\"{y}\" width=\"{length:.1}\" height=\"{thick}\" fill=\"{colour}\"/>\
             <text x=\"{end:.1}\" y=\"{base}\" {BEHIND}>{time:.1}</text>"
        )
        .unwrap();
    }
}

#[cfg(test)]
mod tests {
    use super::*;

    #[test]
    fn every_bar_has_its_length_and_its_time() {
        let group = |name, times| Group { name, times };
        let groups = [
            group("comb", [100.0, 50.0, 25.0]),
            group("saw", [200.0, 60.5, 40.0]),
        ];
        let picture = draw("Times", &groups);
        assert!(picture.starts_with("<svg ") && picture.ends_with("</svg>\n"));
        for word in ["comb", "saw", "engine", "hash map", "fast joiner", "60.5"] {
            assert!(picture.contains(&format!(">{word}<")), "{word}");
        }
        for (time, width) in [(100.0, "310.0"), (200.0, "620.0"), (25.0, "77.5")] {
            assert!(picture.contains(&format!("width=\"{width}\"")), "{time}");
        }
    }

    #[test]
    fn an_axis_of_few_round_steps_holds_every_time() {
        for (longest, step, last) in [
            (0.5, 1.0, 1.0),
            (61.0, 10.0, 70.0),
            (1_234.5, 200.0, 1_400.0),
        ] {
            let axis = Axis::of(longest);
            assert_eq!((axis.step, axis.last), (step, last), "{longest}");
        }
    }
}
