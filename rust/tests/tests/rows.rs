//! The sizing function against the bounds that are proved: C is what the witness
//! counts, the list's length stands for the longest outline, and so many rows
//! always suffice; the peak is exact, and no larger than before M-103 where edges
//! were joined then as now.

use std::collections::BTreeMap;
use std::path::Path;
use std::{env, fs};

use tests::before::{kept, sheets};
use tests::held::{assemble, refusal};
use tests::rows::{plot, shapes, table, Measured, Shape};
use witness::call::Call;
use witness::declared::{longest, passing, rows_of_demand_3, sufficient_rows};
use witness::generate::{any, squares, Random, Seed, Sheet};
use witness::geometry::read_edges;
use witness::Answer;

/// The whole part of log2, by doubling.
fn whole_log2(number: usize) -> usize {
    (1..).find(|power| 1 << power > number).unwrap() - 1
}

/// Checks a sheet; gives its peak.
fn check(random: &mut Random, sheet: &Sheet) -> usize {
    let edges = read_edges(sheet);
    let enough = outline::rows_enough(sheet);
    if edges.is_empty() {
        assert_eq!(enough, 0);
        return 0;
    }
    let (most, longest) = (passing(&edges), longest(&edges));
    assert_eq!(enough, 1 + whole_log2(edges.len()) * (most - 2));
    let by_longest = 1 + whole_log2(longest) * (most - 2);
    assert!(by_longest <= enough && by_longest <= most * whole_log2(longest));
    match assemble(random, &Call::fitting(sheet.clone(), by_longest)) {
        Answer::Accepted { peak, .. } => peak as usize,
        Answer::Refused(refusal) => panic!("with {} rows: {:?}", by_longest, refusal),
    }
}

#[test]
fn rows_enough_for_every_shape() {
    for seed in 0..3_000 {
        let seed = Seed(seed);
        let random = &mut seed.random();
        let sheet = any(random);
        let peak = check(random, &sheet);
        assert!(2 * peak <= read_edges(&sheet).len());
    }
}

/// The sheets are those whose peaks of before are kept, none more and none
/// fewer; none has four edges of one film at a point. With as many rows as before
/// each is accepted, and many with one fewer.
#[test]
fn no_peak_is_larger_than_before() {
    let random = &mut Random::new(12);
    let (mut kept, mut fallen) = (kept(), BTreeMap::new());
    for shape in sheets() {
        let title = shape.title();
        let before = kept.remove(&title).expect(&title);
        assert_eq!(read_edges(&shape.sheet).len(), before.edges, "{title}");
        match assemble(random, &Call::fitting(shape.sheet, before.peak)) {
            Answer::Accepted { peak, .. } => {
                *fallen.entry(before.peak - peak as usize).or_insert(0) += 1;
            }
            Answer::Refused(refusal) => panic!("{title}: {refusal:?}"),
        }
    }
    assert!(kept.is_empty(), "no sheets: {:?}", kept.keys());
    assert_eq!(fallen, BTreeMap::from([(0, 187), (1, 128)]));
}

/// Hartley's saws and the drawn shapes up to the most edges: the peak is exact,
/// and the figures and the picture of docs/ROWS.md are these. With ROWS_WRITE
/// set they are written there.
#[test]
fn peaks_and_the_bound() {
    let (random, kept) = (&mut Random::new(13), kept());
    let mut all = Vec::new();
    for shape in shapes() {
        let before = kept.get(&shape.title()).map(|kept| kept.peak);
        all.push(measured(random, shape, before));
    }
    let documents = Path::new(env!("CARGO_MANIFEST_DIR")).join("../../docs");
    let (page, picture) = (documents.join("ROWS.md"), documents.join("rows.svg"));
    let text = fs::read_to_string(&page).unwrap();
    let begins = text.find("| Sheet |").expect("the table begins");
    let length = text[begins..].find("\n\n").expect("the table ends") + 1;
    if env::var_os("ROWS_WRITE").is_some() {
        let (before, after) = (&text[..begins], &text[begins + length..]);
        fs::write(&page, format!("{before}{}{after}", table(&all))).unwrap();
        fs::write(&picture, plot(&all)).unwrap();
        return;
    }
    assert_eq!(&text[begins..begins + length], table(&all));
    assert_eq!(fs::read_to_string(&picture).unwrap(), plot(&all));
}

/// The figures of a sheet. Its peak suffices, one row fewer is refused.
fn measured(random: &mut Random, shape: Shape, before: Option<usize>) -> Measured {
    let (title, sheet) = (shape.title(), shape.sheet);
    let peak = check(random, &sheet);
    let exactly = Call::fitting(sheet.clone(), peak);
    assert_eq!(refusal(assemble(random, &exactly)), 0);
    let one_fewer = Call::fitting(sheet.clone(), peak - 1);
    assert_eq!(refusal(assemble(random, &one_fewer)), 10);
    let edges = read_edges(&sheet);
    Measured {
        family: shape.family,
        title,
        edges: edges.len(),
        longest: longest(&edges),
        passing: passing(&edges),
        demanded: rows_of_demand_3(&edges),
        bound: sufficient_rows(&edges),
        lent: outline::rows_enough(&sheet),
        before,
        peak,
    }
}

/// Two squares side by side: L is an outline's 4 edges, not the list's 8, and
/// the bound is smaller for it.
#[test]
fn the_longest_outline_is_not_the_list() {
    let sheet = squares(&mut Random::new(3), 2, 1);
    let edges = read_edges(&sheet);
    assert_eq!((edges.len(), longest(&edges)), (8, 4));
    assert_eq!(passing(&edges), 4);
    assert_eq!(rows_of_demand_3(&edges), 4 * 2);
    assert_eq!(sufficient_rows(&edges), 1 + 2 * 2);
    assert_eq!(outline::rows_enough(&sheet), 1 + 3 * 2);
}

/// A lozenge: two edges pass each of its points above the lowest. With both ends
/// closed the edge that begins at a corner would be counted with the one that
/// ends there, and C would be 3.
#[test]
fn an_edge_does_not_pass_its_lower_end() {
    let lozenge = [1, 0, 2, 1, 0, 0, 1, 1, 0, 0, 1, 2, 0, 1, 0, 2, 1, 1, 2, 0];
    let edges = read_edges(&lozenge);
    let closed = |point| {
        edges
            .iter()
            .filter(|e| e.bottom() <= point && e.top() >= point)
            .count()
    };
    let most_closed = edges.iter().map(|edge| closed(edge.top())).max();
    assert_eq!((passing(&edges), most_closed), (2, Some(3)));
    assert_eq!(outline::rows_enough(&lozenge), 1);
}

/// Lists that are refused anyway get some number, and no panic: also where no
/// point is passed by two edges, or by one.
#[test]
fn any_list_has_an_answer() {
    assert_eq!(outline::rows_enough(&[1, 2, 3, 4]), 0);
    assert_eq!(outline::rows_enough(&vec![0; 5 * 4_097]), 0);
    assert_eq!(outline::rows_enough(&[7; 20]), 1);
    assert_eq!(outline::rows_enough(&[0, 0, 1, 1, 0, 5, 5, 6, 6, 0]), 1);
    for seed in 0..2_000 {
        let seed = Seed(seed);
        let random = &mut seed.random();
        let length = random.below(60);
        let list: Vec<i32> = (0..length).map(|_| random.draw() as i32).collect();
        assert!(outline::rows_enough(&list) <= length * 4);
    }
}
