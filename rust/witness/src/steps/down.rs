//! "The sweep down" of document 01: the journal read from its last record to
//! its first, every row holding the numbers last given to it. Where a record is
//! named by its own chain's row, that row is read before it is given the record's
//! numbers. Only for a journal that the sweep up has written.

use crate::numbering::Numbering;

use super::{Record, NO_ROW};

/// Numbers this many edges from the journal.
pub fn sweep_down(records: &[Record], edges: usize) -> Numbering {
    let mut numbering = Numbering::blank(edges);
    let mut given = vec![(0, 0); rows_named(records)];
    for record in records.iter().rev() {
        let (polygon, sequence) = if record.row == NO_ROW {
            numbering.count += 1;
            (numbering.count, record.offset)
        } else {
            let (polygon, sequence) = given[record.row as usize];
            (polygon, sequence + record.offset)
        };
        let name = record.name as usize;
        if record.level == 0 {
            numbering.polygons[name] = polygon;
            numbering.sequences[name] = sequence as u32;
        } else {
            given[name] = (polygon, sequence);
        }
    }
    numbering
}

/// One more than the greatest row that is anywhere spoken of.
fn rows_named(records: &[Record]) -> usize {
    let above = |record: &&Record| record.level > 0;
    let names = records.iter().filter(above).map(|record| record.name);
    let greatest = names.max().unwrap_or(NO_ROW);
    (greatest + 1) as usize
}
