//! Sheets read from text: what a number and a line may be.

use outline::text::{read_sheet, write_sheet};
use outline::Refusal;

#[test]
fn numbers() {
    for word in ["0", "1", "-1", "10", "9999999", "-9999999", "-1000000"] {
        let sheet = read_sheet(format!("{} 2 3 4 5\n", word).as_bytes());
        assert_eq!(sheet, Ok(vec![word.parse().unwrap(), 2, 3, 4, 5]));
    }
    let malformed = [
        "", "-", "-0", "00", "01", "-01", "+1", "--1", "1-", "12345678", "1.0", "a", "\u{ff11}",
    ];
    for word in malformed {
        let sheet = read_sheet(format!("1 2 3 4 5\n6 7 8 9 {}\n", word).as_bytes());
        assert_eq!(sheet, Err(Refusal::Malformed { line: 2 }), "{:?}", word);
    }
}

#[test]
fn lines() {
    assert_eq!(read_sheet(b""), Ok(Vec::new()));
    let malformed: [&[u8]; 10] = [
        b"\n",
        b"1 2 3 4 5",
        b"1 2 3 4\n",
        b"1 2 3 4 5 6\n",
        b" 1 2 3 4 5\n",
        b"1 2 3 4 5 \n",
        b"1  2 3 4 5\n",
        b"1\t2 3 4 5\n",
        b"1 2 3 4 5\r\n",
        b"\xff\n",
    ];
    for line in malformed {
        let malformed = Refusal::Malformed { line: 1 };
        assert_eq!(read_sheet(line), Err(malformed), "{:?}", line);
    }
}

#[test]
fn what_is_written_is_read_again() {
    let edges = [-1_000_000, 1_000_000, 0, -7, 255, 1, 2, 3, 4, 0];
    assert_eq!(
        read_sheet(write_sheet(&edges).as_bytes()),
        Ok(edges.to_vec())
    );
    assert_eq!(write_sheet(&[1, 2, 3, 4]), "");
}

/// The program's limits are not kept: the engine's own list is longer.
#[test]
fn more_lines_than_the_program_reads() {
    let text = "1 2 3 4 5\n".repeat(4_096);
    assert_eq!(
        read_sheet(text.as_bytes()).map(|edges| edges.len()),
        Ok(5 * 4_096)
    );
}
