//! What is said of each refusal to a person: its word, what is wrong, what to do.

/// What is said of a refusal.
pub struct Saying {
    number: u32,
    /// Its word, as docs/REFUSALS.md has it.
    pub word: &'static str,
    /// What is wrong, as the end of a sentence that begins with the edge, the
    /// line or the position that it speaks of, if any.
    pub fault: &'static str,
    /// What to do about it.
    pub remedy: &'static str,
}

/// What is said of the refusal with this number.
pub fn of(number: u32) -> &'static Saying {
    let known = SAYINGS.iter().find(|saying| saying.number == number);
    known.unwrap_or(&UNKNOWN)
}

/// One for each refusal that has a case.
static SAYINGS: [Saying; 20] = [
    Saying {
        number: 1,
        word: "NotWhole",
        fault: "the list ends in the middle of an edge",
        remedy: "give every edge five numbers: tail x, tail y, head x, head y, film",
    },
    Saying {
        number: 2,
        word: "TooMany",
        fault: "the list has more than 4,096 edges",
        remedy: "split the sheet",
    },
    Saying {
        number: 3,
        word: "ListsDiffer",
        fault: "the polygon list, the sequence list or the turn list has not one number for each edge",
        remedy: "make all three as long as there are edges",
    },
    Saying {
        number: 4,
        word: "JournalShort",
        fault: "the journal is too short",
        remedy: "lend it eight numbers or more for each edge",
    },
    Saying {
        number: 5,
        word: "PastRange",
        fault: "has a coordinate below -1,000,000 or above 1,000,000",
        remedy: "move or shrink the drawing",
    },
    Saying {
        number: 6,
        word: "EqualEnds",
        fault: "begins and ends at the same point",
        remedy: "leave it out",
    },
    Saying {
        number: 7,
        word: "TopFalls",
        fault: "has its higher end below the higher end of the edge before it",
        remedy: "sort the edges by the y of their higher ends, and at equal y by the x",
    },
    Saying {
        number: 8,
        word: "Repeated",
        fault: "arrives at a point, or leaves one, on the same side of it as an earlier edge of its film does",
        remedy: "if it is drawn twice leave one out, else move the point apart into two",
    },
    Saying {
        number: 9,
        word: "Uneven",
        fault: "has an end where not as many edges of its film arrive as leave, so that an outline is open there",
        remedy: "add the edge that is missing, or turn round the one that runs the wrong way",
    },
    Saying {
        number: 10,
        word: "NoRow",
        fault: "finds no free row",
        remedy: "lend more rows; rows_enough says how many always do",
    },
    Saying {
        number: 11,
        word: "TurnLengths",
        fault: "the polygon list, the sequence list and the turn list are not equally long, or not as long as there are edges, or longer than 4,096",
        remedy: "lend one number for each edge in all three",
    },
    Saying {
        number: 12,
        word: "NoPolygon",
        fault: "has the polygon number 0",
        remedy: "number polygons from 1",
    },
    Saying {
        number: 13,
        word: "PairRepeated",
        fault: "has the same polygon number and sequence number as an earlier edge",
        remedy: "give each edge of a polygon a sequence number of its own",
    },
    Saying {
        number: 14,
        word: "Gap",
        fault: "comes after a gap: no edge has the sequence number, or the polygon number, one below its own",
        remedy: "number polygons from 1 and the edges of each from 0, leaving none out",
    },
    Saying {
        number: 15,
        word: "Malformed",
        fault: "is malformed",
        remedy: "write five whole numbers of up to seven digits with one space between them, no needless zeros, and a newline after the last",
    },
    Saying {
        number: 16,
        word: "FilmPastRange",
        fault: "has a film below 0 or above 255",
        remedy: "give it one of the 256 films",
    },
    Saying {
        number: 17,
        word: "NotAlternating",
        fault: "has an end where four edges of its film do not arrive and leave by turns going round the point, or where two of them lie in one direction",
        remedy: "film lies to the left of every edge: turn round the outline that runs the wrong way, or move the point apart into two",
    },
    Saying {
        number: 18,
        word: "PastLast",
        fault: "there are not so many instructions",
        remedy: "stop after the last; there are as many as edges, and two more for each outline",
    },
    Saying {
        number: 24,
        word: "TurnsDiffer",
        fault: "has another edge than the numbers put there",
        remedy: "take the turn list that comes with the numbers, or have it read from them",
    },
    Saying {
        number: 25,
        word: "HeadNotTail",
        fault: "does not end where the next edge of its outline begins",
        remedy: "take the numbers and the turn list that belong to these edges",
    },
];

/// What is said of a refusal that this crate does not know.
pub static UNKNOWN: Saying = Saying {
    number: 0,
    word: "Unknown",
    fault: "the engine refuses for a reason that is not known here",
    remedy: "build the program again with the archive that it is used with",
};
