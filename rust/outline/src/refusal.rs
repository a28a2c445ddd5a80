//! Why a list, a numbering, a text or a k is refused: a case for each refusal, with
//! the number that the rules give it, its place, and a sentence that says what
//! is wrong and what to do.

use core::fmt;

use crate::sayings::{self, Saying};

/// A refusal. An edge is named by its place in the list, from 0, and a line of
/// a text by its number, from 1. Shown as text it says which edge is meant, what is
/// wrong with it and what to do; with the feature `std` it is an error.
///
/// ```
/// use outline::{Outlines, Refusal};
///
/// let refusal = Outlines::of(&[0, 0, 4, 2, 7, 5, 5, 5, 5, 7]).unwrap_err();
/// assert_eq!(refusal, Refusal::EqualEnds { edge: 1 });
/// assert_eq!((refusal.number(), refusal.place(), refusal.word()), (6, 1, "EqualEnds"));
/// assert_eq!(
///     refusal.to_string(),
///     "edge 1 (counted from 0) begins and ends at the same point \
///      (refusal 6, EqualEnds): leave it out"
/// );
/// let _error: Box<dyn std::error::Error> = refusal.into();
/// ```
///
/// The names are those of docs/REFUSALS.md, in which each number has one word:
/// the proved engine's own and, in capitals, the C header's. Until that list
/// some were others here: `NotWhole` was `PartOfAnEdge`, `TooMany` was
/// `TooManyEdges`, `ListsDiffer` was `ListLength`, `JournalShort` was
/// `ShortJournal`, `PastRange` was `PastTheRange`, `TopFalls` was `OutOfOrder`,
/// `Repeated` was `KindTaken`, `Uneven` was `OpenEnd`, `NoRow` was `NoFreeRow`,
/// `NoPolygon` was `PolygonZero` and `PairRepeated` was `PairTaken`. Numbers
/// and places are as they were.
#[derive(Clone, Copy, PartialEq, Eq, Hash, Debug)]
#[non_exhaustive]
pub enum Refusal {
    /// 1: the list's length is no multiple of five.
    NotWhole,
    /// 2: the list has more than 4,096 edges.
    TooMany,
    /// 3: the polygon, the sequence or the turn list is not one number an edge.
    ListsDiffer,
    /// 4: the journal is shorter than eight numbers an edge.
    JournalShort,
    /// 5: a coordinate is past the range.
    PastRange {
        /// The first such edge.
        edge: u32,
    },
    /// 6: an edge has equal ends.
    EqualEnds {
        /// The first such edge.
        edge: u32,
    },
    /// 7: the list is not in sweep order.
    TopFalls {
        /// The first edge whose top is below the top before it.
        edge: u32,
    },
    /// 8: two edges of a film arrive at a point, or leave it, on one side.
    Repeated {
        /// The first edge of a film and kind that an earlier edge has at the
        /// same point.
        edge: u32,
    },
    /// 9: at a point not as many edges of a film arrive as leave.
    Uneven {
        /// The first edge of that film with an end at such a point.
        edge: u32,
    },
    /// 10: the rows lent do not suffice.
    NoRow {
        /// The edge that was being treated.
        edge: u32,
    },
    /// 11: the polygon, the sequence and the turn list differ in length, or are
    /// longer than 4,096, or for an instruction are not as long as the edges.
    TurnLengths,
    /// 12: a polygon number is 0.
    NoPolygon {
        /// The first such edge.
        edge: u32,
    },
    /// 13: two edges have the same polygon and sequence number.
    PairRepeated {
        /// The first edge whose pair an earlier edge has.
        edge: u32,
    },
    /// 14: a number is left out, among polygons or within one.
    Gap {
        /// The first edge with no edge one before it.
        edge: u32,
    },
    /// 15: a line of a text is malformed.
    Malformed {
        /// The first such line, from 1.
        line: u32,
    },
    /// 16: a film is past 0 to 255.
    FilmPastRange {
        /// The first such edge.
        edge: u32,
    },
    /// 17: four edges of a film at a point do not alternate arriving and leaving
    /// going round it, or two of them lie in one direction.
    NotAlternating {
        /// The first edge of that film with an end at such a point.
        edge: u32,
    },
    /// 18: there are not so many instructions.
    PastLast,
    /// 24: the turn list is not the one that the numbers give.
    TurnsDiffer {
        /// The first position in the turn list that differs, from 0.
        position: u32,
    },
    /// 25: an outline is not closed: a head is not the tail of the next edge.
    HeadNotTail {
        /// The first such edge in turn order.
        edge: u32,
    },
    /// A number that this crate does not know. It comes only from an archive
    /// that is newer than the crate.
    Unknown {
        /// The refusal's number.
        number: u32,
        /// Its place.
        place: u32,
    },
}

impl Refusal {
    /// The refusal of this number and place; none for number 0, which is no
    /// refusal.
    pub(crate) fn of(number: u32, place: u32) -> Option<Refusal> {
        let edge = place;
        let refusal = match number {
            0 => return None,
            1 => Refusal::NotWhole,
            2 => Refusal::TooMany,
            3 => Refusal::ListsDiffer,
            4 => Refusal::JournalShort,
            5 => Refusal::PastRange { edge },
            6 => Refusal::EqualEnds { edge },
            7 => Refusal::TopFalls { edge },
            8 => Refusal::Repeated { edge },
            9 => Refusal::Uneven { edge },
            10 => Refusal::NoRow { edge },
            11 => Refusal::TurnLengths,
            12 => Refusal::NoPolygon { edge },
            13 => Refusal::PairRepeated { edge },
            14 => Refusal::Gap { edge },
            16 => Refusal::FilmPastRange { edge },
            17 => Refusal::NotAlternating { edge },
            18 => Refusal::PastLast,
            24 => Refusal::TurnsDiffer { position: place },
            25 => Refusal::HeadNotTail { edge },
            _ => Refusal::Unknown { number, place },
        };
        Some(refusal)
    }

    /// The refusal's number in the rules.
    ///
    /// ```
    /// use outline::Refusal;
    ///
    /// assert_eq!(Refusal::TopFalls { edge: 1 }.number(), 7);
    /// ```
    #[must_use]
    pub fn number(self) -> u32 {
        match self {
            Refusal::NotWhole => 1,
            Refusal::TooMany => 2,
            Refusal::ListsDiffer => 3,
            Refusal::JournalShort => 4,
            Refusal::PastRange { .. } => 5,
            Refusal::EqualEnds { .. } => 6,
            Refusal::TopFalls { .. } => 7,
            Refusal::Repeated { .. } => 8,
            Refusal::Uneven { .. } => 9,
            Refusal::NoRow { .. } => 10,
            Refusal::TurnLengths => 11,
            Refusal::NoPolygon { .. } => 12,
            Refusal::PairRepeated { .. } => 13,
            Refusal::Gap { .. } => 14,
            Refusal::Malformed { .. } => 15,
            Refusal::FilmPastRange { .. } => 16,
            Refusal::NotAlternating { .. } => 17,
            Refusal::PastLast => 18,
            Refusal::TurnsDiffer { .. } => 24,
            Refusal::HeadNotTail { .. } => 25,
            Refusal::Unknown { number, .. } => number,
        }
    }

    /// The refusal's place: an edge's place or a position in the turn list from 0,
    /// a line's number from 1, and 0 where it speaks of no single one.
    ///
    /// ```
    /// use outline::Refusal;
    ///
    /// assert_eq!(Refusal::TurnsDiffer { position: 3 }.place(), 3);
    /// assert_eq!(Refusal::NotWhole.place(), 0);
    /// ```
    #[must_use]
    pub fn place(self) -> u32 {
        match self {
            Refusal::Malformed { line } => line,
            Refusal::TurnsDiffer { position } => position,
            Refusal::Unknown { place, .. } => place,
            _ => self.edge().unwrap_or(0),
        }
    }

    /// The edge that the refusal speaks of, if it speaks of one.
    ///
    /// ```
    /// use outline::Refusal;
    ///
    /// assert_eq!(Refusal::TopFalls { edge: 1 }.edge(), Some(1));
    /// assert_eq!(Refusal::NotWhole.edge(), None);
    /// ```
    #[must_use]
    pub fn edge(self) -> Option<u32> {
        match self {
            Refusal::PastRange { edge }
            | Refusal::EqualEnds { edge }
            | Refusal::TopFalls { edge }
            | Refusal::Repeated { edge }
            | Refusal::Uneven { edge }
            | Refusal::NoRow { edge }
            | Refusal::NoPolygon { edge }
            | Refusal::PairRepeated { edge }
            | Refusal::Gap { edge }
            | Refusal::FilmPastRange { edge }
            | Refusal::NotAlternating { edge }
            | Refusal::HeadNotTail { edge } => Some(edge),
            _ => None,
        }
    }

    /// The refusal's word, by which docs/REFUSALS.md and the C header have it too.
    ///
    /// ```
    /// use outline::Refusal;
    ///
    /// assert_eq!(Refusal::TopFalls { edge: 1 }.word(), "TopFalls");
    /// ```
    #[must_use]
    pub fn word(self) -> &'static str {
        self.said().word
    }

    fn said(self) -> &'static Saying {
        match self {
            Refusal::Unknown { .. } => &sayings::UNKNOWN,
            known => sayings::of(known.number()),
        }
    }
}

/// One sentence: which edge, line or position, what is wrong with it, the
/// refusal's number and word, and what to do.
impl fmt::Display for Refusal {
    fn fmt(&self, to: &mut fmt::Formatter) -> fmt::Result {
        match self {
            Refusal::Malformed { line } => write!(to, "line {} ", line)?,
            Refusal::TurnsDiffer { position } => {
                write!(
                    to,
                    "position {} of the turn list (counted from 0) ",
                    position
                )?;
            }
            _ => {}
        }
        if let Some(edge) = self.edge() {
            write!(to, "edge {} (counted from 0) ", edge)?;
        }
        let said = self.said();
        write!(to, "{} (refusal {}, ", said.fault, self.number())?;
        match self {
            Refusal::Unknown { place, .. } => write!(to, "place {}", place)?,
            _ => write!(to, "{}", said.word)?,
        }
        write!(to, "): {}", said.remedy)
    }
}

#[cfg(feature = "std")]
impl std::error::Error for Refusal {}
