//! The table of causes.

use std::error::Error;
use std::fmt;

/// Why a call is refused: a row of the table of causes.
///
/// | Number | Cause | Words | Place |
/// |---|---|---|---|
/// | 1 | [`ListLength`](Cause::ListLength) | box list not a multiple of 4 numbers, or plug list not of 2 | list length |
/// | 2 | [`NoBox`](Cause::NoBox) | no box | 0 |
/// | 3 | [`TooManyBoxes`](Cause::TooManyBoxes) | more than 1,024 boxes | box count |
/// | 4 | [`EdgeBeyond`](Cause::EdgeBeyond) | box edge beyond ±16,000 | box number |
/// | 5 | [`EdgesReversed`](Cause::EdgesReversed) | west over east, or south over north | box number |
/// | 6 | [`PlugBeyond`](Cause::PlugBeyond) | plug beyond ±16,000 | plug number, 1 for a single plug |
/// | 7 | [`BufferShort`](Cause::BufferShort) | buffer shorter than needed | length needed |
/// | 8 | [`UnknownMark`](Cause::UnknownMark) | unknown mark | byte offset of the mark, from 0 |
/// | 9 | [`CutShort`](Cause::CutShort) | file stops within a record, or with no end record | offset where that record begins, or the file length |
/// | 10 | [`BoxAfterPlug`](Cause::BoxAfterPlug) | box after a plug | offset of its mark |
/// | 11 | [`ByteAfterEnd`](Cause::ByteAfterEnd) | byte after the end record | its offset |
/// | 12 | [`InputTooLong`](Cause::InputTooLong) | program input over 65,536 bytes (only in what [`print_round`](crate::print_round) prints) | 65536 |
///
/// Later versions add rows, so a `match` from outside this crate needs an arm for the others.
///
/// ```
/// use feltloquat::Cause;
///
/// assert_eq!(Cause::from_number(4), Some(Cause::EdgeBeyond));
/// assert_eq!(Cause::EdgeBeyond.number(), 4);
/// assert_eq!(Cause::EdgeBeyond.to_string(), "box edge beyond ±16,000");
/// ```
#[non_exhaustive]
#[derive(Clone, Copy, Debug, PartialEq, Eq, PartialOrd, Ord, Hash)]
pub enum Cause {
    /// The box list's length is not a multiple of 4 numbers, or the plug list's not of 2.
    ListLength = 1,
    /// There is no box.
    NoBox = 2,
    /// There are more than 1,024 boxes.
    TooManyBoxes = 3,
    /// An edge of a box is beyond ±16,000.
    EdgeBeyond = 4,
    /// A box has its west over its east, or its south over its north.
    EdgesReversed = 5,
    /// A plug is beyond ±16,000.
    PlugBeyond = 6,
    /// A lent buffer is shorter than needed.
    BufferShort = 7,
    /// A record of the file opens with an unknown mark.
    UnknownMark = 8,
    /// The file stops within a record, or with no end record.
    CutShort = 9,
    /// A box of the file stands after a plug.
    BoxAfterPlug = 10,
    /// A byte of the file stands after the end record.
    ByteAfterEnd = 11,
    /// The printing program's input is over 65,536 bytes.
    InputTooLong = 12,
}

impl Cause {
    /// All causes, by their numbers.
    pub const ALL: &'static [Cause] = &[
        Cause::ListLength,
        Cause::NoBox,
        Cause::TooManyBoxes,
        Cause::EdgeBeyond,
        Cause::EdgesReversed,
        Cause::PlugBeyond,
        Cause::BufferShort,
        Cause::UnknownMark,
        Cause::CutShort,
        Cause::BoxAfterPlug,
        Cause::ByteAfterEnd,
        Cause::InputTooLong,
    ];

    /// The cause with a number, if there is one.
    pub fn from_number(number: u32) -> Option<Cause> {
        Cause::ALL.iter().copied().find(|cause| cause.number() == number)
    }

    /// The cause's number in the table.
    pub fn number(self) -> u32 {
        self as u32
    }

    /// The cause's words, which `Display` shows too.
    pub fn words(self) -> &'static str {
        match self {
            Cause::ListLength => "box list not a multiple of 4 numbers, or plug list not of 2",
            Cause::NoBox => "no box",
            Cause::TooManyBoxes => "more than 1,024 boxes",
            Cause::EdgeBeyond => "box edge beyond ±16,000",
            Cause::EdgesReversed => "west over east, or south over north",
            Cause::PlugBeyond => "plug beyond ±16,000",
            Cause::BufferShort => "buffer shorter than needed",
            Cause::UnknownMark => "unknown mark",
            Cause::CutShort => "file stops within a record, or with no end record",
            Cause::BoxAfterPlug => "box after a plug",
            Cause::ByteAfterEnd => "byte after the end record",
            Cause::InputTooLong => "program input over 65,536 bytes",
        }
    }
}

impl fmt::Display for Cause {
    fn fmt(&self, f: &mut fmt::Formatter<'_>) -> fmt::Result {
        f.write_str(self.words())
    }
}

/// The number of a cause in the table of [`Cause`], and the place that it returns. A refused call leaves every lent buffer as it was.
///
/// ```
/// use feltloquat::{word, Cause, Refusal};
///
/// // An edge of box 2 is beyond ±16,000.
/// let refusal = word(&[0, 0, 1, 1, 0, 0, 16_001, 1], 0, 0).unwrap_err();
/// assert_eq!(refusal, Refusal { number: 4, place: 2 });
/// assert_eq!(refusal.cause(), Cause::EdgeBeyond);
/// assert_eq!(refusal.to_string(), "refused 4 2: box edge beyond ±16,000");
/// ```
#[derive(Clone, Copy, Debug, PartialEq, Eq)]
pub struct Refusal {
    /// The cause's number.
    pub number: u32,
    /// What the table's column "Place" says for the cause.
    pub place: u64,
}

impl Refusal {
    /// The cause. Panics if none that this crate knows has the number.
    pub fn cause(self) -> Cause {
        Cause::from_number(self.number).expect("the number of a cause that this crate knows")
    }

    /// The cause's number.
    pub fn number(self) -> u32 {
        self.number
    }

    /// The cause in words.
    pub fn words(self) -> &'static str {
        Cause::from_number(self.number).map_or("unknown cause", Cause::words)
    }
}

impl fmt::Display for Refusal {
    fn fmt(&self, f: &mut fmt::Formatter<'_>) -> fmt::Result {
        write!(f, "refused {} {}: {}", self.number, self.place, self.words())
    }
}

impl Error for Refusal {}

/// What the first two numbers of an answer say: 0 is accepted, any other the number of a cause.
pub(crate) fn accepted(number: u32, place: u64) -> Result<(), Refusal> {
    if number == 0 {
        Ok(())
    } else {
        Err(Refusal { number, place })
    }
}
