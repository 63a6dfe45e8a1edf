//! Round areas from stop boxes: polygons and plug verdicts.
//!
//! A box is four numbers in whole metres from the depot's datum: west, south, east, north. A box may be a line or a point. A round
//! has 1 to 1,024 boxes; equal boxes are allowed and each counts. A plug is two numbers, east then north. Every number is from
//! −16,000 to 16,000. Boxes and plugs are numbered from 1.
//!
//! Boxes are lent as one flat list of numbers, four to a box; [`edges_of`] sees records with named edges ([`BoxEdges`]) as such a list.
//! A call that is refused says the number of its cause ([`Cause`]) and a place ([`Refusal`]).
//!
//! The library's calls are proved: each answer is the one that the definitions give, and each refusal comes under its condition and
//! no other. This crate is a thin, safe layer over the static library (`rt staticlib c_api`), tested and not proved. No call has a
//! precondition, keeps anything, or touches what it is not lent.
//!
//! ```
//! use feltloquat::{edges_of, outer_polygon, verdict, word, BoxEdges, Cause, Point, Refusal, Verdict};
//!
//! // Round B: four boxes at the corners of a square.
//! let records = [
//!     BoxEdges { west: 0, south: 0, east: 2, north: 2 },
//!     BoxEdges { west: 8, south: 0, east: 10, north: 2 },
//!     BoxEdges { west: 8, south: 8, east: 10, north: 10 },
//!     BoxEdges { west: 0, south: 8, east: 2, north: 10 },
//! ];
//! let boxes = edges_of(&records);
//! assert_eq!(boxes, [0, 0, 2, 2, 8, 0, 10, 2, 8, 8, 10, 10, 0, 8, 2, 10]);
//!
//! assert_eq!(verdict(boxes, 5, 5), Ok(Verdict::Inside));
//! assert_eq!(verdict(boxes, 11, 5), Ok(Verdict::Outside));
//!
//! // Undecided carries a reason for each driver.
//! let Ok(Verdict::Undecided(reasons)) = verdict(boxes, 2, 5) else {
//!     panic!("(2, 5) lies on two corner polygons");
//! };
//! // For the first: no picked corner is ahead of the plug in the direction.
//! for stop in records {
//!     let corner = stop.corner(reasons.direction.corner);
//!     let east = reasons.direction.east * (corner.east - 2);
//!     let north = reasons.direction.north * (corner.north - 5);
//!     assert!(east + north <= 0);
//! }
//! // For the second: the weighted sum of (corner − plug) is zero.
//! let mut sum = (0, 0);
//! for entry in reasons.entries {
//!     let corner = records[entry.box_number - 1].corner(entry.corner);
//!     sum.0 += i64::from(entry.weight) * i64::from(corner.east - 2);
//!     sum.1 += i64::from(entry.weight) * i64::from(corner.north - 5);
//! }
//! assert_eq!(sum, (0, 0));
//!
//! // The outer polygon, clockwise; where it starts is open.
//! let outer = outer_polygon(boxes).unwrap();
//! assert_eq!(outer.len(), 4);
//! assert!(outer.contains(&Point { east: 0, north: 10 }));
//!
//! // A refusal is the number of a cause and a place: here the plug is beyond ±16,000.
//! assert_eq!(word(boxes, 16_001, 5), Err(Refusal { number: 6, place: 1 }));
//! assert_eq!(word(boxes, 16_001, 5).unwrap_err().cause(), Cause::PlugBeyond);
//! ```

#![deny(missing_docs)]

mod boxes;
mod calls;
mod refusals;

use std::fmt;

pub use boxes::{edges_of, BoxEdges, Corner, Point};
pub use refusals::{Cause, Refusal};

use refusals::accepted;

/// The first driver's reason: the pick is that corner of every box, and no picked point is ahead of the plug in the direction, so
/// east · (point east − plug east) + north · (point north − plug north) is at most 0 for each.
#[derive(Clone, Copy, Debug, PartialEq, Eq)]
pub struct Direction {
    /// The corner that is picked in every box.
    pub corner: Corner,
    /// From −32,000 to 32,000.
    pub east: i32,
    /// From −32,000 to 32,000; not both parts are zero.
    pub north: i32,
}

/// An entry of the second driver's reason. An entry may repeat.
#[derive(Clone, Copy, Debug, PartialEq, Eq)]
pub struct Entry {
    /// The number of a box of the list, from 1.
    pub box_number: usize,
    /// A corner of that box.
    pub corner: Corner,
    /// From 0 to 2,048,000,000.
    pub weight: u32,
}

/// What an undecided verdict carries: a successful pick for each driver.
#[derive(Clone, Copy, Debug, PartialEq, Eq)]
pub struct Reasons {
    /// For the first driver.
    pub direction: Direction,
    /// For the second driver: the weights are not all zero, and the weighted sum of (corner − plug) is zero. A box named with
    /// positive weight picks the weighted mean of its entries; every other box picks SW.
    pub entries: [Entry; 3],
}

/// The verdict on a plug.
#[derive(Clone, Copy, Debug, PartialEq, Eq)]
pub enum Verdict {
    /// The plug is strictly inside the hull of every pick.
    Inside,
    /// The plug is in the hull of no pick.
    Outside,
    /// Some pick has the plug not strictly inside its hull, and some pick has it in its hull.
    Undecided(Reasons),
}

impl Verdict {
    /// The word alone.
    pub fn word(self) -> Word {
        match self {
            Verdict::Inside => Word::Inside,
            Verdict::Outside => Word::Outside,
            Verdict::Undecided(_) => Word::Undecided,
        }
    }
}

/// A verdict's word.
#[derive(Clone, Copy, Debug, PartialEq, Eq)]
pub enum Word {
    /// See [`Verdict::Inside`].
    Inside,
    /// See [`Verdict::Outside`].
    Outside,
    /// See [`Verdict::Undecided`].
    Undecided,
}

impl fmt::Display for Word {
    fn fmt(&self, f: &mut fmt::Formatter<'_>) -> fmt::Result {
        f.write_str(match self {
            Word::Inside => "inside",
            Word::Outside => "outside",
            Word::Undecided => "undecided",
        })
    }
}

/// How many vertices each corner polygon has.
#[derive(Clone, Copy, Debug, PartialEq, Eq)]
pub struct VertexCounts {
    /// Of the SW polygon.
    pub southwest: usize,
    /// Of the SE polygon.
    pub southeast: usize,
    /// Of the NE polygon.
    pub northeast: usize,
    /// Of the NW polygon.
    pub northwest: usize,
}

/// How many boxes and plugs a file holds.
#[derive(Clone, Copy, Debug, PartialEq, Eq)]
pub struct Counts {
    /// The boxes.
    pub boxes: usize,
    /// The plugs.
    pub plugs: usize,
}

/// A round as flat lists: four numbers to a box, two to a plug.
#[derive(Clone, Debug, PartialEq, Eq)]
pub struct Round {
    /// West, south, east, north of each box.
    pub boxes: Vec<i32>,
    /// East, north of each plug.
    pub plugs: Vec<i32>,
}

fn word_named(number: u32) -> Word {
    match number {
        1 => Word::Inside,
        2 => Word::Outside,
        3 => Word::Undecided,
        _ => panic!("the library said word {number}, which this crate does not know"),
    }
}

fn entry_of(answer: calls::EntryAnswer) -> Entry {
    Entry { box_number: answer.number, corner: Corner::named(answer.corner), weight: answer.weight }
}

fn verdict_of(answer: calls::VerdictAnswer) -> Result<Verdict, Refusal> {
    accepted(answer.refused, answer.place)?;
    Ok(match word_named(answer.word) {
        Word::Inside => Verdict::Inside,
        Word::Outside => Verdict::Outside,
        Word::Undecided => Verdict::Undecided(Reasons {
            direction: Direction { corner: Corner::named(answer.corner), east: answer.east, north: answer.north },
            entries: [entry_of(answer.first), entry_of(answer.second), entry_of(answer.third)],
        }),
    })
}

fn points_of(numbers: &[i32]) -> Vec<Point> {
    numbers.chunks_exact(2).map(|pair| Point { east: pair[0], north: pair[1] }).collect()
}

/// The outer polygon, the hull of all four corners of all boxes: its extreme points, each once, clockwise. All points equal: one
/// vertex. All in line: the two ends. The starting vertex is open.
///
/// Refused by 1 to 5.
///
/// ```
/// use feltloquat::{outer_polygon, Point};
///
/// let line = [1, 5, 7, 5];
/// let mut ends = outer_polygon(&line)?;
/// ends.sort();
/// assert_eq!(ends, [Point { east: 1, north: 5 }, Point { east: 7, north: 5 }]);
/// # Ok::<(), feltloquat::Refusal>(())
/// ```
pub fn outer_polygon(boxes: &[i32]) -> Result<Vec<Point>, Refusal> {
    let mut buffer = vec![0; 2 * boxes.len()];
    let count = outer_polygon_into(boxes, &mut buffer)?;
    Ok(points_of(&buffer[..2 * count]))
}

/// [`outer_polygon`] into a lent buffer, east and north per vertex; returns how many vertices there are. With N boxes, 8 × N numbers
/// are needed. Numbers after the last vertex up to 8 × N become 0; those beyond are unchanged.
///
/// Refused by 1 to 5, then 7.
pub fn outer_polygon_into(boxes: &[i32], buffer: &mut [i32]) -> Result<usize, Refusal> {
    // SAFETY: both slices are lent for the call alone, with their lengths; the call reads the first and writes within the second.
    let answer = unsafe { calls::feltloquat_outer_polygon(boxes.as_ptr(), boxes.len(), buffer.as_mut_ptr(), buffer.len()) };
    accepted(answer.refused, answer.place)?;
    Ok(answer.vertices)
}

/// The corner polygons SW, SE, NE, NW, the hulls of that one corner of every box, each as [`outer_polygon`] lists its own.
///
/// Refused by 1 to 5.
///
/// ```
/// use feltloquat::{corner_polygons, Point};
///
/// // The polygons of one box have one vertex each: its corners.
/// let [southwest, southeast, northeast, northwest] = corner_polygons(&[1, 2, 3, 4])?;
/// assert_eq!(southwest, [Point { east: 1, north: 2 }]);
/// assert_eq!(southeast, [Point { east: 3, north: 2 }]);
/// assert_eq!(northeast, [Point { east: 3, north: 4 }]);
/// assert_eq!(northwest, [Point { east: 1, north: 4 }]);
/// # Ok::<(), feltloquat::Refusal>(())
/// ```
pub fn corner_polygons(boxes: &[i32]) -> Result<[Vec<Point>; 4], Refusal> {
    let mut buffer = vec![0; 2 * boxes.len()];
    let counts = corner_polygons_into(boxes, &mut buffer)?;
    let mut rest = &buffer[..];
    Ok([counts.southwest, counts.southeast, counts.northeast, counts.northwest].map(|count| {
        let (numbers, behind) = rest.split_at(2 * count);
        rest = behind;
        points_of(numbers)
    }))
}

/// [`corner_polygons`] into a lent buffer, one behind another, each in the part of the buffer that the earlier ones left free. With
/// N boxes, 8 × N numbers are needed. Numbers after the last vertex up to 8 × N become 0; those beyond are unchanged.
///
/// Refused by 1 to 5, then 7.
pub fn corner_polygons_into(boxes: &[i32], buffer: &mut [i32]) -> Result<VertexCounts, Refusal> {
    // SAFETY: as in `outer_polygon_into`.
    let answer = unsafe { calls::feltloquat_corner_polygons(boxes.as_ptr(), boxes.len(), buffer.as_mut_ptr(), buffer.len()) };
    accepted(answer.refused, answer.place)?;
    Ok(VertexCounts {
        southwest: answer.southwest,
        southeast: answer.southeast,
        northeast: answer.northeast,
        northwest: answer.northwest,
    })
}

/// The verdict on the plug at an east and a north, with its reasons where it is undecided. Which reasons is left to the program.
///
/// Refused by 1 to 5, then 6 with place 1.
///
/// ```
/// use feltloquat::{verdict, Verdict, Word};
///
/// assert_eq!(verdict(&[0, 0, 4, 4], 5, 2)?, Verdict::Outside);
/// // One stop has no inside: the door may be at any point of its box.
/// assert_eq!(verdict(&[0, 0, 4, 4], 2, 2)?.word(), Word::Undecided);
/// # Ok::<(), feltloquat::Refusal>(())
/// ```
pub fn verdict(boxes: &[i32], east: i32, north: i32) -> Result<Verdict, Refusal> {
    // SAFETY: the slice is lent for the call alone, with its length; the call reads it.
    verdict_of(unsafe { calls::feltloquat_verdict(boxes.as_ptr(), boxes.len(), east, north) })
}

/// The verdict's word alone, which takes less time where it is undecided.
///
/// Refused by 1 to 5, then 6 with place 1.
///
/// ```
/// use feltloquat::{word, Word};
///
/// assert_eq!(word(&[0, 0, 4, 4], 5, 2)?, Word::Outside);
/// # Ok::<(), feltloquat::Refusal>(())
/// ```
pub fn word(boxes: &[i32], east: i32, north: i32) -> Result<Word, Refusal> {
    // SAFETY: as in `verdict`.
    let answer = unsafe { calls::feltloquat_word(boxes.as_ptr(), boxes.len(), east, north) };
    accepted(answer.refused, answer.place)?;
    Ok(word_named(answer.word))
}

/// [`verdict`] by the library's own call for records, with equal answers.
///
/// Refused by 2 to 5, then 6 with place 1.
pub fn verdict_on_records(boxes: &[BoxEdges], east: i32, north: i32) -> Result<Verdict, Refusal> {
    // SAFETY: as in `verdict`; the records have C's layout.
    verdict_of(unsafe { calls::feltloquat_verdict_on_records(boxes.as_ptr(), boxes.len(), east, north) })
}

/// Reads a round file. It judges form only.
///
/// Refused by the earliest fault of 8 to 11 in the file.
pub fn read_round(file: &[u8]) -> Result<Round, Refusal> {
    // A box takes 18 bytes of a file and a plug 10, so these buffers are never too short.
    let mut boxes = vec![0; file.len() / 18 * 4];
    let mut plugs = vec![0; file.len() / 10 * 2];
    let counts = read_round_into(file, &mut boxes, &mut plugs)?;
    boxes.truncate(4 * counts.boxes);
    plugs.truncate(2 * counts.plugs);
    Ok(Round { boxes, plugs })
}

/// [`read_round`] into lent buffers: four numbers to a box, two to a plug. The remainder of each is unchanged.
///
/// Refused by the earliest fault of 8 to 11 in the file, then 7 for boxes, then 7 for plugs.
pub fn read_round_into(file: &[u8], boxes: &mut [i32], plugs: &mut [i32]) -> Result<Counts, Refusal> {
    // SAFETY: the slices are lent for the call alone, with their lengths, and do not overlap.
    let answer = unsafe {
        calls::feltloquat_read_round(file.as_ptr(), file.len(), boxes.as_mut_ptr(), boxes.len(), plugs.as_mut_ptr(), plugs.len())
    };
    accepted(answer.refused, answer.place)?;
    Ok(Counts { boxes: answer.boxes, plugs: answer.plugs })
}

/// Writes a round as a file: boxes, plugs (east, north of each) and end, without notes.
///
/// Refused by 1 to 5 for the boxes, then 1 and 6 for the plugs.
///
/// ```
/// use feltloquat::{print_round, read_round, write_round};
///
/// let file = write_round(&[0, 0, 4, 4], &[2, 2, 5, 2])?;
/// assert_eq!(read_round(&file)?.plugs, [2, 2, 5, 2]);
/// assert_eq!(print_round(&file), "boxes 1 plugs 2\n1 undecided\n2 outside\n");
/// # Ok::<(), feltloquat::Refusal>(())
/// ```
pub fn write_round(boxes: &[i32], plugs: &[i32]) -> Result<Vec<u8>, Refusal> {
    let mut file = vec![0; boxes.len() / 4 * 18 + plugs.len() / 2 * 10 + 2];
    let count = write_round_into(boxes, plugs, &mut file)?;
    file.truncate(count);
    Ok(file)
}

/// [`write_round`] into a lent buffer; returns the byte count. Bytes after that count are unchanged.
///
/// Refused by 1 to 5 for the boxes, then 1 and 6 for the plugs, then 7.
pub fn write_round_into(boxes: &[i32], plugs: &[i32], file: &mut [u8]) -> Result<usize, Refusal> {
    // SAFETY: as in `read_round_into`.
    let answer = unsafe {
        calls::feltloquat_write_round(boxes.as_ptr(), boxes.len(), plugs.as_ptr(), plugs.len(), file.as_mut_ptr(), file.len())
    };
    accepted(answer.refused, answer.place)?;
    Ok(answer.bytes)
}

/// How many bytes the text of [`print_round_into`] may need at most, for every input.
pub const TEXT_LENGTH: usize = 131_072;

/// What the printing program prints for a round file: one line `refused NUMBER PLACE` (12 for more than 65,536 bytes, then as
/// [`read_round`], then as [`verdict`] does for the boxes); or `boxes COUNT plugs COUNT`, then per plug its number and a word, or its
/// number and `refused 6`.
pub fn print_round(file: &[u8]) -> String {
    let mut text = Box::new([0; TEXT_LENGTH]);
    let count = print_round_into(file, &mut text);
    text[..count].iter().copied().map(char::from).collect()
}

/// [`print_round`] into a lent buffer, in ASCII; returns how many bytes the text has. Bytes after those are unchanged.
pub fn print_round_into(file: &[u8], text: &mut [u8; TEXT_LENGTH]) -> usize {
    // SAFETY: the slice and the array are lent for the call alone, and do not overlap.
    unsafe { calls::feltloquat_print_round(file.as_ptr(), file.len(), text) }
}
