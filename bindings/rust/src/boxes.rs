//! Boxes, their corners, and the flat list of the edges of boxes that are records.

use std::fmt;
use std::mem::{align_of, size_of};
use std::slice;

/// A corner's name, shown as SW, SE, NE or NW.
#[derive(Clone, Copy, Debug, PartialEq, Eq)]
pub enum Corner {
    /// SW: west and south.
    SouthWest,
    /// SE: east and south.
    SouthEast,
    /// NE: east and north.
    NorthEast,
    /// NW: west and north.
    NorthWest,
}

impl Corner {
    /// The four names, in the order of the corner polygons.
    pub const ALL: [Corner; 4] = [Corner::SouthWest, Corner::SouthEast, Corner::NorthEast, Corner::NorthWest];

    /// This corner of the box with the edges west, south, east, north. Panics if there are fewer than four. Of a record, see
    /// [`BoxEdges::corner`].
    pub fn of(self, edges: &[i32]) -> Point {
        let (east, north) = match self {
            Corner::SouthWest => (edges[0], edges[1]),
            Corner::SouthEast => (edges[2], edges[1]),
            Corner::NorthEast => (edges[2], edges[3]),
            Corner::NorthWest => (edges[0], edges[3]),
        };
        Point { east, north }
    }

    pub(crate) fn named(number: u32) -> Corner {
        Corner::ALL[number as usize]
    }
}

impl fmt::Display for Corner {
    fn fmt(&self, f: &mut fmt::Formatter<'_>) -> fmt::Result {
        f.write_str(match self {
            Corner::SouthWest => "SW",
            Corner::SouthEast => "SE",
            Corner::NorthEast => "NE",
            Corner::NorthWest => "NW",
        })
    }
}

/// A point in whole metres from the depot's datum, shown as (east, north).
#[derive(Clone, Copy, Debug, PartialEq, Eq, PartialOrd, Ord, Hash)]
pub struct Point {
    /// Grows eastward.
    pub east: i32,
    /// Grows northward.
    pub north: i32,
}

impl fmt::Display for Point {
    fn fmt(&self, f: &mut fmt::Formatter<'_>) -> fmt::Result {
        write!(f, "({}, {})", self.east, self.north)
    }
}

/// A box as a record of four named edges, laid out as C's `struct feltloquat_box`.
///
/// ```
/// use feltloquat::{BoxEdges, Corner, Point};
///
/// let stop = BoxEdges { west: 1, south: 2, east: 3, north: 4 };
/// assert_eq!(stop, BoxEdges::from([1, 2, 3, 4]));
/// assert_eq!(stop.corner(Corner::SouthEast), Point { east: 3, north: 2 });
/// ```
#[repr(C)]
#[derive(Clone, Copy, Debug, PartialEq, Eq)]
pub struct BoxEdges {
    /// The west edge.
    pub west: i32,
    /// The south edge.
    pub south: i32,
    /// The east edge.
    pub east: i32,
    /// The north edge.
    pub north: i32,
}

impl BoxEdges {
    /// A corner of the box.
    pub fn corner(self, name: Corner) -> Point {
        name.of(&[self.west, self.south, self.east, self.north])
    }
}

/// From west, south, east, north, as a flat list has them.
impl From<[i32; 4]> for BoxEdges {
    fn from([west, south, east, north]: [i32; 4]) -> BoxEdges {
        BoxEdges { west, south, east, north }
    }
}

// A record is four numbers without gaps.
const _: () = assert!(size_of::<BoxEdges>() == 4 * size_of::<i32>() && align_of::<BoxEdges>() == align_of::<i32>());

/// Boxes as records, seen as the flat list of their edges that a call is lent, without a copy.
///
/// ```
/// use feltloquat::{edges_of, outer_polygon, BoxEdges};
///
/// let boxes = [BoxEdges { west: 1, south: 2, east: 3, north: 4 }];
/// assert_eq!(edges_of(&boxes), [1, 2, 3, 4]);
/// assert_eq!(outer_polygon(edges_of(&boxes)), outer_polygon(&[1, 2, 3, 4]));
/// ```
pub fn edges_of(records: &[BoxEdges]) -> &[i32] {
    // SAFETY: `repr(C)` lays a record out as four i32 in the order of its fields, with no gap and an i32's alignment (asserted
    // above), so N records are 4 × N i32 that are all set. The list is lent for reading as long as the records are.
    unsafe { slice::from_raw_parts(records.as_ptr().cast::<i32>(), 4 * records.len()) }
}
