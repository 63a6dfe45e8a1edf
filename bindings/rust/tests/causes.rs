//! The causes: their numbers and words, and a call that is refused by each.

use std::error::Error;

use feltloquat::{
    edges_of, outer_polygon, outer_polygon_into, print_round, read_round, verdict, word, write_round, BoxEdges, Cause, Refusal,
    Round,
};

/// The table of docs/SCOPE.md.
const TABLE: [(u32, Cause, &str); 12] = [
    (1, Cause::ListLength, "box list not a multiple of 4 numbers, or plug list not of 2"),
    (2, Cause::NoBox, "no box"),
    (3, Cause::TooManyBoxes, "more than 1,024 boxes"),
    (4, Cause::EdgeBeyond, "box edge beyond ±16,000"),
    (5, Cause::EdgesReversed, "west over east, or south over north"),
    (6, Cause::PlugBeyond, "plug beyond ±16,000"),
    (7, Cause::BufferShort, "buffer shorter than needed"),
    (8, Cause::UnknownMark, "unknown mark"),
    (9, Cause::CutShort, "file stops within a record, or with no end record"),
    (10, Cause::BoxAfterPlug, "box after a plug"),
    (11, Cause::ByteAfterEnd, "byte after the end record"),
    (12, Cause::InputTooLong, "program input over 65,536 bytes"),
];

#[test]
fn numbers_and_words() {
    for (number, cause, words) in TABLE {
        assert_eq!(cause.number(), number);
        assert_eq!(Cause::from_number(number), Some(cause));
        assert_eq!(cause.to_string(), words);
        assert_eq!(cause.words(), words);
        let refusal = Refusal { number, place: 70 };
        assert_eq!((refusal.number(), refusal.cause(), refusal.words()), (number, cause, words));
        assert_eq!(refusal.to_string(), format!("refused {number} 70: {words}"));
    }
    assert_eq!(Cause::ALL, TABLE.map(|(_, cause, _)| cause));
}

#[test]
fn numbers_of_no_cause() {
    for number in [0, 13, 256 + 1, u32::MAX] {
        assert_eq!(Cause::from_number(number), None);
        assert_eq!(Refusal { number, place: 70 }.to_string(), format!("refused {number} 70: unknown cause"));
    }
}

/// This compiles only if a match needs the last arm, for causes that later versions add.
#[test]
#[deny(unreachable_patterns)]
fn a_match_has_an_arm_for_later_causes() {
    for cause in Cause::ALL {
        let from = match cause {
            Cause::ListLength | Cause::NoBox | Cause::TooManyBoxes | Cause::EdgeBeyond | Cause::EdgesReversed => "boxes",
            Cause::PlugBeyond => "plug",
            Cause::BufferShort => "buffer",
            Cause::UnknownMark | Cause::CutShort | Cause::BoxAfterPlug | Cause::ByteAfterEnd => "file",
            Cause::InputTooLong => "program",
            _ => "later",
        };
        assert_ne!(from, "later");
    }
}

/// The C header's table has a row with the number and the words of each cause.
#[test]
fn the_headers_words() {
    let header = include_str!("../../../include/feltloquat.h").replace("+-", "±");
    let rows: Vec<String> = header.lines().map(|line| line.split_whitespace().collect::<Vec<_>>().join(" ")).collect();
    for cause in Cause::ALL {
        let start = format!("* {} {cause} ", cause.number());
        let found = rows.iter().filter(|row| row.starts_with(&start)).count();
        assert_eq!(found, 1, "rows of the header that start with {start:?}");
    }
}

fn refused<T>(cause: Cause, place: u64) -> Result<T, Refusal> {
    Err(Refusal { number: cause.number(), place })
}

/// A box, a plug and the end; each record starts at 0, 18 and 28.
const FILE: [u8; 30] = [0x5B, 1, 0, 0, 0, 0, 0, 0, 0, 0, 0, 0, 0, 4, 0, 0, 0, 4, 0x5B, 2, 0, 0, 0, 2, 0, 0, 0, 2, 0x5B, 0];

#[test]
fn a_call_refused_by_each() {
    assert_eq!(outer_polygon(&[0; 7]), refused(Cause::ListLength, 7));
    assert_eq!(write_round(&[0; 4], &[0; 3]), refused(Cause::ListLength, 3));
    assert_eq!(outer_polygon(&[]), refused(Cause::NoBox, 0));
    assert_eq!(outer_polygon(&[0; 4 * 1_025]), refused(Cause::TooManyBoxes, 1_025));
    assert_eq!(outer_polygon(&[0, 0, 1, 1, 0, -16_001, 1, 1]), refused(Cause::EdgeBeyond, 2));
    assert_eq!(outer_polygon(&[0, 0, 1, 1, 0, 2, 1, 1]), refused(Cause::EdgesReversed, 2));
    assert_eq!(verdict(&[0; 4], 0, 16_001), refused(Cause::PlugBeyond, 1));
    assert_eq!(write_round(&[0; 4], &[0, 0, 0, 16_001]), refused(Cause::PlugBeyond, 2));
    assert_eq!(outer_polygon_into(&[0; 8], &mut [5; 15]), refused(Cause::BufferShort, 16));
    assert_eq!(read_round(&FILE), Ok(Round { boxes: vec![0, 0, 4, 4], plugs: vec![2, 2] }));
    assert_eq!(read_round(&[&FILE[..28], &[0x5D, 0]].concat()), refused(Cause::UnknownMark, 28));
    assert_eq!(read_round(&FILE[..27]), refused(Cause::CutShort, 18));
    assert_eq!(read_round(&FILE[..28]), refused(Cause::CutShort, 28));
    assert_eq!(read_round(&[&FILE[..28], &FILE].concat()), refused(Cause::BoxAfterPlug, 28));
    assert_eq!(read_round(&[&FILE[..], &[0]].concat()), refused(Cause::ByteAfterEnd, 30));
    let line = format!("refused {} 65536\n", Cause::InputTooLong.number());
    assert_eq!(print_round(&[0; 65_537]), line);
}

#[test]
fn the_same_for_records() {
    let fits = BoxEdges { west: 0, south: 0, east: 1, north: 1 };
    assert_eq!(word(edges_of(&[]), 0, 0), refused(Cause::NoBox, 0));
    assert_eq!(word(edges_of(&[fits; 1_025]), 0, 0), refused(Cause::TooManyBoxes, 1_025));
    assert_eq!(word(edges_of(&[fits, BoxEdges { north: 16_001, ..fits }]), 0, 0), refused(Cause::EdgeBeyond, 2));
    assert_eq!(word(edges_of(&[fits, fits, BoxEdges { west: 2, ..fits }]), 0, 0), refused(Cause::EdgesReversed, 3));
    assert_eq!(word(edges_of(&[fits]), -16_001, 0), refused(Cause::PlugBeyond, 1));
    assert_eq!(outer_polygon_into(edges_of(&[fits; 2]), &mut [5; 15]), refused(Cause::BufferShort, 16));
}

#[test]
fn a_refusal_is_an_error() {
    fn fails() -> Result<(), Box<dyn Error>> {
        word(&[0, 0, 1, 1], 0, 16_001)?;
        Ok(())
    }
    let error = fails().expect_err("refused");
    assert_eq!(error.to_string(), "refused 6 1: plug beyond ±16,000");
    assert_eq!(error.downcast_ref(), Some(&Refusal { number: 6, place: 1 }));
}
