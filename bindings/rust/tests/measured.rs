//! The measured rounds of docs/SCOPE.md.

use feltloquat::{
    corner_polygons, outer_polygon, outer_polygon_into, print_round, read_round, verdict, word, write_round, Corner, Point,
    Refusal, Round, Verdict, Word,
};

const ROUND_B: [i32; 16] = [0, 0, 2, 2, 8, 0, 10, 2, 8, 8, 10, 10, 0, 8, 2, 10];

fn refused<T>(number: u32, place: u64) -> Result<T, Refusal> {
    Err(Refusal { number, place })
}

/// The vertices as pairs, from a start.
fn from(start: (i32, i32), vertices: &[Point]) -> Vec<(i32, i32)> {
    let mut pairs: Vec<(i32, i32)> = vertices.iter().map(|v| (v.east, v.north)).collect();
    let first = pairs.iter().position(|pair| *pair == start).expect("a vertex");
    pairs.rotate_left(first);
    pairs
}

#[test]
fn round_b() {
    let words = [
        ((5, 5), Word::Inside),
        ((3, 3), Word::Inside),
        ((2, 5), Word::Undecided),
        ((0, 0), Word::Undecided),
        ((10, 5), Word::Undecided),
        ((11, 5), Word::Outside),
    ];
    for ((east, north), wanted) in words {
        assert_eq!(word(&ROUND_B, east, north), Ok(wanted));
        assert_eq!(verdict(&ROUND_B, east, north).map(Verdict::word), Ok(wanted));
    }
    let outer = outer_polygon(&ROUND_B).unwrap();
    assert_eq!(from((0, 0), &outer), [(0, 0), (0, 10), (10, 10), (10, 0)]);
    let [southwest, ..] = corner_polygons(&ROUND_B).unwrap();
    assert_eq!(from((0, 0), &southwest), [(0, 0), (0, 8), (8, 8), (8, 0)]);
}

#[test]
fn few_boxes_have_no_inside() {
    let boxes = [0, 0, 1, 0, 2, 3, 2, 3];
    assert_eq!(word(&boxes, 1, 1), Ok(Word::Undecided));
    assert_eq!(word(&boxes, 1, 2), Ok(Word::Outside));
    assert_eq!(word(&[0, 0, 4, 4], 2, 2), Ok(Word::Undecided));
}

/// Weights on (0, 0), (1, 0) and (2, 3), the same for each.
#[test]
fn weights_of_three_corners() {
    let Ok(Verdict::Undecided(reasons)) = verdict(&[0, 0, 1, 0, 2, 3, 2, 3], 1, 1) else {
        panic!("undecided");
    };
    let weights = reasons.entries.map(|entry| entry.weight);
    assert!(weights[0] > 0 && weights.iter().all(|weight| *weight == weights[0]));
}

#[test]
fn limits() {
    assert_eq!(word(&[0, 0, 16_000, 1], 20, 20), Ok(Word::Outside));
    assert_eq!(word(&[0, 0, 16_001, 1], 20, 20), refused(4, 1));
    assert_eq!(word(&[0, 0, 1, 1].repeat(1_024), 20, 20), Ok(Word::Outside));
    assert_eq!(word(&[0, 0, 1, 1].repeat(1_025), 20, 20), refused(3, 1_025));
    assert_eq!(outer_polygon_into(&[0, 0, 1, 1], &mut [5; 8]), Ok(4));
    assert_eq!(outer_polygon_into(&[0, 0, 1, 1], &mut [5; 7]), refused(7, 8));
    assert_eq!(word(&[], 0, 0), refused(2, 0));
    assert_eq!(word(&[0, 0, 0], 0, 0), refused(1, 3));
    assert_eq!(word(&[0, 0, 1, 1], 0, -16_001), refused(6, 1));
    assert_eq!(word(&[0, 0, 1, 1, 2, 0, 1, 1], 0, 0), refused(5, 2));
}

#[test]
fn the_printing_programs_sample() {
    let file = [
        0x5B, 0x01, 0, 0, 0, 0, 0, 0, 0, 0, 0, 0, 0, 4, 0, 0, 0, 4, 0x5B, 0x02, 0, 0, 0, 2, 0, 0, 0, 2, 0x5B, 0x02, 0, 0, 0, 5,
        0, 0, 0, 2, 0x5B, 0x00,
    ];
    let round = Round { boxes: vec![0, 0, 4, 4], plugs: vec![2, 2, 5, 2] };
    assert_eq!(read_round(&file), Ok(round.clone()));
    assert_eq!(write_round(&round.boxes, &round.plugs), Ok(file.to_vec()));
    assert_eq!(read_round(&file[..file.len() - 1]), refused(9, 38));
    assert_eq!(print_round(&file), "boxes 1 plugs 2\n1 undecided\n2 outside\n");
    assert_eq!(print_round(&[0; 65_537]), "refused 12 65536\n");
}

#[test]
fn corners_of_a_box() {
    let corners = Corner::ALL.map(|corner| corner.of(&[1, 2, 3, 4]));
    assert_eq!(corners.map(|point| (point.east, point.north)), [(1, 2), (3, 2), (3, 4), (1, 4)]);
}

#[test]
fn a_refusal_in_words() {
    assert_eq!(Refusal { number: 2, place: 0 }.to_string(), "refused 2 0: no box");
}
