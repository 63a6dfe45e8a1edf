//! Boxes lent as records: answers worked out by hand, for boxes whose four edges all differ.

use feltloquat::{
    corner_polygons, corner_polygons_into, edges_of, outer_polygon, outer_polygon_into, read_round, verdict, verdict_on_records,
    word, write_round, write_round_into, BoxEdges, Corner, Point, Verdict, VertexCounts, Word,
};

const BOX: BoxEdges = BoxEdges { west: 1, south: 20, east: 300, north: 4_000 };

/// Three boxes about the datum.
const BOXES: [BoxEdges; 3] = [
    BoxEdges { west: -9_000, south: -8_000, east: -7_000, north: -6_000 },
    BoxEdges { west: 500, south: 9_000, east: 1_500, north: 9_500 },
    BoxEdges { west: 8_000, south: -5_000, east: 8_100, north: -4_000 },
];

/// Their edges: west, south, east, north of each.
const FLAT: [i32; 12] = [-9_000, -8_000, -7_000, -6_000, 500, 9_000, 1_500, 9_500, 8_000, -5_000, 8_100, -4_000];

fn points<const N: usize>(pairs: [(i32, i32); N]) -> Vec<Point> {
    pairs.map(|(east, north)| Point { east, north }).to_vec()
}

/// The vertices, from the least on.
fn from_least(mut vertices: Vec<Point>) -> Vec<Point> {
    let least = vertices.iter().min().expect("a vertex");
    let first = vertices.iter().position(|vertex| vertex == least).expect("the least");
    vertices.rotate_left(first);
    vertices
}

#[test]
fn the_outer_polygon() {
    assert_eq!(from_least(outer_polygon(edges_of(&[BOX])).unwrap()), points([(1, 20), (1, 4_000), (300, 4_000), (300, 20)]));
    let mut buffer = [7; 10];
    assert_eq!(outer_polygon_into(edges_of(&[BOX]), &mut buffer), Ok(4));
    assert_eq!(outer_polygon(edges_of(&[BOX])).unwrap(), buffer[..8].chunks(2).map(point).collect::<Vec<_>>());
    assert_eq!(buffer[8..], [7, 7]);
}

fn point(pair: &[i32]) -> Point {
    Point { east: pair[0], north: pair[1] }
}

#[test]
fn the_corner_polygons() {
    let polygons = corner_polygons(edges_of(&BOXES)).unwrap().map(from_least);
    assert_eq!(polygons[0], points([(-9_000, -8_000), (500, 9_000), (8_000, -5_000)]));
    assert_eq!(polygons[1], points([(-7_000, -8_000), (1_500, 9_000), (8_100, -5_000)]));
    assert_eq!(polygons[2], points([(-7_000, -6_000), (1_500, 9_500), (8_100, -4_000)]));
    assert_eq!(polygons[3], points([(-9_000, -6_000), (500, 9_500), (8_000, -4_000)]));
    let mut buffer = [7; 26];
    let counts = VertexCounts { southwest: 3, southeast: 3, northeast: 3, northwest: 3 };
    assert_eq!(corner_polygons_into(edges_of(&BOXES), &mut buffer), Ok(counts));
    assert_eq!(corner_polygons(edges_of(&BOXES)).unwrap().concat(), buffer[..24].chunks(2).map(point).collect::<Vec<_>>());
    assert_eq!(buffer[24..], [7, 7]);
}

#[test]
fn the_word_and_the_verdict() {
    // The edges of one box belong to it, and nothing past them.
    for (east, north, wanted) in [
        (1, 20, Word::Undecided),
        (300, 4_000, Word::Undecided),
        (0, 30, Word::Outside),
        (301, 30, Word::Outside),
        (30, 19, Word::Outside),
        (30, 4_001, Word::Outside),
    ] {
        assert_eq!(word(edges_of(&[BOX]), east, north), Ok(wanted));
        assert_eq!(verdict(edges_of(&[BOX]), east, north).map(Verdict::word), Ok(wanted));
        assert_eq!(verdict_on_records(&[BOX], east, north).map(Verdict::word), Ok(wanted));
    }
    assert_eq!(verdict(edges_of(&BOXES), 0, 0), Ok(Verdict::Inside));
    assert_eq!(verdict_on_records(&BOXES, 0, 0), Ok(Verdict::Inside));
}

/// The reasons name the box and the corner of the records.
#[test]
fn the_reasons() {
    let Ok(Verdict::Undecided(reasons)) = verdict(edges_of(&BOXES), 1_500, 9_500) else {
        panic!("a corner of box 2 is undecided");
    };
    let direction = reasons.direction;
    assert_ne!((direction.east, direction.north), (0, 0));
    for record in BOXES {
        let corner = record.corner(direction.corner);
        assert!(direction.east * (corner.east - 1_500) + direction.north * (corner.north - 9_500) <= 0);
    }
    let named: Vec<Point> = reasons
        .entries
        .iter()
        .filter(|entry| entry.weight > 0)
        .map(|entry| BOXES[entry.box_number - 1].corner(entry.corner))
        .collect();
    // No other corner balances it, since it is a vertex of the outer polygon.
    assert!(!named.is_empty());
    assert!(named.iter().all(|corner| *corner == Point { east: 1_500, north: 9_500 }));
}

/// The same memory, read as records by name and as numbers in order.
#[test]
fn records_and_flat_lists_are_equal() {
    assert_eq!(outer_polygon(edges_of(&BOXES)), outer_polygon(&FLAT));
    assert_eq!(corner_polygons(edges_of(&BOXES)), corner_polygons(&FLAT));
    for (east, north) in [(0, 0), (1_500, 9_500), (-9_000, -7_000), (15_000, 15_000), (16_001, 0)] {
        assert_eq!(verdict(edges_of(&BOXES), east, north), verdict(&FLAT, east, north));
        assert_eq!(verdict_on_records(&BOXES, east, north), verdict(&FLAT, east, north));
        assert_eq!(word(edges_of(&BOXES), east, north), word(&FLAT, east, north));
    }
}

#[test]
fn a_file_of_records() {
    let file = write_round(edges_of(&BOXES), &[5, -6]).unwrap();
    let round = read_round(&file).unwrap();
    assert_eq!((&round.boxes[..], &round.plugs[..]), (&FLAT[..], &[5, -6][..]));
    let mut buffer = vec![7; file.len() + 1];
    assert_eq!(write_round_into(edges_of(&BOXES), &[5, -6], &mut buffer), Ok(file.len()));
    assert_eq!(buffer, [&file[..], &[7]].concat());
}

/// Arrays, slices and vectors are taken as they are, and records by their edges.
#[test]
fn lists_of_all_kinds() {
    let (flat, boxes): (Vec<i32>, Vec<BoxEdges>) = (FLAT.to_vec(), BOXES.to_vec());
    let words = [
        word(&FLAT, 0, 0),
        word(&FLAT[..], 0, 0),
        word(&flat, 0, 0),
        word(edges_of(&BOXES), 0, 0),
        word(edges_of(&BOXES[..]), 0, 0),
        word(edges_of(&boxes), 0, 0),
    ];
    assert_eq!(words, [Ok(Word::Inside); 6]);
}

#[test]
fn a_record_by_its_edges() {
    assert_eq!(BoxEdges::from([1, 20, 300, 4_000]), BOX);
    assert_eq!(Corner::ALL.map(|name| BOX.corner(name)).to_vec(), points([(1, 20), (300, 20), (300, 4_000), (1, 4_000)]));
}

#[test]
fn names_and_points_in_text() {
    assert_eq!(Corner::ALL.map(|name| name.to_string()), ["SW", "SE", "NE", "NW"]);
    assert_eq!(Point { east: -3, north: 14 }.to_string(), "(-3, 14)");
}
