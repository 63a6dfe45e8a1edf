//! A second method, for large rounds: polygons by gift wrapping, and words by the sides of the five polygons.

use crate::definition::{all_corners, corners_named, cross, distinct, dot, from, Edges, Pair, Word};

/// The polygon of the points, clockwise from the westmost, then southmost: from each vertex on to the point that has no other on the
/// left of the line to it, the farthest such point.
pub fn polygon(points: &[Pair]) -> Vec<Pair> {
    let points = distinct(points);
    let start = points[0];
    let mut vertices = vec![start];
    loop {
        let here = vertices[vertices.len() - 1];
        let mut best = (0, 0);
        for point in &points {
            let vector = from(here, *point);
            let side = cross(best, vector);
            if side > 0 || (side == 0 && dot(vector, vector) > dot(best, best)) {
                best = vector;
            }
        }
        let next = (here.0 + best.0, here.1 + best.1);
        if next == start || best == (0, 0) {
            return vertices;
        }
        vertices.push(next);
    }
}

/// Whether the two list the same vertices in the same order, from any start.
pub fn same_from_some_start(one: &[Pair], two: &[Pair]) -> bool {
    let Some(shift) = two.iter().position(|point| *point == one[0]) else {
        return false;
    };
    one.len() == two.len() && (0..one.len()).all(|i| one[i] == two[(i + shift) % two.len()])
}

/// Twice the area of the triangle of a side and the plug: positive if the plug lies left of the side, negative if right.
fn turns_at_sides(vertices: &[Pair], plug: Pair) -> impl Iterator<Item = i64> + '_ {
    (0..vertices.len()).map(move |i| {
        let here = vertices[i];
        cross(from(here, vertices[(i + 1) % vertices.len()]), from(here, plug))
    })
}

fn is_strictly_inside(vertices: &[Pair], plug: Pair) -> bool {
    vertices.len() >= 3 && turns_at_sides(vertices, plug).all(|turn| turn < 0)
}

fn is_in(vertices: &[Pair], plug: Pair) -> bool {
    match vertices {
        [only] => *only == plug,
        [one, two] => cross(from(plug, *one), from(plug, *two)) == 0 && dot(from(plug, *one), from(plug, *two)) <= 0,
        _ => turns_at_sides(vertices, plug).all(|turn| turn <= 0),
    }
}

/// The outer polygon and the four corner polygons.
pub struct Polygons {
    pub outer: Vec<Pair>,
    pub corners: [Vec<Pair>; 4],
}

pub fn polygons(boxes: &[Edges]) -> Polygons {
    Polygons { outer: polygon(&all_corners(boxes)), corners: [0, 1, 2, 3].map(|name| polygon(&corners_named(boxes, name))) }
}

/// Inside: strictly inside all four corner polygons. Outside: off the outer polygon.
pub fn word(polygons: &Polygons, plug: Pair) -> Word {
    if !is_in(&polygons.outer, plug) {
        Word::Outside
    } else if polygons.corners.iter().all(|vertices| is_strictly_inside(vertices, plug)) {
        Word::Inside
    } else {
        Word::Undecided
    }
}
