//! docs/SCOPE.md by definition, slowly: the causes in their order, extreme points by all triples, words by all directions and all
//! triples. Written from the document and not from the proved code.

/// A cause's number and place.
pub type Cause = (u32, u64);

/// East and north.
pub type Pair = (i64, i64);

/// West, south, east, north.
pub type Edges = [i64; 4];

pub const SPAN: i64 = 16_000;
pub const MOST_BOXES: usize = 1_024;

#[derive(Clone, Copy, Debug, PartialEq, Eq)]
pub enum Word {
    Inside,
    Outside,
    Undecided,
}

// ---- boxes, plugs and the table of causes

pub fn boxes_of(numbers: &[i32]) -> Vec<Edges> {
    numbers.chunks_exact(4).map(|n| [n[0] as i64, n[1] as i64, n[2] as i64, n[3] as i64]).collect()
}

fn beyond(number: i64) -> bool {
    !(-SPAN..=SPAN).contains(&number)
}

/// 2, 3; then box by box, 4 before 5.
pub fn cause_of_records(boxes: &[Edges]) -> Option<Cause> {
    if boxes.is_empty() {
        return Some((2, 0));
    }
    if boxes.len() > MOST_BOXES {
        return Some((3, boxes.len() as u64));
    }
    for (index, [west, south, east, north]) in boxes.iter().enumerate() {
        let number = index as u64 + 1;
        if [west, south, east, north].into_iter().any(|edge| beyond(*edge)) {
            return Some((4, number));
        }
        if west > east || south > north {
            return Some((5, number));
        }
    }
    None
}

/// 1, then the boxes.
pub fn cause_of_boxes(numbers: &[i32]) -> Option<Cause> {
    if numbers.len() % 4 != 0 {
        return Some((1, numbers.len() as u64));
    }
    cause_of_records(&boxes_of(numbers))
}

/// 6 for a single plug.
pub fn cause_of_plug(plug: Pair) -> Option<Cause> {
    (beyond(plug.0) || beyond(plug.1)).then_some((6, 1))
}

/// 1, then 6 plug by plug.
pub fn cause_of_plugs(numbers: &[i32]) -> Option<Cause> {
    if numbers.len() % 2 != 0 {
        return Some((1, numbers.len() as u64));
    }
    let far = numbers.chunks_exact(2).position(|p| beyond(p[0] as i64) || beyond(p[1] as i64));
    far.map(|index| (6, index as u64 + 1))
}

/// 7, for a lent buffer of a length.
pub fn cause_of_length(length: usize, needed: usize) -> Option<Cause> {
    (length < needed).then_some((7, needed as u64))
}

/// The boxes, then the plug.
pub fn cause_of_verdict(numbers: &[i32], plug: Pair) -> Option<Cause> {
    cause_of_boxes(numbers).or(cause_of_plug(plug))
}

/// The boxes, then 7 for 8 × N numbers.
pub fn cause_of_polygons(numbers: &[i32], length: usize) -> Option<Cause> {
    cause_of_boxes(numbers).or(cause_of_length(length, 8 * (numbers.len() / 4)))
}

// ---- corners

/// SW 0, SE 1, NE 2, NW 3.
pub fn corner(edges: &Edges, name: usize) -> Pair {
    let [west, south, east, north] = *edges;
    [(west, south), (east, south), (east, north), (west, north)][name]
}

pub fn corners_named(boxes: &[Edges], name: usize) -> Vec<Pair> {
    boxes.iter().map(|edges| corner(edges, name)).collect()
}

pub fn all_corners(boxes: &[Edges]) -> Vec<Pair> {
    (0..4).flat_map(|name| corners_named(boxes, name)).collect()
}

pub fn distinct(points: &[Pair]) -> Vec<Pair> {
    let mut sorted = points.to_vec();
    sorted.sort_unstable();
    sorted.dedup();
    sorted
}

// ---- hulls

pub fn from(origin: Pair, point: Pair) -> Pair {
    (point.0 - origin.0, point.1 - origin.1)
}

/// Positive if `v` points to the left of `u`, negative if to the right.
pub fn cross(u: Pair, v: Pair) -> i64 {
    u.0 * v.1 - u.1 * v.0
}

pub fn dot(u: Pair, v: Pair) -> i64 {
    u.0 * v.0 + u.1 * v.1
}

/// Some weights of the two, none negative and not all zero, make the weighted sum zero.
fn pair_balances(u: Pair, v: Pair) -> bool {
    cross(u, v) == 0 && dot(u, v) <= 0
}

/// Some positive weights of the three make the weighted sum zero, where not all three are in line.
fn triple_balances(u: Pair, v: Pair, w: Pair) -> bool {
    let weights = [cross(v, w), cross(w, u), cross(u, v)];
    let one_sign = weights.iter().all(|x| *x >= 0) || weights.iter().all(|x| *x <= 0);
    one_sign && weights.iter().any(|x| *x != 0)
}

/// A point is in the hull of others: by every one, every pair and every triple of them.
pub fn in_hull(point: Pair, others: &[Pair]) -> bool {
    let vectors: Vec<Pair> = others.iter().map(|other| from(point, *other)).collect();
    for (i, u) in vectors.iter().enumerate() {
        if *u == (0, 0) {
            return true;
        }
        for (j, v) in vectors.iter().enumerate().take(i) {
            if pair_balances(*u, *v) || vectors[..j].iter().any(|w| triple_balances(*u, *v, *w)) {
                return true;
            }
        }
    }
    false
}

/// The points that are not in the hull of the other distinct points.
pub fn extreme_points(points: &[Pair]) -> Vec<Pair> {
    let points = distinct(points);
    let others = |point: Pair| points.iter().copied().filter(|other| *other != point).collect::<Vec<_>>();
    points.iter().copied().filter(|point| !in_hull(*point, &others(*point))).collect()
}

/// Whether the vertices are the polygon of the points, whose extreme points are given: exactly those, each once, and with three or
/// more, every point strictly right of each side or on it. Any start.
pub fn is_polygon(points: &[Pair], extreme: &[Pair], vertices: &[Pair]) -> bool {
    let mut sorted = vertices.to_vec();
    sorted.sort_unstable();
    if sorted != distinct(extreme) {
        return false;
    }
    vertices.len() < 3
        || (0..vertices.len()).all(|i| {
            let (here, there) = (vertices[i], vertices[(i + 1) % vertices.len()]);
            points.iter().all(|point| cross(from(here, there), from(here, *point)) <= 0)
        })
}

// ---- words

/// The least of a·(east − plug east) + b·(north − plug north) over all points of a box: a picked point can have it.
fn least(edges: &Edges, plug: Pair, (a, b): Pair) -> i64 {
    let [west, south, east, north] = *edges;
    (a * (west - plug.0)).min(a * (east - plug.0)) + (b * (south - plug.1)).min(b * (north - plug.1))
}

/// Whether the direction shows some pick that has the plug not strictly inside its hull.
fn supports(boxes: &[Edges], plug: Pair, direction: Pair) -> bool {
    direction != (0, 0) && boxes.iter().all(|edges| least(edges, plug, direction) <= 0)
}

/// The first driver has a pick: by all directions with parts from −reach to reach. A good direction that is the last one of an arc
/// of good ones is across a vector from the plug to a corner, so the longest such part is reach enough.
pub fn first_by_all_directions(boxes: &[Edges], plug: Pair) -> bool {
    let reach = all_corners(boxes).iter().map(|point| from(plug, *point)).map(|v| v.0.abs().max(v.1.abs())).fold(1, i64::max);
    (-reach..=reach).any(|a| (-reach..=reach).any(|b| supports(boxes, plug, (a, b))))
}

/// The same where the span is too wide for all directions: by those across each vector from the plug to a corner, and one axis.
pub fn first_by_corner_directions(boxes: &[Edges], plug: Pair) -> bool {
    let across = |point: Pair| {
        let (east, north) = from(plug, point);
        [(-north, east), (north, -east)]
    };
    supports(boxes, plug, (1, 0))
        || all_corners(boxes).into_iter().flat_map(across).any(|direction| supports(boxes, plug, direction))
}

/// The second driver has a pick: the plug is in the hull of all corners of all boxes.
pub fn second_by_all_triples(boxes: &[Edges], plug: Pair) -> bool {
    in_hull(plug, &distinct(&all_corners(boxes)))
}

/// Inside if no pick succeeds for the first driver, outside if none succeeds for the second, otherwise undecided.
pub fn word_by(first: bool, second: bool) -> Word {
    match (first, second) {
        (false, true) => Word::Inside,
        (true, false) => Word::Outside,
        (true, true) => Word::Undecided,
        (false, false) => panic!("a round without a word"),
    }
}

// ---- reasons

/// A corner's number and a direction; three entries of box number, corner number and weight.
pub type Reasons = (usize, Pair, [(usize, usize, u32); 3]);

/// What is wrong with the reasons, by their arithmetic.
pub fn wrong_reasons(boxes: &[Edges], plug: Pair, (name, direction, entries): &Reasons) -> Option<&'static str> {
    if direction.0.abs() > 32_000 || direction.1.abs() > 32_000 {
        return Some("a part of the direction is beyond 32,000");
    }
    if *direction == (0, 0) {
        return Some("the direction is zero");
    }
    if corners_named(boxes, *name).iter().any(|point| dot(*direction, from(plug, *point)) > 0) {
        return Some("a picked corner is ahead of the plug");
    }
    if entries.iter().any(|(number, _, _)| !(1..=boxes.len()).contains(number)) {
        return Some("an entry names no box of the list");
    }
    if entries.iter().any(|(_, _, weight)| *weight > 2_048_000_000) {
        return Some("a weight is beyond 2,048,000,000");
    }
    if entries.iter().all(|(_, _, weight)| *weight == 0) {
        return Some("all weights are zero");
    }
    let mut sum = (0, 0);
    for (number, name, weight) in entries {
        let vector = from(plug, corner(&boxes[number - 1], *name));
        sum = (sum.0 + i64::from(*weight) * vector.0, sum.1 + i64::from(*weight) * vector.1);
    }
    (sum != (0, 0)).then_some("the weighted sum is not zero")
}

// ---- picks, one by one

/// Every point of a box whose coordinates are fractions over the denominator, as numerators.
fn points_over(edges: &Edges, denominator: i64) -> Vec<Pair> {
    let [west, south, east, north] = edges.map(|edge| edge * denominator);
    (west..=east).flat_map(|x| (south..=north).map(move |y| (x, y))).collect()
}

/// Whether some pick over the denominator has the plug not strictly inside its hull, and whether some has it in its hull.
pub fn drivers_by_picks(boxes: &[Edges], plug: Pair, denominator: i64) -> (bool, bool) {
    let plug = (plug.0 * denominator, plug.1 * denominator);
    let choices: Vec<Vec<Pair>> = boxes.iter().map(|edges| points_over(edges, denominator)).collect();
    let mut places = vec![0; boxes.len()];
    let (mut first, mut second) = (false, false);
    loop {
        let pick: Vec<Pair> = places.iter().zip(&choices).map(|(place, points)| points[*place]).collect();
        second |= in_hull(plug, &pick);
        let vectors: Vec<Pair> = pick.iter().map(|point| from(plug, *point)).collect();
        let behind = |direction: Pair| direction != (0, 0) && vectors.iter().all(|v| dot(direction, *v) <= 0);
        first |= behind((1, 0)) || vectors.iter().any(|v| behind((-v.1, v.0)) || behind((v.1, -v.0)));
        let Some(next) = (0..places.len()).find(|i| places[*i] + 1 < choices[*i].len()) else {
            return (first, second);
        };
        places[next] += 1;
        places[..next].fill(0);
    }
}
