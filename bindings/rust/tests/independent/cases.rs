//! Rounds and files to compare with, drawn from one generator.

/// splitmix64.
pub struct Generator {
    state: u64,
}

impl Generator {
    pub fn new(seed: u64) -> Generator {
        Generator { state: seed }
    }

    fn next(&mut self) -> u64 {
        self.state = self.state.wrapping_add(0x9E37_79B9_7F4A_7C15);
        let mut z = self.state;
        z = (z ^ (z >> 30)).wrapping_mul(0xBF58_476D_1CE4_E5B9);
        z = (z ^ (z >> 27)).wrapping_mul(0x94D0_49BB_1331_11EB);
        z ^ (z >> 31)
    }

    pub fn below(&mut self, limit: usize) -> usize {
        (self.next() % limit as u64) as usize
    }

    /// From low to high, both included.
    pub fn between(&mut self, low: i32, high: i32) -> i32 {
        low + self.below((high - low) as usize + 1) as i32
    }

    pub fn one_of<T: Copy>(&mut self, values: &[T]) -> T {
        values[self.below(values.len())]
    }
}

fn boxed(one: (i32, i32), two: (i32, i32)) -> [i32; 4] {
    [one.0.min(two.0), one.1.min(two.1), one.0.max(two.0), one.1.max(two.1)]
}

fn point_in(g: &mut Generator, span: i32) -> (i32, i32) {
    (g.between(0, span), g.between(0, span))
}

fn point_box(point: (i32, i32)) -> [i32; 4] {
    boxed(point, point)
}

/// A point, a line along an axis, or any box.
fn any_box(g: &mut Generator, span: i32) -> [i32; 4] {
    let (one, two) = (point_in(g, span), point_in(g, span));
    match g.below(4) {
        0 => point_box(one),
        1 => boxed(one, (one.0, two.1)),
        2 => boxed(one, (two.0, one.1)),
        _ => boxed(one, two),
    }
}

/// How many kinds of small rounds there are.
pub const SMALL_KINDS: usize = 8;

/// 1 to 6 boxes of a kind in a span of 0 to `span`.
pub fn small_round(g: &mut Generator, kind: usize, span: i32) -> Vec<i32> {
    let count = 1 + g.below(6);
    let (one, two) = (any_box(g, span), any_box(g, span));
    let here = point_in(g, span);
    let boxes = (0..count).map(|number| match kind {
        // any boxes
        0 => any_box(g, span),
        // the same point again and again
        1 => point_box(here),
        // repeats of two boxes
        2 => g.one_of(&[one, two]),
        // points on a sloping line
        3 => {
            let along = g.between(0, span);
            point_box((along, if here.0 % 2 == 0 { along } else { span - along }))
        }
        // lines on one line along an axis
        4 if here.0 % 2 == 0 => boxed((g.between(0, span), here.1), (g.between(0, span), here.1)),
        4 => boxed((here.0, g.between(0, span)), (here.0, g.between(0, span))),
        // points only
        5 => point_box(point_in(g, span)),
        // boxes with one point in common
        6 => boxed(here, point_in(g, span)),
        // narrow boxes round the edge of the span, so that inside is frequent
        _ => {
            let along = g.between(0, span);
            let corner = [(along, 0), (span, along), (along, span), (0, along)][number % 4];
            let wide = (g.between(0, 1), g.between(0, 1));
            boxed(corner, ((corner.0 - wide.0).max(0), (corner.1 - wide.1).max(0)))
        }
    });
    boxes.flatten().collect()
}

const EDGE_VALUES: [i32; 9] = [-16_000, -15_999, -8_000, -1, 0, 1, 8_000, 15_999, 16_000];

fn wide_number(g: &mut Generator) -> i32 {
    if g.below(2) == 0 {
        g.one_of(&EDGE_VALUES)
    } else {
        g.between(-16_000, 16_000)
    }
}

pub fn wide_point(g: &mut Generator) -> (i32, i32) {
    (wide_number(g), wide_number(g))
}

/// 1 to 6 boxes over the whole span, often with edges at its ends.
pub fn wide_round(g: &mut Generator) -> Vec<i32> {
    let count = 1 + g.below(6);
    let boxes = (0..count).map(|_| {
        let one = wide_point(g);
        let two = wide_point(g);
        match g.below(3) {
            0 => point_box(one),
            _ => boxed(one, two),
        }
    });
    boxes.flatten().collect()
}

/// Many boxes of a reach: anywhere, or about an ellipse, so that polygons have many vertices.
pub fn large_round(g: &mut Generator, count: usize) -> Vec<i32> {
    let reach = g.one_of(&[0, 3, 40, 600, 4_000]);
    let round = g.below(2) == 0;
    let radius = (g.between(2_000, 15_900) as f64, g.between(2_000, 15_900) as f64);
    let cut = |number: i32| number.clamp(-16_000, 16_000);
    let boxes = (0..count).map(|_| {
        let (east, north) = if round {
            let angle = g.below(1_000_000) as f64 * std::f64::consts::TAU / 1_000_000.0;
            ((radius.0 * angle.cos()) as i32, (radius.1 * angle.sin()) as i32)
        } else {
            (g.between(-16_000, 16_000), g.between(-16_000, 16_000))
        };
        let two = (cut(east + g.between(0, reach)), cut(north + g.between(0, reach)));
        boxed((east, north), two)
    });
    boxes.flatten().collect()
}

/// The place of a box of a list.
fn some_box(g: &mut Generator, boxes: &[i32]) -> Option<usize> {
    (boxes.len() >= 4).then(|| 4 * g.below(boxes.len() / 4))
}

fn beyond(g: &mut Generator) -> i32 {
    let near = g.between(16_001, 16_003);
    g.one_of(&[near, -near, 32_001, -32_001, i32::MAX, i32::MIN, i32::MIN + 1])
}

/// Spoils a box list in one way.
pub fn spoil_boxes(g: &mut Generator, boxes: &mut Vec<i32>) {
    match g.below(8) {
        0 => boxes.truncate(boxes.len().saturating_sub(1 + g.below(3))),
        1 => {
            let more = 1 + g.below(7);
            boxes.extend((0..more).map(|_| g.between(-9, 9)));
        }
        2 => boxes.clear(),
        3 => {
            let count = 1_025 + g.below(3);
            boxes.resize(4 * count, 7);
        }
        4 => boxes.resize(4 * 1_024, 7),
        5 | 6 => {
            if let Some(at) = some_box(g, boxes) {
                boxes[at + g.below(4)] = beyond(g);
            }
        }
        _ => {
            if let Some(at) = some_box(g, boxes) {
                let edge = at + g.below(2);
                boxes[edge] = boxes[edge + 2].saturating_add(1);
            }
        }
    }
}

/// A plug beyond the span in one or both numbers.
pub fn far_plug(g: &mut Generator) -> (i32, i32) {
    match g.below(3) {
        0 => (beyond(g), g.between(-16_000, 16_000)),
        1 => (g.between(-16_000, 16_000), beyond(g)),
        _ => (beyond(g), beyond(g)),
    }
}

/// Spoils a plug list in one way.
pub fn spoil_plugs(g: &mut Generator, plugs: &mut Vec<i32>) {
    if g.below(2) == 0 {
        plugs.push(g.between(-9, 9));
    } else if !plugs.is_empty() {
        let at = g.below(plugs.len());
        plugs[at] = beyond(g);
    }
}

/// A number for a file: any 32 bits, or a small one.
fn file_number(g: &mut Generator) -> i32 {
    if g.below(2) == 0 {
        g.between(-9, 9)
    } else {
        g.next() as i32
    }
}

fn note(g: &mut Generator) -> Vec<u8> {
    let length = g.one_of(&[0, 1, 2, 5, 255]);
    let body = (0..length).map(|_| g.next() as u8).collect::<Vec<u8>>();
    [vec![0x5C, g.next() as u8, length as u8], body].concat()
}

/// A well-formed file: up to so many boxes, up to so many plugs, and perhaps notes anywhere before the end.
pub fn file(g: &mut Generator, most: usize, notes: bool) -> Vec<u8> {
    let counts = [(0x01, 4, g.below(most + 1)), (0x02, 2, g.below(most + 1))];
    let mut bytes = Vec::new();
    for (kind, numbers, count) in counts {
        for _ in 0..count {
            if notes && g.below(3) == 0 {
                bytes.extend(note(g));
            }
            bytes.extend([0x5B, kind]);
            bytes.extend((0..numbers).flat_map(|_| file_number(g).to_be_bytes()));
        }
    }
    if notes && g.below(3) == 0 {
        bytes.extend(note(g));
    }
    bytes.extend([0x5B, 0x00]);
    bytes
}

/// Bytes that are often marks.
pub fn noise(g: &mut Generator) -> Vec<u8> {
    let length = g.below(48);
    (0..length).map(|_| g.one_of(&[0x5B, 0x5C, 0x00, 0x01, 0x02, 0x03, 0xFF])).collect()
}

/// Puts a number beyond the span into a box of a file that starts with one.
pub fn spoil_file(g: &mut Generator, file: &mut [u8]) {
    let at = 2 + 4 * g.below(4);
    file[at..at + 4].copy_from_slice(&beyond(g).to_be_bytes());
}

/// A well-formed file of a length: a box, notes, a plug, end.
pub fn file_of_length(length: usize) -> Vec<u8> {
    let edges = [0, 0, 4, 4].map(i32::to_be_bytes).concat();
    let plug = [2, 2].map(i32::to_be_bytes).concat();
    let mut left = length - 18 - 10 - 2;
    let mut notes = Vec::new();
    while left > 0 {
        // No note is shorter than 3 bytes, so the last one but one leaves none or 3 at least.
        let size = if left <= 258 { left } else { 258.min(left - 3) };
        notes.extend([0x5C, 0x00, (size - 3) as u8]);
        notes.resize(notes.len() + size - 3, 0xEE);
        left -= size;
    }
    [&[0x5B, 0x01], &edges[..], &notes, &[0x5B, 0x02], &plug, &[0x5B, 0x00]].concat()
}
