//! Round B: its polygons, and the verdicts on some plugs with their reasons in words. In this crate's folder:
//!   cargo run --offline --release --example round_b

use feltloquat::{corner_polygons, edges_of, outer_polygon, verdict, BoxEdges, Corner, Point, Reasons, Refusal, Verdict};

const BOXES: [BoxEdges; 4] = [
    BoxEdges { west: 0, south: 0, east: 2, north: 2 },
    BoxEdges { west: 8, south: 0, east: 10, north: 2 },
    BoxEdges { west: 8, south: 8, east: 10, north: 10 },
    BoxEdges { west: 0, south: 8, east: 2, north: 10 },
];

// The last is beyond ±16,000.
const PLUGS: [(i32, i32); 7] = [(5, 5), (3, 3), (2, 5), (0, 0), (10, 5), (11, 5), (16_001, 0)];

fn listed(vertices: &[Point]) -> String {
    vertices.iter().map(Point::to_string).collect::<Vec<_>>().join(", ")
}

fn print_reasons(reasons: &Reasons) {
    let direction = reasons.direction;
    println!(
        "    for the first driver: of the {} corners none is ahead of the plug in the direction ({}, {})",
        direction.corner, direction.east, direction.north
    );
    let entries = reasons.entries.iter().filter(|entry| entry.weight > 0);
    let corners: Vec<String> =
        entries.map(|entry| format!("{} × {} of box {}", entry.weight, entry.corner, entry.box_number)).collect();
    println!("    for the second driver: the plug is the weighted mean of {}", corners.join(", "));
}

fn main() -> Result<(), Refusal> {
    let boxes = edges_of(&BOXES);
    println!("outer polygon: {}", listed(&outer_polygon(boxes)?));
    for (name, polygon) in Corner::ALL.iter().zip(corner_polygons(boxes)?) {
        println!("{name} polygon: {}", listed(&polygon));
    }
    for (east, north) in PLUGS {
        let plug = Point { east, north };
        match verdict(boxes, east, north) {
            Ok(verdict) => {
                println!("plug {plug}: {}", verdict.word());
                if let Verdict::Undecided(reasons) = verdict {
                    print_reasons(&reasons);
                }
            }
            Err(refusal) => println!("plug {plug}: {refusal}"),
        }
    }
    Ok(())
}
